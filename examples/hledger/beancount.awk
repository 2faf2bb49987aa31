# Flow lines, and lines of corrections, as a journal of beancount: awk -F , -f beancount.awk flows.csv > flows.beancount
BEGIN { print "plugin \"beancount.plugins.auto_accounts\"" }
{
  # A line of a correction has a word before it; what is gone is taken back.
  sign = "-"
  if (NF == 7) {
    if ($1 == "gone") sign = ""
    sub("^[^,]*,", "")
  }
  # No name of beancount has a `_`, and assets are in capitals.
  gsub("_", "-", $3)
  gsub("_", "-", $4)
  asset = toupper($5)
  gsub("_", "-", asset)
  printf "\n%s * \"%s\"\n  Equity:%s:%s %s%s %s\n  Equity:%s:%s %s%s %s\n", $2, $1, $3, $4, sign, $6, asset, $4, $3, sign ? "" : "-", $6, asset
}
