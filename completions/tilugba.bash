# Completion of tilugba for bash: commands, options, what an option takes, files, and the names that the first file declares.

# made of commands.toml by tools/check-commands
_tilugba_commands='check flows advance payoff value scenarios migrate expand positions settle novate sample'

# Sets how many files a command takes, whether it has settings, and its options, each with what it takes.
_tilugba_command() {
  case $1 in
    check) files=1 ;;
    flows) files=2 options='--until:day --contract:contract --net' ;;
    advance) files=2 options='--to:day' ;;
    payoff) files=1 options='--contract:contract --plain' ;;
    value) files=3 settings=1 options='--at:day --from:party --to:party --asset:asset' ;;
    scenarios) files=3 settings=1 options='--at:day --from:party --to:party --asset:asset --mean:mode' ;;
    migrate) files=1 ;;
    expand) files=1 ;;
    positions) files=2 options='--until:day' ;;
    settle) files=2 options='--until:day' ;;
    novate) files=2 options='--to:day --contract:contract --old:party --new:party' ;;
    sample) files=1 ;;
  esac
}

# Sets what there is for a kind of word: choices, or the word that declares its names.
_tilugba_kind() {
  case $1 in
    contract) declares=contract ;;
    party) declares=party ;;
    asset) declares=asset ;;
    mode) choices='half_even half_away floor ceil' ;;
  esac
}
# end of what is made

# The names that a file declares with a word such as `party`. A statement ends with `;`, and a comment with its line.
_tilugba_declared() {
  [ -f "$2" ] && [ -r "$2" ] || return
  sed 's/#.*//' "$2" | LC_ALL=C awk -v kind="$1" '
    BEGIN { RS = ";" }
    $1 == kind {
      sub(/=.*/, "")
      count = split($0, parts, ",")
      for (i = 1; i <= count; i++) {
        sub(/:.*/, "", parts[i])
        words = split(parts[i], names, " ")
        print names[words]
      }
    }'
}

# What the option takes, of those of the command; nothing for a flag and for no option.
_tilugba_kind_of() {
  local option
  kind=
  for option in $options; do
    [[ $option != "$1:"* ]] || kind=${option#*:}
  done
}

# Offers those of some words that begin with what is typed.
_tilugba_offer() {
  mapfile -t COMPREPLY < <(compgen -W "$1" -- "$2")
}

# Offers what an option of a kind takes.
_tilugba_offer_kind() {
  local choices declares
  _tilugba_kind "$1"
  [ -z "$declares" ] || choices=$(_tilugba_declared "$declares" "$first")
  _tilugba_offer "$choices" "$2"
}

# The options that are not given yet: none may be given twice.
_tilugba_options_left() {
  local option
  for option in $options; do
    [[ " $given " == *" ${option%%:*} "* ]] || printf '%s\n' "${option%%:*}"
  done
}

# Goes through the words between the command and what is typed.
_tilugba_walk() {
  local word
  for word; do
    if [ "$kind" ]; then
      kind=
    elif [[ $word == --* ]]; then
      given+=" ${word%%=*}"
      [[ $word == *=* ]] || _tilugba_kind_of "$word"
    else
      count=$((count + 1))
      [ "$count" -gt 1 ] || first=$word
    fi
  done
  # The name of a file is as it was typed.
  first=${first//[\\\"\']/}
  first=${first/#\~\//$HOME/}
}

# Offers what may follow the files: options, and settings of templates if the command has them.
_tilugba_offer_rest() {
  local names
  _tilugba_offer "$(_tilugba_options_left)" "$1"
  [ "$settings" ] && [[ $1 != -* && $1 != *=* ]] || return
  names=$(_tilugba_declared template "$first")
  [ -z "$names" ] || mapfile -t -O "${#COMPREPLY[@]}" COMPREPLY < <(compgen -S = -W "$names" -- "$1")
  [[ ${COMPREPLY[0]} != *= ]] || compopt -o nospace 2>/dev/null
}

_tilugba() {
  local words=() word typed command joins='' kind='' files='' settings='' options='' given='' first='' count=0
  COMPREPLY=()
  # Readline parts a word at `=`.
  for word in "${COMP_WORDS[@]:1:COMP_CWORD}"; do
    if [ "${#words[@]}" -gt 0 ] && { [ "$word" = = ] || [ "$joins" ]; }; then
      words[-1]+=$word
    else
      words+=("$word")
    fi
    joins=
    [ "$word" != = ] || joins=1
  done
  typed=${words[-1]}
  command=${words[0]}
  if [ "${#words[@]}" -eq 1 ]; then
    _tilugba_offer "$_tilugba_commands" "$typed"
    return
  fi
  _tilugba_command "$command"
  _tilugba_walk "${words[@]:1:${#words[@]}-2}"
  if [ "$kind" ]; then
    _tilugba_offer_kind "$kind" "$typed"
  elif [[ $typed == --*=* ]]; then
    _tilugba_kind_of "${typed%%=*}"
    _tilugba_offer_kind "$kind" "${typed#*=}"
  elif [[ $typed == -* ]] || [ "$count" -ge "${files:-0}" ]; then
    _tilugba_offer_rest "$typed"
  else
    compopt -o filenames 2>/dev/null
    mapfile -t COMPREPLY < <(compgen -f -- "$typed")
  fi
}

complete -F _tilugba tilugba
