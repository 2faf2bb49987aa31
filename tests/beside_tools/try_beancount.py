"""beancount on flow lines: its sums are those of the lines."""

import csv
import os
import sys
import tempfile

import bench
from ledger import falsified, positions, some_flows, split

QUERY = "select account, currency, sum(number) group by account, currency"


def sums(text):
    """What beancount says of the accounts, as `positions` does."""
    bench.write(text, "flows.csv")
    awk = os.path.join(bench.EXAMPLES, "hledger", "beancount.awk")
    bench.write(bench.run("awk", "-F", ",", "-f", awk, "flows.csv")[1], "flows.beancount")
    status, table, said = bench.run("bean-query", "-f", "csv", "flows.beancount", QUERY)
    if status != 0:
        return said
    rows = [[cell.strip() for cell in row] for row in csv.reader(table.splitlines())][1:]
    cents = [(account.partition(":")[2], asset, int(number.replace(".", ""))) for account, asset, number in rows]
    return {(account, asset): amount for account, asset, amount in cents if amount}


def main():
    own, program = bench.Bench(), sys.argv[1]
    with tempfile.TemporaryDirectory() as room:
        os.chdir(room)
        flows, book, _ = some_flows(program)
        own.same("the flow lines of the random book", book.lines(), flows["random"])
        for name, text in flows.items():
            want = positions(split(text), 2)
            own.same(f"beancount, {name}", want, sums(text))
            for wrong in falsified(text):
                own.judge(sums(wrong) != want, f"beancount, {name}: a falsified line is not noticed")
        text = flows["treasury_flows"].replace(",A,", ",A_1,").replace(",EUR,", ",eur_1,")
        want = {(account.replace("A", "A-1"), asset.replace("EUR", "EUR-1")): cents for (account, asset), cents in
                positions(split(flows["treasury_flows"]), 2).items()}
        own.same("beancount, names with `_` and of small letters", want, sums(text))
        os.chdir("/")
    own.end()


main()
