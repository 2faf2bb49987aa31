"""The value of code over many courses of its rates: python3 scenarios.py SCHEDULER CODE CURVE TABLE.. prints the sum, exactly."""

import sys

from distributed import Client
from spread import total

QUESTION = ["--at", "0", "--from", "Desk", "--to", "Client", "--asset", "EUR"]


def read(path):
    with open(path, "rb") as file:
        return file.read()


scheduler, code, curve, *tables = sys.argv[1:]
files = {"code": read(code), "curve": read(curve)}
with Client(scheduler) as client:
    print(total(client, ["value", "code", "table", "curve", *QUESTION], [{**files, "table": read(table)} for table in tables]))
