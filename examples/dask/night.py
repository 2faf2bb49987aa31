"""The flows of many books: python3 night.py SCHEDULER TABLE BOOK.. prints their lines in the order of the books.

A book that has none is named with its status and its fault. The run ends with 1 if there is one, and else with 0.
"""

import sys

from distributed import Client
from spread import answers


def read(path):
    with open(path, "rb") as file:
        return file.read()


scheduler, table, *books = sys.argv[1:]
fixings = read(table)
with Client(scheduler) as client:
    results = answers(client, ["flows", "book", "fixings"], [{"book": read(book), "fixings": fixings} for book in books])
for book, (status, output) in zip(books, results):
    if status == 0:
        sys.stdout.buffer.write(output)
    else:
        print(f"{book}: status {status} {output.decode(errors='replace').strip()}", file=sys.stderr)
sys.exit(any(status != 0 for status, _ in results))
