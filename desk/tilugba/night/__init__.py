"""A night run: one command on each of many books, with a result or a fault of each in a folder.

- `books`: the words that are asked for, and the books with theirs.
- `sums`: checksums of files.
- `folder`: the folder of the results, which one run has at a time.
- `running`: the runs themselves, the second tries, and the end by a signal.
"""
