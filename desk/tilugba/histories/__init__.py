"""What a book was, or would be, worth day by day.

- `deals`: the contracts of a book, with the pairs and assets of their payments, and what they
  may read.
- `rates`: fixings as they were known on a day, and curves; of both only the rows that a deal can
  read.
- `asked`: what is asked of each contract on each day, and what to do about a fault.
- `valuing`: values over rates as they were known on each day.
- `sums`: by contract, by pair, by party.
"""
