"""A book as one page of HTML, which asks no other host for anything and can be printed.

- `facts`: what the program says of each contract: verdict, payments, what it waits for, what is
  left of it, what it is worth.
- `periods`: payments by month and party.
- `html`: elements of a page as text.
- `sections`: the parts of the page.
- `page`: the whole of it, with how it looks on a screen, on a telephone and on paper.
"""
