"""Payments of a table as a portfolio.

`fields` reads a record, `payments` says what a record pays, `books` writes the contracts.
"""
