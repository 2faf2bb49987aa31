"""Trades by the names of the ACTUS dictionary (https://www.actusfrf.org), turned into rows.

`trades` reads a file of them, `schedules` asks QuantLib for dates and parts of a year, `deals` has
what all kinds share, and `loans`, `swaps` and `options` say what each kind pays.
"""
