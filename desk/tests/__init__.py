"""Tests of the desk: `tests/desk PROGRAM` at the top of the repository runs them by `python3 -m
unittest`.
"""
