"""A book from day to day: deals that come, change and go, books that are joined, corrections.

Texts are cut, joined and moved here, with their comments. What is due, what is left and whether a
contract is accepted the program says.
"""
