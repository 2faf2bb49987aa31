"""Texts: tokens, one parser of the four grammars (portfolios of versions 1 and 2, payoff code,
schedules), trees with places.

`Reading` reads a text and has its first fault, as the program tells it, with what may stand at the
place.
"""
