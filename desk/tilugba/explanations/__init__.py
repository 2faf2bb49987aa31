"""What a fault means: the place, what stands there and what may stand there, the rule in words and
numbers, and a cure.

`explain` in `explaining` takes the words of a run and its answer. The modules beside it know one
cause each.
"""
