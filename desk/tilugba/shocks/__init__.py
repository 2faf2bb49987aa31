"""Sets of scenarios out of what was observed: rates that are moved by steps, or as they once moved.

- `steps`: how much a rate is moved, and what a scenario is called by it.
- `moves`: for each scenario how each label is moved: label by label, all at once, or as in a table.
- `shocked`: the rows of the set, rounded to the decimals of their label and within its bounds.
"""
