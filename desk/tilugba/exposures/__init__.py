"""What would be lost if a party failed: the positive part of what it is to pay.

- `sets`: a table of scenarios, of which a contract gets the rows that it can read, and the calls
  over it.
- `held`: what each pair is worth on a day, in each scenario, by contract.
- `positive`: the exposure to each party: netted or by contract, expected and greatest.
"""
