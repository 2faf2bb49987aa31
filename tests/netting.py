"""Net positions, the payments that settle them, and contracts in which a party takes another's place: once more in Python and from
their description alone, so that a built program can be compared with it. Numbers and terms are those of model.py.
"""

import model
from model import Term


def positions(decls, paid):
    """What each party gets of an asset on a day less what it pays, in declared order and without those of 0:
    {(day, asset, party): amount}."""
    sums = {}
    for day, asset, payer, receiver, amount in paid:
        for party, change in ((payer, -amount), (receiver, amount)):
            account = day, decls.assets.index(asset), decls.parties.index(party)
            sums[account] = sums.get(account, 0) + change
    return {account: sums[account] for account in sorted(sums) if sums[account] != 0}


def position_lines(decls, found):
    lines = []
    for (day, asset, party), amount in found.items():
        name = decls.assets[asset]
        mant, rest = divmod(amount, 10 ** (27 - decls.decimals[name]))
        assert rest == 0, "a position of more decimals than its asset has"
        lines.append(f"{model.day_text(decls, day)},{decls.parties[party]},{name},{model.decimal(mant, decls.decimals[name])}\n")
    return "".join(lines)


def settlement(found):
    """The rows of the payments that settle positions, as model.table has them. On each day, in each asset, the first party that still
    owes pays the first that is still owed, and as much as the lesser of both sums."""
    rows = {}
    for on in dict.fromkeys((day, asset) for day, asset, _ in found):
        due = {party: amount for (day, asset, party), amount in found.items() if (day, asset) == on}
        while any(due.values()):
            payer = min(party for party, amount in due.items() if amount < 0)
            payee = min(party for party, amount in due.items() if amount > 0)
            paid = min(-due[payer], due[payee])
            due[payer] += paid
            due[payee] -= paid
            rows[(*on, min(payer, payee), max(payer, payee))] = paid if payer < payee else -paid
    return {key: rows[key] for key in sorted(rows)}


def renamed(c, old, new):
    """The contract with the new party in the place of the old one, whoever of them pays."""
    if c.op == "pay":
        asset, *parties = c.of
        return Term("pay", (asset, *(new if party == old else party for party in parties)))
    return c.with_parts([renamed(part, old, new) for part in c.parts])


def parties_of(c):
    """The parties that a contract names."""
    return set(c.of[1:] if c.op == "pay" else ()).union(*map(parties_of, c.parts))
