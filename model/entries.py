"""From a transaction to its entry: RULES, "From a transaction to its entry"."""

from collections import namedtuple

from model.amounts import MAX_QUANTITY
from model.refusals import refuse_if

Leg = namedtuple("Leg", "account unit quantity")
Claim = namedtuple("Claim", "leg sign unit quantity")  # tied to a leg, which is numbered from 1


def value_of(posting, styles):
    """RULES, "From a transaction to its entry": the value of a posting with an amount: commodity, quantity (12, 13)."""
    unit, quantity = posting.amount
    price = posting.price
    if price is None:
        return unit, quantity
    refuse_if(price.unit == unit, 12)
    sign = (quantity > 0) - (quantity < 0)
    if not price.is_each:
        return price.unit, sign * price.digits
    product = abs(quantity) * price.digits
    scale = 10 ** (styles[unit].decimals + price.decimals - styles[price.unit].decimals)
    refuse_if(product > MAX_QUANTITY * scale, 12)
    refuse_if(product % scale, 13)
    return price.unit, sign * (product // scale)


def conversion_account(styles, own, cost, of):
    """RULES, "From a transaction to its entry": the account of a conversion's leg in the commodity `of`."""
    symbols = sorted([styles[own].symbol, styles[cost].symbol], key=lambda symbol: symbol.encode())
    return f"equity:conversion:{symbols[0]}-{symbols[1]}:{styles[of].symbol}"


def legs_of(posting, value, missing, styles):
    """RULES, "From a transaction to its entry": the legs of a posting; one without an amount takes what is missing."""
    if posting.amount is None:
        return [Leg(posting.account, unit, -missing[unit]) for unit in sorted(missing) if missing[unit]]
    own, quantity = posting.amount
    legs = [Leg(posting.account, own, quantity)]
    if posting.price:
        cost = value[0]
        legs.append(Leg(conversion_account(styles, own, cost, own), own, -quantity))
        legs.append(Leg(conversion_account(styles, own, cost, cost), cost, value[1]))
    return legs


def entry_of(transaction, styles):
    """RULES, "Within a transaction": the legs and claims of a transaction (17, 12, 13, 18, 28)."""
    postings = transaction.postings
    blanks = sum(posting.amount is None for posting in postings)
    refuse_if(blanks > 1, 17)
    values = [value_of(posting, styles) if posting.amount else None for posting in postings]
    sums = {}
    for value in filter(None, values):
        sums[value[0]] = sums.get(value[0], 0) + value[1]
    refuse_if(not blanks and any(sums.values()), 18)
    legs, claims = [], []
    for posting, value in zip(postings, values):
        if posting.claim:
            claims.append(Claim(len(legs) + 1, *posting.claim))
        legs += legs_of(posting, value, sums, styles)
    refuse_if(any(abs(leg.quantity) > MAX_QUANTITY for leg in legs), 28)
    return legs, claims
