"""Books: entries, balances, balance assertions, marks and repeats, locks: RULES, "Books" to "Locks", and limits."""

import hashlib
from collections import namedtuple

from model.amounts import MAX_QUANTITY, print_amount
from model.entries import entry_of
from model.journals import is_reserved, print_date, read_journal
from model.refusals import Refused, refuse_if

MAX_ENTRIES = 50_000
OWN_MARKS = ("out:", "in:", "close:")

# Numbered from 1 in the order of entry; `transaction` is what it was read from
Entry = namedtuple("Entry", "nr day mark body legs claims transaction")


class Book:
    """A branch: its name, its entries in the order of entry, which of them has a mark, and its lock day."""

    def __init__(self, name):
        self.name, self.locked, self.entries, self.marks, self.turnover = name, None, [], {}, {}

    def copy(self):
        """An independent copy; entries never change."""
        other = Book(self.name)
        other.locked, other.entries = self.locked, list(self.entries)
        other.marks, other.turnover = dict(self.marks), dict(self.turnover)
        return other

    def posted(self, new=()):
        """RULES, "Books": all legs, with their entries and numbers, in order of place; also those of new entries."""
        for entry in sorted([*self.entries, *new], key=lambda entry: entry.day):
            for number, leg in enumerate(entry.legs, 1):
                yield entry, number, leg

    def accounts(self):
        """RULES, "Books": the accounts on which an entry has a leg."""
        return {leg.account for entry in self.entries for leg in entry.legs}

    def balances(self, day):
        """RULES, "Books": each account's balances by commodity through a day."""
        sums = {}
        for entry in self.entries:
            if entry.day <= day:
                for leg in entry.legs:
                    add_leg(sums, leg)
        return sums

    def is_locked(self, day):
        """RULES, "Locks"."""
        return self.locked is not None and day <= self.locked

    def lock(self, day):
        """RULES, "Locks", and the order of `lock`: repeated (False), 35."""
        refuse_if(self.locked is not None and day < self.locked, 35)
        changed, self.locked = self.locked != day, day
        return changed

    def next_entry(self, day, mark, transaction, legs, claims, count=0):
        """RULES, "Books": a new entry behind so many other new ones."""
        return Entry(len(self.entries) + count + 1, day, mark, transaction.body(), legs, claims, transaction)

    def add(self, new, styles):
        """RULES, "Orders": new entries, all or none (23, 28, 29)."""
        refuse_if(len(self.entries) + len(new) > MAX_ENTRIES, 23)
        turnover = dict(self.turnover)
        for entry in new:
            for leg in entry.legs:
                turnover[leg.unit] = turnover.get(leg.unit, 0) + abs(leg.quantity)
        refuse_if(any(moved > MAX_QUANTITY for moved in turnover.values()), 28)
        self.check_claims(new, styles)
        self.turnover = turnover
        self.entries += new
        self.marks.update((entry.mark, entry) for entry in new)

    def check_claims(self, new, styles):
        """RULES, "Balance assertions": all hold, new entries counted; the first failing one by place is named (29)."""
        sums = {}
        for entry, number, leg in self.posted(new):
            add_leg(sums, leg)
            for claim in entry.claims:
                if claim.leg == number:
                    failure = failure_of(claim, leg.account, sums, len(styles))
                    if failure:
                        raise claim_failed(entry, number, failure, styles)


def add_leg(sums, leg):
    """Adds a leg to sums by account and commodity."""
    own = sums.setdefault(leg.account, {})
    own[leg.unit] = own.get(leg.unit, 0) + leg.quantity


def is_inside(name, account):
    """RULES, "Books": the account itself, or a subaccount of it."""
    return name == account or name.startswith(account + ":")


def failure_of(claim, account, sums, units):
    """RULES, "Balance assertions": which commodity is wrong at a claim's place, what is asserted of it and what is
    found; None if the claim holds."""
    if claim.sign.endswith("*"):
        looked_at = [own for name, own in sums.items() if is_inside(name, account)]
    else:
        looked_at = [sums[account]]
    found = [sum(own.get(unit, 0) for own in looked_at) for unit in range(units)]
    if found[claim.unit] != claim.quantity:
        return claim.unit, claim.quantity, found[claim.unit]
    if claim.sign.startswith("=="):
        for unit, quantity in enumerate(found):
            if unit != claim.unit and quantity:
                return unit, 0, quantity
    return None


def claim_failed(entry, number, failure, styles):
    """FORMATS, "Answer lines": a failing assertion."""
    unit, asserted, found = failure
    place = f" at {print_date(entry.day)} entry {entry.nr} leg {number}"
    asserted, found = print_amount(styles[unit], asserted), print_amount(styles[unit], found)
    return Refused(29, None, f"{place}: asserted {asserted}, found {found}")


def mark_of(transaction, body, counts):
    """RULES, "Marks and repeats": a transaction's mark; `counts` has how often its file had each unmarked text."""
    if transaction.mark is not None:
        return transaction.mark
    counts[body] = counts.get(body, 0) + 1
    return f"h-{hashlib.sha256(body.encode()).hexdigest()}-{counts[body]}"


def import_journal(book, text, styles, find_book):
    """RULES, "Orders": `import`; the new and the repeated transactions are counted."""
    transactions = read_journal(text, tuple(styles))
    book = find_book(book)
    balanced = []
    for transaction in transactions:
        try:
            balanced.append(entry_of(transaction, styles))
        except Refused as refused:
            raise Refused(refused.number, transaction.line) from None
    new, held, counts = [], {}, {}
    for transaction, (legs, claims) in zip(transactions, balanced):
        body = transaction.body()
        mark = mark_of(transaction, body, counts)
        earlier = book.marks.get(mark) or held.get(mark)
        if earlier:
            refuse_if(earlier.body != body, 24)
            continue
        refuse_if(mark.startswith(OWN_MARKS), 25)
        refuse_if(any(is_reserved(leg.account) for leg in legs), 26)
        refuse_if(book.is_locked(transaction.day), 27)
        held[mark] = book.next_entry(transaction.day, mark, transaction, legs, claims, len(new))
        new.append(held[mark])
    if new:
        book.add(new, styles)
    return len(new), len(transactions) - len(new)
