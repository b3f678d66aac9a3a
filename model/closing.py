"""Closing a branch at a day: RULES, "Closing"."""

from model.books import is_inside
from model.entries import Claim, Leg
from model.journals import Posting, Transaction, is_account, is_reserved, print_date
from model.refusals import Repeated, refuse_if

CLOSED_BY_DEFAULT = {b"income", b"incomes", b"revenue", b"revenues", b"expense", b"expenses"}
RETAINED = "equity:retained earnings"
MAX_LIST, MAX_POSTINGS = 880, 1_000


def is_revenue_or_expense(account):
    """RULES, "Closing": by the first part of the name, ignoring ASCII case."""
    return account.split(":", 1)[0].encode().lower() in CLOSED_BY_DEFAULT


def is_selected(account, listed):
    """RULES, "Closing": the selected accounts; `listed` is None without a list."""
    if listed is None:
        return is_revenue_or_expense(account)
    return any(is_inside(account, name) for name in listed)


def close(book, styles, day, accounts, into):
    """RULES, "Orders": `close`, once its branch is found; `accounts` is the text of a list, or None."""
    comments = [f"accounts:{accounts}"] if accounts is not None else []
    comments += [f"into:{into}"] if into is not None else []
    mark = f"close:{print_date(day)}"
    if mark in book.marks:
        refuse_if(book.marks[mark].transaction.comments != comments, 24)
        raise Repeated
    listed = None if accounts is None else accounts.split(";")
    target = RETAINED if into is None else into
    refuse_if(not all(is_account(name) for name in listed or []), 37)
    refuse_if(not is_account(target), 37)
    refuse_if(any(name == "assets" or is_reserved(name) for name in listed or []), 26)
    refuse_if(is_reserved(target), 26)
    refuse_if(is_selected(target, listed), 37)
    refuse_if(len((accounts or "").encode()) > MAX_LIST, 28)
    refuse_if(book.is_locked(day), 27)
    closed, moved = closed_and_moved(book, day, listed, target)
    refuse_if(not closed, 36)
    refuse_if(len(closed) + len(moved) > MAX_POSTINGS, 28)
    enter_closing(book, styles, day, mark, comments, closed, moved)
    book.locked = day


def closed_and_moved(book, day, listed, target):
    """RULES, "Closing": a leg for each selected account and commodity with a balance, and what the target gets."""
    balances = book.balances(day)
    closed, sums = [], {}
    for account in sorted(balances):
        if is_selected(account, listed):
            for unit, quantity in sorted(balances[account].items()):
                if quantity:
                    closed.append(Leg(account, unit, -quantity))
                    sums[unit] = sums.get(unit, 0) + quantity
    return closed, [Leg(target, unit, sums[unit]) for unit in sorted(sums) if sums[unit]]


def enter_closing(book, styles, day, mark, comments, closed, moved):
    """RULES, "Closing": the entry, with an assertion of zero on each closed account (23, 28, 29)."""
    transaction = Transaction(day, "", None, "close")
    for comment in comments:
        transaction.add_comment(comment)
    for leg in closed:
        transaction.add_posting(Posting("", leg.account, leg[1:], None, ("=", leg.unit, 0), []), styles)
    for leg in moved:
        transaction.add_posting(Posting("", leg.account, leg[1:], None, None, []), styles)
    claims = [Claim(number, "=", leg.unit, 0) for number, leg in enumerate(closed, 1)]
    book.add([book.next_entry(day, mark, transaction, closed + moved, claims)], styles)
