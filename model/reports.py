"""The reports: RULES, "Reports"; FORMATS, "Tags" and "Balance report" to "Journal report".

`NAME_report` answers the report NAME: the columns of each line, for a treasury and the keys of the request.
"""

import re

from model.amounts import BLANKS, print_amount, print_sample
from model.books import is_inside
from model.journals import print_date, print_transaction

TAG = re.compile(r"(?:^|(?<=[ \t,]))([A-Za-z0-9_-]+):([^,]*)")
# How the columns of a report stand in its lines, where there are several
LINES = {
    "branches": "{:10}  {:>6}  {}\n",
    "balance": "{:>20}  {}\n",
    "register": "{}  {:>6}  {:>20}  {:>20}  {}  {}\n",
    "transit": "{:>20}  {} to {}\n",
    "transfers": "{}  {:>20}  {:>20}  {} to {}  {}\n",
}


def report_lines(name, rows):
    """FORMATS, "Balance report" to "Journal report": the lines of a report; an empty description has no blanks."""
    lines = [LINES.get(name, "{}\n").format(*row) for row in rows]
    return [line[:-3] + "\n" if name == "register" and not row[-1] else line for line, row in zip(lines, rows)]


def tags(comment):
    """FORMATS, "Tags"."""
    return [(found[1], found[2].strip(BLANKS)) for found in TAG.finditer(comment)]


def has_tag(transaction, tag):
    """FORMATS, "Register report": the tag asked for, `NAME` or `NAME=VALUE`, in a comment of the transaction."""
    asked, equal, value = tag.partition("=")
    comments = transaction.comments + [comment for posting in transaction.postings for comment in posting.comments]
    return any(
        name == asked and (not equal or found == value) for comment in comments for name, found in tags(comment)
    )


def branches_report(treasury, _):
    """FORMATS, "Branches report"."""
    return [
        ("" if book.locked is None else print_date(book.locked), str(len(book.entries)), book.name)
        for book in treasury.books.values()
    ]


def commodities_report(treasury, _):
    """FORMATS, "Commodities report"."""
    return [(print_sample(style),) for style in treasury.styles]


def accounts_report(treasury, keys):
    """FORMATS, "Accounts report"."""
    return [(account,) for account in sorted(treasury.find_book(keys["branch"]).accounts())]


def balance_report(treasury, keys):
    """FORMATS, "Balance report"."""
    balances = treasury.find_book(keys["branch"]).balances(keys["day"])
    return [
        (print_amount(treasury.styles[unit], quantity), account)
        for account in sorted(balances)
        for unit, quantity in sorted(balances[account].items())
        if quantity
    ]


def register_report(treasury, keys):
    """FORMATS, "Register report"."""
    rows, sums, tag, first = [], {}, keys.get("tag"), keys.get("from")
    for entry, _, leg in treasury.find_book(keys["branch"]).posted():
        if is_inside(leg.account, keys["account"]) and (tag is None or has_tag(entry.transaction, tag)):
            sums[leg.unit] = sums.get(leg.unit, 0) + leg.quantity
            style, description = treasury.styles[leg.unit], entry.transaction.description
            amount, total = (print_amount(style, quantity) for quantity in (leg.quantity, sums[leg.unit]))
            if first is None or first <= entry.day:
                rows.append((print_date(entry.day), str(entry.nr), amount, total, leg.account, description))
    return rows


def transit_report(treasury, keys):
    """FORMATS, "Transit report"."""
    sums = {}
    for held in treasury.transfers.values():
        if held.day <= keys["day"]:
            row = (held.source, held.target, held.amount[0])
            sums[row] = sums.get(row, 0) + held.open_through(keys["day"])
    return [
        (print_amount(treasury.styles[unit], sums[source, target, unit]), source, target)
        for source, target, unit in sorted(sums)
    ]


def transfers_report(treasury, keys):
    """FORMATS, "Transfers report"."""
    rows = []
    for key, held in sorted(treasury.transfers.items()):
        unit, quantity = held.amount
        left_open = held.open_through(keys["day"])
        if left_open:
            amount, rest = (print_amount(treasury.styles[unit], it) for it in (quantity, left_open))
            rows.append((print_date(held.day), amount, rest, held.source, held.target, key))
    return rows


def journal_report(treasury, keys):
    """FORMATS, "Journal report"."""
    entries = treasury.find_book(keys["branch"]).entries
    return [(print_transaction(entry.body, entry.mark),) for entry in entries]
