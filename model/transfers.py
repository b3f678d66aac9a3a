"""Money from branch to branch: RULES, "Transfers"."""

import re

from model.entries import Leg
from model.journals import Posting, Transaction, is_account, is_reserved
from model.refusals import Repeated, refuse_if

IS_ID = re.compile(r"[A-Za-z0-9._-]{1,64}")
IS_KEY = re.compile(r"[A-Za-z0-9._-]{1,32}")
ALL = "all"


class Transfer:
    """A dispatch, and its receipts by key: day, account and quantity of each."""

    def __init__(self, source, target, day, amount, account, receipts=()):
        self.source, self.target, self.day, self.amount, self.account = source, target, day, amount, account
        self.receipts = dict(receipts)

    def copy(self):
        """An independent copy."""
        return Transfer(self.source, self.target, self.day, self.amount, self.account, self.receipts)

    def parts(self):
        """RULES, "Transfers": the keys of its receipts, but for that of all that is left."""
        return sorted(self.receipts.keys() - {ALL})

    def left(self):
        """RULES, "Transfers": the amount minus all receipts, whatever their day."""
        return self.amount[1] - sum(quantity for _, _, quantity in self.receipts.values())

    def open_through(self, day):
        """RULES, "Transfers": what was dispatched through a day, minus what was received of it through that day."""
        dispatched = self.amount[1] if self.day <= day else 0
        return dispatched - sum(quantity for received, _, quantity in self.receipts.values() if received <= day)


def transit_account(source, target):
    """RULES, "Transfers": the account of what is on its way."""
    return f"assets:transit:{source}:{target}"


def enter(book, styles, mark, day, description, legs):
    """RULES, "Transfers": enters what the treasury makes by itself: a header and its legs (23, 28, 29)."""
    transaction = Transaction(day, "", None, description)
    for leg in legs:
        transaction.add_posting(Posting("", leg.account, (leg.unit, leg.quantity), None, None, []), styles)
    book.add([book.next_entry(day, mark, transaction, legs, [])], styles)


def dispatch(transfers, styles, find_book, key, source, target, day, amount, account):
    """RULES, "Orders": `dispatch`, once its amount is read."""
    payer = find_book(source)
    find_book(target)
    refuse_if(source == target, 30)
    refuse_if(not IS_ID.fullmatch(key), 39)
    held = transfers.get(key)
    if held:
        same = (held.source, held.target, held.day, held.amount, held.account) == (source, target, day, amount, account)
        refuse_if(not same, 24)
        raise Repeated
    refuse_if(not is_account(account), 37)
    refuse_if(is_reserved(account), 26)
    refuse_if(amount[1] <= 0, 38)
    refuse_if(payer.is_locked(day), 27)
    legs = [Leg(transit_account(source, target), *amount), Leg(account, amount[0], -amount[1])]
    enter(payer, styles, f"out:{key}", day, f"transfer {key} to {target}", legs)
    transfers[key] = Transfer(source, target, day, amount, account)


def receive(transfers, styles, find_book, key, target, day, account, part, amount):
    """RULES, "Orders": `receive`, once the amount of a part is read; `part` and `amount` are None if it is of all."""
    book = find_book(target)
    refuse_if(not IS_ID.fullmatch(key), 39)
    refuse_if(part is not None and (part == ALL or not IS_KEY.fullmatch(part)), 39)
    refuse_if(key not in transfers, 31)
    held = transfers[key]
    refuse_if(held.target != target, 32)
    unit, left = held.amount[0], held.left()
    receipt = held.receipts.get(ALL if part is None else part)
    if receipt:
        same = receipt[:2] == (day, account) and (part is None or amount == (unit, receipt[2]))
        refuse_if(not same, 33)
        raise Repeated
    refuse_if(part is None and left == 0, 33)
    refuse_if(not is_account(account), 37)
    refuse_if(is_reserved(account), 26)
    if part is None:
        amount = (unit, left)
    refuse_if(amount[1] <= 0, 38)
    refuse_if(amount[0] != unit or amount[1] > left, 47)
    refuse_if(day < held.day, 34)
    refuse_if(book.is_locked(day), 27)
    legs = [Leg(account, *amount), Leg(transit_account(held.source, target), unit, -amount[1])]
    mark, header = f"in:{key}", f"transfer {key} from {held.source}"
    if part is not None:
        mark, header = f"{mark}:{part}", f"{header} part {part}"
    enter(book, styles, mark, day, header, legs)
    held.receipts[ALL if part is None else part] = (day, account, amount[1])
