"""The tables of a file: FORMATS, "Tables"."""

from model.transfers import ALL

KINDS = {"=": 1, "==": 2, "=*": 3, "==*": 4}


def rows(treasury):
    """FORMATS, "Tables": the rows of each table, in the order of its key."""
    numbers = {name: number for number, name in enumerate(treasury.books)}
    entries = [(numbers[book.name], entry) for book in treasury.books.values() for entry in book.entries]
    return {
        "format": [(2,)],
        "unit": [(unit, *style[:3], *map(int, style[3:])) for unit, style in enumerate(treasury.styles)],
        "branch": [(numbers[book.name], book.name, book.locked) for book in treasury.books.values()],
        "entry": [(number, entry.nr, entry.day, entry.mark, entry.body) for number, entry in entries],
        "leg": [(number, entry.nr, nr, *leg) for number, entry in entries for nr, leg in enumerate(entry.legs, 1)],
        "claim": [
            (number, entry.nr, claim.leg, KINDS[claim.sign], claim.unit, claim.quantity)
            for number, entry in entries
            for claim in entry.claims
        ],
        "transfer": [transfer_row(key, treasury.transfers[key], numbers) for key in sorted(treasury.transfers)],
        "receipt": [row for key in sorted(treasury.transfers) for row in receipt_rows(key, treasury.transfers[key])],
    }


def transfer_row(key, transfer, numbers):
    """FORMATS, "Tables": a transfer, with its receipt under the key `all`."""
    day, account, _ = transfer.receipts.get(ALL, (None, None, None))
    branches = (numbers[transfer.source], numbers[transfer.target])
    return (key, *branches, *transfer.amount, transfer.day, transfer.account, day, account)


def receipt_rows(key, transfer):
    """FORMATS, "Tables": the receipts under other keys."""
    receipts = [(part, *transfer.receipts[part]) for part in transfer.parts()]
    return [(key, part, quantity, day, account) for part, day, account, quantity in receipts]
