"""A journal's text, read and printed: FORMATS, "Lines" to "Headers", "Journal text", "Canonical text"."""

import datetime
import re
from collections import namedtuple
from functools import lru_cache

from model.amounts import BLANKS, print_amount, print_price, read_amount, read_price, read_sample, read_symbol
from model.amounts import size, unit_of
from model.refusals import Refused, refuse_if

Posting = namedtuple("Posting", "status account amount price claim comments")  # claim: sign, commodity, quantity

MAX_TEXT, MAX_LINE, MAX_BODY = 1_048_576, 1_000, 1_000_000
MAX_TRANSACTIONS, MAX_POSTINGS = 5_000, 1_000
MAX_CODE, MAX_DESCRIPTION, MAX_COMMENT, MAX_ACCOUNT = 100, 500, 900, 200
# What is not UTF-8 stands in a text as Python's surrogates (`surrogateescape`).
NOT_TEXT = re.compile("[\x00-\x08\x0a-\x1f\x7f\ud800-\udfff]")
DATE = re.compile(r"([0-9]{4})([-/.])([0-9]{1,2})\2([0-9]{1,2})")
MARK = re.compile(r"bookid:[ \t]*([A-Za-z0-9._:-]{1,100})")
NAME_END = re.compile(r"\t|  ")
QUOTES = re.compile(r'"[^"]*(?:"|$)')
SIGNS = ["==*", "==", "=*", "="]
EPOCH = datetime.date(1970, 1, 1).toordinal()


@lru_cache(maxsize=65536)
def read_date(text):
    """FORMATS, "Dates": days since 1970-01-01, or None."""
    found = DATE.fullmatch(text)
    try:
        return datetime.date(int(found[1]), int(found[3]), int(found[4])).toordinal() - EPOCH if found else None
    except ValueError:
        return None


@lru_cache(maxsize=65536)
def print_date(day):
    """FORMATS, "Dates"."""
    return datetime.date.fromordinal(day + EPOCH).isoformat()


def is_account(name):
    """FORMATS, "Account names": whether a name is well formed."""
    if not name or size(name) > MAX_ACCOUNT or name[0] in "*!([ " or name[-1] == " ":
        return False
    if ";" in name or "  " in name or "\t" in name or NOT_TEXT.search(name):
        return False
    return "" not in name.split(":")


def is_reserved(name):
    """FORMATS, "Account names": `assets:transit` and what is below it."""
    return (name + ":").startswith("assets:transit:")


class Transaction:
    """A transaction as it is written, at the line of its header."""

    def __init__(self, day, status="", code=None, description="", line=None):
        self.line, self.day, self.status, self.code, self.description = line, day, status, code, description
        self.mark, self.comments, self.postings = None, [], []
        self.text = [self.print_header()]  # the lines of its canonical text, without its mark
        self.size = size(self.text[0])

    def print_header(self):
        """FORMATS, "Canonical text", 1."""
        code = "" if self.code is None else f" ({self.code})"
        description = " " + self.description if self.description else ""
        return print_date(self.day) + (" " + self.status if self.status else "") + code + description + "\n"

    def add_line(self, text):
        """RULES, "Limits": adds a line of canonical text (2 if the body is over its limit)."""
        self.size += size(text)
        refuse_if(self.size > MAX_BODY, 2)
        self.text.append(text)

    def add_comment(self, comment):
        """FORMATS, "Journal text": a comment of the transaction, its mark (16), or a comment of the last posting."""
        mark = None if self.postings else MARK.fullmatch(comment)
        if mark:
            refuse_if(self.mark is not None, 16)
            self.mark = mark[1]
            return
        (self.postings[-1].comments if self.postings else self.comments).append(comment)
        self.add_line(f"    ; {comment}\n" if comment else "    ;\n")

    def add_posting(self, posting, styles):
        """FORMATS, "Canonical text", 4."""
        self.postings.append(posting)
        text = "    " + (posting.status + " " if posting.status else "") + posting.account
        if posting.amount:
            text += "  " + print_amount(styles[posting.amount[0]], posting.amount[1])
        if posting.price:
            text += " " + print_price(posting.price, styles)
        if posting.claim:
            sign, unit, quantity = posting.claim
            text += f" {sign} {print_amount(styles[unit], quantity)}"
        self.add_line(text + "\n")

    def body(self):
        """FORMATS, "Canonical text": the text without the mark."""
        return "".join(self.text)


def print_transaction(body, mark):
    """FORMATS, "Canonical text": the mark is the line after the header's."""
    header, _, rest = body.partition("\n")
    return f"{header}\n    ; bookid:{mark}\n{rest}"


def lines_of(text):
    """FORMATS, "Lines": a text is cut at LF, and one CR before it or at the text's end belongs to the end."""
    lines = text.split("\n")
    if not lines[-1]:
        lines.pop()
    return [line[:-1] if line.endswith("\r") else line for line in lines]


def kind_of(line):
    """FORMATS, "Lines": the table of kinds."""
    if not line.strip(BLANKS):
        return "blank"
    if line[0] in ";#*":
        return "comment"
    if line.rstrip(BLANKS) == "comment":
        return "block"
    if line[0] in "0123456789":
        return "header"
    if line[0] in BLANKS:
        return "indented"
    word = re.split("[ \t]", line, 1)[0]
    if word == "commodity":
        return "commodity"
    return "skipped" if word in ("account", "payee", "tag", "P") else "unknown"


def check_text(line):
    """RULES, "Within a line": 1 comes after every limit of what is cut out of the line."""
    refuse_if(NOT_TEXT.search(line), 1)


def read_header(line, count):
    """FORMATS, "Headers", and RULES, "Within a line": the row of a header."""
    text, semicolon, comment = line.partition(";")
    comment = comment.strip(BLANKS)
    date, status, rest = re.match(r"([^ \t]*)[ \t]*([*!]?)[ \t]*(.*)", text, re.S).groups()
    code = None
    is_open = rest.startswith("(") and ")" not in rest
    if rest.startswith("(") and not is_open:
        code, rest = rest[1:].split(")", 1)
    description = "" if is_open else rest.strip(BLANKS)
    refuse_if(count >= MAX_TRANSACTIONS or size(code or "") > MAX_CODE, 2)
    refuse_if(size(description) > MAX_DESCRIPTION or size(comment) > MAX_COMMENT, 2)
    check_text(line)
    day = read_date(date)
    refuse_if(day is None, 3)
    refuse_if(is_open, 4)
    transaction = Transaction(day, status, code, description)
    if semicolon:
        transaction.add_comment(comment)
    return transaction


def cut_amounts(text):
    """FORMATS, "Postings", 3: the texts of an amount, of a price from its `@` on, and of an assertion from its `=` on;
    signs in quotes belong to a symbol."""
    shown = QUOTES.sub(lambda quotes: "x" * len(quotes[0]), text)
    equal = shown.find("=") if "=" in shown else len(text)
    at = shown.find("@", 0, equal)
    at = equal if at < 0 else at
    return text[:at].strip(BLANKS), text[at:equal].strip(BLANKS), text[equal:].strip(BLANKS)


def read_posting(line, count, styles):
    """FORMATS, "Postings", and RULES, "Within a line": the row of a posting line; its comment, or None."""
    text, semicolon, comment = line.partition(";")
    comment = comment.strip(BLANKS)
    refuse_if(count >= MAX_POSTINGS or size(comment) > MAX_COMMENT, 2)
    check_text(line)
    text = text.lstrip(BLANKS)
    status = text[0] if text[:1] in ("*", "!") else ""
    text = text[len(status) :].lstrip(BLANKS)
    end = NAME_END.search(text)
    account, rest = (text[: end.start()], text[end.start() :]) if end else (text, "")
    account = account[:-1] if account.endswith(" ") else account
    refuse_if(account[:1] in ("(", "["), 15)
    refuse_if(not is_account(account), 7)
    amount_text, price_text, claim_text = cut_amounts(rest)
    refuse_if(price_text and not amount_text, 8)
    refuse_if(claim_text and not amount_text, 14)
    amount = read_amount(amount_text, styles) if amount_text else None
    price = read_price(price_text, styles) if price_text else None
    claim = None
    if claim_text:
        sign = next(sign for sign in SIGNS if claim_text.startswith(sign))
        claim = (sign,) + read_amount(claim_text[len(sign) :].lstrip(BLANKS), styles)
    return Posting(status, account, amount, price, claim, []), comment if semicolon else None


def read_commodity(line, styles):
    """FORMATS, "Commodity directives", and RULES, "Within a line": the row of a `commodity` line; its commodity."""
    check_text(line)
    text = line[len("commodity") :].partition(";")[0].strip(BLANKS)
    refuse_if(not text, 5)
    is_sample = re.search("[0-9]", QUOTES.sub("", text))
    sample = read_sample(text) if is_sample else None
    unit = unit_of(styles, sample.symbol if sample else read_symbol(text))
    refuse_if(unit is None, 9)
    refuse_if(sample and not agrees(sample, styles[unit]), 11)
    return unit


def read_format(line, style):
    """FORMATS, "Commodity directives": an indented line below `commodity`, if its first word is `format`."""
    check_text(line)
    word, _, text = re.match(r"([^ \t]*)([ \t]?)(.*)", line.strip(BLANKS), re.S).groups()
    if word == "format":
        sample = read_sample(text.partition(";")[0].strip(BLANKS))
        refuse_if(sample.symbol != style.symbol or not agrees(sample, style), 11)


def agrees(sample, style):
    """FORMATS, "Commodity directives": decimal mark and number of decimals are the declared ones."""
    return (sample.mark, sample.decimals) == (style.mark, style.decimals)


class Reader:
    """What is open after the lines so far: a transaction, a commodity's style, "skipped", "block" or None."""

    def __init__(self, styles):
        self.styles, self.transactions, self.open = styles, [], None

    def take(self, line):
        """FORMATS, "Journal text": one line, after those before it."""
        refuse_if(size(line) > MAX_LINE, 2)
        if self.open == "block":
            check_text(line)
            if line.rstrip(BLANKS) == "end comment":
                self.open = None
            return
        kind = kind_of(line)
        if kind == "indented":
            self.take_indented(line)
            return
        self.open = None
        if kind == "header":
            self.open = read_header(line, len(self.transactions))
            self.transactions.append(self.open)
        elif kind == "commodity":
            self.open = self.styles[read_commodity(line, self.styles)]
        else:
            check_text(line)
            refuse_if(kind == "unknown", 5)
            self.open = kind if kind in ("block", "skipped") else None

    def take_indented(self, line):
        """FORMATS, "Journal text": an indented line belongs to what is open (6 if nothing is)."""
        text = line.lstrip(BLANKS)
        if isinstance(self.open, Transaction):
            self.take_part(line, text)
        elif self.open is None:
            check_text(line)
            refuse_if(text[0] != ";", 6)
        elif self.open == "skipped":
            check_text(line)
        else:
            read_format(line, self.open)

    def take_part(self, line, text):
        """FORMATS, "Journal text", "Comments" and "Postings": a line of a transaction."""
        if text[0] == ";":
            comment = text[1:].strip(BLANKS)
            refuse_if(size(comment) > MAX_COMMENT, 2)
            check_text(line)
            self.open.add_comment(comment)
            return
        posting, comment = read_posting(line, len(self.open.postings), self.styles)
        self.open.add_posting(posting, self.styles)
        if comment is not None:
            self.open.add_comment(comment)


@lru_cache(maxsize=128)
def read_journal(text, styles):
    """RULES, "Orders", "Within a text": the transactions of a text, or the fault of its first faulty line."""
    refuse_if(size(text) > MAX_TEXT, 2, 1)
    reader = Reader(styles)
    for number, line in enumerate(lines_of(text), 1):
        count = len(reader.transactions)
        try:
            reader.take(line)
        except Refused as refused:
            raise Refused(refused.number, number) from None
        if len(reader.transactions) > count:
            reader.open.line = number
    return reader.transactions
