"""Commodities, samples, amounts and prices, as they are read and printed: FORMATS, "Amounts" to "Prices"."""

import re
from collections import namedtuple
from functools import lru_cache

from model.refusals import Refused, Repeated, refuse_if

# A declared commodity: its symbol without quotes, its decimal mark, and how else its amounts are written
Style = namedtuple("Style", "symbol decimals mark grouped left spaced")
# A cost: `is_each` or in total, the commodity's number, and digits that have so many decimals
Price = namedtuple("Price", "is_each unit digits decimals")

MAX_QUANTITY = 10**16  # also of one leg, of the turnover, and of a cost
MAX_DECIMALS = 6
MAX_COST_DECIMALS, MAX_COST_DIGITS = 12, 10**15
MAX_SYMBOL = 24
BLANKS = " \t"
# White space beyond ASCII, as Unicode has it (DECISIONS, 13)
WHITE_SPACE = "\u0085\u00a0\u1680\u2000-\u200a\u2028\u2029\u202f\u205f\u3000"
BARE = rf"(?:[A-Za-z$]|[^\x00-\x7f{WHITE_SPACE}])+"
QUOTED = r'"[^":;\x00-\x1f\x7f]*"'
SYMBOL = rf"({BARE}|{QUOTED})"
IS_BARE = re.compile(BARE)
IS_SYMBOL = re.compile(SYMBOL)
SYMBOL_FIRST = re.compile(rf"(?:([-+])[ \t]*)?{SYMBOL}([ \t]*)([-+]?)[ \t]*([0-9.,]+)")
NUMBER_FIRST = re.compile(rf"(?:([-+])[ \t]*)?([0-9.,]+)([ \t]*){SYMBOL}")


# FORMATS, "Amounts": the group mark under each decimal mark, and a number as its whole part and its fraction
GROUP = {".": ",", ",": "."}
NUMBERS = {mark: re.compile(f"([0-9](?:[{GROUP[mark]}]?[0-9])*)?(?:[{mark}]([0-9]*))?") for mark in GROUP}


def size(text):
    """The bytes of a text."""
    return len(text) if text.isascii() else len(text.encode("utf-8", "surrogateescape"))


def number_parts(number, mark):
    """FORMATS, "Amounts": the whole part and the fraction of a number, without group marks; None if it is none."""
    found = NUMBERS[mark].fullmatch(number)
    if not found or not (found[1] or found[2]):
        return None
    return re.sub("[.,]", "", found[1] or ""), found[2] or ""


def up_to(digits, limit):
    """A whole number from its digits; one over the limit is the limit and one."""
    digits = digits.lstrip("0")
    return limit + 1 if len(digits) > len(str(limit)) else min(int(digits or "0"), limit + 1)


@lru_cache(maxsize=4096)
def read_symbol(text):
    """FORMATS, "Amounts": the symbol that a text writes, without quotes (8)."""
    refuse_if(not IS_SYMBOL.fullmatch(text), 8)
    symbol = text[1:-1] if text[0] == '"' else text
    refuse_if(not 1 <= size(symbol) <= MAX_SYMBOL or "  " in symbol or symbol != symbol.strip(" "), 8)
    return symbol


@lru_cache(maxsize=65536)
def amount_form(text):
    """FORMATS, "Amounts": sign, symbol and number in one of the three forms, the side of the symbol, and whether
    blanks stand between the two (8)."""
    found = SYMBOL_FIRST.fullmatch(text)
    if found:
        first, symbol, blanks, second, number = found.groups()
        refuse_if(first and second, 8)
        return first or second, read_symbol(symbol), number, True, bool(blanks)
    found = NUMBER_FIRST.fullmatch(text)
    refuse_if(not found, 8)
    sign, number, blanks, symbol = found.groups()
    return sign, read_symbol(symbol), number, False, bool(blanks)


def unit_of(styles, symbol):
    """The number of a declared commodity, or None."""
    return next((unit for unit, style in enumerate(styles) if style.symbol == symbol), None)


def read_parts(text, styles):
    """FORMATS, "Amounts": whether an amount is negative, its commodity, whole part and fraction (8 for its form, 9)."""
    sign, symbol, number, _, _ = amount_form(text)
    unit = unit_of(styles, symbol)
    if unit is None:
        # The form is right if it is right with either mark.
        raise Refused(9 if number_parts(number, ".") or number_parts(number, ",") else 8)
    parts = number_parts(number, styles[unit].mark)
    refuse_if(parts is None, 8)
    return sign == "-", unit, parts[0], parts[1]


def read_amount(text, styles):
    """RULES, "Within an amount": an amount's commodity and quantity (8 for the form, 9, 10, 8 for the size)."""
    negative, unit, whole, fraction = read_parts(text, styles)
    decimals = styles[unit].decimals
    refuse_if(fraction[decimals:].strip("0"), 10)
    quantity = up_to(whole + fraction[:decimals].ljust(decimals, "0"), MAX_QUANTITY)
    refuse_if(quantity > MAX_QUANTITY, 8)
    return unit, -quantity if negative else quantity


def read_sample(text):
    """FORMATS, "Samples": the style that a sample shows (8)."""
    sign, symbol, number, left, spaced = amount_form(text)
    mark = max(".,", key=number.rfind)
    refuse_if(sign or mark not in number, 8)
    parts = number_parts(number, mark)
    refuse_if(parts is None or len(parts[1]) > MAX_DECIMALS, 8)
    refuse_if(up_to(parts[0] + parts[1], MAX_QUANTITY) > MAX_QUANTITY, 8)
    return Style(symbol, len(parts[1]), mark, GROUP[mark] in number, left, spaced)


def read_price(text, styles):
    """FORMATS, "Prices": the price that a text from its `@` on writes (8, 9, and 12 for every fault of its value)."""
    is_each = not text.startswith("@@")
    negative, unit, whole, fraction = read_parts(text[1 if is_each else 2 :].lstrip(BLANKS), styles)
    declared = styles[unit].decimals
    fraction = fraction.rstrip("0").ljust(declared, "0")
    refuse_if(len(fraction) > (MAX_COST_DECIMALS if is_each else declared), 12)
    limit = MAX_COST_DIGITS if is_each else MAX_QUANTITY
    digits = up_to(whole + fraction, limit)
    refuse_if(digits > limit or (negative and digits), 12)
    return Price(is_each, unit, digits, len(fraction))


def print_with_symbol(style, number):
    """FORMATS, "Canonical text" of an amount: the number and the symbol, which is in quotes if it could not be bare."""
    symbol, space = style.symbol, " " if style.spaced else ""
    symbol = symbol if IS_BARE.fullmatch(symbol) else f'"{symbol}"'
    return symbol + space + number if style.left else number + space + symbol


@lru_cache(maxsize=65536)
def print_amount(style, quantity, decimals=None):
    """FORMATS, "Amounts", "Canonical text"; a unit cost has decimals of its own."""
    decimals = style.decimals if decimals is None else decimals
    digits = str(abs(quantity)).rjust(decimals + 1, "0")
    whole, fraction = digits[: len(digits) - decimals], digits[len(digits) - decimals :]
    grouped = f"{int(whole):,}".replace(",", GROUP[style.mark]) if style.grouped else whole
    mark = style.mark if decimals or grouped != whole else ""
    return print_with_symbol(style, ("-" if quantity < 0 else "") + grouped + mark + fraction)


def print_sample(style):
    """FORMATS, "Commodities report": a thousand in a style, with the decimal mark also if there are no decimals."""
    thousand = f"1{GROUP[style.mark]}000" if style.grouped else "1000"
    return print_with_symbol(style, thousand + style.mark + "0" * style.decimals)


def print_price(price, styles):
    """FORMATS, "Prices": the canonical text of a price."""
    return ("@ " if price.is_each else "@@ ") + print_amount(styles[price.unit], price.digits, price.decimals)


def declare_commodity(styles, sample):
    """RULES, "Commodities", and the order of `commodity`: (8), repeated, 22, 23."""
    style = read_sample(sample)
    if style in styles:
        raise Repeated
    refuse_if(unit_of(styles, style.symbol) is not None, 22)
    refuse_if(len(styles) >= 16, 23)
    styles.append(style)
