"""Texts at random, right and faulty ones: docs/FORMATS.md says which is which. A unit is a row of the table `unit`."""

import datetime
import json
import os
import re

HERE = os.path.dirname(os.path.abspath(__file__))
TOP = os.path.dirname(HERE)
# The characters at the borders of what UTF-8 writes in one to four bytes, and bytes that are not UTF-8
EDGES = "\u0080\u07ff\u0800\ud7ff\ue000\uffff\U00010000\U0010ffff"
NOT_UTF8 = "80 c080 c1bf e08080 e09fbf eda080 edbfbf f08fbfbf f4908080 f5808080 ff e282 f09f98".split()
NAME = re.compile(r"<([a-z]+|[^ <>=]{1,5}(?=\*))(?:\*(\d+))?>")
STATUSES = ("", "", "", "* ", "! ", "*", "!")


def read_lines(name):
    """The lines of a file of texts, by their titles; those before the first title are remarks."""
    with open(os.path.join(HERE, name), encoding="utf-8") as file:
        parts = re.split("^== ([a-z_]+).*\n", file.read(), flags=re.M)[1:]
    return {title: lines.rstrip("\n").split("\n") for title, lines in zip(parts[::2], parts[1::2])}


def shown(text):
    """A text with what its escapes stand for."""
    return re.sub(r"\\(?:x[0-9a-f]{2}|u[0-9a-f]{4}|.)", lambda it: it[0].encode().decode("unicode_escape"), text)


STORIES, LIMITS = read_lines("stories"), [line.split(" | ") for line in read_lines("limits")["limits"]]
ODD = {title: [shown(text) for text in texts] for title, texts in read_lines("odd_texts").items()}


def fill(rng, size):
    """A text of that many bytes in UTF-8, without blanks, colons and semicolons."""
    signs = rng.choices("xyz07é" + EDGES, k=size // 4 + 1)
    text = "".join(signs[: size // 4])
    return text + "x" * (size - len(text.encode()))


def odd(rng, title, by=0, **parts):
    """One of the odd texts of a title, or another text, with what its names stand for; their numbers grow by `by`."""

    def part(found):
        name, size = found[1], int(found[2]) + by if found[2] else 1
        if name in ("fill", "headers"):
            return fill(rng, size) if name == "fill" else "\r\n".join(f"a{n}: b" for n in range(size))
        if name == "bytes":
            return bytes.fromhex(rng.choice(NOT_UTF8)).decode("utf-8", "surrogateescape")
        return parts.get(name, {"z": "0", "edges": EDGES}.get(name, name)) * size

    return NAME.sub(part, rng.choice(ODD[title]) if title in ODD else title)


def day_text(rng, day):
    """A day since 1970-01-01 as a date in one of its forms."""
    date = datetime.date.fromordinal(max(1, min(3652059, day + 719163)))
    if rng.random() < 0.7:
        return date.isoformat()
    mark, form = rng.choice("-/."), rng.choice(("{:02d}", "{}"))
    return f"{date.year:04d}{mark}{form.format(date.month)}{mark}{rng.choice((form, '{:02d}')).format(date.day)}"


def number(rng, quantity, decimals, mark, fancy=True):
    """A number of so many smallest units that is not negative, in one of its spellings."""
    digits = f"{quantity:0{decimals + 1}d}"
    whole, fraction = digits[: len(digits) - decimals], digits[len(digits) - decimals :]
    if not fancy:
        return whole + (mark + fraction if decimals else "")
    whole = "0" * rng.choice((0, 0, 0, 1, 3)) + whole
    if rng.random() < 0.3:
        group, last = "," if mark == "." else ".", len(whole) - 1
        whole = "".join(sign + (group if rng.random() < 0.3 and at < last else "") for at, sign in enumerate(whole))
    fraction = fraction.rstrip("0") if rng.random() < 0.4 else fraction + "0" * rng.choice((0, 0, 0, 2))
    if not whole.strip("0") and fraction and rng.random() < 0.5:
        whole = ""
    return whole + (mark + fraction if fraction or rng.random() < 0.2 else "")


def symbol_text(rng, symbol):
    """A symbol, in quotes where it needs them, and now and then where it does not."""
    bare = re.fullmatch(r"(?:[A-Za-z$]|[^\x00-\x7f\s])+", symbol)
    return symbol if bare and rng.random() < 0.9 else f'"{symbol}"'


def joined(rng, minus, digits, symbol):
    """An amount of sign, number and symbol in one of the three forms."""
    blank = rng.choice(("", "", " ", " ", "  ", "\t"))
    sign = "-" if minus else rng.choice(("", "", "", "+"))
    inner = rng.choice(("", "", blank))
    if rng.random() < 0.5:
        return (sign + inner if sign or rng.random() < 0.02 else "") + digits + blank + symbol
    return sign + symbol + blank + digits if rng.random() < 0.5 else symbol + blank + sign + inner + digits


def amount(rng, unit, quantity):
    """A quantity of a unit in one of its spellings."""
    digits = number(rng, abs(quantity), unit[2], unit[3])
    return joined(rng, quantity < 0 or quantity == 0 and rng.random() < 0.1, digits, symbol_text(rng, unit[1]))


def names_of(rng, unit):
    """What the names in odd amounts and prices stand for."""
    names = {"symbol": symbol_text(rng, unit[1]), "mark": unit[3], "group": "," if unit[3] == "." else "."}
    return {**names, "zeros": "0" * unit[2], "large": "1" + "0" * (15 - unit[2])}


def bad_amount(rng, unit):
    """An amount that is refused with 8, 9 or 10, or with two of them, of which one comes first."""
    return odd(rng, "amounts", **names_of(rng, unit))


def price(rng, units, unit):
    """A cost of an amount: mostly in another commodity, but also anything else that 8, 9, 12 and 13 refuse."""
    blank, other = rng.choice((" ", "", "\t ")), rng.choice([row for row in units if row[0] != unit[0]] or [unit])
    chance = rng.random()
    if chance < 0.4:
        return "@@" + blank + amount(rng, other, rng.choice((0, 1, 135, rng.randrange(10**6))))
    if chance < 0.8:
        digits = rng.choice((0, 1, 5, 135, 13456, 5 * 10**7, 10**15, 10**15 - 1, rng.randrange(10**5)))
        decimals = rng.choice((other[2], other[2], min(12, other[2] + rng.randrange(1, 4)), rng.randrange(13)))
        symbol = symbol_text(rng, other[1])
        return "@" + blank + joined(rng, False, number(rng, digits, decimals, other[3]), symbol)
    return odd(rng, "prices", own=symbol_text(rng, unit[1]), **names_of(rng, other))


def header(rng, day, faulty=0.0):
    """A header in one of its forms; each part is faulty with that chance."""
    date = odd(rng, "bad_dates") if rng.random() < faulty else day_text(rng, day)
    code = odd(rng, "bad_codes") if rng.random() < faulty else odd(rng, "codes")
    comment = "" if rng.random() < 0.7 else rng.choice((" ;", ";", " ; ")) + odd(rng, "comments")
    end = odd(rng, "bad_ends") if rng.random() < faulty else odd(rng, "descriptions") + comment
    return date + rng.choice((" ", "  ", "\t")) + rng.choice(STATUSES) + code + rng.choice(("", " ")) + end


def posting(rng, account, amount_text="", price_text="", claim="", comment=None):
    """The line of a posting."""
    line = rng.choice(("    ", " ", "\t", "  ")) + rng.choice(STATUSES) + account
    if amount_text or price_text or claim:
        line += rng.choice(("  ", "  ", "   ", "\t", " \t")) + amount_text
        line += rng.choice((" ", "", "  ")) + price_text if price_text else ""
        line += rng.choice((" ", "", "\t")) + claim if claim else ""
    return line + rng.choice(("", "", " ", "  ")) + (";" + comment if comment is not None else "")


def odd_posting(rng, units):
    """The line of a posting each of whose parts may be faulty: the first fault is named."""
    unit, quantity, pick, claim, comment = rng.choice(units), rng.choice((100, -5, 0)), rng.random, "", None
    name = odd(rng, "bad_accounts" if pick() < 0.3 else "accounts")
    value = "" if pick() < 0.2 else bad_amount(rng, unit) if pick() < 0.3 else amount(rng, unit, quantity)
    cost = price(rng, units, unit) if pick() < 0.4 else ""
    if pick() < 0.4:
        claim = rng.choice(("=", "==", "=*", "==*")) + rng.choice(("", " "))
        claim += bad_amount(rng, unit) if pick() < 0.5 else amount(rng, unit, quantity)
    if pick() < 0.4:
        comment = rng.choice((odd(rng, "comments"), odd(rng, "comments"), odd(rng, "bad_ends"), fill(rng, 900)))
    return posting(rng, name, value, cost, claim, comment)


def odd_line(rng, units):
    """A line, or a few, that a journal may not have, or may have anywhere, or only in some places."""
    unit = rng.choice(units)
    names, change = names_of(rng, unit), str.maketrans(".,", ",.")
    style = number(rng, 0, unit[2], unit[3], False) + ("" if unit[2] else unit[3]) + " " + names["symbol"]
    names.update(style=style, finer="0" + unit[3] + names["zeros"] + "0 " + names["symbol"])
    names.update(other=style.translate(change), posting=odd_posting(rng, units), header=header(rng, 19800, 0.3))
    return odd(rng, "lines", **names)


def spelled(rng, request):
    """A request as a line of JSON, in one of its spellings."""
    if rng.random() < 0.2:
        request = dict(rng.sample(list(request.items()), len(request)))
    text, chance = json.dumps(request, ensure_ascii=False), rng.random()
    if re.search("[\udc80-\udcff]", text):
        return text.encode("utf-8", "surrogateescape")
    if chance < 0.1:
        text = json.dumps(request, ensure_ascii=True)
    elif chance < 0.2:
        text = json.dumps(request, ensure_ascii=False, separators=rng.choice(((",", ":"), (" ,\t", " :  "))))
    elif chance < 0.25:
        text = re.sub(r"(?<!\\)[a-y](?=[a-z])", lambda it: rng.choice((it[0], f"\\u{ord(it[0]):04X}")), text) + " "
    elif chance < 0.3:
        text = text.replace("/", "\\/")
    elif chance < 0.33:
        text = '{"do":null,"' + rng.choice(list(request)) + '":[1,{"a":[]}],' + text[1:]
    return text.encode()


def odd_json(rng, request):
    """A line that may be no request: FORMATS, "Requests"."""
    text, key = json.dumps(request, ensure_ascii=False), rng.choice(list(request))
    others = json.dumps({one: value for one, value in request.items() if one != key}, ensure_ascii=False)[1:-1]
    parts = {"text": text, "open": text[:-1], "rest": text[1:], "key": key, "others": others or '"x":"y"'}
    line = odd(rng, "requests", value=json.dumps(request[key], ensure_ascii=False), **parts)
    return line.encode("utf-8", "surrogateescape").replace(b"\n", b" ").rstrip(b"\r")


def odd_call(rng, body, name):
    """The bytes of a connection: FORMATS, "HTTP"."""
    chance = rng.random()
    if chance < 0.4:
        lengths = {"length": str(len(body)), "more": str(len(body) + 1), "less": str(len(body) - 1)}
        path = rng.choice(("/commands", "/commands", "/commands?x=/y", f"/commands/{name}")).encode()
        whole = b"POST " + path + b" HTTP/1.1\r\n" + odd(rng, "heads", **lengths).encode("latin-1") + b"\r\n\r\n" + body
        end = len(whole) - rng.choice((rng.randrange(len(whole)), len(body) + rng.randrange(20)))
        return whole[:end] if chance < 0.1 else whole + rng.choice((b"", b"more"))
    end = rng.choice(("\r\n", "\r\n", "\r\n", "\n"))
    line = odd(rng, "methods") + " " + odd(rng, "paths", name=name) + odd(rng, "versions") + end
    headers = "".join(odd(rng, "headers") + end for _ in range(rng.randrange(3)))
    headers = "".join(one + end for one in headers.split(end) if one)
    whole = line + headers + rng.choice((end, end, end, ""))
    return whole.encode("utf-8", "surrogateescape") + rng.choice((b"", b"", body))


def forms():
    """The texts that FORMATS lists, each with the heading of its section, in the form in which they are sent."""
    found, section = [], ""
    wanted = ("Dates", "Headers", "Tags", "Amounts", "Samples", "Prices", "Journal text", "Canonical text", "What of")
    meaning = {" // ": "\n", " / ": "\n    ", r"\r": "\r", r"\t": "\t", r"\u{1}": "\u0001", r"\u{feff}": "\ufeff"}
    with open(os.path.join(TOP, "docs", "FORMATS.md"), encoding="utf-8") as file:
        for line in file:
            section, cells = line[2:].strip(" #\n") if line.startswith("## ") else section, line.split(" | ")
            if line.startswith("| ") and section.startswith(wanted) and len(cells) > 1:
                cell = cells[section.startswith("What of")]
                for text in re.findall("`([^`]+)`", cell):
                    for sign, means in meaning.items() if section.startswith("What of") else ():
                        text = text.replace(sign, means)
                    found.append((section, text))
    return found
