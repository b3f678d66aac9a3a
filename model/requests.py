"""Requests in JSON: FORMATS, "Requests"."""

import json
import math
import re

from model.journals import read_date
from model.refusals import Refused, refuse_if

# The keys of each request besides `do`: those that it needs, and those that it may have
COMMANDS = {
    "branch": (["name"], ["dry-run"]),
    "commodity": (["sample"], ["dry-run"]),
    "import": (["branch", "journal"], ["dry-run", "if-entries"]),
    "dispatch": (["id", "from", "to", "day", "amount", "account"], ["dry-run", "if-entries"]),
    "receive": (["id", "branch", "day", "account"], ["part", "amount", "dry-run", "if-entries"]),
    "lock": (["branch", "day"], ["dry-run", "if-entries"]),
    "close": (["branch", "day"], ["accounts", "into", "dry-run", "if-entries"]),
}
REPORTS = {
    "branches": ([], []),
    "commodities": ([], []),
    "accounts": (["branch"], []),
    "balance": (["branch", "day"], []),
    "register": (["branch", "account"], ["tag", "from"]),
    "transit": (["day"], []),
    "transfers": (["day"], []),
    "journal": (["branch"], []),
}
KEYS = {**COMMANDS, **REPORTS}
# The commands of a branch, and the key whose value is the branch
BRANCH_COMMANDS = {"import": "branch", "dispatch": "from", "receive": "branch", "lock": "branch", "close": "branch"}
# The keys whose values are days, where they are others than `day`
DAYS = {"register": ["from"]}
COUNT = re.compile("[0-9]{1,5}")
MAX_NESTING = 127
JSON_TEXTS = re.compile(r'"(?:[^"\\]|\\.)*"', re.S)
WHOLE_PAIRS = re.compile(r"\\\\|\\u[dD][89abAB][0-9a-fA-F]{2}\\u[dD][c-fC-F][0-9a-fA-F]{2}")
HALF_PAIR = re.compile(r"\\u[dD][89a-fA-F]")


def json_number(text):
    """DECISIONS, 28: a number within the range of a double."""
    refuse_if(math.isinf(float(text)), 44)
    return 0


def json_constant(_):
    """DECISIONS, 28: NaN and the infinities are none."""
    raise Refused(44)


def nesting(text):
    """How deep the arrays and objects of a JSON text are nested."""
    deepest = depth = 0
    for sign in re.findall(r"[\[\]{}]", JSON_TEXTS.sub("", text)):
        depth += 1 if sign in "[{" else -1
        deepest = max(deepest, depth)
    return deepest


def read_json(line):
    """FORMATS, "Requests"; DECISIONS, 28: the value of a text of RFC 8259 (44)."""
    try:
        text = line.decode()
        refuse_if(text.count("[") + text.count("{") > MAX_NESTING and nesting(text) > MAX_NESTING, 44)
        refuse_if("\\u" in text and HALF_PAIR.search(WHOLE_PAIRS.sub(" ", text)), 44)
        return json.loads(text, parse_float=json_number, parse_int=json_number, parse_constant=json_constant)
    except ValueError:
        raise Refused(44) from None


def is_request(keys):
    """FORMATS, "Requests": every value is a string, and exactly the keys of what is to be done are there."""
    if not isinstance(keys, dict) or not all(isinstance(value, str) for value in keys.values()):
        return False
    needed, further = KEYS.get(keys.get("do"), (None, None))
    if needed is None or not set(needed) <= set(keys) <= {"do", *needed, *further}:
        return False
    is_half = keys["do"] == "receive" and ("part" in keys) != ("amount" in keys)
    return not is_half and keys.get("dry-run", "no") in ("yes", "no") and is_count(keys)


def is_count(keys):
    """RULES, "Conditional commands": whether `if-entries` is a count, if it is there."""
    return bool(COUNT.fullmatch(keys.get("if-entries", "0")))


def read_days(keys):
    """FORMATS, "Requests": the keys of a request, its days as numbers (44)."""
    days = {key: read_date(keys[key]) for key in DAYS.get(keys["do"], ["day"]) if key in keys}
    refuse_if(None in days.values(), 44)
    return {**keys, **days}


def read_request(line):
    """RULES, "Commands": first the request is read (44)."""
    keys = read_json(line)
    refuse_if(not is_request(keys), 44)
    return read_days(keys)
