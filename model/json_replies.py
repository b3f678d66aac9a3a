"""Replies in JSON: FORMATS, "Replies in JSON"."""

import json
import os
import re

from model.refusals import NAMES

TOP = os.path.dirname(os.path.dirname(os.path.realpath(__file__)))
ROW = r'(?m)^\| ([0-9]+) \| [A-Z][A-Za-z0-9]+ \| (.*?)(?: \("[A-Z][a-z]+"\))? \|$'
with open(os.path.join(TOP, "docs", "RULES.md"), encoding="utf-8") as page:
    SENTENCES = dict(re.findall(ROW, page.read()))  # that of each refusal, without a heading in brackets behind it
NO_WEIGHT = re.compile(rb"[qQ]=0(?:\.0{0,3})?")
STRING = rb'"(?:[^"\\\x00-\x1f]|\\["\\]|\\u00[01][0-9a-f])*"'
LIST = rb"\[((?:%b(?:,%b)*)?)\]" % (STRING, STRING)
SAID = re.compile(rb'"told":%b,"notes":%b(|,"entries":"[0-9]+")\}\n\Z' % (LIST, LIST))


def asks_for_json(accepted):
    """FORMATS, "Replies in JSON": whether one of the media ranges in the values of `Accept` is that of JSON."""
    ranges = [[part.strip(b" \t") for part in piece.split(b";")] for piece in b",".join(accepted).split(b",")]
    return any(it[0].lower() == b"application/json" and not any(map(NO_WEIGHT.fullmatch, it[1:])) for it in ranges)


def string(text):
    """FORMATS, "Replies in JSON": the string of a text."""
    text = re.sub(r'(["\\])', r"\\\1", text)
    return '"' + re.sub("[\x00-\x1f]", lambda it: f"\\u{ord(it[0]):04x}", text) + '"'


def body_of(number, text, rows, entries):
    """FORMATS, "Replies in JSON": the body of a reply; `entries` is None, unless it is that of a dry run whose branch
    there is. What is told and noted is not modelled: the lists are empty."""
    if rows is not None:
        return '{"lines":[%s]}\n' % ",".join("[" + ",".join(map(string, row)) + "]" for row in rows)
    said = {"answer": text[:-1]}
    if number:
        said.update(number=str(number), name=NAMES[number], sentence=SENTENCES[str(number)])
    before = "".join(f"{string(key)}:{string(value)}," for key, value in said.items())
    behind = "" if entries is None else f',"entries":"{entries}"'
    return f'{{{before}"told":[],"notes":[]{behind}}}\n'


def without_said(reply):
    """A reply without what it tells and notes, if that is as it has to be: lists of strings; of a refusal its sentence
    is told first, and nothing is noted; of anything else nothing is told."""
    head, gap, body = reply.partition(b"\r\n\r\n")
    found = SAID.search(body)
    if b"\r\nContent-Type: application/json\r\n" not in head or not found:
        return reply
    first, sentence = "".join(json.loads(b"[%b]" % found[1])[:1]), json.loads(body).get("sentence")
    if first if sentence is None else found[2] or not re.fullmatch("treasury: .*" + re.escape(sentence), first):
        return reply
    fewer = len(found[1]) + len(found[2])
    head = re.sub(rb"(?<=\r\nContent-Length: )[0-9]+", lambda it: b"%d" % (int(it[0]) - fewer), head)
    return head + gap + body[: found.start()] + b'"told":[],"notes":[]%b}\n' % found[3]
