"""Command lines: RULES, "The program"."""

from model.refusals import Refused, refuse_if
from model.requests import KEYS, is_count, read_days

# What stands in a command line without an option's name, by command
POSITIONAL = {"branch": "name", "commodity": "sample", "import": "journal"}
# What a command takes for an option that is left out
LEFT_OUT = {"balance": {"day": "9999-12-31"}}


def read_words(words):
    """RULES, "The program": the keys of a command line's request, or None if its arguments are not understood."""
    if not words or words[0] not in KEYS:
        return None
    do, *left = words
    needed, further = KEYS[do]
    options = {"db", "at", *needed, *further} - {POSITIONAL.get(do)}
    keys, only_names = {}, True
    while left:
        word = left.pop(0)
        if only_names and word == "--":
            only_names = False
            continue
        if only_names and word.startswith("--"):
            key, equal, value = word[2:].partition("=")
            if key in keys or key not in options or (key == "dry-run" and equal):
                return None
            if key == "dry-run":
                value = "yes"
            elif not equal:
                if not left or (left[0].startswith("-") and left[0] != "-"):
                    return None
                value = left.pop(0)
        else:
            key, value = POSITIONAL.get(do), word
            if key is None or key in keys or (only_names and word.startswith("-") and word != "-"):
                return None
        keys[key] = value
    places = [keys.pop(it) for it in ("db", "at") if it in keys]
    keys = {**LEFT_OUT.get(do, {}), **keys}
    return {**keys, "do": do} if len(places) == 1 and set(needed) <= set(keys) else None


def command(treasury, words, files):
    """RULES, "The program": the faults of a command line in their order, and then what its request is answered."""
    if words[:1] == ["init"]:
        return 1, Refused(43).answer().encode()
    keys = read_words(words)
    if keys is None:
        return 2, b""
    try:
        refuse_if(("part" in keys) != ("amount" in keys) and keys["do"] == "receive", 44)
        keys = read_days(keys)
        refuse_if(not is_count(keys), 44)
        if keys["do"] == "import":
            refuse_if(keys["journal"] not in files, 45)
            keys["journal"] = files[keys["journal"]].decode("utf-8", "surrogateescape")
    except Refused as refused:
        return 1, refused.answer().encode()
    number, text, _ = treasury.perform(keys)
    return (1 if number else 0), text.encode()
