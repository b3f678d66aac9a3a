"""What the sources say to a person: the texts that they make of words and values, for .ci/messages.

A function is walked as a tree of tokens, from call to call. Words stay as they stand in the source. A value stands for
itself under a name in capitals, such as ACCOUNT. What may be missing stands in `[..]`, one of several in `{a / b}`.
A `match` on a refusal's cause is walked for the causes of its arms alone, so that it is known after which refusals a
text may come. Nothing else is known of a condition: each branch may be taken.
"""
import collections
import copy
import functools
import os
import re

import sources

IN_TEXT = "in a text"
TOKEN = re.compile(
    r'(?P<text>b?r(?P<marks>#*)"(?:.|\n)*?"(?P=marks)|b?"(?:\\(?:.|\n)|[^"\\])*")|'
    r"(?P<skip>//[^\n]*|\s+|b?'(?:\\[^']*|[^'\\\n])'|'\w+)|(?P<word>\w+|::|=>|->|[=!<>]=|&&|\|\||[-+*/]=|.)"
)
# A word or a sign, with the blanks before it
PART = re.compile(r" *(?:[\w'-]+|[^\w ])| +")
CLOSES = {"(": ")", "[": "]", "{": "}"}
MEANS = {"n": "\n", "t": "\t", "0": "\0"}
# What messages are made of; the sources name them with or without `Piece::`
PIECES = {"Words", "Text", "Number", "Day", "Amount", "Header", "Origin"}
# What hands a value on as it is, and what the names of values mean that a reader cannot know
HANDS_ON = {"as_str", "as_bytes", "as_slice", "as_ref", "name", "saturating_sub"}
NAMES = {
    "bytes": "TEXT", "first": "ACCOUNT", "found": "COLUMNS", "into": "ACCOUNT", "mark.decimal": "MARK",
    "names": "TABLES", "nr": "NUMBER", "one": "ACCOUNT", "others.names": "NAMES", "part.payee": "ACCOUNT",
    "path": "FILE", "receipt.payee": "ACCOUNT", "source": "JOURNAL", "transfer.payer": "ACCOUNT",
    "transfer.source": "BRANCH", "transfer.target": "BRANCH", "version": "NUMBER", "wanted": "COLUMNS",
}
# A text: its kind, if it is a message, what it says, the causes of refusals after which it may come, if that is known,
# and the comment above the function or the constant that has it.
Said = collections.namedtuple("Said", "kind text causes comment")
Words = collections.namedtuple("Words", "text comment")
Text = collections.namedtuple("Text", "text")
Slot = collections.namedtuple("Slot", "name")
Kind = collections.namedtuple("Kind", "name")
Causes = collections.namedtuple("Causes", "names")
Many = collections.namedtuple("Many", "parts")


class Line:
    """A text that is being made: its kind, and its parts so far, which are texts."""

    def __init__(self, kind):
        self.kind, self.parts = kind, []


class Group:
    """What stands within brackets."""

    def __init__(self, sign, parts):
        self.sign, self.parts = sign, parts


class Function:
    """A function: its file, its head and body as trees, its parameters, and the comment above it."""

    def __init__(self, name, file, head, body):
        self.name, self.file, self.head, self.body = name, file, head, body
        given = next(it for it in head if is_group(it, "("))
        self.parameters = [it[it.index(":") - 1] for it in split(given.parts, ",") if ":" in it and is_word(it[0])]
        self.comment = file.comment(rf"\bfn {name}\b")

    def speaks(self):
        """Whether messages go in or come out."""
        return bool({"Message", "Messages"} & set(flat(self.head)))


def is_group(token, signs="([{"):
    return isinstance(token, Group) and token.sign in signs


def tree(text):
    """The tokens of a source, what stands within brackets as one."""
    stack = [Group("", [])]
    for found in TOKEN.finditer(text):
        word = found["word"]
        if found["text"]:
            stack[-1].parts.append(Text(meant(found["text"])))
        elif word in CLOSES:
            stack.append(Group(word, []))
        elif word in CLOSES.values():
            if len(stack) > 1 and CLOSES[stack[-1].sign] == word:
                group = stack.pop()
                stack[-1].parts.append(group)
        elif word:
            stack[-1].parts.append(word)
    return stack[0].parts


def meant(literal):
    """What a literal stands for."""
    inner = re.sub(r'^b?(?:r(#*))?"(.*)"\1?$', r"\2", literal, flags=re.S)
    return re.sub(r"\\(.)", lambda it: MEANS.get(it[1], it[1]), re.sub(r"\\\n\s*", "", inner))


def split(tokens, sign):
    """The tokens between signs."""
    parts = [[]]
    for token in tokens:
        if token == sign:
            parts.append([])
        else:
            parts[-1].append(token)
    return [it for it in parts if it]


def is_word(token):
    return isinstance(token, str) and re.fullmatch(r"[A-Za-z_]\w*", token)


class Source:
    """A file of a crate: its functions, its constants, and what its names come from."""

    def __init__(self, crate, path):
        text = sources.read(path)
        self.crate, self.path, self.lines = crate, path, text.split("\n")
        self.module = os.path.basename(path)[:-3]
        self.used = sources.File.of(text, self.module).used
        self.constants, self.functions = {}, {}
        self.read(tree(text))

    def comment(self, pattern):
        """The comment above the line that has a declaration."""
        number = next(at for at, line in enumerate(self.lines, 1) if re.search(pattern, line))
        return sources.comment_above(self.lines, number, "///")

    def read(self, tokens):
        """Reads what is declared at one level."""
        at = 0
        while at < len(tokens):
            if tokens[at] == "fn":
                self.read_function(tokens, at)
            elif tokens[at] == "const" and is_word(tokens[at + 1]):
                value = split(tokens[at:], ";")[0][-1]
                if isinstance(value, Text):
                    self.constants[tokens[at + 1]] = Words(value.text, self.comment(rf"const {tokens[at + 1]}\b"))
            elif tokens[at] == "impl":
                while not is_group(tokens[at], "{"):
                    at += 1
                self.read(tokens[at].parts)
            at += 1

    def read_function(self, tokens, at):
        """Reads the function that begins here."""
        head, in_clause = [], False
        for token in tokens[at + 2 :]:
            if token == ";":
                return
            if token in ("requires", "ensures", "ghost"):
                in_clause = True
            elif is_group(token, "{") and not in_clause:
                self.functions[tokens[at + 1]] = Function(tokens[at + 1], self, head, token.parts)
                return
            elif is_group(token, "{"):
                in_clause = False
            elif not in_clause:
                head.append(token)


@functools.cache
def sources_of(crate):
    """The files of a crate."""
    paths = sorted(os.path.join(top, it) for top, _, files in os.walk(f"crates/{crate}/src") for it in files)
    return [Source(crate, it) for it in paths if it.endswith(".rt")]


def looked_up(source, name, what):
    """The function or the constant that a name means in a file; none if it is none of a crate of ours."""
    if name in getattr(source, what):
        return getattr(source, what)[name]
    crate, *path = source.used.get(name, [""])
    crate = source.crate if crate in ("crate", "self", "super") else crate
    if not path or not os.path.isdir(f"crates/{crate}/src"):
        return None
    there = [it for it in sources_of(crate) if path[-1] in getattr(it, what)]
    exact = [it for it in there if len(path) > 1 and it.module == path[-2]]
    return getattr((exact or there)[0], what)[path[-1]] if there else None


def differing(texts):
    """One text for several: what they differ in stands in `{a / b}`, or in `[..]` if one lacks it."""
    texts = list(dict.fromkeys(texts))
    if len(texts) < 2:
        return "".join(texts)
    if len({re.sub(r"[A-Z]{2,}|[ ?]", "", it) for it in texts}) == 1:
        return max(texts, key=len)
    parts = [PART.findall(it) for it in texts]
    length, starts = longest_common(parts)
    if not length:
        others = [it for it in texts if it]
        inner = differing(others) if "" in texts else " / ".join(others)
        if "" in texts:
            return inner if re.fullmatch(r"\[[^\[\]]*\]", inner) else f"[{inner}]"
        blank = " " * all(it.startswith(" ") for it in texts)
        return blank + "{" + " / ".join(it[len(blank) :] for it in texts) + "}"
    before = differing(["".join(it[:at]) for it, at in zip(parts, starts)])
    after = differing(["".join(it[at + length :]) for it, at in zip(parts, starts)])
    return before + "".join(parts[0][starts[0] : starts[0] + length]) + after


def longest_common(lists):
    """How long the longest run is that all lists have, and where it begins in each."""
    first = min(lists, key=len)
    for length in range(len(first), 0, -1):
        for at in range(len(first) - length + 1):
            run = first[at : at + length]
            starts = [next((to for to in range(len(it)) if it[to : to + length] == run), None) for it in lists]
            if None in starts:
                continue
            is_end = set(starts) == {0} or all(to == len(it) - length for to, it in zip(starts, lists))
            if is_end or len(re.findall(r"\w+", "".join(run))) > 1:
                return length, starts
    return 0, []


class Walk:
    """A walk from a function on: what it says, in order."""

    def __init__(self, passed_over=()):
        self.said, self.stack, self.after, self.is_apart = [], [], None, False
        self.passed_over = set(passed_over)

    def from_function(self, function, values):
        """Walks the body of a function whose parameters have these values."""
        if function in self.stack or function.name in self.passed_over:
            return
        self.stack.append(function)
        bound = dict(zip(function.parameters, values))
        self.statements(function.body, bound)
        self.stack.pop()

    def made_by(self, function):
        """The texts that a function makes, which it does not say itself."""
        self.stack.append(function)
        self.is_apart = True
        names = {it: Line(Kind("")) for it in function.parameters if it in ("out", "line")}
        self.statements(function.body, names)
        self.stack.pop()
        return [text for _, line in self.lines(names) for text in "".join(line.parts).split("\n") if text]

    # ---- what stands in a body

    def statements(self, tokens, names):
        """Walks statements, one after another; where a name has one of several values, the rest for each of them."""
        at = 0
        while at < len(tokens):
            token = tokens[at]
            if token == "let":
                at = self.binding(tokens, at, names)
                if at is None:
                    return
            elif token == "match":
                at = self.choice(tokens, at, names)
            elif token == "if":
                at = self.condition(tokens, at, names)
            elif token in ("for", "while"):
                at = self.loop(tokens, at, names)
            elif is_group(token, "(") and at and is_word(tokens[at - 1]):
                self.call(tokens, at, names)
                at += 1
            elif is_word(token) and tokens[at + 1 : at + 2] == ["="] and token in names:
                end = next((to for to in range(at, len(tokens)) if tokens[to] == ";"), len(tokens))
                values = self.values(tokens[at + 2 : end], names)
                names[token] = values[0] if len(values) == 1 else names[token]
                at = end
            elif isinstance(token, Group):
                self.statements(token.parts, names)
                at += 1
            else:
                at += 1

    def binding(self, tokens, at, names):
        """Walks a `let`. Where its value is one of several, walks the rest for each, and answers nothing."""
        end = next((to for to in range(at, len(tokens)) if tokens[to] == ";"), len(tokens))
        pattern, _, value = partition(tokens[at + 1 : end], "=")
        other = []
        if "else" in value and "if" not in value:
            value, _, other = partition(value, "else")
        self.statements(value, names)
        for group in other:
            self.statements(group.parts, dict(names))
        pattern, _, _ = partition([it for it in pattern if it != "mut"], ":")
        bound = pattern[0] if len(pattern) == 1 else None
        values = self.values(value, names) if bound else []
        if len(values) == 1:
            bind(bound, values[0], names)
        if len(values) < 2 and not (other and self.lines(names)):
            return end + 1
        ways = [{**copy.deepcopy(names), "(way)": one} for one in values or [None]]
        for way in ways:
            bind(bound, way["(way)"], way)
            self.statements(tokens[end + 1 :], way)
        for key, line in self.lines(names):
            added = ["".join(way[key].parts[len(line.parts) :]) for way in ways]
            line.parts.append(differing(added + [""] * bool(other)))
        return None

    def lines(self, names):
        """The texts that are being made."""
        return [(key, it) for key, it in names.items() if isinstance(it, Line)]

    def choice(self, tokens, at, names):
        """Walks the arms of a `match`."""
        block = next(to for to in range(at, len(tokens)) if is_group(tokens[to], "{"))
        on = dotted(tokens[at + 1 : block])
        left = names[on].names if isinstance(names.get(on), Causes) else None
        left = every_cause() if left is None and on.endswith(("cause", "refusal")) else left
        self.statements(tokens[at + 1 : block], names)
        bodies = []
        for pattern, body in arms(tokens[block].parts):
            inner = dict(names)
            if left is not None and (causes_in(pattern) or pattern == ["_"]):
                taken = left & causes_in(pattern) if causes_in(pattern) else left
                left = left if "if" in pattern else left - taken
                inner[on] = Causes(taken)
                if not taken:
                    continue
            bodies.append((body, inner))
        self.branches(bodies, names, True)
        return block + 1

    def condition(self, tokens, at, names):
        """Walks an `if` with its `else`."""
        bodies, left = [], names
        while tokens[at] == "if":
            start = tokens.index("=", at) if tokens[at + 1] == "let" else at
            block = next(to for to in range(start, len(tokens)) if is_group(tokens[to], "{"))
            inner, left = self.taken(tokens[at + 1 : block], left)
            self.statements(tokens[start + 1 : block], inner)
            bodies.append((tokens[block].parts, inner))
            if tokens[block + 1 : block + 2] != ["else"]:
                self.branches(bodies, names, False)
                return block + 1
            at = block + 2
        bodies.append((tokens[at].parts, dict(left)))
        self.branches(bodies, names, True)
        return at + 1

    def taken(self, test, names):
        """What names mean where a test holds, and where it does not: one that asks for causes divides them."""
        if len(test) == 2 and is_word(test[0]) and is_group(test[1], "("):
            function, on = looked_up(self.stack[-1].file, test[0], "functions"), dotted(test[1].parts)
            among = causes_in(flat(function.body)) if function and "matches" in function.body else None
            if among and isinstance(names.get(on), Causes):
                left = names[on].names
                return {**names, on: Causes(left & among)}, {**names, on: Causes(left - among)}
        return dict(names), dict(names)

    def branches(self, bodies, names, is_whole):
        """Walks the branches of a choice; what they add to a text is one of several."""
        lines = {key: (it, len(it.parts)) for key, it in names.items() if isinstance(it, Line)}
        added = {key: ([] if is_whole else [""]) for key in lines}
        after = self.after
        for body, inner in bodies:
            self.after = min([it.names for it in inner.values() if isinstance(it, Causes)], key=len, default=after)
            self.statements(body, inner)
            is_left = any(token == "return" for token in body)
            for key, (line, before) in lines.items():
                added[key] += [] if is_left and len(line.parts) == before else ["".join(line.parts[before:])]
                del line.parts[before:]
        self.after = after
        for key, (line, _) in lines.items():
            if any(added[key]):
                # (branches that begin a text that nobody says here are texts of their own)
                is_apart = self.is_apart and not line.parts
                line.parts.append("\n".join(added[key]) if is_apart else differing(added[key]))

    def loop(self, tokens, at, names):
        """Walks the body of a loop twice: what is added to a text the first time, what stands before the next, `..`."""
        start = next(to for to in range(at, len(tokens)) if tokens[to] in ("in", "=", "while"))
        block = next(to for to in range(start, len(tokens)) if is_group(tokens[to], "{"))
        self.statements(tokens[start + 1 : block], names)
        lines = [(line, len(line.parts)) for _, line in self.lines(names)]
        added = [[], []]
        for names["(turn)"] in (0, 1):
            self.statements(tokens[block].parts, names)
            for line, before in lines:
                added[names["(turn)"]].append("".join(line.parts[before:]))
                del line.parts[before:]
        for (line, _), first, second in zip(lines, *added):
            common = os.path.commonprefix([first[::-1], second[::-1]])
            text = first + second[: len(second) - len(common)].rstrip() + " .."
            line.parts += [text if first == second else f"[{text}]"] if first else []
        del names["(turn)"]
        return block + 1

    # ---- calls

    def call(self, tokens, at, names):
        """Walks a call: of what says something, of what adds to a text, or of a function of ours."""
        name, given = tokens[at - 1], split(tokens[at].parts, ",")
        self.statements(tokens[at].parts, names)
        of = tokens[at - 3] if at > 2 and tokens[at - 2] in (".", "::") else ""
        if tokens[at - 2 : at - 1] == ["."]:
            self.method(name, of if is_word(of) else "", given, names)
        elif name in ("say", "hint"):
            values = [self.values(it, names) for it in given[:-1]]
            for kind in values[0] if name == "say" else [Kind("Hint")]:
                for text in values[-1]:
                    self.say(kind, text, names)
        elif name in ("push_shown", "push_number") and isinstance(names.get(dotted(given[-1])), Line):
            names[dotted(given[-1])].parts.append(shown(self.values(given[0], names)[0]))
        elif not of and self.stack:
            function = looked_up(self.stack[-1].file, name, "functions")
            if function and function.speaks():
                self.into(function, [self.values(it, names) for it in given])

    def into(self, function, given):
        """Walks a function for each of the values that its parameters may have."""
        for at, values in enumerate(given):
            if len(values) > 1:
                for one in values:
                    self.into(function, [*given[:at], [one], *given[at + 1 :]])
                return
        self.from_function(function, [values[0] for values in given])

    def method(self, name, of, given, names):
        """Walks a call of a method: more of a text, or its end."""
        line = names.get(of)
        if isinstance(line, Line) and name in ("add", "extend_from_slice"):
            line.parts.append("".join(shown(it) for it in self.values(given[0], names)[:1]))
        elif isinstance(line, Line) and name == "say":
            self.say(line.kind, Words("".join(line.parts), ""), names)
        elif name == "push" and given and isinstance(names.get(dotted(given[0])), Line):
            line = names[dotted(given[0])]
            self.say(line.kind, Words("".join(line.parts), ""), names)

    def say(self, kind, text, names):
        """Notes that a text is said."""
        comment = text.comment if isinstance(text, Words) and text.comment else self.stack[-1].comment
        said = Said(kind.name, shown(text), self.after, comment)
        if said not in self.said:
            self.said.append(said)

    # ---- values

    def values(self, tokens, names):
        """What an expression may be, one value or several."""
        tokens = [it for it in tokens if it not in ("&", "mut", "*", "?", "return")]
        tokens = tokens[:-1] if tokens[-1:] == [";"] else tokens
        if not tokens:
            return [Slot("")]
        first = tokens[0]
        if len(tokens) == 1 and isinstance(first, Text):
            return [Words(first.text, "")]
        if len(tokens) == 1 and isinstance(first, Group):
            return self.values_of_group(first, names)
        if first in ("if", "match"):
            return self.values_of_branches(tokens, names)
        if first in ("MessageKind", "Cause") and len(tokens) == 3:
            return [Kind(tokens[2]) if first == "MessageKind" else Causes(frozenset([tokens[2]]))]
        piece = tokens[2:] if tokens[:2] == ["Piece", "::"] else tokens
        if len(piece) == 2 and piece[0] in PIECES and is_group(piece[1], "("):
            return self.values_of_piece(piece[0], split(piece[1].parts, ","), names)
        if tokens[:3] == ["Message", "::", "new"]:
            return [Line(self.values(split(tokens[3].parts, ",")[1], names)[0])]
        if tokens[:3] == ["Vec", "::", "new"] and len(tokens) == 4:
            return [Line(Kind(""))]
        if len(tokens) == 2 and is_word(first) and is_group(tokens[1], "("):
            return self.values_of_call(first, split(tokens[1].parts, ","), names)
        return [self.value_of_path(tokens, names)]

    def values_of_group(self, group, names):
        """What brackets hold: a list, a tuple, or a block's last expression."""
        if group.sign == "{":
            return self.tails(group.parts, names)
        parts = [self.values(it, names) for it in split(group.parts, ",")]
        if group.sign == "(" and len(parts) == 1:
            return parts[0]
        combined = [[]]
        for values in parts:
            combined = [[*one, it] for one in combined for it in values]
        return [Many(tuple(one)) for one in combined]

    def values_of_branches(self, tokens, names):
        """What an `if` or a `match` may give."""
        if tokens[0] == "match":
            block = next(it for it in tokens if is_group(it, "{"))
            bodies = [self.values(body, names) for _, body in arms(block.parts) if body[:1] != ["return"]]
        else:
            blocks = [it for at, it in enumerate(tokens)
                      if is_group(it, "{") and "else" in (tokens[at - 1], *tokens[at + 1 : at + 2])]
            bodies = [self.tails(it.parts, names) for it in blocks]
            if "(turn)" in names and len(bodies) == 2:
                return bodies[names["(turn)"]]
        return list(dict.fromkeys(one for body in bodies for one in body))

    def values_of_piece(self, name, given, names):
        """What a piece of a message shows."""
        if name in ("Words", "Text"):
            # (what a function of ours prints into a text of its own is an amount)
            return [Slot("AMOUNT") if isinstance(it, Line) else it for it in self.values(given[0], names)]
        if name == "Number":
            found = self.values(given[0], names)[0]
            return [found if isinstance(found, Slot) and found.name in ("LINE", "BYTE") else Slot("NUMBER")]
        return [Slot({"Origin": "PLACE: "}.get(name, name.upper()))]

    def values_of_call(self, name, given, names):
        """What a call answers: one of the words that its function has, or what is within it."""
        if name in ("Some", "Ok"):
            return self.values(given[0], names)
        function = looked_up(self.stack[-1].file, name, "functions")
        if not function or function in self.stack:
            return [Slot(name.upper())]
        self.stack.append(function)
        inner = dict(zip(function.parameters, [self.values(it, names)[0] for it in given]))
        values = [it for it in self.tails(function.body, inner) if it not in (Slot(""), Slot("NONE"))]
        self.stack.pop()
        if len(values) > 4 and all(len(shown(it)) < 20 for it in values):
            # (one of many short words stands for itself as a value does)
            return [Slot(name.split("_")[0].upper())]
        commented = [Words(it.text, it.comment or function.comment) if isinstance(it, Words) else it for it in values]
        return commented or [Slot("")]

    def tails(self, tokens, names):
        """What a block may give: what it returns, and its last expression."""
        found = []
        for at, token in enumerate(tokens):
            if token == "return":
                found += self.values(split(tokens[at + 1 :], ";")[0], names)
            elif is_group(token, "{") and "return" in flat(token.parts):
                found += [it for it in self.tails(token.parts + [";"], names)]
        last = tokens[-1:] != [";"] and split_statements(tokens)
        found += self.values(last[-1], names) if last and last[-1][:1] != ["return"] else []
        return list(dict.fromkeys(found))

    def value_of_path(self, tokens, names):
        """What a name, or a field with what hands it on, means."""
        path = [it for at, it in enumerate(tokens) if is_word(it) and it not in HANDS_ON or at == 0 and is_word(it)]
        full = ".".join(path[:2])
        if names.get(full) is not None:
            return names[full]
        if len(path) == 1 and path[0] in names:
            return names[path[0]]
        if path[-1:] == ["cause"]:
            return Causes(every_cause())
        constant = len(path) == 1 and self.stack and looked_up(self.stack[-1].file, path[0], "constants")
        name = path[-1] if path else ""
        return constant or Slot(NAMES.get(".".join(path[-2:]), shown_name(name)))


def partition(tokens, sign):
    """The tokens before a sign, the sign, and those behind it."""
    at = next((at for at, it in enumerate(tokens) if it == sign), len(tokens))
    return tokens[:at], tokens[at : at + 1], tokens[at + 1 :]


def dotted(tokens):
    """A name, or a field of a name, as one text."""
    return "".join(it for it in tokens if isinstance(it, str) and it not in ("&", "mut", "*"))


def flat(tokens):
    """All tokens, those within brackets too."""
    return [it for token in tokens for it in (flat(token.parts) if isinstance(token, Group) else [token])]


def texts_in(function):
    """The literals of a function."""
    return [it.text for it in flat(function.body) if isinstance(it, Text)]


def causes_in(tokens):
    """The causes that tokens name; IN_TEXT stands for those that come with a line of a text."""
    named = [(it, tokens[at + 2]) for at, it in enumerate(tokens[:-2]) if tokens[at + 1] == "::"]
    return frozenset(
        IN_TEXT if name == "Text" else name
        for of, name in named
        if of == "Cause" or of == "Refusal" and name in (IN_TEXT, "Text", "ClaimFailed")
    )


@functools.cache
def beginnings():
    """What the lines of each kind begin with, and under `_` those of all others."""
    source = next(it for it in sources_of("treasury_messages") if it.module == "kind")
    block = next(it for it in source.functions["beginning"].body if is_group(it, "{"))
    return {name: body[-1].text for pattern, body in arms(block.parts) for name in pattern if is_word(name)}


def begin(kind):
    """What a line of the kind begins with."""
    return beginnings().get(kind, beginnings()["_"])


@functools.cache
def every_cause():
    """The causes of refusals, by the numbers that they have."""
    numbers = next(it.functions["nr"] for it in sources_of("money_core") if it.module == "cause")
    return frozenset(numbered(numbers)) | {IN_TEXT}


def numbered(function):
    """What each arm of a function on causes gives: its last token, by cause."""
    block = next(it for it in function.body if is_group(it, "{"))
    return {cause: body[-1] for pattern, body in arms(block.parts) for cause in causes_in(pattern)}


def arms(tokens):
    """The arms of a `match`: each pattern with its body."""
    while "=>" in tokens:
        pattern, _, rest = partition(tokens, "=>")
        if is_group(rest[0], "{"):
            body, tokens = rest[:1], rest[2:] if rest[1:2] == [","] else rest[1:]
        else:
            body, _, tokens = partition(rest, ",")
        yield pattern, body


def split_statements(tokens):
    """The statements of a block; one that ends with a block needs no sign behind it."""
    parts = [[]]
    for at, token in enumerate(tokens):
        if token == ";":
            parts.append([])
            continue
        parts[-1].append(token)
        is_ended = is_group(token, "{") and parts[-1][0] in ("if", "match", "for", "while")
        if is_ended and at + 1 < len(tokens) and tokens[at + 1] not in ("else", ".", "?"):
            parts.append([])
    return [it for it in parts if it]


def bind(pattern, value, names):
    """Gives a name its value, or each name of a tuple."""
    if is_group(pattern, "(") and isinstance(value, Many):
        for part, one in zip(split(pattern.parts, ","), value.parts):
            bind([it for it in part if it != "mut"][0], one, names)
    elif is_word(pattern):
        names[pattern] = value


def shown_name(name):
    """What a value is called in a text."""
    return NAMES.get(name, name.upper())


def shown(value):
    """A value as a text."""
    if isinstance(value, Many):
        return "".join(shown(it) for it in value.parts)
    return value.text if isinstance(value, Words) else value.name if isinstance(value, Slot) else ""
