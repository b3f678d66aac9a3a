"""What the verdict on an edit rests on, for .ci/wrong-bodies: a sum of all texts that its function leads to.

A text is an item of a source (the head of a function, or all of it; a type; a trait or an impl without its methods; a
constant), a definition of specs/ or a lemma of proofs/. It leads by each name in it to all texts of that name, in its
own crate and in the crates below it. Nothing is resolved further, so that nothing is left out: that a variable is named
as a text elsewhere only makes a sum change more often than it must. A name of the kit leads nowhere. That of a function
leads to its head, since its callers are proved from its contract.

Comments and white space are no part of a text; the import of each name that it uses is.
"""
import collections
import hashlib
import os
import re

from judging import end_of, plain, read

NAME = re.compile(r"[^\W\d][\w']*(?:-[\w']+)*")
STRING = r'"(?:\\.|[^"\\])*"'
# The tokens of a source and of a statement; what is no group is a comment.
RATTLE = re.compile(
    rf"""//[^\n]*|/\*.*?\*/|((?!b?r#*"|b?["']){NAME.pattern}|b?r".*?"|b?r\#".*?"\#|b?r\#\#".*?"\#\#|b?{STRING}"""
    rf"""|b?'(?:\\(?:u\{{[^}}]*\}}|x..|.)|[^'\\\n])'|'[a-z_]\w*\b(?!')|{NAME.pattern}|\d[\w.]*|\S)""",
    re.S,
)
ANTT = re.compile(rf"--[^\n]*|\{{-.*?-\}}|({NAME.pattern}|{STRING}|\d[\w.]*|\S)", re.S)
OF_A_PROOF = ("/Answers.antt", "/Invariants.antt", "/Proof.antt")
DEPTH = {**dict.fromkeys("([{", 1), **dict.fromkeys(")]}", -1)}
# The kinds of the items of a source: what ends one, and which have a name that others lead to.
ENDS = {**dict.fromkeys(("const", "static", "type"), ";"), "#!": "]"}
TYPES = {"struct", "enum", "union", "type"}
NAMED = TYPES | {"const", "static", "trait", "macro_rules"}
ITEMS = NAMED | {"impl", "mod"}
BEFORE_USE = {"ghost", "pub", "crate", "super", *"()"}
# A line that begins a definition, the name in it, and the words in place of one that stand for a whole file.
STARTS = re.compile(r"(?!unfolding\b)[^\s)}\]]")
DEFINES = re.compile(r"(?:(?:pattern|abbrev|unfoldable|opaque|axiom|pub|record|data) )*([^\s:(){}=|]+)")
MODULE = re.compile(r"(?:pub )?module ")
MAKES = re.compile(r" +([^\W\d][\w'-]*) :")
OF_FILE = {"open", "infix", "infixl", "infixr", "ruleset", "mutual"}


def files_in(folder):
    """Returns the files in a folder and below it, in their order, but not those of the proofs of functions."""
    found = sorted(f"{at}/{file}" for at, _, files in os.walk(folder) for file in files)
    return [it for it in found if not it.endswith(OF_A_PROOF)]


def proofs_of(crate):
    """Returns the files of the proofs in a crate, by the ends of the paths of their functions."""
    found = collections.defaultdict(list)
    for at, folders, files in os.walk(f"{crate.folder}/proofs"):
        folders.sort()
        path = plain(f"{crate.name}/{os.path.relpath(at, f'{crate.folder}/proofs')}")
        found[end_of(path)] += [f"{at}/{it}" for it in sorted(files) if f"/{it}".endswith(OF_A_PROOF)]
    return found


def name_of(function):
    return function.path.split("::")[-1]


def begin_of(function, lines):
    """Returns the line at which the attributes of a function begin."""
    first = at = function.first
    while at and lines[at - 1].strip():
        at -= 1
        if lines[at].rstrip().endswith("]"):
            at = next((n for n in range(at, -1, -1) if lines[n].lstrip().startswith(("#[", "#!["))), -1)
            if at < 0 or lines[at].lstrip().startswith("#!["):
                break
            first = at
        elif not lines[at].lstrip().startswith("//"):
            break
    return first


def tokens_of(text):
    """Returns the tokens of a source, each with the number of its line; comments and white space are none."""
    found, line, place = [], 0, 0
    for it in RATTLE.finditer(text):
        line, place = line + text.count("\n", place, it.start()), it.start()
        if it[1]:
            found.append((it[1], line))
    return found


def words_of(lines, form):
    """Returns the tokens of some lines."""
    return [it for it in form.findall("\n".join(lines)) if it]


def leading(words, scope):
    """Returns the names among tokens that can be those of texts: what their file brings in or defines, what stands in a
    path, a method that is called, and a macro. What has another name is a variable or a field."""
    imports, defined = scope
    if "*" in imports:
        return {*filter(NAME.fullmatch, words)}
    found = {it for it in {*words} if (it in imports or it in defined) and NAME.fullmatch(it)}
    around = zip(["", "", *words], ["", *words], words, [*words[1:], ""], [*words[2:], "", ""])
    for before, dot, word, *behind in around:
        is_called = dot == "." and (behind[0] == "(" or behind == [":", ":"])
        is_in_path = dot == before == ":" or dot == "." and before in imports
        if (is_called or is_in_path or behind[0] == "!") and NAME.fullmatch(word):
            found.add(word)
    return found


def spread(path):
    """Returns each path that an import brings in, and the name that it has here."""
    front, brace, inside = path.partition("{")
    if not brace:
        path, _, other = path.partition(" as ")
        return [(path, other or re.split(r"[.:]", path)[-1])]
    parts, depth = [""], 0
    for sign in inside.rstrip()[:-1]:
        depth += DEPTH.get(sign, 0)
        if sign == "," and not depth:
            parts.append("")
        else:
            parts[-1] += sign
    return [it for part in parts if part for it in spread(front + part)]


def imported(words):
    """Returns what the words of an import bring in: each path, and the name that it has here."""
    return spread("".join(f" {it} " if it == "as" else it for it in words if it != ";"))


def led_to(path):
    """Returns the names that a path of an import leads to: its last, and those of the types before it."""
    *before, last = re.split(r"[.:]+", path)
    if before[2:3] == ["specs"] and before[3:4] != ["declared"]:
        before = before[4:]
    return {last, *(it for it in before if it[:1].isupper() and it not in ("Rattle", "TheVariants"))}


class Text:
    """A text: its title, its crate, the names that it leads to, the texts that belong to it, and a sum of it."""

    def __init__(self, title, crate, words, scope, own=""):
        self.title, self.crate, self.beside, used = title, crate, [], []
        self.names = leading(words, scope) - {own}
        for name in sorted(self.names & scope[0].keys()):
            used += [f"{name}={path}" for path in sorted(scope[0][name])]
            self.names.update(*(led_to(path) for path in scope[0][name]))
        self.sum = hashlib.sha256("\0".join([*words, "", *used]).encode()).hexdigest()


def without_imports(tokens):
    """Returns the tokens of a source but those of its imports, and of each import whether it is handed on, and its
    words."""
    left, imports, at = [], [], 0
    while at < len(tokens):
        if tokens[at][0] != "use":
            left.append(tokens[at])
        else:
            end = next(n for n in range(at, len(tokens)) if tokens[n][0] == ";")
            front = []
            while left and left[-1][0] in BEFORE_USE:
                front.append(left.pop()[0])
            imports.append(("pub" in front, [word for word, _ in tokens[at + 1 : end]]))
            at = end
        at += 1
    return left, imports


def items_of(tokens):
    """Returns the items among the tokens of a source, each with its kind and its tokens."""
    found, item, depth, kind = [], [], 0, ""
    for token, line in tokens:
        item.append((token, line))
        kind = kind or ("#!" if [it for it, _ in item] == ["#", "!"] else token if not depth and token in ITEMS else "")
        depth += DEPTH.get(token, 0)
        if not depth and token in ENDS.get(kind, ";}"):
            found.append((kind, item))
            item, kind = [], ""
    return found


def blocks_of(lines, margin="", head=()):
    """Returns the definitions of a text of specs/ or proofs/: the name of each, and its lines, with the heads of the
    modules without a name around it."""
    lines = ["" if it.lstrip().startswith("--") else it for it in lines]
    starts = [n for n, it in enumerate(lines) if it.startswith(margin) and STARTS.match(it, len(margin))]
    found = []
    for start, end in zip(starts, [*starts[1:], len(lines)]):
        part = lines[start:end]
        inner = next((n for n, it in enumerate(part, 1) if re.search(r"\bwhere\s*$", it)), len(part))
        if MODULE.match(part[0], len(margin)):
            found += blocks_of(part[inner:], margin + "  ", (*head, *part[:inner]))
        else:
            found.append((DEFINES.match(part[0], len(margin))[1], [*head, *part]))
    return found


def made_by(lines):
    """Returns the names of the constructors in a definition."""
    return [it[1] for it in map(MAKES.match, lines[1:]) if it] if "data" in words_of(lines[:1], ANTT)[:3] else []


def owners(words):
    """Returns the names of the trait, if it is of one, and of the type in the head of an impl."""
    plain, depth = [], 0
    for before, word in zip(["", *words], words):
        depth += (word == "<") - (word == ">" and before not in "-=")
        plain += [word] * (not depth and bool(NAME.fullmatch(word)))
    plain = plain[plain.index("impl") + 1 :]
    plain = plain[: plain.index("where")] if "where" in plain else plain
    at = plain.index("for") if "for" in plain else 0
    return ([plain[at - 1]] if at else []) + plain[-1:]


class Item:
    """An item of a source but a function: its kind, its words, its name or those of its trait and its type, and the
    lines that it goes over."""

    def __init__(self, kind, tokens):
        self.kind, self.first, self.last = kind, tokens[0][1], tokens[-1][1]
        self.words = [it for it, _ in tokens]
        self.head = self.words[: self.words.index("{")] if kind in ("impl", "trait") else []
        behind = self.words[self.words.index(kind) + 1 :] if kind in NAMED else []
        self.names = owners(self.head) if kind == "impl" else [it for it in behind if NAME.fullmatch(it)][:1]
        self.is_of_trait = kind == "impl" and len(self.names) > 1
        self.text = None


class Sources:
    """The texts of some crates, by their crates and names."""

    def __init__(self, functions):
        self.named = {crate.name: collections.defaultdict(list) for crate in functions}
        self.seen = {crate.name: [crate.name, *(it.name for it in crate.below())] for crate in functions}
        self.types, self.scopes, self.led, impls = set(), {}, {}, []
        self.whole, self.roots = collections.defaultdict(list), collections.defaultdict(list)
        for crate in functions:
            for file in files_in(f"{crate.folder}/specs") + files_in(f"{crate.folder}/proofs"):
                self.read_statements(crate.name, file)
            proofs = proofs_of(crate)
            for file in files_in(f"{crate.folder}/src"):
                inside = os.path.relpath(file, crate.folder)
                some = [it for it in functions[crate] if it.file == inside]
                impls += self.read_source(crate.name, file, some, proofs)
        for item in impls:
            # (that of a type of the kit is found by its trait)
            for name in item.names[-1:] if item.names[-1] in self.types else item.names:
                self.add(item.text, name)

    def add(self, text, *names):
        for name in names:
            self.named[text.crate][name].append(text)

    def bring_in(self, crate, imports):
        """Returns by their names the paths that imports bring in; what is handed on is a text."""
        paths = collections.defaultdict(set)
        for is_public, words in imports:
            for path, name in imported(words):
                paths[name].add(path)
                if is_public:
                    self.add(Text(f"{crate}: {path} as {name}", crate, [name], ({name: {path}}, ())), name)
        return paths

    def read_statements(self, crate, file, title=None):
        """Takes the definitions of a file; or returns all of it as one text that has this title."""
        blocks = blocks_of(read(file).split("\n"))
        imports = [words_of(lines, ANTT) for name, lines in blocks if name == "use"]
        paths = self.bring_in(crate, [(it[0] == "pub", it[1 + (it[0] == "pub") :]) for it in imports])
        blocks = [it for it in blocks if it[0] not in ("use", "mod")]
        names = [[name, *made_by(lines)] for name, lines in blocks]
        scope = paths, {it for some in names for it in some}
        if title:
            return Text(title, crate, words_of([line for _, lines in blocks for line in lines], ANTT), scope)
        context = [word for name, lines in blocks if name in OF_FILE for word in words_of(lines, ANTT)]
        for some, (name, lines) in zip(names, blocks):
            self.add(Text(f"{crate}: {name}", crate, words_of(lines, ANTT) + context, scope), *some)
        return None

    def read_source(self, crate, file, functions, proofs):
        """Takes the items of a file, and returns its impls."""
        lines = read(file).split("\n")
        tokens, imports = without_imports(tokens_of("\n".join(lines)))
        spans = [(begin_of(it, lines), it) for it in functions]
        is_taken = {n for first, it in spans for n in range(first, it.closes + 1)}
        items = [Item(*it) for it in items_of([it for it in tokens if it[1] not in is_taken])]
        defined = {name for it in items for name in it.names} | {name_of(it) for it in functions}
        scope = self.scopes[file] = self.bring_in(crate, imports), defined
        for item in items:
            item.text = Text(f"{crate}: {' '.join([item.kind, *item.names])}", crate, item.words, scope)
            if item.kind in NAMED:
                self.add(item.text, *item.names)
                self.types.update(item.names if item.kind in TYPES else ())
            elif item.kind not in ("impl", "mod"):
                self.roots[crate].append(item.text)
        for first, function in spans:
            around = next((it for it in items if it.head and it.first < first <= it.last), None)
            self.read_function(crate, function, lines[first : function.closes + 1], scope, around)
            files = proofs[end_of(function.path)]
            own = [self.read_statements(crate, it, f"{function.path}: proof") for it in files]
            self.whole[function.path][-1].beside += own
        return [it for it in items if it.kind == "impl"]

    def read_function(self, crate, function, lines, scope, around):
        """Takes a function, with the impl or the trait around it."""
        own = "" if around and around.is_of_trait else name_of(function)
        of = [";", *around.head] if around else []
        head = words_of(lines[: len(lines) - (function.closes - function.opens)], RATTLE)
        whole = words_of(lines, RATTLE)
        # (the body of a constant function is seen by its callers)
        seen = whole if "const" in head[: head.index("fn")] else head
        text = Text(function.path, crate, seen + of, scope, own)
        self.add(text, name_of(function))
        if around and around.is_of_trait:
            around.text.beside.append(text)
        # (impls of a trait for several types of its own have methods of the same path)
        self.whole[function.path].append(Text(f"{function.path}: body", crate, whole + of, scope, own))

    def leads(self, text):
        """Returns the texts that one leads to in a step."""
        if text not in self.led:
            seen = [self.named[crate] for crate in self.seen[text.crate]]
            self.led[text] = text.beside + [it for name in text.names for named in seen for it in named.get(name, ())]
        return self.led[text]

    def behind(self, starts):
        """Returns the texts that some lead to, those among them."""
        found, left = {*starts}, [*starts]
        while left:
            more = [it for it in self.leads(left.pop()) if it not in found]
            found.update(more)
            left += more
        return found

    def of_edit(self, crate, function, file, texts):
        """Returns the texts that the verdict on an edit of a function rests on; `texts` are its own."""
        own = [Text(f"edit {n}", crate, words_of([it], RATTLE), self.scopes[file]) for n, it in enumerate(texts)]
        return self.behind([*own, *self.whole[function], *self.roots[crate]])
