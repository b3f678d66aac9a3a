"""Tries edits of a crate: what the prover says of a copy that has them, and whether it refuses each.

How one counts as refused is in CONTRIBUTING.md, "When a wrong body is refused". Some edits of a crate stand together in
one copy of it; another one takes what a function has beyond one. A function is proved from its own body and the
contracts of what it calls, so the copy leaves the other bodies out: each is a call of a function whose contract
promises a falsehood, and whose proof is a hole. First comes a copy with the right bodies alone, which may leave no goal
open. Where the check does not try the goals of a changed function, since what it calls is changed too, its wrong body
is tried again without the others.

All that decides an outcome stands in this file: a verdict rests on it, but for its comments.
"""
import collections
import copy
import importlib.machinery
import importlib.util
import os
import re
import shutil
import subprocess
import sys
import tempfile
import time

# The kits whose messages are read as below: with another one, see that `all` still says the same, and add it.
KITS = ("rattle-kit-13b", "rattle-kit-13f")
FUNCTION = re.compile(r"^( *)(pub )?(?:pub\([^)]*\) )?(?:const )?(?:unsafe )?fn (\w+)")
IMPL = re.compile(r"^(?:pub )?(?:unsafe )?(impl|trait)\b(.*)")
PRIVATE_TRAIT = re.compile(r"^(?:unsafe )?trait (\w+)", re.M)
GUARDS = re.compile(r"^guards: (.*)$", re.M)
PAIR = re.compile(r"^old: (.*)\nnew: ?(.*)$", re.M)
# What has a name in a proof, or gives others another name, and operators; and those of them that are branches or loops.
STEP = re.compile(r"\b[a-z_]\w*!?(?=\(|::<)|\[|\b(?:let|if|match|for|while|loop|return)\b|&&|\|\||\?|=>| [-+*/%&|^] ")
BRANCHES = {"if", "match", "for", "while", "loop", "&&", "||", "?", "=>"}
# The steps of an edit after which a goal can need another proof although it still holds: they ask for a right body.
ASKING = {"call", "binding", *BRANCHES}

SAID = re.compile(r"^fn (\S+): (.*)$", re.M)
OPEN = re.compile(r"^note: (src/\S+?):(\d+):\d+: it is not proved that .*?\(`([^`]+)`\)(?:; (.*))?$", re.M)
WAITS = re.compile(r"^note: `search` has not tried the goals of `([^`]+)`, which wait for a callee's proof", re.M)
FAULT = re.compile(
    r"^(?:\./)?proofs/(\S+?)/(?:Answers|Invariants)\.antt:\d+:\d+: error: (?:`([^`]*)`: )?(.*(?:\n  .*)*)", re.M
)
TAKEN_AWAY = re.compile(r"has no `|is not in scope|has\s+no field|was not admitted|\(nearest: ")
# Returns, type invariants and the requires of callees; others are loops, sums within a type, places within a list.
OF_CONTRACT = re.compile(r"returns(?:-|$)|invariant_of-|(?!prove-).*-requires(?:-|$)")
FALSE = "has values at which it is false"
# A goal that asks nothing, as that of a clause on what is `Ok` does where an `Err` is returned: it holds, although its
# proof by hand fails.
ASKS_NOTHING = re.compile(r"(?:expected type|searched reads) `Unit(?: \{\d+\})?`")
DIFFER = re.compile(r"differ[^`]* where one has `([^`]*)`(?:.|\n)*?the other has `([^`]*)`")
# The names of the types that hold a proof's steps.
OF_STEPS = re.compile(r"\bgoal\.|\.Lts\.|^(?:In|After)-")

# What stands for each body that is left out, and the hole that is its proof.
LEFT_OUT = """
/// Stands for a body that is left out.
fn left_out() -> !
    ensures { ⊥ }
{
    unreachable!()
}
"""
HOLE = """use Rattle.%s.proofs.left_out.Goals as goal

pub unreachable-requires : goal.unreachable-requires
unreachable-requires c = ?
"""

REFUSED, UNDECIDED, NOT_REFUSED = "refused", "undecided", "not refused"
# What came of some edits: what is said of them, which are refused, which undecided, and what is wrong.
Outcome = collections.namedtuple("Outcome", "told refused undecided wrong")


class OutOfTime(Exception):
    """The time that was given is over."""


class Clock:
    """Until when there is time: forever, unless minutes are given."""

    ends = None

    @classmethod
    def left(cls):
        """Returns the seconds that are left, or None where there is no end."""
        if cls.ends is None:
            return None
        seconds = cls.ends - time.monotonic()
        if seconds <= 0:
            raise OutOfTime
        return seconds


def read(file):
    with open(file, encoding="utf-8") as it:
        return it.read()


def write(file, text):
    with open(file, "w", encoding="utf-8") as it:
        it.write(text)


def kit():
    """Returns the kit's command rt as a module, for its copy of a crate and its lanes."""
    guide = subprocess.run(["rt", "doc"], stdout=subprocess.PIPE, check=True, encoding="utf-8").stdout.strip()
    version = read(f"{os.path.dirname(guide)}/KIT-ID").strip()
    if version.split()[0] not in KITS:
        sys.exit(f".ci/judging.py: how {version} says that a proof fails is not known: see KITS there")
    loader = importlib.machinery.SourceFileLoader("rt", f"{os.path.dirname(guide)}/bin/rt")
    module = importlib.util.module_from_spec(importlib.util.spec_from_loader("rt", loader))
    loader.exec_module(module)
    return module


sys.dont_write_bytecode = True
rt = kit()


class Function:
    """A function of a crate's source: its path, its file, its indent, the numbers of its first line, of that which ends
    its head and of its last, and whether others can call it: it is public, or of a trait that is."""

    def __init__(self, path, file, lines, first, is_public, is_of_trait):
        self.path, self.file, self.first, self.can_be_called = path, file, first, is_public or is_of_trait
        self.indent = re.match(" *", lines[first])[0]
        self.opens = next(n for n in range(first, len(lines)) if lines[n].endswith(("{", "{}", ";")))
        self.has_body = not lines[self.opens].endswith(";")
        self.closes = lines.index(f"{self.indent}}}", self.opens) if lines[self.opens].endswith("{") else self.opens
        head = "\n".join(lines[first : self.opens])
        # (a law gives nothing and changes nothing, and an edit names a line that stands once)
        named = [it for it in lines[self.opens + 1 : self.closes] if "\n".join(lines).count(it) == 1]
        self.needs_wrong_body = is_public and "ensures" in head and ("->" in head or "&mut" in head) and bool(named)


def end_of(path):
    """Returns the last two words of a function's path: the prover names a method of an impl in another file than its
    type by the type's module."""
    return "::".join(path.split("::")[-2:])


def functions_of(crate):
    """Returns the functions of a crate, in the order of their files and lines."""
    texts = {}
    for at, folders, files in os.walk(f"{crate.folder}/src"):
        folders.sort()
        texts.update((os.path.relpath(f"{at}/{file}", crate.folder), read(f"{at}/{file}")) for file in sorted(files))
    private = {it for text in texts.values() for it in PRIVATE_TRAIT.findall(text)}
    found = []
    for file, text in texts.items():
        lines = text.split("\n")
        module = re.sub(r"^src/|(/?\b(lib|main|mod))?\.rt$", "", file).replace("/", "::")
        inside, is_of_trait = "", False
        for n, line in enumerate(lines):
            block, function = IMPL.match(line), FUNCTION.match(line)
            if block or line == "}":
                names = names_in(block) if block else []
                inside = "".join(reversed(names))
                is_of_trait = bool(block) and (block[1] == "trait" or len(names) > 1) and names[0] not in private
            if function:
                path = "::".join(it for it in (crate.name, module, inside, function[3]) if it)
                found.append(Function(path, file, lines, n, bool(function[2]), is_of_trait))
    return found


def names_in(head):
    """Returns the names in the head of an impl or a trait: that of the trait, if it is of one, then that of the type.
    The prover names the impl by the type and then the trait."""
    text = re.sub(r"^<(?:[^<>]|<[^<>]*>)*>", "", head[2]).split(" where ")[0]
    return [re.match(r"[&\s]*(?:\w+::)*(\w+)", it)[1] for it in text.split(" for ")]


def plain(symbol):
    """Returns the function that a symbol, or a folder of proofs behind the crate's name, is of: a closure's is that of
    the function around it, and the proof of one that calls itself stands in +NAME."""
    return re.sub(r"::fn::(\w+)::.*$", r"::\1", symbol.replace("/+", "/").replace("/", "::"))


def added(text):
    """Counts the steps that an edit adds."""
    steps = [
        collections.Counter(word for pair in PAIR.finditer(text) for word in STEP.findall(pair[side]))
        for side in (1, 2)
    ]
    return steps[1] - steps[0]


def form_of(text):
    """Counts the kinds of the steps that an edit adds: each branch and loop, and calls, bindings, places and
    operators."""
    kinds = {**{it: it for it in BRANCHES}, "let": "binding", "return": "binding", "[": "place"}
    return collections.Counter(kinds.get(it, "operator" if it[0] == " " else "call") for it in added(text).elements())


def is_order_alone(text):
    """Whether an edit only changes the order of words: it can mean the same, as a test does whose sides are
    exchanged."""
    return all(
        sorted(re.findall(r"\w+|\S", old)) == sorted(re.findall(r"\w+|\S", new)) for old, new in PAIR.findall(text)
    )


def shown(why):
    """Returns of a message what tells most: the values that differ, or else its beginning."""
    found = DIFFER.findall(why)
    told = f"{found[-1][1]} where it must be {found[-1][0]}" if found else " ".join(why.split())
    return told if len(told) <= 160 else f"{told[:160]}.."


class WrongBody:
    """An edit, and the right one beside it, if there is one; the function that it changes, the steps that it adds, the
    goals by which it is refused, and those that would count if a right body stood beside it."""

    def __init__(self, crate, file, functions):
        self.crate, self.name = crate, os.path.basename(file)[: -len(".edit")]
        self.text, right = read(file), f"{crate.folder}/wrong-bodies/{self.name}.right"
        self.right = read(right) if os.path.isfile(right) else ""
        self.function, self.is_of_helper, self.goals, self.waiting = None, False, [], []
        self.adds, self.lacks_right = added(self.text), not self.right and bool(ASKING & {*form_of(self.text)})
        self.fault = self.placed(self.text, functions) or self.right and self.placed(self.right, functions)
        form, has = form_of(self.text), form_of(self.right)
        lacks = [it for it in form if (has[it] != form[it] if it in BRANCHES else not has[it])]
        if lacks and not self.fault and (self.right or BRANCHES & {*form}):
            missing = f"beside it stands no {self.name}.right of that form: {' '.join(lacks)}"
            self.fault = f"it adds {' '.join(sorted(form))}, and {missing}"

    def placed(self, text, functions):
        """Notes the function that an edit changes, and returns what is wrong with where it does so."""
        fault = rt.edited(text, self.crate.folder)[1]
        if fault:
            return fault
        file = re.search(r"^file: (.*?)\s*$", text, re.M)[1]
        before = read(f"{self.crate.folder}/{file}")
        for old, new in PAIR.findall(text):
            line = before.partition(old)[0].count("\n")
            found = next((it for it in functions if it.file == file and it.opens < line < it.closes), None)
            if not found or self.function not in (None, found.path):
                return "it does not stand between the head and the end of one function"
            self.function, self.is_of_helper = found.path, not found.can_be_called
            before = before.replace(old, new)
        return None

    def unguarding(self, called):
        """Returns what is wrong with what it says to guard, or None, where these are the paths of what can be
        called."""
        guarded = GUARDS.findall(self.text)
        if self.is_of_helper != bool(guarded) and not self.fault:
            rule = "a line 'guards: NAME' says for which theorem a helper's stands there, and no other has one"
            return f"{self.label()}: {rule}"
        missing = [it for it in guarded if not any(path.endswith(f"::{it}") for path in called)]
        return f"{self.label()}: it guards {missing[0]}, and there is no such law or call" if missing else None

    def label(self):
        return f"{self.crate.name}/{self.name}"

    def differs(self, why):
        """Whether a message shows two values that differ, neither of which names a step that the edit adds. Where it
        adds an operator they can be the same, as a value plus 0 is: a proof by hand need not see that."""
        found = [] if any(it[0] == " " for it in self.adds) else DIFFER.findall(why)
        names = "|".join("index" if it == "[" else re.escape(it.rstrip("!")) for it in self.adds)
        return bool(found) and not any(OF_STEPS.search(it) or re.search(rf"\.(?:{names})\b", it) for it in found[-1])

    def outcome(self):
        return REFUSED if self.goals else UNDECIDED if self.waiting else NOT_REFUSED

    def judge(self, said):
        """Notes the goals by which it is refused, and those that would count with a right body. Returns what else was
        said of the function."""
        self.goals, self.waiting = [], []
        lost = [why for _, why in said.faults[self.function] if TAKEN_AWAY.search(why)]
        other = [f"a name is missing: {shown(why)}" for why in lost]
        speaks = self.right or not is_order_alone(self.text)

        def note(told, is_asked, is_decided):
            waits = is_asked and self.lacks_right
            (self.goals if is_asked and is_decided else self.waiting if waits else other).append(told)

        for goal, how in said.open[self.function].items():
            is_asked = OF_CONTRACT.match(goal) and not lost
            note(f"`{goal}` {how}", is_asked, how == FALSE or speaks and not self.lacks_right)
        for goal, why in said.faults[self.function]:
            if goal and why not in lost:
                is_asked = OF_CONTRACT.match(goal) and not ASKS_NOTHING.search(why)
                shows = self.right or not self.adds or self.differs(why)
                note(f"`{goal}` by hand: {shown(why)}", is_asked, speaks and shows and not self.lacks_right)
        return other


def answered(text, name):
    """Returns the goal that a proof by hand fails at: a lemma beside the answers stands for the goal of a contract that
    cites it."""
    word = re.compile(rf"(?<![\w-]){re.escape(name)}(?![\w-])")
    blocks = re.findall(r"^(?:pub )?(\S+) (.*(?:\n(?: .*)?)*)", text, re.M)
    citing = [it for it, body in blocks if it != name and OF_CONTRACT.match(it) and word.search(body)]
    return citing[0] if name and citing and f"goal.{name}\n" not in text else name


class Said:
    """What a check says: of each function the goals that have no proof, and those whose proof by hand fails, each with
    why."""

    def __init__(self, crate, functions, text):
        self.open, self.faults = collections.defaultdict(dict), collections.defaultdict(list)
        self.functions = {plain(symbol) for symbol, _ in SAID.findall(text)}
        self.waits = {plain(it) for it in WAITS.findall(text)}
        for file, line, goal, why in OPEN.findall(text):
            found = [it.path for it in functions if it.file == file and it.first < int(line) <= it.closes + 1]
            how = FALSE if "allow values" in why else "has no proof"
            self.open[self.named(found[-1]) if found else file][goal] = how
        for symbol, words in SAID.findall(text):
            goals = re.search(r"`search` did not prove (`[^;]*)", words)
            for goal in re.findall(r"`([^`]+)`", goals[1]) if goals else []:
                self.open[plain(symbol)].setdefault(goal, "has no proof")
        for path, goal, why in FAULT.findall(text):
            answers = f"{crate.folder}/proofs/{path}/Answers.antt"
            goal = answered(read(answers), goal) if os.path.isfile(answers) else goal
            self.faults[plain(f"{crate.name}/{path}")].append((goal, why))

    def named(self, path):
        """Returns the prover's name of a function."""
        found = [it for it in self.functions if end_of(it) == end_of(path)]
        return found[0] if path not in self.functions and len(found) == 1 else path

    def left(self, functions):
        """Returns what is open of these functions."""
        told = {it: [*self.open[it], *[f"{goal} ({shown(why)})" for goal, why in self.faults[it]]] for it in functions}
        return [f"{it}: {', '.join(goals)}" for it, goals in sorted(told.items()) if goals]


def copy_with(crate, texts, kept, room):
    """Makes the copy of the crate in an empty folder, with these edits; of the functions not kept it has no body and no
    proof."""
    made = copy.copy(crate)
    made.folder = room
    for part in rt.rtlib.PARTS:
        if os.path.isdir(f"{crate.folder}/{part}"):
            shutil.copytree(f"{crate.folder}/{part}", f"{room}/{part}")
    for path, text in (rt.edited("\n".join(texts), crate.folder)[0] if texts else {}).items():
        write(f"{room}/{path}", text)
    # (the last of a file comes first, so that the lines of the others stay where they are)
    for function in reversed(functions_of(made)):
        if function.has_body and end_of(function.path) not in kept:
            lines = read(f"{room}/{function.file}").split("\n")
            body = [
                lines[function.opens].rstrip("}"),
                f"{function.indent}    crate::left_out()",
                f"{function.indent}}}",
            ]
            lines[function.opens : function.closes + 1] = body
            write(f"{room}/{function.file}", "\n".join(lines))
    root = f"{room}/src/{'main' if crate.is_program else 'lib'}.rt"
    write(root, read(root) + LEFT_OUT)
    for at, _, files in os.walk(f"{room}/proofs"):
        for file in {"Answers.antt", "Invariants.antt"} & {*files}:
            if end_of(plain(f"{crate.name}/{os.path.relpath(at, f'{room}/proofs')}")) not in kept:
                os.remove(f"{at}/{file}")
    os.makedirs(f"{room}/proofs/left_out")
    write(f"{room}/proofs/left_out/Answers.antt", HOLE % crate.name)
    return made


def checked(crate, flags):
    """Checks a copy of a crate in its folder, while there is time."""
    words = [*rt.rtlib.guarded(), rt.rtlib.RATTLE, "check", *crate.words(flags, keeps=False)]
    how = {"stdin": subprocess.DEVNULL, "stdout": subprocess.PIPE, "stderr": subprocess.STDOUT, "errors": "replace"}
    try:
        return subprocess.run(words, cwd=crate.folder, timeout=Clock.left(), **how)
    except subprocess.TimeoutExpired:
        raise OutOfTime from None


def check(crate, bodies, are_right):
    """Checks a copy of the crate with these wrong bodies, or with the right ones in their place. Returns what was said
    of which, and what is wrong: where a check comes to no verdict, each half is checked, so that one edit costs the
    others nothing."""
    kept = {end_of(it.function) for it in bodies}
    words = [
        "--jobs",
        "1",
        "--allow-holes",
        *[word for it in sorted(kept) for word in ("--only", re.sub(f"^{crate.name}::", "", it))],
    ]
    texts = [it.right if are_right else it.text for it in bodies]
    with tempfile.TemporaryDirectory(prefix="wrong-bodies-") as room:
        made = copy_with(crate, [it for it in texts if it], kept, room)
        functions, ran = functions_of(made), checked(made, words)
        if ran.returncode < 0:
            # (killed, most likely for memory)
            ran = checked(made, words)
    lines = ran.stdout.rstrip("\n").split("\n")
    if ran.returncode in (0, 1) and lines[-1].startswith("only=") and not rt.rtlib.STALE.search(ran.stdout):
        return [(bodies, Said(crate, functions, ran.stdout))], []
    if len(bodies) == 1:
        which = "" if not are_right else " with the right body" if bodies[0].right else " without the edit"
        return [], [f"{bodies[0].label()}: its check{which} came to no verdict:", *[f"    {it}" for it in lines[-12:]]]
    halves = [check(crate, it, are_right) for it in (bodies[: len(bodies) // 2], bodies[len(bodies) // 2 :])]
    return halves[0][0] + halves[1][0], halves[0][1] + halves[1][1]


def try_right(crate, bodies):
    """Checks the copy without wrong bodies. Returns those whose functions are proved there, and what is wrong with the
    others."""
    told, wrong = check(crate, bodies, True)
    sound = []
    for some, said in told:
        wrong += [
            f"{crate.name}: with no wrong body there are open goals in {it}"
            for it in said.left({*said.functions, *said.faults})
        ]
        proved = {end_of(it) for it in said.functions if not said.open[it] and not said.faults[it]}
        sound += [it for it in some if end_of(it.function) in proved]
    return sound, wrong


def try_wrong(crate, bodies):
    """Checks the copy with the wrong bodies, notes the goals of each, and returns what is wrong."""
    wrong, left = [], [bodies] if bodies else []
    while left:
        told, faults = check(crate, left[0], False)
        wrong, untold = wrong + faults, []
        for some, said in told:
            for body in some:
                body.function = said.named(body.function)
                other = body.judge(said)
                if body.function not in said.functions:
                    wrong.append(f"{body.label()}: the check speaks of no function {body.function}")
                elif not body.goals and body.function in said.waits and len(some) > 1:
                    untold.append(body)
                elif body.outcome() == NOT_REFUSED:
                    why = "; ".join(other) or f"no goal of {body.function} is open"
                    wrong.append(f"{body.label()}: NOT REFUSED: {why}")
            others = {*said.functions, *said.faults} - {it.function for it in some}
            wrong += [f"{crate.name}: not changed, and has open goals: {it}" for it in said.left(others)]
        # (those that could not be told are tried by themselves; where that is none fewer, one by one)
        left = left[1:] + ([untold] if len(untold) < len(left[0]) else [[it] for it in untold]) * bool(untold)
    return wrong


def stand_together(crate, bodies):
    """Whether one copy of the crate can hold these wrong bodies, and one the right ones."""
    sides = "\n".join(it.text for it in bodies), "\n".join(it.right for it in bodies)
    return len({it.function for it in bodies}) == len(bodies) and not any(
        it.strip() and rt.edited(it, crate.folder)[1] for it in sides
    )


def try_crate(crate, bodies):
    """Tries a crate's wrong bodies, and returns what came of them."""
    wrong, left = [f"{it.label()}: {it.fault}" for it in bodies if it.fault], [it for it in bodies if not it.fault]
    while left:
        some = []
        for body in left:
            some += [body] if stand_together(crate, [*some, body]) else []
        left = [it for it in left if it not in some]
        sound, more = try_right(crate, some)
        wrong += more + try_wrong(crate, sound)
    refused, undecided = ([it for it in bodies if it.outcome() == how] for how in (REFUSED, UNDECIDED))
    told = [f"{it.label()}: refused in {it.function}: {'; '.join(it.goals)}" for it in refused]
    told += [f"{it.label()}: UNDECIDED, for want of a right body: {'; '.join(it.waiting)}" for it in undecided]
    return Outcome(told, [it.label() for it in refused], [it.label() for it in undecided], wrong)
