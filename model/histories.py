"""Histories at random: requests one after another, each made with a view to what the treasury holds by then.

A history is a list of items: a dict is a request, bytes are a line that may be none, and a tuple of bytes is what a
connection sends. The same seed gives the same history. What is held is asked of a model, whose answers say what a
history reaches. A *situation* counts as reached only if its answer is the one that stands here, worked out by hand.
"""

import collections
import json
import random
import re

from model.amounts import GROUP, print_sample
from model.random_texts import (
    LIMITS, ODD, STORIES, amount, bad_amount, day_text, forms, header, odd, odd_call, odd_json, odd_line,
    odd_posting, posting, price, spelled,
)
from model.requests import BRANCH_COMMANDS, is_count, REPORTS
from model.treasury import Treasury

FIRST_DAY, LAST_DAY = 19723, 2932896  # 2024-01-01 and 9999-12-31
FORMS, ACCOUNTS = forms(), ODD["accounts"]
PLACE = re.compile(r"<(other\.)?([a-z]+)([+-][0-9]+)?>")
# What stands before the name of a request in what is counted, by its value of `dry-run`
DRY = {None: "", "yes": "dry run of ", "no": "no dry run of "}
# The kinds of history: how many branches and commodities they begin with, and what they ask for how often
KINDS = {
    "plain": (3, 3, "enter*9 branch commodity dispatch*4 receive*6 lock close*2 report*4 again*3 nearly*3 form*2 json "
              "call*2 returned counts"),
    "assertions": (2, 3, "enter*9 statement*9 dispatch*3 receive*6 report*2 again nearly"),
    "parts": (11, 2, "dispatch*4 receive*14 parts lock again*2 nearly*4 report*2 enter"),
    "closings": (2, 3, "enter*6 close*6 closings lock again nearly*2 report*2 dispatch receive returned"),
    "texts": (2, 4, "form*9 line*9 limit*3 enter*3 json*3 call*5 commodity*2 report"),
    "full": (31, 15, "branch*6 commodity*6 dispatch*2 receive*3 enter*4 report*2 parts close limit large again"),
}


def kind_of(answer):
    """What an answer comes to, without its further numbers and names."""
    words = answer.split(b"\n")[-2].decode().split(" ") if answer else ["nothing"]
    if words[0] == "refused":
        return f"refused {words[1]}" + (" line" if words[1:4:2] == ["28", "line"] else "")
    return "ok 0 new" if words[:3] == ["ok", "0", "new,"] else words[0]


class History:
    """A history as it grows: its items and their lines, the answers to these, and how often it reached what."""

    def __init__(self, seed):
        self.rng, self.treasury, self.count = random.Random(seed), Treasury(), 0
        self.steps, self.answers, self.reached = [], [], collections.Counter()
        self.look()
        self.kind = self.rng.choice(list(KINDS))
        branches, units, moves = KINDS[self.kind]
        self.open(branches, units)
        moves = [(one + "*1").split("*")[:2] for one in moves.split()]
        moves = [move for move, times in moves for _ in range(int(times))]
        for _ in range(self.rng.choice((20, 60, 120, 250))):
            getattr(self, self.rng.choice(moves))()
        for name in self.names[:4]:
            self.ask({"do": "journal", "branch": name})
            self.ask({"do": "balance", "branch": name, "day": "9999-12-31"})

    # -- What is asked, and what is held

    def ask(self, request, situation=None, expected=None):
        """Asks for something, and counts what came of it; a situation only if it came as expected. Now and then it is
        asked for as a dry run first, or with a value of that key that is refused, which changes nothing; or by another
        number of entries, which changes nothing either, or by the right one, which makes no difference."""
        keys = {"do": "line", "dry-run": None} if isinstance(request, bytes) else request
        if "dry-run" not in keys and self.chance(0.12):
            self.ask({**keys, "dry-run": "yes" if self.chance(0.9) else odd(self.rng, "dry_runs")})
        if keys.get("do") in BRANCH_COMMANDS and "if-entries" not in keys and self.chance(0.12):
            bound = {**keys, "if-entries": self.entries(keys)}
            if is_count(bound) and int(bound["if-entries"]) == self.held(keys):
                keys = request = bound
            else:
                self.ask(bound)
        line = spelled(self.rng, request) if keys is request else request
        answer = self.treasury.answer(line)
        kind = kind_of(answer)
        self.steps.append((request, line))
        self.answers.append(answer)
        form = DRY.get(keys.get("dry-run"), "odd dry run of ") if is_count(keys) else "odd count of "
        self.reached[f"{form}{keys.get('do')} {kind}"] += 1
        if situation and kind == expected:
            self.reached[situation] += 1
        if kind == "refused 29" and keys is request:
            entries = self.treasury.books[keys.get("branch", keys.get("from"))].entries
            is_held = int(answer.split()[6]) <= len(entries)
            self.reached["an assertion of an earlier entry fails" if is_held else "a new assertion fails"] += 1
        self.look()
        return kind

    def look(self):
        """Looks at what is held."""
        self.names = list(self.treasury.books)
        self.units = [(unit, *style) for unit, style in enumerate(self.treasury.styles)]

    def held(self, request):
        """How many entries the branch has that a command is of."""
        book = self.treasury.branch_of(request)
        return len(book.entries) if book else 0

    def entries(self, request):
        """A number for `if-entries`: that of the branch, a near one, that of another branch, or a text that is none."""
        rng, count = self.rng, self.held(request)
        if self.chance(0.08):
            return odd(rng, "counts", count=str(count))
        other = len(self.treasury.books[self.branch_name()].entries)
        count = max(0, rng.choice((count, count, count, count + 1, count - 1, count + 10, other)))
        return rng.choice(("{}", "{}", "{}", "{:02}", "{:05}")).format(count)

    def chance(self, share):
        return self.rng.random() < share

    def branch_name(self):
        return self.rng.choice(self.names)

    def unit(self):
        return self.rng.choice(self.units[:3] if self.chance(0.8) else self.units)

    def account(self):
        return self.rng.choice(ACCOUNTS[:8]) if self.chance(0.5) else odd(self.rng, "accounts")

    def locked(self, name):
        return self.treasury.books[name].locked

    def day(self, name=None):
        """A day that is probably open in the branch."""
        rng, lock = self.rng, self.locked(name) if name else None
        if lock is not None and lock < LAST_DAY and self.chance(0.9):
            return lock + rng.choice((0, 1, 1, 1, 2, rng.randrange(1, 60)))
        if self.chance(0.03):
            return rng.choice((-719162, -1, 0, 11016, LAST_DAY, FIRST_DAY + 59))
        return FIRST_DAY + rng.randrange(rng.choice((6, 60)))

    def quantity(self):
        rng = self.rng
        return rng.choice((100, 1, 5, 10**4, rng.randrange(1, 10**5), rng.randrange(1, 10**5), rng.randrange(2)))

    def fresh(self, letter):
        self.count += 1
        return f"{letter}{self.count}"

    def text(self, day):
        return day_text(self.rng, day)

    def enter_text(self, name, text, *situation):
        return self.ask({"do": "import", "branch": name, "journal": text}, *situation)

    # -- Declarations

    def open(self, branches, units):
        """Declares what a history of this kind begins with."""
        for name in (ODD["names"][:4] + [f"b{n}" for n in range(28)])[:branches]:
            self.ask({"do": "branch", "name": name})
        for sample in (["1,000.00 EUR", "$1,000.00"] + self.rng.sample(ODD["samples"], 15))[:units]:
            self.ask({"do": "commodity", "sample": sample})

    def branch(self):
        """A new name, one that is there, or one that is none."""
        names = [odd(self.rng, "names"), self.fresh("c"), self.branch_name(), odd(self.rng, "bad_names")]
        self.ask(self.spoiled({"do": "branch", "name": self.rng.choice(names)}))

    def commodity(self):
        """A new sample, one whose symbol is declared, with this style or nearly so, or one that is none."""
        rng, pick = self.rng, self.rng.random()
        if pick < 0.5:
            title = "samples" if pick < 0.15 else "bad_samples"
            sample = odd(rng, title) if pick < 0.35 else "1.0 " + rng.choice("ABCDEFGH")
        else:
            style = rng.choice(self.treasury.styles)
            decimals, mark = min(6, style.decimals + 1), GROUP[style.mark]
            change = rng.choice(({"decimals": decimals}, {"mark": mark}, {"grouped": not style.grouped},
                                 {"left": not style.left}, {"spaced": not style.spaced}, {}, {}, {}, {}, {}))
            sample = print_sample(style._replace(**change))
            if self.chance(0.1) and '"' not in sample:
                sample = sample.replace(style.symbol, f'"{style.symbol}"')
        self.ask(self.spoiled({"do": "commodity", "sample": sample}))

    # -- Journals

    def claim(self, name, account, unit, day, among=(), moved=0):
        """An assertion of what is there through a day, or nearly so; `among` are legs that come before it."""
        sign = self.rng.choice(("=", "=", "==", "=*", "==*"))
        legs = [(entry.day, *leg) for entry, _, leg in self.treasury.books[name].posted()]
        found = sum(
            leg[3] for leg in legs + list(among) if leg[0] <= day and leg[2] == unit[0]
            and (leg[1] == account or "*" in sign and leg[1].startswith(account + ":"))
        )
        wrong = self.rng.choice((1, -1, 100)) if self.chance(0.06) else 0
        return sign + " " + amount(self.rng, unit, found + moved + wrong)

    def transaction(self, name, legs):
        """The lines of a transaction that is probably right; what is sure of its legs comes to `legs`."""
        rng, day, unit, quantity = self.rng, self.day(name), self.unit(), self.quantity()
        one, other, pick = self.account(), self.account(), rng.random()
        lines = [header(rng, day)]
        if self.chance(0.4):
            lines.append("    ; bookid:" + (f"m{rng.randrange(40)}" if self.chance(0.7) else self.fresh("k.")))
        lines += ["    ;" + odd(rng, "comments") for _ in range(rng.choice((0, 0, 1, 2)))]
        claim = self.claim(name, one, unit, day, legs, quantity) if self.chance(0.3) else ""
        cost = price(rng, self.units, unit) if pick < 0.15 else ""
        comment = odd(rng, "comments") if self.chance(0.3) else None
        lines.append(posting(rng, one, amount(rng, unit, quantity), cost, claim, comment))
        legs.append((day, one, unit[0], quantity))
        if pick > 0.7:
            lines.append(posting(rng, self.account(), amount(rng, self.unit(), -self.quantity())))
        if pick > 0.7 or pick < 0.3:
            lines.append(posting(rng, other))
        else:
            lines.append(posting(rng, other, amount(rng, unit, -quantity)))
            legs.append((day, other, unit[0], -quantity))
        if self.chance(0.1):
            lines.append(posting(rng, other, amount(rng, unit, 0), "", self.claim(name, other, unit, day, legs)))
        return lines

    def enter(self):
        """An import of some transactions, in which nothing, a line or two, or a part of a line is wrong."""
        rng, name, legs = self.rng, self.branch_name(), []
        pieces = [self.transaction(name, legs) for _ in range(rng.choice((1, 1, 2, 3, 5)))]
        if self.chance(0.2):
            pieces.insert(rng.randrange(len(pieces) + 1), rng.choice(pieces))
        piece, zero = rng.choice(pieces), amount(rng, self.unit(), 0)
        change = rng.choice("12345" + ".........." + "6" * 4)
        if change == "1":
            piece[1:] = [posting(rng, "a:x", amount(rng, self.unit(), 1))] if self.chance(0.5) else []
            piece.append(posting(rng, odd(rng, "reserved"), rng.choice(("", zero))))
        elif change == "2":
            piece.insert(1, "    ; bookid:" + odd(rng, "marks"))
        elif change == "3":
            piece[1:] = [posting(rng, "a:x"), posting(rng, "a:y")][: rng.choice((1, 2))]
        elif change == "4":
            large = amount(rng, self.units[0], rng.choice((10**16, 5 * 10**15, 5 * 10**15 - 1, 5 * 10**15 - 10**9)))
            piece[1:] = [posting(rng, "a:x", large)] * rng.choice((1, 2)) + [posting(rng, "a:y")]
        elif change == "6":
            piece.insert(rng.randrange(1, len(piece) + 1), odd_posting(rng, self.units))
        lines = [line for piece in pieces for line in piece + [""]]
        for _ in range(rng.choice((0, 0, 0, 1, 2))):
            lines.insert(rng.randrange(len(lines)), odd_line(rng, self.units))
        end = rng.choice(("\n", "\n", "\n", "\r\n"))
        text = "\n".join(lines).replace("\n", end) + rng.choice((end, ""))
        self.ask(self.spoiled({"do": "import", "branch": name, "journal": text}))

    def statement(self):
        """Assertions of many balances as they are on a day, which bind what comes late."""
        rng, name, lines = self.rng, self.branch_name(), []
        day = self.day(name)
        for _ in range(rng.choice((1, 4))):
            lines += [header(rng, day)]
            for account in rng.sample(ACCOUNTS[:6], 2):
                unit = self.unit()
                lines.append(posting(rng, account, amount(rng, unit, 0), "", self.claim(name, account, unit, day)))
        self.enter_text(name, "\n".join(lines) + "\n")

    def line(self):
        """A few lines that may be wrong, in a transaction or not."""
        rng = self.rng
        lines = rng.choice((["2024-01-05 x"], [], [header(rng, self.day(), 0.2)]))
        lines = lines + [rng.choice((odd_line, odd_posting))(rng, self.units) for _ in range(rng.choice((1, 1, 2, 3)))]
        self.enter_text(self.branch_name(), rng.choice(("\n", "\n", "\r\n")).join(lines))

    def form(self):
        """A text that FORMATS lists, where it belongs."""
        section, text = self.rng.choice(FORMS)
        self.reached[f"form {text!r} of {section[:7]}"] += 1
        name, first = self.branch_name(), "2024-01-05 x\n"
        if section in ("Dates", "Amounts"):
            self.ask(self.sent(**{"day" if section == "Dates" else "amount": text}))
        elif section == "Samples" or text[-1] in '"Y' and text[0].isdigit() and "\n" not in text:
            self.ask({"do": "commodity", "sample": text})
        elif section == "Tags":
            self.enter_text(name, first + "    a:x  1.00 EUR ;" + text + "\n    a:y\n")
            for tag in ("vendor", "due=friday", "b=c d:e", "f", "-=1", "é"):
                self.ask({"do": "register", "branch": name, "account": "a", "tag": tag})
        elif section == "Prices":
            self.enter_text(name, first + "    a:x  100.00 EUR " + text + "\n    a:y")
        elif section in ("Journal text", "Canonical text") and not text[0].isdigit():
            self.enter_text(name, first + "    " + text.strip() + "\n    a:y")
        else:
            self.enter_text(name, text + "\n")

    def returned(self):
        """What a branch has printed comes back, to it or to another; and so do the samples of the commodities."""
        for style in self.treasury.styles:
            self.ask({"do": "commodity", "sample": print_sample(style)}, "a printed sample comes back", "repeated")
        name, other = self.branch_name(), self.branch_name()
        text = self.treasury.journal(name).decode()
        if text and len(text) < 20000:
            self.enter_text(name, text, "a printed journal comes back", "ok 0 new")
            self.enter_text(other, text)

    # -- Transfers

    def spoil(self, key, value, share=0.06):
        """The value of a key, or now and then another that is likely to be refused."""
        rng = self.rng
        if key in ("do", "journal") or not self.chance(share):
            return value
        if key in ("branch", "from", "to"):
            return rng.choice(("nowhere", self.branch_name(), ""))
        if key == "amount":
            right = amount(rng, self.unit(), rng.choice((0, -1, 1, 10**16, 5 * 10**15 + 1)))
            return bad_amount(rng, self.unit()) if self.chance(0.4) else right
        if key in ("account", "into", "accounts") and self.chance(0.7):
            return odd(rng, "bad_accounts" if self.chance(0.7) else "reserved")
        transfers = self.treasury.transfers
        held = [part for it in transfers.values() for part in it.receipts] if key == "part" else list(transfers)
        title = {"accounts": "lists", "into": "targets"}.get(key, key + "s")
        return odd(rng, title, held=rng.choice(held) if held else "t1")

    def spoiled(self, request):
        """A request some of whose values may be spoiled, and which may lack a key or have one too many; or a dry run
        that is not followed by its command."""
        share = self.rng.choice((0, 0.06, 0.06, 0.06, 0.06, 0.5))
        request = {key: self.spoil(key, value, share) for key, value in request.items()}
        if self.chance(0.08):
            request["dry-run"] = self.rng.choice(("yes", "no"))
        if request["do"] in BRANCH_COMMANDS and self.chance(0.08):
            request["if-entries"] = self.entries(request)
        if len(request) > 1 and self.chance(0.01):
            request.pop(self.rng.choice(list(request)))
        elif self.chance(0.01):
            request[self.rng.choice(("more", "part", "amount", "into", "tag", "if-entries"))] = "0"
        return request

    def sent(self, letter="t", **changed):
        """A dispatch that is probably right."""
        rng, source = self.rng, self.branch_name()
        others = [name for name in self.names if name != source] or [source]
        request = {"do": "dispatch", "id": self.fresh(letter), "from": source, "to": rng.choice(others),
                   "day": self.text(self.day(source)), "amount": amount(rng, self.unit(), self.quantity()),
                   "account": self.account()}
        return dict(request, **changed)

    def dispatch(self):
        return self.ask(self.spoiled(self.sent()))

    def receive(self):
        """A receipt of a transfer of which something is probably left: of all of it, or of a part."""
        rng, transfers = self.rng, self.treasury.transfers
        waiting = [key for key in transfers if transfers[key].left()] if self.chance(0.9) else list(transfers)
        if not waiting:
            return self.dispatch()
        key = rng.choice(waiting)
        held = transfers[key]
        left, unit = held.left(), self.units[held.amount[0]]
        day = max(held.day, self.day(held.target)) if self.chance(0.9) else held.day + rng.choice((-1, 0, 1))
        request = dict(do="receive", id=key, branch=held.target, day=self.text(day), account=self.account())
        if self.chance(0.3 if self.kind == "assertions" else 0.75):
            part = rng.choice((left, left + 1, left - 1, 1, left // 2, rng.randrange(1, left + 2), left // 3 + 1))
            key = rng.choice(("p1", "p2", "all", "A", "p-1._", "x" * 32)) if self.chance(0.4) else self.fresh("p")
            request.update(part=key, amount=amount(rng, self.unit() if self.chance(0.05) else unit, part))
        kind = self.ask(self.spoiled(request))
        if kind == "ok" and "part" in request and len({it.target for it in transfers.values() if it.parts()}) >= 10:
            self.reached["a part where ten branches have parts"] += 1
        return kind

    def parts(self):
        """A transfer in parts, with what is refused in between."""
        source, target = self.rng.sample(self.names, 2)
        whole, day = self.rng.randrange(30, 10**4), max(self.locked(it) or FIRST_DAY for it in (source, target)) + 3
        parts = {"all": whole, "third": whole // 3, "rest": whole - whole // 3}
        self.tell("parts", day, parts, source=source, target=target, id=self.fresh("T"))

    def large(self):
        """A book near the limit of its turnover, where a receipt and a closing exceed it."""
        (source, target), day = self.rng.sample(self.names, 2), FIRST_DAY + 335
        rent, large = (amount(self.rng, self.units[0], 3 * 10**15 - 7), amount(self.rng, self.units[0], 3 * 10**15))
        text = f"{self.text(day)} {self.fresh('g')}\n    expenses:rent  {rent}\n    a:x\n"
        names = {"source": source, "target": target, "id": self.fresh("G"), "journal": text, "large": large}
        self.tell("large", day, {}, **{name: json.dumps(value)[1:-1] for name, value in names.items()})

    def counts(self):
        """Each command of two branches by the number of their entries, which changes in between."""
        (source, target), own = self.rng.sample(self.names, 2), self.fresh("expenses:own")
        day = max(self.locked(it) or FIRST_DAY for it in (source, target)) + 3
        first, second = (f"{self.text(day)} {self.fresh('n')}\n    {own}  {amount(self.rng, self.unit(), quantity)}\n"
                         for quantity in (self.quantity() + 1, 1))
        whole = self.rng.randrange(30, 10**4)
        parts = {"all": whole, "third": whole // 3}
        names = {"source": source, "target": target, "id": self.fresh("N"), "own": own, "bad": second,
                 "journal": json.dumps(first + "    a:x\n")[1:-1], "second": second + "    a:x\n"}
        self.tell("counts", day, parts, **names)

    def tell(self, title, day, quantities, **names):
        """Goes through a story of model/stories."""
        coins, rng = collections.defaultdict(lambda: self.chance(0.5)), self.rng
        units, quantities, is_first = rng.sample(self.units, 2), {"zero": 0, **quantities}, True
        counts = {name: len(book.entries) for name, book in self.treasury.books.items()}

        def named(text):
            return re.sub("<([a-z]+)>", lambda it: named(names[it[1]]) if it[1] in names else it[0], text)

        def valued(found):
            other, name, more = found[1], found[2], int(found[3] or 0)
            if name in ("entries", "others"):
                return str(counts[names["target" if name == "entries" else "source"]] + more)
            return self.text(day + more) if name == "day" else amount(rng, units[bool(other)], quantities[name] + more)

        for line in filter(None, STORIES[title]) if day < LAST_DAY - 90 else ():
            choices, line = re.fullmatch("((?:[a-z]+[?!] )*)(.*)", line).groups()
            if not all(coins[choice[:-1]] == (choice[-1] == "?") for choice in choices.split()):
                continue
            expected, *asked = line.split(" | ")
            if not asked:
                name, text = line.split(" =", 1)
                names[name] = text[1:]
                continue
            base, *changes = asked[1].split(" ")
            request = json.loads(named(names[base]))
            request.update(named(change).split("=", 1) for change in changes)
            request = {key: PLACE.sub(valued, value) for key, value in request.items()}
            if self.ask(request, asked[0], expected) != expected and is_first:
                return
            is_first = False

    # -- Locks and closings

    def lock(self):
        rng, name = self.rng, self.branch_name()
        lock = self.locked(name)
        day = FIRST_DAY + rng.randrange(9) if lock is None else min(lock + rng.choice((-1, 0, 0, 1, 3)), LAST_DAY)
        self.ask(self.spoiled({"do": "lock", "branch": name, "day": self.text(day)}))

    def close(self):
        """A closing, of the revenue and expense accounts or of a list, into the usual target or another."""
        rng, name = self.rng, self.branch_name()
        day = min(self.day(name), FIRST_DAY + 90) + rng.choice((0, 0, 0, 5))
        request = {"do": "close", "branch": name, "day": self.text(day)}
        held = sorted(self.treasury.books[name].accounts()) or ["expenses:food"]
        if self.chance(0.6):
            one, other = rng.choice(held), rng.choice(held).rpartition(":")[0] or "expenses"
            listed = [rng.choice((one, one, other, self.account())) for _ in range(rng.choice((1, 1, 2, 3)))]
            keep = [it for it in listed if not it.startswith("assets:transit:") or self.chance(0.1)]
            request["accounts"] = ";".join(keep)
        if self.chance(0.4):
            request["into"] = rng.choice(("equity:fund", "equity:retained earnings", "assets:bank", self.account()))
        self.ask(self.spoiled(request))

    def closings(self):
        """A closing of a list around a day, with what is refused before and behind it."""
        name, unit, own = self.branch_name(), self.unit(), self.fresh("expenses:own")
        day, text = (self.locked(name) or FIRST_DAY) + 4, ""
        for account in ("expenses:food", "expenses:food:out", "expenses:foodstuff", "Income:dues", "other:x"):
            for at in (day - 1, day, day + 1):
                line = posting(self.rng, account, amount(self.rng, unit, self.quantity() + 1))
                text += f"{self.text(at)} {self.fresh('c')}\n{line}\n    assets:cash\n"
        one, none = amount(self.rng, unit, 1), amount(self.rng, unit, 0)
        late = f"{self.text(day)} late\n    expenses:food  {one}\n    assets:cash\n"
        bound = f"{self.text(day + 4)} x\n    {own}  {one}\n    a:x\n{self.text(day + 9)} x\n    {own}  {none} ={one}\n"
        self.tell("closings", day, {}, target=name, journal=json.dumps(text)[1:-1], late=late, bound=bound)

    # -- What else there is

    def report(self):
        rng, do = self.rng, self.rng.choice(list(REPORTS))
        day = self.text(self.day() if self.chance(0.9) else rng.choice((LAST_DAY, -719162)))
        accounts = ("assets", "expenses", "equity:conversion", "a", "assets:transit", self.account())
        values = {"branch": self.branch_name(), "day": day, "account": rng.choice(accounts), "tag": odd(rng, "tags"),
                  "from": day}
        needed, further = REPORTS[do]
        keys = needed + [key for key in further if self.chance(0.6)]
        self.ask(self.spoiled({"do": do, **{key: values[key] for key in keys}}))

    def earlier(self, count, kinds=None):
        """One of the latest requests, of some kinds or of all."""
        items = [item for item, _ in self.steps[-count:] if isinstance(item, dict)]
        return self.rng.choice([it for it in items if kinds is None or it.get("do") in kinds] or [self.sent()])

    def again(self):
        """An earlier request once more."""
        self.ask(self.earlier(60))

    def nearly(self):
        """An earlier command once more, but for one of its values."""
        rng, request = self.rng, dict(self.earlier(90, ("dispatch", "receive", "close", "import")))
        key = rng.choice(sorted(request.keys() - {"do"}))
        value = {
            "day": lambda: self.text(self.day()), "amount": lambda: amount(rng, self.unit(), self.quantity()),
            "part": lambda: rng.choice(("p1", "one", self.fresh("p"))), "into": self.account, "account": self.account,
            "if-entries": lambda: self.entries(request),
            "accounts": lambda: request["accounts"] + rng.choice((";", ";x", "x")),
            "journal": lambda: request["journal"].replace("hall", "Hall", 1).replace("1", "2", rng.randrange(2)),
        }.get(key, self.branch_name)
        if key in request and key != "id":
            request[key] = value()
        self.ask(request)

    def json(self):
        """A line that may be no request."""
        self.ask(odd_json(self.rng, self.earlier(30)))

    def call(self):
        """What a connection sends that has not the usual head; a run is asked for nothing."""
        reading = {"do": "balance", "branch": self.branch_name(), "day": "2024-01-31"}
        request = {"do": "branch", "name": self.fresh("http-")} if self.chance(0.3) else reading
        call = odd_call(self.rng, spelled(self.rng, request), self.branch_name())
        self.steps.append(((call,), None))
        self.answers.append(b"")

    def limit(self):
        """A limit that is met, or passed by one."""
        by, (what, refused, *texts) = self.rng.choice((0, 1)), self.rng.choice(LIMITS)
        if not texts:
            request = self.wide_closing(1000 + by)
        else:
            branch, to = self.rng.sample(self.names, 2)
            text = odd(self.rng, texts[by and len(texts) - 1], by if len(texts) == 1 else 0, branch=branch, to=to,
                       day=self.text(self.day()), new=self.fresh("n000000")[-7:].replace("0", "n", 1), s=" ",
                       p="    a:x  0 EUR\\n", list=("a" * 199 + ";") * 4)
            request = text.encode() if what == "nesting" else json.loads(text)
        if (self.ask(request) == refused) == bool(by) or refused == "ordinary":
            self.reached[f"{what} is {'passed' if by else 'met'}"] += 1

    def wide_closing(self, size):
        """A closing of so many postings, the last of which is to the target."""
        name, top, one = self.branch_name(), self.fresh("wide"), amount(self.rng, self.units[0], 1)
        day = min(max(self.locked(name) or 0, FIRST_DAY) + 1, LAST_DAY)
        for first, last in ((1, size // 2), (size // 2 + 1, size - 1)):
            lines = "".join(f"    {top}:{n}  {one}\n" for n in range(first, last + 1))
            self.enter_text(name, f"{self.text(day)} {top}\n{lines}    a:y\n")
        return {"do": "close", "branch": name, "day": self.text(day), "accounts": top}
