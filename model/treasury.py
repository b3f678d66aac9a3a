"""The treasury as a whole.

    t = Treasury()                  a federation that has nothing yet
    t.answer(line)                  bytes: the whole answer to one line of JSON (without its end), with a report's lines
    t.command(words, files)         (status, standard output) of a command line over the file that this treasury stands
                                    for, after `init`; `words` stand behind `treasury`, with `--db FILE` or without it;
                                    `files` has the bytes of each journal by its name
    t.http(request)                 bytes: the whole reply to the bytes of one connection; the client closes its sending
                                    side after them
    t.rows()                        a file's tables: for each name the rows as tuples, in key order
    t.journal(branch)               bytes: the printed journal
    t.copy()                        an independent copy
"""

import re

from model import http, reports, tables, transfers, words
from model.amounts import declare_commodity, read_amount
from model.books import Book, import_journal
from model.closing import close
from model.refusals import Refused, Repeated, refuse_if
from model.requests import BRANCH_COMMANDS, read_request, REPORTS

BRANCH_NAME = re.compile("[a-z][a-z0-9-]{0,31}")
MAX_BRANCHES = 32


class Treasury:
    """RULES, "Branches", "Commodities", "Commands": the state, and what changes it."""

    def __init__(self):
        self.styles, self.books, self.transfers = [], {}, {}

    def copy(self):
        """An independent copy."""
        other = Treasury()
        other.styles = list(self.styles)
        other.books = {name: book.copy() for name, book in self.books.items()}
        other.transfers = {key: transfer.copy() for key, transfer in self.transfers.items()}
        return other

    def answer(self, line):
        """RULES, "Runs"; FORMATS, "Answer lines": the answer to one line; a line of blanks alone has none."""
        if not line.strip(b" \t"):
            return b""
        number, text, _ = self.outcome(line)
        return (text + ("ok\n" if number is None else "")).encode()

    def outcome(self, line):
        """The answer to a text of JSON, as that of `perform`."""
        try:
            keys = read_request(line)
        except Refused as refused:
            return refused.number, refused.answer(), None
        return self.perform(keys)

    def perform(self, keys):
        """RULES, "Commands": performs a request that is read. Answers None, the text and the columns of a report; 0,
        the line of what is done or repeated, and None; a refusal's number and line, and None, and changes nothing."""
        if keys.get("dry-run") == "yes":
            return self.dry_run(keys)
        try:
            if keys["do"] in REPORTS:
                rows = getattr(reports, keys["do"] + "_report")(self, keys)
                return None, "".join(reports.report_lines(keys["do"], rows)), rows
            refuse_if(self.is_changed(keys), 48)
            return 0, getattr(self, "do_" + keys["do"])(keys), None
        except Repeated:
            return 0, "repeated\n", None
        except Refused as refused:
            return refused.number, refused.answer(), None

    def dry_run(self, keys):
        """RULES, "Dry run": what the command would be answered now; it is performed on a copy, so nothing changes."""
        return self.copy().perform({**keys, "dry-run": "no"})

    def is_changed(self, keys):
        """RULES, "Conditional commands": whether a command would do something, and its branch has another number of
        entries than it is bound to."""
        if "if-entries" not in keys:
            return False
        without = {key: value for key, value in keys.items() if key != "if-entries"}
        line = self.copy().perform(without)[1]
        does_something = line.startswith("ok") and not line.startswith("ok 0 new")
        return does_something and len(self.branch_of(keys).entries) != int(keys["if-entries"])

    def branch_of(self, keys):
        """RULES, "Conditional commands": the book that a command of a branch is bound to, or None."""
        return self.books.get(keys.get(BRANCH_COMMANDS.get(keys["do"])))

    def find_book(self, name):
        """RULES, "Branches": the branch of that name (20)."""
        refuse_if(name not in self.books, 20)
        return self.books[name]

    def do_branch(self, keys):
        """RULES, "Orders": `branch`: 21, repeated, 23."""
        name = keys["name"]
        refuse_if(not BRANCH_NAME.fullmatch(name), 21)
        if name in self.books:
            raise Repeated
        refuse_if(len(self.books) >= MAX_BRANCHES, 23)
        self.books[name] = Book(name)
        return "ok\n"

    def do_commodity(self, keys):
        """RULES, "Orders": `commodity`."""
        declare_commodity(self.styles, keys["sample"])
        return "ok\n"

    def do_import(self, keys):
        """RULES, "Orders": `import`."""
        new, repeated = import_journal(keys["branch"], keys["journal"], self.styles, self.find_book)
        return f"ok {new} new, {repeated} repeated\n"

    def do_dispatch(self, keys):
        """RULES, "Orders": `dispatch`."""
        amount = read_amount(keys["amount"], self.styles)
        texts = (keys["id"], keys["from"], keys["to"], keys["day"], amount, keys["account"])
        transfers.dispatch(self.transfers, self.styles, self.find_book, *texts)
        return "ok\n"

    def do_receive(self, keys):
        """RULES, "Orders": `receive`."""
        amount = read_amount(keys["amount"], self.styles) if "amount" in keys else None
        texts = (keys["id"], keys["branch"], keys["day"], keys["account"], keys.get("part"), amount)
        transfers.receive(self.transfers, self.styles, self.find_book, *texts)
        return "ok\n"

    def do_lock(self, keys):
        """RULES, "Orders": `lock`: 20, repeated, 35."""
        return "ok\n" if self.find_book(keys["branch"]).lock(keys["day"]) else "repeated\n"

    def do_close(self, keys):
        """RULES, "Orders": `close`."""
        close(self.find_book(keys["branch"]), self.styles, keys["day"], keys.get("accounts"), keys.get("into"))
        return "ok\n"

    def command(self, line, files):
        """RULES, "The program": exit status and standard output of a command over a file that holds this treasury."""
        return words.command(self, line, files)

    def http(self, request):
        """FORMATS, "HTTP": the reply to the bytes of a connection."""
        return http.reply(self, request)

    def rows(self):
        """FORMATS, "Tables"."""
        return tables.rows(self)

    def journal(self, branch):
        """FORMATS, "Journal report"."""
        return self.perform({"do": "journal", "branch": branch})[1].encode()
