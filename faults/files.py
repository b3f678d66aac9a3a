"""Commands over a file: those of faults/rows.session, and some over databases of version 1, each with the file before
it, and what SQLite finds before it and after it."""
import os
import re
import shlex
import shutil
import sqlite3
import subprocess
import tempfile

import shared

DONE = re.compile(r"ok ([0-9]+) new, ([0-9]+) repeated\n")
DRY_RUN = "--dry-run"
# What an opening adds to the tables of version 1 (docs/FORMATS.md, "Tables").
RECEIPT = (
    "CREATE TABLE receipt (transfer TEXT NOT NULL, part TEXT NOT NULL, qty INTEGER NOT NULL, "
    "received INTEGER NOT NULL, payee TEXT NOT NULL, PRIMARY KEY (transfer, part)) STRICT"
)
# Databases of version 1 in cases/data; over each, the commands that open it, and their answers, as
# cases/versions.session has them.
OPENINGS = {
    "version_1_transfer": [
        (
            "treasury balance --db t.db --branch north --day 2024-03-31",
            ["          -50.00 EUR  assets:bank", "           50.00 EUR  assets:transit:north:south"],
        ),
        (
            "treasury receive --db t.db --id t9 --branch south --day 2024-03-05 --account assets:bank",
            ["refused 31 UnknownTransfer"],
        ),
    ],
    "version_1_year": [
        ("treasury transit --db t.db --day 2024-12-31", ["           10.00 EUR  north to south"]),
        ("treasury receive --db t.db --id t9 --branch south --day 2025-01-02 --account assets:bank", ["ok"]),
        ("treasury lock --db t.db --branch south --day 2025-01-31 --dry-run", ["ok"]),
    ],
}


def second(tables):
    """Returns tables of version 1 as an opening leaves them: of version 2, with no receipt in parts."""
    return sorted(
        (sql, [(2,)] if sql.startswith("CREATE TABLE format ") else rows) for sql, rows in [*tables, (RECEIPT, [])]
    )


def repeated(words, answer):
    """Returns what a command is answered that is run once more, after this answer."""
    found = DONE.fullmatch(answer)
    if DRY_RUN in words:
        return answer
    if words[0] == "init" and answer == "ok\n":
        return "refused 43 Damaged\n"
    if found:
        return f"ok 0 new, {int(found[1]) + int(found[2])} repeated\n"
    return "repeated\n" if answer == "ok\n" else answer


class Command:
    """A command over t.db: what it is answered, and answered again; what the folder has before it, and the tables
    before it and after. Those before it may be there in version 1 or, once they were opened, in version 2."""

    def __init__(self, title, text, answer):
        self.words, self.answer = shlex.split(text)[1:], "".join(f"{line}\n" for line in answer)
        self.title = f"{title}: {' '.join(self.words)}"
        self.status = int(self.answer.startswith("refused "))
        self.again = repeated(self.words, self.answer)
        self.files, self.befores, self.after, self.calls = None, None, None, None

    def run(self, program, folder):
        """Runs it for the first time, and keeps what was there before it, and the tables."""
        before = tables(folder)
        is_first = any(sql.startswith("CREATE TABLE format ") and rows == [(1,)] for sql, rows in before)
        self.files, self.befores = files_in(folder), [before, second(before)] if is_first else [before]
        answer, status = run(program, folder, self.words)
        if (answer, status) != (self.answer, self.status):
            raise SystemExit(f"{self.title}: {answer!r} with status {status}")
        self.after = tables(folder)
        if DRY_RUN in self.words and self.after not in self.befores:
            raise SystemExit(f"{self.title}: it has entered something: {self.after}")
        if is_first and self.answer != "ok\n" and self.after != second(before):
            raise SystemExit(f"{self.title}: opened, it has {self.after}")

    def is_done(self, found):
        """Whether these tables are those after it, and others than before it."""
        return found == self.after and found not in self.befores


def files_in(folder):
    """Returns what the files of a folder have, but the log's, since a file that was closed stands without it."""
    found = {}
    for name in os.listdir(folder):
        if not name.endswith("-wal"):
            with open(f"{folder}/{name}", "rb") as file:
                found[name] = file.read()
    return found


def put(folder, files):
    """Makes the folder anew, with these files."""
    shutil.rmtree(folder, ignore_errors=True)
    os.mkdir(folder)
    for name, bytes_of_it in files.items():
        with open(f"{folder}/{name}", "wb") as file:
            file.write(bytes_of_it)


def run(program, folder, words, **options):
    """Runs a command with nothing failing: what is answered, and the status."""
    ran = subprocess.run([program, *words], cwd=folder, capture_output=True, timeout=shared.SECONDS, **options)
    return ran.stdout.decode(errors="backslashreplace"), ran.returncode


def rows_of(connection):
    """Returns each table's definition, and the rows of each, as SQLite finds them."""
    tables = connection.execute("SELECT name, sql FROM sqlite_schema WHERE type = 'table' ORDER BY name").fetchall()
    return [(sql, connection.execute(f'SELECT * FROM "{name}"').fetchall()) for name, sql in tables]


def is_begun(folder):
    """Whether t.db is not there, or empty, or only begun by `init`, with a first byte of 0."""
    if not os.path.exists(f"{folder}/t.db"):
        return True
    with open(f"{folder}/t.db", "rb") as file:
        return file.read(1) in (b"", b"\0")


def tables(folder):
    """Returns the tables of t.db alone, without its log; none of a file that is only begun."""
    if is_begun(folder):
        return []
    connection = sqlite3.connect(f"file:{folder}/t.db?immutable=1", uri=True)
    try:
        return rows_of(connection)
    finally:
        connection.close()


def copied(folder, copy):
    """Copies t.db and its log, where it has one, into another folder."""
    for name in ("t.db", "t.db-wal"):
        if os.path.exists(f"{folder}/{name}"):
            shutil.copy(f"{folder}/{name}", copy)


def tables_with_log(folder):
    """Returns the tables of a copy of t.db and its log, which SQLite recovers; none of a file that is only begun."""
    if is_begun(folder):
        return []
    with tempfile.TemporaryDirectory(dir=folder) as copy:
        copied(folder, copy)
        connection = sqlite3.connect(f"{copy}/t.db")
        try:
            return rows_of(connection)
        finally:
            connection.close()


def opening(program, place, name, text, answer):
    """Returns a command that opens a database of version 1."""
    put(place, {"t.db": (shared.TOP / f"cases/data/{name}.db").read_bytes()})
    command = Command(f"an opening of {name}", text, answer)
    command.run(program, place)
    return command


def commands(program, place):
    """Returns the commands of the rows, each once, and the openings."""
    found, met = [], set()
    for session in shared.sessions_of("rows.session"):
        put(f"{place}/row", {})
        for step in session.steps:
            if hasattr(step, "write"):
                step.write(f"{place}/row")
                continue
            command = Command(session.title, step.text, [line for _, line in step.answer])
            command.run(program, f"{place}/row")
            if step.place not in met:
                found.append(command)
            met.add(step.place)
    return found + [opening(program, f"{place}/row", name, *one) for name, those in OPENINGS.items() for one in those]
