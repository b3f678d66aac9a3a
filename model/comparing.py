"""The program beside the model: the same history by lines, by commands over a file, by commands through a service and
over HTTP; over a file and over HTTP also with faults.

A step is an item of a history and its line. Each way of asking answers the first difference, as the number of its step,
what the model says and what was found, or None.
"""

import collections
import os
import pathlib
import re
import resource
import select
import shutil
import signal
import socket
import sqlite3
import subprocess
import tempfile
import time
from urllib.parse import quote, urlencode

from model.http import PATHS
from model.json_replies import without_said
from model.random_texts import ODD, TOP
from model.requests import BRANCH_COMMANDS
from model.treasury import Treasury

# Seconds by the clock after which a program that has not ended is at fault; a busy machine takes minutes
SECONDS, MANY, NO_LIMIT = 900, 2**32 - 1, resource.RLIM_INFINITY
FILE, WAL = "t.db", "t.db-wal"
REFUSED_41, REFUSED_42, CHANGED = b"refused 41 Store\n", b"refused 42 Closed\n", b"refused 48 Changed\n"
BODY_41, BODY_42 = (re.compile(rb'\r\n\r\n(?:\{"answer":")?' + text[:-1]) for text in (REFUSED_41, REFUSED_42))
KEYS = {"unit": "nr", "branch": "nr", "entry": "branch, nr", "leg": "branch, entry, nr", "claim": "branch, entry, leg",
        "transfer": "id", "receipt": "transfer, part"}
with open(os.path.join(TOP, "docs", "FORMATS.md"), encoding="utf-8") as page:
    CREATE = re.findall(r"^CREATE TABLE .*$", page.read(), re.M)
happened = collections.Counter()  # what came of faults and of calls in this process


def in_folder(ask):
    """A way of asking that has a new folder with the file of a new treasury; one in memory, if there is one."""
    def asking(program, steps, rng=None):
        folder = tempfile.mkdtemp(dir="/dev/shm" if os.access("/dev/shm", os.W_OK) else None)
        try:
            subprocess.run([program, "init", "--db", FILE], cwd=folder, stdout=subprocess.DEVNULL, check=True)
            return ask(folder, program, steps, rng)
        finally:
            shutil.rmtree(folder)
    return asking


def by_lines(program, steps, _rng=None, answers=None):
    """The lines of a run."""
    if answers is None:
        treasury = Treasury()
        answers = [b"" if line is None else treasury.answer(line) for _, line in steps]
    end = b"\r\n" if len(steps) % 3 == 1 else b"\n"
    sent = end.join(line for _, line in steps if line is not None) + end * (len(steps) % 2)
    ran = subprocess.run([program, "run"], input=sent, capture_output=True, timeout=SECONDS)
    place = 0
    for at, wanted in enumerate(answers):
        if not ran.stdout.startswith(wanted, place):
            return at, wanted, ran.stdout[place : place + max(200, len(wanted))]
        place += len(wanted)
    if (place, ran.returncode, ran.stderr) != (len(ran.stdout), 0, b""):
        return len(steps) - 1, (0, b""), (ran.returncode, ran.stdout[place:] + ran.stderr)
    return None


def words_of(item, place=("--db", FILE)):
    """The words of a request, and its journal's bytes; None if no command line can have them."""
    if not isinstance(item, dict) or "do" not in item or "\0" in "".join(item.values()):
        return None
    words, last, files = [item["do"], *place], [], {}
    for key, value in item.items():
        if key == "journal":
            files, last = {"a.journal": value.encode("utf-8", "surrogateescape")}, ["a.journal"]
        elif key in ("name", "sample"):
            last = ["--", value] if value.startswith("-") else [value]
        elif key == "dry-run":
            words += {"yes": ["--dry-run"], "no": []}.get(value, ["--dry-run=" + value])
        elif key != "do":
            words += [f"--{key}={value}"] if value[:1] in ("-", "") else ["--" + key, value]
    return words + last, files


def call_of(item, line, is_plain=False):
    """The bytes of a connection that asks for the same, for a reply in whichever form or in text: a report half of the
    time by its path, and a command now and then by that of its branch, or of another."""
    if isinstance(item, tuple):
        return item[0]
    end = ("" if is_plain else ODD["accepts"][sum(line) % len(ODD["accepts"])]).encode("latin-1")
    if isinstance(item, dict) and item.get("do") in PATHS and len(line) % 2:
        parts = [item.get(key) or "?" for key in PATHS[item["do"]]]
        query = [(key, item[key]) for key in ("tag", "account", "from") if item["do"] == "register" and key in item]
        if all(re.fullmatch("[a-z0-9-]+", part) for part in parts) and len(item) == len(parts) + len(query) + 1:
            target = "/".join([item["do"], *parts]) + "?" * bool(query)
            target += urlencode(query, quote_via=quote, safe="", errors="surrogateescape")
            return b"GET /%s HTTP/1.1\r\nHost: localhost%s\r\n\r\n" % (target.encode(), end)
    target = "/commands" + branch_path(item, line)
    head = b"POST %s HTTP/1.1\r\nHost: localhost\r\nContent-Length: %d%s\r\n\r\n" % (target.encode(), len(line), end)
    return head + line


def branch_path(item, line):
    """What stands behind the path of commands: for each third one its branch, or now and then another."""
    if not isinstance(item, dict) or len(line) % 3:
        return ""
    name = item.get("to", "north") if len(line) % 12 == 0 else item.get(BRANCH_COMMANDS.get(item.get("do")))
    return "/" + name if isinstance(name, str) and re.fullmatch("[a-z0-9-]+", name) else ""


def rows_of(folder):
    """The tables of the file, by a copy of it and its log; those of version 1 have no receipts."""
    copy = tempfile.mkdtemp(dir=folder)
    for name in (FILE, WAL):
        if os.path.exists(os.path.join(folder, name)):
            shutil.copy(os.path.join(folder, name), copy)
    base, rows = sqlite3.connect(os.path.join(copy, FILE)), {"receipt": []}
    try:
        version = base.execute("SELECT version FROM format").fetchall()
        for name in list(KEYS)[: 6 if version == [(1,)] else 7]:
            rows[name] = base.execute(f"SELECT * FROM {name} ORDER BY {KEYS[name]}").fetchall()
        return rows if version in ([(1,)], [(2,)]) else {"version": version}
    except sqlite3.Error as error:
        return {"error": str(error)}
    finally:
        base.close()
        shutil.rmtree(copy)


def difference_of(treasury, folder):
    """The first rows in which the tables of the file are not those of a treasury."""
    wanted, found = treasury.rows(), rows_of(folder)
    for name in KEYS:
        pair = wanted[name], found.get(name, [found])
        if pair[0] != pair[1]:
            at = next((n for n, rows in enumerate(zip(*pair)) if rows[0] != rows[1]), min(map(len, pair)))
            return name, pair[0][at : at + 2], pair[1][at : at + 2]
    return None


def make_version_1(folder, rows):
    """Puts a database of version 1 with these rows in the place of the file."""
    for name in (FILE, WAL):
        if os.path.exists(os.path.join(folder, name)):
            os.remove(os.path.join(folder, name))
    base = sqlite3.connect(os.path.join(folder, FILE))
    for statement in CREATE[:7] + ["INSERT INTO format VALUES (1)"]:
        base.execute(statement)
    for name in KEYS:
        for row in rows[name]:
            base.execute(f"INSERT INTO {name} VALUES ({', '.join('?' * len(row))})", row)
    base.commit()
    base.close()


def limit_size(size):
    """What a child does before it begins, so that its writes fail where a file would be longer, as on a full disk."""
    def set_limit():
        signal.signal(signal.SIGXFSZ, signal.SIG_IGN)
        resource.setrlimit(resource.RLIMIT_FSIZE, (size, NO_LIMIT))
    return set_limit


def kill_after(process, seconds, output):
    """Kills a process once it has taken so much more processor time, has ended, or has begun its output; by the clock,
    it would not have begun at all on a busy machine."""
    clock, until = ~process.pid << 3 | 2, time.monotonic() + SECONDS  # (as of clock_getcpuclockid)
    try:
        ends = time.clock_gettime(clock) + seconds
        while time.clock_gettime(clock) < ends and process.poll() is None and time.monotonic() < until:
            if select.select([output], [], [], 0)[0]:
                break
    except OSError:  # (it has ended)
        pass
    process.kill()


def held_of(folder, fault, before, after, is_answered):
    """Which treasury the file holds: that after a command or, unless it was answered, before it; None if neither."""
    held = next((it for it in ((after,) if is_answered else (after, before)) if not difference_of(it, folder)), None)
    if fault and held and not is_answered:
        happened[f"{fault}: {'before' if held is before else 'after'}"] += 1
    return held


@in_folder
def by_commands(folder, program, steps, rng):
    """Commands over a file; with `rng` some are killed, some have a full disk, some find a database of version 1."""
    treasury = Treasury()
    for at, (item, _) in enumerate(steps):
        words, files = words_of(item) or (None, {})
        if not words:
            continue
        for name, text in files.items():
            with open(os.path.join(folder, name), "wb") as file:
                file.write(text)
        fault, limit = rng.choice(("", "", "killed", "full", "version 1")) if rng else "", None
        if fault == "version 1" and not treasury.rows()["receipt"]:
            make_version_1(folder, treasury.rows())
            happened[fault] += 1
        before, file, is_dry = rng and treasury.copy(), pathlib.Path(folder, FILE), not rng and "--dry-run" in words
        kept = file.read_bytes() if is_dry else b""
        wanted = treasury.command(words, files)
        happened["the command " + words[0] + " --dry-run" * ("--dry-run" in words)] += 1
        happened["a command is refused with 48"] += wanted[1] == CHANGED
        if fault == "full":
            size = os.path.getsize(os.path.join(folder, FILE))
            limit = limit_size(rng.choice((0, 4096, size, rng.randrange(size + 60000))))
        process = subprocess.Popen([program, *words], cwd=folder, stdin=subprocess.DEVNULL, stdout=subprocess.PIPE,
                                   stderr=subprocess.DEVNULL, preexec_fn=limit)
        if fault == "killed":
            kill_after(process, rng.random() ** 2 * 0.02, process.stdout)
        found, status = process.communicate(timeout=SECONDS)[0], process.returncode
        is_late = fault == "killed" and status == -9 and found != b""
        is_answered = found == wanted[1] and (status == wanted[0] or is_late)
        is_cut_off = (fault, status, found) in (("killed", -9, b""), ("full", 1, REFUSED_41))
        held = held_of(folder, fault, before, treasury, is_answered) if rng else treasury
        if held is None or not is_answered and not is_cut_off:
            return at, wanted, (status, found, fault, difference_of(treasury, folder))
        if is_dry and file.read_bytes() != kept:
            return at, "FILE as it was before a dry run", words
        treasury = held
    tables = difference_of(treasury, folder)
    return tables and (len(steps) - 1, *tables)


class Service:
    """`serve` over the file."""

    def __init__(self, folder, program, requests):
        words = [program, "serve", "--db", FILE, "--port", "0", "--requests", str(requests)]
        self.process = subprocess.Popen(words, cwd=folder, stdout=subprocess.PIPE, stderr=subprocess.PIPE,
                                        preexec_fn=limit_size(NO_LIMIT))
        assert self.process.stdout.readline() == b"listening\n"
        self.port = int(self.process.stderr.readline().rpartition(b":")[2])

    def ask(self, call, seconds=None):
        """All that comes back; if the service is killed after so much more processor time, what of it came before. If
        it is to have none, it is stopped first: on a busy machine it would often have replied before it is killed."""
        said = []
        with socket.create_connection(("127.0.0.1", self.port), SECONDS) as it:
            try:
                if seconds == 0 and len(call) < 16_384:  # (a longer call would wait until it is read)
                    self.process.send_signal(signal.SIGSTOP)
                it.sendall(call)
                it.shutdown(socket.SHUT_WR)
                if seconds is not None:
                    kill_after(self.process, seconds, it)
                    self.kill()
                said.extend(iter(lambda: it.recv(65536), b""))
            except ConnectionError as error:
                said += [] if seconds is not None else [str(error).encode()]
        return b"".join(said)

    def kill(self):
        self.process.kill()
        self.process.communicate()


@in_folder
def by_http(folder, program, steps, rng):
    """Connections; with `rng` the service is killed now and then, or its disk is full."""
    treasury, service = Treasury(), Service(folder, program, MANY if rng else len(steps))
    try:
        for at, (item, line) in enumerate(steps):
            fault = rng.choice(("", "", "", "", "killed", "full")) if rng else ""
            call = call_of(item, line, fault == "killed")
            before = treasury.copy() if fault else None
            wanted = treasury.http(call)
            form = " in JSON" if b"\r\nContent-Type: application/json\r\n" in wanted else ""
            happened[f"a reply{form} with {wanted[9:12].decode() or 'nothing'}"] += 1
            happened["a reply with 48"] += CHANGED[:-1] in wanted
            happened["a reply with a number of entries"] += b'"entries":"' in wanted
            if isinstance(item, dict):
                happened[f"{call.split(b' ')[0].decode()} of {item.get('do')}"] += 1
                if call.startswith(b"POST /commands/"):
                    happened[f"a branch's path is answered {wanted[9:12].decode()}"] += 1
            if fault == "full":
                resource.prlimit(service.process.pid, resource.RLIMIT_FSIZE, (rng.randrange(120000), NO_LIMIT))
            seconds = rng.choice((0, rng.random() ** 3 * 0.01)) if fault == "killed" else None
            found = without_said(service.ask(call, seconds))
            is_answered = found == wanted and (found != b"" or fault != "killed")
            is_41 = fault == "full" and BODY_41.search(found)
            if is_41 and not BODY_42.search(service.ask(call)):
                return at, REFUSED_42, "a call after 41"
            if not is_answered and not is_41 and not (fault == "killed" and wanted.startswith(found)):
                return at, wanted, (found, fault)
            if fault:
                service.kill()
                held = held_of(folder, "service " + fault, before, treasury, is_answered)
                if held is None:
                    return at, wanted, (found, fault, difference_of(treasury, folder))
                treasury, service = held, Service(folder, program, MANY)
        if not rng and service.process.wait(SECONDS) != 0:
            return len(steps) - 1, 0, service.process.returncode
    finally:
        service.kill()
    tables = difference_of(treasury, folder)
    return tables and (len(steps) - 1, *tables)


@in_folder
def by_service(folder, program, steps, _rng):
    """Commands through a service that has the file."""
    treasury, service = Treasury(), Service(folder, program, MANY)
    try:
        for at, (item, _) in enumerate(steps):
            words, files = words_of(item, ("--at", str(service.port))) or (None, {})
            if not words:
                continue
            for name, text in files.items():
                pathlib.Path(folder, name).write_bytes(text)
            wanted = treasury.command(words, files)
            happened[f"through a service: {words[0]}{' --dry-run' * ('--dry-run' in words)}"] += 1
            ran = subprocess.run([program, *words], cwd=folder, stdin=subprocess.DEVNULL, stdout=subprocess.PIPE,
                                 stderr=subprocess.DEVNULL, timeout=SECONDS)
            if (ran.returncode, ran.stdout) != wanted:
                return at, wanted, (ran.returncode, ran.stdout)
    finally:
        service.kill()
    tables = difference_of(treasury, folder)
    return tables and (len(steps) - 1, *tables)


WAYS = {"lines": by_lines, "commands": by_commands, "http": by_http, "service": by_service}
