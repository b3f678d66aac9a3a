"""What the scripts share: the program, the library that makes its calls fail, and runs of the one with the other."""
import contextlib
import importlib.machinery
import importlib.util
import mmap
import os
import pathlib
import struct
import subprocess
import sys
import tempfile
from concurrent.futures import ThreadPoolExecutor

TOP = pathlib.Path(__file__).resolve().parent.parent
sys.dont_write_bytecode = True
# So many calls in a row are all from one on.
ALL = 10**9
NO_MEMORY = "refused 40 OutOfMemory\n"
# Seconds by the clock after which a program that has not ended is at fault; a busy machine takes minutes
SECONDS = 900


def sessions_of(name):
    """Returns the sessions or the cases of a file beside this one, as .ci/cases reads them."""
    loader = importlib.machinery.SourceFileLoader("cases", str(TOP / ".ci" / "cases"))
    module = importlib.util.module_from_spec(importlib.util.spec_from_loader("cases", loader))
    loader.exec_module(module)
    return module.read(str(TOP / "faults" / name))


class Row:
    """A case of rows.cases: what is sent, each line by itself, and the lines of its answers."""

    def __init__(self, case):
        self.title, self.sent = case.title, case.steps[0].requests()
        self.wanted = [f"{line}\n".encode() for _, line in case.steps[0].answer]


def rows():
    """Returns the rows of rows.cases."""
    return [Row(case) for case in sessions_of("rows.cases")]


def program():
    """Returns the path of the program: PROGRAM, or that of this checkout."""
    named = os.environ.get("PROGRAM")
    return (
        os.path.abspath(named)
        if named
        else subprocess.run([TOP / "bin/program"], check=True, capture_output=True, text=True).stdout.strip()
    )


@contextlib.contextmanager
def folder():
    """Makes a folder for a while, in memory if the machine has such a place, where a sync costs nothing."""
    memory = "/dev/shm"
    with tempfile.TemporaryDirectory(dir=memory if os.access(memory, os.W_OK) else None) as made:
        yield made


def build(place):
    """Builds faults/refuse.c in the folder, and returns the library's path."""
    library = f"{place}/refuse.so"
    subprocess.run(
        [os.environ.get("CC", "cc"), "-shared", "-fPIC", "-O1", "-o", library, TOP / "faults/refuse.c", "-ldl"],
        check=True,
    )
    return library


def steps(count, step):
    """Returns every so many-th number from 1 to the count, the first and the last included."""
    return sorted({*range(1, count + 1, step), *([count] if count else [])})


def mapped(work, rows):
    """Returns what the work gives for each of the rows, some of them side by side."""
    with ThreadPoolExecutor(max_workers=len(os.sched_getaffinity(0))) as pool:
        return list(pool.map(work, rows))


class Page:
    """What the library counts, and what it is to let fail: four numbers that both processes see."""

    def __init__(self, number, times):
        self.file, self.name = tempfile.mkstemp(dir="/dev/shm" if os.access("/dev/shm", os.W_OK) else None)
        os.write(self.file, struct.pack("=4q", 0, number, times, 0))
        self.shared = mmap.mmap(self.file, 32)

    def number(self, place):
        return struct.unpack_from("=q", self.shared, 8 * place)[0]

    def seen(self):
        return self.number(0)

    def failed(self):
        return self.number(3)

    def end(self):
        """From now on nothing fails."""
        struct.pack_into("=q", self.shared, 16, 0)

    def close(self):
        self.shared.close()
        os.close(self.file)
        os.unlink(self.name)


def environment(library, call, page, **more):
    return {**os.environ, "LD_PRELOAD": library, "CALL": call, "PAGE": page.name, **more}


def ran(words, library, call, number, times, **options):
    """Runs the words with these calls failing: what came out, how often it was called, and how often that failed."""
    page, more = Page(number, times), options.pop("more", {})
    try:
        run = subprocess.run(
            words, env=environment(library, call, page, **more), capture_output=True, timeout=SECONDS, **options
        )
        return run, page.seen(), page.failed()
    finally:
        page.close()


def told(counted, faults):
    """Prints what was tried, and the first things that were wrong; returns whether nothing was."""
    print(
        f"{counted}: {f'{len(faults)} wrong' if faults else 'all as they may'}", *faults[:5], sep="\n    ", flush=True
    )
    return not faults
