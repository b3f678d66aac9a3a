#!/usr/bin/env python3
"""Lists what a branch may receive: incoming.py URL BRANCH.

Prints a line for each transfer to the branch of which something is left: the day of dispatch, the amount, what is open
of it, the branches and the ID. TREASURY_LOGIN may hold NAME:PASSWORD."""
import sys

sys.dont_write_bytecode = True
from dispatch import ask


def main(url, branch):
    status, answer = ask(url, "GET", "/transfers/9999-12-31")
    if status != 200:
        print(answer, end="", file=sys.stderr)
        return 1
    for line in answer.split("\n"):
        # (the last word is the ID, and the one before it the branch that is paid)
        if line.split()[-2:-1] == [branch]:
            print(line)
    return 0


if __name__ == "__main__":
    sys.exit(main(*sys.argv[1:]) if len(sys.argv) == 3 else __doc__)
