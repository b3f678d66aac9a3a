"""Accepted journals before hledger, where it is on the path: it has to take them, and to find the same balances.

Left out are journals with what bench/journals/README.md names: assertions that may see
conversion postings, a total cost on the amount 0, dates in comments; and signs that hledger reads in another way.
"""
import collections
import csv
import os
import re
import shutil
import subprocess

DIFFERS = re.compile(r"(?m)^ +[*!]? ?equity.* =|^ +.*[^-.,0-9][-0.,]+[^-.,0-9]* @@|date2?:|\[|[\u00a0\u2003]")


def is_here():
    return shutil.which("hledger") is not None


def ask(journal, *words):
    ran = subprocess.run(["hledger", "-f-", *words], input=journal.encode(), stdout=subprocess.PIPE,
        stderr=subprocess.STDOUT, timeout=900,
                         env=dict(os.environ, LC_ALL="C.UTF-8"))
    return ran.returncode, ran.stdout.decode(errors="replace")


def compare(treasury):
    """How many branches' journals were taken to hledger, and the first difference."""
    rows, count = treasury.rows(), 0
    samples = "".join(f"commodity {sample_of(unit)}\n" for unit in rows["unit"])
    for number, name, _ in rows["branch"]:
        journal = treasury.journal(name).decode()
        if not journal or DIFFERS.search(journal):
            continue
        count += 1
        status, said = ask(samples + journal, "check")
        if status:
            return count, ("check", name, said[-1500:])
        wanted = collections.Counter()
        for leg in rows["leg"]:
            wanted[leg[3], rows["unit"][leg[4]][1]] += leg[5] if leg[0] == number else 0
        _, said = ask(samples + journal, "balance", "--infer-equity", "--flat", "--no-total", "--layout=bare", "-O",
            "csv")
        units, found = {unit[1]: unit for unit in rows["unit"]}, {}
        for account, symbol, text in list(csv.reader(said.splitlines()))[1:]:
            whole, _, fraction = text.replace("," if units[symbol][3] == "." else ".", "").partition(units[symbol][3])
            found[account, symbol] = int(whole + fraction.rstrip("0").ljust(units[symbol][2], "0"))
        if {key: value for key, value in wanted.items() if value} != {key: value for key, value in found.items()
            if value}:
            return count, ("balances", name, said)
    return count, None


def sample_of(unit):
    digits = ("1,000" if unit[3] == "." else "1.000") + unit[3] + "0" * unit[2]
    symbol = unit[1] if unit[1].isalpha() or unit[1] == "$" else f'"{unit[1]}"'
    return (" " if unit[6] else "").join((symbol, digits) if unit[5] else (digits, symbol))
