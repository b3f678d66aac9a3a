"""Walks through what is shown: reports, statements, styles of amounts, replies that are none."""
import csv
import os
import re
import subprocess
import time

import stand as stands

from .page import units


def looking(holds, page, browser):
    """Balance as a tree, its search, the register with its line."""
    page.open("balance", branch="north", day="2026-01-31")
    rows = {cells[0].strip(): cells[1] for cells in page.cells("#balance-report tbody tr")}
    holds("the tree has the sums of subaccounts", rows.get("assets") == "6,130.00 EUR\n$120.00"
          and rows.get("bank") == "6,130.00 EUR" and rows.get("hall:rent") == "120.00 EUR", rows)
    holds("all accounts sum to zero", page.cells("#balance-report tfoot tr") == [["Sum", "0.00 EUR"]])
    page.run("document.querySelector('tr[data-account=assets] .twist').click()")
    holds("an account is folded", "bank" not in page.text("#balance-report tbody"))
    holds("its button says so", page.run("return document.activeElement.getAttribute('aria-expanded')") == "false")
    page.put("balance-find", "RENT")
    page.settle()
    names = [cells[0].strip() for cells in page.cells("#balance-report tbody tr")]
    holds("an account is found with what is above it", names == ["expenses", "hall:rent"], names)
    page.put("balance-find", "nothing like it")
    page.settle()
    holds("nothing found is said", "No account has that" in page.text("#balance-report"))
    page.put("balance-find", "")
    page.put("day", "2026-01-04")
    page.settle()
    holds("another day has other sums", "5,000.00 EUR" in page.text("#balance-report")
          and "income" not in page.text("#balance-report"), page.text("#balance-report"))
    page.put("day", "2026-12-31")
    page.settle()
    page.press("Unfold all", "#balance-report")
    page.press("bank", "#balance-report")
    rows = page.cells("#register-report tbody tr")
    holds("a click on an account leads to its register", rows[-1] == ["2026-01-01", "1", "opening", "5,000.00 EUR",
                                                                     "5,000.00 EUR"], rows)
    holds("the newest is first", [row[0] for row in rows] == sorted((row[0] for row in rows), reverse=True), rows)
    holds("the running balance is the treasury's", rows[0][4] == "6,126.00 EUR", rows[0])
    page.press("Oldest first", "#register-report")
    holds("it is turned", page.cells("#register-report tbody tr")[0][2] == "opening")
    page.press("Newest first", "#register-report")
    name = page.run("return document.querySelector('.chart svg').getAttribute('aria-label')")
    holds("the line over time says what it shows", name
          == "Balance from 2026-01-01 to 2026-04-04: lowest 4,880.00 EUR, "
          "highest 6,130.00 EUR, at the end 6,126.00 EUR", name)
    path = page.run("return document.querySelector('.chart .line').getAttribute('d')")
    holds("it goes through all days", len(re.findall("V", path)) == 6 and "NaN" not in path, path)
    box = page.run("const b = document.querySelector('.chart svg').getBoundingClientRect(); return [b.x, b.y, b.width]")
    page.tab.call("Input.dispatchMouseEvent", type="mouseMoved", x=box[0] + box[2] * 0.1, y=box[1] + 60)
    holds("the pointer reads a day", page.comes(lambda: page.text(".chart output") == "2026-01-05: 4,880.00 EUR"),
          page.text(".chart output"))
    page.go("register", branch="north", account="assets:bank", day="2026-01-31", **{"from": "2026-01-05"})
    days = [row[0] for row in page.cells("#register-report tbody tr")]
    holds("a period has its postings, and what moved in it", days == ["2026-01-31", "2026-01-20", "2026-01-05"]
          and "Moved from 2026-01-05 to 2026-01-31: 1,130.00 EUR" in " ".join(page.text("#register-report").split()),
          page.text("#register-report"))
    page.press("Show all days", "#register-report")
    holds("later postings are counted, and one click away", len(page.cells("#register-report tbody tr")) == 5)
    page.go("register", branch="north", account="assets:bank", day="2026-01-05", **{"from": "2026-01-05"})
    rows = page.cells("#register-report tbody tr")
    holds("a single day has no line", len(rows) == 1 and not page.run("return document.querySelector('.chart')"), rows)
    page.go("register", branch="north", account="expenses", day="2026-12-31", tag="due%3Dfriday")
    rows = page.cells("#register-report tbody tr")
    holds("a tag is asked for", len(rows) == 1 and rows[0][2] == "hall", rows)
    page.go("register", branch="north", account="assets")
    select = page.run("return [...document.querySelectorAll('.chart option')].map(it => it.value)")
    holds("each commodity has its line", select == ["EUR", "$"], select)
    page.run("document.getElementById('chart-symbol').focus()")
    page.put("chart-symbol", "$")
    holds("its choice keeps the focus", page.run("return document.activeElement.id") == "chart-symbol")
    page.stand.do(what="import", branch="south", journal="".join(f"2026-01-{day} {units}\n    tea:box  {units}.00 EUR\n"
                                                                 "    tea:shelf\n\n" for day, units in (
                                                                     ("01", 10), ("01", 5), ("03", 1))))
    page.go("register", branch="south", account="tea:box")
    name = page.run("return document.querySelector('.chart svg').getAttribute('aria-label')")
    holds("of a day it has the last balance", "lowest 15.00 EUR, highest 16.00 EUR, at the end 16.00 EUR" in name, name)
    page.go("register", branch="north", account="assets:nothing")
    holds("an account without postings is said", "No posting is listed" in page.text("#register-report"))
    page.go("register", branch="north")
    holds("without an account all are offered", "expenses:hall:rent" in page.text("#register-report"))
    page.fill("register", account="assets:cash", tag="")
    page.run("document.getElementById('register-account').focus()")
    page.tab.press("Enter")
    holds("Enter shows the register", page.comes(lambda: "flowers" in page.text("#register-report")),
          page.text("#register-report"))
    page.run("history.back()")
    holds("the browser's back goes back", page.comes(lambda: "expenses:hall:rent" in page.text("#register-report")))


def journals(holds, page, browser):
    """The journal, to read and to save."""
    stand = page.stand
    downloads = stand.folder / "downloads"
    downloads.mkdir(exist_ok=True)
    browser.call("Browser.setDownloadBehavior", behavior="allow", downloadPath=str(downloads))
    page.open("journal", branch="north")
    want = stand.ask("/journal/north")[1]
    shown = page.run("return [...document.querySelectorAll('#journal-report pre')].map(it => it.textContent)")
    holds("each entry is shown, the newest first", "\n".join(reversed(shown)) + "\n" == want, shown[:2])
    page.put("journal-find", "BANK STATEMENT")
    page.settle()
    holds("an entry is found", page.run("return document.querySelectorAll('#journal-report pre').length") == 1)
    asked = len(stand.seen)
    page.put("journal-find", re.search(r"bookid:h-(\w{12})", want)[1])
    page.settle()
    holds("a mark of the treasury is no text of an entry", "No entry has that" in page.text("#journal-report"))
    page.put("journal-find", "fLoWers")
    page.settle()
    holds("how many have it is said", "Found in 1 of" in page.text("#journal-report"),
          page.text("#journal-report")[:200])
    holds("and no letter typed asks the treasury", len(stand.seen) == asked, stand.seen[asked:][:2])
    for fields, found in (({"find": "bank dues"}, ["2026-01-20 dues"]),
                          ({"find": "", "amount": "20.5 $"}, ["2026-02-28 close", "2026-02-02 flowers"]),
                          ({"amount": "-120"}, ["2026-02-28 close", "2026-01-05 (17) hall"]),
                          ({"amount": "", "from": "2026-01-20", "to": "2026-01-31"},
                           ["2026-01-31 bank statement of January", "2026-01-20 dues"]),
                          ({"find": "dues", "amount": "1,250"}, ["2026-01-20 dues"])):
        page.fill("journal", **fields)
        page.settle()
        heads = page.run("return [...document.querySelectorAll('#journal-report pre')]"
                         ".map(it => it.textContent.split('\\n')[0])")
        holds(f"found by {fields}", heads == found, heads)
    page.fill("journal", amount="1,25")
    page.settle()
    holds("what is no amount finds nothing, and is said", "1,25 is no amount" in page.text("#journal-report"))
    page.fill("journal", find="", amount="", **{"from": "", "to": ""})
    page.settle()
    page.press("Save as a file", "#journal-report")
    page.tab.until(lambda: list(downloads.glob("north-*.journal")), "the journal is saved")
    saved = list(downloads.glob("north-*.journal"))
    holds("the file is the whole journal, byte for byte", page.comes(lambda: saved[0].read_text() == want)
          and len(saved) == 1)
    page.stand.mode = "half"
    page.open("journal", branch="north")
    holds("half a journal is none", "There is no report" in page.text("main"), page.text("main"))
    page.stand.mode = "pass"


def overview(holds, page, browser):
    """The federation: all branches side by side."""
    stand = page.stand
    page.open("overview", day="2026-12-31")
    want = {}
    for column, name in enumerate(("north", "south", "centre")):
        for line in stand.ask(f"/balance/{name}/2026-12-31")[1].splitlines():
            amount, account = re.match(r" *(.*?)  (.*)", line).groups()
            symbol, qty = units(amount)
            for at in (column + 1, 0):
                key = (account.split(":")[0], at, symbol)
                want[key] = want.get(key, 0) + qty
    shown = {}
    for name, *cells in page.cells("#overview-report .tree tbody tr"):
        for at, cell in enumerate(cells):
            for amount in cell.split("\n"):
                symbol, qty = units(amount)
                shown[(name.strip(), at, symbol)] = qty
    wanted = {key: qty for key, qty in want.items() if qty}
    holds("the sums of all branches are exact", {key: qty for key, qty in shown.items() if qty} == wanted,
          (shown, want))
    rows = page.cells("#overview-report .turned tbody tr")
    holds("on paper each branch is a row, after the sum of all", [row[0] for row in rows][:4]
          == ["All branches", "north", "south", "centre"] and all(len(row) < 7 for row in rows), rows)
    heads = page.texts("#overview-report .tree thead th")
    holds("each branch has its entries and its lock",
          re.search(r"north\s+\d+ entries\s+locked through 2026-03-31", heads[2])
          and "not locked" in heads[3], heads)
    page.tab.media("print")
    page.tab.size(718, 1000)
    seen = page.run("return ['.tree', '.turned'].map(it => document.querySelector('#overview-report ' + it)"
                    ".checkVisibility()).concat(document.documentElement.scrollWidth)")
    holds("and A4 cuts nothing", seen == [False, True, 718], seen)
    page.tab.media()
    page.tab.size(1180, 900)
    page.press("Unfold all", "#overview-report")
    holds("it unfolds to subaccounts", "hall:rent" in page.text("#overview-report")
          or "retained earnings" in page.text("#overview-report"))
    page.press("south", "#overview-report")
    holds("a branch leads to its balance", page.text("#heading") == "Balance of south")


def statements(holds, page, browser):
    """A year's statement is the same before and after its closing."""
    stand = page.stand
    page.open("statement", branch="keep", **{"from": "2026-01-01", "to": "2026-12-31"})
    before = page.text("#statement-report")
    holds("it has expenses, surplus and assets",
          all(it in before for it in ("17.00 EUR", "-17.00 EUR", "83.00 EUR")), before)
    stand.do(what="close", branch="keep", day="2026-12-31")
    page.open("statement", branch="keep", **{"from": "2026-01-01", "to": "2026-12-31"})
    holds("and is the same after the closing", page.text("#statement-report") == before, page.text("#statement-report"))
    page.open("statement", branch="keep", of="all", **{"from": "2026-01-01", "to": "2026-12-31"})
    holds("all branches stand below one another", "centre" in page.text("#statement-report"))
    three_branches(stand)
    for turn in ("before", "after"):
        page.open("statement", branch="west", **{"from": "2031-01-01", "to": "2031-12-31"})
        rows = {cells[0].strip(): cells[1:] for cells in page.cells("#statement-report tbody tr")}
        holds(f"a branch's year is right {turn} its closing", {name: rows.get(name) for name in WEST} == WEST, rows)
        page.open("statement", branch="west", of="all", **{"from": "2031-01-01", "to": "2031-12-31"})
        rows = {cells[0].strip(): cells[1:] for cells in page.cells("#statement-report tbody tr")}
        holds(f"so is that of all branches {turn} the closings", {name: rows.get(name) for name in ALL} == ALL, rows)
        compare_with_hledger(holds, page, turn)
        for name in ("west", "east", "island"):
            stand.do(what="close", branch=name, day="2031-12-31")
    page.tab.media("print")
    page.tab.size(718, 1000)
    seen = page.run("return ['.signatures', '#statement-form', '#statement-report .buttons', 'details'].map(it =>"
                    " document.querySelector('#view-statement ' + it)?.checkVisibility() ?? document.querySelector(it)"
                    ".checkVisibility()).concat(document.documentElement.scrollWidth)")
    holds("on A4 it has lines to sign, and nothing is cut", seen == [True, False, False, False, 718], seen)
    page.tab.media()
    page.tab.size(1180, 900)
    page.open("statement", branch="west", **{"from": "2031-12-31", "to": "2031-01-01"})
    holds("turned days are told", "The first day is behind the last" in page.text("#statement-report"))


def compare_with_hledger(holds, page, turn):
    """The sums of each branch's year, and of all three, are those of hledger's statements of their journals."""
    if not stands.place_of("hledger"):
        return print("statements: skipped, as this machine lacks hledger: the same sums by hledger")
    hidden = [line.split()[-1] for line in page.stand.ask("/branches")[1].splitlines() if line.split()[-1] not in YEARS]
    for names in (("west",), ("east",), ("island",), ("west", "east", "island")):
        # (other branches are none of hers who may not read them)
        page.stand.mode = "deny " + " ".join(f"/balance/{name}" for name in hidden)
        page.open("statement", branch=names[0], of="all" if len(names) > 1 else "",
                  **{"from": "2031-01-01", "to": "2031-12-31"})
        tables = page.run("return [...document.querySelectorAll('#statement-report table')].slice(0, 2).map(one =>"
                          " [...one.querySelectorAll('tbody tr')].map(row => [...row.children].map(it =>"
                          " it.textContent)))")
        shown = [{name: amounts[at] for name, *amounts in rows} for at, rows in enumerate(tables)]
        for at, (report, period) in enumerate((("is", ["-b", "2031-01-01"]), ("bs", []))):
            found = hledger_rows(page.stand, names, report, *period, "-e", "2032-01-01", "not:tag:bookid=^close:")
            own = {name: cents(shown[at].get(TITLES.get(name) or name.split(":", 1)[1], "0")) for name in found}
            # (here debts are negative, and so is what an account of income gives)
            wrong = {name: (own[name], amount) for name, amount in found.items()
                     if own[name] != (-amount if name.startswith("liabilities:") or name == "total Liabilities"
                                      else amount)}
            holds(f"{' and '.join(names)}, {turn} the closing: the sums of hledger {report}",
                  not wrong and len(found) > 2, (wrong, found, shown[at]))
        page.stand.mode = "pass"


# What the page calls the sums of hledger
TITLES = {"total Revenues": "Income", "total Expenses": "Expenses", "total Assets": "Assets",
          "total Liabilities": "Liabilities", "Net:is": "Surplus", "Net:bs": "Assets less liabilities"}


def cents(amount):
    """An amount of euros in cents."""
    return int(re.sub("[^-0-9]", "", amount))


def hledger_rows(stand, names, *words):
    """The rows of a report of hledger on the journals of branches: accounts and sums, in cents. What lies on the way
    between branches is no asset here."""
    files = []
    for name in names:
        (stand.folder / f"{name}.journal").write_text(stand.ask(f"/journal/{name}")[1])
        files += ["-f", stand.folder / f"{name}.journal"]
    ran = subprocess.run(["hledger", *files, *words, "not:assets:transit", "--flat", "-O", "csv"],
                         stdout=subprocess.PIPE, encoding="utf-8")
    rows, part = {}, ""
    for name, *amounts in list(csv.reader(ran.stdout.splitlines()))[2:]:
        if not any(amounts):
            part = name
        else:
            own = {"total": f"total {part}", "Total:": f"total {part}", "Net:": f"Net:{words[0]}"}
            rows[own.get(name, name)] = cents(amounts[-1])
    return rows


# A year of three branches, beside the year before, worked out by hand
YEARS = {
    "west": """2030-01-01 opening\n  assets:bank  1,000.00 EUR\n  equity:opening\n
2030-03-01 dues\n  assets:bank  300.00 EUR\n  income:dues\n
2030-04-01 rent\n  expenses:rent  120.00 EUR\n  assets:bank\n
2031-02-01 dues\n  assets:bank  400.00 EUR\n  income:dues\n
2031-03-01 rent\n  expenses:rent  150.00 EUR\n  assets:bank\n""",
    "east": """2030-06-01 dues\n  assets:cash  50.00 EUR\n  income:dues\n
2031-06-01 party\n  expenses:party  80.00 EUR\n  assets:cash\n""",
    "island": """2031-07-01 loan\n  assets:bank  500.00 EUR\n  liabilities:loan\n
2031-08-01 interest\n  expenses:interest  10.00 EUR\n  assets:bank\n""",
}


WEST = {"Income": ["400.00 EUR", "300.00 EUR"], "Expenses": ["150.00 EUR", "120.00 EUR"],
        "rent": ["150.00 EUR", "120.00 EUR"], "Surplus": ["250.00 EUR"], "Assets": ["1,180.00 EUR", "1,230.00 EUR"],
        "Assets less liabilities": ["1,180.00 EUR", "1,230.00 EUR"],
        "Received from other branches less sent to them": ["-200.00 EUR"],
        "Change of assets less liabilities": ["50.00 EUR"]}


ALL = {"Income": ["400.00 EUR", "350.00 EUR"], "Expenses": ["240.00 EUR", "120.00 EUR"],
       "party": ["80.00 EUR", "0.00 EUR"], "Surplus": ["160.00 EUR"], "west": ["400.00 EUR", "150.00 EUR", "250.00 EUR",
                                                                              "-200.00 EUR", "1,230.00 EUR"],
       "east": ["0.00 EUR", "80.00 EUR", "-80.00 EUR", "200.00 EUR", "170.00 EUR"],
       "island": ["0.00 EUR", "10.00 EUR", "-10.00 EUR", "0.00 EUR", "-10.00 EUR"],
       "Change of assets less liabilities": ["160.00 EUR"]}


def three_branches(stand):
    """Makes the books of these years, the first of them closed in one branch, with a transfer in the second."""
    for name, journal in YEARS.items():
        stand.do(what="branch", name=name)
        stand.do(what="import", branch=name, journal=journal)
    stand.do(what="close", branch="west", day="2030-12-31")
    stand.do(what="dispatch", id="years", **{"from": "west"}, to="east", day="2031-05-01", amount="200.00 EUR",
             account="assets:bank")
    stand.do(what="receive", id="years", branch="east", day="2031-05-03", account="assets:cash")


def styles(holds, page, browser):
    """Commodities of every style, amounts near the limit: rows are the treasury's texts, and sums are exact."""
    stand = page.stand
    stand.do(what="branch", name="exotic")
    for sample in ("1,000. JPY", "\u20ac1.000,00", '1.000000 "kg 2"', "KR 1.000,000"):
        holds(f"commodity {sample}", stand.do(what="commodity", sample=sample) == "ok")
    journal = """2026-01-01 all
    a:a  45,000,000,000,000.01 EUR
    a:b  0.02 EUR
    a:c  1234567 JPY
    a:d  -3 JPY
    a:e  \u20ac1.234.567,89
    a:f  \u20ac-0,90
    a:g  1234.567891 "kg 2"
    a:h  0.000009 "kg 2"
    a:i  KR 1.234,567
    a:j  KR -0,568
    equity:x
"""
    holds("amounts of each style", stand.do(what="import", branch="exotic", journal=journal) == "ok 1 new, 0 repeated")
    page.open("balance", branch="exotic", day="2026-12-31")
    rows = page.run("return Object.fromEntries([...document.querySelectorAll('tr[data-account]')]"
                    ".map(it => [it.dataset.account, it.cells[1].innerText]))")
    want = dict(reversed(re.match(r" *(.*?)  (.*)", line).groups())
                for line in stand.ask("/balance/exotic/2026-12-31")[1].splitlines() if not line.endswith("equity:x"))
    holds("each row is the treasury's text", {name: rows.get(name) for name in want} == want, (rows, want))
    sums = page.texts("tr[data-account=a] td > div")
    holds("sums are exact in each style", sums == ["45,000,000,000,000.03 EUR", "1,234,564. JPY", "\u20ac1.234.566,99",
                                                   '1234.567900 "kg 2"', "KR 1.233,999"], sums)


def broken(holds, page, browser):
    """Reports that do not come."""
    stand = page.stand
    page.open("balance", branch="north", day="2026-12-31")
    for mode in ("cut", "half", "answer 200 {\"lines\":[[\"1.00 EUR\"]]}\n",
                 "answer 200 {\"lines\":[[\"1.00 EUR\",\"a\",\"b\"]]}\n",
                 "answer 200 {\"lines\":[[\"1.0 EUR\",\"a\"]]}\n",
                 "answer 200          -120.00 EUR  assets:bank\n"):
        stand.mode = mode
        page.go("balance", branch="south", day="2026-12-31")
        page.settle()
        page.go("balance", branch="north", day="2026-12-31")
        holds(f"{mode}: no report rather than a part or a guess", "There is no report" in page.text("#balance-report")
              and "EUR" not in page.text("#balance-report"), page.text("#balance-report"))
    stand.mode = "pass"
    page.press("Try again", "#balance-report")
    holds("try again", "assets" in page.text("#balance-report"), page.text("#balance-report"))
    stand.mode = "deny /balance/south"
    page.go("overview", day="2026-12-31")
    holds("a branch that one may not read is named, and in no sum", "no right to read: south" in
          page.text("#overview-report") and page.texts("#overview-report .tree thead a") == [
              it for it in page.run("return [...document.getElementById('branch').options].map(it => it.value)")
              if it != "south"], page.text("#overview-report"))
    stand.mode = "busy 2"
    page.go("transit", day="2026-12-31")
    holds("where the server is asked too much, the page asks again", "EUR" in page.text("#transit-report"),
          page.text("#transit-report"))
    stand.mode = "pass"
    page.go("balance", branch="north", day="2026-12-31")
    stand.mode = "slow"
    page.run("location.hash = '#balance?branch=south&day=2026-12-31'")
    time.sleep(0.3)
    stand.mode = "pass"
    page.go("balance", branch="north", day="2026-12-31")
    time.sleep(2)
    page.settle()
    holds("a late reply never replaces a newer one", "north, through" in page.text("#balance-report caption")
          and "tea" not in page.text("#balance-report tbody"), page.text("#balance-report"))
    page.go("lock", branch="south")
    page.fill("lock", day="2021-01-01")
    stand.mode = "cut"
    said = page.check("lock")
    holds("a check without a reply enters nothing and says so", "It was not checked" in said
          and not page.text("#pending"),
          said)
    stand.mode = "pass"
    page.press("Try again", "#outcome")
    holds("and is tried again", "Checked" in page.text(), page.text())
    stand.mode = "cut"
    page.tab.reload()
    page.settle()
    holds("without the treasury the page says so", "There is no report" in page.text("main"), page.text("main"))
    stand.mode = "pass"
    page.press("Try again", "main")
    holds("and goes on when it is back", page.value("branch") == "south", page.text("main"))


def large(holds, page, browser):
    """A branch that is nearly full: 48,990 postings in a register must not stop the page."""
    stand = page.stand
    stand.do(what="branch", name="large")
    for chunk in range(10):
        journal = "".join(f"2026-{n % 12 + 1:02}-{n % 28 + 1:02} entry {chunk} {n}\n    expenses:e{n % 300}  "
                          f"{n % 97 + 1}.{n % 100:02} EUR\n    assets:bank\n\n" for n in range(4899))
        answer = stand.do(what="import", branch="large", journal=journal)
        if answer != "ok 4899 new, 0 repeated":
            return holds("a large branch is made", False, answer)
    page.open("register", branch="large", account="assets:bank", day="2026-12-31")
    # How many rows are built before the page does anything else, as no time says on a machine with other work
    page.run("""window.most = 0; let last = 0;
        setInterval(() => {
            const now = document.querySelectorAll('#register-report tbody tr').length;
            window.most = Math.max(most, now - last);
            last = now;
        }, 5)""")
    rows = "return document.querySelectorAll('#register-report tbody tr').length"

    def is_whole():
        # (asked more often, the page would build more slowly)
        time.sleep(1)
        return page.run(rows) == 48990

    holds("the first rows of many are shown", page.run(rows) == 300
          and "300 of 48990 postings" in page.text("#register-report"),
          page.text("#register-report")[-200:])
    page.press("Show 300 more", "#register-report")
    holds("and more on demand", page.run(rows) == 600)
    page.press("Show all", "#register-report")
    page.tab.until(is_whole, "all rows are built")
    holds("all rows are built, and the page stays alive", page.run("return most") <= 3000, page.run("return most"))
    page.go("balance", branch="large", day="2026-12-31")
    holds("300 accounts in a tree", len(page.cells("#balance-report tbody tr")) > 300)
    stand.do(what="lock", branch="large", day="2025-12-31")
    months = [f"2026-{month:02}" for month in range(1, 13)]
    lines = "\n".join(f"{month}-{date:02},Payee {date},{month},-{date}.{month[5:]}"
                      for month in months for date in range(1, 29))
    (stand.folder / "large.csv").write_text(f"Date,Payee,Purpose,Amount\n{lines}\n")
    shut = "#outcome button.main"

    def entry():
        page.fill("entry", day="2026-12-01", what="tea", says="", **{"from": "assets:bank"})
        page.put("entry-to-0", "expenses:e1")
        page.put("entry-amount-0", "1")
        page.check("entry")
        page.tab.click(shut)
        page.settle()

    def bank():
        page.open("bank", branch="large")
        page.tab.files("#bank-file", stand.folder / "large.csv")
        page.put("bank-account", "assets:bank")
        page.settle()
        holds("336 lines of a bank are compared with the book", "336: 336 to enter" in page.text("#bank-lines"),
              page.text("#bank-lines")[:300])

    def search():
        page.put("journal-find", "entry 4567")
        page.settle()
        holds("of 48,990 entries ten are found", "Found in 10 of 48990" in page.text("#journal-report"),
              page.text("#journal-report")[:300])

    period = {"from": "2025-01-01", "to": "2026-12-31"}
    for what, act in (("a register", lambda: page.open("register", branch="large", account="assets:bank")),
                      ("a journal", lambda: page.open("journal", branch="large")), ("a search", search),
                      ("an entry", lambda: page.go("item", branch="large", id="4711")),
                      ("a statement", lambda: page.open("statement", branch="large", **period)),
                      ("a bank's file", bank), ("a new form", lambda: page.open("entry", branch="large")),
                      ("a new entry", entry)):
        longest = browser.longest_task(act)
        holds(f"{what} of 48,990 entries holds the page up for at most 200 ms", longest <= 200, longest)
        if os.environ.get("PAGE_PARTS"):
            print(f"{what}: the longest task took {longest:.0f} ms")
