"""Walks through commands: what a treasurer does, and what goes wrong."""
import json
import re
import time

import stand as stands

from .page import PAUSE, Page, transit_rows

NORTH = """2026-01-01 opening
    assets:bank  5,000.00 EUR
    assets:cash  $120.00
    equity:opening  -5,000.00 EUR
    equity:opening  $-120.00

2026-01-05 (17) hall
    ; due: friday
    expenses:hall:rent  120.00 EUR
    assets:bank

2026-01-20 dues
    assets:bank  1,250.00 EUR
    income:dues

2026-02-02 flowers
    expenses:gifts  $20.50
    assets:cash

2026-01-31 bank statement of January
    assets:bank  0.00 EUR = 6,130.00 EUR
"""


def first_day(holds, page, browser):
    """An empty treasury, its branches and commodities."""
    stand = page.stand
    holds("an empty treasury is said to be empty", "no branch yet" in page.text("main"), page.text("main"))
    page.go("send")
    holds("without a branch there is no form", "no branch yet" in page.text("main") and
          not page.run("return document.querySelector('#send-form').checkVisibility()"))
    page.go("setup")
    page.put("branch-name", "north")
    said = page.check("branch")
    holds("a branch is checked first", "Checked" in said and stand.ask("/branches") == (200, ""), said)
    page.press("Add the branch", "#outcome")
    holds("then it is added", "Done" in page.text() and stand.ask("/branches")[1].endswith("  north\n"), page.text())
    for name in ("south", "centre"):
        page.put("branch-name", name)
        holds(f"branch {name}", "Done" in page.deed("branch"))
    page.put("branch-name", "south")
    holds("the same branch again is a repeat", "done before" in page.check("branch"))
    for sample in ("1,000.00 EUR", "$1,000.00"):
        page.put("commodity-sample", sample)
        holds(f"commodity {sample}", "Done" in page.deed("commodity"))
    page.put("commodity-sample", "1.000,00 EUR")
    holds("another style of it is refused", "Refused: the symbol is already declared" in page.check("commodity"))
    page.put("commodity-sample", "1000 KR")
    holds("a sample without its mark is refused", "Refused: an amount or a symbol" in page.check("commodity"))
    page.put("commodity-sample", "1,000 BTC")
    holds("a mark before three digits is noted", "declares 3 decimals" in page.check("commodity"), page.text())
    holds("what is there is listed", "north, south, centre" in page.text("#setup-report")
          and "1,000.00 EUR, $1,000.00" in page.text("#setup-report"), page.text("#setup-report"))


def imports(holds, page, browser):
    """A journal, as a text and as a file: what is new, what is noted, what is refused."""
    stand = page.stand
    page.go("import", branch="north")
    page.put("import-text", NORTH)
    said = page.check("import")
    holds("a dry run says what would be new", "5 entries would be new, already there: 0" in said, said)
    holds("it lists the new entries with their lines", "2026-01-05 (17) hall" in said and "New entries" in said, said)
    holds("nothing is entered by it", stand.ask("/balance/north/2027-01-01") == (200, "") and not stand.deeds("import"))
    page.tab.click("#outcome button.main", 2)
    page.settle()
    said = page.text()
    holds("then it is imported, by a double click once", "5 entries are new" in said and len(stand.deeds("import"))
          == 1,
          said)
    said = page.check("import")
    holds("the same again is nothing new", "Nothing is new, already there: 5" in said, said)
    holds("and is not offered", not page.run("return document.querySelector('#outcome button.main')"))
    refusals = (
        (NORTH.replace("1,250.00 EUR\n", "1,250.005 EUR\n"), "Refused, line 13: an amount has more decimals", 13,
         "declared:"),
        ("2026-02-03 x\n    a:b  1.00 EUR\n    a:c  -0.99 EUR\n", "line 1: the values of a transaction do not sum", 1,
         "left over: 0.01 EUR"),
        ("2026-02-03 x\n    a:b  1.00 GBP\n    a:c\n", "line 2: the symbol is not declared", 2,
         "declared: 1,000.00 EUR"),
        ("2026-02-30 x\n", "line 1: the text up to the first blank", 1, "a date is written 2024-12-31"),
        ("2026-02-03 x\n    a:b  5\n", "line 2: an amount or a symbol", 2, "a number alone is not an amount"),
        ("include other\n", "line 1: a line that begins in the first column", 1, ""),
        ("2026-02-03 x\n    assets:transit:north:south  1.00 EUR\n    a:c\n", "line 1: an account is `assets:transit`",
         1, ""),
        ("2026-01-20 cleaning\n    expenses:hall  40.00 EUR\n    assets:bank\n", "a balance assertion fails", None,
         "difference: -40.00 EUR"),
        ("2026-04-01 y\n    assets:bank  1.00 EUR = 7.00 EUR\n    income:dues\n", "line 1: a balance assertion fails",
         1,
         "which is new"),
    )
    for journal, sentence, line, hint in refusals:
        page.put("import-text", journal)
        said = page.check("import")
        marked = page.run("return [...document.querySelectorAll('#outcome li.at')].map(it => it.dataset.line)")
        holds(f"refused: {sentence}", sentence in said and hint in said and "Nothing was entered" in said, said)
        holds(f"its line is marked: {sentence}", marked == ([str(line)] if line else []), marked)
    page.put("import-text", refusals[0][0])
    page.check("import")
    page.press("Go to line 13", "#outcome")
    chosen = page.run("const it = document.getElementById('import-text');"
                      "return it.value.slice(it.selectionStart, it.selectionEnd)")
    holds("the line is chosen in the text", chosen == "    assets:bank  1,250.005 EUR", chosen)
    page.put("import-text", "2026-04-02 flowers\n    expenses:gifts  12,50 EUR\n    asets:bank\n")
    said = page.check("import")
    holds("12,50 EUR is noted", "line 2: 12,50 EUR was read as 1,250.00 EUR" in said, said)
    holds("a mistyped account is noted", "line 3: asets:bank is an account that no earlier entry of north has" in said,
          said)
    holds("the new entry is shown with its amounts as they are read", "expenses:gifts  1,250.00 EUR" in said
          and "asets:bank      -1,250.00 EUR" in said, said)
    cells = page.cells("#outcome .sides tbody tr")
    holds("and what it does to the balances", cells == [["expenses:gifts", "0.00 EUR", "1,250.00 EUR", "1,250.00 EUR"],
                                                         ["asets:bank", "0.00 EUR", "-1,250.00 EUR", "-1,250.00 EUR"]],
          cells)
    is_shut = "return document.querySelector('#outcome button.main').disabled"
    holds("what was read otherwise has to be ticked by itself", page.run(is_shut))
    page.tab.click("#outcome input[type=checkbox]")
    holds("before it can be imported", not page.run(is_shut))
    page.put("import-text", "2026-04-02 flowers\n")
    holds("an edit takes the offer away", page.text() == "")
    files(holds, page)


FAULTS = (
    (1, "2026-07-01 x\n    ; \u0001\n", 2), (2, f"2026-07-01 {'x' * 501}\n", 1), (3, "2026-7/1 x\n", 1),
    (4, "2026-07-01 (x\n", 1), (5, "; x\nalias a=b\n", 2), (6, "    a:b  1.00 EUR\n", 1),
    (7, "2026-07-01 x\n    a::b\n", 2),
    (8, "2026-07-01 x\n    a:b  1.2.3 EUR\n", 2), (9, "commodity GBP\n", 1), (10, "2026-07-01 x\n    a:b  $1.001\n", 2),
    (11, "commodity 1.000,00 EUR\n", 1), (12, "2026-07-01 x\n    a:b  1.00 EUR @ $-1\n", 2),
    (13, "2026-07-01 x\n    a:b  1.00 EUR @ $1.3456\n    a:c\n", 1), (14, "2026-07-01 x\n    a:b  = 5.00 EUR\n", 2),
    (15, "2026-07-01 x\n    (a:b)  1.00 EUR\n", 2), (16, "2026-07-01 x\n    ; bookid:a\n    ; bookid:b\n", 3),
    (17, "2026-07-01 x\n    a:b\n    a:c\n", 1), (18, "2026-07-01 x\n    a:b  1.00 EUR\n", 1),
    (25, "2026-07-01 x\n    ; bookid:out:x\n", 1), (28, "2026-07-01 x\n    a:b  99999999999999.00 EUR\n    a:c\n", 0),
)


def faults(holds, page, browser):
    """Each refusal of a journal's text, with the sentence of docs/RULES.md, and its line, if it has one, marked."""
    rules = (stands.TOP / "docs" / "RULES.md").read_text(encoding="utf-8")
    sentences = {int(number): re.sub(r' \("[A-Z][a-z]+"\)', "", sentence)
                 for number, sentence in re.findall(r"^\| (\d+) \| [A-Z]\w+ \| (.*?) \|", rules, re.M)}
    page.open("import", branch="north")
    for number, journal, line in FAULTS:
        page.put("import-text", journal)
        said = page.check("import")
        marked = page.run("return [...document.querySelectorAll('#outcome li.at')].map(it => Number(it.dataset.line))")
        place = f", line {line}" if line else ""
        holds(f"{number} with its sentence and its line", f"Refused{place}: {sentences[number]}" in said
              and f"({number} " in said and marked == ([line] if line else []), (said, marked))
    marked = "2026-07-01 x\n    ; bookid:mine\n    expenses:hall  1.00 EUR\n    assets:bank\n"
    page.put("import-text", marked)
    holds("an entry with a mark", "1 entry is new" in page.deed("import"), page.text())
    page.put("import-text", marked.replace("1.00", "2.00"))
    holds("24 with its sentence", sentences[24] in page.check("import"), page.text())
    page.go("lock", branch="north")
    page.fill("lock", day="2025-01-01")
    for number in (20, 21, 23, 30, 39, 40, 42, 43, 44, 45, 46):
        text = {"answer": f"refused {number} Name", "number": str(number), "name": "Name",
                "sentence": sentences[number],
                "told": [f"treasury: {sentences[number]}", "  a hint"], "notes": []}
        status = {40: 503, 42: 503, 43: 500, 44: 400, 45: 500, 46: 500}.get(number, 409)
        page.stand.mode = f"always {status} {json.dumps(text, separators=(',', ':'))}\n"
        said = page.check("lock")
        holds(f"{number} with its sentence", f"Refused: {sentences[number]}" in said and "a hint" in said
              and "Nothing was entered" in said, said)
    page.stand.mode = "pass"


def files(holds, page):
    """Journals as files, in other encodings too."""
    stand, folder = page.stand, page.stand.folder
    baker = "2026-04-03 B\u00e4cker\n    expenses:food  3.00 EUR\n    assets:bank\n"
    (folder / "latin.journal").write_bytes(baker.encode("latin-1"))
    page.tab.files("#import-file", folder / "latin.journal")
    page.tab.until(lambda: "not UTF-8" in page.text(), "a file that is not UTF-8 is said")
    holds("a file that is not UTF-8 is not read by itself", page.value("import-text") == "")
    page.press("Read it as Windows-1252", "#outcome")
    page.tab.until(lambda: page.value("import-text") != "", "it is read")
    holds("it is read as Latin-1 when that is chosen", "1 entry is new" in page.deed("import")
          and "B\u00e4cker" in stand.ask("/register/north?account=expenses:food")[1], page.text())
    ends = "2026-04-04 rent\r\n    expenses:hall:rent  1.00 EUR\r\n    assets:bank\r\n"
    (folder / "ends.journal").write_bytes(("\ufeff" + ends).encode())
    page.tab.files("#import-file", folder / "ends.journal")
    page.tab.until(lambda: "byte order mark" in page.text(), "a byte order mark is said")
    said = page.deed("import")
    holds("a byte order mark is left out, and the text goes as it is", "1 entry is new" in said
          and json.loads(stand.deeds("import")[-1])["journal"] == ends, said)
    many = "".join(f"2026-05-{day % 28 + 1:02} entry {day}\n    expenses:hall  0.01 EUR\n    assets:bank\n\n"
                   for day in range(4900)) + "2026-05-01 last\n    expenses:hall  1 XYZ\n    assets:bank\n"
    (folder / "many.journal").write_text(many)
    page.tab.files("#import-file", folder / "many.journal")
    page.tab.until(lambda: "19,603 lines" in page.text("#import-facts") or "19603 lines" in page.text("#import-facts"),
                   "a long file is read", 20)
    said = page.check("import")
    holds("line 19602 of a long file is named and marked", "line 19602: the symbol is not declared" in said, said)


def sending(holds, page, browser):
    """Transfers: checked, sent once whatever is clicked."""
    stand = page.stand
    page.open("send", branch="north")
    page.fill("send", to="south", day="2026-03-01", account="assets:bank")
    for wrong in ("1,5 EUR", "5 GBP", "five", "1.005"):
        page.fill("send", amount=wrong)
        holds(f"{wrong} is no amount, as in an entry", f"{wrong} is no amount here" in page.check("send")
              and page.run("return document.activeElement.id") == "send-amount", page.text())
    page.fill("send", amount="7.5")
    said = page.check("send")
    holds("the check of a transfer shows the balances before and after", all(it in said for it in (
        "7.50 EUR", "assets:transit:north:south", "6,130.00 EUR", "-7.50 EUR", "6,122.50 EUR")), said)
    holds("how amounts are written is said", "1,000.00 EUR, $1,000.00" in page.text("#send-amount-as"))
    page.fill("send", amount="500.00 EUR")
    first = page.value("send-id")
    said = page.deed("send", 3)
    holds("sent by a triple click once", "Done" in said and first in said and len(stand.deeds("dispatch")) == 1, said)
    page.fill("send", amount="500")
    holds("an equal transfer of the day is named", "has the same accounts and amounts" in page.check("send"),
          page.text())
    second = page.value("send-id")
    holds("the next transfer has a reference of its own", second and second != first, second)
    page.fill("send", amount="1.00 EUR")
    page.run("const it = document.querySelector('#send-form button'); it.click(); it.click(); it.click()")
    page.settle()
    page.run("const it = document.querySelector('#outcome button.main'); it.click(); it.click(); it.click()")
    page.settle()
    holds("three clicks by a script send once", len(stand.deeds("dispatch")) == 2 and "Done" in page.text())
    page.fill("send", amount="1.50 EUR")
    page.run("document.getElementById('send-amount').focus()")
    page.tab.press("Enter", hold=20)
    holds("Enter that is held checks and sends nothing", page.comes(lambda: "Checked" in page.text())
          and len(stand.deeds("dispatch")) == 2)
    refusals = (({"amount": "0.00 EUR"}, "the amount of a dispatch or of a part is not positive"),
                ({"account": "assets:transit:x"}, "an account is `assets:transit`"),
                ({"account": "a::b"}, "an account of"))
    for values, sentence in refusals:
        page.fill("send", **{"amount": "1.00 EUR", "account": "assets:bank", **values})
        holds(f"refused: {sentence}", f"Refused: {sentence}" in page.check("send"), page.text())
    page.fill("send", id=first, amount="7.00 EUR", account="assets:bank")
    said = page.check("send")
    holds("an ID that is taken is refused", "the mark or the ID is already held" in said and "held: " in said, said)
    page.fill("send", id="", amount="1.00 EUR")
    page.go("send", branch="north")
    holds("what is open is there once each", len(transit_rows(stand)) == 2, transit_rows(stand))


def troubles(holds, page, browser):
    """The network is cut before and after the deed; others answer; the page is loaded anew in the middle."""
    stand = page.stand
    page.open("send", branch="north")
    page.fill("send", to="south", day="2026-03-02", amount="20.00 EUR", account="assets:bank")
    lost, before = page.value("send-id"), len(stand.deeds("dispatch"))
    stand.mode = "lose"
    said = page.deed("send")
    sent = stand.deeds("dispatch")[before:]
    holds("the replies are lost: it is said that nobody knows", "not known whether this was done" in said, said)
    holds("the very same was sent three times", len(sent) == 3 and len(set(sent)) == 1 and lost in sent[0], sent)
    page.fill("send", amount="21.00 EUR", id="another")
    holds("no other transfer while one is open", "has had no reply yet" in page.check("send"), page.text())
    page.tab.reload()
    page.settle()
    holds("it is there after a reload", lost in page.text("#pending"), page.text("#pending"))
    page.press("Forget it …", "#pending")
    holds("to forget it is asked twice", "If it was done, it stays done" in page.text("#pending"))
    page.press("Keep it", "#pending")
    stand.mode = "pass"
    page.press("Send the same again", "#pending")
    said = page.text()
    holds("sent again it is a repeat", "done before" in said and lost in said and page.text("#pending") == "", said)
    holds("it was done once", sum(lost in row for row in transit_rows(stand)) == 1)
    page.go("send", branch="north")
    page.fill("send", to="south", day="2026-03-02", amount="22.00 EUR", account="assets:bank")
    middle = page.value("send-id")
    page.check("send")
    stand.mode = "slow"
    page.run("document.querySelector('#outcome button.main').click()")
    time.sleep(0.3)
    page.tab.reload()
    stand.mode = "pass"
    page.settle()
    holds("loaded anew in the middle, the command is kept", middle in page.text("#pending"), page.text("#pending"))
    page.press("Send the same again", "#pending")
    holds("and was done once", sum(middle in row for row in transit_rows(stand)) == 1, page.text())
    page.fill("send", to="centre", day="2026-03-02", amount="30.00 EUR", account="assets:bank")
    page.check("send")
    page.tab.offline(True)
    page.press("Send", "#outcome")
    said = page.text()
    holds("offline it is said that nobody knows", "not known" in said and "connection failed" in said, said)
    page.tab.offline(False)
    page.press("Send the same again", "#pending")
    holds("back online it is done once", "Done" in page.text()
          and sum(" to centre" in row for row in transit_rows(stand)) == 1, page.text())
    page.fill("send", to="centre", amount="31.00 EUR")
    store = json.dumps({"answer": "refused 41 Store", "number": "41", "name": "Store",
                        "sentence": "a call to the database "
                        "failed, though not for lack of memory", "told": ["treasury: a call"], "notes": []},
                       separators=(",", ":"))
    page.check("send")
    stand.mode = f"answer 503 {store}\n"
    page.press("Send", "#outcome")
    holds("41 stays open", "It may have been done or not" in page.text() and "no reply yet" in page.text("#pending"),
          page.text())
    for mode, what in (("answer 200 <html>a captive portal", "a page in place of the answer"),
                       ("answer 200 {\"answer\":\"ok\"}\n", "an answer without its keys"),
                       ("answer 200 {\"answer\":\"maybe\",\"told\":[],\"notes\":[]}\n", "an answer that is none"),
                       ("answer 502 <html>Bad Gateway", "a gateway without the treasury")):
        stand.mode = mode
        page.press("Send the same again", "#pending")
        holds(f"{what} counts as no reply", "not known" in page.text() and "no reply yet" in page.text("#pending"),
              page.text())
    stand.mode = "answer 403 forbidden\n"
    page.press("Send the same again", "#pending")
    holds("403 after a lost reply leaves it open", "no reply yet" in page.text("#pending"), page.text())
    stand.mode = "pass"
    page.press("Send the same again", "#pending")
    holds("then it is done", "Done" in page.text() and sum(" to centre" in row for row in transit_rows(stand)) == 2)
    page.fill("send", to="centre", amount="0.01 EUR")
    page.check("send")
    page.run("Storage.prototype.setItem = () => { throw new Error('full'); }")
    stand.mode = "lose"
    page.press("Send", "#outcome")
    stand.mode = "pass"
    holds("a browser that keeps nothing: the page says so, and asks before it is left",
          "This browser keeps nothing" in page.text("#pending")
          and not page.run("return dispatchEvent(new Event('beforeunload', { cancelable: true }))"),
          page.text("#pending"))
    page.press("Send the same again", "#pending")
    holds("it is done once, and then nothing asks", "done before" in page.text()
          and page.run("return dispatchEvent(new Event('beforeunload', { cancelable: true }))"), page.text())
    page.open("import", branch="south")
    page.put("import-text", "2026-03-03 tea\n    expenses:tea  3.00 EUR\n    assets:bank\n")
    page.check("import")
    stand.mode = "cut"
    page.press("Import", "#outcome")
    page.tab.reload()
    page.settle()
    stand.mode = "pass"
    holds("an import that was cut off before the deed is kept", "Import: no reply yet" in page.text("#pending"))
    page.open("overview")
    page.press("Send the same again", "#pending")
    holds("and is done once", "1 entry is new, already there: 0" in page.text(), page.text())
    big = "2026-05-01 tea\n" + f"    ; {'x' * 880}\n" * 1000 + "    expenses:tea  0.01 EUR\n    assets:bank\n"
    page.go("import", branch="south")
    page.run("localStorage.setItem('other', 'x'.repeat(4800000))")
    page.put("import-text", big)
    page.check("import")
    stand.mode = "lose"
    page.press("Import", "#outcome")
    page.tab.reload()
    page.settle()
    stand.mode = "pass"
    holds("a text that is too long to keep: the same file again", "Import the same file again" in page.text("#pending"),
          page.text("#pending"))
    page.go("import", branch="south")
    page.put("import-text", big)
    holds("and it is there already", "Nothing is new, already there: 1" in page.check("import"), page.text())
    page.press("I have done that", "#pending")
    holds("then nothing is open", page.text("#pending") == "", page.text("#pending"))
    page.run("localStorage.removeItem('other')")


def tabs(holds, page, browser):
    """A tab is closed in the middle; two tabs send the same at once."""
    stand = page.stand
    other = Page(browser, stand)
    other.go("send", branch="north")
    other.fill("send", to="centre", day="2026-03-02", amount="0.25 EUR", account="assets:bank")
    cut = other.value("send-id")
    other.check("send")
    stand.mode = "slow"
    other.run("document.querySelector('#outcome button.main').click()")
    time.sleep(0.4)
    other.tab.close()
    page.open("send", branch="north")
    holds("a tab is closed in the middle: the command is there in another", cut in page.text("#pending"),
          page.text("#pending"))
    second = Page(browser, stand)
    second.go("lock", branch="centre")
    holds("and in each", cut in second.text("#pending"))
    for one in (page, second):
        one.run("document.querySelector('#pending button.main').click()")
    stand.mode = "pass"
    for one in (page, second):
        one.settle()
        holds("each tab learns what became of it", "done before" in one.text() or "Done" in one.text(), one.text())
    holds("it was done once", sum(cut in row for row in transit_rows(stand)) == 1)
    holds("it is open in no tab", page.text("#pending") == "" and second.text("#pending") == "")
    page.fill("send", to="centre", day="2026-03-02", amount="0.50 EUR", account="assets:bank")
    half = page.value("send-id")
    page.check("send")
    stand.mode = "lose"
    page.press("Send", "#outcome")
    stand.mode = "pass"
    holds("another tab sees at once what has no reply", half in second.text("#pending"))
    second.fill("lock", day="2020-01-01")
    holds("and does something else", "Done" in second.deed("lock"), second.text())
    holds("which takes nothing away", half in second.text("#pending") and half in page.text("#pending"))
    second.press("Send the same again", "#pending")
    holds("there it is a repeat", "done before" in second.text(), second.text())
    page.settle()
    holds("and the first tab sees it go", page.text("#pending") == "", page.text("#pending"))
    second.tab.close()


def receiving(holds, page, browser):
    """Receipts, whole and in parts, from the list of open ones."""
    stand = page.stand
    page.open("transit", day="2026-03-31")
    rows = page.cells("#transit-report .transfers tbody tr")
    want = [line.split() for line in stand.ask("/transfers/2026-03-31")[1].splitlines()]
    holds("each open transfer has its row", sorted(row[0] for row in rows) == sorted(line[-1] for line in want), rows)
    first = [row for row in rows if row[5] == "500.00 EUR"][0]
    holds("with its age and what is left", first[1:7] == ["2026-03-01", "30 days", "north", "south", "500.00 EUR",
                                                         "500.00 EUR"], first)
    sums = [re.match(r" *(.*?)  (.*) to (.*)", line).groups()
            for line in stand.ask("/transit/2026-03-31")[1].splitlines()]
    holds("the sums are those of the treasury", page.cells("#transit-report table:not(.rows) tbody tr")
          == [[source, target, amount] for amount, source, target in sums], page.text("#transit-report"))
    row_of = f".find(it => it.innerText.includes({json.dumps(first[0])}))"
    page.run(f"[...document.querySelectorAll('.transfers tr')]{row_of}.querySelector('a').click(); {PAUSE}")
    page.settle()
    holds("a row leads to its receipt", page.value("receive-id") == first[0] and page.value("branch") == "south")
    holds("only what goes to this branch is listed", "centre" not in page.text("#receive-report"))
    page.fill("receive", account="assets:bank", day="2026-02-01")
    said = page.check("receive")
    holds("too early is refused", "the receipt is dated before the dispatch" in said and "held: " in said, said)
    page.fill("receive", day="2026-03-05")
    page.run("document.querySelector('input[value=part]').click()")
    key = page.value("receive-key")
    page.fill("receive", amount="500.01 EUR")
    said = page.check("receive")
    holds("more than is left is refused", "the amount of a part is more" in said and "left: 500.00 EUR" in said, said)
    page.fill("receive", amount="200.00 EUR")
    page.check("receive")
    stand.mode = "lose"
    page.press("Receive", "#outcome")
    stand.mode = "pass"
    page.press("Send the same again", "#pending")
    holds("a part whose reply is lost is received once", "done before" in page.text() and key in page.text()
          and stand.ask("/transfers/9999-12-31")[1].count("300.00 EUR") == 1, page.text())
    page.settle()
    row = [cells for cells in page.cells("#receive-report tbody tr") if cells[0] == first[0]][0]
    holds("the rest is listed", row[5:7] == ["500.00 EUR", "300.00 EUR"], row)
    page.run(f"[...document.querySelectorAll('#receive-report tr')]{row_of}"
             ".querySelector('input').click()")
    page.fill("receive", account="assets:bank", day="2026-03-06")
    holds("the whole is the choice again", page.run("return document.querySelector('input[value=whole]').checked"))
    said = page.deed("receive", 2)
    holds("the rest is received by a double click once", "Done" in said and len(stand.deeds("receive")) == 4 + 1, said)
    holds("then it is no longer listed", first[0] not in page.text("#receive-report"), page.text("#receive-report"))
    page.fill("receive", id=first[0], account="assets:bank", day="2026-03-07")
    holds("again on another day it is refused", "was received before with another day" in page.check("receive"),
          page.text())
    page.fill("receive", id="nothing")
    holds("an unknown one is refused", "there is no transfer with that ID" in page.check("receive"), page.text())
    page.go("receive", branch="centre")
    page.fill("receive", id=first[0])
    holds("one to another branch is refused", "the transfer goes to another branch" in page.check("receive"),
          page.text())


def finishing(holds, page, browser):
    """Lock and close, with the entry that would be made."""
    stand = page.stand
    page.open("close", branch="north")
    page.fill("close", day="2026-02-28")
    page.check("close")
    shown = page.text("#outcome pre")
    holds("nothing is closed by the check", "close:2026-02-28" not in stand.ask("/journal/north")[1])
    page.press("Close", "#outcome")
    entry = stand.ask("/journal/north")[1].split("\n\n")[-2] + "\n"
    holds("the entry is the one that was shown", "Done" in page.text() and shown.strip() == entry.strip(),
          (shown, entry))
    holds("again it is a repeat", "done before" in page.check("close"), page.text())
    page.fill("close", accounts="income", into="equity:fund")
    said = page.check("close")
    holds("another closing of that day is refused", "the mark or the ID is already held" in said, said)
    page.fill("close", day="2026-12-31", accounts="income;assets:cash;nothing", into="equity:fund")
    said = page.check("close")
    holds("a list is checked, with its notes", "equity:fund" in said and "assets:cash" in said
          and "Accounts: nothing is no account of north, and closes nothing" in said, said)
    page.fill("close", accounts="assets")
    holds("what may not be closed is refused", "in a list of accounts to close" in page.check("close"), page.text())
    page.fill("close", accounts="nothing", into="")
    holds("nothing to close is refused", "no selected account has a balance" in page.check("close"), page.text())
    page.go("lock", branch="north")
    holds("the lock is told", "locked through 2026-02-28" in page.text("#lock-now"))
    page.fill("lock", day="2026-03-31")
    said = page.deed("lock", 2)
    holds("locked", "Done" in said and "locked through 2026-03-31" in page.text("#lock-now"), said)
    holds("again it is a repeat", "done before" in page.check("lock"))
    page.fill("lock", day="2026-03-30")
    holds("a lock never moves back", "the branch is locked through a later day" in page.check("lock"))
    page.fill("lock", day="2036-03-30")
    holds("a lock far ahead is noted", "cannot be undone" in page.check("lock"), page.text())
    page.open("overview")
    page.run("""const Real = Date; window.Date = class extends Real {
        constructor(...given) { super(...(given.length ? given : ['2031-02-03T12:00:00'])); } }""")
    for view, day in (("send", "2031-02-03"), ("receive", "2031-02-03"), ("lock", "2030-12-31"),
                      ("close", "2030-12-31")):
        page.go(view, branch="south")
        holds(f"{view} proposes a day of today's calendar", page.value(f"{view}-day") == day, page.value(f"{view}-day"))
    page.tab.reload()
    page.settle()
    page.go("import", branch="north")
    page.put("import-text", "2026-03-31 late\n    expenses:hall  1.00 EUR\n    assets:bank\n")
    holds("a locked day is refused", "Refused, line 1: the day is on or before the lock day" in page.check("import"))
