"""Walks through what keeps books: entries by a form, what others do meanwhile, a bank's file."""
import json
import re
import zipfile

import stand as stands

from .page import PAUSE, Page, count_of, last_entry


def keeping(holds, page, browser):
    """Entries by the form: checked, entered once, twice on purpose, reversed once, copied."""
    stand = page.stand
    stand.do(what="branch", name="keep")
    stand.do(what="import", branch="keep", journal="2026-01-01 opening\n  assets:cash  100.00 EUR\n  equity:opening\n")
    page.open("entry", branch="keep")

    def receipt(amount):
        page.fill("entry", day="2026-05-01", what="stamps", **{"from": "assets:cash"})
        page.put("entry-to-0", "expenses:post")
        page.put("entry-amount-0", amount)

    for wrong in ("8,50", "8.505", "1,0.00", "8.50 GBP", "x"):
        receipt(wrong)
        holds(f"{wrong} is no amount", "is no amount here" in page.check("entry"), page.text())
    receipt("8.50")
    said = page.check("entry")
    holds("the check shows the entry and the balances", all(it in said for it in (
        "expenses:post  8.50 EUR", "assets:cash  -8.50 EUR", "100.00 EUR", "91.50 EUR")), said)
    page.fill("entry", says="91.50")
    page.deed("entry", times=3)
    holds("three clicks enter it once, with its assertion", count_of(stand, "keep") == 2
          and last_entry(stand, "keep").endswith("= 91.50 EUR"), last_entry(stand, "keep"))
    receipt("8.50")
    holds("an equal receipt is noticed", "has the same accounts and amounts" in page.check("entry"), page.text())
    page.tab.click("#outcome button.main")
    page.run(PAUSE)
    page.settle()
    holds("and entered, as it was wished", count_of(stand, "keep") == 3)
    receipt("1.00")
    page.put("entry-to-1", "expenses:gifts")
    page.put("entry-amount-1", "2")
    stand.mode = "lose"
    page.deed("entry")
    page.tab.until(lambda: "not known" in page.text(), "the page gives up")
    page.settle()
    stand.mode = "pass"
    page.press("Send the same again", "#pending")
    holds("a split entry is there once after a lost reply", count_of(stand, "keep") == 4
          and "assets:cash  -3.00 EUR" in last_entry(stand, "keep"), last_entry(stand, "keep"))
    page.open("register", branch="keep", account="expenses:gifts", day="2026-12-31")
    page.press("4", "#register-report")
    holds("a register leads to its entry", "expenses:post" in page.text("#item-report"), page.text("#item-report"))
    page.fill("reverse", day="2026-05-02")
    page.deed("reverse")
    holds("an entry is reversed with the mark that names it", "bookid:back-keep-4" in last_entry(stand, "keep")
          and "expenses:gifts  -2.00 EUR" in last_entry(stand, "keep"), last_entry(stand, "keep"))
    page.press("5, 2026-05-02", "#item-report")
    holds("from the reversal a link leads back", "Reverses" in page.text("#item-report"), page.text("#item-report"))
    page.press("4, 2026-05-01", "#item-report")
    holds("once: it is not offered again", "Reversed by" in page.text("#item-report")
          and page.run("return document.getElementById('reverse-form').hidden"))
    page.press("Copy into the form", "#item-report")
    holds("it is copied into the form",
          page.value("entry-amount-0") + page.value("entry-amount-1") == "1.00 EUR2.00 EUR")
    holds("with an empty line for more", page.value("entry-to-2") == "" and "Sum: 3.00 EUR" in page.text("#entry-form"))
    page.open("journal", branch="keep")
    offered = page.texts("#journal-report a[href*=reverse]")
    holds("a journal offers to reverse what is not reversed", len(offered) == 4 and len(
        page.texts("#journal-report .entry")) == 5, offered)
    page.run(f"document.querySelector('#journal-report a[href*=reverse]').click(); {PAUSE}")
    page.settle()
    said = page.text()
    holds("and shows at once what that does", "back-keep-5" in said and count_of(stand, "keep") == 5, said)
    page.open("entry", branch="keep")
    page.put("entry-from", "income:dues")
    page.put("entry-to-0", "assets:cash")
    holds("what the cash box says is its balance, on either side", page.value("entry-says-of") == "to")


def bound(holds, page, browser):
    """What is done is what was shown: others make entries between a check and its deed, or before a repeat."""
    stand = page.stand
    stand.do(what="branch", name="pair")
    stand.do(what="import", branch="pair", journal="2026-01-01 opening\n  assets:cash  100.00 EUR\n  income:dues\n")
    page.open("import", branch="pair")

    def other(day):
        answer = stand.do(what="import", branch="pair", journal=f"2026-02-{day} other\n  expenses:tea  1.00 EUR\n"
                                                                "  assets:cash\n")
        holds(f"another makes an entry on {day}", answer == "ok 1 new, 0 repeated", answer)

    page.put("import-text", "2026-03-01 milk\n  expenses:milk  2.00 EUR\n  assets:cash\n")
    page.check("import")
    other("01")
    page.press("Import", "#outcome")
    said = page.text()
    holds("what has changed is shown, and asked anew", "other entries were made in between" in said
          and "Entry 2, 2026-02-01 other" in said and "1 entry would be new" in said, said)
    holds("nothing was entered", count_of(stand, "pair") == 2)
    page.press("Import", "#outcome")
    holds("then it is done, and the entry is shown", count_of(stand, "pair") == 3 and "1 entry is new" in page.text()
          and "expenses:milk  2.00 EUR" in page.text("#outcome pre"), page.text())
    page.put("import-text", "2026-03-02 milk\n  expenses:milk  2.00 EUR\n  assets:cash\n")
    page.check("import")
    stand.mode = "lose"
    page.press("Import", "#outcome")
    stand.mode = "pass"
    other("02")
    page.press("Send the same again", "#pending")
    holds("an import whose reply was lost is there, whatever came since", "already there: 1" in page.text()
          and '"if-entries":"3"' in stand.deeds("import")[-1] and count_of(stand, "pair") == 5, page.text())
    page.put("import-text", "2026-03-03 milk\n  expenses:milk  2.00 EUR\n  assets:cash\n")
    page.check("import")
    stand.mode = "cut"
    page.press("Import", "#outcome")
    stand.mode = "pass"
    other("03")
    page.tab.reload()
    page.settle()
    page.press("Send the same again", "#pending")
    said = page.text()
    holds("one that was not done is not done behind another's entry", "other entries were made in between" in said
          and "Entry 6, 2026-02-03 other" in said and "expenses:milk  2.00 EUR" in said
          and count_of(stand, "pair") == 6 and page.text("#pending") == "", said)
    page.open("close", branch="pair")
    page.fill("close", day="2026-12-31")
    page.check("close")
    other("04")
    page.press("Close", "#outcome")
    said = page.text()
    holds("a closing that would be another one is shown anew", "other entries were made in between" in said
          and "expenses:tea  -4.00 EUR = 0.00 EUR" in said and "close:" not in last_entry(stand, "pair"), said)
    stand.mode = "lose"
    page.press("Close", "#outcome")
    stand.mode = "pass"
    page.press("Send the same again", "#pending")
    holds("a closing whose reply was lost is repeated, and shown", "done before" in page.text()
          and "close:2026-12-31" in page.text("#outcome pre") and count_of(stand, "pair") == 8, page.text())


def once_only(holds, page, browser):
    """Each command is done once, though it is clicked twice, its replies are lost, the page is loaded anew in the
    middle, and two tabs send it again at once."""
    stand, second = page.stand, Page(browser, page.stand)
    for name in ("once", "twice"):
        stand.do(what="branch", name=name)
    stand.do(what="import", branch="once", journal="2026-01-01 opening\n  assets:cash  100.00 EUR\n  income:dues\n")
    stand.do(what="dispatch", id="once-in", **{"from": "twice"}, to="once", day="2026-01-02", amount="9.00 EUR",
             account="assets:cash")
    (stand.folder / "once.csv").write_text("Date,Payee,Purpose,Amount\n2026-01-05,Post,stamps,-3.50\n"
                                           "2026-01-05,Post,stamps,-3.50\n")

    def entry():
        page.fill("entry", day="2026-01-03", what="tea", **{"from": "assets:cash"})
        page.put("entry-to-0", "expenses:tea")
        page.put("entry-amount-0", "2.00")

    def bank():
        page.tab.files("#bank-file", stand.folder / "once.csv")
        page.put("bank-account", "assets:cash")
        page.settle()
        page.put("bank-counter-0", "expenses:post")

    given = {"account": "assets:cash", "day": "2026-01-03"}
    deeds = (("entry", "entry", 1, entry), ("item", "reverse", 1, lambda: page.fill("reverse", day="2026-01-04")),
             ("bank", "bank", 2, bank),
             ("import", "import", 1, lambda: page.put("import-text", "2026-01-06 x\n  a:b  1.00 EUR\n  a:c\n")),
             ("send", "send", 1, lambda: page.fill("send", to="twice", amount="4.00", **given)),
             ("receive", "receive", 1, lambda: page.fill("receive", id="once-in", **given)),
             ("close", "close", 1, lambda: page.fill("close", day="2026-01-31")),
             ("lock", "lock", 0, lambda: page.fill("lock", day="2026-02-28")),
             ("setup", "branch", 0, lambda: page.put("branch-name", "once-only")),
             ("setup", "commodity", 0, lambda: page.put("commodity-sample", "1,000.00 ONE")))
    for view, form, more, fill in deeds:
        page.open(view, branch="once", id="2")
        fill()
        page.check(form)
        before, sent = count_of(stand, "once"), len(stand.seen)
        stand.mode = "lose"
        page.tab.click("#outcome button.main", 2)
        page.run(PAUSE)
        page.settle()
        stand.mode = "pass"
        page.tab.reload()
        page.settle()
        holds(f"{form}: in two tabs it waits for a reply",
              page.comes(lambda: page.text("#pending") and second.text("#pending")))
        stand.mode = "slow"
        for one in (page, second):
            one.run("document.querySelector('#pending button.main').click()")
        stand.mode = "pass"
        for one in (page, second):
            one.settle()
        done = [body for line, body, _ in stand.seen[sent:] if line.startswith("POST") and '"dry-run"' not in body]
        holds(f"{form}: it was sent five times, the very same, and done once", len(done) == 5 and len(set(done)) == 1
              and count_of(stand, "once") == before + more, (done, before, count_of(stand, "once")))
        bound_to = form in ("branch", "commodity") or f'"if-entries":"{before}"' in done[0]
        holds(f"{form}: it is bound to what was shown", bound_to, done[0])
        holds(f"{form}: both tabs say so", not page.text("#pending") and not second.text("#pending")
              and all("done before" in it or "already there" in it for it in (page.text(), second.text())),
              (page.text(), second.text()))
    second.tab.close()


def names(holds, page, browser):
    """Books with names of their own: what is closed is ticked, and names that look like others are marked."""
    stand = page.stand
    stand.do(what="branch", name="verein")
    stand.do(what="import", branch="verein", journal="2026-01-02 Anfang\n  Vermögen:Kasse  100.00 EUR\n  Eigenes\n\n"
             "2026-01-05 Porto\n  Aufwand:Porto  8.50 EUR\n  Vermögen:Kasse\n\n"
             "2026-01-06 Beitrag\n  Vermögen:K\u0430sse  60.00 EUR\n  Ertrag:Beiträge\n\n"
             "2026-01-07 Beitrag\n  vermögen:kasse  5.00 EUR\n  Ertrag:Beiträge\n")
    page.open("close", branch="verein")
    ticks = "return [...document.querySelectorAll('#close-which input')].map(it => [it.value, it.checked])"
    page.tab.until(lambda: page.run(ticks), "the accounts are there")
    holds("what is income or expense is ticked, whatever its language", page.run(ticks)
          == [["Aufwand", True], ["Eigenes", False], ["Ertrag", True]] and page.value("close-accounts")
          == "Aufwand;Ertrag", page.run(ticks))
    page.tab.click("#close-which input[value=Ertrag]")
    page.fill("close", day="2026-12-31", into="Eigenes")
    said = page.check("close")
    holds("an account without its tick stays", page.value("close-accounts") == "Aufwand"
          and "Aufwand:Porto  -8.50 EUR = 0.00 EUR" in said and "Ertrag" not in said.split("Accounts")[-1], said)
    page.put("close-accounts", "Ertrag")
    holds("the ticks follow the list", page.run(ticks) == [["Aufwand", False], ["Eigenes", False], ["Ertrag", True]])
    for name in ("Aufwand", "Ertrag"):
        page.tab.click(f"#close-which input[value={name}]")
    page.tab.click("#close-which input[value=Ertrag]")
    said = page.deed("close")
    holds("all are closed, and the entry is shown", "Done" in said and "Ertrag:Beiträge  65.00 EUR = 0.00 EUR" in said
          and "Eigenes  -56.50 EUR" in said, said)
    page.go("close", branch="north")
    page.tab.until(lambda: page.value("close-accounts") == "", "the list is that of the other branch")
    page.open("balance", branch="verein", day="2026-12-31")
    seen = page.text("#balance-report")
    holds("a letter of another script is marked by its number", "K\\u{430}sse" in seen, seen)
    holds("accounts that look alike are named", "look alike: Vermögen:Kasse, vermögen:kasse" in seen, seen)
    holds("the title has the branch", page.run("return document.title") == "Balance – verein – Treasury")
    page.tab.press("Tab")
    page.tab.press("Enter")
    holds("the menu can be skipped", page.run("return document.activeElement.id") == "main")


# What a sample of a bank's file needs to be entered: its account, and how many entries come of it
SAMPLES = ("british.csv", "camt.053.001.02.xml", "camt.053.001.08.xml", "collective.xml", "debit-credit.csv",
           "deutsche-bank.csv", "dkb.csv", "ing.csv", "mt940.sta", "n26.csv", "sparkasse.csv", "two.zip",
           "volksbank.csv")


def samples(holds, page, browser):
    """Each sample of a bank's file twice: the second time all of it is repeated."""
    stand = page.stand
    stand.do(what="branch", name="banks")
    for at, name in enumerate(SAMPLES):
        page.open("bank", branch="banks")
        page.tab.files("#bank-file", stands.TOP / "page" / "samples" / name)
        page.put("bank-account", f"assets:bank{at}")
        page.settle()
        page.run("for (const it of document.querySelectorAll('#bank-lines input[type=checkbox]:not(:disabled)'))"
                 " if (it.id.startsWith('bank-end') && it.checked) it.click();"
                 "for (const it of document.querySelectorAll('[id^=bank-counter]')) { it.value ||= 'equity:other';"
                 " it.dispatchEvent(new Event('change')); }")
        said = page.deed("bank")
        made = re.search(r"(\d+) entr(?:y is|ies are) new, already there: 0", said)
        holds(f"{name} is entered", made, said)
        page.open("bank", branch="banks")
        page.tab.files("#bank-file", stands.TOP / "page" / "samples" / name)
        page.run(PAUSE)
        page.put("bank-account", f"assets:bank{at}")
        page.settle()
        page.run("for (const it of document.querySelectorAll('#bank-lines [id^=bank-end]:checked:not(:disabled)'))"
                 " it.click()")
        said = page.check("bank")
        holds(f"{name} a second time is all repeated", made and f"Nothing is new, already there: {made[1]}" in said,
              said)


BANK = """Kontostand vom %s:;%s EUR

Buchungstag;Empfänger;Verwendungszweck;Betrag
%s"""


BANK_LINES = ["12.05.2026;Anna;Beitrag;50,00", "11.05.2026;Bank;Gebühr;-2,50", "11.05.2026;Bank;Gebühr;-2,50",
              "04.05.2026;Post;Porto;-9,50"]


def bank_files(holds, page, browser):
    """A bank's file: entered once, overlapping, with an entry made by hand, and with a balance that does not fit."""
    stand = page.stand
    stand.do(what="branch", name="giro")
    stand.do(what="import", branch="giro",
             journal="2026-01-01 opening\n  assets:giro  1,000.00 EUR\n  equity:opening\n\n2026-05-03 stamps\n"
             "  expenses:post  9.50 EUR\n  assets:giro\n\n2026-03-01 Anna | Beitrag\n"
             "  assets:giro  0.50 EUR\n  income:dues\n\n2026-03-01 back\n  assets:giro  -0.50 EUR\n  income:dues\n")

    def choose(name, lines, day, balance):
        path = stand.folder / name
        path.write_bytes((BANK % (day, balance, "\n".join(lines))).encode("windows-1252"))
        page.tab.files("#bank-file", path)
        page.run(PAUSE)
        page.settle()

    page.open("bank", branch="giro")
    choose("half.csv", BANK_LINES[1:], "11.05.2026", "985,50")
    page.put("bank-account", "assets:giro")
    page.settle()
    said = page.text("#bank-lines")
    holds("the lines are read, in time, and one is like an entry", "3: 2 to enter, 0 there already, 1 like" in said
          and "like entry 2 of 2026-05-03" in said, said)
    holds("a counter-account is asked for", "A counter-account is missing" in page.check("bank"), page.text())
    page.put("bank-counter-1", "expenses:bank")
    holds("it goes to the other line of that payee", page.value("bank-counter-2") == "expenses:bank")
    said = page.deed("bank")
    holds("two equal lines are two entries, and the balance an assertion", "3 entries are new" in said
          and last_entry(stand, "giro").endswith("0.00 EUR = 985.50 EUR"), said)
    holds("the same file again changes nothing", "already there: 3" in page.check("bank"), page.text())
    choose("whole.csv", BANK_LINES, "31.05.2026", "1.035,50")
    holds("what overlaps is there, and a counter-account is known", "4: 1 to enter, 2 there already, 1 like"
          in page.text("#bank-lines") and page.value("bank-counter-3") == "income:dues", page.text("#bank-lines"))
    said = page.deed("bank")
    holds("only the rest is new", "2 entries are new, already there: 2" in said, said)
    page.tab.files("#bank-file", stand.folder / "half.csv", stand.folder / "whole.csv")
    page.run(PAUSE)
    page.settle()
    holds("what lies in two files counts once", "4: 0 to enter, 3 there already, 1 like" in page.text("#bank-lines")
          and "Lines that lie in several files, and count once\n3" in page.text("#bank-lines"),
          page.text("#bank-lines"))
    holds("and all of it is there", "already there: 5" in page.check("bank"), page.text())
    with zipfile.ZipFile(stand.folder / "both.zip", "w", zipfile.ZIP_DEFLATED) as both:
        for name in ("half.csv", "whole.csv"):
            both.write(stand.folder / name, name)
        both.writestr("readme.txt", "no statement")
    page.tab.files("#bank-file", stand.folder / "both.zip")
    page.run(PAUSE)
    page.settle()
    said = page.text("#bank-lines")
    holds("a ZIP of them is read, too, and what is no statement is named", "4: 0 to enter, 3 there already" in said
          and "No line of a statement was found in readme.txt" in said, said)
    page.put("bank-account", "assets:collective")
    page.tab.files("#bank-file", stands.TOP / "page" / "samples" / "collective.xml")
    page.run(PAUSE)
    page.settle()
    holds("the parts of a collective booking are told", "60.00 EUR Anna | Beitrag" in page.text("#bank-lines")
          and "40.00 EUR Bert | Spende" in page.text("#bank-lines"), page.text("#bank-lines"))
    for name, account in (("0-0", "income:dues"), ("0-1", "income:gifts"), ("1", "expenses:post")):
        page.put(f"bank-counter-{name}", account)
    said = page.deed("bank")
    entries = stand.ask("/journal/giro")[1].split("\n\n")
    holds("each part goes to its account", "3 entries are new" in said and any(
        "assets:collective  100.00 EUR\n    income:dues  -60.00 EUR\n    income:gifts  -40.00 EUR" in it
        for it in entries), entries[-4:])
    page.put("bank-account", "assets:giro")
    stand.do(what="import", branch="giro", journal="2026-06-02 wrong\n  expenses:post  7.00 EUR\n  assets:giro\n")
    choose("june.csv", ["05.06.2026;Anna;Beitrag;10,00"], "30.06.2026", "1.045,50")
    said = page.text("#bank-lines")
    holds("a difference is told before, with what may be the reason",
          "-7.00 EUR" in said and "2026-06-02 wrong" in said, said)
    holds("and the treasury refuses it", "29 ClaimFailed" in page.check("bank"), page.text())
    stand.do(what="branch", name="sender")
    stand.do(what="dispatch", id="t-bank", **{"from": "sender"}, to="giro", day="2026-06-01", amount="60.00 EUR",
             account="assets:bank")
    choose("sent.csv", ["05.06.2026;Sender;t-bank;60,00"], "30.06.2026", "1.095,50")
    holds("money of another branch is to be received", "transfer t-bank from sender: receive it" in
          page.text("#bank-lines") and "1: 0 to enter" in page.text("#bank-lines"), page.text("#bank-lines"))
    page.press("transfer t-bank from sender: receive it, so left out", "#bank-lines")
    holds("the receipt is filled in", [page.value(f"receive-{it}") for it in ("id", "day", "account")]
          == ["t-bank", "2026-06-05", "assets:giro"])


MOVING = """2026-01-01 opening
  assets:giro  1,000.00 EUR
  income:dues

2026-01-02 rent
  expenses:rent  700.00 EUR
  assets:giro

2026-01-03 counted
  assets:giro  0.00 EUR = 300.00 EUR
"""
STATEMENT = ":20:A\n:25:10010010/%s\n:60F:C260101EUR1,00\n:61:2601020102CR2,00NMSCNONREF\n:62F:C260102EUR3,00\n-\n"


def moving_on(holds, page, browser):
    """Whoever goes on by Tab or with the mouse gets where they meant to, though the page changes by what they left."""
    stand = page.stand
    stand.do(what="branch", name="moving")
    stand.do(what="import", branch="moving", journal=MOVING)

    def focused():
        return page.run("return document.activeElement.id || document.activeElement.tagName")

    def retype(name, text):
        page.run(f"const it = document.getElementById({json.dumps(name)}); it.focus(); it.select()")
        page.tab.type(text)

    def choose(name, value):
        page.run(f"const it = document.getElementById({json.dumps(name)});"
                 "const around = it.closest('details'); if (around) around.open = true; it.focus()")
        page.put(name, value)
        page.settle()
        holds(f"{name} keeps the focus when it is changed", focused() == name, focused())

    page.open("entry", branch="moving")
    retype("entry-what", "rent")
    page.tab.click("#entry-amount-0")
    page.tab.type("7.00")
    found = [page.value(it) for it in ("entry-from", "entry-to-0", "entry-amount-0")]
    holds("a click leads into the amount, though the accounts are proposed",
          found == ["assets:giro", "expenses:rent", "7.00"], found)
    page.open("entry", branch="moving")
    page.put("entry-what", "counted")
    found = [page.value(it) for it in ("entry-from", "entry-to-0")]
    holds("the one account of an entry is proposed, too", found == ["assets:giro", ""], found)
    page.open("bank", branch="moving")
    page.tab.files("#bank-file", stands.TOP / "page" / "samples" / "dkb.csv")
    page.put("bank-account", "assets:other")
    page.settle()
    retype("bank-account", "assets:giro")
    page.tab.click("#bank-form button:not([type])")
    page.run(PAUSE)
    page.settle()
    holds("a click asks for the check, though the lines above it are made anew",
          "A counter-account is missing" in page.text(), page.text())
    choose("bank-delimiter", ",")
    (stand.folder / "moving.sta").write_text(STATEMENT % 1 + STATEMENT % 2)
    page.tab.files("#bank-file", stand.folder / "moving.sta")
    page.run(PAUSE)
    page.settle()
    choose("bank-which", "1")
    page.put("bank-account", "assets:giro")
    page.settle()
    retype("bank-account", "assets:other")
    page.tab.press("Tab")
    page.run(PAUSE)
    page.settle()
    holds("Tab leads from the account to its lines, which are made anew", focused() == "bank-which", focused())
    page.open("statement", branch="moving", **{"from": "2026-01-01", "to": "2026-12-31"})
    choose("kind-0", "other")
    holds("what accounts are stays open", page.run("return document.getElementById('kind-0').checkVisibility()"))
    choose("kind-0", "asset")
