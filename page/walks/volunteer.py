"""The tasks of a volunteer who has never seen hledger, by keyboard alone: no task takes more than four steps."""
import json
import os
import pathlib
import re

import devtools

from .page import PAUSE, Page, balance_of, count_of, last_entry

MOST_STEPS = 4
# How wide the window is, in points, and in which language
TURNS = ((360, "de"), (1180, "en"), (360, "en"), (1180, "de"))
BOOKS = """2025-01-02 opening
  assets:bank  1,000.00 EUR
  assets:cash  100.00 EUR
  equity:opening

2025-02-01 rent of the hall
  expenses:rent  2,400.00 EUR
  income:dues

2025-08-01 rent of the hall
  expenses:rent  2,400.00 EUR
  income:dues

2026-01-05 rent of the hall
  expenses:rent  400.00 EUR
  assets:bank

2026-02-03 Anna | dues
  assets:bank  60.00 EUR
  income:dues
"""
# A month of the bank, and the next file, which overlaps: its balance does not fit, as the first line is missing in it
MAY = ["04.05.2026;Post;stamps;-9,50", "11.05.2026;Bank;fee;-2,50", "12.05.2026;Anna;dues;60,00"]
JUNE = [*MAY[1:], "03.06.2026;Hall;rent;-400,00"]


class Volunteer:
    """Somebody at the keyboard. A step is to go to a view, to fill in a form, to press a button or to follow a link."""

    def __init__(self, holds, page, width, language):
        self.holds, self.page, self.tab, self.stand = holds, page, page.tab, page.stand
        self.width, self.language, self.name, self.steps = width, language, "", []
        self.pictures = os.environ.get("PAGE_PICTURES", "")
        # In which order this browser has the parts of a day
        page.run("""const it = document.createElement('input'); it.type = 'date'; it.id = 'order';
            document.body.append(it); it.focus()""")
        self.tab.keys("02032024")
        self.has_day_first = page.run("return document.getElementById('order').value") == "2024-03-02"
        page.run("document.getElementById('order').remove()")

    def begin(self, name):
        """Loads the page as one does who comes to it."""
        self.name, self.steps = name, []
        self.tab.visit("about:blank")
        self.tab.visit(f"{self.stand.origin}/")
        self.page.settle()

    def reach(self, selector):
        """Presses Tab until an element has the focus. What leaving a field brings is waited for."""
        try:
            self.tab.until(lambda: self.comes_to(selector), f"{selector} is reached by keyboard")
        except devtools.Fault as fault:
            has = self.page.run("return [document.activeElement.outerHTML.slice(0, 200), document.hasFocus(),"
                                " location.href]")
            raise AssertionError(f"{self.name}: {fault}; the focus is on {has}") from fault

    def comes_to(self, selector):
        """Presses Tab as often as there are elements between, at least; whether the element had the focus before."""
        left, is_there = self.page.run(f"""const has = document.activeElement, wanted = {json.dumps(selector)};
            const it = document.querySelector(wanted);
            if (!has || has.matches(wanted)) return [0, Boolean(has)];
            // (where the next Tab leads from the body depends on what had the focus before)
            const after = has === document.body ? []
                : [...document.querySelectorAll('a[href], button, input, select, textarea, summary')].filter(it =>
                    it.checkVisibility() && !it.disabled && it.type !== 'radio' && has.compareDocumentPosition(it) & 4);
            return [Math.max(1, after.findIndex(it => it.matches(wanted))), Boolean(it)]""")
        for _ in range(left):
            self.tab.press("Tab")
        if not is_there:
            self.page.run(PAUSE)
            self.page.settle()
        return is_there and not left

    def go(self, view):
        """Goes to a view, by the menu."""
        self.follow(f"#views [data-view={view}]")

    def follow(self, selector):
        """Presses a button, or follows a link."""
        self.reach(selector)
        self.tab.press("Enter")
        self.page.run("await new Promise(go => setTimeout(go, 300))")
        self.page.settle()
        self.steps.append(selector)

    def fill(self, form, **values):
        """Fills in a form: fields in the order of the page."""
        for name, value in values.items():
            name = "-".join(filter(None, (form, name.replace("_", "-"))))
            self.reach("#" + name)
            kind = self.page.run("const it = document.activeElement; return it.type || it.localName")
            if kind == "date":
                year, month, date = value.split("-")
                self.tab.keys((date + month if self.has_day_first else month + date) + year)
            elif kind == "file":
                # (the dialog for a file is the browser's)
                self.tab.files("#" + name, value)
            elif kind == "radio":
                self.tab.press(" ")
            elif kind == "select-one":
                self.tab.keys(value)
            else:
                self.page.run("document.activeElement.select?.()")
                self.tab.type(value)
            self.page.run("await new Promise(go => setTimeout(go, 400))")
            self.page.settle()
        self.steps.append("fill " + form)

    def do(self, form):
        """Checks what a form asks for, and does it."""
        self.follow(f"#{form}-form button.main")
        self.picture("check")
        self.follow("#outcome button.main")

    def picture(self, what=""):
        """Takes a picture, if pictures are wanted."""
        if self.pictures:
            name = "-".join(filter(None, (self.name, what, str(self.width), self.language))).replace(" ", "-")
            size = self.page.run("return [innerWidth, Math.max(780, document.documentElement.scrollHeight)]")
            self.tab.size(*size, self.width < 500)
            self.tab.picture(pathlib.Path(self.pictures) / (name + ".png"))
            self.tab.size(self.width, 780, self.width < 500)

    def end(self, is_done, found=""):
        """Says whether the task is done, in how many steps."""
        self.picture()
        where = f"{self.name} ({self.width}, {self.language})"
        self.holds(where, is_done, found)
        self.holds(f"{where} takes at most {MOST_STEPS} steps", len(self.steps) <= MOST_STEPS, self.steps)
        wide = self.page.run("return document.documentElement.scrollWidth")
        self.holds(f"{where} is no wider than the window", wide <= self.width, wide)


def volunteer(holds, page, browser):
    """All tasks, on a telephone in German and on a laptop in English; where pictures are wanted, also the other way
    round."""
    stand = page.stand
    stand.do(what="commodity", sample="1,000.00 EUR")
    for name in ("valley", "meadow"):
        stand.do(what="branch", name=name)
    stand.do(what="import", branch="meadow", journal=BOOKS)
    stand.do(what="import", branch="valley", journal="2026-01-01 dues\n  assets:bank  900.00 EUR\n  income:dues\n")
    for turn, (width, language) in enumerate(TURNS if os.environ.get("PAGE_PICTURES") else TURNS[:2]):
        own = Page(browser, stand, "emil", browser.context())
        own.put("language-choice", language)
        own.tab.size(width, 780, width < 500)
        it = Volunteer(holds, own, width, language)
        for task in (receipts, transfers, look_up, bank, finish):
            try:
                task(it, turn)
            except (AssertionError, devtools.Fault) as error:
                holds(f"{it.name} ({width}, {language}) is done to its end", False, repr(error))
        own.tab.close()


def receipts(it, turn):
    """One receipt, one that is shared out, a payment after which the bank's balance is known, a wrong entry."""
    stand, day, before = it.stand, f"2026-03-{turn + 1:02}", count_of(it.stand, "meadow")
    it.begin("one receipt")
    it.go("entry")
    it.fill("entry", day=day, what="stamps", **{"from": "assets:cash"}, to_0="expenses:post", amount_0="8.50")
    it.do("entry")
    it.end(last_entry(stand, "meadow").endswith("    expenses:post  8.50 EUR\n    assets:cash  -8.50 EUR"),
           last_entry(stand, "meadow"))
    it.begin("a receipt shared out")
    it.go("entry")
    it.fill("entry", day=day, what="fair", **{"from": "assets:cash"}, to_0="expenses:food", amount_0="10.00",
            to_1="expenses:gifts", amount_1="2.00")
    it.do("entry")
    it.end("expenses:gifts  2.00 EUR\n    assets:cash  -12.00 EUR" in last_entry(stand, "meadow"),
           last_entry(stand, "meadow"))
    it.begin("a payment with the balance of the cash box")
    it.go("entry")
    cents = balance_of(stand, "meadow", "assets:cash", day) + 500
    it.fill("entry", day=day, what="dues", **{"from": "income:dues"}, to_0="assets:cash", amount_0="5",
            says=f"{cents // 100}.{cents % 100:02}")
    it.do("entry")
    it.end("assets:cash  5.00 EUR = " in last_entry(stand, "meadow") and count_of(stand, "meadow") == before + 3,
           it.page.text())
    it.begin("a wrong entry")
    it.go("journal")
    it.fill("journal", find=f"stamps {day}")
    it.follow("#journal-report a[href*=reverse]")
    it.picture("check")
    it.follow("#outcome button.main")
    it.end("back-meadow-" in last_entry(stand, "meadow"), it.page.text())
    it.begin("a reversal looked up")
    it.go("journal")
    it.fill("journal", find=f"stamps {day}")
    it.follow("#journal-report a")
    it.end(re.search("Reversed by|Storniert durch", it.page.text("#item-report")), it.page.text("#item-report"))


def transfers(it, turn):
    """A transfer sent, one received."""
    stand, day = it.stand, f"2026-04-{turn + 1:02}"
    it.begin("a transfer sent")
    it.go("send")
    it.fill("send", to="v", amount=f"{turn + 1}.25", account="assets:bank", day=day)
    it.do("send")
    it.end(f"{turn + 1}.25 EUR" in stand.ask("/transfers/9999-12-31")[1], it.page.text())
    for number in (1, 2):
        stand.do(what="dispatch", id=f"v-{turn}-{number}", **{"from": "valley"}, to="meadow", day=day,
                 amount=f"{number}0.00 EUR", account="assets:bank")
    before = count_of(stand, "meadow")
    it.begin("a transfer received")
    it.go("receive")
    it.reach("[name=receive-which]")
    it.tab.press(" ")
    it.fill("receive", account="assets:bank")
    it.do("receive")
    it.end("bookid:in:v-" in last_entry(stand, "meadow") and count_of(stand, "meadow") == before + 1, it.page.text())


def look_up(it, _):
    """The rent of a year, an entry found, the year on paper."""
    it.begin("rent of 2025")
    it.go("register")
    it.fill("", day="2025-12-31", register_account="expenses:rent", register_from="2025-01-01")
    it.follow("#register-form button.main")
    it.end("4,800.00 EUR" in it.page.text("#register-report"), it.page.text("#register-report"))
    it.begin("an entry found")
    it.go("journal")
    it.fill("journal", find="anna dues", amount="60")
    it.follow("#journal-report a")
    it.end("60.00 EUR" in it.page.text("#item-report"), it.page.text("#item-report"))
    it.begin("the year on paper")
    it.go("statement")
    it.fill("statement", **{"from": "2025-01-01"}, to="2025-12-31")
    it.follow("#statement-form button.main")
    it.page.run("window.print = () => { window.isPrinted = true; }")
    it.follow("#statement-report .buttons button")
    it.end(it.page.run("return window.isPrinted") and "4,800.00 EUR" in it.page.text("#statement-report"),
           it.page.text("#statement-report"))


def bank(it, turn):
    """A month of the bank, the same file again, one that overlaps and does not fit."""
    stand, folder = it.stand, it.stand.folder
    account = f"assets:giro{turn}"
    stand.do(what="import", branch="meadow", journal=f"2026-04-30 opening\n  {account}  500.00 EUR\n  equity:opening\n")

    def written(name, lines, day, balance):
        path = folder / name
        path.write_bytes(f"Kontostand vom {day}:;{balance} EUR\n\nBuchungstag;Empfänger;Verwendungszweck;Betrag\n"
                         .encode("windows-1252") + "\n".join(reversed(lines)).encode())
        return path

    may = written(f"may-{turn}.csv", MAY, "31.05.2026", "548,00")
    it.begin("a month of the bank")
    it.go("bank")
    it.fill("bank", file=may, account=account, counter_0="expenses:post", counter_1="expenses:bank",
            counter_2="income:dues")
    it.do("bank")
    it.end("EUR = 548.00 EUR" in last_entry(stand, "meadow"), it.page.text())
    it.begin("the same file again")
    it.go("bank")
    it.fill("bank", file=may, account=account)
    it.follow("#bank-form button.main")
    it.end(re.search("(already there|schon da): 4", it.page.text()), it.page.text())
    it.begin("a balance that does not fit")
    stand.do(what="import", branch="meadow", journal=f"2026-06-01 unknown\n  expenses:post  7.00 EUR\n  {account}\n")
    it.go("bank")
    it.fill("bank", file=written(f"june-{turn}.csv", JUNE, "30.06.2026", "148,00"), account=account)
    it.end("-7.00 EUR" in it.page.text("#bank-lines") and "2026-06-01 unknown" in it.page.text("#bank-lines"),
           it.page.text("#bank-lines"))


def finish(it, turn):
    """A year closed."""
    it.begin("a year closed")
    it.go("close")
    if turn:
        it.fill("close", day=f"2026-0{turn}-28")
    it.do("close")
    it.end(re.search("close:2025-12-31" if not turn else f"close:2026-0{turn}-28", last_entry(it.stand, "meadow")),
           it.page.text())
