"""The page in a tab of the browser, what one does in it, and what the treasury then holds."""
import json
import re

import devtools
import stand as stands

# A third of a second for the page, which is a tenth of that here: what was started has begun
PAUSE = "await new Promise(go => setTimeout(go, 300));"


class Page:
    """The page in a tab of the browser, and what one does in it."""

    def __init__(self, browser, stand, name="secretary", context=None):
        self.stand, self.tab = stand, browser.tab(context)
        self.tab.size(1180, 900)
        # The page waits before it sends again: here ten times shorter.
        self.tab.call("Page.addScriptToEvaluateOnNewDocument", source="const wait = setTimeout;"
                      "window.setTimeout = (act, time) => wait(act, time > 10000 ? time : time / 10)")
        self.tab.visit(f"https://{name}:secret@{stands.SITE}:{stand.tls}/")
        self.settle()

    def run(self, script):
        return self.tab.run(script)

    def settle(self):
        """Waits until no report is asked for, and no command is under way."""
        self.tab.until(lambda: self.run("return document.readyState === 'complete'"
                                        " && !document.querySelector('[aria-busy=true]')"), "the page is at rest")

    def comes(self, is_so):
        """Whether something comes to hold."""
        try:
            self.tab.until(is_so, "what is looked for")
            return True
        except devtools.Fault:
            return False

    def go(self, view, **values):
        """Goes to a view by its address, as a link does."""
        query = "&".join(f"{key}={value}" for key, value in values.items())
        self.run(f"""const heard = new Promise(go => window.addEventListener('hashchange', go, {{ once: true }}));
            const before = location.href;
            location.hash = {json.dumps(f'#{view}?{query}')};
            if (location.href !== before) await heard;
            {PAUSE}""")
        self.settle()

    def open(self, view, **values):
        """Loads the page anew, at a view."""
        query = "&".join(f"{key}={value}" for key, value in values.items())
        self.tab.visit("about:blank")
        self.tab.visit(f"{self.stand.origin}/#{view}?{query}")
        self.settle()

    def put(self, name, value):
        """Puts a value into a field."""
        self.run(f"""const field = document.getElementById({json.dumps(name)}); field.value = {json.dumps(value)};
            for (const kind of ['input', 'change']) field.dispatchEvent(new Event(kind, {{ bubbles: true }}));
            {PAUSE}""")

    def fill(self, form, **values):
        """Fills fields of a form; `_` stands for `-`."""
        for name, value in values.items():
            self.put(f"{form}-{name.replace('_', '-')}", value)

    def text(self, selector="#outcome"):
        """The text that is seen of an element, with its first step, laid out or not; nothing if it is not there."""
        return self.run(f"const it = document.querySelector({json.dumps(selector)});"
                        "return (it?.innerText ?? '') + (it?.querySelector('.step')?.textContent ?? '')")

    def texts(self, selector):
        """The texts of all elements of a selector."""
        return self.run(f"return [...document.querySelectorAll({json.dumps(selector)})].map(it => it.innerText)")

    def cells(self, selector):
        """The rows of a table, each as the texts of its cells."""
        return self.run(f"return [...document.querySelectorAll({json.dumps(selector)})].map(row =>"
                        " [...row.children].map(cell => cell.innerText || cell.textContent))")

    def value(self, name):
        return self.run(f"return document.getElementById({json.dumps(name)}).value")

    def press(self, label, place="body"):
        """Presses a button or follows a link by its text."""
        found = self.run(f"""const it = [...document.querySelectorAll({json.dumps(place)} + ' :is(button, a)')]
            .find(one => one.checkVisibility() && one.textContent.trim() === {json.dumps(label)});
            it?.click(); {PAUSE} return Boolean(it)""")
        if not found:
            raise AssertionError(f"there is no {label} in {place}: {self.text(place)}")
        self.settle()

    def check(self, form):
        """Asks what a form would do; returns what is said."""
        self.run(f"document.querySelector('#{form}-form button:not([type])').click(); {PAUSE}")
        self.settle()
        return self.text()

    def deed(self, form, times=1):
        """Asks, and then does it, with so many clicks; returns what is said."""
        said = self.check(form)
        if not self.run("return Boolean(document.querySelector('#outcome button.main'))"):
            raise AssertionError(f"it is not offered: {said}")
        self.tab.click("#outcome button.main", times)
        self.run(PAUSE)
        self.settle()
        return self.text()


def transit_rows(stand, branch="north"):
    return stand.ask(f"/register/{branch}?account=assets:transit")[1].splitlines()


def units(amount):
    """An amount of the first day's commodities in cents, with its symbol."""
    symbol = "$" if "$" in amount else "EUR"
    return symbol, int(re.sub(r"[^0-9-]", "", amount))


def last_entry(stand, branch):
    """The text of the newest entry of a branch."""
    return stand.ask(f"/journal/{branch}")[1].rstrip("\n").split("\n\n")[-1]


def count_of(stand, branch):
    """How many entries a branch has."""
    return int(re.search(rf"(\d+)  {branch}$", stand.ask("/branches")[1], re.M)[1])


def balance_of(stand, branch, account, day):
    """What stands on an account through a day, in cents; of one commodity with two decimals."""
    found = re.search(rf"([-0-9,.]+) EUR  {account}$", stand.ask(f"/balance/{branch}/{day}")[1], re.M)
    return int(re.sub("[,.]", "", found[1])) if found else 0
