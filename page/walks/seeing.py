"""Walks through both languages, and for those who see, hold or print otherwise."""
import base64
import re

from .commands import FAULTS

VIEWS = ("overview", "balance", "register", "statement", "transit", "journal", "item", "entry", "bank", "import",
         "send", "receive", "lock", "close", "setup")


def german(holds, page, browser):
    """The other language, everywhere."""
    page.open("balance", branch="north", day="2026-12-31")
    english = {view: visit_texts(page, view) for view in VIEWS}
    page.put("language-choice", "de")
    page.settle()
    for view in VIEWS:
        same = sorted(english[view] & visit_texts(page, view))
        own = [it for it in same if not re.fullmatch(r"[\W\d]*|Name|Journal|.*[:;=].*|English|Deutsch|north", it)]
        holds(f"{view} is German", not own, own)
    holds("so is the page's language", page.run("return document.documentElement.lang") == "de")
    page.go("import", branch="north")
    page.put("import-text", "2026-07-01 x\n    a:b  12,50 EUR\n    a:c\n")
    said = page.check("import")
    holds("notes are German", "Zeile 2: 12,50 EUR wurde als 1,250.00 EUR gelesen" in said
          and "ist ein Konto, das keine frühere Buchung von north hat" in said, said)
    page.put("import-text", "2026-07-01 x\n    a:b  1.00 EUR\n    a:c  1.00 EUR\n")
    said = page.check("import")
    holds("refusals are German", "Abgelehnt, Zeile 1: die Werte einer Buchung ergeben zusammen nicht null" in said
          and "übrig: 2.00 EUR" in said, said)
    page.tab.reload()
    page.settle()
    holds("the language stays", page.text("#title").strip() == "Kasse")
    english = [f"{what}: {left}" for what, left in hints(page) if left]
    holds("each hint is German", english == [], english)
    page.put("language-choice", "en")
    page.settle()


# What is asked of forms so that it is refused, each with a hint of its own: the form, and its fields
REFUSED = (
    ("branch", {"name": "North"}), ("branch", {"name": "x" * 40}), ("commodity", {"sample": "1000 GBP"}),
    ("commodity", {"sample": "1.000,00 EUR"}),
    ("send", {"to": "south", "amount": "0", "account": "assets:bank"}),
    ("send", {"to": "south", "amount": "1.00 EUR", "account": "a::b"}),
    ("send", {"to": "south", "amount": "1.00 EUR", "account": "assets:transit"}),
    ("receive", {"id": "nothing", "account": "assets:bank"}), ("lock", {"day": "2020-01-01"}),
    ("close", {"day": "2020-01-01"}), ("close", {"day": "2026-12-30", "accounts": "nothing"}),
    ("close", {"day": "2026-12-30", "accounts": "assets"}), ("close", {"day": "2026-12-30", "accounts": "a::b"}),
    ("close", {"day": "2026-12-30", "into": "assets:transit"}), ("close", {"day": "2026-12-30", "into": "income"}),
    ("close", {"day": "2026-02-28", "accounts": "expenses"}),
    ("import", {"text": "2026-07-01 x\n    ; bookid:mine\n    a:b  7.00 EUR\n    a:c\n"}),
    ("import", {"text": "2026-07-01 x\n    ; bookid:close:2026-07-01\n    a:b  7.00 EUR\n    a:c\n"}),
    ("import", {"text": "2026-07-01 x\n    ; bookid:in:y\n    a:b  7.00 EUR\n    a:c\n"}),
    ("import", {"text": "2026-07-01 x\n    assets:transit:y  7.00 EUR\n    a:c\n"}),
    ("import", {"text": "\ufeff2026-07-01 x\n    a:b  7.00 EUR\n    a:c\n"}),
    ("import", {"text": "2026-07-01 x\na:b  7.00 EUR\n    a:c\n"}),
    ("import", {"text": "2026-07-01 x\n    a:b  0\n    a:c  0.00 EUR\n"}),
    ("import", {"text": f"2026-07-01 ({'x' * 101})\n    a:b  7.00 EUR\n    a:c\n"}),
    ("import", {"text": f"2026-07-01 {'x' * 1001}\n    a:b  7.00 EUR\n    a:c\n"}),
    ("import", {"text": f"2026-07-01 x\n    ; {'x' * 901}\n    a:b  7.00 EUR\n    a:c\n"}),
    ("import", {"text": "2026-07-01 x\n    a:b  7.00 EUR = 9.00 EUR\n    a:c\n"}),
)


def hints(page):
    """Of each refusal what was asked, and what of its answer is in English, or speaks of a terminal."""
    page.open("import", branch="north")
    for what in (*FAULTS, *REFUSED):
        form, fields = ("import", {"text": what[1]}) if len(what) == 3 else what
        page.go("setup" if form in ("branch", "commodity") else form, branch="north")
        if form == "import":
            page.put("import-text", fields["text"])
        else:
            page.fill(form, **fields)
        if form == "close":
            for name in {"accounts", "into"} - set(fields):
                page.put(f"close-{name}", "")
        page.run(f"document.querySelector('#{form}-form').noValidate = true")
        said = page.check(form)
        left = page.run("return [...document.querySelectorAll('#outcome [lang=en]')].map(it => it.innerText)")
        left += re.findall(r"treasury [a-z]+|--[a-z]+|hledger print", said)
        yield f"{form} {str(fields)[:80]}", left if "refused" in said.lower() or "Abgelehnt" in said else [said]


def visit_texts(page, view):
    """All texts that are seen in a view, those of the treasury's rows left out."""
    page.go(view, branch="north", day="2026-12-31")
    return set(page.run("""const out = [], walk = document.createTreeWalker(document.body, NodeFilter.SHOW_TEXT);
        while (walk.nextNode()) { const it = walk.currentNode.parentElement;
            const isSeen = it.checkVisibility() && !it.closest('bdi, script, pre, option');
            if (isSeen) out.push(walk.currentNode.data.trim()); }
        return out.filter(Boolean)"""))


CONTRAST = r"""
const light = c => { const [r, g, b] = c.map(v => { v /= 255; return v <= 0.03928 ? v / 12.92
    : ((v + 0.055) / 1.055) ** 2.4; }); return 0.2126 * r + 0.7152 * g + 0.0722 * b; };
const rgb = s => { const m = s.match(/[\d.]+/g).map(Number); return m.length < 4 || m[3] > 0 ? m.slice(0, 3) : null; };
const out = [];
for (const it of document.querySelectorAll('body *')) {
  const hasText = ['INPUT', 'SELECT', 'TEXTAREA'].includes(it.tagName)
    || [...it.childNodes].some(n => n.nodeType === 3 && n.data.trim());
  if (!hasText || !it.checkVisibility() || it.closest(':disabled, svg')) continue;
  let back = null, opacity = 1;
  for (let at = it; at; at = at.parentElement) {
    back ??= rgb(getComputedStyle(at).backgroundColor);
    opacity *= Number(getComputedStyle(at).opacity);
  }
  back ??= [255, 255, 255];
  const front = rgb(getComputedStyle(it).color).map((v, i) => v * opacity + back[i] * (1 - opacity));
  const one = light(front), two = light(back), ratio = (Math.max(one, two) + 0.05) / (Math.min(one, two) + 0.05);
  if (ratio < 4.5) out.push(`${it.tagName}.${it.className} ${ratio.toFixed(2)} ${it.textContent.slice(0, 30)}`);
}
return out;
"""


def access(holds, page, browser):
    """Labels, keyboard, contrast, 360 points, dark, paper."""
    page.open("import", branch="north")
    unnamed = page.run("""return [...document.querySelectorAll('input, select, textarea')]
        .filter(it => !it.labels.length && !it.getAttribute('aria-label')).map(it => it.id)
        .concat([...document.querySelectorAll('button, a')].filter(it => !(it.textContent.trim()
        || it.getAttribute('aria-label'))).map(it => it.outerHTML))""")
    holds("every field has a label, every button and link a text", unnamed == [], unnamed)
    doubled = page.run("const all = [...document.querySelectorAll('[id]')].map(it => it.id);"
                       "return all.filter((it, at) => all.indexOf(it) !== at)")
    holds("each id is there once", doubled == [], doubled)
    for scheme in ("light", "dark"):
        page.tab.media("", prefers_color_scheme=scheme)
        bad = []
        for view in VIEWS:
            page.go(view, branch="south", day="2026-12-31", account="assets")
            if view == "import":
                for journal in ("2026-02-03 x\n    a:b  1.00 EUR\n    a:c  -0.99 EUR\n",
                                "2026-02-03 x\n    a:b  1,00 EUR\n    a:c\n"):
                    page.put("import-text", journal)
                    page.check("import")
                    bad += [f"{view}: {it}" for it in page.run(CONTRAST)]
            bad += [f"{view}: {it}" for it in page.run(CONTRAST)]
        holds(f"contrast is at least 4.5 in {scheme}", bad == [], bad[:8])
    page.tab.media()
    page.open("balance", branch="north", day="2026-12-31")
    reached = set()
    for _ in range(60):
        page.tab.press("Tab")
        label = page.run("const it = document.activeElement; return it.id || it.textContent.trim()")
        reached.add(label)
        if label == "bank":
            page.tab.press("Enter")
            break
    holds("by keyboard alone: views, branch, day, and an account's register",
          {"Balance", "Import", "branch", "day"} <= reached
          and page.comes(lambda: "2026-01-05" in page.text("#register-report")), sorted(reached))
    outline = page.run("document.querySelector('nav a').focus();"
                       "return getComputedStyle(document.activeElement).outlineStyle")
    holds("the focus is seen", outline in ("solid", "auto"), outline)
    page.tab.size(360, 780, True)
    wide = []
    for view in VIEWS:
        page.go(view, branch="centre", day="2026-12-31", account="assets")
        if page.run("return document.documentElement.scrollWidth") > 360:
            wide.append(view)
    holds("no view is wider than 360 points", wide == [], wide)
    page.tab.click("#menu")
    holds("there the menu opens", page.run("return document.querySelector('nav').checkVisibility()"))
    page.press("Balance", "nav")
    holds("and closes", not page.run("return document.querySelector('nav').checkVisibility()"))
    page.tab.size(1180, 900)
    page.go("register", branch="north", account="assets")
    page.tab.media("print")
    seen = page.run("return ['nav', '#register-form', '#register-report table', '#register-report .buttons']"
                    ".map(it => document.querySelector(it).checkVisibility())")
    holds("on paper is the report alone", seen == [False, False, True, False], seen)
    page.tab.media()
    printed = page.tab.call("Page.printToPDF", printBackground=False)
    holds("it prints", len(base64.b64decode(printed["data"])) > 5000)
