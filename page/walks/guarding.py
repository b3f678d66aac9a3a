"""Walks of others: hostile texts, the rights of each role, another site."""
import time

import stand as stands

from .page import Page

HOSTILE = """2026-03-01 <script>document.title='owned'</script>
    assets:<img src=x onerror=document.title='owned'>  1.00 EUR
    assets:"><b>bold</b> & 'quotes' {branch} {}  2.00 EUR
    assets:\u202egnp.exe\u202c right to left  3.00 EUR
    assets:javascript:alert(1)  4.00 EUR
    assets:\u05e7\u05d5\u05e4\u05d4 \u05e7\u05d8\u05e0\u05d4  5.00 EUR
    assets:a&tag=b?c#d%41+e  6.00 EUR
    equity:opening
"""


def hostile(holds, page, browser):
    """Names and journals with markup, quotes and marks of direction."""
    stand = page.stand
    page.open("import", branch="centre")
    page.put("import-text", HOSTILE)
    said = page.deed("import")
    holds("a hostile journal is imported as text", "1 entry is new" in said, said)
    page.go("balance", branch="centre", day="2026-12-31")
    page.press("Unfold all", "#balance-report")
    text = page.text("#balance-report")
    holds("hostile names are shown as they are", "<img src=x onerror=document.title='owned'>" in text
          and "\"><b>bold</b> & 'quotes' {branch} {}" in text and "\\u{202e}gnp.exe\\u{202c} right to left" in text,
          text)
    page.press("a&tag=b?c#d%41+e", "#balance-report")
    rows = page.cells("#register-report tbody tr")
    holds("any name leads to its own register", len(rows) == 1 and rows[0][3] == "6.00 EUR", rows)
    holds("a hostile description is text", rows[0][2] == "<script>document.title='owned'</script>", rows)
    page.go("journal", branch="centre")
    holds("and so is the journal", "<script>document.title='owned'</script>"
          in page.run("return document.querySelector('#journal-report').textContent"))
    page.go("import", branch="centre")
    page.put("import-text", "2026-03-02 \u202e<script>document.title='owned'</script>\n    a:b  1.00 EUR\n"
                            "    (<img src=x onerror=document.title='owned'>)  2 EUR\n")
    said = page.check("import")
    holds("a hostile refusal", "line 3: the account begins with" in said and "<img src=x" in said
          and "\\u{202e}" in said,
          said)
    page.put("import-text", "2026-03-02 <i>new</i> \u202e\n    a:<b>x</b>  1.00 EUR\n    assets:javascript:alert(1)\n")
    said = page.check("import")
    holds("hostile notes", "<i>new</i> \\u{202e}" in said and "a:<b>x</b> is an account" in said, said)
    page.go("register", branch="centre", account="%3Cimg%20src%3Dx%20onerror%3Dalert(1)%3E", tag="%22%3E%3Cb%3E")
    holds("an address with markup is text", page.value("register-account") == "<img src=x onerror=alert(1)>")
    page.go("balance", branch="%3Cb%3E", day="2026-13-45")
    holds("an address with an unknown branch or day shows another, or says so", page.text("main") != "")
    page.go("%3Cimg%3E")
    holds("an unknown view is the overview", page.text("#heading") == "The federation")
    made = page.run("return document.querySelectorAll('main :is(img, script, b, i, iframe)').length")
    holds("nothing of it became an element, and nothing ran", made == 0
          and "owned" not in page.run("return document.title"))
    blocked = page.run("""const out = {};
        document.addEventListener('securitypolicyviolation', event => { out[event.effectiveDirective] = true; });
        try { document.body.insertAdjacentHTML('beforeend', '<p>x'); } catch (e) { out.html = e.name; }
        const image = new Image(); image.src = 'https://127.0.0.1:1/x.png'; document.body.append(image);
        try { document.body.setAttribute('onclick', 'document.title="owned"'); } catch (e) { out.handler = e.name; }
        const style = document.createElement('style'), script = document.createElement('script');
        style.textContent = 'p { color: red }';
        document.body.append(style, script);
        try { script.textContent = 'document.title="owned"'; } catch (e) { out.script = e.name; }
        await fetch('https://127.0.0.1:1/').catch(() => 0);
        await new Promise(go => setTimeout(go, 300));
        for (const one of [image, style, script]) one.remove();
        return out""")
    holds("the policy stops markup, handlers, scripts, styles, foreign images and requests", blocked.get("html")
          == "TypeError"
          and blocked.get("handler") == "TypeError" and blocked.get("script") == "TypeError" and blocked.get("img-src")
          and blocked.get("connect-src") and any(key.startswith("style-src") for key in blocked), blocked)
    page.tab.visit(f"{stand.origin}/journal/centre")
    holds("a report that is opened by itself is text", page.run("return document.contentType") == "text/plain"
          and page.run("return document.scripts.length") == 0)


def rights(holds, page, browser):
    """A treasurer of one branch, and an auditor, each with a password of their own."""
    stand = page.stand
    anna = Page(browser, stand, "anna", browser.context())
    if stand.status("GET", "/me", "anna") == 200:
        holds("her name stands below the title, and her branch is chosen", anna.text("#me") == "anna"
              and anna.value("branch") == "north", anna.text("#side"))
    anna.go("import", branch="north")
    anna.put("import-text", "2026-06-01 paper\n    expenses:office  4.00 EUR\n    assets:bank\n")
    holds("a treasurer enters into her branch", "1 entry is new" in anna.deed("import"), anna.text())
    anna.go("import", branch="south")
    anna.put("import-text", "2026-06-01 paper\n    expenses:office  4.00 EUR\n    assets:bank\n")
    said = anna.check("import")
    holds("of another branch she is told that she may not", "no right to change south (403)" in said
          and "nothing was entered" in said, said)
    anna.go("send", branch="south")
    anna.fill("send", to="north", amount="1.00 EUR", account="assets:bank", day="2026-06-01")
    holds("nor send from there", "no right to change south (403)" in anna.check("send"), anna.text())
    anna.go("send", branch="north")
    anna.fill("send", to="south", amount="2.00 EUR", account="assets:bank", day="2026-06-01")
    holds("she sends from her own", "Done" in anna.deed("send"), anna.text())
    anna.go("setup")
    anna.put("branch-name", "west")
    holds("nor add a branch", "no right to do this (403)" in anna.check("branch"), anna.text())
    anna.go("balance", branch="south", day="2026-12-31")
    holds("she looks at all branches", "assets" in anna.text("#balance-report"))
    answer = anna.run("""const reply = await fetch(location.origin + '/commands/north', { method: 'POST',
        body: JSON.stringify({ do: 'lock',
        branch: 'south', day: '2021-01-01' }) }); return [reply.status, await reply.text()]""")
    holds("by her own path the treasury takes no command of another branch", answer == [403, "forbidden\n"], answer)
    anna.tab.close()
    carla = Page(browser, stand, "carla", browser.context())
    carla.go("register", branch="north", account="assets:bank")
    holds("an auditor looks", "opening" in carla.text("#register-report"))
    if stand.status("GET", "/me", "carla") == 200:
        holds("and is offered nothing else", "Close" not in carla.text("nav") and "Balance" in carla.text("nav"))
    carla.go("lock", branch="north")
    carla.fill("lock", day="2026-06-30")
    said = carla.check("lock")
    holds("and changes nothing", "no right to change north (403)" in said, said)
    carla.tab.close()
    names = {"anna": (403, 200), "bert": (200, 403), "carla": (403, 403)}
    for name, (south, north) in names.items():
        for branch, want in (("south", south), ("north", north)):
            if want == 403:
                holds(f"{name} gets 403 for {branch} from nginx", stand.status("POST", f"/commands/{branch}", name)
                      == 403 or name == "anna" and branch == "north")
    for path in ("/commands", "/commands/south", "/commands/north/", "//commands/north", "/commands/%6eorth",
                 "/commands/north?x"):
        holds(f"anna gets 403 for POST {path}", stand.status("POST", path, "anna", Content_Length="0") == 403)
    holds("the page comes with a password only", [stand.status("GET", "/", name) for name in (None, "nobody", "carla")]
          == [401, 401, 200])


def alone(holds, page, browser):
    """A treasurer who may read a branch alone, and nothing of what is on the way."""
    stand = page.stand
    for name in ("alone", "giver"):
        stand.do(what="branch", name=name)
    stand.do(what="import", branch="alone", journal="2026-01-01 dues\n  assets:cash  100.00 EUR\n  income:dues\n")
    stand.do(what="dispatch", id="alone-in", **{"from": "giver"}, to="alone", day="2026-01-02", amount="9.00 EUR",
             account="assets:cash")
    hidden = [line.split()[-1] for line in stand.ask("/branches")[1].splitlines() if not line.endswith(" alone")]
    stand.mode = "deny /transfers /transit " + " ".join(f"/{it}/{name}" for name in hidden
                                                        for it in ("accounts", "balance", "journal", "register"))
    page.open("overview", day="2026-12-31")
    said = page.text("#overview-report")
    holds("the overview has the own branch, and names the others", "no right to read: north, south" in said
          and page.texts("#overview-report .tree thead a") == ["alone"], said)
    page.open("statement", branch="alone", of="all", **{"from": "2026-01-01", "to": "2026-12-31"})
    said = page.text("#statement-report")
    holds("so does the statement of all branches", "no right to read: north, south" in said and "100.00 EUR" in said,
          said)
    page.open("transit")
    holds("what is on the way is not shown, and is said", "no right to do this (403)" in page.text("#transit-report"))
    page.open("receive", branch="alone")
    holds("a transfer is received by its reference", "The sender can tell you" in page.text("#receive-report"))
    page.fill("receive", id="alone-in", account="assets:cash", day="2026-01-03")
    holds("as the sender has told it", "Done" in page.deed("receive") and "in:alone-in" in page.text("#outcome pre"),
          page.text())
    page.open("send", branch="alone")
    page.fill("send", to="giver", amount="1.50", account="assets:cash", day="2026-01-04")
    holds("one is sent, with its balances", "107.50 EUR" in page.check("send"), page.text())
    page.open("bank", branch="alone")
    page.tab.files("#bank-file", stands.TOP / "page" / "samples" / "n26.csv")
    page.put("bank-account", "assets:bank")
    page.settle()
    holds("that no transfer is recognised in a bank's file is said", "The sender can tell you"
          in page.text("#bank-lines"), page.text("#bank-lines"))
    for view in ("balance", "register", "journal", "close", "lock", "entry"):
        page.open(view, branch="alone", account="assets:cash")
        holds(f"{view} is as ever", "no right" not in page.text("main") and "There is no report"
              not in page.text("main"), page.text("main"))
    stand.mode = "pass"


def others(holds, page, browser):
    """A page of another site, after somebody has logged in here."""
    stand = page.stand
    page.tab.visit(stand.elsewhere + "/")
    page.run(f"""await fetch('{stand.origin}/commands', {{ method: 'POST', mode: 'no-cors', credentials: 'include',
        body: '{{"do":"branch","name":"evil"}}' }}).catch(() => 0)""")
    read = page.run(f"return await fetch('{stand.origin}/branches', {{ credentials: 'include' }})"
                    ".then(it => it.text(), () => 0)")
    holds("it reads nothing", read == 0, read)
    page.tab.visit(stand.elsewhere + "/form")
    page.tab.until(lambda: page.run("return document.readyState === 'complete'"), "the form was sent")
    log = stand.folder / "access.log"
    holds("its requests are 403", page.comes(lambda: log.read_text().count('"POST /commands HTTP/1.1" 403') >= 2),
          log.read_text()[-600:])
    holds("nothing of it reached the treasury", not any("evil" in body for _, body, _ in stand.seen)
          and "evil" not in stand.ask("/branches")[1])
    page.tab.visit(stand.elsewhere + "/frame")
    time.sleep(0.3)
    holds("the page is in no frame of it",
          page.run("try { return frames[0].document ? 1 : 0 } catch { return 2 }") in (0, 2)
          and page.run("return document.querySelector('iframe').contentDocument") is None)
    page.tab.visit(stand.elsewhere + "/")
    page.tab.click("#link")
    page.tab.until(lambda: page.run("return location.origin") == stand.origin, "the link leads to the page")
    page.settle()
    holds("a link from there leads to the page", page.text("#heading") == "The federation", page.text("body"))
    for path in ("/branches", "/balance/north/2026-01-01", "/register/north?account=a", "/journal/north",
                 "/commodities",
                 "/accounts/north", "/transfers/2026-01-01", "/transit/2026-01-01"):
        found = stand.status("GET", path, "secretary", Sec_Fetch_Site="cross-site"), stand.status("GET", path,
                                                                                                  "secretary")
        holds(f"{path} is 403 from elsewhere, and 200 otherwise", found == (403, 200), found)
    passed = [data for line, _, data in stand.seen
              if "/branches" in line][-1].decode().split("\r\n\r\n")[0].split("\r\n")
    names = sorted(line.split(":")[0] for line in passed[1:])
    holds("nginx passes Accept on, and nothing else beside what it has to",
          set(names) <= {"Accept", "Connection", "Host"}
          , names)
    asked = [data for line, _, data in stand.seen if line.startswith("GET /commodities")]
    holds("the page asks for JSON", any(b"\r\nAccept: application/json\r\n" in data for data in asked))
