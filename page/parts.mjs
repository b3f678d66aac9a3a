// Tries the parts of the page that have no page in them: node page/parts.mjs. What is expected was worked out by hand.
// The last line is `parts: N passed, M failed`.
import fs from "node:fs";
import util from "node:util";
import { ROWS } from "./samples/rows.mjs";

const SOURCES = ["names.js", "amounts.js", "days.js", "interface.js", "entries.js", "journal-text.js", "accounts.js",
  "bank-files.js", "pending.js", "commands.js", "tree.js", "chart.js"];
const NAMES = ["seenParts", "alike", "amountMeant", "priceMeant", "entryAt", "spelledOut", "learnStyles",
  "readAmount", "printAmount", "amountTyped", "dayNumber", "dayBefore", "yearBefore", "understood", "entryOf",
  "legsOf", "kindOf", "plain", "entryText", "keyOf", "isUndecided", "treeOf", "ticks", "decoded", "unpacked",
  "fileKind", "dayRead", "unitsRead", "csvSetting", "readCsv", "readXml", "readCamt", "readMt940", "sameAccount"];
const written = SOURCES.map(name => fs.readFileSync(new URL("sources/" + name, import.meta.url), "utf-8")).join("");
const page = new Function(`"use strict";\n${written}\nreturn { ${NAMES.join()} };`)();

let passed = 0, failed = 0;
function gives(what, made, wanted) {
  let found;
  try { found = made(); } catch (error) { found = String(error); }
  const isSo = util.isDeepStrictEqual(found, wanted);
  if (isSo) passed++;
  else {
    failed++;
    console.log(`this does not hold: ${what}: ${util.inspect(found, { depth: 9 })}, not ${util.inspect(wanted,
      { depth: 9 })}`);
  }
}

// Amounts, as docs/FORMATS.md prints them
page.learnStyles([["1,000.00 EUR"], ["$1,000.00"], ["1.000,00 CHF"], ["1,000. JPY"], ['1.00 "kg2"']]);
const AMOUNTS = [
  ["EUR", 150n, "1.50 EUR"], ["EUR", -5n, "-0.05 EUR"], ["EUR", 0n, "0.00 EUR"],
  ["EUR", 123456789n, "1,234,567.89 EUR"],
  ["$", 123400n, "$1,234.00"], ["$", -50n, "$-0.50"], ["CHF", 123456n, "1.234,56 CHF"], ["JPY", 1000n, "1,000. JPY"],
  ["JPY", 999n, "999 JPY"], ['"kg2"', 300n, '3.00 "kg2"'], ["EUR", 10n ** 16n, "100,000,000,000,000.00 EUR"],
];
for (const [symbol, units, amount] of AMOUNTS) {
  gives(`${amount} is printed`, () => page.printAmount(symbol, units), amount);
  gives(`${amount} is read`, () => page.readAmount(amount), { symbol, units });
}
const NONE = ["1.5 EUR", "1234.00 EUR", "1,50 EUR", "1.50 GBP", "1.50", "EUR 1.50", "-$1.00", "1.50 EUR ", "01.50 EUR"];
for (const amount of NONE) {
  gives(`${amount} is not what the treasury prints`, () => page.readAmount(amount), "Error: no amount: " + amount);
}

// Amounts as a person types them: group marks only before three digits, decimals as declared; otherwise none
const TYPED = [
  ["8.50", "EUR", 850n], ["8.5", "EUR", 850n], ["8", "EUR", 800n], ["8.500", "EUR", 850n], ["1,000", "EUR", 100000n],
  ["1000.00", "EUR", 100000n], ["-3", "EUR", -300n], ["\u22123", "EUR", -300n], ["1\u00a0000.00", "EUR", 100000n],
  [" 8.50 EUR ", "EUR", 850n], ["$5", "$", 500n], ["-$5", "$", -500n], ["$-5", "$", -500n], ["+5 $", "$", 500n],
  ["5,5 CHF", "CHF", 550n], ["1.000,5 CHF", "CHF", 100050n], ["12 JPY", "JPY", 12n], ['2 "kg2"', '"kg2"', 200n],
  ["99999999999999.99", "EUR", 9999999999999999n],
  ...["8,50", "8.505", "1,0.00", "1,00", "10,00.00", "8.50 GBP", "5.5 CHF", "1.5 JPY", "", "x", "$5 EUR", "-$-5", "5-",
    "5 6", "1..0"].map(typed => [typed]),
];
for (const [typed, symbol, units] of TYPED) {
  gives(`${typed} as it is typed`, () => page.amountTyped(typed), symbol ? { symbol, units } : null);
}

// Entries, as the journal report prints them
const HALL = `2026-01-05 * (17) hall
    ; bookid:h-ab-1
    ; due: friday
    expenses:hall rent  120.00 EUR = 120.00 EUR
    ; a note
    * assets:bank
`;
const leg = (account, symbol, units) => ({ account, symbol, units });
gives("an entry's parts", () => {
  const { number, day, code, description, mark, comments, postings } = page.entryOf(HALL, 3);
  return [number, day, code, description, mark, comments, postings.map(one => [one.account, one.amount, one.sign,
    one.asserted, one.comments])];
}, [3, "2026-01-05", "17", "hall", "h-ab-1", ["due: friday"],
  [["expenses:hall rent", "120.00 EUR", "=", "120.00 EUR", ["a note"]], ["assets:bank", undefined, undefined, undefined,
    []]]]);
const LEGS = [
  ["a posting without an amount takes what is left", "    a  120.00 EUR\n    b",
    [leg("a", "EUR", 12000n), leg("b", "EUR", -12000n)]],
  ["in each commodity", "    a  1.00 EUR\n    a  $2.00\n    b",
    [leg("a", "EUR", 100n), leg("a", "$", 200n), leg("b", "EUR", -100n), leg("b", "$", -200n)]],
  ["a unit price", '    a  3.00 "kg2" @ $1.35\n    b', [leg("a", '"kg2"', 300n), leg("b", "$", -405n)]],
  ["a unit price with more decimals", '    a  200.00 "kg2" @ $0.0125\n    b',
    [leg("a", '"kg2"', 20000n), leg("b", "$", -250n)]],
  ["a price in total has the amount's sign", '    a  -3.00 "kg2" @@ $4.00\n    b',
    [leg("a", '"kg2"', -300n), leg("b", "$", 400n)]],
  ["a price with the other decimal mark", "    a  2.00 EUR @ 1,25 CHF\n    b",
    [leg("a", "EUR", 200n), leg("b", "CHF", -250n)]],
  ["assertions move nothing", "    a  0.00 EUR ==* 5.00 EUR\n    b  $0.00", [leg("a", "EUR", 0n), leg("b", "$", 0n)]],
];
for (const [what, postings, legs] of LEGS) {
  gives(what, () => page.legsOf(page.entryOf(`2026-01-05 x\n    ; bookid:m\n${postings}\n`, 1)), legs);
}
const PLAIN = [["  tea;\tmilk ", "tea, milk"], ["* star", "- * star"], ["(17) x", "- (17) x"], ["!", "- !"],
  ["a\u2028b\u0000c", "a b c"], ["x".repeat(600), "x".repeat(480)]];
for (const [given, wanted] of PLAIN) gives(`${given} as a description`, () => page.plain(given), wanted);
gives("an entry's text", () => page.entryText("2026-05-01", "tea; milk", "p-1", [leg("a", "EUR", 850n),
  { ...leg("b", "EUR", -850n), asserted: { symbol: "EUR", units: 9150n } }]), `2026-05-01 tea, milk
    ; bookid:p-1
    a  8.50 EUR
    b  -8.50 EUR = 91.50 EUR
`);

// Texts from elsewhere
const SEEN = [["assets:bank", ["assets:bank"]], ["Käse für Žofia 日本 касса", ["Käse für Žofia 日本 касса"]],
  ["\u202egnp", ["", "\\u{202e}", "gnp"]], ["a\u00a0b", ["a", "\\u{a0}", "b"]],
  ["\u0430ssets:b\u0430nk", ["", "\\u{430}", "ssets:b", "\\u{430}", "nk"]],
  ["\uff41ssets", ["", "\\u{ff41}", "ssets"]], ["\u{1d41a}b", ["", "\\u{1d41a}", "b"]], ["m²", ["m²"]]];
for (const [given, parts] of SEEN) gives(`${given} is shown`, () => page.seenParts(given), parts);
gives("names that look alike", () => page.alike(["assets:Bank", "assets:bank", "assets:cash", "Café", "Cafe\u0301"]),
  [["assets:Bank", "assets:bank"], ["Café", "Cafe\u0301"]]);

// Days, and what an account is by its name
const DAYS = [["dayBefore", "2026-03-01", "2026-02-28"], ["dayBefore", "2024-03-01", "2024-02-29"],
  ["dayBefore", "2026-01-01", "2025-12-31"], ["dayBefore", "0001-01-01", null],
  ["yearBefore", "2024-02-29", "2023-02-28"], ["yearBefore", "2025-02-28", "2024-02-28"],
  ["yearBefore", "2026-12-31", "2025-12-31"]];
for (const [name, day, wanted] of DAYS) gives(`${name} of ${day}`, () => page[name](day), wanted);
const ACCOUNTS = [["income:dues", "income"], ["Revenues", "income"], ["expenses:hall", "expense"],
  ["Aufwand:Miete", "expense"], ["assets:bank", "asset"], ["assets:transit:a:b", "transit"],
  ["assets:transit", "transit"], ["assets:transition", "asset"], ["liabilities:loan", "liability"],
  ["Vermögen:Kasse", "asset"], ["equity:opening", "other"], ["incomes and more", "other"]];
for (const [name, kind] of ACCOUNTS) gives(`what ${name} is`, () => page.kindOf(name), kind);

// The text of a journal, as docs/FORMATS.md says that it is read
const MEANT = [["1.500 EUR", "1.50 EUR"], ["1,5 EUR", "15.00 EUR"], ["EUR 1", "1.00 EUR"], ["$.50", "$0.50"],
  ["-$1", "$-1.00"], ["$-1", "$-1.00"], ["- EUR 1", "-1.00 EUR"], ["-0 EUR", "0.00 EUR"], ['1 "EUR"', "1.00 EUR"],
  ["$ 1234", "$1,234.00"], ["$-.5", "$-0.50"], ["1000 JPY", "1,000. JPY"], ["999 JPY", "999 JPY"],
  ['3 "kg2"', '3.00 "kg2"'], ["1.5 CHF", "15,00 CHF"], ["12,50 EUR", "1,250.00 EUR"],
  ["100000000000000.00 EUR", "100,000,000,000,000.00 EUR"]];
for (const [given, wanted] of MEANT) gives(`${given} in a journal`, () => page.amountMeant(given), wanted);
const PRICES = [["$1.35", "@", "$1.35"], ["$1.350", "@", "$1.35"], ["$1.3456", "@", "$1.3456"], ["$2", "@", "$2.00"],
  ["$0", "@@", "$0.00"], ["$0.01250", "@", "$0.0125"]];
for (const [given, at, wanted] of PRICES) gives(`the price ${at} ${given}`, () => page.priceMeant(given, at), wanted);
const MEANT_SO = [
  ["2024-01-05 x\n    * assets:bank  1.00 EUR\n    b",
    "2024-01-05 x\n    assets:bank  1.00 EUR\n    b            -1.00 EUR"],
  ["2024/1/5 * (17) hall  ; note\n  ; more\n\ta:x;y  1.00 EUR\n\ta:y\t12,50 EUR ; z",
    "2024-01-05 (17) hall\n    a:x  -1,250.00 EUR\n    a:y  1,250.00 EUR"],
  ["2024.01.05\n a:x  5 EUR @ $1==*$5\n b", "2024-01-05\n    a:x  5.00 EUR @ $1.00 ==* $5.00\n    b    $-5.00"],
  ["2024-01-05 x\n  a b c  1 EUR\n  d  -1 EUR\n  e  0 EUR=0 EUR\n\n2024-01-06 y\n  f  1 EUR",
    "2024-01-05 x\n    a b c  1.00 EUR\n    d      -1.00 EUR\n    e      0.00 EUR = 0.00 EUR"],
  ["2024-01-05 x\r\n    a  $1\r\n    a  1 EUR\r\n    b\r\n",
    "2024-01-05 x\n    a  $1.00\n    a  1.00 EUR\n    b  -1.00 EUR\n    b  $-1.00"],
];
for (const [given, wanted] of MEANT_SO) {
  gives(`the entry ${given}`, () => page.spelledOut(page.entryAt(given.split("\n"), 1)), wanted);
}
for (const given of ["2024-01-05 x\n  a  1 EUR\n  b  -2 EUR", "2024-01-05 x\n  a  1 GBP\n  b", "no entry"]) {
  gives(`${given} is not understood`, () => page.entryAt(given.split("\n"), 1), null);
}

// Replies
const done = { answer: "ok", told: [], notes: [] };
const refused = { answer: "refused 18 Unbalanced line 3", number: "18", name: "Unbalanced", sentence: "s", told: [],
  notes: [] };
const REPLIES = [
  ["done", 200, done, "commands", true, { kind: "done", notes: [] }],
  ["repeated", 200, { ...done, answer: "repeated" }, "commands", true, { kind: "repeated", notes: [] }],
  ["an import", 200, { ...done, answer: "ok 2 new, 10 repeated" }, "commands", true,
    { kind: "imported", added: 2, old: 10, notes: [] }],
  ["a refusal with its line", 422, refused, "commands", true,
    { kind: "refused", number: 18, name: "Unbalanced", sentence: "s", told: [], line: 3 }],
  ["an assertion's line", 409, { ...refused, answer: "refused 29 ClaimFailed", number: "29", name: "ClaimFailed",
    told: ["treasury: journal:7: a balance assertion fails"] }, "commands", true,
    { kind: "refused", number: 29, name: "ClaimFailed", sentence: "s", line: 7,
      told: ["treasury: journal:7: a balance assertion fails"] }],
  ["a refusal under 200", 200, refused, "commands", true, null],
  ["done under 409", 409, done, "commands", true, null],
  ["half an answer", 200, { ...done, answer: "ok 2 new" }, "commands", true, null],
  ["no object of the treasury", 200, {}, "commands", true, null],
  ["a report", 200, { lines: [["1.00 EUR", "a"]] }, "balance", false, { kind: "report", lines: [["1.00 EUR", "a"]] }],
  ["a report of another width", 200, { lines: [["1.00 EUR"]] }, "balance", false, null],
  ["a report of numbers", 200, { lines: [[1, "a"]] }, "balance", false, null],
  ["a report without a known route", 200, { lines: [["a"]] }, "else", false, null],
];
for (const [what, status, body, route, isCommand, wanted] of REPLIES) {
  gives(what, () => page.understood(status, body, route, isCommand), wanted);
}

// What a reply leaves open of a command that was sent before, and of one that was not
const OPEN = [
  [{ kind: "unknown" }, true, true], [{ kind: "refused", number: 41 }, true, true],
  [{ kind: "refused", number: 40 }, true, false], [{ kind: "refused", number: 42 }, true, false],
  [{ kind: "refused", number: 43 }, true, false], [{ kind: "denied", status: 403 }, true, false],
  [{ kind: "refused", number: 29 }, false, false], [{ kind: "done" }, false, false],
];
for (const [reply, again, first] of OPEN) {
  gives(`${util.inspect(reply)} after a lost reply`, () => page.isUndecided(reply, true), again);
  gives(`${util.inspect(reply)} at once`, () => page.isUndecided(reply, false), first);
}
gives("a command's key is that of its values in any order", () => page.keyOf({ do: "lock", branch: "n", day: "d" }),
  page.keyOf({ day: "d", do: "lock", branch: "n" }));
gives("a number of entries makes no other command", () => page.keyOf({ do: "lock", branch: "n", "if-entries": "3" }),
  page.keyOf({ do: "lock", branch: "n" }));
gives("another journal has another key", () => page.keyOf({ do: "import", journal: "ab" })
  === page.keyOf({ do: "import", journal: "ac" }), false);

// Files of banks
const money = units => page.printAmount("EUR", units).replaceAll(",", "").replace(" EUR", "");
function readFile(name) {
  const bytes = new Uint8Array(fs.readFileSync(new URL("samples/" + name, import.meta.url)));
  const { written } = page.decoded(bytes), kind = page.fileKind(written), setting = page.csvSetting(written);
  const [read] = kind === "csv" ? [page.readCsv(written, setting, 2)]
    : (kind === "xml" ? page.readCamt : page.readMt940)(written, () => 2);
  return [read, setting, kind];
}
function statementOf(name) {
  const [{ account, lines, opening, closings, skipped, unread, gap }, { delimiter, order, mark, columns }, kind]
    = readFile(name);
  const lineOf = ({ day, units, payee, purpose, reference, balance, parts = [] }) => {
    const all = [day, money(units), payee, purpose, reference, balance === null ? "" : money(balance),
      ...parts.map(one => [money(one.units), one.payee, one.purpose])];
    return all.slice(0, all.findLastIndex(Boolean) + 1);
  };
  return { file: name,
    ...(kind === "csv" ? { read: [delimiter, order, mark],
      columns: Object.fromEntries(Object.entries(columns).filter(([, at]) => at >= 0)) } : { account }),
    lines: lines.map(lineOf), ...(opening === null ? {} : { opening: money(opening) }),
    ...(closings.length ? { closings: closings.map(({ day, units }) => `${day} ${money(units)}`) } : {}),
    ...(skipped ? { skipped } : {}), ...(unread.length ? { unread } : {}), ...(gap ? { gap } : {}) };
}
for (const row of ROWS) gives(row.file, () => statementOf(row.file), row);
const zip = new Uint8Array(fs.readFileSync(new URL("samples/two.zip", import.meta.url)));
const inside = await page.unpacked("two.zip", zip);
gives("the files in a ZIP", () => inside.map(({ name, bytes }) => [name, new TextDecoder().decode(bytes)]),
  ["british", "american"].map(name => [`statements/${name}.csv`,
    fs.readFileSync(new URL(`samples/${name}.csv`, import.meta.url), "utf-8")]));
const half = await page.unpacked("half.zip", zip.slice(0, 200));
gives("half a ZIP has nothing", () => half.map(({ name, bytes }) => [name, bytes.length]), [["half.zip", 0]]);
const UNITS = [["1.234,50-", ",", -123450n], ["CHF 1'234.50", ".", 123450n], ["12,345", ",", null],
  ["12,340", ",", 1234n], ["\u22125,00 €", ",", -500n], ["(5.00)", ".", -500n], ["5,00 S", ",", -500n],
  ["5,00 H", ",", 500n],
  [",50", ",", 50n], ["1.234.50", ".", null], ["five", ".", null]];
for (const [written, mark, units] of UNITS) {
  gives(`${written} of a bank`, () => page.unitsRead(written, mark, 2), units);
}
const READ_DAYS = [["31.02.2026", "dmy", null], ["20261103", "dmy", "2026-11-03"], ["3.11.26", "dmy", "2026-11-03"],
  ["2026-11-03T00:00:00Z", "dmy", "2026-11-03"], ["11/03/2026", "mdy", "2026-11-03"],
  ["11/03/2026", "dmy", "2026-03-11"], ["29.02.2025", "dmy", null], ["3", "dmy", null]];
for (const [written, order, day] of READ_DAYS) {
  gives(`the day ${written}, ${order}`, () => page.dayRead(written, order), day);
}
for (const written of ['<!DOCTYPE x [<!ENTITY a "b">]><x>&a;</x>', "<a><b></a>", "<a></a></a>", "<a", "<a><b/></a"]) {
  gives(`${written} is not read`, () => page.readXml(written), null);
}
gives("an element with a prefix and an attribute with >", () => page.readXml('<n:a x="1>2">t&amp;&#228;<n:b/></n:a>')
  .inside.map(one => [one.name, one.written, one.inside.map(({ name }) => name)]), [["a", "t&ä", ["b"]]]);
const UNEVEN = "Datum;Betrag;Saldo\n01.11.2026;1,00;101,00\n02.11.2026;2,00;104,00\n03.11.2026;1,00;105,00\n";
gives("a file that lacks a line is found out", () => page.readCsv(UNEVEN, page.csvSetting(UNEVEN), 2).gap?.day,
  "2026-11-02");
const WRONG = "Datum;Betrag;Zweck\n01.11.2026;1,00;a\n31.02.2026;2,00;b\n03.11.2026;1,005;c\n";
gives("what cannot be read is kept", () => page.readCsv(WRONG, page.csvSetting(WRONG), 2).unread.map(({ at }) => at),
  [3, 4]);

// The tree: sums with subaccounts
gives("an account has the sum of its subaccounts", () => {
  const { sums, inside } = page.treeOf([[["1.00 EUR", "a:b"], ["2.00 EUR", "a:c"], ["-3.00 EUR", "d"]],
    [["$5.00", "a"]]]);
  return [sums, inside.get("a").sums, inside.get("a").inside.get("b").sums].map(one => one.map(it => [...it]));
}, [[[["EUR", 0n]], [["$", 500n]]], [[["EUR", 300n]], [["$", 500n]]], [[["EUR", 100n]], []]]);

// The marks below a line over time
const ticksOf = (from, to, most) => page.ticks(page.dayNumber(from), page.dayNumber(to), most);
gives("months", () => ticksOf("2026-01-15", "2026-04-10", 7),
  ["2026-02", "2026-03", "2026-04"].map(month => [month + "-01", month]));
gives("years", () => ticksOf("2020-06-01", "2024-06-01", 4),
  ["2021", "2022", "2023", "2024"].map(year => [year + "-01-01", year]));

console.log(`parts: ${passed} passed, ${failed} failed`);
process.exit(failed ? 1 : 0);
