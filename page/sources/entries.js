// ---------- Entries: the canonical texts of a journal, read into their parts ----------

const POSTING = new RegExp('^ {4}(?:[*!] )?(.+?)(?: {2}((?:"[^"]*"|[^"@=])+?)'
  + '(?: (@@?) ((?:"[^"]*"|[^"=])+?))?(?: (==?\\*?) (.+))?)?$', "u");
function entryOf(written, number) {
  const [header, markLine, ...lines] = written.replace(/\n$/, "").split("\n");
  const [, day, rest] = /^(\S+) ?(.*)$/u.exec(header);
  const [, , code, description] = /^(?:([*!])(?: |$))?(?:\(([^)]*)\)(?: |$))?(.*)$/u.exec(rest);
  const mark = markLine.slice("    ; bookid:".length);
  const entry = { number, written, day, code, description, mark, comments: [], postings: [] };
  let place = entry;
  for (const line of lines) {
    if (line.startsWith("    ;")) {
      place.comments.push(line.slice(6));
      continue;
    }
    const [, account, amount, at, price, sign, asserted] = POSTING.exec(line);
    place = { account, amount, at, price, sign, asserted, comments: [] };
    entry.postings.push(place);
  }
  return entry;
}
// The legs of an entry but for those of conversions; they are kept with it. A posting without an amount takes what is
// left.
const legsOf = entry => entry.legs ??= legsRead(entry);
function legsRead({ postings }) {
  const left = new Map(), legs = [];
  for (const { account, amount, at, price } of postings) {
    if (!amount) continue;
    const read = readAmount(amount);
    legs.push({ account, ...read });
    add(left, valueAt(read, at, price));
  }
  const open = postings.find(one => !one.amount);
  for (const symbol of open ? styles.keys() : []) {
    if (left.get(symbol)) legs.push({ account: open.account, symbol, units: -left.get(symbol) });
  }
  return legs;
}
// What a posting without an amount takes.
const inferredOf = entry => legsOf(entry).slice(entry.postings.filter(one => one.amount).length);
// The value of an amount, perhaps with a price; the treasury has taken it, so it is exact.
function valueAt({ symbol, units }, at, price) {
  if (!at) return { symbol, units };
  if (at === "@@") {
    const cost = readAmount(price);
    return { symbol: cost.symbol, units: units > 0n ? cost.units : units < 0n ? -cost.units : 0n };
  }
  const [, left, , , number, , right] = AMOUNT.exec(price), cost = left ?? right, { mark, decimals } = styles.get(cost);
  const [whole, part = ""] = number.replaceAll(mark === "." ? "," : ".", "").split(mark);
  const top = units * BigInt(whole + part), tens = styles.get(symbol).decimals + part.length - decimals;
  return { symbol: cost, units: tens < 0 ? top * 10n ** BigInt(-tens) : top / 10n ** BigInt(tens) };
}
// An entry with all its amounts below one another, also those that it does not say.
function spelledOut(entry) {
  const amountOf = ({ amount, at, price, sign, asserted }) =>
    [amount, at, price, sign, asserted].filter(Boolean).join(" ");
  const rows = entry.postings.flatMap(one => one.amount ? [[one.account, amountOf(one)]]
    : inferredOf(entry).map(leg => [one.account, printed(leg)]));
  const width = Math.max(...rows.map(([account]) => account.length));
  const code = entry.code && `(${entry.code})`;
  return [[entry.day, code, entry.description].filter(Boolean).join(" "),
    ...rows.map(([account, amount]) => `    ${account.padEnd(width)}  ${amount}`)].join("\n");
}
const sameLegs = (one, two) => {
  const written = legs => legs.map(leg => `${leg.account}\n${printed(leg)}`).sort().join("\n");
  return written(one) === written(two);
};
const OWN = /^(out|in|close):/;
// A text that is a description as it stands: no comment, status or code begins in it.
const limited = (value, bytes) => {
  let out = value;
  while (new TextEncoder().encode(out).length > bytes) out = [...out].slice(0, -1).join("");
  return out.trim();
};
const plain = value => limited(value.normalize("NFC").replace(/[\p{Cc}\p{Zl}\p{Zp}]/gu, " ").replaceAll(";", ",")
  .replace(/\s+/gu, " ").trim().replace(/^(?=[*!(])/, "- "), 480);
// The text of an entry with all its amounts. `legs` may have an assertion each.
function entryText(day, description, mark, legs) {
  return [`${day} ${plain(description)}`.trim(), `    ; bookid:${mark}`, ...legs.map(leg =>
    `    ${leg.account}  ${printed(leg)}${leg.asserted ? " = " + printed(leg.asserted) : ""}`), ""].join("\n");
}
