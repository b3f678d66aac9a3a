// ---------- Text of a journal: its entries as the treasury reads them (docs/FORMATS.md, "Journal text") ----------

// A number as a journal has it: group marks anywhere in its whole part. The digits, and how many of them are decimals.
function numberRead(number, { mark }) {
  const [whole, part = ""] = number.replaceAll(mark === "." ? "," : ".", "").split(mark);
  return { digits: BigInt(whole + part), decimals: part.length };
}
const WRITTEN = new RegExp(`^([-+]?)\\s*(${SYMBOL})?\\s*([-+]?)\\s*([0-9.,]+)\\s*(${SYMBOL})?$`, "u");
// An amount as a journal may have it: its symbol as it is printed, its digits and its decimals.
function amountWritten(given) {
  const [found, outer, left, inner, number, right] = WRITTEN.exec(given.trim()) ?? [], symbol = left ?? right;
  const bare = symbol?.replace(/^"([A-Za-z$\u0080-\u{10ffff}]+)"$/u, "$1"), style = styles.get(bare);
  if (!found || !style) throw new Error("no amount: " + given);
  const { digits, decimals } = numberRead(number, style);
  return { symbol: bare, digits: outer + inner === "-" ? -digits : digits, decimals };
}
function amountMeant(given) {
  const { symbol, digits, decimals } = amountWritten(given), declared = styles.get(symbol).decimals;
  return printAmount(symbol, decimals > declared ? digits / 10n ** BigInt(decimals - declared)
    : digits * 10n ** BigInt(declared - decimals));
}
// The price of a unit may have more decimals than its commodity, but no zeros behind the declared ones.
function priceMeant(given, at) {
  if (at === "@@") return amountMeant(given);
  let { symbol, digits, decimals } = amountWritten(given);
  const declared = styles.get(symbol).decimals;
  for (; decimals > declared && digits % 10n === 0n; decimals--) digits /= 10n;
  return decimals > declared ? printAmount(symbol, digits, decimals) : amountMeant(given);
}
const PARTS = /^((?:"[^"]*"|[^"@=])*)(?:(@@?)((?:"[^"]*"|[^"=])*))?(?:(==?\*?)(.*))?$/u;
function postingMeant(line) {
  const [bare] = line.split(";"), [, account, rest] = /^[ \t]+(?:[*!][ \t]*)?(.*?)(?:(?:\t| [ \t])(.*))?$/u.exec(bare);
  if (!rest?.trim()) return "    " + account.trim();
  const [, amount, at, price, sign, asserted] = PARTS.exec(rest.trim());
  return `    ${account}  ${amountMeant(amount)}${at ? ` ${at} ${priceMeant(price, at)}` : ""}`
    + (sign ? ` ${sign} ${amountMeant(asserted)}` : "");
}
// The entry whose header stands on a line of a journal, from 1; nothing if it is not understood as a whole.
function entryAt(lines, start) {
  try {
    const [, day, status, code, description] = new RegExp("^(\\d{4}[-/.]\\d{1,2}[-/.]\\d{1,2})[ \\t]*(?:([*!])[ \\t]*)?"
      + "(?:\\(([^)]*)\\)[ \\t]*)?([^;]*)", "u").exec(lines[start - 1]);
    const end = lines.findIndex((line, at) => at >= start && !/^[ \t]+[^ \t\r]/.test(line));
    const below = lines.slice(start, end < 0 ? lines.length : end).filter(line => !/^[ \t]+;/.test(line));
    const head = [day.split(/[-/.]/).map(one => one.padStart(2, "0")).join("-"), status, code && `(${code})`,
      description.trim()].filter(Boolean).join(" ");
    const written = [head, "    ; bookid:", ...below.map(line => postingMeant(line.replace(/\r$/, "")))].join("\n");
    const entry = entryOf(written + "\n", 0);
    return entry.postings.length === below.length && isEven(entry) ? entry : null;
  } catch { return null; }
}
// Whether the values of an entry sum to zero, as those of each that was taken do.
function isEven({ postings }) {
  const left = new Map();
  for (const { amount, at, price } of postings) if (amount) add(left, valueAt(readAmount(amount), at, price));
  return postings.some(one => !one.amount) || !hasAny(left);
}
