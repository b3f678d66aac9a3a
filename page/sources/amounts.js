// ---------- Amounts: whole numbers of the smallest unit, never floating ones ----------

// The style of each commodity, by its symbol as it is printed; the treasury's samples show it.
const styles = new Map();
let samples = [];
const SYMBOL = '"[^"]*"|[A-Za-z$\\u0080-\\u{10ffff}]+';
const AMOUNT = new RegExp(`^(?:(${SYMBOL})( ?))?(-?)([0-9][0-9.,]*)(?:( ?)(${SYMBOL}))?$`, "u");
function learnStyles(lines) {
  samples = lines.map(([sample]) => sample);
  styles.clear();
  for (const sample of samples) {
    const found = AMOUNT.exec(sample);
    if (!found) throw new Error("no sample: " + sample);
    const [, left, leftSpace, , number, rightSpace, right] = found;
    const marks = number.replace(/[0-9]/g, ""), mark = marks.at(-1), group = marks.length > 1 ? marks[0] : "";
    const decimals = number.length - number.lastIndexOf(mark) - 1;
    styles.set(left ?? right, { isLeft: Boolean(left), space: left ? leftSpace : rightSpace, mark, group, decimals });
  }
}
// An amount as the treasury prints it, and no other text.
function readAmount(amount) {
  const [, left, , sign, number, , right] = AMOUNT.exec(amount) ?? [], symbol = left ?? right;
  if (!styles.has(symbol)) throw new Error("no amount: " + amount);
  const units = BigInt(sign + number.replace(/[.,]/g, ""));
  if (printAmount(symbol, units) !== amount) throw new Error("no amount: " + amount);
  return { symbol, units };
}
function printAmount(symbol, units, decimals = styles.get(symbol).decimals) {
  const { isLeft, space, mark, group } = styles.get(symbol);
  const digits = String(units < 0n ? -units : units).padStart(decimals + 1, "0");
  const whole = digits.slice(0, digits.length - decimals), isGrouped = group && whole.length > 3;
  const number = (units < 0n ? "-" : "") + (isGrouped ? whole.replace(/\B(?=(?:\d{3})+$)/g, group) : whole)
    + (decimals ? mark + digits.slice(-decimals) : isGrouped ? mark : "");
  return isLeft ? symbol + space + number : number + space + symbol;
}
const printed = ({ symbol, units }) => printAmount(symbol, units);
const zeroSymbol = () => [...styles.keys()][0];
// Sums by commodity.
function add(sums, { symbol, units }) {
  sums.set(symbol, (sums.get(symbol) ?? 0n) + units);
}
const plus = (...all) => {
  const out = new Map();
  for (const sums of all) for (const [symbol, units] of sums) add(out, { symbol, units });
  return out;
};
const turnedSums = sums => new Map([...sums].map(([symbol, units]) => [symbol, -units]));
const hasAny = sums => [...sums.values()].some(Boolean);
// The smallest units of a number without a sign whose decimal mark is known; nothing if it has more decimals than that.
function unitsOf(number, mark, decimals) {
  const group = mark === "." ? "," : ".", form = `^(\\d+|\\d{1,3}(?:\\${group}\\d{3})+)(?:\\${mark}(\\d*))?$`;
  const [, whole, part = ""] = new RegExp(form).exec(number) ?? [];
  if (whole === undefined || /[1-9]/.test(part.slice(decimals))) return null;
  return BigInt(whole.replaceAll(group, "") + part.slice(0, decimals).padEnd(decimals, "0"));
}
// An amount as a person types it. Group marks stand only where they belong, and the decimals are those of the
// commodity: so a comma for a point is no amount, and never one that is a hundred times as large.
function amountTyped(typed, symbol = [...styles.keys()][0]) {
  const given = typed.trim().replaceAll("\u2212", "-").replace(/(?<=[0-9])[\u00a0\u202f](?=[0-9])/gu, "");
  const form = new RegExp(`^([-+]?) ?(${SYMBOL})? ?([-+]?)([0-9][0-9.,]*) ?(${SYMBOL})?$`, "u");
  const [found, outer, left, inner, number, right] = form.exec(given) ?? [];
  const style = styles.get(left ?? right ?? symbol);
  if (!found || !style || (left && right) || (outer && inner)) return null;
  const units = unitsOf(number, style.mark, style.decimals);
  return units === null ? null : { symbol: left ?? right ?? symbol, units: (outer || inner) === "-" ? -units : units };
}
