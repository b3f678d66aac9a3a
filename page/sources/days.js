// ---------- Days ----------

const today = () => {
  const now = new Date(), two = part => String(part).padStart(2, "0");
  return `${String(now.getFullYear()).padStart(4, "0")}-${two(now.getMonth() + 1)}-${two(now.getDate())}`;
};
const dayNumber = day => Date.parse(day + "T00:00:00Z") / 864e5;
const isoDay = number => new Date(number * 864e5).toISOString().slice(0, 10);
const FOREVER = "9999-12-31";
// A year of two digits is of this century. A day that no calendar has is none.
function dayFrom(year, month, day) {
  const full = year.length === 2 ? "20" + year : year;
  const iso = [full, month.padStart(2, "0"), day.padStart(2, "0")].join("-");
  const found = new Date(iso + "T00:00:00Z");
  return !Number.isNaN(found.getTime()) && found.toISOString().startsWith(iso) ? iso : null;
}
const dayBefore = day => day === "0001-01-01" ? null : isoDay(dayNumber(day) - 1);
const yearBefore = day => {
  const [year, month, date] = day.split("-"), before = String(Number(year) - 1).padStart(4, "0");
  return dayFrom(before, month, date) ?? `${before}-02-28`;
};
