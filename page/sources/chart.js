// ---------- A balance over time, as a line ----------

// The running balance over time: of each commodity the last one after each day.
async function chart(rows) {
  const days = new Map();
  await slowly(rows, ([day, , , sum]) => {
    const { symbol, units } = readAmount(sum);
    if (!days.has(symbol)) days.set(symbol, new Map());
    days.get(symbol).set(day, units);
  });
  const symbols = [...days.keys()].filter(one => days.get(one).size > 1)
    .sort((one, two) => days.get(two).size - days.get(one).size);
  if (!symbols.length) return null;
  const place = el("div"), caption = el("figcaption"), figure = el("figure.chart", {}, caption, place);
  const choice = symbols.length > 1 ? el("select", { id: "chart-symbol", "aria-label": text("commodity"),
    change: () => anew(draw) }, symbols.map(symbol => el("option", { value: symbol }, symbol))) : null;
  const draw = () => {
    const symbol = choice?.value ?? symbols[0], points = [...days.get(symbol)];
    const read = el("output"), show = ([day, units]) => {
      read.replaceChildren(...phrase("chart-at", { day, amount: printAmount(symbol, units) }));
    };
    show(points.at(-1));
    caption.replaceChildren(read, choice ?? "");
    place.replaceChildren(drawing(symbol, points, Math.max(280, place.clientWidth || 720), show));
  };
  draw();
  $("register-report").addEventListener("filled", draw, { once: true });
  redraw = () => { if (place.isConnected) draw(); };
  return figure;
}
let redraw = () => {};
function svg(names, attributes, ...inside) {
  const [name, ...classes] = names.split("."), made = document.createElementNS("http://www.w3.org/2000/svg", name);
  for (const [key, value] of Object.entries(attributes)) made.setAttribute(key, value);
  if (classes.length) made.setAttribute("class", classes.join(" "));
  made.append(...inside);
  return made;
}
// Places on the screen may be rounded; the amounts beside them are not.
function drawing(symbol, points, width, show) {
  const height = 200, top = 18, bottom = height - 24;
  const values = points.map(([, units]) => units), first = dayNumber(points[0][0]), last = dayNumber(points.at(-1)[0]);
  const highest = values.reduce((one, two) => two > one ? two : one), high = highest > 0n ? highest : 0n;
  const lowest = values.reduce((one, two) => two < one ? two : one), low = lowest < 0n ? lowest : 0n;
  const x = day => Math.round((dayNumber(day) - first) / (last - first) * width);
  const y = units => bottom - Number((units - low) * 10000n / (high - low || 1n)) / 10000 * (bottom - top);
  // One step for each place on the screen: from there the line goes up and down to all values of its days.
  let path = `M0 ${y(values[0])}`, at = 0;
  for (const [day, units] of points) {
    if (x(day) !== at) path += `H${at = x(day)}`;
    path += `V${y(units).toFixed(1)}`;
  }
  const print = units => printAmount(symbol, units);
  const label = (units, above) => svg("text", { x: 0, y: y(units) + (above ? -5 : 14) }, print(units));
  const name = text("chart", { from: points[0][0], to: points.at(-1)[0], low: print(lowest), high: print(highest),
    last: print(values.at(-1)) });
  const cursor = svg("path.cursor", {});
  const picture = svg("svg", { viewBox: `0 0 ${width} ${height}`, role: "img", "aria-label": name },
    ...ticks(first, last, Math.min(7, Math.floor(width / 75))).map(([day, title]) => {
      const place = x(day), anchor = place > width - 30 ? "end" : place < 30 ? "start" : "middle";
      return svg("g", {}, svg("path.tick", { d: `M${place} ${top}V${bottom}` }),
        svg("text", { x: place, y: height - 8, "text-anchor": anchor }, title));
    }),
    svg("path.area", { d: `${path}H${width}V${y(0n)}H0Z` }), svg("path.axis", { d: `M0 ${y(0n)}H${width}` }),
    svg("path.line", { d: `${path}H${width}` }), cursor,
    ...(high > 0n ? [label(high, true)] : []), ...(low < 0n ? [label(low, false)] : []));
  picture.addEventListener("pointermove", event => {
    const box = picture.getBoundingClientRect(), place = (event.clientX - box.left) / box.width * width;
    const found = points.findLast(([day]) => x(day) <= place) ?? points[0];
    cursor.setAttribute("d", `M${x(found[0])} ${top}V${bottom}`);
    show(found);
  });
  picture.addEventListener("pointerleave", () => { cursor.removeAttribute("d"); show(points.at(-1)); });
  return picture;
}
// At most `most` beginnings of months or years and one more, with their names.
function ticks(first, last, most) {
  const months = (last - first) / 30.44, step = [1, 2, 3, 6, 12, 24, 60, 120, 240, 600, 1200, 2400, 6000, 12000, 24000]
    .find(one => months / one <= most) ?? 60000;
  const begin = new Date(first * 864e5), out = [];
  const firstMonth = begin.getUTCFullYear() * 12 + begin.getUTCMonth() + (begin.getUTCDate() > 1 ? 1 : 0);
  for (let month = Math.ceil(firstMonth / step) * step; out.length <= most; month += step) {
    const year = String(Math.floor(month / 12)).padStart(4, "0");
    const name = `${year}-${String(month % 12 + 1).padStart(2, "0")}`;
    if (!(dayNumber(name + "-01") <= last)) break;
    out.push([name + "-01", step % 12 ? name : year]);
  }
  return out;
}
