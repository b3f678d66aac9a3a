// ---------- The tree of accounts, of one branch or of several side by side ----------

const folded = new Map();
// Accounts by their parts. `own` and `sums` have, for each column, the sums by commodity without and with subaccounts.
function treeOf(columns) {
  const make = name => ({ name, sums: columns.map(() => new Map()), inside: new Map() });
  const root = make("");
  columns.forEach((rows, column) => {
    for (const [amount, account] of rows) {
      const read = readAmount(amount);
      let node = root;
      add(root.sums[column], read);
      for (const name of account.split(":")) {
        const full = node.name ? node.name + ":" + name : name;
        if (!node.inside.has(name)) node.inside.set(name, make(full));
        node = node.inside.get(name);
        add(node.sums[column], read);
      }
      node.isHeld = true;
    }
  });
  return root;
}
// The rows of a tree: an account that only leads to another one stands in its row.
function* treeRows(node, depth, title, isFolded, isFound) {
  for (const [name, child] of node.inside) {
    const label = title ? title + ":" + name : name;
    if (!isFound(child)) continue;
    if (child.inside.size === 1 && !child.isHeld && depth > 0) {
      yield* treeRows(child, depth, label, isFolded, isFound);
      continue;
    }
    yield { child, label, depth };
    if (!isFolded(child.name, depth)) yield* treeRows(child, depth + 1, "", isFolded, isFound);
  }
}
// `heads` are the titles of the columns; `target` gives the address of an account, if it has one.
function tree(place, caption, columns, heads, target, find = "", depthShown = 9) {
  const root = treeOf(columns), table = el("table.tree" + (heads.length > 2 ? ".many" : "")), body = el("tbody");
  const state = folded.get(place) ?? new Map();
  folded.set(place, state);
  const wanted = find.toLowerCase(), finds = new Map();
  const isFolded = (name, depth) => wanted === "" && (state.get(name) ?? depth >= depthShown);
  const isFound = node => {
    const isIn = () => node.name.toLowerCase().includes(wanted) || [...node.inside.values()].some(isFound);
    if (!finds.has(node)) finds.set(node, isIn());
    return finds.get(node);
  };
  const zero = [...styles.keys()][0];
  const rowOf = ({ child, label, depth }) => {
    const isOpen = !isFolded(child.name, depth), address = target(child.name), shownLabel = shown(label);
    const turn = () => {
      state.set(child.name, isOpen);
      draw();
      body.querySelector(`[data-account="${CSS.escape(child.name)}"] .twist`)?.focus();
    };
    const twist = child.inside.size && !wanted ? el("button.twist", { type: "button", "aria-expanded": String(isOpen),
      "aria-label": text("unfold", { account: child.name }), click: turn }) : null;
    const row = el(depth ? "tr" : "tr.top", { "data-account": child.name },
      el("th.name", { scope: "row" }, twist, address ? el("a", { href: address }, shownLabel) : shownLabel),
      child.sums.map(sums => el("td.amount", {}, amounts(sums, zero))));
    row.style.setProperty("--depth", depth);
    return row;
  };
  const draw = () => body.replaceChildren(...[...treeRows(root, 0, "", isFolded, isFound)].map(rowOf));
  const setAll = isOpen => {
    const walk = node => node.inside.forEach(child => { state.set(child.name, !isOpen); walk(child); });
    walk(root);
    draw();
  };
  draw();
  table.append(el("caption", {}, caption), el("thead", {}, el("tr", {}, el("th", { scope: "col" }, text("account")),
    heads.map(head => el("th.amount", { scope: "col" }, head)))), body);
  const isWhole = root.inside.size && !wanted;
  if (isWhole) table.append(el("tfoot", {}, el("tr.sum", {}, el("th.name", { scope: "row" }, text("sum")),
    root.sums.map(sums => el("td.amount", {}, amounts(sums, zero))))));
  return [
    el("div.wide", {}, table),
    root.inside.size ? isFound(root) ? null : el("p", {}, text("no-match")) : el("p", {}, text("no-balance")),
    buttons(isWhole ? [button("unfold-all", () => setAll(true)), button("fold-all", () => setAll(false))] : null,
      printButton()),
  ];
}
