// ---------- Bank files: CSV, CAMT and MT940, read into lines ----------

// Nothing here asks anybody or looks at the page. A line has a day, units, payee, purpose and reference; a statement
// has lines, what could not be read, and balances. `decimals` are those of its commodity, or give them for a symbol.
function decoded(bytes, encoding) {
  const [one, two] = bytes, known = one === 0xff && two === 0xfe ? "utf-16le" : encoding;
  for (const name of known ? [known] : ["utf-8", "windows-1252"]) {
    try {
      return { written: new TextDecoder(name, { fatal: name === "utf-8" }).decode(bytes), encoding: name };
    } catch { /* the next one */ }
  }
  return { written: new TextDecoder("utf-8").decode(bytes), encoding: "utf-8" };
}
// The files in a ZIP, or the file itself; of what is no whole ZIP an empty one, in which nothing is found.
const MOST_UNPACKED = 64e6;
async function unpacked(name, bytes) {
  if (bytes[0] !== 0x50 || bytes[1] !== 0x4b) return [{ name, bytes }];
  try {
    const out = [];
    for (const { name: inside, method, data } of zipParts(bytes)) {
      out.push({ name: inside, bytes: method === 0 ? data : await inflated(data) });
    }
    return out;
  } catch { return [{ name, bytes: new Uint8Array() }]; }
}
function zipParts(bytes) {
  const seen = new DataView(bytes.buffer, bytes.byteOffset, bytes.byteLength), out = [];
  let end = bytes.length - 22;
  while (seen.getUint32(end, true) !== 0x06054b50) end--;
  let at = seen.getUint32(end + 16, true);
  for (let left = seen.getUint16(end + 10, true); left > 0; left--) {
    const [length, extra, comment] = [28, 30, 32].map(step => seen.getUint16(at + step, true));
    const from = seen.getUint32(at + 42, true), name = new TextDecoder().decode(bytes.subarray(at + 46,
      at + 46 + length));
    const begin = from + 30 + seen.getUint16(from + 26, true) + seen.getUint16(from + 28, true);
    const data = bytes.subarray(begin, begin + seen.getUint32(at + 20, true));
    if (!/\/$|(^|\/)(\.|__MACOSX)/.test(name)) out.push({ name, method: seen.getUint16(at + 10, true), data });
    at += 46 + length + extra + comment;
  }
  if (!out.length) throw new Error("no file");
  return out;
}
async function inflated(data) {
  const chunks = [], reader = new Blob([data]).stream().pipeThrough(new DecompressionStream("deflate-raw")).getReader();
  for (let size = 0; size < MOST_UNPACKED;) {
    const { value, done } = await reader.read();
    if (done) return new Uint8Array(await new Blob(chunks).arrayBuffer());
    chunks.push(value);
    size += value.length;
  }
  throw new Error("too long");
}
const fileKind = written => /^\s*</.test(written) ? "xml" : /^:(?:20|25|60[FM]):/m.test(written) ? "mt940" : "csv";
const collapsed = value => (value ?? "").replace(/\s+/gu, " ").trim();
// The words of a purpose that has SEPA's parts in it: those behind SVWZ+.
const sepa = value => /SVWZ\+(.*?)(?=\s*\b[A-Z]{4}\+|$)/.exec(value)?.[1].trim() || value;
const DAY_PARTS = /^(\d{1,4})[.\/-](\d{1,2})[.\/-](\d{2,4})\.?(?:[ T].*)?$/;
function dayRead(given, order) {
  const dense = /^((?:19|20)\d\d)(\d\d)(\d\d)$/.exec(given);
  const [, one, two, three] = dense ?? DAY_PARTS.exec(given) ?? [];
  if (one === undefined) return null;
  if (dense || one.length === 4) return dayFrom(one, two, three);
  return order === "mdy" ? dayFrom(three, one, two) : dayFrom(three, two, one);
}
// An amount as banks write it: with a currency, a sign on either side, or S and H (D and C) behind it.
function unitsRead(given, mark, decimals) {
  const bare = given.replaceAll("\u2212", "-").replace(/[\s'\u2019€$£]|\b[A-Z]{3}\b/gu, "");
  const [, before, number, after] = /^([-+(]?)([0-9.,]+)([-+)SHDC]?)$/.exec(bare) ?? [];
  const units = number === undefined ? null : unitsOf(number.replace(/^(?=[.,])/, "0"), mark, decimals);
  return units === null ? null : /[-(]/.test(before) || /[-SD]/.test(after) ? -units : units;
}
const AMOUNT_LIKE = /^[-+(\u2212]?\s*[€$£]?\s*[\d.,'\u2019]*[.,]\d{1,2}\s*[-+)]?\s*(?:[A-Z]{3}|[€$£])?$/u;
const isAmountLike = given => AMOUNT_LIKE.test(given);
// The rows of a text with separated values, each with the number of its line.
function csvRows(written, delimiter) {
  const rows = [], given = written.replace(/^\ufeff/, "");
  let row = [], field = "", isQuoted = false, line = 1, from = 1;
  const end = () => {
    row.push(field.trim());
    if (row.some(Boolean)) rows.push({ at: from, cells: row });
    [row, field, from] = [[], "", line];
  };
  for (let at = 0; at < given.length; at++) {
    const one = given[at];
    if (one === "\n") line++;
    if (isQuoted && one === '"' && given[at + 1] === '"') field += given[at++];
    else if (isQuoted && one === '"') isQuoted = false;
    else if (isQuoted) field += one;
    else if (one === '"' && !field.trim()) [isQuoted, field] = [true, ""];
    else if (one === "\n") end();
    else if (one === delimiter) {
      row.push(field.trim());
      field = "";
    } else field += one;
  }
  end();
  return rows;
}
const DELIMITERS = [";", ",", "\t", "|"];
// Of each role the words with which banks head its column; the first that some column has wins.
const HEADS = {
  day: [/^(buchungs?(tag|datum)?|(booking|posting|transaction|completed) date|date|datum)$/, /buchung.*(tag|dat)/,
    /^(wertstellung|valuta|wert|value date)/, /dat(e|um)\b/],
  amount: [/^(betrag|amount|umsatz)\b(?!.*art)/, /^umsatz in/, /betrag|amount/],
  sign: [/^(soll.?haben|s\/h|kennzeichen|debit.?credit|dr\/?cr|cdtdbtind)/],
  debit: [/^(soll|belastung|debit|lastschrift|ausgang|money out|paid out|withdrawals?)\b(?!.*ursprung)/],
  credit: [/^(haben|gutschrift|credit|eingang|money in|paid in|deposits?)\b/],
  payee: [/^zahlungsempf/, /^(beg(ue|ü)nstigte|empf(ae|ä)nger|auftraggeber|payee|counterparty|name|gegen)/,
    /zahlungsbeteiligt/, /description|partner/],
  payer: [/^zahlungspflichtige/],
  purpose: [/verwendungszweck|^zweck|payment reference|purpose|remittance/,
    /^(memo|details|text|narrative|buchungstext|particulars)/],
  reference: [/^(bankreferenz|transaction id|umsatz.?id|fitid|kontoservicer|entry ref)/],
  balance: [/^(saldo|balance|kontostand|running bal)/],
  state: [/^(status|info|state)$/],
};
function columnsOf(head, sample) {
  const names = head.map(one => one.toLowerCase()), found = {};
  for (const [role, forms] of Object.entries(HEADS)) {
    const isFree = at => !Object.values(found).includes(at);
    const places = forms.map(form => names.findIndex((name, at) => form.test(name) && isFree(at)));
    found[role] = places.find(at => at >= 0) ?? -1;
  }
  const isDay = cell => dayRead(cell, "dmy") || dayRead(cell, "mdy");
  if (found.day < 0 || !isDay(sample[found.day] ?? "")) found.day = sample.findIndex(isDay);
  if (found.amount < 0 && found.debit < 0) {
    found.amount = sample.findIndex((cell, at) => isAmountLike(cell) && at !== found.balance);
  }
  if (found.payee < 0 && found.purpose < 0) {
    const words = sample.map(cell => /\p{L}{2}/u.test(cell) ? cell.length : 0), most = Math.max(0, ...words);
    found.purpose = most ? words.indexOf(most) : -1;
  }
  return found;
}
// How a file with separated values is to be read: what can be told from it; a person may correct each of these.
function csvSetting(written) {
  const scored = DELIMITERS.map(delimiter => {
    const rows = csvRows(written.slice(0, 40000), delimiter);
    const counts = rows.map(({ cells }) => cells.length).filter(count => count > 2);
    const most = counts.toSorted((one, two) => one - two)[Math.floor(counts.length / 2)] ?? 0;
    return { delimiter, score: counts.filter(count => count === most).length * most };
  });
  const { delimiter } = scored.reduce((best, one) => one.score > best.score ? one : best);
  const rows = csvRows(written, delimiter);
  const isData = ({ cells }) => cells.length > 2 && cells.some(cell => dayRead(cell, "dmy") || dayRead(cell, "mdy"))
    && cells.some(cell => isAmountLike(cell) || /^[-+]?\d{1,7}$/.test(cell));
  const first = Math.max(0, rows.findIndex(isData)), head = rows[first - 1];
  const hasHead = Boolean(head) && head.cells.length > 2 && !isData(head);
  const data = rows.slice(first).filter(isData);
  const columns = columnsOf(hasHead ? head.cells : [], data[0]?.cells ?? []);
  const days = data.map(({ cells }) => DAY_PARTS.exec(cells[columns.day] ?? "")).filter(Boolean);
  const order = days.some(([, one, two]) => Number(two) > 12 && Number(one) <= 12) ? "mdy" : "dmy";
  const sums = data.flatMap(({ cells }) => [columns.amount, columns.debit, columns.credit].map(at => cells[at] ?? ""));
  const marks = sums.map(cell => /([.,])\d{1,2}\D*$/.exec(cell)?.[1]).filter(Boolean);
  const commas = marks.filter(mark => mark === ",").length;
  const mark = marks.length ? commas * 2 > marks.length ? "," : "." : delimiter === ";" ? "," : ".";
  return { delimiter, order, mark, columns, head: hasHead ? head.cells : [], first };
}
// A row that says a balance is no line, wherever it stands: the old one is at the beginning, any other one at the end.
const BALANCE_ROW = new RegExp("^(anfangs|end|abschluss|alter |neuer |letzter )?(saldo|kontostand)( vom.*)?:?$|"
  + "^(opening|closing|previous) balance", "i");
const saysBalance = ({ cells }) => cells.some(cell => BALANCE_ROW.test(cell)) && cells.some(isAmountLike);
function readCsv(written, setting, decimals) {
  const { delimiter, order, mark, columns, first } = setting, rows = csvRows(written, delimiter);
  const lines = [], unread = [];
  let skipped = 0;
  for (const { at, cells } of rows.slice(first).filter(row => !saysBalance(row))) {
    const cell = role => collapsed(cells[columns[role]]), day = dayRead(cell("day"), order);
    if (!day && !(isAmountLike(cell("amount")) && cells.length > 2)) continue;
    if (/vorgemerkt|vormerkung|pending|offen\b/i.test(cell("state"))) {
      skipped++;
      continue;
    }
    const read = role => cell(role) === "" ? null : unitsRead(cell(role), mark, decimals);
    const size = units => units !== null && units < 0n ? -units : units;
    let units = read("amount");
    if (units !== null && /^(s|d|dr|dbit|soll|debit)$/i.test(cell("sign"))) units = -size(units);
    if (units === null && cell("amount") === "") {
      const [debit, credit] = [size(read("debit")), size(read("credit"))];
      units = debit === null && credit === null ? null : (credit ?? 0n) - (debit ?? 0n);
    }
    if (!day || units === null) unread.push({ at, cells });
    else {
      const payee = units > 0n && cell("payer") || cell("payee");
      lines.push({ at, day, units, payee, purpose: sepa(cell("purpose")), reference: cell("reference"),
        balance: read("balance") });
    }
  }
  return { lines: inTime(lines), unread, skipped, ...csvBalances(lines, rows.filter(saysBalance), setting, decimals) };
}
// Oldest first: what the balances say, or else the first and the last day.
const follows = (lines, isTurned) => lines.every((line, at) => !at || (isTurned
  ? lines[at - 1].balance === line.balance + lines[at - 1].units
  : line.balance === lines[at - 1].balance + line.units));
const byDay = (one, two) => one.day < two.day ? -1 : one.day > two.day ? 1 : 0;
const haveBalances = lines => lines.length > 0 && lines.every(({ balance }) => balance !== null);
function inTime(lines) {
  const isTurned = lines.length > 1 && (haveBalances(lines) && follows(lines, true) !== follows(lines, false)
    ? follows(lines, true) : lines[0].day > lines.at(-1).day);
  return (isTurned ? lines.toReversed() : lines).toSorted(byDay);
}
const unitsOfRow = (cells, mark, decimals) => {
  const units = unitsRead(cells.find(isAmountLike), mark, decimals);
  return units !== null && units > 0n && cells.some(cell => /^[sd]$/i.test(cell)) ? -units : units;
};
function csvBalances(lines, said, { order, mark }, decimals) {
  const sorted = inTime(lines);
  if (haveBalances(lines)) {
    const [first] = sorted, last = sorted.at(-1);
    const gap = sorted.find((line, at) => at && line.balance !== sorted[at - 1].balance + line.units);
    return { opening: first.balance - first.units, closings: [{ day: last.day, units: last.balance }], gap };
  }
  // Balances beside the table, each with its day in the same row, or else with that of the last line.
  const titleOf = ({ cells }) => cells.find(cell => BALANCE_ROW.test(cell));
  const isOld = row => /anfang|alter |letzter|opening|previous/i.test(titleOf(row));
  const old = said.find(isOld), now = said.findLast(row => !isOld(row));
  const read = ({ cells }) => unitsOfRow(cells, mark, decimals);
  const [, written] = /(\d{1,2}[.\/]\d{1,2}[.\/]\d{2,4}|\d{4}-\d\d-\d\d)/.exec(now?.cells.join(" ")) ?? [];
  const day = dayRead(written ?? "", order) ?? sorted.at(-1)?.day;
  const isWhole = now && day && read(now) !== null;
  return { opening: old ? read(old) : null, closings: isWhole ? [{ day, units: read(now) }] : [] };
}
// XML as banks write it: elements, texts, CDATA, the five entities and numbers; a DOCTYPE is refused. (The page's
// policy keeps the browser's own reader shut.)
const ENTITIES = { lt: "<", gt: ">", amp: "&", quot: '"', apos: "'" };
const unescaped = given => given.replace(/&(?:#x([0-9a-f]+)|#(\d+)|(\w+));/gi, (whole, hex, number, name) => {
  const code = Number(hex ? "0x" + hex : number);
  return name ? ENTITIES[name] ?? whole : code <= 0x10ffff ? String.fromCodePoint(code) : whole;
});
function readXml(written) {
  const token = new RegExp("<\\?.*?\\?>|<!--.*?-->|<!\\[CDATA\\[(.*?)\\]\\]>|<(/?)([^\\s<>/!?]+)"
    + "((?:\\s+[^\\s=<>/]+\\s*=\\s*(?:\"[^\"<]*\"|'[^'<]*'))*)\\s*(/?)>|([^<]+)", "suy");
  const root = { name: "", inside: [], written: "" }, open = [root];
  const given = written.replace(/^\ufeff/, "");
  while (token.lastIndex < given.length) {
    const found = token.exec(given);
    if (!found) return null;
    const [, data, isEnd, full, values, isEmpty, plainText] = found;
    const here = open.at(-1), name = full?.split(":").at(-1);
    if (plainText !== undefined || data !== undefined) here.written += data ?? unescaped(plainText);
    else if (isEnd && (name !== here.name || open.length === 1)) return null;
    else if (isEnd) open.pop();
    else if (name) {
      const currency = /\bCcy\s*=\s*["']([^"']*)["']/.exec(values)?.[1];
      const made = { name, currency, inside: [], written: "" };
      here.inside.push(made);
      if (!isEmpty) open.push(made);
    }
  }
  return open.length === 1 ? root : null;
}
// The elements at a path below another.
const below = (node, path) => path.split("/").reduce((nodes, step) =>
  nodes.flatMap(one => one.inside.filter(({ name }) => name === step)), [node]);
const textOf = (node, ...paths) => paths.map(path => collapsed(below(node, path)[0]?.written)).find(Boolean) ?? "";
const everywhere = (node, names) => node.inside.flatMap(one =>
  names.includes(one.name) ? [one] : everywhere(one, names));
// The units of an amount in the statement's commodity; another one is not read.
function camtUnits(node, symbol, decimals) {
  const isOther = below(node, "Amt")[0]?.currency !== symbol;
  const units = unitsOf(textOf(node, "Amt"), ".", decimals(symbol));
  return isOther || units === null ? null : textOf(node, "CdtDbtInd") === "DBIT" ? -units : units;
}
// CAMT.053, and .052 and .054, of any version: names may lie one element deeper, states and dates in two ways.
function readCamt(written, decimals) {
  const root = readXml(written);
  return root && everywhere(root, ["Stmt", "Rpt", "Ntfctn"]).map(statement => {
    const symbol = [...below(statement, "Bal/Amt"), ...below(statement, "Ntry/Amt")][0]?.currency;
    const balances = below(statement, "Bal").map(one => ({ kind: textOf(one, "Tp/CdOrPrtry/Cd"),
      units: camtUnits(one, symbol, decimals), day: textOf(one, "Dt/Dt", "Dt/DtTm").slice(0, 10) }));
    const opening = balances.find(({ kind }) => ["OPBD", "PRCD"].includes(kind));
    const found = below(statement, "Ntry"), isBooked = one => ["BOOK", ""].includes(textOf(one, "Sts/Cd", "Sts"));
    const read = found.filter(isBooked).map((one, at) => camtLine(one, at + 1, symbol, decimals));
    return {
      symbol, account: textOf(statement, "Acct/Id/IBAN", "Acct/Id/Othr/Id"),
      lines: read.filter(line => line.units !== null && line.day), skipped: found.length - read.length,
      unread: read.filter(line => line.units === null || !line.day).map(({ at, payee }) => ({ at, cells: [payee] })),
      opening: opening?.units ?? null,
      closings: balances.filter(({ kind, units, day }) => kind === "CLBD" && units !== null && day),
    };
  });
}
function camtLine(entry, at, symbol, decimals) {
  const units = camtUnits(entry, symbol, decimals), side = units < 0n ? "Cdtr" : "Dbtr";
  const details = below(entry, "NtryDtls/TxDtls"), parts = camtParts(details, units, symbol, decimals);
  const people = details.map(one => textOf(one, `RltdPties/${side}/Nm`, `RltdPties/${side}/Pty/Nm`,
    `RltdPties/Ultmt${side}/Nm`, `RltdPties/Ultmt${side}/Pty/Nm`));
  const purposes = details.map(one => below(one, "RmtInf/Ustrd").map(part => collapsed(part.written)).join(" ")
    || textOf(one, "RmtInf/Strd/CdtrRefInf/Ref", "AddtlTxInf"));
  return { at, units, day: textOf(entry, "BookgDt/Dt", "BookgDt/DtTm", "ValDt/Dt", "ValDt/DtTm").slice(0, 10),
    payee: [...new Set(people.filter(Boolean))].join(", "), balance: null,
    ...(parts && { parts: parts.map((one, step) => ({ units: one, payee: people[step],
      purpose: sepa(purposes[step]) })) }),
    purpose: purposes.filter(Boolean).map(sepa).join(", ") || textOf(entry, "AddtlNtryInf"),
    reference: textOf(entry, "AcctSvcrRef", "NtryDtls/TxDtls/Refs/AcctSvcrRef", "NtryRef") };
}
// The units of the parts of a collective booking, if all are told and sum to it.
function camtParts(details, units, symbol, decimals) {
  if (details.length < 2 || units === null) return null;
  const parts = details.map(one => {
    const amount = [...below(one, "Amt"), ...below(one, "AmtDtls/TxAmt/Amt")].find(it => it.currency === symbol);
    const size = amount ? unitsOf(collapsed(amount.written), ".", decimals(symbol)) : null;
    const isDebit = textOf(one, "CdtDbtInd") ? textOf(one, "CdtDbtInd") === "DBIT" : units < 0n;
    return size === null ? null : isDebit ? -size : size;
  });
  return parts.includes(null) || parts.reduce((sum, one) => sum + one, 0n) !== units ? null : parts;
}
// MT940: balances in :60F: and :62F:, a line in :61:, its words in :86:.
function readMt940(written, decimals) {
  const fields = [...written.replaceAll("\r", "").matchAll(/^:(\d\d[A-Z]?):([^]*?)(?=^:\d\d[A-Z]?:|^-|(?![^]))/gm)];
  const out = [];
  let now;
  const balanceOf = given => {
    const [, sign, year, month, day, symbol, number] = /^([CD])(\d\d)(\d\d)(\d\d)([A-Z]{3})([\d,]+)/.exec(given) ?? [];
    if (!number) return null;
    const units = unitsOf(number, ",", decimals(symbol));
    return { day: dayFrom(year, month, day), symbol, units: sign === "D" ? -units : units };
  };
  for (const [, tag, given] of fields) {
    if (tag === "20") out.push(now = { account: "", lines: [], unread: [], skipped: 0, opening: null, closings: [] });
    if (!now) continue;
    if (tag === "25") now.account = collapsed(given);
    const balance = /^6[02]/.test(tag) ? balanceOf(given) : null;
    if (/^60/.test(tag)) Object.assign(now, { opening: balance?.units ?? null, symbol: balance?.symbol });
    if (tag === "62F" && balance?.day && balance.units !== null) now.closings = [balance];
    if (tag === "61") {
      const line = mt940Line(given, decimals(now.symbol));
      if (line) now.lines.push({ ...line, at: now.lines.length + 1 });
      else now.unread.push({ at: now.lines.length + 1, cells: [collapsed(given)] });
    }
    if (tag === "86" && now.lines.length) Object.assign(now.lines.at(-1), mt940Words(given));
  }
  return out;
}
function mt940Line(given, decimals) {
  const form = /^(\d\d)(\d\d)(\d\d)(\d{4})?(R?[CD])[A-Z]?(\d+,\d*)[A-Z]\w{3}[^\n/]*(?:\/\/([^\n]*))?/;
  const [found, year, month, day, booked, sign, number, reference] = form.exec(given) ?? [];
  if (!found) return null;
  // The booking has no year: it is that of the value date, but around New Year the one beside it.
  const turn = booked ? Math.round((Number(month) - Number(booked.slice(0, 2))) / 12) : 0;
  const own = booked ? dayFrom(String(2000 + Number(year) + turn), booked.slice(0, 2), booked.slice(2))
    : dayFrom(year, month, day);
  const size = unitsOf(number, ",", decimals), units = size !== null && ["D", "RC"].includes(sign) ? -size : size;
  return own && units !== null
    ? { day: own, units, balance: null, payee: "", purpose: "", reference: collapsed(reference) } : null;
}
function mt940Words(given) {
  const parts = [...given.replaceAll("\n", "").matchAll(/\?(\d\d)([^?]*)/g)];
  if (!parts.length) return { purpose: sepa(collapsed(given)) };
  const of = form => collapsed(parts.filter(([, key]) => form.test(key)).map(([, , value]) => value).join(""));
  return { payee: of(/^3[23]$/), purpose: sepa(of(/^(2\d|6[0-3])$/)) || of(/^00$/) };
}
// The statements of one account in a file are one, with several closing balances.
function sameAccount(statements) {
  const found = new Map(), endOf = one => ({ day: one.closings[0]?.day ?? "" });
  for (const one of statements.toSorted((one, two) => byDay(endOf(one), endOf(two)))) {
    const had = found.get(one.account);
    if (!had) found.set(one.account, one);
    else for (const key of ["lines", "unread", "closings"]) had[key].push(...one[key]);
    if (had) had.skipped += one.skipped;
  }
  for (const { lines } of found.values()) lines.sort(byDay);
  return [...found.values()];
}
