// ---------- Asking the treasury ----------

const WAIT = 130000;
const DENIED = { 401: "no-login", 403: "no-right", 404: "no-route", 413: "too-long", 429: "too-many" };
const REFUSED_BY = [400, 409, 422, 500, 503];
const COLUMNS = { branches: 3, commodities: 1, accounts: 1, balance: 2, register: 6, transit: 3, transfers: 6,
  journal: 1 };
const areTexts = list => Array.isArray(list) && list.every(one => typeof one === "string");
// A request to which the server says that there are too many comes to nothing, and is sent again after a while.
const TRIES = 10;
async function ask(path, request) {
  for (let tries = 1; ; tries++) {
    const reply = await askOnce(path, request);
    if (reply.status !== 429 || tries === TRIES) return reply;
    await new Promise(go => setTimeout(go, 1000));
  }
}
// One request and one reply. What is not understood as a whole counts as no reply.
async function askOnce(path, request) {
  const stop = new AbortController(), clock = setTimeout(() => stop.abort(), WAIT);
  try {
    const reply = await fetch(location.origin + path, {
      method: request ? "POST" : "GET", body: request && JSON.stringify(request),
      headers: { Accept: "application/json", ...(request && { "Content-Type": "application/json" }) },
      cache: "no-store", credentials: "same-origin", redirect: "error", referrerPolicy: "no-referrer",
      signal: stop.signal,
    });
    const { status } = reply;
    if (DENIED[status]) return { kind: "denied", status, why: text(DENIED[status]) };
    const strange = { kind: "unknown", status, why: text("strange", { status }) };
    const body = new TextDecoder("utf-8", { fatal: true, ignoreBOM: true }).decode(await reply.arrayBuffer());
    await rest();
    const found = objectOf(body);
    await rest();
    const read = understood(status, found, path.split(/[/?]/)[1], Boolean(request)) ?? strange;
    await rest();
    return read;
  } catch {
    return { kind: "unknown", why: text(stop.signal.aborted ? "no-reply" : "no-connection") };
  } finally {
    clearTimeout(clock);
  }
}
// The object that a body is as a whole; one without keys for any other text.
function objectOf(body) {
  try { return body.endsWith("}\n") ? JSON.parse(body) : {}; } catch { return {}; }
}
function understood(status, found, route, isCommand) {
  const { answer, number, name, sentence, told, notes, lines } = found;
  // (how many entries the branch has, which a dry run is told)
  const count = /^[0-9]{1,5}$/.test(found.entries) ? { entries: found.entries } : {};
  if (status === 200 && !isCommand) {
    const isReport = Array.isArray(lines) && lines.every(line => areTexts(line) && line.length === COLUMNS[route]);
    return isReport ? { kind: "report", lines } : null;
  }
  if (!areTexts(told) || !areTexts(notes) || typeof answer !== "string") return null;
  if (REFUSED_BY.includes(status)) {
    if (!answer.startsWith(`refused ${number} ${name}`) || typeof sentence !== "string") return null;
    const line = / line ([0-9]+)$/.exec(answer) ?? /^treasury: journal:([0-9]+): /.exec(told[0]);
    return { kind: "refused", number: Number(number), name, sentence, told, line: line && Number(line[1]) };
  }
  if (status !== 200) return null;
  if (answer === "ok") return { kind: "done", notes, ...count };
  if (answer === "repeated") return { kind: "repeated", notes, ...count };
  const counts = /^ok ([0-9]+) new, ([0-9]+) repeated$/.exec(answer);
  return counts && { kind: "imported", added: Number(counts[1]), old: Number(counts[2]), notes, ...count };
}
// Who asks, and in which role, where the server tells it.
async function askMe() {
  try {
    const reply = await fetch(location.origin + "/me", { cache: "no-store", credentials: "same-origin",
      redirect: "error", referrerPolicy: "no-referrer" });
    const { name, role } = reply.ok ? await reply.json() : {};
    return areTexts([name, role]) ? { name, role } : { name: "", role: "" };
  } catch { return { name: "", role: "" }; }
}
// The lines of a report; what is none is thrown.
async function report(path) {
  const reply = await ask(path);
  if (reply.kind !== "report") throw new Trouble(reply);
  return reply.lines;
}
class Trouble extends Error {
  constructor(reply) {
    super(reply.why ?? reply.sentence);
    this.reply = reply;
  }
}
// For a report that one may not have.
const orDenied = otherwise => trouble => {
  if (trouble.reply?.kind === "denied") return otherwise;
  throw trouble;
};
const encoded = encodeURIComponent;
const registerPath = (branch, account, tag) =>
  `/register/${encoded(branch)}?account=${encoded(account)}${tag ? "&tag=" + encoded(tag) : ""}`;
