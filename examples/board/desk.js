// Asking the desk: its answers, its reports, and what was read of them last.
import { today } from "./parts.js";
import { AGAIN, EARLIER, FAULTS, REFUSALS } from "./words.js";

const PATIENCE = 40000; // milliseconds until an answer counts as lost

// One request at a time, since the desk answers one request after another.
let turn = Promise.resolve();

export function ask(path, options = {}) {
  const answer = turn.then(() => askNow(path, options));
  turn = answer;
  return answer;
}

async function askNow(path, options) {
  try {
    const response = await fetch(path, { cache: "no-store", signal: AbortSignal.timeout(PATIENCE), ...options });
    return { status: response.status, text: await response.text() };
  } catch {
    return { status: 0, text: "" };
  }
}

export function objectOf(text) {
  try {
    return Object(JSON.parse(text));
  } catch {
    return {};
  }
}

// The desk knows nothing of that name. A server between may answer 404 too, and then it isn't the desk's.
const isUnknown = ({ status, text }) => status === 404 && objectOf(text).refused === 404;

// What an answer says: how it is marked, its lines, and whether it settles the command, so that the key is done with.
export function meaning(answer) {
  const { reply, count, refused, detail } = objectOf(answer.text);
  if (answer.status === 200 && reply === "ok") return { mark: "good", lines: [`Accepted: ok ${count}`], settled: true };
  if (answer.status === 409 && refused) return { mark: "warn", lines: refusal(refused, detail), settled: true };
  if (answer.status === 400 && REFUSALS[refused]) return { mark: "warn", lines: refusal(refused, detail) };
  if (refused === 503 || refused !== answer.status) {
    return { mark: "bad", lines: [unsettledBy(answer.status, refused), AGAIN] };
  }
  const todo = FAULTS[detail] ?? FAULTS[refused] ?? "The desk and this page are of other versions.";
  return { mark: "warn", lines: [`Not taken: ${refused} ${detail}`.trim(), todo] };
}

function unsettledBy(status, refused) {
  if (refused === 503) return "Memory or the store of the desk failed.";
  return status ? `No answer from the desk (${status}).` : "No answer.";
}

function refusal(number, detail) {
  const [means, names, todo] = REFUSALS[number] ?? ["this page doesn't know it", "the detail", "look it up"];
  const lines = [`Refused ${number}: ${means}`, `What to do: ${todo}`];
  if (detail) lines.splice(1, 0, `${names[0].toUpperCase()}${names.slice(1)}: ${detail}`);
  if (number === 501) lines.push(EARLIER);
  return lines;
}

// Reports: the rows of a JSON answer, whose members the views call by their names. One that is cut off doesn't parse.
const rowsBy = (rowOf = (row) => row) => (text) => {
  const { rows, count } = objectOf(text);
  return Array.isArray(rows) && rows.length === count ? rows.map(rowOf) : null;
};

const routed = (row) => ({ ...row, route: row.origin + row.destination });
const flown = (row) => ({ ...row, flight: `${row.flight}/${row.date}` });

const objectRow = (text) => {
  const known = objectOf(text);
  return known.awb ? known : null;
};

// A report: its title, its path, and what makes rows of its text. Of one with `after` the last rows are read first, and
// then only the rows after those that were seen: rows begin with their number, from 1, and never change. At most `kept`
// rows stay, or as many as `readOlder` has read. If the last rows of one with `deep` don't reach back to yesterday, so
// many are read instead.
export const REPORTS = {
  station: { title: "Station", path: "/v1/station.json", rowsOf: rowsBy() },
  shed: { title: "Shed", path: "/v1/reports/shed-days.json", rowsOf: rowsBy(routed) },
  announced: { title: "Announced", path: "/v1/reports/announced.json", rowsOf: rowsBy(routed) },
  flights: { title: "Open flights", path: "/v1/reports/open-flights.json", rowsOf: rowsBy(flown) },
  expected: {
    title: "Expected", path: "/v1/reports/open-expected.json", rowsOf: rowsBy((row) => routed(flown(row))),
  },
  irregularities: {
    title: "Irregularities", path: "/v1/reports/irregularities.json", rowsOf: rowsBy(routed),
  },
  uneven: {
    title: "Open irregularities", path: "/v1/reports/open-irregularities.json", rowsOf: rowsBy(routed),
  },
  stock: { title: "Stock", path: "/v1/reports/stock.json", rowsOf: rowsBy() },
  outbox: { title: "Outbox", path: "/v1/outbox.json", rowsOf: rowsBy() },
  moves: {
    title: "Last movements", path: "/v1/movements/last/400.json",
    after: (number) => `/v1/movements/after/${number}.json`, last: (count) => `/v1/movements/last/${count}.json`,
    rowsOf: rowsBy(), kept: 5000, deep: 5000,
  },
  trail: {
    title: "Last status messages", path: "/v1/trail/last/20.json", after: (number) => `/v1/trail/after/${number}.json`,
    last: (count) => `/v1/trail/last/${count}.json`, rowsOf: rowsBy(), kept: 1000,
  },
};

const word = encodeURIComponent;
export const agentReport = (agent) => ({
  title: `Numbers of ${agent}`, path: `/v1/agents/${word(agent)}/stock.json`, rowsOf: rowsBy(),
});
const flightRows = (flight) => `/v1/flights/${flight.split("/").map(word).join("/")}`;
export const manifestReport = (flight) => ({
  title: `Manifest of ${flight}`, path: `${flightRows(flight)}.json`, rowsOf: rowsBy(),
});
export const arrivalReport = (flight) => ({
  title: `Arrivals of ${flight}`, path: `${flightRows(flight)}/arrivals.json`, rowsOf: rowsBy(routed), isDear: true,
});
export const waybillReports = (awb) => ({
  waybill: { title: awb, path: `/v1/waybills/${word(awb)}`, rowsOf: objectRow },
  holder: { title: `Holder of ${awb}`, path: `/v1/stock/${word(awb)}`, rowsOf: objectRow },
  moves: { title: `Movements of ${awb}`, path: `/v1/waybills/${word(awb)}/movements.json`, rowsOf: rowsBy() },
  trail: { title: `Status messages of ${awb}`, path: `/v1/waybills/${word(awb)}/trail.json`, rowsOf: rowsBy() },
  sent: { title: `Our messages of ${awb}`, path: `/v1/waybills/${word(awb)}/sent.json`, rowsOf: rowsBy() },
});

// What was read last of each path: its rows, whether they came whole this time, and in which reading that was.
const MOST_KEPT = 400;
const kept = new Map();
const nothing = { rows: null, whole: true, unknown: false, text: "", seen: 0, reading: -Infinity };

export const readLast = ({ path }) => kept.get(path) ?? nothing;
export const rowsOf = (report) => readLast(report).rows ?? [];

// Reads a report. A report that isn't whole leaves the rows that were there.
export async function read(report, reading) {
  const last = readLast(report);
  const first = report.after && last.seen ? report.after(last.seen) : report.path;
  const answer = await askDeeper(report, first, await ask(first));
  const rows = answer.status === 200 ? report.rowsOf(answer.text) : null;
  const unknown = isUnknown(answer);
  const now = { ...last, reading, unknown, whole: rows !== null || unknown };
  if (unknown && !report.after) Object.assign(now, { rows: null, text: "" });
  if (rows)
    Object.assign(
      now, { size: answer.text.length }, report.after ? joined(report, last, rows) : { rows, text: answer.text });
  kept.delete(report.path);
  kept.set(report.path, now);
  if (kept.size > MOST_KEPT) kept.delete(kept.keys().next().value);
  return { whole: now.whole, isNew: rows !== null && rows.length > 0 && now.seen !== last.seen };
}

// The rows of a report as they are now, which nobody keeps; null if they don't come whole.
export async function rowsNow({ path, rowsOf: made }) {
  const { status, text } = await ask(path);
  return status === 200 ? made(text) : null;
}

async function askDeeper(report, first, answer) {
  if (!report.deep || first !== report.path || answer.status !== 200) return answer;
  const [oldest] = report.rowsOf(answer.text) ?? [];
  return oldest?.date === today() && oldest.number > 1 ? ask(report.last(report.deep)) : answer;
}

function joined({ kept: most }, last, rows) {
  const all = [...(last.rows ?? []), ...rows].slice(-Math.max(most, last.rows?.length ?? 0));
  const seen = all.at(-1)?.number ?? 0;
  return { rows: all, seen, text: String(seen) };
}

// Reads twice as many of a report's last rows as there are.
export async function readOlder(report) {
  const last = readLast(report);
  const answer = await ask(report.last(2 * Math.max(200, last.rows?.length ?? 0)));
  const rows = answer.status === 200 ? report.rowsOf(answer.text) : null;
  if (rows) kept.set(report.path, { ...last, ...joined({ kept: rows.length }, { rows: [] }, rows) });
}

// Small reports are read each time, large ones less often: a reading takes about so many bytes of each. Dear ones, for
// which the desk reads much and answers little, are read as seldom as the largest.
const A_READING = 24000;
const SELDOM = 15;

export function isDue(report, reading) {
  const { size = 0, whole, reading: last } = readLast(report);
  const wait = report.isDear ? SELDOM : Math.min(SELDOM, Math.max(1, size / A_READING));
  return !whole || report.after !== undefined || reading - last >= wait;
}
