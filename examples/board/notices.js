// Which pieces the consignee was told of: those of the last NFD, less what was delivered since.
import { REPORTS, rowsNow, rowsOf, waybillReports } from "./desk.js";
import { groupBy, sum } from "./parts.js";
import { here } from "./station.js";

const countOf = (text, code) => Number(new RegExp(`^${code}/\\w+/[A-Z]{3}/[A-Z](\\d+)`, "m").exec(text)?.[1] ?? 0);

// How many of the free pieces came after the last notification.
export function laterOf(free, sent) {
  const last = sent.findLastIndex(({ text }) => countOf(text, "NFD"));
  const told = last < 0 ? 0 : countOf(sent[last].text, "NFD");
  const delivered = sum(sent.slice(last + 1), ({ text }) => countOf(text, "DLV"));
  return Math.max(0, free - Math.max(0, told - delivered));
}

// The shed says only that the consignee was notified, so more is asked for of such rows: first the moves, and where
// pieces came more than once the messages, since looking for those takes the desk a while. It is asked again when the
// waybill moved or had a message, and of what came later each minute, as somebody else may have notified.
const asked = new Map();
const AT_ONCE = 40;
const A_MINUTE = 60000;

const isWaiting = (row) => row.notified && row.free.pieces > 0 && row.destination === here();

// The pieces of a row of the shed that nobody was told of, as far as it is known.
export function untold(row) {
  if (row.destination !== here()) return 0;
  return row.notified ? Math.min(row.free.pieces, asked.get(row.awb)?.later ?? 0) : row.free.pieces;
}
export const isLater = (row) => row.notified && untold(row) > 0;

export async function readNotices() {
  const last = new Map([
    ...rowsOf(REPORTS.moves).map(({ awb, number }) => [awb, `m${number}`]),
    ...rowsOf(REPORTS.outbox).map(({ text, number }) => [/^\d{3}-\d{8}/m.exec(text)?.[0], number]),
  ]);
  const keyOf = ({ awb, free }) => `${free.pieces} ${last.get(awb)}`;
  const isKnown = ({ key, later, at } = {}, row) => key === keyOf(row) && !(later && Date.now() - at > A_MINUTE);
  const rows = rowsOf(REPORTS.shed).filter((row) => isWaiting(row) && !isKnown(asked.get(row.awb), row));
  for (const row of rows.slice(0, AT_ONCE)) {
    const later = await askLater(row);
    if (later !== null) asked.set(row.awb, { key: keyOf(row), later, at: Date.now() });
  }
  if (rows.length) document.dispatchEvent(new Event("board-show"));
}

async function askLater({ awb, free }) {
  const { moves, sent } = waybillReports(awb);
  const cameOf = (rows) => rows.filter(({ from, to }) => to === "FREE" && from !== "BUILT");
  const came = await rowsNow(moves);
  if (!came) return null;
  if (groupBy(cameOf(came), ({ date, time, flight }) => `${date} ${time} ${flight}`).size < 2) return 0;
  const messages = await rowsNow(sent);
  return messages && laterOf(free.pieces, messages);
}
