// The picture of the day.
import { OLD, agePicture, isOld } from "./ages.js";
import { REPORTS, readLast, rowsOf } from "./desk.js";
import { bar, card, counted, drawn, el, empty, fill, flightLink, flightOrder, groupBy, grouped, isLate, legend,
  pieces, sum, today, tonnes, warning, waybillLink } from "./parts.js";
import { isLater, readNotices, untold } from "./notices.js";
import { LOW, holdingRow, holdings } from "./stock.js";
import { plainTable } from "./table.js";
import { moveText } from "./waybill.js";

const A_LIST = 8; // rows of a list of the day; the views have them all
const THE_LAST = 12; // movements

const isArrival = ({ from, flight }) => flight && (from === "HAND" || from === "SURPLUS");
export const NONE_EXPECTED = "Nothing is expected. An FFM, pasted under Telegram, says what its flight brings.";

export function make() {
  const figures = el("ul", { class: "figures" });
  const first = card("A new desk: what to do first", { id: "first" });
  const load = card("Flights that load", { id: "loading", wide: true, link: ["#/flights", "All flights"] });
  const come = card("Expected, and what has come", { id: "coming", link: ["#/announced", "Announced"] });
  const hours = card("Pieces by the hour", { id: "hours", wide: true });
  const waiting = card("Not notified", { id: "unnotified", link: ["#/shed?show=unnotified", "In the shed"] });
  const wrong = card("Irregular", { id: "irregular", link: ["#/irregularities", "All"] });
  const lain = card("How long the shed has lain", { id: "ages", link: ["#/shed?show=old", `${OLD} days or more`] });
  const agents = card("Agents' numbers", { id: "agents", link: ["#/stock", "Stock"] });
  const moves = card("Last movements", { id: "movements", wide: true, link: ["#/movements", "All movements"] });
  const cards = [load, come, waiting, wrong, agents, hours, lain, moves].map(({ node }) => node);
  return {
    title: "Today",
    node: el("div", { class: "view today" }, first.node, figures, el("div", { class: "grid" }, ...cards)),
    also: readNotices,
    needs:
      () => ["shed", "flights", "expected", "uneven", "outbox", "stock", "moves"].map((name) => REPORTS[name]),
    show() {
      const day = dayNow();
      const items = figuresOf(day);
      first.node.hidden = !day.isNew;
      fill(first.body, "", firstSteps);
      fill(figures, items, () => items.map(figure));
      fill(load.body, [day.flights, day.shed], () => loadRows(day));
      fill(come.body, day.coming, () => comingBars(day.coming, NONE_EXPECTED));
      fill(hours.body, day.hours, () => hourChart(day));
      hours.note.textContent = day.since;
      fill(waiting.body, [day.unnotified, day.unnotified.map(untold)], () => unnotifiedRows(day));
      fill(wrong.body, day.irregular, () => irregularRows(day));
      fill(lain.body, [day.shed, today()],
        () => (day.shed.length ? agePicture(day.shed) : empty("Nothing is in store.")));
      fill(agents.body, day.stock, () => agentRows(day));
      fill(moves.body, day.moves.slice(-THE_LAST), () => moveTable(day.moves.slice(-THE_LAST)));
    },
  };
}

function dayNow() {
  const [shed, flights, expected, irregular, outbox, stock, moves] =
    ["shed", "flights", "expected", "uneven", "outbox", "stock", "moves"].map((name) => rowsOf(REPORTS[name]));
  const now = moves.filter(({ date }) => date === today());
  return {
    shed, flights, expected, irregular, outbox, stock, moves,
    coming: comingFlights(expected, arrivals(moves, expected)),
    since: now.length && now[0] === moves[0] && now[0].number > 1 ? `since ${now[0].time}` : "",
    hours: hoursOf(now), unnotified: shed.filter(untold), old: shed.filter(isOld),
    late: lateFlights(flights, expected),
    isNew: [shed, flights, expected, stock, moves].every(({ length }) => length === 0)
      && readLast(REPORTS.moves).rows !== null,
  };
}

// Where an empty station begins.
const FIRST = [["#/stock", "Stock", "take in the waybill numbers that the airlines gave you, and issue them to agents"],
  ["#/commands/book", "book", "declare a shipment, or paste its FWB under Telegram; then receive its pieces"],
  ["#/telegram", "Telegram", "paste an FFM: what its flight brings is expected, and can be checked in"],
  ["#/flights", "Flights", "name a flight, build pieces on it, and let it leave"]];

const firstSteps = () => el("ol", { class: "steps" },
  ...FIRST.map(([href, name, text]) => el("li", {}, el("a", { href }, name), `: ${text}.`)));

// Flights of an earlier day that haven't departed, or of which something isn't checked in.
const lateFlights = (flights, expected) =>
  [...new Set([...flights, ...expected].map(({ flight }) => flight).filter(isLate))];

// The figures at the head of the day: a title, a number, words, where it leads, and whether it calls for somebody.
function figuresOf({ shed, flights, expected, unnotified, irregular, outbox, old, late }) {
  const [free, built] = ["free", "built"].map((place) => ({
    pieces: sum(shed, (row) => row[place].pieces), tenths: sum(shed, (row) => row[place].tenths),
  }));
  const oldWeight = sum(old, (row) => row.free.tenths + row.built.tenths);
  const open = flights.length + groupBy(expected, ({ flight }) => flight).size;
  const missing = sum(irregular, (row) => row.missing.pieces);
  return [
    ["In the shed", free.pieces + built.pieces,
      `pieces of ${counted(shed.length, "waybill")}, ${tonnes(free.tenths + built.tenths)}`, "#/shed"],
    ["Free", free.pieces, `pieces, ${tonnes(free.tenths)}`, "#/shed?show=free"],
    ["Lain long", old.length, `${OLD} days or more, ${tonnes(oldWeight)}`, "#/shed?show=old", old.length > 0],
    ["Late", late.length, `of ${counted(open, "open flight")}`, "#/flights", late.length > 0],
    ["Expected", sum(expected, (row) => row.pieces), `pieces of ${counted(expected.length, "waybill")}`, "#/flights"],
    ["Not notified", unnotified.length, `${pieces(sum(unnotified, untold))} lie here`,
      "#/shed?show=unnotified", unnotified.length > 0],
    ["Irregular", irregular.length, `${pieces(missing)} missing`, "#/irregularities?show=open", irregular.length > 0],
    ["Outbox", outbox.length, outbox.length ? "messages to send" : "all is confirmed", "#/messages"],
  ];
}

const figure = ([title, number, text, href, calls = false]) => el("li", {},
  el("a", { href, class: calls ? "figure calls" : "figure" }, el("span", { class: "head" }, title),
    el("b", {}, grouped(number)), el("span", { class: "quiet" }, text)));

// What lies free for each destination, in tenths.
export const freeByPlace = (shed) => new Map(
  Array.from(groupBy(shed, (row) => row.destination), ([to, rows]) => [to, sum(rows, (row) => row.free.tenths)]));

const byFlight = (one, other) => flightOrder(one.flight).localeCompare(flightOrder(other.flight));

// Flights: what is built on each, and what still lies free for where it unloads. The oldest come first.
const SOME = 14;

function loadRows({ flights, shed }) {
  if (!flights.length) return empty("No flight is open.");
  const free = freeByPlace(shed);
  const rows = [...flights].sort(byFlight).slice(0, SOME);
  const most = Math.max(...rows.map((row) => row.tenths + (free.get(row.unload) ?? 0)));
  return [legend(["built", "built"], ["free", "free in the shed for there"]),
    el("ul", { class: "bars" }, ...rows.map((row) => loadRow(row, free.get(row.unload) ?? 0, most))),
    ...others(flights.length - rows.length, "flight", "#/flights")];
}

const others = (count, noun, href) =>
  (count > 0 ? [el("p", { class: "empty quiet" }, el("a", { href }, `and ${counted(count, `other ${noun}`)}`))] : []);

function loadRow(row, free, most) {
  return el("li", {}, el("span", { class: "who" }, flightLink(row.flight), " ", el("b", {}, row.unload),
    ...warning(isLate(row.flight), "not departed")),
  bar([["built", row.tenths], ["free", free]], most),
  el("span", { class: "what" }, `${counted(row.waybills, "waybill")}, ${pieces(row.pieces)}, ${tonnes(row.tenths)}`,
    el("span", { class: "quiet" }, free ? ` and ${tonnes(free)} free` : " and nothing free")));
}

// The arrivals of today, and those of flights of which something isn't checked in; or those of one flight. What is
// found of a flight that only loads here, such as a piece that was left behind, isn't an arrival.
export function arrivals(moves, expected, only) {
  const open = new Set(expected.map(({ flight }) => flight));
  const brings = new Set([...open, ...moves.filter(({ from }) => from === "HAND").map(({ flight }) => flight)]);
  const loads = new Set(moves.filter(({ from, to }) => [from, to].includes("BUILT")).map(({ flight }) => flight));
  return moves.filter((move) => isArrival(move) && (brings.has(move.flight) || !loads.has(move.flight))
    && (only ? move.flight === only : move.date === today() || open.has(move.flight)));
}

// What flights bring: what came by the movement book, and what isn't checked in.
export function comingFlights(expected, arrived) {
  const flights = new Map();
  const of = (flight) =>
    flights.get(flight) ?? flights.set(flight, { flight, open: 0, came: 0, missing: 0, waybills: 0 }).get(flight);
  for (const row of expected) {
    of(row.flight).open += row.pieces;
    of(row.flight).waybills += 1;
  }
  for (const { flight, to, pieces: many } of arrived) of(flight)[to === "MISSING" ? "missing" : "came"] += many;
  return [...flights.values()].sort(byFlight);
}

export function comingBars(flights, none) {
  if (!flights.length) return empty(none);
  const most = Math.max(...flights.map(({ open, came, missing }) => open + came + missing));
  return [legend(["came", "came"], ["missing", "didn't come"], ["open", "not checked in"]),
    el("ul", { class: "bars" }, ...flights.map((row) => comeRow(row, most)))];
}

function comeRow({ flight, open, came, missing }, most) {
  const parts =
    [came && `${grouped(came)} came`, missing && `${grouped(missing)} missing`, open && `${grouped(open)} open`];
  return el("li", {},
    el("span", { class: "who" }, flightLink(flight), ...warning(open > 0 && isLate(flight), "overdue")),
    bar([["came", came], ["missing", missing], ["open", open]], most),
    el("span", { class: "what" }, parts.filter(Boolean).join(", ")));
}

// The hours of the day: pieces that came in above the line, pieces that left below it.
function hoursOf(moves) {
  const hours = Array.from({ length: 24 }, () => ({ came: 0, left: 0 }));
  for (const { from, to, time, pieces: many } of moves) {
    const hour = hours[Number(time.slice(0, 2))];
    if (to === "FREE" && (from === "HAND" || from === "SURPLUS")) hour.came += many;
    if (["DEPARTED", "DELIVERED", "TRANSFER"].includes(to)) hour.left += many;
  }
  return hours;
}

function hourChart({ hours }) {
  const most = Math.max(1, ...hours.flatMap(({ came, left }) => [came, left]));
  const high = (amount) => (72 * amount) / most;
  const column = (kind, hour, y, amount) => drawn("rect",
    { class: kind, x: 4 + hour * 34, y, width: 26, height: high(amount), rx: 1 },
    drawn("title", {}, `${hour}:00: ${amount} ${kind}`));
  const bars = hours.flatMap(({ came, left }, hour) => [
    column("came", hour, 76 - high(came), came), column("left", hour, 95, left),
  ]);
  const marks = [0, 3, 6, 9, 12, 15, 18, 21].map(
    (hour) => drawn("text", { x: 4 + hour * 34, y: 90 }, `${String(hour).padStart(2, "0")}:00`));
  const all = { came: sum(hours, ({ came }) => came), left: sum(hours, ({ left }) => left) };
  const deep = Math.ceil(95 + high(Math.max(...hours.map(({ left }) => left)))) + 6;
  const text = `Today ${pieces(all.came)} came in and ${all.left} left.`;
  return [legend(["came", `came in: ${grouped(all.came)}`], ["left", `left: ${grouped(all.left)}`]),
    drawn("svg", { class: "hours", viewBox: `0 0 820 ${deep}`, role: "img", "aria-label": text }, ...bars, ...marks)];
}

const byPieces = (one, other) => untold(other) - untold(one);

function unnotifiedRows({ unnotified, shed }) {
  if (!unnotified.length) return empty(shed.length ? "Every consignee is notified." : "Nothing is in store.");
  const columns = [
    { head: "Waybill", cell: (row) => waybillLink(row.awb) }, { head: "From", cell: (row) => row.origin },
    { head: "Pieces", amount: true, cell: untold },
    { head: "", kind: "words", cell: (row) => (isLater(row) ? "came after the notification" : "") },
  ];
  return [plainTable("Not notified", columns, [...unnotified].sort(byPieces).slice(0, A_LIST)),
    ...others(unnotified.length - A_LIST, "waybill", "#/shed?show=unnotified")];
}

// Waybills of which the pieces in store and those that left aren't as many as are declared.
function irregularRows({ irregular }) {
  const rows = [...irregular].reverse();
  if (!rows.length) return empty("All pieces are where they are to be.");
  const columns = [
    { head: "Waybill", cell: (row) => waybillLink(row.awb) }, { head: "Route", cell: (row) => row.route },
    { head: "Missing", amount: true, cell: (row) => row.missing.pieces },
    { head: "Found", amount: true, cell: (row) => row.found.pieces },
  ];
  return [plainTable("Irregular", columns, rows.slice(0, A_LIST)),
    ...others(rows.length - A_LIST, "waybill", "#/irregularities?show=open")];
}

function agentRows({ stock }) {
  const agents = holdings(stock).sort((one, other) => one.count - other.count);
  const all = agents.slice(0, A_LIST);
  if (!all.length) return empty("No agent has numbers.");
  const most = Math.max(LOW, ...all.map(({ count }) => count));
  return [el("ul", { class: "bars short" }, ...all.map((each) => holdingRow(each, most, grouped(each.count)))),
    ...others(agents.length - all.length, "agent", "#/stock")];
}

// Movements, the newest first.
const MOVE_COLUMNS = [
  { head: "No.", amount: true, kind: "wideonly", cell: (row) => row.number },
  { head: "Day", kind: "wideonly", cell: (row) => row.date },
  { head: "Time", cell: (row) => row.time },
  { head: "Waybill", cell: (row) => waybillLink(row.awb) },
  { head: "From", kind: "wideonly", cell: (row) => row.from },
  { head: "To", kind: "wideonly", cell: (row) => row.to },
  { head: "Pieces", amount: true, kind: "wideonly", cell: (row) => row.pieces },
  { head: "kg", amount: true, cell: (row) => (row.tenths / 10).toFixed(1) },
  { head: "What happened", kind: "words", cell: (row) => moveText(row) },
];

const moveTable = (moves) => (moves.length
  ? el("div", { class: "scroll" }, plainTable("Last movements", MOVE_COLUMNS, [...moves].reverse()))
  : empty("Nothing has moved."));
