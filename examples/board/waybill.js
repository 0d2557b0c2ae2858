// One waybill: where its pieces are, what happened to it, what is declared, and the commands that can apply now.
import { ageText, stayOf } from "./ages.js";
import { REPORTS, readLast, rowsOf, waybillReports } from "./desk.js";
import { makeForm, specOf } from "./forms.js";
import { paperHead } from "./list.js";
import { laterOf } from "./notices.js";
import { card, dayText, drawn, el, empty, fill, flightLink, groupBy, kilograms, pieces, today, warning,
  waybillPath } from "./parts.js";
import { here, isHere } from "./station.js";
import { plainTable } from "./table.js";
import { messageWords, statusOf } from "./messages.js";
import { AMEND, MOVES, PLACES, STATUSES, STRIKE, checkDigit, isNumber } from "./words.js";

// What a move did, in words.
export function moveText({ from, to, pieces: many, flight }) {
  const [alone, onFlight] = MOVES[`${from} ${to}`] ?? [`{} ${from} to ${to}`, `{} ${from} to ${to},`];
  const text = (flight ? onFlight : alone).replace("{}", pieces(many));
  return el("span", {}, text, ...(flight ? [" ", flightLink(flight)] : []));
}

export function make({ rest }) {
  const [awb] = rest;
  const reports = waybillReports(awb);
  const head = el("header", { class: "subject" });
  const where = card("Where its pieces are", { id: "where", wide: true });
  const facts = card("Declaration", { id: "found" });
  const history = card("History", { id: "history" });
  const trail = card("Status messages from elsewhere", { id: "trail" });
  const own = card("Our messages", { id: "own" });
  const acts = card("What can be done now", { id: "commands" });
  const state = { awb, reports };
  const forms = waybillForms(state);
  acts.body.append(...forms.map(([form]) => form.node));
  acts.body.append(el("p", { class: "empty quiet" }, "Others are among ",
    el("a", { href: `#/commands?awb=${awb}` }, "all commands"), "."));
  return {
    title: awb,
    tab: [`…${awb.slice(-5)}`, waybillPath(awb), awb],
    node: el("div", { class: "view with-side waybill" }, head,
      el("div", { class: "main grid" }, where.node, history.node, facts.node, trail.node, own.node),
      el("aside", {}, acts.node)),
    needs: () => [...Object.values(reports), REPORTS.expected, REPORTS.flights, REPORTS.outbox, REPORTS.moves],
    show() {
      const now = waybillNow(state);
      state.now = now;
      fill(head, [now.read, now.known, now.holder, now.since, now.later, now.places.FREE, here()],
        () => headOf(awb, now));
      fill(where.body, [now.read, now.known, now.places, now.flows],
        () => (now.known ? [placesPicture(now), ...builtWords(now)] : empty(unknownText(awb, now))));
      fill(facts.body, [now.known, now.holder], () => factList(awb, now));
      fill(history.body, [now.read, now.moves.length, now.known?.since], () => timeline(now));
      trail.node.hidden = now.trail.length === 0;
      fill(trail.body, now.trail, () => el("ol", { class: "timeline" }, ...now.trail.map(trailItem)));
      own.node.hidden = now.own.length === 0;
      fill(own.body, [now.own, now.own.filter(({ number }) => now.waiting.has(number)).length],
        () => el("ol", { class: "timeline" }, ...now.own.map((message) => ownItem(message, now.waiting))));
      for (const [form, applies] of forms) form.refresh(Boolean(applies(now)));
      acts.node.classList.toggle("asking", !now.read);
    },
  };
}

function waybillNow({ awb, reports }) {
  const moves = rowsOf(reports.moves);
  const places = Object.fromEntries(Object.keys(PLACES).map((place) => [place, { pieces: 0, tenths: 0 }]));
  const flows = {};
  const built = {};
  for (const { from, to, flight, pieces: many, tenths } of moves) {
    for (const [place, sign] of [[from, -1], [to, 1]]) {
      places[place].pieces += sign * many;
      places[place].tenths += sign * tenths;
      if (place === "BUILT") built[flight] = (built[flight] ?? 0) + sign * many;
    }
    flows[`${from} ${to}`] = (flows[`${from} ${to}`] ?? 0) + many;
  }
  const known = readLast(reports.waybill).rows;
  const free = known && isHere(known.destination) ? places.FREE.pieces : 0;
  const sent = readLast(reports.sent).rows;
  return {
    known,
    later: !known?.notified ? free : sent ? laterOf(free, sent) : 0,
    read: readLast(reports.waybill).reading > 0,
    holder: readLast(reports.holder).rows,
    moves,
    places,
    flows,
    since: stayOf(moves),
    built: Object.entries(built).filter(([, many]) => many > 0),
    trail: rowsOf(reports.trail),
    due: rowsOf(REPORTS.expected).filter((row) => row.awb === awb),
    own: sent ?? [],
    waiting: new Set(rowsOf(REPORTS.outbox).map(({ number }) => number)),
  };
}

const holderText = (holder) => (holder ? [holder.holder, holder.name].join(" ").trim() : "not in stock");

function unknownText(awb, { holder, read }) {
  if (!read) return "Asking the desk.";
  if (!/^\d{3}-\d{8}$/.test(awb)) return "A waybill number has three digits, a hyphen and eight digits.";
  if (!isNumber(awb)) return `The check digit is wrong: of this serial it is ${checkDigit(awb)}.`;
  return holder?.holder === "desk"
    ? "It isn't declared here. Its number is with the desk: issue it to an agent before it is booked."
    : "It isn't declared here: book it, or take its FWB or FFM.";
}

function headOf(awb, { known, read, since, later, places }) {
  if (!known) return [el("h1", {}, awb), el("span", { class: "tag" }, read ? "not declared here" : "asking")];
  const way = here() === known.destination ? "import" : here() === known.origin ? "export" : here() ? "transit" : "";
  return [
    el("p", { class: "onpaper papertitle" }, paperHead(awb)),
    el("h1", {}, awb, " ", el("span", { class: "quiet" }, `${known.origin} to ${known.destination}`)),
    ...(way ? [el("span", { class: "tag" }, way)] : []),
    ...(known.notified ? [el("span", { class: "tag good" }, "notified")] : []),
    ...warning(known.notified && later, `${pieces(later)} came after the notification`),
    ...(since ? [el("span", { class: "tag" }, "here since ", ageText(since))] : []),
    ...(known.missing[0] ? [el("span", { class: "tag bad" }, `${pieces(known.missing[0])} missing`)] : []),
    ...(known.delivered[0] || (known.notified && places.FREE.pieces)
      ? [el("a", { href: `#/receipt/${awb}`, class: "noprint" }, "Delivery receipt")] : []),
    el("p", { class: "big" }, el("b", {}, String(known.pieces)), " pieces ", el("b", {}, kilograms(known.tenths)),
      " kg ", known.goods)
  ];
}

// The flights on which pieces are built now.
const builtWords = ({ built }) => (built.length ? [el("p", { class: "empty" }, "Built: ",
  ...built.flatMap(([flight, many], place) => [place ? ", " : "", `${pieces(many)} on `, flightLink(flight)]))] : []);

// The picture of the eight places. Each flow that took place has the number of its pieces.
const BOX = { width: 132, height: 58 };
const SPOTS = {
  SURPLUS: [4, 4], HAND: [4, 102], FREE: [226, 102], BUILT: [448, 4], DEPARTED: [670, 4], DELIVERED: [670, 102],
  TRANSFER: [670, 200], MISSING: [226, 200],
};
const FLOWS = {
  "HAND FREE": "M136 124 H222",
  "FREE HAND": "M226 142 H140",
  "SURPLUS FREE": "M136 33 L228 99",
  "HAND MISSING": "M100 160 L222 222",
  "FREE MISSING": "M276 160 V196",
  "MISSING FREE": "M308 200 V164",
  "FREE BUILT": "M330 102 L444 30",
  "BUILT FREE": "M462 62 L362 122",
  "BUILT DEPARTED": "M580 33 H666",
  "FREE DELIVERED": "M358 136 H666",
  "FREE TRANSFER": "M358 152 L666 226",
};
const LABELS = {
  "HAND FREE": [179, 117],
  "FREE HAND": [183, 157],
  "SURPLUS FREE": [192, 62],
  "HAND MISSING": [146, 203],
  "FREE MISSING": [262, 184],
  "MISSING FREE": [325, 184],
  "FREE BUILT": [376, 58],
  "BUILT FREE": [428, 100],
  "BUILT DEPARTED": [623, 26],
  "FREE DELIVERED": [536, 129],
  "FREE TRANSFER": [536, 186],
};

function placesPicture({ known, places, flows }) {
  const lines = Object.entries(FLOWS).flatMap(([name, path]) => flowOf(name, path, flows[name] ?? 0));
  const boxes = Object.entries(SPOTS).map(([place, spot]) => placeBox(place, spot, places, known));
  const head = drawn("path", { d: "M0 0 L8 4 L0 8 z" });
  const ends = ["now", "never"].map((kind) => drawn("marker", {
    id: `end-${kind}`,
    class: kind,
    viewBox: "0 0 8 8",
    refX: 6,
    refY: 4,
    markerWidth: 7,
    markerHeight: 7,
    orient: "auto"
  },
                                      head.cloneNode()));
  const named = Object.entries(PLACES).filter(([place]) => isIn(place) && places[place].pieces)
    .map(([place, title]) => `${title} ${places[place].pieces}`);
  return el("div", { class: "places-scroll" },
    drawn("svg", {
      class: "places",
      viewBox: "0 0 806 262",
      role: "img",
      "aria-label": `Pieces: ${named.join(", ") || "none has come yet"}`
    },
      drawn("defs", {}, ...ends), ...lines, ...boxes));
}

const isIn = (place) => place !== "HAND" && place !== "SURPLUS";

function flowOf(name, path, many) {
  const kind = many ? "now" : "never";
  const line = drawn("path", { class: `flow ${kind}`, d: path, "marker-end": `url(#end-${kind})` });
  const [x, y] = LABELS[name];
  return many ? [line, drawn("text", { class: "many", x, y }, String(many))] : [line];
}

function placeBox(place, [x, y], places, known) {
  const { pieces: many, tenths } = places[place];
  const open = Math.max(0, known.pieces - known.taken[0] - known.missing[0]);
  const outside = { HAND: open && isHere(known.origin) ? `${open} to come` : "outside", SURPLUS: "outside" }[place];
  const kind = outside ? "outside" : many ? `full ${place.toLowerCase()}` : "none";
  const texts = outside ? [drawn("text", { class: "small", x: x + 12, y: y + 42 }, outside)]
    : [drawn("text", { class: "number", x: x + 12, y: y + 46 }, String(many)),
      drawn("text", { class: "small end", x: x + BOX.width - 10, y: y + 46 }, many ? `${kilograms(tenths)} kg` : "")];
  return drawn("g", { class: `place ${kind}` }, drawn("rect", { x, y, ...BOX, rx: 6 }),
    drawn("text", { class: "title", x: x + 12, y: y + 21 }, PLACES[place]), ...texts);
}

// The declaration, and who holds the number.
function factList(awb, { known, holder }) {
  const facts = [["Number", `${awb}: ${holderText(holder)}`]];
  if (known) facts.push(...declaredFacts(known));
  else facts.push(["Waybill", "not declared here"]);
  const list = el("dl", {}, ...facts.flatMap(([term, text]) => [el("dt", {}, term), el("dd", {}, text)]));
  return known ? [list, balanceTable(known)] : [list];
}

function declaredFacts(known) {
  return [
    ["Declared", `${known.origin} to ${known.destination}, ${known.pieces} pieces, ${kilograms(known.tenths)} kg`],
    ["On", known.since || "a day that isn't known"],
    ["Goods", known.goods || "not declared"],
    ["Consignee", known.notified ? "notified" : "not notified"],
  ];
}

const BALANCES = [["Received", "taken"], ["Found", "found"], ["In store", "store"], ["Departed", "departed"],
  ["Delivered", "delivered"], ["Transferred", "transferred"], ["Missing", "missing"]];

const balanceTable = (known) => plainTable("Pieces", [
  { head: "", cell: ([title]) => title }, { head: "Pieces", amount: true, cell: ([, member]) => known[member][0] },
  { head: "kg", amount: true, cell: ([, member]) => kilograms(known[member][1]) },
], BALANCES);

// The history: days, and under each what happened, the newest first.
function timeline({ known, moves, read }) {
  if (!moves.length) return empty(!read ? "Asking the desk." : known ? "Nothing has moved." : "There is none.");
  const days = [...groupBy([...moves].reverse(), ({ date }) => date)];
  return el("ol", { class: "timeline" }, ...days.flatMap(([
    day, rows
  ]) => [el("li", { class: "day" }, day === today() ? `Today, ${dayText(day)}` : dayText(day)), ...rows.map(moveItem)]),
    ...(known?.since
        ? [el("li", { class: "hand" }, el("time", {}, ""), el("span", {}, `declared on ${dayText(known.since)}`))]
        : []));
}

const moveItem = (move) => el("li", { class: move.to.toLowerCase() }, el("time", {}, move.time), moveText(move),
  el("span", { class: "quiet" }, `${kilograms(move.tenths)} kg`));

const trailItem = ({ line }) => el("li", { class: "departed" }, el("time", {}, line.slice(0, 3)),
  el("span", {}, `${STATUSES[line.slice(0, 3)] ?? "another status"} `, el("code", {}, line)));

const ownItem = ({ number, text }, waiting) => el("li", { class: "hand" }, el("time", {}, statusOf(text)),
  el("span", {}, messageWords(text)),
  waiting.has(number) ? el("a", { href: "#/messages", class: "quiet" }, `no. ${number}, not confirmed`)
                      : el("span", { class: "quiet" }, `no. ${number}`));

// The commands, each with what it begins with and whether it can apply.
function waybillForms(state) {
  const fixed = { awb: state.awb };
  const now = () => state.now ?? { known: null, places: null, built: [], due: [] };
  const free = () => now().places?.FREE.pieces ?? 0;
  const isFree = () => free() > 0;
  const form = (verb, prefill = () => ({}), note) => makeForm(specOf(verb), { fixed, prefill, note });
  const some = () => ({ pieces: isFree() ? free() : "" });
  const on = () => flightOf(now().built[0]?.[0]);
  return [
    [
      form("book", () => bookPrefill(now().known)),
      ({ known, moves }) => isNumber(state.awb) && (!known || moves.length === 0)
    ],
    [
      form("receive", () => receivePrefill(now().known)),
      ({ known }) => known && isHere(known.origin) && known.taken[0] < known.pieces
    ],
    [form("amend", () => bookPrefill(now().known), () => AMEND),
      ({ known, moves, places }) => known && moves.length > 0 && isAllFree(places)],
    [form("check-in", () => checkPrefill(now().due[0])), ({ due }) => due.length > 0],
    [form("strike", () => strikePrefill(now()), () => STRIKE), ({ due }) => due.length > 0],
    [
      form("manifest", () => ({...some(), ...buildPrefill(now().known) })),
      ({ known }) => known && isFree() && (!here() || known.destination !== here())
    ],
    [form("offload", () => ({ pieces: now().built[0]?.[1] ?? "", ...on() })), ({ built }) => built.length > 0],
    [form("notify", undefined, () => laterText(now())), ({ known }) => known && isHere(known.destination) && isFree()],
    [form("deliver", some, () => laterText(now())), ({ known }) => known?.notified && isFree()],
    [form("transfer", some), ({ known }) => known && isFree() && (!here() || known.destination !== here())],
    [form("withdraw", some), ({ known }) => known && isHere(known.origin) && isFree()],
    [form("missing"), isFree],
    [
      form("found", () => foundPrefill(now().known)),
      ({ known }) => known && (known.missing[0] > 0 || known.taken[0] > 0)
    ],
  ];
}

const laterText = ({ known, later }) => (known?.notified && later
  ? `${pieces(later)} came after the last notification: notify the consignee again.` : "");

const flightOf = (flight = "") => (flight ? { flight: flight.split("/")[0], date: flight.split("/")[1] } : {});

const bookPrefill = (known) => (known ? {
  goods: known.goods,
  origin: known.origin,
  destination: known.destination,
  pieces: known.pieces,
  tenths: kilograms(known.tenths),
}
                                      : { origin: here() });

function receivePrefill(known) {
  if (!known) return {};
  const open = known.pieces - known.taken[0];
  return {
    pieces: open > 0 ? open : "",
    tenths: open > 0 ? kilograms(Math.max(open, known.tenths - known.taken[1])) : ""
  };
}

// Whether all that came in, and didn't go back, is free: then the declaration can be amended.
const isAllFree = (places) =>
  Object.entries(places).every(([place, { pieces: many }]) => place === "FREE" || !isIn(place) || many === 0);

// What can be struck of the first flight that brings it: pieces that were found, and no more than are announced.
function strikePrefill({ known, due: [row] }) {
  if (!row) return {};
  const found = known?.found[0] ?? 0;
  return { pieces: found ? Math.min(found, row.pieces) : "", ...flightOf(row.flight) };
}

const checkPrefill = (row) => (row ? { counted: row.pieces, ...flightOf(row.flight) } : {});

// The open flight that unloads where the waybill ends: today's, or the first one.
function buildPrefill(known) {
  const flights = rowsOf(REPORTS.flights).filter(({ unload }) => unload === known?.destination);
  const flight = flights.find((row) => row.flight.endsWith(today())) ?? flights.at(-1);
  return { unload: known?.destination ?? "", ...flightOf(flight?.flight) };
}

const foundPrefill = (known) =>
  (known?.missing[0] ? { pieces: known.missing[0], tenths: kilograms(known.missing[1]) } : {});
