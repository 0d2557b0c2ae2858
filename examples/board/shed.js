// What lies in the shed: all of it, filtered, sorted, and as a list on paper. And what is irregular, or announced.
import { OLD, agePicture, ageText, isOld } from "./ages.js";
import { REPORTS, rowsOf } from "./desk.js";
import { keepInAddress, makeList } from "./list.js";
import { bar, card, counted, el, empty, fill, groupBy, grouped, kilograms, pieces, sum, today,
  tonnes, waybillLink } from "./parts.js";
import { here, isHere } from "./station.js";
import { isLater, readNotices, untold } from "./notices.js";

const SHOWS = {
  free: ["With free pieces", (row) => row.free.pieces > 0],
  built: ["With built pieces", (row) => row.built.pieces > 0],
  out: ["Outbound", (row) => !isHere(row.destination)],
  unnotified: ["Not notified", (row) => untold(row) > 0],
  later: ["Came after the notification", isLater],
  notified: ["Notified, not delivered", (row) => row.notified],
  old: [`${OLD} days or more`, isOld],
};

const COLUMNS = [
  { head: "Waybill", cell: (row) => waybillLink(row.awb), sort: (row) => row.awb },
  { head: "Route", cell: (row) => row.route, sort: (row) => row.route },
  { head: "Free", amount: true, cell: (row) => row.free.pieces, sort: (row) => row.free.pieces },
  { head: "kg", amount: true, cell: (row) => kilograms(row.free.tenths), sort: (row) => row.free.tenths },
  { head: "Built", amount: true, cell: (row) => row.built.pieces, sort: (row) => row.built.pieces },
  { head: "kg", amount: true, cell: (row) => kilograms(row.built.tenths), sort: (row) => row.built.tenths },
  { head: "Consignee", kind: "words", cell: toldText, sort: (row) => (row.notified ? untold(row) : Infinity) },
  { head: "Here since", kind: "words", cell: (row) => ageText(row.since), sort: (row) => row.since },
];

function toldText(row) {
  if (isLater(row)) return el("span", { class: "old" }, `${grouped(untold(row))} came later`);
  return row.notified ? "notified" : "-";
}

function totalOf(rows) {
  const all = ["free", "built"].flatMap(
    (place) => [sum(rows, (row) => row[place].pieces), kilograms(sum(rows, (row) => row[place].tenths))]);
  return ["All of these", counted(rows.length, "waybill"), ...all, "", ""];
}

export function make({ query }) {
  const to = { name: query.get("to") ?? "" };
  const list = makeList({
    id: "shed", title: "Shed", columns: COLUMNS, shows: SHOWS, query, totalOf,
    none: "Nothing is in store: pieces come in with receive, or when a flight is checked in.",
    keyOf: (row) => JSON.stringify([row, untold(row)]),
    textOf: ({ awb, route }) => `${awb} ${route}`,
    wanted: (row) => !to.name || row.destination === to.name,
    words: () => to.name && `to ${to.name}`,
  });
  const places = card("By destination", { id: "places" });
  const ages = card("How long it has lain", { id: "ages" });

  function choose(name) {
    to.name = to.name === name ? "" : name;
    keepInAddress({ to: to.name });
    show();
  }

  function show() {
    const all = rowsOf(REPORTS.shed);
    list.show(all);
    fill(places.body, [all, to.name, here()], () => placeRows(all, to.name, choose));
    fill(ages.body, [all, today()], () => (all.length ? agePicture(all) : empty("Nothing is in store.")));
  }
  return {
    title: "Shed",
    node: el("div", { class: "view with-side" }, list.node, el("aside", {}, ages.node, places.node)),
    needs: () => [REPORTS.shed, REPORTS.moves],
    also: readNotices,
    show,
    whole: () => list.whole(),
  };
}

// Where the pieces go, the heaviest first. A click shows those only, and another one shows all again.
function placeRows(rows, chosen, choose) {
  if (!rows.length) return empty("Nothing is in store.");
  const places = [...groupBy(rows, (row) => row.destination)].map(([to, those]) => ({
    to, free: sum(those, (row) => row.free.tenths), built: sum(those, (row) => row.built.tenths),
    pieces: sum(those, (row) => row.free.pieces + row.built.pieces),
  })).sort((one, other) => other.free + other.built - one.free - one.built);
  const most = places[0].free + places[0].built;
  const all = el("button", { type: "button", class: "link", id: "to-all" }, "all destinations");
  all.addEventListener("click", () => choose(chosen));
  return [
    el("ul", { class: "bars short" }, ...places.map((place) => placeRow(place, most, chosen, choose))),
    ...(chosen ? [el("p", { class: "empty quiet" }, `Only ${chosen}; show `, all)] : []),
  ];
}

function placeRow({ to, free, built, pieces: many }, most, chosen, choose) {
  const button = el("button",
    { type: "button", class: "link", id: `to-${to}`, "aria-pressed": String(chosen === to) }, to);
  button.addEventListener("click", () => choose(to));
  return el("li", {},
    el("span", { class: "who" }, button, to === here() ? el("span", { class: "quiet" }, " here") : ""),
    bar([["built", built], ["free", free]], most),
    el("span", { class: "what", title: pieces(many) }, tonnes(free + built)));
}

// Irregularities: pieces that are missing, and pieces that were found. Open are those that don't even out.
const WRONG = {
  open: ["Open", ({ awb }) => rowsOf(REPORTS.uneven).some((row) => row.awb === awb)],
  missing: ["Missing", (row) => row.missing.pieces > 0],
  found: ["Found", (row) => row.found.pieces > 0],
};

const WRONG_COLUMNS = [
  { head: "Waybill", cell: (row) => waybillLink(row.awb), sort: (row) => row.awb },
  { head: "Route", cell: (row) => row.route, sort: (row) => row.route },
  ...[["Missing", "missing"], ["Found", "found"]].flatMap(([head, member]) => [
    { head, amount: true, cell: (row) => row[member].pieces, sort: (row) => row[member].pieces },
    { head: "kg", amount: true, cell: (row) => kilograms(row[member].tenths), sort: (row) => row[member].tenths },
  ]),
];

const wrongTotals = (rows) => ["All of these", counted(rows.length, "waybill"), ...["missing", "found"].flatMap(
  (member) => [grouped(sum(rows, (row) => row[member].pieces)), kilograms(sum(rows, (row) => row[member].tenths))])];

// A view that is the list of one report.
function listView(report, query, about) {
  const list = makeList({ ...about, query });
  return {
    title: about.title, node: el("div", { class: "view" }, list.node), needs: () => [report, ...(about.also ?? [])],
    show: () => list.show(rowsOf(report)), whole: () => list.whole(),
  };
}

export const makeIrregular = ({ query }) => listView(REPORTS.irregularities, query, {
  id: "irregularities", title: "Irregularities", columns: WRONG_COLUMNS, shows: WRONG, totalOf: wrongTotals,
  also: [REPORTS.uneven], none: "No pieces are missing, and none were found.",
});

// Announced: declared waybills of which nothing has come in.
const ANNOUNCED = {
  out: ["Outbound", (row) => isHere(row.origin)],
  new: [`Up to ${OLD - 1} days`, (row) => !isOld(row)],
  old: [`${OLD} days or more`, isOld],
};

const ANNOUNCED_COLUMNS = [
  { head: "Waybill", cell: (row) => waybillLink(row.awb), sort: (row) => row.awb },
  { head: "Route", cell: (row) => row.route, sort: (row) => row.route },
  { head: "Pieces", amount: true, cell: (row) => row.pieces, sort: (row) => row.pieces },
  { head: "kg", amount: true, cell: (row) => kilograms(row.tenths), sort: (row) => row.tenths },
  { head: "Goods", cell: (row) => row.goods, sort: (row) => row.goods },
  { head: "Declared", kind: "words", cell: (row) => ageText(row.since), sort: (row) => row.since },
];

const announcedTotals = (rows) => ["All of these", counted(rows.length, "waybill"),
  grouped(sum(rows, (row) => row.pieces)), kilograms(sum(rows, (row) => row.tenths)), "", ""];

export const makeAnnounced = ({ query }) => listView(REPORTS.announced, query, {
  id: "announced", title: "Announced", columns: ANNOUNCED_COLUMNS, shows: ANNOUNCED, totalOf: announcedTotals,
  none: "Nothing is announced: all that is declared has come.",
});
