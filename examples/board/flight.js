// One flight: what is built on it, what else could be, what it brings, and its commands.
import { makeBatch } from "./batch.js";
import { REPORTS, arrivalReport, ask, manifestReport, objectOf, rowsOf } from "./desk.js";
import { fillOpen, makeForm, specOf } from "./forms.js";
import { paperHead, printButton, signLines } from "./list.js";
import { bar, card, counted, dayAndMonth, dayText, el, empty, fill, flightPath, groupBy, grouped, isLate, kilograms,
  legend, pieces, shortDay, sum, tonnes, waybillLink } from "./parts.js";
import { here, isHere } from "./station.js";
import { plainTable } from "./table.js";
import { arrivals, comingBars, comingFlights } from "./today.js";
import { CANCELLED, STRIKE } from "./words.js";

// What is declared of the waybills of a manifest: asked once for each, since the manifest doesn't have it.
const declared = new Map();
const AT_ONCE = 40;

async function readDeclared(rows) {
  const wanted = rows.filter(({ awb }) => !declared.has(awb)).slice(0, AT_ONCE);
  for (const { awb } of wanted) {
    const answer = await ask(`/v1/waybills/${awb}`);
    if (answer.status === 200) declared.set(awb, objectOf(answer.text));
  }
  return wanted.length > 0;
}

// One flight, such as LH400/2026-01-12.
export function make({ rest }) {
  const [flight, date] = rest;
  const name = `${flight}/${date}`;
  const report = manifestReport(name);
  const arriving = arrivalReport(name);
  const state = { flight, date, name, report, arriving, everywhere: false, typed: "" };
  const head = el("header", { class: "subject" });
  const on = card("Manifest", { id: "manifest-of", wide: true });
  const free = card("Free in the shed", { id: "build" });
  const due = card("What it brings", { id: "due" });
  const list = card("Check-in list", { id: "brought" });
  const acts = card("This flight", { id: "commands" });
  const applying = flightForms(state);
  const forms = applying.map(([form]) => form);
  state.pick = (values) => fillOpen(forms, values);
  const off = offloadBatch(state);
  const gone = el("div");
  const build = buildBatch(state);
  const count = countBatch(state);
  const full = el("div", { class: "fullness noprint" });
  const built = signLines("Built by (name, signature)", "Taken by the ramp (name, signature)", "ULD or position",
    "Time of hand-over");
  const counting = signLines("Counted by (name, signature)", "Time", "Seals, ULD", "Damage, remarks");
  const came = el("div", {});
  declared.clear();
  free.body.append(build.node);
  due.body.append(came, count.node);
  const unload = unloadField(state);
  free.head.append(unload, everywhereButton(state));
  const prints = printButton();
  on.head.append(prints);
  on.body.before(full);
  on.body.append(gone, off.node);
  list.head.append(printButton());
  acts.body.append(...forms.map((form) => form.node));
  const node = el("div", { class: "view with-side flight" }, head,
    el("div", { class: "main" }, on.node, built, free.node, due.node, list.node, counting),
    el("aside", {}, acts.node));
  return {
    title: flight, tab: [flight, flightPath(name), `${flight} ${dayText(date)}`], node,
    needs: () => [report, arriving, REPORTS.flights, REPORTS.shed, REPORTS.expected, REPORTS.moves],
    also: async () => (await readDeclared([...rowsOf(report), ...broughtRows(flightNow(state))])) && show(),
    show,
  };

  function show() {
    const now = flightNow(state);
    fill(head, [now.unload, now.rows, now.closed, now.noted, now.late, now.inbound, now.due.length, here()],
      () => headOf(state, now));
    on.note.textContent = now.rows.length
      ? `${counted(now.rows.length, "waybill")}, ${pieces(now.pieces)}, ${kilograms(now.tenths)} kg`
      : "";
    fill(full, [now.tenths, now.waiting, now.closed, now.unload], () => fullness(now));
    fill(gone, [now.rows, now.closed, now.unload, here()], () => (now.closed ? manifestTable(state, now) : []));
    off.node.hidden = now.closed;
    off.show(now.closed ? [] : now.rows,
      now.noted ? "Nothing is built on it." : "Nothing is built on it yet: its first manifest notes it.");
    free.heading.textContent =
      now.unload && !state.everywhere ? `Free in the shed for ${now.unload}` : "Free in the shed";
    free.node.hidden = now.closed || now.past || (now.inbound && !now.rows.length);
    unload.hidden = now.noted;
    free.note.textContent =
      `${pieces(sum(now.free, (row) => row.free.pieces))}, ${kilograms(sum(now.free, (row) => row.free.tenths))} kg`;
    build.show(now.free, now.unload ? `Nothing is free for ${now.unload}.` : "Nothing is free.");
    due.node.hidden = !now.inbound;
    due.note.textContent = now.due.length ? `${counted(now.due.length, "waybill")} to check in` : "nothing is open";
    fill(came, [now.due, now.came], () => (now.inbound ? comingBars(comingFlights(now.due, now.came), "") : []));
    count.show(now.due, "All that was announced is checked in, or struck.");
    on.node.hidden = now.inbound && !now.rows.length;
    const brought = broughtRows(now);
    list.node.hidden = !now.inbound && (now.noted || now.closed);
    node.classList.toggle("blank", !now.rows.length && !brought.length);
    fill(list.body, [brought, here()], () => checkInList(state, brought));
    built.hidden = prints.hidden = !now.rows.length;
    counting.hidden = !brought.length;
    for (const [form, applies] of applying) form.refresh(Boolean(applies(now)));
    acts.note.textContent = now.closed && !now.inbound ? "It has left." : "";
    acts.node.hidden = forms.every(({ node }) => node.hidden);
  }
}

// Where a flight unloads: the open flights have it. Of one that has left, the page remembers it, or finds it in its own
// manifest while that waits in the outbox; of one that isn't noted yet, somebody has typed it.
const unloads = new Map();

function unloadOf({ name, flight, date, typed }, row) {
  if (row) unloads.set(name, row.unload);
  const manifests = rowsOf(REPORTS.outbox).filter(({ text }) => text.startsWith("FFM"));
  const start = `1/${flight}/${dayAndMonth(date)}/`;
  const own = manifests.map(({ text }) => text.split("\r\n")).find(([, head]) => head.startsWith(start));
  return unloads.get(name) ?? own?.[2] ?? typed;
}

function flightNow(state) {
  const { name, report } = state;
  const row = rowsOf(REPORTS.flights).find((each) => each.flight === name);
  const all = rowsOf(report);
  const closed = all.some(({ departed }) => departed.pieces > 0);
  const rows =
    all.map((each) => ({ ...each, closed, now: closed ? each.departed : each.built, known: declared.get(each.awb) }))
      .filter(({ now }) => now.pieces > 0);
  const most = Math.max(0, ...rows.map(({ now }) => now.tenths));
  const due = rowsOf(REPORTS.expected).filter((each) => each.flight === name);
  const announced = rowsOf(state.arriving);
  const came = arrivals(rowsOf(REPORTS.moves), due, name);
  const unload = state.unload = unloadOf(state, row);
  const free = rowsOf(REPORTS.shed).filter((each) => each.free.pieces > 0);
  const isForThere = ({ destination }) => destination === unload;
  const goesOut = ({ destination }) => !isHere(destination) || !here();
  return {
    noted: Boolean(row), closed, rows: rows.map((each) => ({ ...each, most })), due, came, announced, unload,
    inbound: announced.length + came.length > 0,
    late: isLate(name) && (Boolean(row) || due.length > 0),
    past: isLate(name) && !row && rows.length === 0,
    pieces: sum(rows, ({ now }) => now.pieces),
    tenths: sum(rows, ({ now }) => now.tenths),
    waiting: sum(free.filter(isForThere), (each) => each.free.tenths),
    free: free.filter(unload && !state.everywhere ? isForThere : goesOut),
  };
}

function headOf({ flight, date }, now) {
  const way = now.inbound && !now.rows.length ? `to ${here() || "here"}` : now.unload ? `to ${now.unload}` : "";
  const [kind, word] = stateOf(now);
  return [el("h1", {}, `${flight} `, el("span", { class: "quiet" }, `${dayText(date)} ${way}`)),
    el("span", { class: `tag ${kind}` }, word), el("p", { class: "big" }, ...(now.rows.length ? totalOf(now) : []))];
}

function stateOf({ closed, noted, inbound, past, late, due }) {
  if (closed) return ["good", "departed"];
  if (noted) return late ? ["warn", "not departed"] : ["calm", "open"];
  if (due.length && late) return ["warn", "overdue"];
  if (past) return ["calm", "nothing of it is open"];
  return inbound ? ["calm", "inbound"] : ["warn", "not noted yet"];
}

// How full it is: the weight that is built, beside what lies free for where it unloads.
function fullness({ tenths, waiting, closed, unload }) {
  if (closed || !unload || !(tenths + waiting)) return [];
  const part = Math.round((100 * tenths) / (tenths + waiting));
  return [
    bar([["built", tenths], ["free", waiting]], tenths + waiting),
    legend(["built", `${tonnes(tenths)} built`], ["free", `${tonnes(waiting)} free in the shed for ${unload}`]),
    el("p", { class: "quiet" }, `${part}% of what is here for ${unload} is built on it.`),
  ];
}

const strong = (text) => el("b", {}, text);
const totalOf = (now) => [strong(grouped(now.pieces)), " pieces ", strong(kilograms(now.tenths)), " kg ",
  strong(String(now.rows.length)), " of 500 waybills"];

const WAYBILL = { head: "Waybill", cell: (row) => waybillLink(row.awb) };

const MANIFEST = [
  WAYBILL,
  { head: "Route", kind: "wideonly", cell: ({ known }) => (known ? `${known.origin}${known.destination}` : "") },
  { head: "Goods", cell: ({ known }) => known?.goods ?? "" },
  { head: "Pieces", amount: true, cell: ({ now }) => now.pieces },
  { head: "of", amount: true, kind: "wideonly", cell: ({ known }) => String(known?.pieces ?? "") },
  { head: "kg", amount: true, kind: "wideonly", cell: ({ now }) => kilograms(now.tenths) },
  {
    head: "Weight", kind: "picture noprint",
    cell: ({ now, closed, most }) => bar([[closed ? "left" : "built", now.tenths]], most),
  },
  { head: "Loaded", kind: "onpaper", cell: () => "" },
];

const manifestTotal = (rows) => [counted(rows.length, "waybill"), "", "", grouped(sum(rows, ({ now }) => now.pieces)),
  "", kilograms(sum(rows, ({ now }) => now.tenths)), "", ""];
const manifestHead = ({ name, unload }) =>
  paperHead(`Cargo manifest ${name.replace("/", " of ")}${unload && ` to ${unload}`}`);

const manifestTable = (state, { rows }) =>
  paperTable("Manifest", MANIFEST, rows, manifestTotal(rows), manifestHead(state));

function paperTable(title, columns, rows, total, paper) {
  const table = plainTable(title, columns, rows, total);
  table.tHead.prepend(el("tr", { class: "paper" }, el("th", { colspan: String(columns.length) }, paper)));
  return el("div", { class: "scroll" }, table);
}

const offloadBatch = (state) => makeBatch({
  id: "off-form", about: state.name, acts: [{ verb: "offload", amount: "pieces", does: "Offload" }],
  label: "Take off", most: (row) => row.now.pieces, body: () => ({ flight: state.flight, date: state.date }),
  pick: (row) => state.pick({ awb: row.awb, pieces: String(row.now.pieces) }), columns: MANIFEST,
  paper: () => manifestHead(state), total: manifestTotal,
});

// The waybills of a flight that brings some: what was announced and what its check-in counted, and those that were
// found of it unannounced, as far as movements were read.
function broughtRows({ announced, came }) {
  const found = groupBy(came.filter(({ awb }) => !announced.some((row) => row.awb === awb)), ({ awb }) => awb);
  const countedRow = (row) => ({
    awb: row.awb, announced: row.pieces, came: row.came.pieces + row.surplus.pieces, state: row.state,
    known: declared.get(row.awb),
  });
  const foundRow = ([awb, moves]) => ({
    awb, announced: 0, came: sum(moves, (move) => move.pieces), state: "checked", known: declared.get(awb),
  });
  return [...announced.map(countedRow), ...Array.from(found, foundRow)]
    .sort((one, other) => one.awb.localeCompare(other.awb));
}

const BROUGHT = [
  WAYBILL,
  { head: "Route", kind: "wideonly", cell: ({ known }) => (known ? `${known.origin}${known.destination}` : "") },
  { head: "Goods", kind: "wideonly", cell: ({ known }) => known?.goods ?? "" },
  { head: "Announced", amount: true, cell: ({ announced }) => announced },
  { head: "Counted", amount: true, cell: ({ state, came }) => ({ open: "", struck: "struck" }[state] ?? String(came)) },
  { head: "Difference", amount: true, cell: (row) => differenceOf(row) },
  { head: "Checked", kind: "onpaper", cell: () => "" },
];

function differenceOf({ state, announced, came }) {
  if (state !== "checked" || came === announced) return "";
  return el("span", { class: "old" }, `${came > announced ? "+" : "\u2212"}${Math.abs(came - announced)}`);
}

function checkInList({ name }, rows) {
  if (!rows.length) return empty("No manifest announced anything with it, and nothing was found of it.");
  const total = [counted(rows.length, "waybill"), "", "", grouped(sum(rows, ({ announced }) => announced)),
    grouped(sum(rows, ({ came }) => came)), "", ""];
  return paperTable("Check-in list", BROUGHT, rows, total, paperHead(`Check-in list ${name.replace("/", " of ")}`));
}

// Where a flight unloads that isn't noted yet: its first manifest says it.
function unloadField(state) {
  const input = el(
    "input", { id: "build-unload", class: "code few", autocomplete: "off", spellcheck: "false", placeholder: "JFK" });
  input.addEventListener("input", () => {
    state.typed = input.value.trim().toUpperCase();
    document.dispatchEvent(new Event("board-show"));
  });
  return el("div", { class: "row inline" }, el("label", { for: input.id }, "Unloaded at"), input);
}

function everywhereButton(state) {
  const button = el("button", { type: "button", class: "chip", "aria-pressed": "false" }, "All destinations");
  button.addEventListener("click", () => {
    state.everywhere = !state.everywhere;
    button.setAttribute("aria-pressed", String(state.everywhere));
    document.dispatchEvent(new Event("board-show"));
  });
  return button;
}

const buildBatch = (state) => makeBatch({
  id: "build-form", about: state.name, acts: [{ verb: "manifest", amount: "pieces", does: "Build" }],
  most: (row) => row.free.pieces,
  body: () => ({ flight: state.flight, date: state.date, unload: state.unload }),
  pick: (row) => state.pick({ awb: row.awb, pieces: String(row.free.pieces) }),
  columns: [
    WAYBILL, { head: "To", cell: (row) => row.destination },
    { head: "Free", amount: true, cell: (row) => row.free.pieces },
    { head: "kg", amount: true, cell: (row) => kilograms(row.free.tenths) },
  ],
});

const countBatch = (state) => makeBatch({
  id: "count-form", about: state.name, most: (row) => row.pieces,
  acts: [{ verb: "check-in", amount: "counted", does: "Check in" },
    { verb: "strike", amount: "pieces", does: "Strike", warns: CANCELLED }],
  body: () => ({ flight: state.flight, date: state.date }),
  pick: (row) => state.pick({ awb: row.awb, pieces: String(row.pieces), counted: String(row.pieces) }),
  columns: [
    WAYBILL, { head: "Route", cell: (row) => row.route },
    { head: "Announced", amount: true, cell: (row) => row.pieces },
    { head: "kg", amount: true, kind: "wideonly", cell: (row) => kilograms(row.tenths) },
  ],
});

function flightForms(state) {
  const fixed = { flight: state.flight, date: state.date };
  const row = () => rowsOf(REPORTS.flights).find((each) => each.flight === state.name);
  const form = (verb, more = {}) => makeForm(specOf(verb), { fixed, ...more });
  const isOpen = (now) => !now.closed && now.rows.length > 0;
  return [
    [form("manifest", { prefill: () => ({ unload: row()?.unload ?? state.typed }), note: () => SCAN }),
      (now) => !now.closed && (now.noted || !now.inbound)],
    [form("offload"), isOpen],
    [form("reroute"), (now) => now.noted && !now.closed && now.rows.length === 0],
    [form("depart", { note: () => departNote(state, row()) }), isOpen],
    [form("check-in"), (now) => now.due.length > 0],
    [form("strike", { note: () => STRIKE }), (now) => now.due.length > 0],
  ];
}

const SCAN = "Type or scan a number; the flight stays. A click on a row fills the form.";

function departNote({ flight, date }, row) {
  if (!row) return "";
  const load = `${counted(row.waybills, "waybill")}, ${pieces(row.pieces)}, ${kilograms(row.tenths)} kg`;
  return `${flight} of ${shortDay(date)} leaves for ${row.unload} with ${load}. This can't be taken back.`;
}
