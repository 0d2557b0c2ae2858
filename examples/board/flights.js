// All flights that load or bring something, and the way to one that isn't noted yet.
import { REPORTS, rowsOf } from "./desk.js";
import { makeList } from "./list.js";
import { bar, card, codeField, counted, el, empty, fill, flightLink, flightOrder, flightPath, groupBy,
  grouped, isLate, kilograms, pieces, sum, today, tonnes, waybillLink } from "./parts.js";
import { NONE_EXPECTED, arrivals, comingBars, comingFlights, freeByPlace } from "./today.js";
import { FIELDS } from "./words.js";

const dayOf = ({ flight }) => flight.slice(-10);
const whens = (late) => ({
  late: [late, ({ flight }) => isLate(flight)],
  today: ["Today", (row) => dayOf(row) === today()],
  later: ["Later", (row) => dayOf(row) > today()],
});

const stateTag = (row, late) => (isLate(row.flight) ? el("span", { class: "tag warn" }, late) : "open");
const stateOrder = (row) => `${isLate(row.flight) ? 0 : 1} ${flightOrder(row.flight)}`;

const OPEN_COLUMNS = [
  { head: "Flight", cell: (row) => flightLink(row.flight), sort: (row) => row.flight },
  { head: "To", cell: (row) => row.unload, sort: (row) => row.unload },
  { head: "Waybills", amount: true, cell: (row) => row.waybills, sort: (row) => row.waybills },
  { head: "Pieces", amount: true, cell: (row) => row.pieces, sort: (row) => row.pieces },
  { head: "kg", amount: true, cell: (row) => kilograms(row.tenths), sort: (row) => row.tenths },
  {
    head: "Built, and free for there", kind: "picture", sort: (row) => row.tenths + row.free,
    cell: (row) => bar([["built", row.tenths], ["free", row.free]], row.most),
  },
  { head: "State", cell: (row) => stateTag(row, "not departed"), sort: stateOrder },
];

const DUE_COLUMNS = [
  { head: "Flight", cell: (row) => flightLink(row.flight), sort: (row) => flightOrder(row.flight) },
  { head: "Waybill", cell: (row) => waybillLink(row.awb), sort: (row) => row.awb },
  { head: "Route", cell: (row) => row.route, sort: (row) => row.route },
  { head: "Pieces", amount: true, cell: (row) => row.pieces, sort: (row) => row.pieces },
  { head: "kg", amount: true, cell: (row) => kilograms(row.tenths), sort: (row) => row.tenths },
  { head: "State", cell: (row) => stateTag(row, "overdue"), sort: stateOrder },
];

function withFree(flights, shed) {
  const free = freeByPlace(shed);
  const rows = flights.map((row) => ({ ...row, free: free.get(row.unload) ?? 0 }));
  const most = Math.max(1, ...rows.map((row) => row.tenths + row.free));
  return rows.map((row) => ({ ...row, most }));
}

const totals = (...before) => (rows) => [...before, grouped(sum(rows, (row) => row.pieces)),
  kilograms(sum(rows, (row) => row.tenths))];
const openTotals = (rows) => [...totals("All of these", "", grouped(sum(rows, (row) => row.waybills)))(rows), "", ""];
const dueTotals = (rows) => [...totals("All of these", counted(rows.length, "waybill"), "")(rows), ""];

export function make({ query }) {
  const load = makeList({ id: "flights", title: "Open flights", unit: "flight", wide: true, columns: OPEN_COLUMNS,
    shows: whens("Not departed"), query, hint: "flight or airport", by: OPEN_COLUMNS.length - 1,
    totalOf: openTotals, none: "No flight is open: name one above, and build pieces on it." });
  const come = card("Expected flights", { id: "coming" });
  const left = card("Left today", { id: "left" });
  const due = makeList({ id: "expected", title: "Expected waybills", wide: true, columns: DUE_COLUMNS,
    shows: whens("Overdue"), query, prefix: "due-", hint: "flight, number or airport", totalOf: dueTotals,
    none: NONE_EXPECTED });
  return {
    title: "Flights",
    node: el("div", { class: "view" }, goForm(),
      el("div", { class: "grid" }, load.node, come.node, left.node, due.node)),
    needs: () => [REPORTS.flights, REPORTS.expected, REPORTS.shed, REPORTS.moves],
    whole() {
      load.whole();
      due.whole();
    },
    show() {
      const [flights, expected, shed, moves] =
        [REPORTS.flights, REPORTS.expected, REPORTS.shed, REPORTS.moves].map(rowsOf);
      load.show(withFree(flights, shed));
      due.show(expected);
      const coming = comingFlights(expected, arrivals(moves, expected));
      fill(come.body, coming, () => comingBars(coming, "No flight brings anything."));
      const gone =
        [...groupBy(moves.filter(({ to, date }) => to === "DEPARTED" && date === today()), ({ flight }) => flight)];
      fill(left.body, gone.map(([flight, rows]) => [flight, rows.length]), () => leftRows(gone));
    },
  };
}

function goForm() {
  const flight = codeField("go-flight", "LH400");
  const day = el("input", { id: "go-day", type: "date", min: "2000-01-01", max: "2099-12-31" });
  day.value = today();
  const field = (input, text) => el("div", { class: "field" }, el("label", { for: input.id }, text), input);
  const form = el("form", { class: "row panel go", id: "go-form" }, field(flight, "Flight"),
    field(day, "Day of the flight"), el("button", { class: "send" }, "Open"));
  form.addEventListener("submit", (event) => {
    event.preventDefault();
    const name = FIELDS.flight.read(flight.value).toUpperCase();
    flight.setAttribute("aria-invalid", String(!FIELDS.flight.fits(name)));
    if (FIELDS.flight.fits(name) && day.value) location.hash = flightPath(`${name}/${day.value}`);
  });
  return form;
}

function leftRows(gone) {
  if (!gone.length) return empty("No flight has left today.");
  const most = Math.max(...gone.map(([, rows]) => sum(rows, (row) => row.tenths)));
  return el("ul", { class: "bars" }, ...gone.map(([flight, rows]) => leftRow(flight, rows, most)));
}

function leftRow(flight, rows, most) {
  const weight = sum(rows, (row) => row.tenths);
  return el("li", {},
    el("span", { class: "who" }, flightLink(flight), el("span", { class: "quiet" }, ` ${rows.at(-1).time}`)),
    bar([["left", weight]], most),
    el("span", { class: "what" }, `${pieces(sum(rows, (row) => row.pieces))}, ${tonnes(weight)}`));
}
