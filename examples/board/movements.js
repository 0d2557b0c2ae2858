// The movements: those that the page has read, and older ones on demand.
import { REPORTS, readLast, readOlder, rowsOf } from "./desk.js";
import { makeList } from "./list.js";
import { el, grouped, kilograms, sum, today, waybillLink } from "./parts.js";
import { moveText } from "./waybill.js";

const KINDS = {
  today: ["Today", ({ date }) => date === today()],
  came: ["Came in", ({ from, to }) => ["HAND", "SURPLUS"].includes(from) && to === "FREE"],
  built: ["Built or offloaded", ({ from, to }) => to === "BUILT" || (from === "BUILT" && to === "FREE")],
  left: ["Left", ({ to }) => ["DEPARTED", "DELIVERED", "TRANSFER"].includes(to)],
  wrong: ["Missing or found", ({ from, to }) => to === "MISSING" || from === "MISSING" || from === "SURPLUS"],
};

const COLUMNS = [
  { head: "No.", amount: true, cell: (row) => row.number, sort: (row) => row.number },
  { head: "Day", cell: (row) => row.date, sort: (row) => row.number },
  { head: "Time", cell: (row) => row.time, sort: (row) => row.time },
  { head: "Waybill", cell: (row) => waybillLink(row.awb), sort: (row) => row.awb },
  { head: "Pieces", amount: true, cell: (row) => row.pieces, sort: (row) => row.pieces },
  { head: "kg", amount: true, cell: (row) => kilograms(row.tenths), sort: (row) => row.tenths },
  {
    head: "What happened", kind: "words", cell: (row) => moveText(row),
    sort: ({ from, to, flight }) => `${from} ${to} ${flight}`,
  },
];

const totalOf = (rows) => ["", "All of these", "", "", grouped(sum(rows, (row) => row.pieces)),
  kilograms(sum(rows, (row) => row.tenths)), ""];

export function make({ query }) {
  const list = makeList({ id: "moves", title: "Movements", unit: "movement", columns: COLUMNS, shows: KINDS, query,
    totalOf, by: 0, down: true, hint: "waybill, flight, day", none: "Nothing has moved." });
  const older = olderButton(REPORTS.moves, "movements", show);
  list.body.append(older.node);

  function show() {
    list.show(rowsOf(REPORTS.moves));
    older.mark();
  }
  return { title: "Movements", node: el("div", { class: "view" }, list.node), needs: () => [REPORTS.moves], show,
    whole: () => list.whole() };
}

// Reads twice as many of the last rows, as often as it is pressed.
export function olderButton(report, noun, show) {
  const button = el("button", { type: "button", class: "plain", id: `older-${noun.split(" ")[0]}` });
  button.addEventListener("click", async () => {
    button.disabled = true;
    await readOlder(report);
    button.disabled = false;
    show();
  });
  return {
    node: el("p", { class: "older noprint" }, button),
    mark() {
      const oldest = readLast(report).rows?.[0]?.number ?? 1;
      button.parentElement.hidden = oldest <= 1;
      button.textContent = `Read older ${noun} than no. ${grouped(oldest)}`;
    },
  };
}
