// The paper that a consignee signs: what was handed over of a waybill, and what still can be.
import { readLast, rowsOf, waybillReports } from "./desk.js";
import { paperHead, printButton, signLines } from "./list.js";
import { card, dayText, el, empty, fill, kilograms, pieces, sum, waybillLink } from "./parts.js";
import { deskName, here } from "./station.js";
import { plainTable } from "./table.js";

const COLUMNS = [
  { head: "Day", cell: ({ date }) => (date ? dayText(date) : "") },
  { head: "Time", kind: "wideonly", cell: ({ time }) => time },
  { head: "What", kind: "words", cell: ({ what }) => what },
  { head: "Pieces", amount: true, cell: (row) => row.pieces },
  { head: "kg", amount: true, kind: "wideonly", cell: ({ tenths }) => kilograms(tenths) },
];

export function make({ rest: [awb] }) {
  const reports = waybillReports(awb);
  const paper = card(`Delivery receipt ${awb}`, { id: "receipt" });
  const lines = signLines("Received in good order and condition: name, signature", "Identity document",
    "Day and time", `For ${deskName()}: name, signature`);
  paper.head.append(printButton());
  return {
    title: `Receipt ${awb}`,
    node: el("div", { class: "view receipt" }, paper.node),
    needs: () => [reports.waybill, reports.moves, reports.sent],
    show() {
      const known = readLast(reports.waybill).rows;
      const moves = rowsOf(reports.moves);
      const sent = rowsOf(reports.sent);
      fill(paper.body, [known, moves.length, sent.length, here()], () => (known
        ? receiptOf(known, moves, sent, lines) : empty("Nothing is known of it here.")));
    },
  };
}

function receiptOf(known, moves, sent, lines) {
  const names = (code) => sent.map(({ text }) => new RegExp(`^${code}/\\w+/\\w+/[\\w.]+/?(.*)$`, "m").exec(text)?.[1])
    .filter((name) => name !== undefined);
  const takers = names("DLV");
  const rows = moves.filter(({ to }) => to === "DELIVERED")
    .map((move, place) => ({ ...move, what: `delivered to ${takers[place] ?? ""}` }));
  const free = (member) => sum(moves, (move) => ((move.to === "FREE") - (move.from === "FREE")) * move[member]);
  if (free("pieces")) {
    rows.push({ date: "", time: "", what: "to be handed over", pieces: free("pieces"), tenths: free("tenths") });
  }
  const facts = [["Waybill", waybillLink(known.awb)], ["From", known.origin], ["To", known.destination],
    ["Declared", `${pieces(known.pieces)}, ${kilograms(known.tenths)} kg`], ["Goods", known.goods],
    ["Notified", names("NFD").at(-1) ?? ""]];
  return [el("p", { class: "onpaper papertitle" }, paperHead(`Delivery receipt ${known.awb}`)),
    el("dl", {}, ...facts.flatMap(([term, text]) => [el("dt", {}, term), el("dd", {}, text)])),
    rows.length ? plainTable("Handed over", COLUMNS, rows) : empty("Nothing is here to hand over."), lines];
}
