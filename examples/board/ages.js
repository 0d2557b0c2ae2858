// How long cargo has lain here: since the move that began its stay, before which nothing of the waybill was in store.
import { bar, counted, daysSince, el, groupBy, grouped, shortDay, sum, tonnes } from "./parts.js";

export const OLD = 3; // days after which cargo counts as lying long

const isStored = (place) => place === "FREE" || place === "BUILT";
const gain = ({ from, to, pieces }) => (isStored(to) - isStored(from)) * pieces;

// The day on which the stay of a waybill began, by all its moves: back from the last one until nothing was in store.
export function stayOf(moves) {
  let before = sum(moves, gain);
  return before ? moves.findLast((move) => (before -= gain(move)) === 0)?.date : undefined;
}

// Whole days until today are NaN if the day is unknown.
export const isOld = ({ since }) => daysSince(since) >= OLD;

// How long cargo has lain here; the day alone if the desk's clock is ahead of the browser's.
export function ageText(since) {
  const days = daysSince(since);
  if (Number.isNaN(days)) return "";
  return days > 0 ? el("span", { class: days >= OLD ? "old" : undefined },
    `${shortDay(since)}, ${counted(days, "day")}`) : shortDay(since);
}

// The shed by how long it has lain: a bar for each span of days, by weight.
const SPANS = [["today", 0], ["1 day", 1], ["2 days", 2], ["3 to 6 days", 3], ["7 to 13 days", 7],
  ["14 to 29 days", 14], ["30 days or more", 30]];

const weightOf = ({ free, built }) => free.tenths + built.tenths;

export function agePicture(rows) {
  const spans = groupBy(rows, ({ since }) => spanOf(daysSince(since)));
  const listed = SPANS.filter(([, from]) => from === 0 || spans.has(from))
    .map(([title, from]) => ({ title, from, rows: spans.get(from) ?? [] }));
  const most = Math.max(1, ...listed.map((span) => sum(span.rows, weightOf)));
  return el("ul", { class: "bars short ages" }, ...listed.map((span) => spanRow(span, most)));
}

const spanOf = (days) => SPANS.findLast(([, from]) => days >= from)?.[1] ?? 0;

function spanRow({ title, from, rows }, most) {
  const weight = sum(rows, weightOf);
  return el("li", {}, el("span", { class: "who" }, title), bar([[from >= OLD ? "old" : "new", weight]], most),
    el("span", { class: "what", title: tonnes(weight) }, grouped(rows.length), " ",
      el("span", { class: "quiet" }, tonnes(weight))));
}
