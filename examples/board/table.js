// A table of many rows: sorted by its heads, each row made once, the rest of a long table added while nothing waits.
import { el } from "./parts.js";

const AT_ONCE = 300; // rows that are in the page before the first picture of it; the others follow
const A_STEP = 700;
const DEEP = 400; // pixels
const A_PAUSE = 20; // milliseconds between two steps, for keys and pictures

// A column has a head, what a cell shows, and what it is sorted by; `amount` stands at the right.
const kindOf = ({ amount, kind }) => [amount && "amount", kind].filter(Boolean).join(" ");
export const marked = (column) => (kindOf(column) ? { class: kindOf(column) } : {});

export function makeTable({ id, title, columns, keyOf, by = 0, down = false, printHead, pick }) {
  const state = { rows: [], made: new Map(), by, down, waiting: 0 };
  const body = el("tbody");
  const foot = el("tfoot");
  const heads = columns.map((column, place) => headOf(column, () => sortBy(place)));
  const head = el("thead", {}, ...(printHead ? [printHead] : []), el("tr", {}, ...heads));
  const node = el("table", { "aria-label": title, id }, head, body, foot);

  function rowOf(row) {
    const key = keyOf(row);
    if (!state.made.has(key)) state.made.set(key, makeRow(row, columns, pick));
    return state.made.get(key);
  }

  function sortBy(place) {
    state.down = state.by === place ? !state.down : Boolean(columns[place].amount);
    state.by = place;
    show();
  }

  function show() {
    heads.forEach((each, place) => setSort(each, place === state.by && (state.down ? "descending" : "ascending")));
    const { sort } = columns[state.by];
    const sorted = sort ? [...state.rows].sort((one, other) => compare(sort(one), sort(other))) : state.rows;
    put(state.down ? sorted.reverse() : sorted);
  }

  // Whoever has scrolled down keeps as many rows as there were, and the keyboard stays where it was.
  function put(rows) {
    clearTimeout(state.waiting);
    const first = scrollY > DEEP ? Math.max(AT_ONCE, body.rows.length) : AT_ONCE;
    const active = document.activeElement;
    body.replaceChildren(...rows.slice(0, first).map(rowOf));
    if (body.contains(active)) active.focus({ preventScroll: true });
    state.rest = rows.slice(first);
    if (state.rest.length) state.waiting = setTimeout(addStep, A_PAUSE);
  }

  function addStep() {
    body.append(...state.rest.splice(0, A_STEP).map(rowOf));
    if (state.rest.length) state.waiting = setTimeout(addStep, A_PAUSE);
  }

  return {
    node,
    show(rows, total = []) {
      state.rows = rows;
      show();
      foot.replaceChildren(...(total.length ? [el("tr", {}, ...total.map(totalCell(columns)))] : []));
    },
    // Forgets the rows that were made, when there are many more of them than are shown.
    tidy() {
      if (state.made.size > 2 * state.rows.length + 1000) state.made.clear();
    },
    whole() {
      body.append(...(state.rest ?? []).splice(0).map(rowOf));
    },
  };
}

export const totalCell = (columns) => (text, place) =>
  el(place ? "td" : "th", {...marked(columns[place]), scope: place ? undefined : "row" }, text);

function compare(one, other) {
  return typeof one === "number" ? one - other : String(one).localeCompare(String(other), "en");
}

function headOf(column, sort) {
  if (!column.sort) return el("th", { scope: "col", ...marked(column) }, column.head);
  const button = el("button", { type: "button", class: "sort" }, column.head);
  button.addEventListener("click", sort);
  // A button isn't repeated on further pages of paper, a text is.
  return el("th", { scope: "col", ...marked(column) }, button, el("span", { class: "onpaper" }, column.head));
}

function setSort(head, way) {
  if (way) head.setAttribute("aria-sort", way);
  else head.removeAttribute("aria-sort");
}

const makeRow = (row, columns, pick) =>
  picked(el("tr", {}, ...columns.map((column) => el("td", marked(column), column.cell(row)))),
    pick && (() => pick(row)));

// A row that can be clicked beside its links, buttons and fields.
export function picked(node, pick) {
  if (!pick) return node;
  node.classList.add("pick");
  node.addEventListener("click", (event) => {
    if (!event.target.closest("a, button, input, label")) pick();
  });
  return node;
}

// A table that is short and made again whenever it changes.
export function plainTable(title, columns, rows, total = [], pick = undefined) {
  const heads = columns.map((column) => el("th", { scope: "col", ...marked(column) }, column.head));
  const foot = total.length ? [el("tfoot", {}, el("tr", {}, ...total.map(totalCell(columns))))] : [];
  return el("table", { "aria-label": title }, el("thead", {}, el("tr", {}, ...heads)),
    el("tbody", {}, ...rows.map((row) => makeRow(row, columns, pick))), ...foot);
}
