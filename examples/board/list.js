// A card with a long list: its filter, its order, all its rows, and on paper its head at the top of each page.
import { card, clock, counted, dayText, el, empty, grouped, today } from "./parts.js";
import { deskName, here } from "./station.js";
import { makeTable } from "./table.js";
import { numberOf } from "./words.js";

// Keeps a filter in the address, so that Back and a bookmark find it again.
export function keepInAddress(values) {
  const [path, old = ""] = location.hash.split("?");
  const query = new URLSearchParams(old);
  for (const [name, value] of Object.entries(values)) value ? query.set(name, value) : query.delete(name);
  const address = query.size ? `${path}?${query}` : path;
  if (address !== location.hash) history.replaceState(null, "", address);
}

// What stands at the head of each page of paper.
export const paperHead = (title, ...more) => [
  `${title} · ${deskName()} ${here() || "(airport not known)"}`,
  `printed ${dayText(today())}, ${clock().slice(0, 5)}`, ...more].filter(Boolean).join(" · ");

// On paper: lines to sign on.
export const signLines = (...texts) =>
  el("div", { class: "signatures onpaper" }, ...texts.map((text) => el("div", {}, el("span", {}, text))));

export function printButton() {
  const button = el("button", { type: "button", class: "plain noprint" }, "Print");
  button.addEventListener("click", () => window.print());
  return button;
}

const wordsOf = (row) => Object.values(row).filter((each) => typeof each === "string").join(" ");

// `shows` are choices of rows: a name for the address, its title, and which rows it takes. `wanted` may take further
// rows away, and `words` says so on paper. `textOf` is what the text of the filter is looked for in, `prefix` begins
// the names of the filter in the address.
export function makeList({ id, title, unit = "waybill", columns, shows = {}, query, none, wide, by, down, pick,
  hint = "number or airport", prefix = "", keyOf = (row) => JSON.stringify(row), textOf = wordsOf,
  wanted = () => true, words = () => "", totalOf = () => [], shown = () => {} }) {
  const choices = { all: ["All", () => true], ...shows };
  const names = { text: `${prefix}with`, show: `${prefix}show` };
  const filter = { text: query?.get(names.text) ?? "", show: query?.get(names.show) ?? "all" };
  const paper = el("th", { colspan: String(columns.length) });
  const table =
    makeTable({ id, title, columns, keyOf, by, down, pick, printHead: el("tr", { class: "paper" }, paper) });
  const body = card(title, { wide });
  const controls = filterRow({ id, hint, filter, choices, changed: draw });
  const nothing = el("div", { class: "nothing" });
  let all = [];
  let last = null;
  body.head.append(printButton());
  body.body.append(controls.node, el("div", { class: "scroll" }, table.node), nothing);

  function isWanted(row) {
    const text = numberOf(filter.text.trim().toUpperCase());
    return choiceOf()[1](row) && wanted(row) && (!text || textOf(row).toUpperCase().includes(text));
  }

  const choiceOf = () => choices[filter.show] ?? choices.all;

  const filterWords = () => [choiceOf() === choices.all ? "" : choiceOf()[0], words(),
    filter.text.trim() && `with ${filter.text.trim()}`].filter(Boolean).join(", ");

  function draw() {
    const rows = all.filter(isWanted);
    const key = JSON.stringify([all.length, filter, words(), here()]) + rows.map(keyOf).join();
    if (key === last) return;
    last = key;
    keepInAddress({ [names.text]: filter.text, [names.show]: choiceOf() === choices.all ? "" : filter.show });
    table.tidy();
    table.show(rows, rows.length ? totalOf(rows) : []);
    controls.mark();
    controls.node.hidden = all.length === 0;
    body.note.textContent =
      (rows.length < all.length ? `${grouped(rows.length)} of ` : "") + counted(all.length, unit);
    table.node.hidden = rows.length === 0;
    nothing.replaceChildren(...(rows.length ? [] : [all.length ? empty("No row is like that.") : empty(none)]));
    paper.textContent = paperHead(title, filterWords(), counted(rows.length, unit));
    shown(rows);
  }

  return {
    ...body,
    draw,
    whole: () => table.whole(),
    show(rows) {
      all = rows;
      draw();
    },
  };
}

function filterRow({ id, hint, filter, choices, changed }) {
  const input = el("input", { id: `${id}-with`, type: "search", autocomplete: "off", spellcheck: "false",
    placeholder: hint });
  input.value = filter.text;
  input.addEventListener("input", () => {
    filter.text = input.value;
    changed();
  });
  const buttons = Object.entries(choices).map(([name, [text]]) => {
    const button = el("button", { type: "button", class: "chip", id: `${id}-show-${name}` }, text);
    button.addEventListener("click", () => {
      filter.show = name;
      changed();
    });
    return [name, button];
  });
  const chips = buttons.length > 1 ? buttons.map(([, button]) => button) : [];
  const node = el("div", { class: "filters" }, el("label", { for: input.id }, "Only with"), input,
    el("div", { class: "chips", role: "group", "aria-label": "Which rows" }, ...chips));
  return {
    node,
    mark() {
      for (const [name, button] of buttons) button.setAttribute("aria-pressed", String(name === filter.show));
    },
  };
}
