// Elements, texts and pictures that the views share. What comes from the desk is put into text nodes only.

export const at = (id) => document.getElementById(id);

function filled(node, attributes, children) {
  for (const [name, value] of Object.entries(attributes)) {
    if (value !== undefined && value !== false) node.setAttribute(name, value);
  }
  node.append(...children);
  return node;
}

export const el = (tag, attributes = {}, ...children) => filled(document.createElement(tag), attributes, children);

export const drawn = (tag, attributes = {}, ...children) =>
  filled(document.createElementNS("http://www.w3.org/2000/svg", tag), attributes, children);

// Texts. Days and times are those of the desk's zone, if the page's head names it, or else the browser's.
const timeZone = zoneOf(document.querySelector("meta[name=zone]")?.content.trim());
const DAYS = new Intl.DateTimeFormat("sv-SE", { timeZone });
const IN_WORDS =
  new Intl.DateTimeFormat("en-GB", { day: "numeric", month: "short", year: "numeric", timeZone: "UTC" });

function zoneOf(name) {
  try {
    return name && new Intl.DateTimeFormat("sv-SE", { timeZone: name }) ? name : undefined;
  } catch {
    return undefined;
  }
}

export const clock = () => new Date().toLocaleTimeString("en-GB", { timeZone });
export const kilograms = (tenths) => (tenths / 10).toFixed(1);
export const grouped = (number) => number.toLocaleString("en-GB");
export const tonnes = (tenths) => (tenths < 100000 ? `${grouped(Math.round(tenths / 10))} kg`
  : `${(tenths / 10000).toLocaleString("en-GB", { maximumFractionDigits: 1 })} t`);
export const counted = (number, one, many = `${one}s`) => `${grouped(number)} ${number === 1 ? one : many}`;
export const pieces = (number) => counted(number, "piece");

export const today = () => DAYS.format(new Date());
const DAY = 86400000;
export const daysSince = (day) => Math.round((Date.parse(today()) - Date.parse(day)) / DAY);

// A day as people write it: 28 Nov 2026.
export function dayText(day) {
  const date = new Date(day + "T" + "00:00Z");
  return Number.isNaN(date.getTime()) ? day : IN_WORDS.format(date);
}

// A flight's day is the end of its name.
export const isLate = (flight) => flight.slice(-10) < today();
export const flightOrder = (flight) => flight.split("/").reverse().join(" ");

// Without its year where that is this one.
export const shortDay = (day) => (day === today() ? "today"
  : day.slice(0, 4) === today().slice(0, 4) ? dayText(day).replace(/ \d+$/, "") : dayText(day));

const MONTHS = ["JAN", "FEB", "MAR", "APR", "MAY", "JUN", "JUL", "AUG", "SEP", "OCT", "NOV", "DEC"];
export const dayAndMonth = (day) => `${day.slice(-2)}${MONTHS[Number(day.slice(5, 7)) - 1]}`;

// The day that a telegram means, such as 12JAN: the nearest one.
export function dayMeant(text) {
  const year = Number(today().slice(0, 4));
  const month = String(MONTHS.indexOf(text.slice(2, 5)) + 1).padStart(2, "0");
  const days = [year - 1, year, year + 1].map((each) => `${each}-${month}-${text.slice(0, 2)}`);
  return days.sort((one, other) => Math.abs(daysSince(one)) - Math.abs(daysSince(other)))[0];
}

// Sums over rows.
export const sum = (rows, amount) => rows.reduce((all, row) => all + amount(row), 0);

export function groupBy(rows, keyOf) {
  const groups = new Map();
  for (const row of rows) {
    const key = keyOf(row);
    if (!groups.has(key)) groups.set(key, []);
    groups.get(key).push(row);
  }
  return groups;
}

// Links to views.
export const waybillPath = (awb) => `#/waybill/${awb}`;
export const flightPath = (flight) => `#/flight/${flight}`;
export const waybillLink = (awb) => el("a", { class: "number-link", href: waybillPath(awb) }, awb);

export function flightLink(flight) {
  const [name, day] = flight.split("/");
  return el("a", { href: flightPath(flight), title: flight }, name, " ", el("span", { class: "quiet" }, shortDay(day)));
}

// A text with links: its waybills, its flights with their days, and the views that it names.
const LINKED = new RegExp("(\\d{3}-\\d{8})|([A-Z\\d]{2}\\d{1,4}[A-Z]?/\\d{4}-\\d\\d-\\d\\d)|" +
  "(?<=\\b(?:in|under) )(Movements|Flights|Telegram|Stock)\\b");

export function linked(text) {
  const found = LINKED.exec(text);
  if (!found) return [text];
  const [all, awb, flight, view] = found;
  const href = awb ? waybillPath(awb) : flight ? flightPath(flight) : `#/${view.toLowerCase()}`;
  return [text.slice(0, found.index), el("a", { href }, all), ...linked(text.slice(found.index + all.length))];
}

// A field for a code, such as an airport's, in capital letters.
export const codeField = (id, example, kind = "code") =>
  el("input", { id, class: kind, autocomplete: "off", spellcheck: "false", placeholder: example });

// A word that warns, where there is something to warn of.
export const warning = (on, text) => (on ? [" ", el("span", { class: "tag warn" }, text)] : []);

// A bar of amounts, each drawn by its part of the greatest amount. The numbers beside a bar say the same as it.
export function bar(amounts, most) {
  const node = el("span", { class: "bar", "aria-hidden": "true" });
  for (const [kind, amount] of amounts) {
    const part = el("i", { class: kind });
    part.style.width = `${most ? Math.min(100, (100 * amount) / most) : 0}%`;
    node.append(part);
  }
  return node;
}

export const legend = (...kinds) => el("p", { class: "legend" },
  ...kinds.map(([kind, text]) => el("span", {}, el("i", { class: kind, "aria-hidden": "true" }), text)));

// A card of a view: its heading, what stands at the right of it, and a body that is filled again when its data changed.
export function card(title, { id, wide = false, link } = {}) {
  const heading = el("h2", { id: id && `${id}-title` }, title);
  const note = el("span", { class: "quiet note" });
  const body = el("div", { class: "body" });
  const head = el("header", {}, heading, note, ...(link ? [el("a", { href: link[0], class: "more" }, link[1])] : []));
  const node =
    el("section", { class: `panel${wide ? " wide" : ""}`, id, "aria-labelledby": id && heading.id }, head, body);
  return { node, body, note, head, heading };
}

// Fills a node if what it shows has changed, and leaves the keyboard where it was.
const shown = new WeakMap();

export function fill(node, key, make) {
  const text = typeof key === "string" ? key : JSON.stringify(key);
  if (shown.get(node) === text) return;
  shown.set(node, text);
  const mark = markOf(node, document.activeElement);
  node.replaceChildren(...[make()].flat().filter(Boolean));
  if (mark) node.querySelector(mark)?.focus({ preventScroll: true });
}

function markOf(node, active) {
  if (!active || active === node || !node.contains(active)) return null;
  if (active.id) return `#${CSS.escape(active.id)}`;
  const href = active.getAttribute("href");
  return href ? `a[href="${CSS.escape(href)}"]` : null;
}

export const empty = (text) => el("p", { class: "empty quiet" }, ...linked(text));

// A row of a list of bars: who or what, its bar, and its numbers.
export const barRow = (who, amounts, most, ...what) =>
  el("li", {}, el("span", { class: "who" }, who), bar(amounts, most), el("span", { class: "what" }, ...what));
