// The search of the top bar: a waybill's number or its last digits, a flight, an agent, or a command.
import { REPORTS, rowsOf } from "./desk.js";
import { at, counted, el, flightPath, shortDay, today, waybillPath } from "./parts.js";
import { holdings } from "./stock.js";
import { FIELDS, VERBS, isNumber, numberOf } from "./words.js";

const MOST = 12;
export const SEARCHED =
  ["shed", "expected", "irregularities", "flights", "stock", "moves"].map((name) => REPORTS[name]);

// What fits the text: where it leads, its name, and what it is.
function findAll(typed) {
  const text = typed.trim().toUpperCase();
  if (!text) return [];
  const all = [...wholeNumber(text), ...numbers(text), ...flights(text), ...agents(text), ...verbs(text),
    ...withPrefix(text)];
  return [...new Map(all.map((each) => [each.href, each])).values()];
}

function wholeNumber(text) {
  const awb = numberOf(text);
  return /^\d{3}-\d{8}$/.test(awb)
    ? [{ href: waybillPath(awb), name: awb, what: isNumber(awb) ? "waybill" : "wrong check digit" }]
    : [];
}

// Known waybills that have these digits at their end, or elsewhere if they are four or more.
function numbers(text) {
  const digits = text.replace(/[-\s]/g, "");
  if (!/^\d{2,10}$/.test(digits)) return [];
  const known = new Map();
  for (const [report, what] of [[REPORTS.expected, "expected"], [REPORTS.shed, "in the shed"],
         [REPORTS.irregularities, "irregular"], [REPORTS.moves, "moved"]]) {
    for (const { awb, route = "" } of rowsOf(report)) if (!known.has(awb)) known.set(awb, `${route} ${what}`.trim());
  }
  const all =
    [...known].map(([awb, what]) => ({ href: waybillPath(awb), name: awb, what, digits: awb.replace("-", "") }));
  const ends = all.filter((each) => each.digits.endsWith(digits));
  return [...ends, ...(digits.length > 3 ? all.filter((each) => each.digits.includes(digits)) : [])];
}

// Eight digits may be a number without its prefix: under each prefix that the page has seen, if the check digit fits.
function withPrefix(text) {
  if (!/^\d{8}$/.test(text)) return [];
  const seen = [...rowsOf(REPORTS.stock).map(({ prefix }) => prefix),
    ...[REPORTS.shed, REPORTS.moves].flatMap((report) => rowsOf(report).map(({ awb }) => awb.slice(0, 3)))];
  return [...new Set(seen)].map((prefix) => `${prefix}-${text}`).filter(isNumber)
    .map((awb) => ({ href: waybillPath(awb), name: awb, what: "perhaps; not read yet" }));
}

function flights(typed) {
  const text = FIELDS.flight.read(typed);
  const isLike = ({ flight }) => flight && (flight.startsWith(text) || flight.split("/")[0].endsWith(text));
  const open =
    rowsOf(REPORTS.flights).filter(isLike).map(({ flight, unload }) => flightOf(flight, `open, to ${unload}`));
  const due = rowsOf(REPORTS.expected).filter(isLike).map(({ flight }) => flightOf(flight, "expected"));
  const own = FIELDS.flight.fits(text) ? [flightOf(`${text}/${today()}`, "a flight of today")] : [];
  const moved = rowsOf(REPORTS.moves).filter(isLike).map(({ flight }) => flightOf(flight, "moved"));
  return [...open, ...due, ...moved, ...own];
}

const flightOf = (flight, what) =>
  ({ href: flightPath(flight), name: `${flight.split("/")[0]} ${shortDay(flight.split("/")[1])}`, what });

const agents = (text) => holdings(rowsOf(REPORTS.stock)).filter(({ agent }) => agent.includes(text))
  .map(({ agent, count }) => ({ href: `#/stock?agent=${agent}`, name: agent, what: `agent, ${count} numbers` }));

const verbs = (text) => VERBS.filter(({ verb }) => verb?.toUpperCase().startsWith(text))
  .map(({ verb, does }) => ({ href: `#/commands/${verb}`, name: verb, what: does }));

// The box: arrows go through what was found, Enter opens it, Escape leaves it.
export function beginSearch(wanted) {
  const [form, input, list] = ["search", "search-text", "search-found"].map(at);
  const state = { found: [], more: 0, place: 0 };

  function show() {
    find();
    state.place = 0;
    draw();
  }

  function find() {
    const all = findAll(input.value);
    state.found = all.slice(0, MOST);
    state.more = all.length - state.found.length;
  }

  function draw() {
    const text = input.value.trim();
    const items = state.found.map(({ href, name, what }, place) => el("li", {
      id: `found-${place}`, role: "option", "aria-selected": String(place === state.place), "data-href": href,
    }, el("b", {}, name), " ", el("span", {}, what)));
    const words = items.length ? state.more && `and ${counted(state.more, "other")}: type more of it`
      : "Nothing known is like that. Type a whole waybill number.";
    list.replaceChildren(...items, ...(words ? [el("li", { class: "quiet" }, words)] : []));
    list.hidden = !text;
    input.setAttribute("aria-expanded", String(items.length > 0));
    input.setAttribute("aria-activedescendant", items.length ? `found-${state.place}` : "");
  }

  function go(href) {
    if (!href) return;
    location.hash = href;
    input.value = "";
    list.hidden = true;
    input.setAttribute("aria-expanded", "false");
    input.blur();
  }

  function step(by) {
    if (!state.found.length) return;
    state.place = (state.place + by + state.found.length) % state.found.length;
    draw();
  }

  const keys = {
    ArrowDown: () => step(1),
    ArrowUp: () => step(-1),
    Escape: () => {
      input.value = "";
      list.hidden = true;
      input.blur();
    }
  };
  input.addEventListener("focus", wanted);
  input.addEventListener("input", show);
  input.addEventListener("keydown", (event) => {
    if (!keys[event.key]) return;
    event.preventDefault();
    keys[event.key]();
  });
  input.addEventListener("blur", () => setTimeout(() => { list.hidden = true; }, 150));
  list.addEventListener("mousedown", (event) => event.preventDefault());
  list.addEventListener("click", (event) => go(event.target.closest("[data-href]")?.dataset.href));
  form.addEventListener("submit", (event) => {
    event.preventDefault();
    find();
    go(state.found[state.place]?.href);
  });
  document.addEventListener("keydown", (event) => {
    const writes = event.target.closest?.("input, textarea, select");
    if (event.key !== "/" || writes || event.ctrlKey || event.metaKey || event.altKey) return;
    event.preventDefault();
    input.focus();
    input.select();
  });
  return {
    clear() {
      input.value = "";
      show();
    },
    refresh() {
      if (document.activeElement !== input || !input.value) return;
      find();
      state.place = Math.min(state.place, Math.max(0, state.found.length - 1));
      draw();
    },
  };
}
