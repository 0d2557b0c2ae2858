// The board: its views, each under a path after the `#`, and the readings that keep them as the desk is.
import * as commands from "./commands.js";
import { REPORTS, isDue, read, readLast, rowsOf } from "./desk.js";
import * as flight from "./flight.js";
import * as flights from "./flights.js";
import { lostCommands, sendKept } from "./forms.js";
import * as messages from "./messages.js";
import * as movements from "./movements.js";
import { at, clock, el, fill } from "./parts.js";
import * as receipt from "./receipt.js";
import { SEARCHED, beginSearch } from "./search.js";
import * as shed from "./shed.js";
import { deskName, here, isTraining } from "./station.js";
import * as stock from "./stock.js";
import * as day from "./today.js";
import * as waybill from "./waybill.js";

const PAUSE = 4000; // milliseconds between two readings, and ten times as long as a reading took, if that is more

const VIEWS = {
  today: day.make,
  shed: shed.make,
  announced: shed.makeAnnounced,
  irregularities: shed.makeIrregular,
  movements: movements.make,
  flights: flights.make,
  flight: flight.make,
  waybill: waybill.make,
  receipt: receipt.make,
  stock: stock.make,
  messages: messages.make,
  telegram: messages.makeTelegram,
  commands: commands.make,
};
const TABS = [
  ["today", "Today"], ["shed", "Shed"], ["flights", "Flights"], ["stock", "Stock"], ["messages", "Messages"],
  ["telegram", "Telegram"], ["commands", "Commands"]
];

const board = { view: null, name: "", last: {}, searching: false };

// Views.
function routeNow() {
  const [path, query = ""] = location.hash.slice(2).split("?");
  const [name, ...rest] = path.split("/").map(wordOf);
  return { name: name in VIEWS ? name : "today", rest, query: new URLSearchParams(query) };
}

// A part of an address as a text; a malformed one stays as it is.
function wordOf(part) {
  try {
    return decodeURIComponent(part);
  } catch {
    return part;
  }
}

function openView() {
  const route = routeNow();
  board.name = route.name;
  board.view = VIEWS[route.name](route);
  if (board.view.tab) board.last[route.name] = board.view.tab;
  at("view").replaceChildren(board.view.node);
  board.search.clear();
  at("main").dataset.view = route.name;
  drawTabs();
  showView();
  board.view.shown?.();
  readAll();
}

function drawTabs() {
  const visited = ["flight", "waybill"].filter((name) => board.last[name]).map((name) => [name, ...board.last[name]]);
  const tabs = TABS.flatMap(([name, title]) => [[name, title, `#/${name}`], ...(name === "flights" ? visited : [])]);
  at("parts").replaceChildren(...tabs.map((tab) => tabOf(...tab)));
  const current = at("parts").querySelector("[aria-current]");
  if (current) at("parts").scrollLeft = current.offsetLeft - at("parts").offsetLeft - 40;
  markTabs();
}

function tabOf(name, title, href, whole) {
  const count = name === "messages" ? [" ", el("span", { id: "waiting-count", class: "count" })] : [];
  return el("a", {
    href,
    title: whole,
    "aria-label": whole,
    "aria-current": name === board.name ? "page" : undefined,
    class: name in board.last ? "visited" : undefined
  },
    title, ...count);
}

function markTabs() {
  const waiting = rowsOf(REPORTS.outbox).length;
  at("waiting-count").textContent = waiting ? String(waiting) : "";
}

function showView() {
  board.view.show();
  markTabs();
  showStale();
  showLost();
  document.title = [board.view.title, at("station").textContent, deskName()].filter(Boolean).join(" · ");
}

// What didn't come whole, and what the desk hasn't got.
function showStale() {
  const reports = [...new Set([...board.view.needs(), REPORTS.outbox])];
  const broken = reports.filter((report) => !readLast(report).whole).map(({ title }) => title);
  const since = `What is shown was read at ${reading.at || "no time yet"}.`;
  const told = broken.length ? `The desk's report didn't come whole: ${broken.join(", ")}. ${since}` : "";
  if (at("stale").textContent !== told) at("stale").textContent = told;
  for (const [name, report] of Object.entries(REPORTS).filter(([, report]) => reports.includes(report))) {
    const panel = at(name)?.closest(".panel");
    if (panel) panel.hidden = readLast(report).unknown;
  }
}

// Commands whose answer was lost: each can be sent again from here, under its key.
function showLost() {
  const lost = lostCommands();
  fill(at("lost"), lost, () => lost.map(lostRow));
}

function lostRow({ place, verb, body, values, about }) {
  const button = el("button", { type: "button", class: "plain" }, "Send again");
  const answer = el("output", {});
  button.addEventListener("click", async () => {
    button.disabled = true;
    const said = await sendKept(place, verb, body, values, about);
    at("said").textContent = [about.sent, ...said.lines].join(" · ");
    reading.acted = true;
    openView();
  });
  return el("p", {}, el("b", {}, about.sent),
    " has had no answer that settles it. It acts once, however often it is sent. ",
    el("a", { href: about.at || "#/today" }, "Its form"), " ", button, answer);
}

// Readings: every few seconds while someone looks, and at once after a command or in a new view.
const reading = { number: 0, running: false, again: false, timer: 0, at: "", whole: null };

async function readAll() {
  reading.again = true;
  if (reading.running) return;
  reading.running = true;
  clearTimeout(reading.timer);
  const begun = performance.now();
  while (reading.again) {
    reading.again = false;
    await readOnce();
  }
  reading.running = false;
  reading.timer = setTimeout(readIfSeen, Math.max(PAUSE, 10 * (performance.now() - begun)));
}

// New moves are read first. If there are any, or a command was sent, all that the view shows is read again.
async function readOnce() {
  reading.number += 1;
  const moved = await read(REPORTS.moves, reading.number);
  const all = reading.acted || moved.isNew;
  reading.acted = false;
  const whole = [moved.whole];
  for (const report of wanted()) {
    if (all || isDue(report, reading.number)) whole.push((await read(report, reading.number)).whole);
  }
  showTouch(whole.every(Boolean));
  if (!here()) await read(REPORTS.station, reading.number);
  at("station").textContent = here();
  showView();
  board.search.refresh();
  await board.view.also?.();
}

function wanted() {
  const reports = [...board.view.needs(), REPORTS.outbox, ...(board.searching ? SEARCHED : [])];
  board.searching = false;
  return [...new Set(reports)].filter((report) => report !== REPORTS.moves);
}

function showTouch(isWhole) {
  const said = isWhole ? "Desk answers" : "No answer from the desk";
  if (isWhole) reading.at = clock();
  at("read-at").textContent = reading.at && `Read at ${reading.at}`;
  if (at("touch").textContent === said) return;
  at("touch").textContent = said;
  at("touch").className = isWhole ? "good" : "bad";
}

function readIfSeen() {
  if (!document.hidden) readAll();
}

function begin() {
  at("desk-name").textContent = deskName();
  at("training").hidden = !isTraining();
  board.search = beginSearch(() => {
    board.searching = true;
    readAll();
  });
  addEventListener("hashchange", () => {
    openView();
    scrollTo(0, 0);
    if (!at("view").contains(document.activeElement)) at("main").focus({ preventScroll: true });
  });
  document.addEventListener("desk-acted", () => {
    reading.acted = true;
    readAll();
  });
  document.addEventListener("board-show", () => board.view.show());
  addEventListener("beforeprint", () => board.view.whole?.());
  document.addEventListener("visibilitychange", readIfSeen);
  at("skip").addEventListener("click", (event) => {
    event.preventDefault();
    at("main").focus();
  });
  openView();
}

begin();
