// Messages: those in the outbox, the last that arrived, and a telegram that is read before it is taken.
import { REPORTS, objectOf, rowsOf, meaning } from "./desk.js";
import { faultOf, makeForm, makeTelegramForm, openForm, specOf } from "./forms.js";
import { makeList } from "./list.js";
import { olderButton } from "./movements.js";
import { card, counted, el, empty, fill, grouped, kilograms, waybillLink } from "./parts.js";
import { STATUSES } from "./words.js";

const linesOf = (text) => text.split(/\r?\n/);

// The code of a status message, or FFM.
export const statusOf = (text) => (text.startsWith("FSU") ? linesOf(text)[2]?.slice(0, 3) ?? "FSU" : text.slice(0, 3));

// A message in words: its status, and a name if it has one, such as that of the one who took delivery.
export function messageWords(text) {
  if (!text.startsWith("FSU")) return `manifest of ${linesOf(text)[1]?.split("/")[1] ?? "a flight"}`;
  const [code, ...fields] = (linesOf(text)[2] ?? "").split("/");
  return [STATUSES[code] ?? code, ...fields].join(" · ");
}

const aboutOf = (text) => /^\d{3}-\d{8}/.exec(linesOf(text)[1] ?? "")?.[0];
const AT_ONCE = 200; // messages that are shown first, the oldest, as they are confirmed

const TRAIL_COLUMNS = [
  { head: "No.", amount: true, cell: (row) => row.number, sort: (row) => row.number },
  { head: "Waybill", cell: (row) => waybillLink(row.awb), sort: (row) => row.awb },
  { head: "Line", cell: (row) => row.line, sort: (row) => row.line },
];

export function make({ query }) {
  const outbox = card("Outbox", { id: "outbox", wide: true });
  const trail = makeList({ id: "trail", title: "Last status messages", unit: "line", wide: true, by: 0, down: true,
    columns: TRAIL_COLUMNS, query, hint: "waybill, status", none: "No status message arrived.",
    keyOf: ({ number }) => number, textOf: ({ awb, line }) => `${awb} ${line}` });
  const older = olderButton(REPORTS.trail, "lines", () => trail.show(rowsOf(REPORTS.trail)));
  const acts = card("Commands", { id: "commands" });
  const confirm = makeForm(specOf("confirm"), { about: "messages", note: ({ upto }) => confirmWords(upto) });
  const messages = messageList(confirm);
  outbox.body.append(messages.node);
  trail.body.append(older.node);
  acts.body.append(confirm.node);
  confirm.node.open = true;
  return {
    title: "Messages",
    node: el("div", { class: "view with-side" }, el("div", { class: "main grid" }, outbox.node, trail.node),
      el("aside", {}, acts.node)),
    needs: () => [REPORTS.outbox, REPORTS.trail],
    whole: () => trail.whole(),
    show() {
      outbox.note.textContent = counted(rowsOf(REPORTS.outbox).length, "message");
      messages.show();
      trail.show(rowsOf(REPORTS.trail));
      older.mark();
      confirm.refresh();
    },
  };
}

// What confirming up to a number does, before it is sent: it can't be taken back.
function confirmWords(upto) {
  const those = rowsOf(REPORTS.outbox).filter(({ number }) => number <= Number(upto));
  if (!upto || !those.length) return "Confirming a message confirms all before it too. They leave the outbox for good.";
  const which = those.length === 1 ? "" : `, ${grouped(those[0].number)} to ${grouped(those.at(-1).number)}`;
  const leave = those.length === 1 ? "leaves" : "leave";
  const many = `${counted(those.length, "message")}${which}`;
  return `Message ${upto} and all before it: ${many}, ${leave} the outbox for good.`;
}

// The messages that wait: the oldest first, the others on demand, and those with a text.
function messageList(confirm) {
  const input = el("input", { id: "outbox-with", type: "search", autocomplete: "off", spellcheck: "false",
    placeholder: "waybill, flight, status" });
  const filter = el("div", { class: "filters" }, el("label", { for: input.id }, "Only with"), input);
  const list = el("div");
  const more = el("button", { type: "button", class: "plain", id: "more-messages" });
  const rest = el("p", { class: "older" }, more);
  const state = { many: AT_ONCE };
  input.addEventListener("input", show);
  more.addEventListener("click", () => {
    state.many *= 5;
    show();
  });

  function show() {
    const text = input.value.trim().toUpperCase();
    const all = rowsOf(REPORTS.outbox);
    const those = all.filter((message) => !text || message.text.toUpperCase().includes(text));
    const some = those.slice(0, state.many);
    filter.hidden = all.length === 0;
    rest.hidden = some.length === those.length;
    more.textContent = `Show more: ${grouped(those.length - some.length)} follow`;
    fill(list, [some.map(({ number }) => number), all.length > 0], () => (some.length
      ? el("ul", { class: "messages", "aria-label": "Outbox" }, ...some.map((each) => messageRow(each, confirm)))
      : empty(all.length ? "No message is like that." : "Every message is confirmed.")));
  }
  return { node: el("div", {}, filter, list, rest), show };
}

function messageRow({ number, text }, confirm) {
  const awb = aboutOf(text);
  const title = `Fill the form of confirm: message ${number}, and all before it`;
  const button = el("button", { class: "plain", type: "button", id: `confirm-${number}`, title }, "Confirm to here");
  button.addEventListener("click", () => openForm(confirm, { upto: String(number) }));
  return el("li", {}, el("span", { class: "order" }, String(number)),
    el("div", { class: "text" },
      el("p", {}, el("b", {}, statusOf(text)), " ", messageWords(text).split(" · ")[0], " ",
        ...(awb ? [waybillLink(awb)] : [])),
      el("pre", {}, text.trimEnd())),
    button);
}

// A telegram: what the desk would read of it stands beside it while it is typed.
export function makeTelegram() {
  const text = card("Telegram", { id: "telegram" });
  const seen = card("What the desk reads of it", { id: "read" });
  seen.body.setAttribute("aria-live", "polite");
  text.body.append(makeTelegramForm((body, answer) => fill(seen.body, [body, answer], () => readPart(body, answer))));
  fill(seen.body, "none", () => readPart("", null));
  return {
    title: "Telegram", node: el("div", { class: "view halves" }, text.node, seen.node), needs: () => [], show() {},
  };
}

function readPart(body, answer) {
  if (!answer) return empty("Paste an FWB, FFM or FSU: its lines are shown here before anything is taken.");
  const told = objectOf(answer.text);
  if (answer.status === 200) return [readHead(told), lineTable(body, told)];
  const lines = meaning(answer).lines.slice(0, 1).map((line) => el("p", {}, line));
  return [
    el("div", { class: "answer" }, el("div", { class: "warn-answer" }, ...lines)),
    ...(told.refused === 301 ? [faultLines(body, faultOf(body, told.detail))] : [])
  ];
}

// The text of a telegram that can't be read, with its faulty line marked.
const faultLines = (body, fault) => el("ol", { class: "lines" }, ...linesOf(body.trimEnd()).map((line, place) => {
  const isFault = place + 1 === fault.line;
  return el("li", { class: isFault ? "doubtful" : "frame" }, el("code", {}, line),
    el("span", {}, isFault ? fault.words : ""));
}));

function readHead({ kind, flight, date, loaded, part, awb, read, doubtful }) {
  const about = kind === "FFM" ? `${flight}/${date} from ${loaded}, part ${part}` : awb ?? "";
  return el("p", { class: doubtful ? "verdict warn" : "verdict good" }, el("b", {}, kind),
    `${about && ` ${about}`}: ${counted(read.length, "line")} read`,
    doubtful ? "; a line may be meant and isn't read: look at what is marked." : ".");
}

// Each line of the text, with what is read of it.
function lineTable(body, { read, passed, dropped }) {
  const lines = linesOf(body.trimEnd());
  const start = dropped.length;
  const meant = (doubtful, text) => (doubtful ? ["doubtful", `${text}; is it meant?`] : ["passed", text]);
  const words = new Map([
    ...passed.map(({ line, doubtful }) => [line + start, meant(doubtful, "passed over")]),
    ...read.map((line) => [line.line + start, readOf(line)]),
    ...dropped.map(({ doubtful }, place) => [place + 1, meant(doubtful, "before the message")]),
  ]);
  return el("ol", { class: "lines" }, ...lines.map((line, place) => {
    const [kind, text] = words.get(place + 1) ?? ["frame", ""];
    return el("li", { class: kind }, el("code", {}, line), el("span", {}, text));
  }));
}

function readOf({ doubtful, text, pieces, tenths, total, unload, awb }) {
  if (text !== undefined) return doubtful ? ["doubtful", "kept as a remark; is it meant?"] : ["taken", "a status line"];
  const words =
    [`${counted(pieces, "piece")}, ${kilograms(tenths)} kg`, total && `of ${total}`, unload && `to ${unload}`].filter(
      Boolean);
  return ["taken", `${awb}: ${words.join(" ")}`];
}
