// The forms of the commands and of telegrams. Each form has a key of its own, which is kept until an answer settles it.
import { REPORTS, ask, meaning, objectOf, rowsOf } from "./desk.js";
import { counted, dayMeant, dayText, daysSince, drawn, el, linked, pieces, today } from "./parts.js";
import { AGAIN, FIELDS, LINE_FAULTS, TWICE, VERBS, checkDigit, numberOf } from "./words.js";

const DOUBLE_CLICK = 500; // milliseconds after an answer in which a form isn't sent again

const tell = (name) => document.dispatchEvent(new Event(name));

export function showAnswer(output, mark, lines) {
  output.replaceChildren(el("div", { class: `${mark}-answer` }, ...lines.map((line) => el("p", {}, ...linked(line)))));
}

// What is unusual about a command: a flight that is more than a week away, a count above what is announced.
const A_WEEK = 7;

export function doubtsOf({ awb, flight, date, counted: many }) {
  const days = daysSince(date ?? today());
  const away = `${counted(Math.abs(days), "day")} ${days < 0 ? "ahead" : "ago"}`;
  const name = `${flight?.replace(/^(..)0+(?=\d{3})/, "$1")}/${date}`;
  const row = rowsOf(REPORTS.expected).find((each) => each.awb === awb && each.flight === name);
  return [Math.abs(days) > A_WEEK && `${flight} of ${dayText(date)} is ${away}.`,
    row && many > row.pieces && `${awb}: ${pieces(many)} counted, ${row.pieces} announced.`].filter(Boolean);
}

// Whether to send what is unusual: the first press shows it, and the second sends it, if it is the same then.
export function isMeant(parts, text, doubts, why = "Not sent yet.") {
  const meant = !doubts.length || parts.looked === text;
  parts.looked = meant ? null : text;
  if (!meant) showAnswer(parts.answer, "warn", [why, ...doubts, TWICE]);
  return meant;
}

// Commands without an answer that settles them. They are kept in the tab, also where the page is loaded anew.
const PLACE = "unanswered ";
const under = new Set(); // those whose answer is on its way

function newKey() {
  const bytes = crypto.getRandomValues(new Uint8Array(10));
  return Array.from(bytes, (byte) => byte.toString(16).padStart(2, "0")).join("");
}

export const unansweredAt = (place) => objectOf(sessionStorage.getItem(PLACE + place) ?? "{}");

// The commands that may have been accepted, and whose answer was lost.
export function lostCommands() {
  return Object.keys(sessionStorage).filter((name) => name.startsWith(PLACE)).map((name) => name.slice(PLACE.length))
    .filter((place) => !under.has(place) && unansweredAt(place).lost)
    .map((place) => ({ place, ...unansweredAt(place) }));
}

// Sends a command under the key of its place. The key stays until the desk has answered 200 or 409.
export async function sendKept(place, verb, body, values, about) {
  const key = unansweredAt(place).key ?? newKey();
  const keep = (lost) =>
    sessionStorage.setItem(PLACE + place, JSON.stringify({ key, verb, body, values, about, lost }));
  keep(true);
  under.add(place);
  const answer = await ask(`/v1/act/${verb}`, {
    method: "POST",
    headers: { "Content-Type": "application/json", "Request-Key": key },
    body: JSON.stringify(body),
  });
  const said = meaning(answer);
  if (answer.status === 400 && objectOf(answer.text).detail === "body") await addFault(said, verb, body);
  under.delete(place);
  if (said.settled) sessionStorage.removeItem(PLACE + place);
  else keep(said.mark === "bad");
  return said;
}

// Why the desk can't read a command, in its own words: it names the field first.
async function addFault(said, verb, body) {
  const { reason } = objectOf((await ask(`/v1/check/${verb}`, { method: "POST", body: JSON.stringify(body) })).text);
  const [, name, words] = /^"(\w+)": (.*)$/.exec(reason ?? "") ?? [];
  if (reason) said.lines = ["Not taken.", reason];
  if (!FIELDS[name]) return;
  // The desk counts tenths, and the page kilograms.
  said.fault = { name, words: name === "tenths" ? `expected ${FIELDS.tenths.wanted}` : words };
  said.lines = ["Not taken.", `${FIELDS[name].label}: ${said.fault.words}`];
}

// A field of a form: its label, its input, and the hint that becomes a fault where the text doesn't fit.
function makeField(spec, name, optional) {
  const field = FIELDS[name];
  const id = `${spec.verb}-${name}`;
  const hint = el("span", { class: "hint", id: `${id}-hint` });
  const input = el("input", { id, name, autocomplete: "off", spellcheck: "false", "aria-describedby": hint.id });
  if (field.code) input.className = "code";
  if (field.send) input.inputMode = "decimal";
  if (field.day) Object.assign(input, { type: "date", min: "2000-01-01", max: "2099-12-31" });
  else input.placeholder = field.example;
  const label = (name === "name" && spec.name) || field.label;
  const row = el("div", { class: "field" }, el("label", { for: id }, label), input, hint);
  const made = { name, optional, field, input, hint, row };
  input.addEventListener("input", () => mark(made, input.value !== ""));
  input.addEventListener("change", () => { input.value = textOf(made); });
  return made;
}

function textOf({ field: { code, read = String }, input }) {
  const text = read(input.value.trim());
  return code ? text.toUpperCase() : text;
}
const isLeftOut = (made) => made.optional && textOf(made) === "";

function mark(made, strict) {
  const off = strict && !isLeftOut(made) && !made.field.fits(textOf(made));
  made.input.setAttribute("aria-invalid", String(off));
  made.hint.classList.toggle("off", off);
  made.hint.textContent = (made.optional ? "or nothing; " : "") + wantedOf(made, off);
}

function wantedOf(made, off) {
  const text = textOf(made);
  const awb = /^\d{3}-\d{8}$/.test(text) && made.name === "awb";
  return off && awb ? `the check digit of this serial is ${checkDigit(text)}` : made.field.wanted;
}

function markFault(made, words) {
  made.input.setAttribute("aria-invalid", "true");
  made.hint.classList.add("off");
  made.hint.textContent = words;
}

// Puts back what a field begins with: what the view knows, the day, or nothing.
function clear(made, prefill) {
  const day = made.field.day && !made.optional ? today() : "";
  made.input.value = made.given = String(prefill[made.name] ?? day);
  mark(made, false);
}

// A form of a verb. `fixed` are the fields that the view has chosen, such as its flight: they aren't asked for again.
// `prefill` gives what the others begin with; it is asked again whenever nobody has changed them. `note` says something
// of what the fields have.
export function makeForm(
  spec, { fixed = {}, prefill = () => ({}), note = () => "", about = Object.values(fixed).join(" ") } = {}) {
  const words = spec.fields.split(" ").map((word) => [word.replace("?", ""), word.endsWith("?")]);
  const fields = words.filter(([name]) => !(name in fixed)).map(([name, optional]) => makeField(spec, name, optional));
  const place = `${spec.verb} ${about}`.trim();
  const button = el("button", { class: "send" }, "Send");
  const answer = el("output", { class: "answer" });
  const said = el("p", { class: "said quiet" });
  const parts = { spec, words, fields, fixed, prefill, place, busy: false, looked: null, button, answer };
  const asked = el("div", { class: "asked" }, said,
    el("div", { class: "fields" }, ...fields.map((made) => made.row)), button);
  const form = el("form", { id: `${spec.verb}-form`, novalidate: "" }, asked, answer);
  const tellNote = () => {
    said.textContent = note(Object.fromEntries(fields.map((made) => [made.name, textOf(made)])));
  };
  form.addEventListener("input", tellNote);
  form.addEventListener("submit", (event) => {
    event.preventDefault();
    once(parts, () => sendCommand(parts));
  });
  fields.forEach((made) => clear(made, prefill()));
  const node = makeChoice(spec, form, restore(parts));
  return {
    spec, node,
    refresh(applies = true) {
      const given = prefill();
      for (const made of fields)
        if (made.input.value === made.given && document.activeElement !== made.input) clear(made, given);
      tellNote();
      // What was accepted, and can't be sent again, leaves its answer.
      asked.hidden = !applies && Boolean(answer.querySelector(".good-answer"));
      node.hidden = !applies && !answer.firstChild && !node.contains(document.activeElement);
    },
    fill(values) {
      node.open = true;
      for (const made of fields.filter(({ name }) => name in values)) {
        made.input.value = values[made.name];
        mark(made, true);
      }
      tellNote();
    },
  };
}

function makeChoice(spec, form, open) {
  const arrow =
    drawn("svg", { viewBox: "0 0 10 10", class: "arrow", "aria-hidden": "true" }, drawn("path", { d: "M3 1l4 4-4 4" }));
  const choice = el("details", { name: "command", id: `${spec.verb}-choice`, class: "choice" },
    el("summary", {}, arrow, el("b", {}, spec.verb), " ", el("span", { class: "quiet" }, spec.does)), form);
  choice.open = open;
  return choice;
}

export const specOf = (verb) => VERBS.find((spec) => spec.verb === verb);

// Puts back what was sent before, and had no answer.
function restore({ fields, place, answer }) {
  const { values, lost } = unansweredAt(place);
  if (!lost) return false;
  for (const made of fields) made.input.value = values[made.name] ?? "";
  showAnswer(answer, "bad", ["This command has had no answer that settles it.", AGAIN]);
  return true;
}

// Sends a form. A second click while the answer is on its way, or just after it, is part of a double click.
export async function once(parts, send) {
  if (parts.busy) return;
  parts.busy = true;
  parts.button.setAttribute("aria-disabled", "true");
  try {
    await send();
  } finally {
    setTimeout(() => free(parts), DOUBLE_CLICK);
    tell("desk-acted");
  }
}

function free(parts) {
  parts.button.removeAttribute("aria-disabled");
  parts.busy = false;
}

const bodyValue = (name, text) => (FIELDS[name].send ?? String)(text);

function bodyOf({ words, fields, fixed }) {
  const given = new Map(fields.filter((made) => !isLeftOut(made)).map((made) => [made.name, textOf(made)]));
  return Object.fromEntries(words.map(([name]) => [name, fixed[name] ?? given.get(name)])
    .filter(([, text]) => text !== undefined).map(([name, text]) => [name, bodyValue(name, text)]));
}

// The words of a command, as they are shown beside its answer.
function wordsOf({ spec, words, fields, fixed }) {
  const shownOf = ([name]) => fixed[name] ?? textOf(fields.find((made) => made.name === name));
  return [spec.verb, ...words.map(shownOf)].join(" ").trim();
}

async function sendCommand(parts) {
  const { spec, fields, place, prefill, answer } = parts;
  for (const made of fields) mark(made, true);
  const values = Object.fromEntries(fields.map((made) => [made.name, made.input.value]));
  const sent = wordsOf(parts);
  const body = bodyOf(parts);
  if (!isMeant(parts, sent, unansweredAt(place).lost ? [] : doubtsOf(body))) return;
  const said = await sendKept(place, spec.verb, body, values, { sent, at: location.hash });
  const accepted = said.mark === "good";
  const wrong = fields.find(({ name }) => name === said.fault?.name);
  if (wrong) markFault(wrong, said.fault.words);
  showAnswer(answer, said.mark, accepted ? [...said.lines, sent] : said.lines);
  if (!accepted) return;
  fields.forEach((made) => clear(made, prefill()));
  if (answer.isConnected && fields.length > 1 && "flight" in parts.fixed) fields[0].input.focus();
}

// The form of a telegram. It has no key: the desk knows a telegram by its text.
const wireText = (text) => text.replace(/\r?\n/g, "\r\n").replace(/(\r\n)*$/, "\r\n");
const A_LOOK = 400; // milliseconds after the last key until a telegram is read

export function makeTelegramForm(showRead) {
  const hint = el("span", { class: "hint", id: "telegram-hint" });
  const input = el("textarea", {
    id: "telegram-text", rows: "14", spellcheck: "false", "aria-describedby": hint.id,
    placeholder: "FFM/8\n1/LH401/12JAN/JFK\nFRA\n057-12345675JFKFRA/T10K100.0/PARTS\nLAST",
  });
  const button = el("button", { class: "send" }, "Send");
  const answer = el("output", { class: "answer" });
  const parts = { busy: false, looked: null, told: {}, waiting: 0, input, hint, button, answer, showRead };
  const form = el("form", { id: "telegram-form" },
    el("div", { class: "field long" }, el("label", { for: input.id }, "Text"), input, hint), button, answer);
  input.addEventListener("input", () => {
    markTelegram(parts);
    clearTimeout(parts.waiting);
    parts.waiting = setTimeout(() => look(parts), A_LOOK);
  });
  form.addEventListener("submit", (event) => {
    event.preventDefault();
    once(parts, () => sendTelegram(parts));
  });
  markTelegram(parts);
  return form;
}

function markTelegram({ input, hint }) {
  const heads = input.value.match(/^(FWB|FFM|FSU)\//gm) ?? [];
  const off = heads.length > 1;
  hint.classList.toggle("off", off);
  hint.textContent = off
    ? "Here are several messages: the desk reads everything after the first as lines of it. Split them."
    : "One message at a time.";
}

// Shows what the desk would read of the text as it stands.
async function look({ input, showRead, busy }) {
  const text = input.value;
  if (busy || !text.trim()) return showRead(text, null);
  const answer = await ask("/v1/read", { method: "POST", body: wireText(text) });
  if (text === input.value) showRead(text, answer);
}

// The lines of a telegram that the desk would pass over, or keep as a remark, and that may be meant. They are counted
// from the start of the text, as everywhere on the page.
async function doubtfulLines(parts, body) {
  const answer = await ask("/v1/read", { method: "POST", body });
  parts.showRead(parts.input.value, answer);
  parts.told = answer.status === 200 ? objectOf(answer.text) : {};
  const { dropped = [], passed = [], read = [] } = parts.told;
  const named = [...dropped.map((line, place) => ({ ...line, line: place + 1 - dropped.length })), ...passed, ...read];
  return named.filter(({ doubtful }) => doubtful).map(({ line, text }) => `Line ${line + dropped.length}: ${text}`);
}

// The faulty line of a telegram that can't be read, counted from the start of the text, and what is wrong there. Faults
// of bytes and of length are counted so by the desk, all others from the line that names the message.
export function faultOf(body, detail) {
  const [number, fault] = detail.split(" ");
  const lines = body.split(/\r?\n/);
  const start =
    fault === "byte" || fault === "long" ? 0 : Math.max(0, lines.findIndex((line) => /^(FWB|FFM|FSU)\//.test(line)));
  const line = start + Number(number);
  const awb = numberOf(lines[line - 1]?.slice(0, 12) ?? "");
  const digit = fault === "number" ? `: of this serial it is ${checkDigit(awb)}` : "";
  return { line, words: `${LINE_FAULTS[fault] ?? fault}${digit}` };
}

// What a telegram is about: the flight of an FFM, the waybill of an FWB or FSU.
const aboutOf = ({ kind, flight, date, awb, read = [] }) =>
  (kind === "FFM" ? `${flight}/${dayMeant(date)}` : awb ?? read[0]?.awb);

// A telegram with such a line is sent on a second press, if it is the same then.
async function sendTelegram(parts) {
  clearTimeout(parts.waiting);
  const body = wireText(parts.input.value);
  const doubts = parts.looked === body ? [] : await doubtfulLines(parts, body);
  if (!isMeant(parts, body, doubts, "Not sent yet: the desk would pass over what may be meant.")) return;
  const answer = await ask("/v1/telegrams", { method: "POST", body });
  const said = meaning(answer);
  const { refused, detail } = objectOf(answer.text);
  const fault = refused === 301 && detail ? faultOf(body, detail) : null;
  if (fault) said.lines[1] = `Line ${fault.line}: ${fault.words}`;
  const about = said.mark === "good" && aboutOf(parts.told);
  showAnswer(parts.answer, said.mark, about ? [...said.lines, `See ${about}`] : said.lines);
  if (said.mark !== "good") return;
  parts.input.value = "";
  parts.showRead("", null);
  markTelegram(parts);
}

// Opens a form of the page, puts values into it, and leaves the sending to the person.
export function openForm(form, values) {
  form.fill(values);
  form.node.scrollIntoView({ block: "nearest" });
  form.node.querySelector("input")?.focus();
}

// A click on a row fills the form that is open.
export const fillOpen = (forms, values) => forms.find(({ node }) => node.open && !node.hidden)?.fill(values);
