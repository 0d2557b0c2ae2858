// A list in which several waybills are ticked, and one command is sent for each of them, one after another.
import { doubtsOf, isMeant, once, sendKept, showAnswer, unansweredAt } from "./forms.js";
import { el, fill } from "./parts.js";
import { marked, picked, totalCell } from "./table.js";
import { AGAIN, FIELDS } from "./words.js";

// `acts` are what is sent for a row, each with its verb, the field of the pieces, what its button says, and a warning
// if it must be pressed twice; the place of a command is the verb, `about` and the waybill. `most` says how many pieces
// a row has, and `body` makes the members of a command beside these two. `paper` makes the head on paper, `total` the
// last row.
export function makeBatch({ id, acts, about, label, most, columns, body, pick, paper, total }) {
  const chosen = new Map(); // the waybills that are ticked, and the pieces of each as they were typed
  const said = new Map(); // what the desk answered, by waybill
  const list = el("div", { class: "scroll" });
  const buttons = acts.map(({ verb }, place) => el("button", { class: place ? "plain" : "send", id: `${id}-${verb}` }));
  const all = el("button", { type: "button", class: "plain" }, "Tick all");
  const answer = el("output", { class: "answer" });
  const form = el("form", { id, class: "batch", novalidate: "" }, list,
    el("div", { class: "row inline" }, ...buttons, all), answer);
  let rows = [];
  let none = "";

  all.addEventListener("click", () => {
    const isFull = rows.every(({ awb }) => chosen.has(awb));
    const piecesOf = (row) => chosen.get(row.awb) ?? String(most(row));
    const ticked = isFull ? [] : rows.map((row) => [row.awb, piecesOf(row)]);
    chosen.clear();
    for (const [awb, text] of ticked) chosen.set(awb, text);
    draw();
  });
  const parts = { button: buttons[0], answer, busy: false, looked: null };
  form.addEventListener("submit", (event) => {
    event.preventDefault();
    if (parts.busy) return;
    const place = Math.max(0, buttons.indexOf(event.submitter));
    parts.button = buttons[place];
    if (chosen.size) once(parts, () => sendAll(acts[place]));
    else showAnswer(answer, "warn", ["Nothing is ticked."]);
  });

  const placeOf = (verb, awb) => `${verb} ${about} ${awb}`;

  // What was sent before the page was loaded again, and had no answer, is ticked again.
  function takeUnanswered(row) {
    const lost = acts.map(({ verb }) => unansweredAt(placeOf(verb, row.awb))).find((each) => each.lost);
    if (!lost || chosen.has(row.awb)) return;
    chosen.set(row.awb, Object.values(lost.values)[0]);
    said.set(row.awb, ["bad", [AGAIN]]);
  }

  async function sendAll({ verb, amount, warns }) {
    const done = [];
    const rowOfAwb = (awb) => rows.find((each) => each.awb === awb);
    const bodyOf = ([awb, text]) => ({ awb, ...body(rowOfAwb(awb)), [amount]: FIELDS[amount].send(text) });
    const doubts = [...new Set([...chosen].flatMap((each) => doubtsOf(bodyOf(each))))];
    if (!isMeant(parts, JSON.stringify([verb, ...chosen]), [...doubts, ...(warns ? [warns] : [])])) return;
    for (const [awb, text] of [...chosen]) {
      const sent = bodyOf([awb, text]);
      const { mark, lines } = await sendKept(placeOf(verb, awb), verb, sent, { [amount]: text },
        { sent: [verb, ...Object.values(sent)].join(" "), at: location.hash });
      said.set(awb, [mark, lines]);
      if (mark === "bad") break;
      if (mark !== "good") continue;
      chosen.delete(awb);
      done.push(`${awb}: ${text}`);
    }
    tellAll(done);
    draw();
  }

  function tellAll(done) {
    const bad = [...chosen.keys()].filter((awb) => said.has(awb));
    const lines =
      [done.length ? `Accepted: ${done.length} of ${done.length + chosen.size}` : "Nothing was accepted.", ...done];
    const faults = bad.flatMap((awb) => [`${awb}:`, ...said.get(awb)[1]]);
    showAnswer(answer, bad.length ? said.get(bad.at(-1))[0] : "good", [...lines, ...faults]);
  }

  function tick(row, on, count) {
    if (on) chosen.set(row.awb, count.value);
    else chosen.delete(row.awb);
    mark();
  }

  function mark() {
    acts.forEach(({ does }, place) => { buttons[place].textContent = `${does} ${chosen.size || "what is ticked"}`; });
    all.textContent = rows.length && rows.every(({ awb }) => chosen.has(awb)) ? "Tick none" : "Tick all";
  }

  function rowOf(row) {
    const box = el("input", { type: "checkbox", id: `${id}-${row.awb}` });
    const count = el("input",
      { id: `${id}-${row.awb}-${acts[0].amount}`, inputmode: "numeric", autocomplete: "off", class: "few" });
    box.checked = chosen.has(row.awb);
    count.value = chosen.get(row.awb) ?? String(most(row));
    box.addEventListener("change", () => tick(row, box.checked, count));
    count.addEventListener("input", () => {
      box.checked = count.value !== "";
      count.setAttribute("aria-invalid", String(!FIELDS[acts[0].amount].fits(count.value)));
      tick(row, box.checked, count);
    });
    const [kind] = said.get(row.awb) ?? [];
    return picked(el("tr", { class: chosen.has(row.awb) && kind ? `${kind}-row` : undefined },
      el("td", { class: "act noprint" }, box, el("label", { for: box.id, class: "hidden" }, `Tick ${row.awb}`)),
      ...columns.map((column) => el("td", marked(column), column.cell(row))),
      el("td", { class: "amount act noprint" },
        el("label", { for: count.id, class: "hidden" }, `Pieces of ${row.awb}`), count)),
    pick && (() => pick(row)));
  }

  function tableOf() {
    const heads = columns.map((column) => el("th", { scope: "col", ...marked(column) }, column.head));
    const head = el("tr", {}, el("th", { class: "noprint" }), ...heads,
      el("th", { scope: "col", class: "amount noprint" }, label ?? FIELDS[acts[0].amount].label));
    const span = String(columns.length);
    const onPaper = paper ? [el("tr", { class: "paper" }, el("th", { colspan: span }, paper()))] : [];
    const foot = total ? [el("tfoot", {}, el("tr", {}, el("td", { class: "noprint" }),
      ...total(rows).map(totalCell(columns)), el("td", { class: "noprint" })))] : [];
    return el("table", {}, el("thead", {}, ...onPaper, head), el("tbody", {}, ...rows.map(rowOf)), ...foot);
  }

  function draw() {
    form.classList.toggle("bare", rows.length === 0);
    fill(list, [rows, [...chosen], [...said], none, paper?.()],
      () => (rows.length ? tableOf() : el("p", { class: "empty quiet" }, none)));
    mark();
  }

  return {
    node: form,
    show(now, text) {
      rows = now;
      none = text;
      for (const awb of chosen.keys()) if (!rows.some((row) => row.awb === awb)) chosen.delete(awb);
      rows.forEach(takeUnanswered);
      if (!list.contains(document.activeElement) || document.activeElement.type === "checkbox") draw();
    },
  };
}
