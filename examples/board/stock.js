// The stock of waybill numbers: who holds how many, the runs, and the commands on them.
import { REPORTS, agentReport, readLast, rowsOf } from "./desk.js";
import { fillOpen, makeForm, openForm, specOf } from "./forms.js";
import { makeList } from "./list.js";
import { barRow, card, codeField, counted, el, empty, fill, groupBy, grouped, sum, warning } from "./parts.js";
import { plainTable } from "./table.js";

export const LOW = 20; // an agent with fewer numbers runs out

const agentsOf = (stock) => stock.filter(({ holder }) => holder === "agent");

// How many numbers each agent has.
export const holdings = (stock) => [...groupBy(agentsOf(stock), ({ name }) => name)]
  .map(([agent, runs]) => ({ agent, count: sum(runs, ({ count }) => count), runs: runs.length }));

const countOf = (stock, holder) => sum(stock.filter((row) => row.holder === holder), ({ count }) => count);

export function make({ query }) {
  const agent = (query.get("agent") ?? "").trim().toUpperCase();
  const held = agentReport(agent);
  const forms = ["issue", "return", "take-in", "void"].map((verb) => makeForm(specOf(verb), { about: "stock" }));
  const agents = card("Numbers of the agents", { id: "holdings", wide: true });
  const one = card(agent ? `Numbers of ${agent}` : "An agent", { id: "held", wide: true });
  const acts = card("Commands", { id: "commands" });
  const runs = runList(forms, query);
  one.node.hidden = !agent;
  agents.head.append(agentForm(agent));
  acts.body.append(...forms.map(({ node }) => node));
  return {
    title: "Stock",
    node: el("div", { class: "view with-side" }, el("div", { class: "main grid" }, one.node, agents.node, runs.node),
      el("aside", {}, acts.node)),
    needs: () => (agent ? [REPORTS.stock, held] : [REPORTS.stock]),
    whole: () => runs.whole(),
    show() {
      const stock = rowsOf(REPORTS.stock);
      fill(agents.body, stock, () => agentBars(stock));
      fill(one.body, [readLast(held).rows, readLast(held).unknown], () => heldPart(agent, readLast(held), forms));
      for (const form of forms) form.refresh();
      runs.show(stock);
    },
  };
}

function agentForm(agent) {
  const input = codeField("agent-code", "ACME");
  input.value = agent;
  const label = el("label", { for: input.id }, "Agent");
  const form = el("form", { class: "row", id: "agent-form" }, label, input, el("button", { class: "plain" }, "Show"));
  form.addEventListener("submit", (event) => {
    event.preventDefault();
    location.hash = `#/stock?agent=${encodeURIComponent(input.value.trim().toUpperCase())}`;
  });
  return form;
}

export function holdingRow({ agent, count }, most, ...what) {
  const link = el("a", { href: `#/stock?agent=${agent}` }, agent);
  return barRow(link, [[count < LOW ? "missing" : "built", count]], most, ...what, ...warning(count < LOW, "runs out"));
}

function agentBars(stock) {
  const all = holdings(stock).sort((one, other) => one.count - other.count);
  const desk = countOf(stock, "desk");
  if (!all.length) return empty("No agent has numbers.");
  const most = Math.max(LOW, ...all.map(({ count }) => count));
  const rows = all.map((each) => holdingRow(each, most, `${counted(each.count, "number")} `,
    el("span", { class: "quiet" }, `in ${counted(each.runs, "run")}`)));
  return [
    el("ul", { class: "bars" }, ...rows),
    el("p", { class: "empty quiet" },
      `The desk has ${grouped(desk)}; ${grouped(countOf(stock, "used"))} are used, ${
        grouped(countOf(stock, "void"))} void.`)
  ];
}

function heldPart(agent, { rows, unknown }, forms) {
  if (!agent) return [];
  if (unknown) return el("p", { class: "stale" }, `${agent} isn't the code of an agent: 1 to 11 letters or digits.`);
  if (!rows) return el("p", { class: "stale" }, "The desk didn't answer.");
  if (rows.length === 0) return empty(`${agent} has no unused numbers.`);
  return plainTable(
    `Numbers of ${agent}`, [...RUN.slice(0, 4), { head: "", kind: "act", cell: (row) => runButton(row, forms) }], rows);
}

const RUN = [
  { head: "Prefix", cell: (row) => row.prefix, sort: (row) => row.prefix },
  { head: "First", cell: (row) => row.first, sort: (row) => `${row.prefix}${row.first}` },
  { head: "Last", cell: (row) => row.last },
  { head: "Count", amount: true, cell: (row) => row.count, sort: (row) => row.count },
];

const HELD = Object.fromEntries([["desk", "With the desk"], ["agent", "With agents"], ["used", "Used"],
  ["void", "Void"]].map(([holder, title]) => [holder, [title, (row) => row.holder === holder]]));

const runTotals = (rows) => ["All of these", "", "", grouped(sum(rows, ({ count }) => count)), "", ""];

const runList = (forms, query) => makeList({
  id: "stock", title: "Runs of numbers", unit: "run", wide: true, by: 1, shows: HELD, query, totalOf: runTotals,
  hint: "prefix, serial, agent", none: "No numbers are in stock: take in those that the airline gave you.",
  textOf: ({ prefix, first, last, name }) => `${prefix} ${prefix}-${first} ${prefix}-${last} ${name}`,
  pick: (row) => fillOpen(forms, { prefix: row.prefix, serial: row.first, count: String(row.count), agent: row.name }),
  columns: [...RUN,
    { head: "Holder", cell: (row) => `${row.holder} ${row.name}`.trim(), sort: (row) => `${row.holder} ${row.name}` },
    { head: "", kind: "act noprint", cell: (row) => runButton(row, forms) }],
});

// The command that a run asks for: numbers of the desk are issued, numbers of an agent returned.
function runButton(row, forms) {
  const verb = { desk: "issue", agent: "return" }[row.holder];
  if (!verb) return "";
  const title = `Fill the form of ${verb}: from ${row.prefix} ${row.first}`;
  const button = el("button", { type: "button", class: "plain", title }, verb === "issue" ? "Issue" : "Return");
  const values = verb === "issue" ? { prefix: row.prefix, serial: row.first, count: String(Math.min(50, row.count)) }
    : { prefix: row.prefix, serial: row.first, count: String(row.count), agent: row.name };
  button.addEventListener("click", () => openForm(forms.find(({ spec }) => spec.verb === verb), values));
  return button;
}
