// What the desk takes and says. docs/STATION.md has the rules; the page shows hints, and the desk decides.

import { LIMITS } from "./vocabulary.js";
export { REFUSALS, VERBS } from "./vocabulary.js";

// How a field is written: the words of `wanted` are shown under it, and `fits` says whether to mark it. `read` makes of
// what people type and scan what is meant. `send` makes the member of the body; a number that isn't one goes out as it
// was typed, so that the desk refuses it.
const whole = (text) => (/^\d+$/.test(text) ? Number(text) : text);
const between = (least, most) => (text) => /^\d+$/.test(text) && Number(text) >= least && Number(text) <= most;
const shaped = (shape) => (text) => shape.test(text);
const upTo = (most) => (text) => text.length <= most && /^[ -~]*$/.test(text) && !text.endsWith(" ");
export const checkDigit = (awb) => Number(awb.slice(4, 11)) % 7;
export const isNumber = (awb) => /^\d{3}-\d{8}$/.test(awb) && checkDigit(awb) === Number(awb[11]);

// A waybill's number as it is typed, or scanned of a label, whose last five digits count its pieces; a flight as typed.
export function numberOf(text) {
  const [, prefix, serial] = /^(\d{3})(\d{8})(?:\d{5})?$/.exec(text.replace(/[\s-]/g, "")) ?? [];
  return prefix ? `${prefix}-${serial}` : text;
}
const flightOf = (text) => text.replace(/\s/g, "");

const CARRIER = "(?=.?[A-Z])[A-Z0-9]{2}";
const airport = { wanted: "three letters", fits: shaped(/^[A-Z]{3}$/), code: true };

function tenths(text) {
  const [, kilos, tenth = "0"] = /^(\d+)(?:\.(\d))?$/.exec(text) ?? [];
  return kilos === undefined ? text : Number(kilos + tenth);
}

export const FIELDS = {
  prefix: { label: "Prefix", wanted: "three digits", example: "020", fits: shaped(/^\d{3}$/) },
  serial: {
    label: "First serial", wanted: "seven digits, no check digit", example: "1234567", fits: shaped(/^\d{7}$/),
  },
  count: {
    label: "Count", wanted: `1 to ${LIMITS.run.toLocaleString("en")} numbers`, example: "10", fits: between(1, LIMITS.run),
    send: whole,
  },
  agent: {
    label: "Agent", wanted: `1 to ${LIMITS.agent} letters or digits`, example: "ACME", code: true,
    fits: shaped(new RegExp(`^[A-Z0-9]{1,${LIMITS.agent}}$`)),
  },
  awb: {
    label: "Waybill", wanted: "a number with its check digit", example: "020-12345675", fits: isNumber, read: numberOf,
  },
  origin: { ...airport, label: "Origin", example: "FRA" },
  destination: { ...airport, label: "Destination", example: "JFK" },
  unload: { ...airport, label: "Unloaded at", example: "JFK" },
  pieces: { label: "Pieces", wanted: `1 to ${LIMITS.pieces}`, example: "10", fits: between(1, LIMITS.pieces), send: whole },
  counted: {
    label: "Counted", wanted: `0 to ${LIMITS.pieces} pieces`, example: "8", fits: between(0, LIMITS.pieces), send: whole,
  },
  tenths: {
    label: "Weight in kg", wanted: "0.1 to 99999.9 kilograms", example: "100.0", send: tenths,
    fits: shaped(/^\d{1,5}(\.\d)?$/), read: (text) => text.replace(",", "."),
  },
  goods: {
    label: "Goods", wanted: `up to ${LIMITS.goods} characters, printable ASCII`, example: "PARTS", fits: upTo(LIMITS.goods),
  },
  name: {
    label: "Name", wanted: `up to ${LIMITS.name} characters, printable ASCII`, example: "BROWN", fits: upTo(LIMITS.name),
  },
  flight: {
    label: "Flight", wanted: "carrier and number", example: "LH400", code: true, read: flightOf,
    fits: shaped(new RegExp(`^${CARRIER}\\d{1,4}[A-Z]?$`)),
  },
  date: {
    label: "Day of the flight", wanted: "2000 to 2099", example: "2026-01-12", day: true,
    fits: shaped(/^20\d\d-\d\d-\d\d$/),
  },
  airline: {
    label: "Airline", wanted: "two letters or digits", example: "BA", code: true,
    fits: shaped(new RegExp(`^${CARRIER}$`)),
  },
  upto: {
    label: "Up to message", wanted: "its number in the outbox", example: "3", fits: between(0, 4294967295), send: whole,
  },
};

// What is wrong with the line of a telegram, by the word of the fault.
export const LINE_FAULTS = {
  size: "the text has more than 65,536 bytes", lines: "the text has more than 1,000 lines",
  byte: "it has a character that isn't printable ASCII", long: "it has more than 255 characters",
  ending: "the message ends too early, or goes on after its end: an FFM ends with LAST or CONT, an FWB has at least " +
    "two lines, an FSU three",
  head: "expected FWB, FFM or FSU, a slash and one to three digits, such as FFM/8",
  consignment: "expected a waybill's number, two airports and a slash, such as 020-12345675FRAJFK/",
  number: "the check digit of the waybill's number is wrong",
  quantity: "expected a quantity after the airports, such as T10K100.0",
  weight: "expected a weight in the quantity, as in T10K100.0",
  date: "expected an existing date, such as 12JAN or 12JAN1030",
  flight: "expected part, flight, date and airport, such as 1/LH400/12JAN/FRA",
  order: "a consignment before the first point of unloading",
};

// Answers that are no refusal of the station: the word of a bad request, or the status.
export const FAULTS = {
  body: "The desk can't read this command: put the marked fields right, and send it again.",
  key: "The request came without its key: look after the proxy.",
  origin: "The desk takes this for a page of another host: open it by the address that the proxy serves.",
  length: "The length of the request isn't taken: look after the proxy.",
  head: "The head of the request isn't taken: look after the proxy.",
  413: "The text is longer than 65,536 bytes: split it, a message at a time.",
};
// What the page says of a command before it is sent.
export const STRIKE = "For pieces that were found or counted before, and are announced again: book them with found, " +
  "and strike them here. For pieces that didn't come, check in 0.";
export const CANCELLED = "This is for a flight that doesn't come, and for pieces that were found before: they aren't " +
  "expected any more, and no message is sent. For pieces that a flight didn't bring, check in 0.";
export const AMEND = "All that came in must be free, and fit in the new declaration. No message is sent, and the " +
  "consignee must be notified again.";
export const EARLIER = "So the command that had no answer before was accepted. The form has a new key now.";
export const AGAIN = "It may have been accepted or not. Send it again as it stands: it acts once.";
export const TWICE = "Correct it, or press again to send it as it stands.";

// The eight places of the pieces, as the movement book writes them, and as the page does.
export const PLACES = {
  HAND: "Hand", SURPLUS: "Surplus", FREE: "Free", BUILT: "Built", DEPARTED: "Departed", DELIVERED: "Delivered",
  TRANSFER: "Transferred", MISSING: "Missing",
};

// What a move did, by the places that it went from and to. `{}` is the amount, and a flight follows.
export const MOVES = {
  "HAND FREE": ["{} received", "{} came with"],
  "HAND MISSING": ["{} didn't come", "{} didn't come with"],
  "SURPLUS FREE": ["{} found", "{} came beyond what was announced with"],
  "FREE HAND": ["{} given back to the shipper", "{} given back to the shipper"],
  "FREE BUILT": ["{} built", "{} built on"],
  "BUILT FREE": ["{} offloaded", "{} offloaded from"],
  "BUILT DEPARTED": ["{} left", "{} left with"],
  "FREE DELIVERED": ["{} delivered", "{} delivered"],
  "FREE MISSING": ["{} missing", "{} missing, of"],
  "MISSING FREE": ["{} found again", "{} found again, of"],
  "FREE TRANSFER": ["{} transferred to another airline", "{} transferred to another airline"],
};

// The codes of status messages.
export const STATUSES = {
  RCS: "received from the shipper", MAN: "built on a flight", DEP: "departed", ARR: "arrived",
  RCF: "received from a flight", NFD: "consignee notified", DLV: "delivered", TFD: "transferred", DIS: "discrepancy",
  AWD: "documents delivered", RCT: "received from another airline", PRE: "prepared for loading", BKD: "booked",
  FOH: "freight on hand", CCD: "cleared by customs", TRM: "to be transferred", AWR: "documents arrived",
};
