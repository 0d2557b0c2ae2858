// Made by tools/describe from the tables of the code.

// The longest texts, the largest numbers.
export const LIMITS = { run: 1000000, agent: 11, pieces: 9999, goods: 15, name: 35 };

// A field with a question mark may be left empty, and is then no member of the body. `name` is how a form calls it.
export const VERBS = [
  { group: "Stock of waybill numbers" },
  { verb: "take-in", does: "numbers come to the desk", fields: "prefix serial count" },
  { verb: "issue", does: "numbers go to an agent", fields: "prefix serial count agent" },
  { verb: "return", does: "an agent gives numbers back", fields: "prefix serial count agent" },
  { verb: "void", does: "numbers become void", fields: "prefix serial count" },
  { group: "Cargo out" },
  { verb: "book", does: "a waybill is declared", fields: "awb goods origin destination pieces tenths" },
  { verb: "receive", does: "pieces are received", name: "Received from", fields: "awb name pieces tenths" },
  { verb: "amend", does: "a waybill is declared anew", fields: "awb goods origin destination pieces tenths" },
  { verb: "withdraw", does: "pieces go back to the shipper", name: "Given back to", fields: "awb pieces name" },
  { verb: "manifest", does: "pieces are built on a flight", fields: "awb pieces flight date unload" },
  { verb: "offload", does: "pieces come off a flight", fields: "awb pieces flight date" },
  { verb: "reroute", does: "a flight unloads elsewhere", fields: "flight date unload" },
  { verb: "depart", does: "a flight leaves", fields: "flight date" },
  { group: "Cargo in" },
  { verb: "check-in", does: "what a flight brought is counted", fields: "awb counted flight date" },
  { verb: "strike", does: "pieces aren't expected of a flight", fields: "awb pieces flight date" },
  { verb: "notify", does: "the consignee is notified", name: "Consignee", fields: "awb name" },
  { verb: "deliver", does: "the consignee gets pieces", name: "Delivered to", fields: "awb pieces name" },
  { verb: "transfer", does: "pieces go to another airline", fields: "awb pieces airline" },
  { group: "Corrections and messages" },
  { verb: "missing", does: "pieces in store are missing", fields: "awb pieces flight? date?" },
  { verb: "found", does: "pieces turn up", fields: "awb pieces tenths flight? date?" },
  { verb: "confirm", does: "messages are confirmed", fields: "upto" },
];

// A refusal: what it means, what its detail is, what to do.
export const REFUSALS = {
  101: [
    "already in stock",
    "the lowest such number",
    "take in the numbers before it and after it as runs of their own",
  ],
  102: [
    "not at the desk",
    "the lowest such number",
    "open its view: it is with an agent, used, void, or was never taken in",
  ],
  103: [
    "not with that agent",
    "the lowest such number",
    "open its view, and return it for the agent who has it",
  ],
  104: [
    "used, void or not in stock",
    "the lowest such number",
    "a used or void number stays so; take a number in before you void it",
  ],
  105: [
    "the count isn't 1 to 1,000,000, or the run goes past serial 9999999",
    "no detail",
    "split the run",
  ],
  201: [
    "unknown waybill",
    "the waybill",
    "book it, or take its FWB or FFM",
  ],
  202: [
    "already declared, and it has moves",
    "the waybill",
    "amend the declaration",
  ],
  203: [
    "the number is at the desk, or void",
    "the waybill",
    "issue the number to an agent first; if it is void, check the number",
  ],
  204: [
    "wrong station: Receive and Withdraw if the origin isn't here, Amend if pieces were taken over and the origin would be here or no longer here, Manifest and Reroute if it unloads here, Notify and Deliver if the destination isn't here",
    "the waybill; for Reroute the flight",
    "check the airports of the waybill and of the command",
  ],
  205: [
    "more received than declared",
    "the waybill",
    "book it again with more pieces while it has no moves; later amend it",
  ],
  206: [
    "not enough free pieces; for Notify, none",
    "the free pieces",
    "use at most that many; receive, check in or offload the rest first",
  ],
  207: [
    "not that many on the flight",
    "the waybill",
    "see what was built on the flight in Movements",
  ],
  208: [
    "the flight is closed",
    "the flight",
    "build it on another flight",
  ],
  209: [
    "nothing is on that flight",
    "the flight",
    "check the flight and its day; manifest something on it first",
  ],
  210: [
    "the consignee isn't notified",
    "the waybill",
    "notify the consignee first",
  ],
  211: [
    "not expected on that flight",
    "the waybill",
    "check the flight and its day, and take its FFM first; book pieces that come before their FFM with found, and strike them off when it comes",
  ],
  212: [
    "already checked in, or struck",
    "the waybill",
    "report what differs with found or missing",
  ],
  213: [
    "that part of the manifest was already taken",
    "the part",
    "have lines that it lacked sent as a further part, with another number; a corrected part can't replace the first",
  ],
  214: [
    "a line's waybill is already checked in on that flight, or struck",
    "the waybill",
    "its pieces are counted; report what differs with found or missing. The part is refused whole: have its other lines sent as a part of their own",
  ],
  217: [
    "past 9,999 pieces or 999,999 tenths: declared, expected, or received and found together",
    "the waybill",
    "check the weight; of a manifest, take the FWB or book the waybill first; otherwise split the shipment over two waybills",
  ],
  218: [
    "the flight unloads elsewhere",
    "the flight",
    "a flight has one point of unloading; use that one, or reroute the flight",
  ],
  219: [
    "500 waybills are already on the flight",
    "the flight",
    "build the rest on another flight",
  ],
  220: [
    "the shipment ends here: Transfer if the destination is here",
    "the waybill",
    "deliver it to the consignee",
  ],
  221: [
    "the flight isn't noted here",
    "the flight",
    "check the flight and its day; its first manifest notes it",
  ],
  222: [
    "something is built on the flight",
    "the flight",
    "offload it first",
  ],
  223: [
    "more pieces or tenths would go back than are received now",
    "the waybill",
    "withdraw fewer pieces; pieces that were found can't go back to the shipper",
  ],
  224: [
    "not that many expected on that flight",
    "the waybill",
    "look it up in Flights; what was struck is no longer expected",
  ],
  225: [
    "not all pieces that came in are free",
    "the waybill",
    "offload what is built, and find what is missing; what has left keeps its declaration",
  ],
  226: [
    "what is here doesn't fit in the new pieces and weight",
    "the waybill",
    "declare at least what is here, and a tenth of a kilogram for each further piece",
  ],
  301: [
    "the telegram can't be read, or a manifest's date doesn't exist",
    "the line and the word of the fault",
    "have the message sent again with that line corrected",
  ],
  302: [
    "unknown kind of telegram",
    "no detail",
    "only FWB, FFM and FSU are read",
  ],
  401: [
    "below what is confirmed, or past the last message",
    "the last confirmed, and the last message",
    "confirm a number between the two",
  ],
  402: [
    "more than 4,294,967,295 moves, trail lines or messages; tested after all other refusals",
    "no detail",
    "the station is full: start a new one",
  ],
  501: [
    "the key was used for another command; tested before all other refusals",
    "no detail",
    "if you mean a new command, use a new key",
  ],
};
