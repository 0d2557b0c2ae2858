"""The telegrams that tools/line puts into the folder of a desk, and what becomes of each.

A case is its outcome, a colon and telegrams: lines end with `|`, a telegram of the same file begins with `+`, one of the
next file with `>`. An outcome is for all of them, or, with commas, one for each: `ok` and the count, `look`, or a refusal
with its number and detail. {a}, {b}, {c} are new waybills of the case, {f} a new flight, {d} the day; the others are what
the round has made before: {moved} has moves, {agent}, {desk} and {void} are in stock, {there} is checked in on {past}.
"""

PARTIES = "SHP|/ACME TOOLS GMBH|/FRANKFURT|/DE/60314/TE/49690000|CNE|/BROWN INC|/NEW YORK/NY|/US/10004|AGT//2347000/0000|/HUBER"
CHARGES = "CVD/EUR//PP/NVD/NCV/XXX|RTD/1/P10/K100.0/CQ/W100.0/R2.50/T250.00|/NG/TOOLS|PPD/WT250.00|/CT250.00|REF/FRAFFLH|SPH/EAP"
FWB, BACK, LONG = "FWB/16|{a}FRAJFK/T10K100.0", "FWB/16|{a}JFKFRA/T10K100.0", "OSI/" + "X" * 200
SMALL = "FFM/8|1/{f}/{d}/JFK|FRA|{a}JFKFRA/T2K20.0/PARTS|LAST"
STATUSES = [
    "RCS/{d}1030/JFK/T10K100.0/SMITH", "RCT/BA/{d}1031/JFK/T10K100.0", "BKD/LH401/{d}/JFKFRA/T10K100.0",
    "PRE/LH401/{d}/JFKFRA/T10K100.0", "MAN/LH401/{d}/JFKFRA/T10K100.0/S1800", "DEP/LH401/{d}1805/JFKFRA/T10K100.0",
    "ARR/LH401/{d}/FRA/T10K100.0", "RCF/LH401/{d}0810/FRA/T10K100.0", "AWR/LH401/{d}0811/FRA/T10K100.0",
    "NFD/{d}0900/FRA/T10K100.0/BROWN", "AWD/{d}0901/FRA/T10K100.0/BROWN", "DLV/{d}1100/FRA/T10K100.0/BROWN",
    "DIS/LH401/{d}0815/FRA/MSCA/P2K20.0", "TFD/BA/{d}1200/FRA/T10K100.0", "TRM/BA/{d}/FRA/T10K100.0",
    "FOH/{d}0700/JFK/T10K100.0/SMITH", "CCD/{d}1000/FRA/T10K100.0", "CRC/{d}1001/FRA/T10K100.0", "DDL/{d}1500/FRA/T10K100.0"]
CASES = [
    # Waybills.
    f"ok 10: {FWB}|FLT/LH400/27|RTG/JFKLH|{PARTIES}|SSR/KEEP DRY|{CHARGES}",
    f"ok 10: FWB/9|{{a}}FRAJFK/T10K100.0|RTG/JFKLH|{PARTIES}|OSI/PLS CALL 0690000 ON ARRIVAL|SCI/T1|COR/X|NOM/HUBER",
    f"ok 10: FWB/17|{{a}}FRAJFK/T10K100.0MC0.60DG2|{PARTIES}|{CHARGES}|OCI/DE/SHP/T/DE123456789|///CP/HUBER|SCI/T2",
    "ok 4: FWB/16|{a}FRAJFK/T4L1000", "ok 2: FWB/16|{a}FRAJFK/T2K100.25", "ok 20: FWB/16|{a}FRAJFK/T20K0.5",
    f"ok 10: {FWB}|{PARTIES}>{FWB}|{PARTIES}", f"ok 10, ok 12: {FWB}>FWB/16|{{a}}FRAJFK/T12K130.0|{PARTIES}",
    "ok 10: FWB/16|{agent}FRAJFK/T10K100.0", "202 {moved}: FWB/16|{moved}FRAJFK/T11K100.0",
    "203 {desk}: FWB/16|{desk}FRAJFK/T10K100.0", "203 {void}: FWB/16|{void}FRAJFK/T10K100.0",
    f"217 {{a}}: FWB/16|{{a}}FRAJFK/T10K100000|{PARTIES}", f"301 2 weight: FWB/16|{{a}}FRAJFK/T10|{PARTIES}",
    "301 2 quantity: FWB/16|{a}FRAJFK/T0K100.0", "301 1 ending: FWB/16", f"301 4 byte: {FWB}|SHP|/M\xdcLLER",
    f"301 3 long: {FWB}|OSI/" + "X" * 252, "301 2 consignment: FWB/16|020-12345675frajfk/t10k100.0|SHP",
    f"301 0 lines: {FWB}" + "|OSI/X" * 999, "look: fwb/16|{a}frajfk/t10k100.0", "look: FWB/16|{wrong}FRAJFK/T10K100.0|SHP",
    "look: FWB/16|05712345675FRAJFK/T10K100.0|SHP", "look: FWB/16| {a}FRAJFK/T10K100.0|SHP",
    f"look: {FWB}|{{b}}FRAJFK/T10K100.0", f"look: {FWB}" + f"|{LONG}" * 330,
    # Manifests.
    "ok 1: FFM/5|1/{f}/{d}/JFK|FRA|{a}JFKFRA/T3K30/PARTS|LAST",
    "ok 2: FFM/8|1/{f}/{d}/JFK|FRA|ULD/AKE12345LH|{a}JFKFRA/P4K40.0T10/PARTS|ULD/PMC30210LH-CAI|{b}JFKFRA/T2K20.5MC0.3|LAST",
    "ok 2: FFM/8|1/{f}/{d}/JFK|FRA|ULD/AKE12345LH|{a}JFKFRA/S4K40.0T10|ULD/AKE54321LH|{a}JFKFRA/S6K60.0T10|LAST",
    "ok 2: FFM/8|1/{f}/{d}/JFK|FRA|{a}JFKFRA/T2K20.0|DIM/K20.0/CMT40-30-50/2|OCI/US/CNE/T/123|OSI/X|{b}JFKFRA/T1K10.0|/EAP|LAST",
    "ok 1: FFM/8|1/{f}/{d}0915/JFK|MUC|{a}JFKMUC/T2K20.0|FRA/{d}1345|{b}JFKFRA/T3K30.0|VIE|{c}JFKVIE/T4K40.0|LAST",
    "ok 0: FFM/8|1/{f}/{d}/JFK|FRA/NIL|LAST", "ok 0: FFM/8|1/{f}/{d}/JFK|MUC|{a}JFKMUC/T2K20.0/PARTS|FRA/NIL|LAST",
    "ok 1: FFM/8|1/{f}/{d}/JFK|FRA|{a}JFKFRA/T2K20.0|CONT>FFM/8|2/{f}/{d}/JFK|FRA|{b}JFKFRA/T5K55.5|LAST",
    "ok 1, 213 {f}/{day}/JFK/1: " + SMALL + ">FFM/8|1/{f}/{d}/JFK|FRA|{a}JFKFRA/T3K20.0/PARTS|LAST", f"ok 1: {SMALL}>{SMALL}",
    "217 {a}: FFM/8|1/{f}/{d}/JFK|FRA|{a}JFKFRA/P1K20000T10|LAST",
    "214 {there}: FFM/8|2/{past}/{d}/JFK|FRA|{there}JFKFRA/T10K100.0|LAST",
    "301 4 ending: " + SMALL.removesuffix("|LAST"), "301 3 order: " + SMALL.replace("FRA|", "", 1),
    "301 2 date: FFM/8|1/{f}/31FEB/JFK|FRA|{a}JFKFRA/T2K20.0|LAST", "301 2 flight: FFM/8|1/LH/{d}/JFK|FRA|LAST",
    "look: FFM/8|1/{f}/{d}/JFK|FRA| {a}JFKFRA/T2K20.0|LAST", "look: FFM/8|1/{f}/{d}/JFK|FRA|05712345675JFKFRA/T2K20.0|LAST",
    "look: FFM/8|1/{f}/{d}/JFK|FRA|{wrong}JFKFRA/T2K20.0|LAST", "look: FFM/8|1/{f}/{d}/JFK|FRA|{a}JFKFRA/T2K20.0|FMA|LAST",
    "look: FFM/8|1/{f}/{d}/JFK|FRA|{a}JFKFRA/T2K20.0|O57-1OOOOO25JFKFRA/T2K20.0|LAST", f"look: {FWB}|05712345675FRAJFK T10K100.0",
    # Status messages.
    *(f"ok 10, ok 1: {BACK}>FSU/{12 + at % 4}|{{a}}JFKFRA/T10K100.0|{line}" for at, line in enumerate(STATUSES)),
    f"ok 10, ok 5: {BACK}>FSU/14|{{a}}JFKFRA/T10K100.0|{STATUSES[6]}|OSI/TWO BOXES WET|ULD/AKE12345LH|{STATUSES[7]}|{STATUSES[9]}",
    f"ok 10, ok 1, ok 1: {BACK}" + f">FSU/15|{{a}}JFKFRA/P4K40.0T10|{STATUSES[5]}" * 2,
    f"201 {{a}}: FSU/12|{{a}}JFKFRA/T10K100.0|{STATUSES[7]}", "301 2 ending: FSU/14|{a}JFKFRA/T10K100.0",
    f"look: FSU/12|{{wrong}}JFKFRA/T10K100.0|{STATUSES[7]}",
    f"look: FSU/12|{{a}}JFKFRA/T10K100.0|{STATUSES[7]}|{{b}}JFKFRA/T10K100.0|{STATUSES[7]}",
    # Other messages, and answers that quote one.
    f"look: FNA|ACK/INVALID RATE|{FWB}", f"look: FMA|ACK/RECEIVED|{FWB}", f"look: FMA/1|ACK/PROCESSED|{FWB}",
    "look: FHL/4|MBI/{a}FRAJFK/T10K100.0", "look: FBL/4|1/LH400/{d}/FRA|JFK|{a}FRAJFK/T10K100.0/TOOLS|LAST",
    "look: UCM|LH401/27.DAIAA.FRA|IN|.AKE12345LH/FRA", "look: FSR/2|{a}FRAJFK|REF/FRACGXX", "look: LDM|LH401/27.DAIAA.C30Y200.2/8",
    "look: GOOD MORNING|PLS CONFIRM ARRIVAL OF TODAYS SHIPMENTS", "look: ",
    # Several in a file, and one without an end.
    f"ok 10: {FWB}+FWB/9|{{b}}FRAJFK/T10K100.0+FWB/17|{{c}}FRAJFK/T10K100.0",
    f"ok 10, ok 1, ok 1: {BACK}+" + SMALL.replace("{a}", "{b}") + f"+FSU/12|{{a}}JFKFRA/T10K100.0|{STATUSES[4]}",
    f"ok 10, 301 2 ending, ok 10: {FWB}+FSU/12|{{b}}JFKFRA/T1K1+FWB/16|{{c}}FRAJFK/T10K100.0",
    f"look: {FWB}+FHL/4|MBI/{{b}}FRAJFK+FWB/16|{{c}}FRAJFK/T10K100.0", f"look: {FWB}|{PARTIES}|FWB/16|{{b}}FRAJFK/T10K100.0",
]
