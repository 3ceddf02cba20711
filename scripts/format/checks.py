"""What is compared, and with what."""
import csv
import re
import subprocess

from model import LONGEST_IMAGE, Model, Record
from page import BITS, STOP, Differs, bytes_in, plain

RECORD = "crates/record/src/lib.rt"
HEADER = "include/m16c.h"
COUNTS = "crates/rows/proofs/Counts.antt"
CHANGES = "crates/by_manual/proofs/Changes.antt"
HELD = "crates/manual/proofs/Held.antt"
REGISTERS = "docs/manual/lists.tsv"
ANSWERS = "crates/replay/stdin"
PROVED = ["ends 0", "λ a b. both (ends 0 a b) (marked_at a b)", "ends 2", "ends 3", "λ a b. both (ends 3 a b) (reads_at a b)"]
PROVED_CHANGED = "listed_in named_code"
PROVED_OF_CHANGED = ["not (alike (document01.row_at a b) (by_manual.row_at a b))",
                     "both (accepted_by document01 a b) (accepted_by by_manual a b)",
                     "both (not (accepted_by document01 a b)) (accepted_by by_manual a b)",
                     "either (accepted_by document01 a b) (accepted_by by_manual a b)"]


def read(path):
    with open(path, encoding="utf-8") as f:
        return f.read()


def same(where, said, found):
    if said != found:
        raise Differs(f"{where}: docs/FORMAT.md has {said}, and here is {found}")


class Names:
    """The record's names by their numbers."""

    def __init__(self):
        text = re.sub(r"//[^\n]*", "", read(RECORD))
        enums = {name: re.findall(r"\w+", body) for name, body in re.findall(r"pub enum (\w+) \{([^}]*)\}", text)}
        self.opcodes, self.operands = enums["Opcode"], enums["Operand"]
        self.sizes = [s.replace("None", "") for s in enums["Size"]]
        self.widths = [w.replace("None", "-") for w in enums["Width"]]

    def record(self, o, s, w, operands, imm_wide, dispabs, first):
        return Record(self.opcodes[o], self.sizes[s], self.widths[w], tuple(self.operands[k] for k in operands), imm_wide, dispabs, first)


def check(page):
    model, manual, names = Model(page), Model(page.by_manual()), Names()
    check_answers(page, model, manual, names)
    check_marks(page)
    check_listings(model, manual)
    check_lengths(page, model, manual)
    check_names(page, names, r"have a number in the header and no row of document 01: ([^.]*)\.")
    check_names(page.by_manual(), names, r"By the manual these have none: ([^.]*)\.")
    check_counts(page)
    check_changed(page)
    check_header(page)
    check_registers(page)
    check_examples(page, model)
    check_examples_by_manual(page, model, manual)
    check_mixed(page, model, manual)
    check_placed(page, model, manual)
    check_read(page, model, manual)
    check_twins(page, model, manual)


def check_names(page, names, form):
    """The page's names are the record's, and those without a row that accepts are listed."""
    codes = [c for c in page.codes.values() if not c.refusal]
    opcodes = {c.opcode for c in codes if c.opcode} | set(page.conditions.values())
    operands = {name for c in codes for name in c.operands}
    for kind, said, known in (("opcode", opcodes, names.opcodes), ("operand", operands | set(page.fields) | set(page.bases), names.operands)):
        for name in sorted(said - set(known)):
            raise Differs(f"{page.path}: no {kind} of {RECORD} is called {name}")
    listed = re.search(form, page.text)
    unused = [n for n in names.opcodes if n not in opcodes], [n for n in names.operands if n not in operands]
    same(f"{RECORD}, names without a row", listed and listed[1], "; ".join(", ".join(part) for part in unused if part))


def check_header(page):
    enums = {name: dict(re.findall(r"(M16C_\w+) = (\d+)", body)) for name, body in re.findall(r"enum (\w+) \{(.*?)\};", read(HEADER), re.S)}
    refusals = [(line["name"], line["no."]) for line in page.table("Refusals")]
    numbers = [("M16C_" + line["number"], line["index"]) for line in page.table("The record")]
    for enum, said in (("m16c_refusal", refusals), ("m16c_number", numbers + [("M16C_NUMBERS", str(len(numbers)))])):
        for name, number in said:
            same(f"{HEADER}, {name}", number, enums[enum].get(name))
        same(f"{HEADER}, names of {enum}", len(said), len(enums[enum]))
    for limit, form in (("IMAGE", r"more than ([\d,]+) bytes"), ("INSTRUCTION", r"An instruction has 2 to (\d) bytes"),
                        ("LINE", r"No line has more than (\d+) characters")):
        for said in re.findall(form, page.text) or [""]:
            same(f"{HEADER}, M16C_LONGEST_{limit}", said.replace(",", ""), enums["m16c_longest"]["M16C_LONGEST_" + limit])
    same(f"{HEADER}, M16C_LONGEST_IMAGE", str(LONGEST_IMAGE), enums["m16c_longest"]["M16C_LONGEST_IMAGE"])


def proved(path, what):
    """The number that a proof gives to what it counts."""
    found = re.search(re.escape(f"{what} ≡ ") + r"(\d+)", read(path))
    if found is None:
        raise Differs(f"{path}: no proof counts '{what}'")
    return int(found[1])


def counts_in(page, form):
    """The counts in a sentence of the page."""
    found = re.search(form, page.text)
    if found is None:
        raise Differs(f"{page.path}: no sentence has the form '{form}'")
    return [plain(n) for n in found.groups()]


def check_counts(page):
    """The counts in the page's words, those that are proved, and those of the page's rows."""
    said = counts_in(page, r"Of the ([\d,]+) codes, ([\d,]+) are accepted, (\d+) of these marked; (\d+) are always refused with 2 and "
                           r"(\d+) with 3, (\d+) of")
    ends = {end: [c for c in page.codes.values() if c.refusal == end] for end in (0, 2, 3)}
    late = [c for c in ends[3] if c.steps[0][0] != STOP]
    rows = [len(c) for c in (page.codes, ends[0], [c for c in ends[0] if c.marked], ends[2], ends[3], late)]
    same("the rows of docs/FORMAT.md, counted", said, rows)
    same(COUNTS, said[1:], [proved(COUNTS, f"count_codes ({what})") for what in PROVED])
    same(f"{HELD}, codes with a meaning", counts_in(page, r"The manual gives a meaning to ([\d,]+)\."), [proved(HELD, "meanings : count")])


def check_changed(page):
    """The changed rows were marked or refused, and are unmarked; the counts in the page's words, those of both tables, and those proved."""
    pairs = [(page.codes[code], changed) for code, changed in page.changed.items()]
    for before, changed in pairs:
        if changed.marked or not (before.marked or before.refusal):
            raise Differs(f"{page.path}, line {changed.line}: a row that is marked, or that was not marked in line {before.line}")
    said = counts_in(page, r"(\d+) codes are changed, (\d+) of them in more than the mark; (\d+) are accepted by both readings, "
                           r"(\d+) by the manual's alone \([^)]*\), and the other (\d+) are refused by both with the same answer, "
                           r"though (\d+) of")
    same("the changed rows of docs/FORMAT.md, counted", said, changed_counts(pairs))
    whats = [PROVED_CHANGED] + [f"λ a b. both ({PROVED_CHANGED} a b) ({what})" for what in PROVED_OF_CHANGED]
    same(CHANGES, [*said[:4], said[0] - said[4]], [proved(CHANGES, f"count_codes ({what})") for what in whats])
    accepted = [c for c in page.by_manual().codes.values() if not c.refusal]
    said = counts_in(page, r"By the manual ([\d,]+) codes are accepted, (\d+) of these marked")
    same("the rows by the manual, counted", said, [len(accepted), len([c for c in accepted if c.marked])])


def changed_counts(pairs):
    """All; those that differ in more than the mark; accepted by both; by the second alone; refused alike; of these, those that differ."""
    unlike = [before.said() != changed.said() for before, changed in pairs]
    both = [not before.refusal and not changed.refusal for before, changed in pairs]
    alone = [before.refusal and not changed.refusal for before, changed in pairs]
    alike = [before.refusal and before.steps == changed.steps for before, changed in pairs]
    hidden = [one and other for one, other in zip(unlike, alike)]
    return [len(pairs), *(sum(map(bool, tests)) for tests in (unlike, both, alone, alike, hidden))]


def check_marks(page):
    """Classes 3 and 4 of scripts/codes-svg are marked, 5 and 6 refused."""
    classes = subprocess.run(["scripts/codes-svg", "--classes"], stdout=subprocess.PIPE, text=True, check=True).stdout
    for code, number in (line.split() for line in sorted(classes.splitlines())):
        row = page.codes[int(code[:2], 16), int(code[2:], 16)]
        said = "refused" if row.refusal else "marked" if row.marked else "unmarked"
        same(f"{code[:2]} {code[2:]}, line {row.line} of docs/FORMAT.md", said, ["unmarked", "marked", "refused"][(int(number) - 1) // 2])


def check_answers(page, model, manual, names):
    """Every line of the stored list; oracle/README.md has their forms. Every code is among them, with enough bytes, and with its parts."""
    unseen, unplaced = set(page.codes), set(page.codes)
    for number, line in enumerate(read(ANSWERS).splitlines(), 1):
        where = f"{ANSWERS}, line {number}"
        if line[0] in "EM":
            check_encoding(where, model if line[0] == "E" else manual, names, line)
        elif line[0] in "SG":
            check_sweep(where, model, line)
        elif line[0] == "N":
            check_number(where, model, names, line)
        elif line[0] == "P":
            unplaced.discard(check_parts(where, model, line))
        else:
            unseen.discard(check_decoding(where, page, model, names, line))
    for first, second in sorted(unseen):
        raise Differs(f"{ANSWERS}: no answer to {first:02X} {second:02X}")
    for first, second in sorted(unplaced):
        raise Differs(f"{ANSWERS}: no parts of {first:02X} {second:02X}")


def check_decoding(where, page, model, names, line):
    """The code that an answer speaks of, if it has enough bytes behind it."""
    count, text, refusal, taken, numbers, wide, dispabs, length = line.split(" ")
    bs = bytes.fromhex(text)[:int(count)]
    answer = model.decode(bs)
    if tuple(bs[:2]) in page.codes:
        where += f", {bs.hex(' ').upper()} by line {page.codes[bs[0], bs[1]].line} of docs/FORMAT.md"
    same(f"{where}: refusal, taken", (answer.refusal, answer.taken), (int(refusal), int(taken)))
    if answer.refusal == 0:
        o, s, *operands = (int(numbers[i:j], 16) for i, j in ((0, 2), (2, 3), (3, 5), (5, 7), (7, 9)))
        r = answer.record
        found = names.record(o, s, 0, operands, 0, 0, 0)
        same(f"{where}: opcode, size, operands", (r.opcode, r.size, *r.operands), (found.opcode, found.size, *found.operands))
        same(f"{where}: imm_wide, dispabs, length", (r.imm_wide, r.dispabs, r.length), (int(wide, 16), int(dispabs, 16), int(length, 16)))
    return tuple(bs[:2]) if answer.refusal != 1 else None


def check_parts(where, model, line):
    """The code that a line on parts and registers speaks of, if it has enough bytes behind it."""
    count, text, refusal, *parts, registers = line.split()
    bs = bytes.fromhex(text)[:int(count[1:])]
    answer = model.decode(bs)
    told = tuple((int(offset, 16), int(width, 16)) for offset, width in parts)
    same(f"{where}: refusal, parts, registers", (answer.refusal, answer.record.parts, answer.record.registers), (int(refusal), told, int(registers, 16)))
    return tuple(bs[:2]) if answer.refusal != 1 else None


def record_in(names, head, wide, shorts):
    """The record of a line's first three words, or None if a number names nothing."""
    o, s, w, *operands = (int(head[i:j], 16) for i, j in ((1, 3), (3, 4), (4, 5), (5, 7), (7, 9), (9, 11)))
    try:
        return names.record(o, s, w, operands, int(wide, 16), int(shorts[:4], 16), int(shorts[4:], 16))
    except IndexError:
        return None


def check_encoding(where, model, names, line):
    head, wide, shorts, refusal, length, text = line.split(" ")
    record = record_in(names, head, wide, shorts)
    found = record and model.encode(record)
    same(f"{where}: bytes encoded", found and found.hex(), bytes.fromhex(text)[:int(length)].hex() if refusal == "0" else None)


def check_number(where, model, names, line):
    head, wide, shorts, k, refusal, sign, *_, distance = line.split(" ")
    record = record_in(names, head, wide, shorts)
    found = model.number(record, int(k, 16)) if record else None
    stored = (-1) ** int(sign) * int(distance, 16)
    same(f"{where}: refusal, number", (5, 0) if found is None else (0, found), (int(refusal), stored))


def check_sweep(where, model, line):
    """A line of a stopping sweep has the place where it stops; of one that goes on, how many places were refused."""
    head, read, number, refusal, bits = line.split(" ")
    image = bytes.fromhex(head[3:])[:int(head[1:3], 16)]
    stopping = head[0] == "S"
    starts = [p for p in range(16) if int(bits, 16) >> (15 - p) & 1]
    place, refused = (int(number, 16), 0) if stopping else (len(image), int(number, 16))
    told = (int(refusal), starts, place, refused, int(read, 16))
    same(f"{where}: refusal, starts, place, refused, read", model.sweep(image, stopping), told)


def check_listings(model, manual):
    """The one image is listed by its args, each of the many by the byte before it: an odd one stops, from 2 on it is by the manual."""
    words = read("crates/list_image/args").split()
    with open("crates/list_image/stdin", "rb") as f:
        same_listing("crates/list_image/stdout", (manual if "--manual" in words else model).listing(f.read(), "--stopping" in words))
    with open("crates/list_images/stdin", "rb") as f:
        text = f.read()
    lines, at = [], 0
    while at < len(text):
        end = at + 3 + int.from_bytes(text[at + 1:at + 3], "big")
        lines += (manual if text[at] >= 2 else model).listing(text[at + 3:end], text[at] % 2 == 1)
        at = end
    same_listing("crates/list_images/stdout", lines)


def check_lengths(page, model, manual):
    """The stored lengths, each of three bytes that ask for it, how many codes have which, and how many another by the manual."""
    with open("crates/list_lengths/stdin", "rb") as f:
        text = f.read()
    told = [model.length(text[at + 1:at + 1 + text[at]]) for at in range(0, len(text), 3)]
    same_listing("crates/list_lengths/stdout", [f"REFUSED {refusal}" if refusal else str(length) for refusal, length in told])
    found = [model.length(code) for code in page.codes]
    for line in page.table("The length from two bytes", 1):
        number = int(re.search(r"\d", line["answer"])[0])
        answer = (number, 0) if "refusal" in line["answer"] else (0, number)
        same(f"{page.path}, line {line.number}, by the rows", plain(line["codes"]), found.count(answer))
    same(f"{page.path}, codes with a length or a refusal", sum(plain(line["codes"]) for line in page.table("The length from two bytes", 1)), len(found))
    others = [length for code, length in zip(page.codes, found) if length != manual.length(code)]
    said = counts_in(page, r"By the manual (\d+) codes have another length, and (\d+) that it refuses have one")
    same(f"{page.path}, lengths by the manual", said, [len([o for o in others if o[1]]), len([o for o in others if not o[1]])])
    for reading in (model, manual):
        for code in page.codes:
            answer = reading.decode(bytes(code) + bytes(5))
            where = f"{page.path}, {bytes(code).hex(' ').upper()} and five zeros"
            same(where, (answer.refusal, answer.record.length), reading.length(code))


def same_listing(path, lines):
    stored = read(path).splitlines()
    for number, (line, found) in enumerate(zip(lines, stored), 1):
        same(f"{path}, line {number}", line, found)
    same(f"{path}, lines", len(lines), len(stored))


def check_registers(page):
    """The bits of the lists are the manual's, and the examples name their registers."""
    with open(REGISTERS, encoding="utf-8", newline="") as f:
        known = {int(row["first"], 16): {bit: row[bit] for bit in BITS} for row in csv.DictReader(f, delimiter="\t", quoting=csv.QUOTE_NONE)}
    same(REGISTERS, {first: bits for first, bits in page.lists.items() if bits}, known)
    for line in page.table("Register lists", 2):
        named = page.codes[tuple(bytes.fromhex(line["bytes"]))].registers
        said = (line["registers"], line["REGISTERS"])
        same(f"{page.path}, line {line.number}, by the tables", said, (" ".join(named) or "(none)", str(len(named))))


def check_placed(page, model, manual):
    """The examples of where numbers stand, by each reading."""
    for place, reading in enumerate((model, manual)):
        for line in page.table("Where the numbers stand", place):
            r = reading.decode(bytes.fromhex(line["bytes"])).record
            said = (line["line"], line["FIRST"], line["DISPABS"], line["IMM_WIDE"])
            parts = (f"{offset}, {width} byte" + "s" * (width > 1) if width else "" for offset, width in r.parts)
            same(f"{page.path}, line {line.number}, by the tables", said, (from_opcode(reading, r), *parts))


def from_opcode(model, record):
    """The line of a record from the opcode on."""
    return model.line(0, record).split(" ", 3)[3]


def check_read(page, model, manual):
    """The images of which the page tells how much is read, by each reading: alone, and behind `7E 2C` again and again."""
    told = re.findall(r"`([0-9A-F ]+)` alone reads ([\d +]+) = (\d+)", page.text)
    if len(told) != 2:
        raise Differs(f"{page.path}: it does not tell of two images what is read of them")
    for text, parts, sum_said in told:
        image = bytes.fromhex(text)
        for reading in (model, manual):
            taken = [answer.taken for _, answer in reading.places(image, stopping=False)]
            same(f"{page.path}, {text}", (parts, int(sum_said)), (" + ".join(map(str, taken)), sum(taken)))
            for times in range(1, 20):
                whole = bytes.fromhex("7E 2C" * times) + image
                most = 3 * len(whole) - (len(whole) + 1) % 2
                same(f"{page.path}, {text} behind 7E 2C, {times} times", most, reading.sweep(whole, stopping=False)[-1])


def check_twins(page, model, manual):
    """The unmarked codes that list alike, by each reading; zeros stand behind them, since what is read is shown in full."""
    told = re.search(r"pairs of codes that mean the same: 7C (.*?), where", page.text)
    said = told and [tuple(bytes_in(pair.replace("7C", ""))) for pair in told[1].split(", ")]
    for reading in (model, manual):
        codes = {}
        for first, second, _ in reading.unmarked:
            codes.setdefault(reading.listing(bytes((first, second, 0, 0, 0, 0, 0)), stopping=False)[0], []).append((first, second))
        alike = [group for group in codes.values() if len(group) > 1]
        same(f"{page.path}, codes that list alike", said, [tuple(second for first, second in group if first == 0x7C) for group in alike])


def encoded(model, record):
    """What an encoder makes of a record, as the page writes it."""
    found = model.encode(record)
    return "refused 5" if found is None else found.hex(" ").upper()


def encoded_again(model, bs):
    """What becomes of bytes that are decoded and encoded; nothing if they are refused."""
    answer = model.decode(bs)
    return "" if answer.refusal else encoded(model, answer.record)


def check_examples(page, model):
    for line in page.table("Examples"):
        bs = bytes.fromhex(line["bytes"].replace("(none)", ""))
        where = f"{page.path}, line {line.number}, by the tables"
        same(where, line["listing"], model.listing(bs, stopping=False)[0])
        same(where, line["encoded again"], encoded_again(model, bs))


def check_examples_by_manual(page, model, manual):
    """The examples by both readings; each changed row has one."""
    unseen = {c.line for c in page.changed.values()}
    for line in page.table("Examples by the manual"):
        bs = bytes.fromhex(line["bytes"])
        said = (line["by document 01"], line["by the manual"], line["encoded again by the manual"])
        found = (*(reading.listing(bs, stopping=False)[0] for reading in (model, manual)), encoded_again(manual, bs))
        same(f"{page.path}, line {line.number}, by the tables", said, found)
        unseen.discard(page.changed[bs[0], bs[1]].line if (bs[0], bs[1]) in page.changed else None)
    for number in sorted(unseen):
        raise Differs(f"{page.path}: no example by the manual of line {number}")


def check_mixed(page, model, manual):
    """What both encoders make of records of both readings."""
    readings = {"document 01": model, "the manual": manual}
    page.each("A record does not say which reading made it", lambda line: check_mix(page, readings, line))


def check_mix(page, readings, line):
    by = readings[line["decoded by"]]
    r = by.decode(bytes.fromhex(line["bytes"])).record
    said = (line["line"], line["IMM_WIDE"], line["MARKED"], *(line["encoded by " + name] for name in readings))
    found = (from_opcode(by, r), f"{r.imm_wide:08X}", str(int(r.marked)), *(encoded(model, r) for model in readings.values()))
    same(f"{page.path}, line {line.number}, by the tables", said, found)
