"""Decoding, encoding, sweep and listing by the page's tables."""
from dataclasses import dataclass

from page import CONDITION, DISPLACEMENT, IMMEDIATE, STOP

MASKS = {0: 0, 1: 0xFF, 2: 0xFFFF, 3: 0xFFFFF}
LONGEST_IMAGE = 4096
NO_PART = (0, 0)


@dataclass(frozen=True)
class Record:
    opcode: str = "NOP"
    size: str = ""
    width: str = "-"
    operands: tuple = ("Nothing", "Nothing", "Nothing")
    imm_wide: int = 0
    dispabs: int = 0
    first: int = 0
    length: int = 0
    marked: bool = False
    dropped: bool = False
    parts: tuple = (NO_PART, NO_PART, NO_PART)  # offset and width of first, dispabs and imm_wide
    registers: int = 0


@dataclass(frozen=True)
class Answer:
    refusal: int
    taken: int
    record: Record = Record()


class Model:
    def __init__(self, page):
        self.page = page
        self.unmarked = [(a, b, c) for (a, b), c in sorted(page.codes.items()) if not c.marked and not c.refusal]

    def decode(self, bs):
        if not bs:
            return Answer(1, 0)
        if bs[0] not in self.page.widths:
            return Answer(4, 1)
        if len(bs) < 2:
            return Answer(1, 1)
        return self.run(self.page.codes[bs[0], bs[1]], bs)

    def run(self, code, bs):
        opcode, wide, dispabs, first, dropped, at = code.opcode, code.number, 0, 0, False, 2
        parts = Record.parts
        for step, size in code.steps:
            if step == STOP:
                return Answer(size, at)
            if len(bs) < at + size:
                return Answer(1, len(bs))
            whole = int.from_bytes(bs[at:at + size], "little")
            number = whole & MASKS[size]
            part = (at, size)
            at += size
            if step == DISPLACEMENT:
                dispabs, first = number, dispabs
                parts = (parts[1], part, parts[2])
            elif step == IMMEDIATE:
                wide, dropped = number, whole != number
                parts = (parts[0], parts[1], part)
            elif step == CONDITION:
                if number not in self.page.conditions:
                    return Answer(2, at)
                opcode = self.page.conditions[number]
        operands = code.operands + ("Nothing",)
        record = Record(opcode, code.size, code.width, operands, wide, dispabs, first, at, code.marked, dropped, parts, len(code.registers))
        return Answer(0, at, record)

    def length(self, bs):
        """Refusal and length by the first two bytes: those of the code's row, whatever follows."""
        if len(bs) < 2 or bs[0] not in self.page.widths:
            return self.decode(bs).refusal, 0
        code = self.page.codes[bs[0], bs[1]]
        return code.refusal, 0 if code.refusal else 2 + sum(size for _, size in code.steps)

    # Whose number is where

    def field(self, operands, place):
        """The field that holds an operand's number, or None."""
        fields = [self.page.fields.get(name, (None,))[0] for name in operands]
        if place < 2 and fields[0] == fields[1] == "dispabs":
            return "dispabs" if place == (0 if operands[0] == "Disp8_SP" else 1) else "first"
        return fields[place]

    def numbers(self, record):
        """The numbers of the three operands."""
        fields = [self.field(record.operands, place) for place in range(3)]
        return tuple(getattr(record, field) if field else 0 for field in fields)

    def number(self, record, k):
        """The number of operand k as it is counted, or None: of a signed name its low byte, from -80 to 7F."""
        if k > 2 or self.field(record.operands, k) is None:
            return None
        number = self.numbers(record)[k]
        return (number + 0x80) % 0x100 - 0x80 if self.page.shown(record.operands[k])[1] else number

    def key(self, record):
        """What counts: two records with one key are the same instruction."""
        return record.opcode, record.size, record.width, self.based(record.operands), self.numbers(record)

    def based(self, operands):
        return tuple(self.page.bases.get(name, name) for name in operands)

    # Encoding, by search

    def encode(self, record):
        """The bytes, or None for refusal 5."""
        key = self.key(record)
        opcode, size, width, bases, numbers = key
        best = None
        for a, b, code in self.unmarked:
            operands = code.operands + ("Nothing",)
            if (code.size, code.width, self.based(operands)) != (size, width, bases) or code.opcode not in (None, opcode):
                continue
            bs = bytes((a, b)) + self.behind(code, {self.field(operands, i): numbers[i] for i in range(2)}, opcode)
            if self.key(self.decode(bs).record) == key and (best is None or (len(bs), bs) < (len(best), best)):
                best = bs
        return best

    def behind(self, code, values, opcode):
        """The bytes behind a code that give fields these values, as far as they fit. Of two displacements the earlier one ends in first."""
        left = sum(step == DISPLACEMENT for step, size in code.steps)
        bs = b""
        for step, size in code.steps:
            if step == DISPLACEMENT:
                left -= 1
                number = values.get("first" if left else "dispabs", 0)
            elif step == IMMEDIATE:
                number = values.get("imm_wide", 0)
            else:
                number = next((c for c, name in self.page.conditions.items() if name == opcode), 0)
            bs += (number & MASKS[size]).to_bytes(size, "little")
        return bs

    # Sweep and listing

    def places(self, image, stopping):
        """Each place that a sweep decodes, with the answer: to the end, or by the stopping rule to the first refusal."""
        found, place = [], 0
        while place < len(image):
            answer = self.decode(image[place:])
            found.append((place, answer))
            if answer.refusal and stopping:
                break
            place += 1 if answer.refusal else answer.taken
        return found

    def sweep(self, image, stopping):
        """Refusal, the starts, the place where it stops, how many refused places it passed, and the bytes that all decodings took."""
        found = self.places(image, stopping)
        starts = [place for place, answer in found if not answer.refusal]
        refused = [(place, answer.refusal) for place, answer in found if answer.refusal]
        read = sum(answer.taken for _, answer in found)
        if stopping and refused:
            place, refusal = refused[0]
            return refusal, starts, place, 0, read
        return 0, starts, len(image), len(refused), read

    def line(self, place, r):
        words = [f"{place:04X}", f"{r.length:X}", r.width, r.opcode + ("." + r.size if r.size else "")]
        for k, name in enumerate(r.operands):
            if name != "Nothing":
                words.append(name + self.after(name, self.number(r, k)))
        return " ".join(words + ["!"] * r.dropped)

    def after(self, name, number):
        """What is shown of a number behind its name."""
        digits, signed = self.page.shown(name)
        if not digits:
            return ""
        return "=" + ("-" if number < 0 else "+" if signed else "") + f"{abs(number) % 16 ** digits:0{digits}X}"

    def listing(self, image, stopping):
        if len(image) > LONGEST_IMAGE:
            return ["REFUSED 7"]
        lines = [self.listed(place, answer) for place, answer in self.places(image, stopping)]
        refusal, _, place, *_ = self.sweep(image, stopping)
        return lines if refusal else lines + [f"END {place:04X}"]

    def listed(self, place, answer):
        if answer.refusal:
            return f"{place:04X} REFUSED {answer.refusal} TAKEN {answer.taken}"
        return self.line(place, answer.record)
