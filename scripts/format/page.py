"""The tables of docs/FORMAT.md, as data."""
import copy
import re
from dataclasses import dataclass, replace

HEX = "0123456789ABCDEF"
BITS = ["80", "40", "20", "10", "08", "04", "02", "01"]
BY_FIRST_BYTE = ("Two operands", "Register lists")  # sections: a table of opcodes, then one of rows
DISPLACEMENT, IMMEDIATE, CONDITION, STOP = "displacement", "immediate", "condition", "stop"


class Differs(Exception):
    """What differs, and where."""


def plain(number):
    """A count as the page writes it: 4,096 is 4096."""
    return int(number.replace(",", ""))


def digits(text):
    """The digits of a list such as '1-3 6 8-F'."""
    found = []
    for part in text.split():
        low, _, high = part.partition("-")
        found += range(HEX.index(low), HEX.index(high or low) + 1)
    return found


def bytes_in(text):
    """The bytes of a list such as '72 73'."""
    return [int(byte, 16) for byte in re.findall(r"\b[0-9A-F]{2}\b", text)]


def shown(text):
    """How many digits of a number are shown, and whether with a sign: '4', or '±2'; an empty cell shows none."""
    return int(text.lstrip("±") or 0), text.startswith("±")


@dataclass
class Line:
    """A line of a table: its number in the file, and its cells by the table's heading."""

    number: int
    cells: dict

    def __getitem__(self, heading):
        return self.cells[heading]


@dataclass
class Code:
    """What a code is decoded to: names, the number in the code, and the steps behind it, of which a STOP is the last."""

    line: int
    width: str
    opcode: str = "NOP"
    size: str = ""
    operands: tuple = ("Nothing", "Nothing")
    number: int = 0
    steps: tuple = ()
    marked: bool = False
    registers: tuple = ()  # that the list names

    @property
    def refusal(self):
        """That of every string with bytes enough, or 0; a condition byte does not count."""
        return dict(self.steps).get(STOP, 0)

    def said(self):
        """All that the row says of the code, but for the mark."""
        return replace(self, line=0, marked=False)


class Page:
    def __init__(self, path):
        self.path = path
        with open(path, encoding="utf-8") as f:
            self.lines = f.read().splitlines()
        self.text = " ".join(self.lines)
        self.sections = {}
        self.read_tables()
        self.operand_codes = {letter: self.operand_table(letter) for letter in "GTJK"}
        self.conditions = dict(self.each("Conditions", lambda line: (int(line["byte"], 16), line["opcode"])))
        self.widths = {}
        self.each("An instruction", self.read_widths)
        self.fields = self.field_table()
        self.bases = {name: "base " + line["base"] for line in self.table("The same instruction") for name in line["names"].split()}
        self.opcodes, self.lists = {}, {}
        for section in BY_FIRST_BYTE:
            self.each(section, self.read_opcode)
        self.codes, self.changed = {}, {}
        for heading in self.sections:
            if re.fullmatch(r"[0-9A-F]{2}( and [0-9A-F]{2}| alone)?", heading):
                self.each(heading, lambda line: self.read_row(self.codes, bytes_in(heading), line))
        for section in BY_FIRST_BYTE:
            firsts = [first for line in self.table(section) for first in bytes_in(line["first bytes"])]
            self.each(section, lambda line: self.read_row(self.codes, firsts, line), 1)
        self.each("Changed rows", lambda line: self.read_row(self.changed, bytes_in(line["first bytes"]), line))
        for first in self.widths:
            for second in range(256):
                if (first, second) not in self.codes:
                    raise Differs(f"{path}: no row has {first:02X} {second:02X}")

    def by_manual(self):
        """The page with the changed rows in their places."""
        other = copy.copy(self)
        other.codes = {**self.codes, **self.changed}
        return other

    def read_tables(self):
        """The tables below each heading, each a list of its lines."""
        section, headings = None, None
        for number, text in enumerate(self.lines, 1):
            if text.startswith("#"):
                section = text.lstrip("# ")
                self.sections[section] = []
            cells = [c.strip() for c in text.split("|")[1:-1]] if text.startswith("|") else None
            if cells is None:
                headings = None
            elif headings is None:
                headings = cells
                self.sections[section].append([])
            elif not set("".join(cells)) <= set("-:"):
                if len(cells) != len(headings):
                    raise Differs(f"{self.path}, line {number}: {len(cells)} cells, and {len(headings)} headings")
                self.sections[section][-1].append(Line(number, dict(zip(headings, cells))))

    def table(self, section, place=0):
        try:
            return self.sections[section][place]
        except (KeyError, IndexError):
            raise Differs(f"{self.path}: no table below '{section}'")

    def each(self, section, work, place=0):
        """Does something with each line of a section's table; what it cannot make sense of is that line's fault."""
        found = []
        for line in self.table(section, place):
            try:
                found.append(work(line))
            except (ValueError, KeyError, IndexError, AttributeError, TypeError):
                raise Differs(f"{self.path}, line {line.number}: not understood: {self.lines[line.number - 1]}")
        return found

    def read_widths(self, line):
        for first in bytes_in(line["first bytes"]):
            if first in self.widths:
                raise ValueError("a first byte has one width")
            self.widths[first] = {"none": "-", "B": "B", "W": "W"}[line["width"]]

    def read_opcode(self, line):
        """The opcode that a first byte names, and the registers of the bits of its list."""
        for first in bytes_in(line["first bytes"]):
            if first in self.opcodes:
                raise ValueError("a first byte has one opcode")
            self.opcodes[first] = line["opcode"]
            self.lists[first] = {bit: line[bit] for bit in BITS if bit in line.cells}

    def operand_table(self, letter):
        """Of each code the names at B and at other widths, or None if it is refused; the bytes that it reads; what is shown."""
        section = next((s for s in self.sections if s.startswith(letter + ": ")), letter)
        if "".join(line["code"] for line in self.table(section)) != HEX[:8 if letter == "K" else 16]:
            raise Differs(f"{self.path}: the codes of table {letter} are not all there, in order")
        return self.each(section, self.operand_code)

    def operand_code(self, line):
        if line.cells.get("name") == "refused 3":
            if line["bytes"] or line["digits"]:
                raise ValueError("a refused code has no bytes")
            return None, 0, shown(""), line.number
        names = (line["name"], line["name"]) if "name" in line.cells else (line["at B"], line["at W"])
        return names, int(line["bytes"]), shown(line["digits"]), line.number

    def field_table(self):
        """Of each name with a number: the field that holds it, the bytes that it reads, the digits shown and whether with a sign."""
        fields = {}
        for named in self.each("Which number is whose", self.named):
            fields.update(named)
        for letter, codes in self.operand_codes.items():
            for names, size, digits_shown, number in codes:
                for name in names or ():
                    if fields.get(name, (None, 0, shown("")))[1:] != (size, digits_shown):
                        raise Differs(f"{self.path}, line {number}: bytes or digits of {name} are others under 'Which number is whose'")
        return fields

    def named(self, line):
        if line["field"] not in ("imm_wide", "dispabs"):
            raise ValueError("field")
        return {name: (line["field"], int(line["bytes"]), shown(line["digits"])) for name in line["names"].split()}

    def shown(self, name):
        return self.fields.get(name, (None, 0, shown("")))[2]

    # Rows

    def read_row(self, codes, firsts, line):
        pattern = re.fullmatch(r"(h|[0-9A-F]|\[.-.\])(n|[0-9A-F]|\[.-.\])", line["second byte"])
        highs, lows = (digits("0-F" if part in "hn" else part.strip("[]")) for part in pattern.groups())
        for first in firsts:
            for second in (16 * h + n for h in highs for n in lows):
                if (first, second) in codes:
                    raise Differs(f"{self.path}, line {line.number}: {first:02X} {second:02X} is also in line {codes[first, second].line}")
                codes[first, second] = self.code(line, first, second)

    def code(self, line, first, second):
        width = self.widths[first]
        mark = line.cells.get("mark", "")  # the table of changed rows has none
        refused = re.fullmatch(r"refused ([23])", line["opcode"])
        if refused:
            if line["operand 0"] or line["operand 1"] or line["in order"] or mark:
                raise ValueError("a refused code has nothing else")
            return Code(line.number, width, steps=((STOP, int(refused[1])),))
        opcode, _, size = (self.opcodes[first] if line["opcode"] == "by first byte" else line["opcode"]).partition(".")
        operands, number = [], 0
        for cell in (line["operand 0"], line["operand 1"]):
            name, _, value = cell.partition(" = ")
            operands.append(self.operand(name, width, second))
            number = self.number_in_code(value, second) if value else number
        steps = self.up_to_stop([step for part in line["in order"].split("; ") if part for step in self.steps(part, width, second)])
        if opcode == "by condition":
            opcode = None
        elif not re.fullmatch("[A-Z]+", opcode):
            raise ValueError("opcode")
        registers = tuple(name for bit, name in self.lists.get(first, {}).items() if int(bit, 16) & number)
        return Code(line.number, width, opcode, width if size == "size" else size, tuple(operands), number, tuple(steps),
                    self.marked(mark, second % 16), registers)

    def coded(self, text, second):
        """The table and the code of 'G(n)', 'K(h-8)' and the like, or None."""
        found = re.fullmatch(r"([GTJK])\(([hn])(?:-(\d))?\)", text)
        if found is None:
            return None
        return self.operand_codes[found[1]][(second // 16 if found[2] == "h" else second % 16) - int(found[3] or 0)]

    def operand(self, text, width, second):
        text, _, other = text.partition(" at ")
        width = {"": width, "W": "W"}[other]
        code = self.coded(text, second)
        if code is not None:
            return "Nothing" if code[0] is None else code[0][width != "B"]
        if text == "I":
            return {"B": "Imm8", "W": "Imm16"}[width]
        if not re.fullmatch(r"\w*", text):
            raise ValueError("operand")
        return text or "Nothing"

    def number_in_code(self, text, second):
        h, n = second // 16, second % 16
        return {"h": h, "n": n, "n mod 8": n % 8, "second byte": second, "second byte mod 64": second % 64,
                "n, sign-extended from 3 bits to 32": n if n < 4 else 0xFFFFFFF8 + n,
                "n, sign-extended from 4 bits to 32": n if n < 8 else 0xFFFFFFF0 + n}[text]

    def steps(self, text, width, second):
        n = second % 16
        code = self.coded(text, second)
        if code is not None:
            names, size, _, _ = code
            if names is None:
                return [(STOP, 3)]
            field = self.fields.get(names[0], (None,))[0]
            return [(IMMEDIATE, size)] if field == "imm_wide" else [(DISPLACEMENT, size)] if size else []
        refused = re.fullmatch(r"3 if n is (.*)", text)
        if refused:
            return [(STOP, 3)] if n in self.by_width(refused[1], width) else []
        word, _, count = text.partition(" ")
        return [{"I": (IMMEDIATE, {"B": 1, "W": 2}.get(width)), "L": (IMMEDIATE, 3), "condition": (CONDITION, 1),
                 "imm": (IMMEDIATE, int(count or 0)), "disp": (DISPLACEMENT, int(count or 0))}[word]]

    def up_to_stop(self, steps):
        """The steps that are done: none behind a refusal."""
        return steps[:next((count for count, (step, _) in enumerate(steps, 1) if step == STOP), None)]

    def by_width(self, text, width):
        """The digits of '1 3 5', or of '1 3 5 at B, 2 3 5 at W'."""
        found = []
        for part in text.split(", "):
            listed, _, where = part.partition(" at ")
            if where in ("", width):
                found += digits(listed)
        return found

    def marked(self, text, n):
        if text in ("", "*"):
            return text == "*"
        return n in digits(re.fullmatch(r"\* if n is (.*)", text)[1])
