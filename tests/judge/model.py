"""Document 01, with 02's requests, and the lines of `probe`, in Python: what each line is to be answered.

Written from the papers and not from the Rattle; forms, units, stops, rows and opcodes are those of ../table. A `Model` answers line by line, as the
program does.
"""
import functools
import inspect
import pathlib
import re
import sys

sys.path.append(str(pathlib.Path(__file__).resolve().parents[1] / "table"))
import table
from table import FITTING, FORMS, OPCODES, RETIRED, STOPS, UNITS

MOST, WORD, PLACES = 65536, 1 << 41, 1024
HUGE = 1 << 64


class Row:
    """One immediate: where its bits are, and which values it holds."""

    def __init__(self, parts, signed, times, plus, chosen):
        self.parts, self.signed, self.times, self.plus, self.chosen = parts, signed, times, plus, chosen
        self.width = max(to + width for _, _, width, to in parts)
        least = -(1 << self.width - 1) if signed else 0
        self.low, self.high = sorted((times * least + plus, times * (least + (1 << self.width) - 1) + plus))
        if chosen:
            assert len(chosen) == 1 << self.width
            self.low, self.high = min(chosen), max(chosen)

    def kind(self):
        return "I" if self.signed else "U"

    def of_pattern(self, pattern):
        """The number of the row's kind with that 64-bit pattern."""
        return pattern - HUGE if self.signed and pattern >> 63 else pattern

    def value(self, number):
        """What a number of the row's width means."""
        if self.chosen:
            return self.chosen[number]
        if self.signed and number >> self.width - 1:
            number -= 1 << self.width
        return self.times * number + self.plus

    def read(self, words):
        return self.value(sum((words[which] >> place) % (1 << width) << to for which, place, width, to in self.parts))

    def takes(self, value):
        if self.chosen:
            return value in self.chosen
        return self.low <= value <= self.high and (value - self.plus) % self.times == 0

    def write(self, words, value):
        number = self.chosen.index(value) if self.chosen else (value - self.plus) // self.times
        words = list(words)
        for which, place, width, to in self.parts:
            mask = (1 << width) - 1
            words[which] = words[which] & ~(mask << place) | (number >> to & mask) << place
        return words


ROWS = {form: Row(*fields) for form, fields in table.ROWS.items()}


def is_form(family, number):
    return family < 128 and number in FORMS.get(chr(family), ())


def row_of(family, number):
    return ROWS.get(f"{chr(family)}{number}") if is_form(family, number) else None


def is_retired(family, number):
    """Whether no new edit of the form is taken."""
    return is_form(family, number) and f"{chr(family)}{number}" in RETIRED


def fits(family, units, slot):
    return units[slot] in FITTING[chr(family)]


class Bundle:
    """Sixteen bytes: a tag and three words."""

    def __init__(self, data):
        number = int.from_bytes(data, "little")
        self.tag = number % 32
        self.words = [number >> 5 + 41 * k & WORD - 1 for k in range(3)]
        self.units = UNITS.get(self.tag)

    def marked(self):
        """The units, with `;` after each that a stop follows."""
        return "".join(unit + (";" if slot in STOPS[self.tag] else "") for slot, unit in enumerate(self.units))

    def data(self):
        return (self.tag + sum(word << 5 + 41 * k for k, word in enumerate(self.words))).to_bytes(16, "little")

    def with_value(self, slot, row, value):
        own, l = row.write([self.words[slot], self.words[1]], value)
        if any(which for which, _, _, _ in row.parts):
            self.words[1] = l
        self.words[slot] = own
        return self.data()


def bundle_at(code, number):
    return Bundle(code[16 * number:16 * number + 16]) if 16 * number + 16 <= len(code) else None


def no_bits(n, slot, family, form):
    """Why an edit sets no bits, whatever its bundle."""
    return [(3, row_of(family, form) is None), (5, slot > 2)]


@functools.lru_cache(1 << 10)
def bits_of(slot, family, form):
    """The bits of a bundle that an edit sets: of its own slot, and an X form's of slot 1 too."""
    return {5 + 41 * (1 if which else slot) + place + i for which, place, width, _ in row_of(family, form).parts for i in range(width)}


def meet(one, other):
    """Whether two edits set a bit in common."""
    return one[0] == other[0] and not bits_of(*one[1:]).isdisjoint(bits_of(*other[1:]))


# the family whose table has the words of a unit
TABLES = {"M": "A", "I": "A", "B": "B"}


def choice(unit, word):
    """The form and the opcode of a unit's word, by 000's tables, or nothing."""
    found = []
    for form, mask, pattern, places, names in OPCODES:
        if TABLES.get(unit) == form[0] and word & mask == pattern:
            chosen = sum((word >> place & 1) << i for i, place in enumerate(places))
            found += [(form, name) for name in names[chosen:chosen + 1] if name != "-"]
    assert len(found) <= 1
    return found[0] if found else None


def other_form(bundle, slot, family, form):
    """Whether a form isn't the word's: those of M, I, F and X never are, and of a word that isn't there nothing is said."""
    if family not in tuple(b"AB"):
        return True
    units = bundle.units if bundle and slot <= 2 else None
    chosen = units and choice(units[slot], bundle.words[slot])
    return bool(units) and (not chosen or chosen[0] != f"{chr(family)}{form}")


def first(reasons):
    """The number of the first refusal that applies, and 0 where none does."""
    return next((number for number, applies in reasons if applies), 0)


# ---- operands as text

NAMES = {"None": None, "PSR": None, "PSR_l": None, "PSR_um": None, "PR": None, "IP": None}
OPERAND = re.compile(
    r"(?P<kind>G|F|P|B|AR|CR|Mem|Ind:(?:Cpuid|Dbr|Dtr|Ibr|Itr|Msr|Pkr|Pmc|Pmd|Rr):)(?P<register>0|[1-9][0-9]{0,2})"
    r"|I(?P<signed>0|-?[1-9][0-9]{0,18})|U(?P<unsigned>0|[1-9][0-9]{0,19})")


def operand(text):
    """(kind, number) of an operand's text, or nothing."""
    if text in NAMES:
        return text, 0
    found = OPERAND.fullmatch(text)
    if not found:
        return None
    if found["signed"]:
        value = int(found["signed"])
        return ("I", value) if -(1 << 63) <= value < 1 << 63 else None
    if found["unsigned"]:
        value = int(found["unsigned"])
        return ("U", value) if value < HUGE else None
    return (found["kind"], int(found["register"])) if int(found["register"]) < 256 else None


# ---- records: bundle, slot, form (as in `M48`, or `-` for a whole bundle), value's pattern, old low, old high, new low, new high; a place of
# a journal has a record and a party

NONE = (0, 0, "-", 0, 0, 0, 0, 0)
FREE = NONE, 0


def joined(low, high):
    return low.to_bytes(8, "little") + high.to_bytes(8, "little")


def taken(bundle, slot, letter, row, value):
    """Whether an edit of that bundle, by a form with that family's letter and row, is taken with a number of the row's kind; so long as the
    form isn't retired."""
    return bool(bundle.units and row and slot <= 2 and bundle.units[slot] in FITTING[letter] and row.takes(value))


@functools.lru_cache(1 << 16)
def passes(slot, form, value, old_low, old_high, new_low, new_high):
    """Whether a record is a whole bundle's, or an edit of its old bundle by slot, form and value gives its new one; the form may be retired
    since."""
    if form == "-":
        return slot == 0 and value == 0
    row, bundle = ROWS.get(form), Bundle(joined(old_low, old_high))
    value = row and row.of_pattern(value)
    return taken(bundle, slot, form[0], row, value) and bundle.with_value(slot, row, value) == joined(new_low, new_high)


def may_stand(one):
    return one[0] <= 4095 and passes(*one[1:])


def folded(records):
    """One record of each whole bundle that they touch, in order of first touch: from its oldest old to its newest new."""
    oldest, newest = {}, {}
    for n, _, _, _, *halves in records:
        oldest.setdefault(n, halves[:2])
        newest[n] = halves[2:]
    return [(n, 0, "-", 0, *old, *newest[n]) for n, old in oldest.items()]


# ---- sheets

DECIMAL = rb"(0|[1-9][0-9]{0,19})"
HEAD = re.compile(rb"patches\t" + DECIMAL)
LINE = re.compile(rb"\t".join([DECIMAL, DECIMAL, rb"(-|[A-Z](?:0|[1-9][0-9]{0,19}))", *[DECIMAL] * 5]))
OLD_LINE = re.compile(rb"\t".join([DECIMAL] * 5))


def line(fields):
    return ("\t".join(map(str, fields)) + "\n").encode()


def header(count):
    return line(("patches", count))


def sheet(lines):
    """A text with those fields in its lines; a record's are the record."""
    return header(len(lines)) + b"".join(map(line, lines))


def old_fields(one):
    """A record's line as it was when a record was a bundle's number and its halves."""
    return one[0], *one[4:]


def full(line):
    """The record of a line of eight fields, or nothing."""
    found = LINE.fullmatch(line)
    if not found:
        return None
    bundle, slot, form, *rest = found.groups()
    return int(bundle), int(slot), form.decode(), *map(int, rest)


def old(line):
    """The record of a line of five fields, or nothing."""
    found = OLD_LINE.fullmatch(line)
    if not found:
        return None
    bundle, *halves = map(int, found.groups())
    return bundle, 0, "-", 0, *halves


def stands(one):
    return bool(one) and max(one[:2] + one[3:]) < HUGE and may_stand(one)


def loaded(text):
    """The records of a sheet, all of its lines of one kind, or nothing where the text is none."""
    lines = text.split(b"\n")
    head = HEAD.fullmatch(lines[0])
    if lines[-1] or not head or int(head[1]) > PLACES or int(head[1]) != len(lines) - 2:
        return None
    for kind in (full, old):
        records = [kind(line) for line in lines[1:-1]]
        if all(map(stands, records)):
            return records
    return None


# ---- scripts

SCRIPT_LINE = re.compile(rb"\t".join([DECIMAL, rb"(?:undo|edit", DECIMAL, DECIMAL, rb"([A-Z])" + DECIMAL, DECIMAL + rb")\n"]))
LONGEST_ANSWER = 29


def script_lines(text):
    """The lines of a script, each with its newline, which the last may lack."""
    return re.findall(rb"[^\n]*\n|[^\n]+", text)


def script_line(line):
    """The number of a script's line and what it asks, a call's name and its fields; or nothing where it doesn't read."""
    found = SCRIPT_LINE.fullmatch(line)
    if not found or any(int(field) >= HUGE for field in found.groups() if field and field.isdigit()):
        return None
    number, n, slot, letter, form, pattern = found.groups()
    if n is None:
        return int(number), "undo", ()
    row = row_of(letter[0], int(form))
    value = b"%s%d" % (row.kind().encode(), row.of_pattern(int(pattern))) if row else b"U" + pattern
    return int(number), "edit", (n, slot, b"%d" % letter[0], form, value)


# ---- the lines

NUMBER = re.compile(rb"0|[1-9][0-9]{0,19}")
HEX = re.compile(rb"-|(?:[0-9a-f]{2})+")
PRIME = 4294967291
POWERS = [1]
while len(POWERS) < 65601:
    POWERS.append(POWERS[-1] * 257 % PRIME)


class Unread(Exception):
    """A line that doesn't read, or that the program doesn't have."""


def number(field):
    if not NUMBER.fullmatch(field) or int(field) >= HUGE:
        raise Unread
    return int(field)


def data(field):
    if not HEX.fullmatch(field):
        raise Unread
    return b"" if field == b"-" else bytes.fromhex(field.decode())


FORM = re.compile(rb"-|[A-Z](?P<number>0|[1-9][0-9]{0,19})")


def form(field):
    found = FORM.fullmatch(field)
    if not found or int(found["number"] or 0) >= HUGE:
        raise Unread
    return field.decode()


def text(given):
    return given.hex() or "-"


NUMBERS = 36


def report_of(image):
    """A count for each tag, then the bundles, the reserved ones, their stops and the bytes of the tail."""
    tags = [image[at] % 32 for at in range(0, len(image) - 15, 16)]
    reserved = sum(tag not in UNITS for tag in tags)
    stops = sum(len(STOPS.get(tag, [])) for tag in tags)
    return [tags.count(tag) for tag in range(32)] + [len(tags), reserved, stops, len(image) % 16]


class Part:
    """A party's part of a journal: its first place, how many there are, and its count. It keeps which of its places aren't free, and which can't
    stand."""

    def __init__(self, party, first, places, count):
        self.party, self.first, self.places, self.count = party, first, places, count
        # a free place has party 0, and of party 1 can't stand
        self.used, self.unfit = set(), set(range(first, first + places) if party else ())

    def has(self, i):
        return self.first <= i < self.first + self.places

    def end(self):
        """The place after the records that stand."""
        return self.first + self.count

    def put(self, i, one, party):
        self.used.discard(i)
        self.unfit.discard(i)
        if (one, party) != FREE:
            self.used.add(i)
        if not may_stand(one) or party != self.party:
            self.unfit.add(i)

    def valid(self):
        """Whether what stands can stand, and every other place is free."""
        end = self.end()
        return self.count <= self.places and min(self.unfit, default=end) >= end and max(self.used, default=-1) < end


class Model:
    """The state of `probe`: a code, a journal and a report. `reasons` has what applied to the last call."""

    def __init__(self):
        self.code, self.hash = bytearray(), 0
        self.report = [0] * NUMBERS
        self.on_open(b"1")
        self.reasons = []

    def answer(self, line):
        fields = line.split(b" ")
        self.reasons = []
        try:
            name = fields[0].decode("ascii")
            if len(line) > 400000 or name not in COUNT or len(fields) - 1 not in COUNT[name]:
                raise Unread
            return getattr(self, "on_" + name)(*fields[1:])
        except (Unread, UnicodeDecodeError):
            return "error"

    def refused(self, reasons):
        self.reasons = reasons
        return first(reasons)

    # the code

    def write(self, at, given):
        for i, byte in enumerate(given, at):
            self.hash += (byte - self.code[i]) * POWERS[len(self.code) - 1 - i]
        self.hash %= PRIME
        self.code[at:at + len(given)] = given

    def on_code(self, length):
        length = number(length)
        if length > 65600:
            raise Unread
        self.code, self.hash = bytearray(length), sum(POWERS[:length]) % PRIME
        return "ok"

    def on_put(self, at, given):
        at, given = number(at), data(given)
        if at + len(given) > len(self.code):
            raise Unread
        self.write(at, given)
        return "ok"

    def on_get(self, at, length):
        at, length = number(at), number(length)
        if length > 1024 or at + length > len(self.code):
            raise Unread
        return f"bytes {text(self.code[at:at + length])}"

    def on_sum(self):
        return f"sum {len(self.code)} {self.hash}"

    # bundles

    def of_bundle(self, n):
        """What finding refuses, and the bundle where its bytes lie in the code."""
        bundle = bundle_at(self.code, n)
        return [(10, len(self.code) > MOST), (1, bundle is None)], bundle

    def on_find(self, n):
        n = number(n)
        reasons, bundle = self.of_bundle(n)
        answer = self.refused(reasons)
        return f"find {answer} {text(b'' if answer else bundle.data())}"

    def on_cut(self, n):
        reasons, bundle = self.of_bundle(number(n))
        answer = self.refused(reasons + [(2, bundle and bundle.units is None)])
        if answer:
            return f"cut {answer} {bundle.tag if answer == 2 else 0} - 0 0 0"
        return f"cut 0 {bundle.tag} {bundle.marked()} {' '.join(map(str, bundle.words))}"

    def on_join(self, length, tag, w0, w1, w2):
        length, tag, words = number(length), number(tag), [number(w0), number(w1), number(w2)]
        if length > 64:
            raise Unread
        answer = self.refused([(4, max(words) >= WORD or tag > 31), (2, tag < 32 and tag not in UNITS), (12, length < 16)])
        out = bytearray([238] * length)
        if not answer:
            out[:16] = (tag + sum(word << 5 + 41 * k for k, word in enumerate(words))).to_bytes(16, "little")
        return f"join {answer} {text(out)}"

    # the report

    def on_report(self):
        sums = [had + more for had, more in zip(self.report, report_of(self.code))]
        answer = self.refused([(10, len(self.code) > MOST), (6, max(sums) >= HUGE)])
        self.report = self.report if answer else sums
        return f"report {answer} {' '.join(map(str, self.report))}"

    def on_clear(self, *fields):
        self.report = list(map(number, fields)) or [0] * NUMBERS
        return "ok"

    # operands: what is refused; what is read is for the oracle to say

    def on_operands(self, family, form, word, l):
        family, form, word, l = number(family), number(form), number(word), number(l)
        bad = word >= WORD or (family == ord("X") and l >= WORD)
        answer = self.refused([(3, not is_form(family, form)), (4, bad)])
        return f"operands {answer} - None None None None None" if answer else None

    # immediates

    def of_slot(self, n, slot, family, form, row):
        """What is refused before a value is looked at."""
        reasons, bundle = self.of_bundle(n)
        units = bundle.units if bundle else None
        unfit = bool(slot <= 2 and units and is_form(family, form) and not fits(family, units, slot))
        return reasons + [(2, bundle and not units), (3, row is None), (5, slot > 2 or unfit)], bundle

    def on_immediate(self, n, slot, family, form):
        n, slot, family, form = number(n), number(slot), number(family), number(form)
        row = row_of(family, form)
        reasons, bundle = self.of_slot(n, slot, family, form, row)
        answer = self.refused(reasons)
        if answer:
            return f"immediate {answer} None"
        return f"immediate 0 {row.kind()}{row.read([bundle.words[slot], bundle.words[1]])}"

    def on_target(self, n, slot, family, form, address):
        n, slot, family, form, address = map(number, (n, slot, family, form, address))
        row = row_of(family, form)
        row = row if row and row.times == 16 else None
        reasons, bundle = self.of_slot(n, slot, family, form, row)
        answer = self.refused(reasons + [(6, address % 16 != 0)])
        if answer:
            return f"target {answer} 0"
        return f"target 0 {(address + row.read([bundle.words[slot], bundle.words[1]])) % HUGE}"

    # opcode and form of a word

    def on_choose(self, unit, word):
        unit, word = number(unit), number(word)
        chosen = choice(chr(unit), word) if unit < 128 else None
        answer = self.refused([(4, word >= WORD), (14, chosen is None)])
        form, opcode = ("-", "-") if answer else chosen
        return f"choose {answer} {form} {opcode}"

    # whether two edits meet, by the table alone

    def on_meet(self, n, slot, family, form, other_n, other_slot, other_family, other_form):
        one, other = tuple(map(number, (n, slot, family, form))), tuple(map(number, (other_n, other_slot, other_family, other_form)))
        answer = self.refused(no_bits(*one) + no_bits(*other))
        return f"meet {answer} {int(not answer and meet(one, other))}"

    # the journal

    def valid(self):
        """Whether the slice has its length, the journal is for one party or two, and each part is valid."""
        return len(self.places) == PLACES and self.parties in (1, 2) and all(part.valid() for part in self.parts)

    def part_of(self, party):
        """The party's part, or nothing where the party is unknown."""
        return self.parts[party] if self.parties in (1, 2) and party < self.parties else None

    def place(self, i, one, party):
        """Sets a place, and keeps how each that isn't free is shown."""
        self.places[i] = one, party
        self.shown.pop(i, None)
        if (one, party) != FREE:
            self.shown[i] = f" {i}:" + ":".join(map(str, one)) + f":{party}"
        for part in self.parts:
            if part.has(i):
                part.put(i, one, party)

    def standing(self, party):
        """The party's records that stand."""
        part = self.part_of(party)
        return [one for one, _ in self.places[part.first:part.first + min(part.count, part.places)]] if part else []

    def replace(self, part, records):
        """The part's records are these, and its other places free."""
        for i in list(part.used):
            self.place(i, *FREE)
        for i, one in enumerate(records, part.first):
            self.place(i, one, part.party)
        part.count = len(records)

    def halves(self, n):
        given = self.code[16 * n:16 * n + 16]
        return int.from_bytes(given[:8], "little"), int.from_bytes(given[8:], "little")

    def on_open(self, parties):
        return self.on_journal(parties, b"0", b"0")

    def on_journal(self, parties, lower, upper, length=b"%d" % PLACES):
        parties, lower, upper, length = number(parties), number(lower), number(upper), number(length)
        if length > 2 * PLACES:
            raise Unread
        half = PLACES // 2 if parties == 2 else PLACES
        self.parties, self.parts = parties, [Part(0, 0, half, lower), Part(1, half, PLACES - half, upper)]
        self.places, self.shown = [FREE] * length, {}
        return "ok"

    def on_place(self, i, bundle, slot, name, value, old_low, old_high, new_low, new_high, party):
        halves = map(number, (old_low, old_high, new_low, new_high))
        i, one, party = number(i), (number(bundle), number(slot), form(name), number(value), *halves), number(party)
        if i >= len(self.places):
            raise Unread
        self.place(i, one, party)
        return "ok"

    def on_records(self):
        counts = " ".join(str(part.count) for part in self.parts)
        return f"records {self.parties} {counts}" + "".join(self.shown[i] for i in sorted(self.shown))

    def of_journal(self, party):
        """What is refused of a journal, before it is asked what stands, and the party's part."""
        part = self.part_of(party)
        return (11, part is None or not self.valid()), part

    def edited(self, checked, party, n, slot, family, form, value):
        """What an edit answers, and it is made where it is taken; a checked one is refused where the form isn't the word's."""
        party, n, slot, family, form = number(party), number(n), number(slot), number(family), number(form)
        value = operand(value.decode("ascii"))
        if value is None:
            raise Unread
        kind, value = value
        row = row_of(family, form)
        (*reasons, unfit), bundle = self.of_slot(n, slot, family, form, row)
        reasons += [(15, is_retired(family, form)), unfit]
        if checked:
            reasons.append((14, other_form(bundle, slot, family, form)))
        wrong = kind not in "IU" or bool(row and (kind != row.kind() or not row.takes(value)))
        invalid, part = self.of_journal(party)
        answer = self.refused(reasons + [(6, wrong), invalid, (7, part and part.count == part.places)])
        if not answer:
            old = self.halves(n)
            self.write(16 * n, bundle.with_value(slot, row, value))
            self.place(part.end(), (n, slot, f"{chr(family)}{form}", value % HUGE, *old, *self.halves(n)), party)
            part.count += 1
        return answer

    def on_edit(self, party, n, slot, family, form, value):
        return f"edit {self.edited(False, party, n, slot, family, form, value)}"

    def on_checked(self, party, n, slot, family, form, value):
        return f"checked {self.edited(True, party, n, slot, family, form, value)}"

    def on_undo(self, party):
        party = number(party)
        invalid, part = self.of_journal(party)
        there = part and 0 < part.count <= part.places and part.end() <= len(self.places)
        last = self.places[part.end() - 1][0] if there else None
        n = last and last[0]
        inside = last and 16 * n + 16 <= len(self.code)
        answer = self.refused([
            (10, len(self.code) > MOST), invalid, (8, part and part.count == 0),
            (1, last and not inside), (9, inside and self.halves(n) != last[6:])])
        if not answer:
            part.count -= 1
            self.write(16 * n, joined(*last[4:6]))
            self.place(part.end(), *FREE)
        return f"undo {answer}"

    def on_fold(self, party):
        party = number(party)
        invalid, part = self.of_journal(party)
        answer = self.refused([invalid])
        if not answer:
            self.replace(part, folded(self.standing(party)))
        return f"fold {answer}"

    # sheets

    def put_out(self, name, party, wanted, length):
        invalid, _ = self.of_journal(party)
        answer = self.refused([invalid, (12, length < len(wanted))])
        wanted = b"" if answer else wanted
        return f"{name} {answer} {len(wanted)} {text(wanted)} {length - len(wanted)}"

    def on_sheet(self, party, length):
        party, length = number(party), number(length)
        if length > 130000:
            raise Unread
        return self.put_out("sheet", party, sheet(self.standing(party)), length)

    def on_sheetline(self, party, i, length):
        """Past the last line there is none: an empty text."""
        party, i, length = number(party), number(i), number(length)
        if length > 200:
            raise Unread
        records = self.standing(party)
        wanted = header(len(records)) if i == 0 else b"".join(map(line, records[i - 1:i]))
        return self.put_out("sheetline", party, wanted, length)

    def on_load(self, party, given):
        party, records = number(party), loaded(data(given))
        invalid, part = self.of_journal(party)
        answer = self.refused([invalid, (13, records is None), (7, part and records is not None and len(records) > part.places)])
        if not answer:
            self.replace(part, records)
        return f"load {answer}"

    # scripts

    def stands(self, party):
        """How many of the party's edits stand; none where the journal isn't valid."""
        (_, invalid), part = self.of_journal(party)
        return 0 if invalid else part.count

    def on_script(self, party, expected, stopped, length, given):
        party, expected, stopped, length, given = number(party), number(expected), number(stopped), number(length), data(given)
        if stopped > 1 or length > 130000:
            raise Unread
        done, out = 0, b""
        for one in script_lines(given):
            if stopped or length - len(out) < LONGEST_ANSWER:
                break
            asked, turn = script_line(one), expected
            if asked and asked[0] == turn != 0:
                said = getattr(self, "on_" + asked[1])(b"%d" % party, *asked[2])
                answer, expected, done = int(said.split()[1]), (turn + 1) % HUGE, done + len(one)
            else:
                answer, stopped = 16, 1
            out += line((turn, answer, self.stands(party)))
        self.reasons = []
        return f"script {expected} {stopped} {done} {len(out)} {text(out)} {length - len(out)}"


def how_many(method):
    """How many fields may follow its name."""
    fields = list(inspect.signature(method).parameters.values())[1:]
    return range(sum(field.default is field.empty for field in fields), len(fields) + 1)


COUNT = {name[3:]: how_many(method) for name, method in vars(Model).items() if name.startswith("on_")} | {"clear": (0, NUMBERS)}
