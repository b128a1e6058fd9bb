"""Lines for `probe`: boundary cases, every refusal and every pair of them that can apply, and random runs.

Each function takes a `Talk`, which keeps the lines with what the model answers to them.
"""
import contextlib
import itertools

from model import (
    FITTING, FORMS, HUGE, NONE, NUMBERS, OPCODES, PLACES, RETIRED, ROWS, TABLES, UNITS, WORD, Bundle, Model, bundle_at, choice, header,
    joined, line, may_stand, old_fields, operand, report_of, script_lines, sheet)
from standing import Standing

LENGTHS = (0, 1, 15, 16, 17, 31, 32, 33, 48, 100, 65520, 65535, 65536, 65537, 65552, 65600)
EDGES = (0, 1, 2, 15, 16, 31, 32, 255, 256, 4094, 4095, 4096, 65535, 65536, 1 << 32, (1 << 41) - 1, 1 << 41, (1 << 41) + 1,
         (1 << 59) - 1, (1 << 60) - 1, 1 << 60, (1 << 60) + 1, 1 << 63, HUGE - 16, HUGE - 1)
LETTERS = [ord(letter) for letter in FORMS]

# the forms that a word can have
CHOSEN = sorted({form for form, *_ in OPCODES})

# lines that have a party's number as their first field; the first two are of one kind
EDITS = "edit", "checked"
CALLS = *EDITS, "undo", "fold", "sheet", "sheetline", "load", "script"

# how many parties a journal is for, and which of them calls
SIDES = (1, 0), (2, 0), (2, 1)


class Talk:
    """Lines and answers, with the refusals that applied to each kind of call, alone and in pairs; those on a journal of one party and of two
    apart. Journals are for so many parties, and calls are those of one of them."""

    def __init__(self, random):
        self.random, self.model = random, Model()
        self.lines, self.answers, self.seen = [], [], {}
        self.parties, self.party = 1, 0

    def __call__(self, line):
        line = line if isinstance(line, bytes) else line.encode()
        answer = self.model.answer(line)
        self.lines.append(line)
        self.answers.append(answer)
        if self.model.reasons:
            applying = [number for number, applies in self.model.reasons if applies]
            seen = self.seen.setdefault(self.kind(line.split(b" ")[0].decode()), set())
            seen.update([(0, 0)] if not applying else itertools.combinations_with_replacement(applying, 2))
        return answer

    def kind(self, name):
        return f"{name} of {self.model.parties}" if name in CALLS else name

    def side(self, parties, party):
        self.parties, self.party = parties, party

    def any_side(self):
        self.side(*self.random.choice((SIDES[0], *SIDES)))

    def call(self, line):
        """A call of the party's, which has its number; any other line as it is."""
        name, *rest = line.split(" ", 1)
        return self(" ".join([name, str(self.party), *rest]) if name in CALLS else line)

    def room(self):
        """How many places the party has."""
        return PLACES // self.parties

    def own(self):
        """The party's part of the model's journal."""
        return self.model.parts[self.party]

    def standing(self):
        return self.model.standing(self.party)

    def fill(self, length):
        """A code of that length with random bytes, its tags as they come."""
        self(f"code {length}")
        for at in range(0, length, 65536):
            self(f"put {at} {self.random.randbytes(min(65536, length - at)).hex()}")
        self("sum")

    def bundle(self, n, tag, words={}):
        """Puts a random bundle with that tag, and with a word of a form in a slot where one is given, where it lies in the code."""
        number = self.random.getrandbits(128) & ~31 | tag
        for slot, name in words.items():
            number = number & ~(WORD - 1 << 5 + 41 * slot) | word_of(self.random, name) << 5 + 41 * slot
        self(f"put {16 * n} {number.to_bytes(16, 'little').hex()}")

    def any_number(self):
        return self.random.choice((self.random.choice(EDGES), self.random.randrange(70), self.random.getrandbits(64)))


def with_bits(word, places, number):
    """The word with a number's bits at those places."""
    for i, place in enumerate(places):
        word = word & ~(1 << place) | (number >> i & 1) << place
    return word


def word_of(random, name):
    """A word of an A or B form, with any of its opcodes."""
    mask, pattern, places, names = random.choice([rest for form, *rest in OPCODES if form == name])
    chosen = random.choice([i for i, opcode in enumerate(names) if opcode != "-"])
    return with_bits(random.getrandbits(41) & ~mask | pattern, places, chosen)


# ---- the protocol

SAMPLES = (
    "code 40", "put 0 00ff10", "put 3 -", "get 0 4", "sum", "find 0", "cut 1", "join 20 16 1 2 3", "operands 77 49 0 0",
    "immediate 0 2 66 1", "target 0 2 66 1 16", "open 2", "journal 1 3 0", "journal 2 3 4 70", "place 2 1 2 B1 3 4 5 6 7 1", "records",
    "choose 77 1099511627776", "edit 0 0 2 66 1 I-16", "checked 0 0 2 66 1 I-16", "undo 1", "fold 1", "sheet 0 100", "sheetline 0 1 100", "load 0 70617463686573093020", "script 0 1 0 100 3109756e646f0a", "meet 1 2 66 1 1 0 77 44",
    "report", "clear", "clear " + " ".join(map(str, range(NUMBERS))),
)


def protocol(talk, known):
    """Lines that don't read, made from lines that do: none of them changes anything."""
    random = talk.random
    talk("code 40")
    samples = [line for line in SAMPLES if line.split()[0] in known]
    for line in samples:
        name, *fields = line.split(" ")
        spoilt = ["", " ", line + " ", " " + line, line + " 0", line.upper(), name[:-1], name + "x", line.replace(" ", "  ", 1),
                  line.replace(" ", "\t"), line + "\r", name, "error", line + "\0", "-" + line]
        for i in range(len(fields)):
            for field in ("", "-", "+1", "01", "00", "-1", "1.0", "0x1", "1_0", str(HUGE), str(HUGE * 10), "9" * 40, "ff0", "FF", "0g", "x"):
                spoilt.append(" ".join([name] + fields[:i] + [field] + fields[i + 1:]))
            spoilt.append(" ".join([name] + fields[:i] + fields[i + 1:]))
        for one in spoilt:
            talk(one)
            talk("sum")
    for length in (399998, 400000, 400001, 400002, 524287, 524288, 524289, 1500000):
        talk("code 40")
        talk("put 0 " + "0" * (length - 6))
        talk("x" * length)
        talk("get 0 16")
    talk("code 65600")
    talk(f"put 0 {random.randbytes(65600).hex()}")
    talk("sum")
    for at, length in ((0, 1024), (0, 1025), (65600, 0), (65600, 1), (65601, 0), (65599, 1), (HUGE - 1, 1), (HUGE - 1, 2), (64576, 1024), (64577, 1024)):
        talk(f"get {at} {length}")
        talk(f"put {at} {'ab' * length or '-'}")
    for line in ("code 65600", "code 65601", "code 0", "sum", "get 0 0", "get 0 1", "put 0 -", "put 0 00"):
        talk(line)


# ---- bundles

def bundles(talk):
    random = talk.random
    for length in LENGTHS:
        talk.fill(length)
        around = {max(0, length // 16 + by) for by in (-2, -1, 0, 1, 2)} | set(EDGES) | {random.randrange(4100) for _ in range(20)}
        for n in sorted(around):
            talk(f"find {n}")
            talk(f"cut {n}")
            talk(f"get {16 * n} 16")
    for tag in range(32):
        for where in (0, 7):
            talk("code 128")
            talk.bundle(where, tag)
            talk(f"cut {where}")
            talk(f"find {where}")
    talk.fill(65537)
    for tag in range(32):
        talk.bundle(tag, tag)
        talk(f"cut {tag}")
    for _ in range(3):
        talk.fill(65536)
        for n in range(0, 4096, random.choice((3, 5, 7))):
            talk(f"cut {n}")
    joins(talk)


def joins(talk):
    random = talk.random
    words = (0, 1, WORD - 1, WORD, WORD + 1, 1 << 40, HUGE - 1)
    for tag in (*range(34), 48, 255, 256, 272, 1 << 32, HUGE - 16, HUGE - 1):
        for length in (0, 15, 16, 17, 64):
            talk(f"join {length} {tag} {' '.join(str(random.getrandbits(41)) for _ in range(3))}")
        for _ in range(6):
            talk(f"join {random.randrange(66)} {tag} {' '.join(str(random.choice(words)) for _ in range(3))}")
    for length in range(67):
        talk(f"join {length} 16 {' '.join(str(random.getrandbits(41)) for _ in range(3))}")
    for slot in range(3):
        for word in words:
            talk(f"join 16 1 {' '.join(str(word if k == slot else 0) for k in range(3))}")
    for _ in range(2000):
        talk(f"join 16 {random.choice(list(UNITS))} {' '.join(str(random.getrandbits(41)) for _ in range(3))}")


# ---- the report

def numbers(report):
    return " ".join(map(str, report))


def reports(talk):
    """Whole and damaged images, sums up to 2 ** 64 - 1 and past it, and what is added in two orders."""
    random = talk.random
    talk("clear")
    for length in LENGTHS:
        talk.fill(length)
        talk("report")
        talk("report")
    for tag in range(32):
        talk("clear")
        talk(f"code {16 * (tag + 1) + random.randrange(16)}")
        for n in range(tag + 1):
            talk.bundle(n, tag)
        talk("report")
    # one number of a sum stays just within 64 bits, or doesn't; so for each of the 36, of an image with every tag
    for length in (16 * 32, 16 * 64 + random.randrange(1, 16)):
        talk(f"code {length}")
        for n in range(length // 16):
            talk.bundle(n, n % 32)
        own = report_of(talk.model.code)
        for i in range(NUMBERS):
            for over in (0, 1):
                report = [random.randrange(1 << 60) for _ in range(NUMBERS)]
                report[i] = min(HUGE - own[i] - 1 + over, HUGE - 1)
                talk(f"clear {numbers(report)}")
                talk("report")
                talk("report")
    talk(f"clear {numbers([HUGE - 1] * NUMBERS)}")
    for length in (0, 15, 16, 65537):
        talk.fill(length)
        talk("report")
    talk.fill(65536)
    for _ in range(20):
        talk("clear " + numbers(random.choice((0, HUGE - 1 - random.randrange(9000), random.getrandbits(64))) for _ in range(NUMBERS)))
        talk("report")
        talk("sum")
    images = [random.randbytes(random.choice((0, 16, 17, 31, 160, 1600, 4096))) for _ in range(6)]
    for _ in range(8):
        random.shuffle(images)
        talk("clear")
        for image in images:
            talk(f"code {len(image)}")
            talk(f"put 0 {image.hex() or '-'}")
            talk("report")
    talk("journal 2 3 1")
    talk("report")
    talk("records")


# ---- operands: what is refused

def refused_operands(talk):
    for family in (*range(256), 256 + 65, 256 + 77, (1 << 32) + 77, HUGE - 1):
        for number in (0, 1, 5, 6, 9, 10, 11, 16, 17, 30, 31, 48, 49, 255, 256, 257, 256 + 48, (1 << 32) + 1, HUGE - 1):
            talk(f"operands {family} {number} {talk.random.choice((0, WORD - 1, WORD, HUGE - 1))} {talk.random.choice((0, WORD, HUGE - 1))}")
    for family, numbers in FORMS.items():
        for number in numbers:
            for word, l in itertools.product((0, WORD - 1, WORD, WORD + 1, HUGE - 1), repeat=2):
                talk(f"operands {ord(family)} {number} {word} {l}")


# ---- immediates

def forms(random):
    """A family and a number: mostly with a row, else a form with none, else no form."""
    kind = random.random()
    if kind < 0.75:
        name = random.choice(list(ROWS))
        return ord(name[0]), int(name[1:])
    if kind < 0.9:
        family = random.choice(list(FORMS))
        return ord(family), random.choice(FORMS[family])
    return random.choice((*LETTERS, 74, 76, 97, 0, 256 + 77, HUGE - 1)), random.choice((0, 1, 10, 11, 17, 49, 256 + 1, HUGE - 1))


def name_of(family, number):
    return f"{chr(family)}{number}" if family < 128 else None


def fitting(random, family):
    """A tag and a slot that such a form fits."""
    letters = FITTING.get(chr(family), chr(family)) if family < 128 else "M"
    pairs = [(tag, slot) for tag, units in UNITS.items() for slot in range(3) if units[slot] in letters]
    return random.choice(pairs) if pairs else (random.randrange(32), random.randrange(3))


def values(row):
    """Numbers about a row's ends, and far outside; all about those that a row chooses from."""
    near = [row.low, row.high, 0, row.times, -row.times, 1, -1, 8, 15, 17, 1 << 20, 1 << 21, 1 << 62, (1 << 63) - 1, -(1 << 63), HUGE - 1, HUGE - 16]
    for end in (row.low, row.high):
        near += [end + by for by in (-16, -1, 1, 16, -row.times, row.times)]
    if row.chosen:
        near += range(row.low - 4, row.high + 5)
    return sorted(set(near))


def operands_of(row):
    """Every operand to try on a row: its numbers of both kinds, and the other kinds."""
    for value in values(row):
        if -(1 << 63) <= value < 1 << 63:
            yield f"I{value}"
        if 0 <= value < HUGE:
            yield f"U{value}"
    yield from OTHERS


OTHERS = ("None", "G0", "G255", "F1", "P6", "B3", "AR64", "CR20", "Mem12", "PSR", "PSR_l", "PSR_um", "PR", "IP", "Ind:Rr:12", "Ind:Cpuid:0")


def slots_for(tag):
    """Each slot of a bundle with that tag, with each form with a row that fits it."""
    return [(slot, name) for slot, unit in enumerate(UNITS.get(tag, "")) for name in ROWS if unit in FITTING[name[0]]]


def slots_of_rows():
    """Each form with a row, with each tag and slot that it fits."""
    for name in ROWS:
        for tag in UNITS:
            yield from ((name, tag, slot) for slot, other in slots_for(tag) if other == name)


def increments(talk):
    """M17's eight numbers in every slot that it fits, by the manual's formula: i2b is bits 13..14, and s is bit 15."""
    for tag, slot in [(tag, slot) for name, tag, slot in slots_of_rows() if name == "M17"]:
        for s, i2b in itertools.product((0, 1), range(4)):
            at = 5 + 41 * slot + 13
            number = talk.random.getrandbits(128) & ~31 & ~(7 << at) | tag | i2b << at | s << at + 2
            talk("code 48")
            talk(f"put 16 {number.to_bytes(16, 'little').hex()}")
            value = (-1 if s else 1) * (1 if i2b == 3 else 1 << 4 - i2b)
            assert talk(f"immediate 1 {slot} 77 17") == f"immediate 0 I{value}", "the model's M17 isn't the manual's"


def with_sign(number, width):
    return number - (1 << width) if number >> width - 1 else number


# the manual's numbers of the I forms that have not the bare field, from the word: counts, tag13, mask17, imm44 and imm5
BY_FORMULA = {
    "I1": lambda word: (0, 7, 15, 16)[word >> 30 & 3],
    "I8": lambda word: 31 - (word >> 20 & 31),
    "I21": lambda word: with_sign(word >> 24 & 511, 9) * 16,
    "I23": lambda word: with_sign((word >> 6 & 127) << 1 | (word >> 24 & 255) << 8 | (word >> 36 & 1) << 16, 17),
    "I24": lambda word: with_sign((word >> 6 & (1 << 27) - 1) << 16 | (word >> 36 & 1) << 43, 44),
    "I30": lambda word: 32 + (word >> 14 & 31),
}


def formulas(talk):
    """Random words of those forms, in every slot that they fit."""
    for name, tag, slot in slots_of_rows():
        for _ in range(32 if name in BY_FORMULA else 0):
            talk("code 48")
            talk.bundle(1, tag)
            word = int.from_bytes(talk.model.code[16:32], "little") >> 5 + 41 * slot & WORD - 1
            said = talk(f"immediate 1 {slot} {ord(name[0])} {name[1:]}")
            assert int(said.split(" ")[2][1:]) == BY_FORMULA[name](word), f"the model's {name} isn't the manual's"


def immediates(talk):
    random = talk.random
    increments(talk)
    formulas(talk)
    for name, tag, slot in slots_of_rows():
        form = f"{slot} {ord(name[0])} {name[1:]}"
        talk("code 48")
        for _ in range(6):
            talk.bundle(1, tag)
            talk(f"immediate 1 {form}")
            talk(f"target 1 {form} {random.getrandbits(60) * 16}")
            talk(f"target 1 {form} {random.choice(EDGES)}")
            talk(f"target 1 {form} 0")
            talk(f"target 1 {form} {HUGE - 16}")
    for _ in range(12000):
        talk.random_code()
        n, slot, family, number = talk.random_place()
        talk(f"immediate {n} {slot} {family} {number}")
        talk(f"target {n} {slot} {family} {number} {random.choice((random.getrandbits(60) * 16, talk.any_number()))}")


def random_code(talk):
    """Now and then another code, most of them small; about one in eight too long."""
    random = talk.random
    if random.random() < 0.02 or not talk.lines:
        talk.fill(random.choice((*LENGTHS, 48, 48, 160, 160, 320, 320)))


def random_place(talk):
    """Bundle, slot, family and number, each of them wrong now and then; the bundle's tag is often one that fits."""
    random = talk.random
    family, number = forms(random)
    tag, slot = fitting(random, family)
    inside = len(talk.model.code) // 16
    n = random.randrange(inside) if inside and random.random() < 0.85 else random.choice((inside, inside + 1, *EDGES))
    if n < inside and random.random() < 0.7:
        name = name_of(family, number)
        words = {slot: name} if name in CHOSEN and random.random() < 0.5 else {}
        talk.bundle(n, random.randrange(32) if random.random() < 0.2 else tag, words)
    if random.random() < 0.1:
        slot = random.choice((0, 1, 2, 3, 4, 255, 256, 258, HUGE - 1))
    return n, slot, family, number


Talk.random_code, Talk.random_place = random_code, random_place


# ---- the journal

# lengths of a slice that are wrong
OTHER_LENGTHS = 0, 1, 63, 64, 65, 511, 512, 513, 1023, 1025, 1026, 2047, 2048


def shown(talk, n=None):
    """The whole code and journal, and a bundle; of a large journal, the records now and then."""
    talk("sum")
    if 32 >= len(talk.model.shown) * talk.random.random():
        talk("records")
    if n is not None and 16 * n + 16 <= len(talk.model.code):
        talk(f"get {16 * n} 16")


def with_records(talk, line):
    talk.call(line)
    talk("records")


def put_record(talk, i, one, party=None):
    """Sets the party's place i; the record has that party, or another that is given."""
    return talk(f"place {talk.party * talk.room() + i} {' '.join(map(str, one))} {talk.party if party is None else party}")


def blank(talk, count, length=PLACES):
    """A journal with that count, of records that are zero but for their party, and some records of the other party where there are two."""
    others = any_records(talk.random, talk.random.choice((0, 0, 1, 3))) if talk.parties == 2 else []
    loads = talk.party == 1 and length == PLACES and count <= talk.room()
    counts = (0 if loads else count), len(others)
    talk(f"journal {talk.parties} {counts[talk.party]} {counts[1 - talk.party]}" + (f" {length}" if length != PLACES else ""))
    with as_party(talk, 1 - talk.party):
        put_records(talk, others)
    if loads and count:
        load(talk, sheet([NONE] * count))


@contextlib.contextmanager
def as_party(talk, party):
    own, talk.party = talk.party, party
    yield
    talk.party = own


def each_side(talk, *counts):
    """Each side in turn, with each of these counts, all of its places but one, and all."""
    for side in SIDES:
        talk.side(*side)
        yield from (*counts, talk.room() - 1, talk.room())


def put_records(talk, records):
    for i, one in enumerate(records):
        if one != NONE:
            put_record(talk, i, one)


def put_journal(talk, records, count=None, length=PLACES):
    """A journal with those records, and with another count and length where they are given."""
    blank(talk, len(records) if count is None else count, length)
    put_records(talk, records)


WAYS = "places", "lines", "old lines"


def had(talk, records, way):
    """A journal that has those records: put into its places, or loaded from lines of either kind."""
    if way == "places":
        return put_journal(talk, records)
    put_journal(talk, [])
    return load(talk, sheet(records if way == "lines" else list(map(old_fields, records))))


def halves(number):
    return number % HUGE, number >> 64


def whole_record(random, n, new):
    return n, 0, "-", 0, *halves(random.getrandbits(128)), *halves(new)


def field_record(random, n, new, name, slot):
    """The record of an edit that gave that bundle: its old one has another number there, or the same by chance."""
    row, bundle = ROWS[name], Bundle(new.to_bytes(16, "little"))
    value = row.read([bundle.words[slot], bundle.words[1]])
    old = int.from_bytes(bundle.with_value(slot, row, row.value(random.getrandbits(row.width))), "little")
    return n, slot, name, value % HUGE, *halves(old), *halves(new)


def any_record(random, n, new):
    """A record that passes: of an edit, where the new bundle has a slot with a row, or of a whole bundle."""
    fit = slots_for(new % 32)
    if fit and random.random() < 0.7:
        slot, name = random.choice(fit)
        return field_record(random, n, new, name, slot)
    return whole_record(random, n, new)


def with_tag(random, tag):
    return random.getrandbits(128) & ~31 | tag


def changed(one):
    """The record with one of its nine numbers changed: the bundle's, slot's, letter's, form's, value's and each half's."""
    bundle, slot, form, value, *_ = one
    for other in (bundle + 1, 4095, 4096, 4096 + bundle, HUGE - 1):
        yield other, *one[1:]
    for other in (0, 1, 2, 3, slot + 256, slot + (1 << 32), HUGE - 1):
        yield bundle, other, *one[2:]
    letter, number = (form[0], int(form[1:])) if form != "-" else ("A", 0)
    letters, numbers = "ABFIJMQXZ", (0, 1, 2, number + 1, number + 10, number + 256, HUGE - 1)
    for other in [a + str(number) for a in letters] + [letter + str(n) for n in numbers] + ["-"]:
        yield bundle, slot, other, *one[3:]
    for other in (0, 1, 16, value + 1, value - 1, value + 16, value - 16, value ^ 1 << 63, value ^ 1 << 20, -value, HUGE - 1):
        yield *one[:3], other % HUGE, *one[4:]
    for i in range(4, 8):
        for other in (0, one[i] ^ 1, one[i] ^ 1 << 63, one[i] ^ 1 << (37 * i + value) % 64, HUGE - 1):
            yield *one[:i], other, *one[i + 1:]


def changed_place(one, party):
    """The record with one of its nine numbers changed, or with another party."""
    yield from ((other, party) for other in changed(one))
    yield from ((one, other) for other in (0, 1, 2, 3, party + 2, party + 256, party + (1 << 32), 1 << 63, HUGE - 1))


def value_for(random, family, number):
    row = ROWS.get(name_of(family, number))
    if row is None or random.random() < 0.08:
        return random.choice((*OTHERS, "I16", "U16", "I1", "U1", f"I{-(1 << 63)}", f"U{HUGE - 1}"))
    if random.random() < 0.15:
        return random.choice(list(operands_of(row)))
    value = random.choice((row.low, row.high, row.value(random.randrange(1 << row.width))))
    return f"{'I' if row.signed else 'U'}{value}"


def any_value(random, name):
    """A number that the form's row takes; any where it has none."""
    row = ROWS.get(name)
    return f"{row.kind()}{row.value(random.getrandbits(row.width))}" if row else "I0"


def row_edits(talk, call):
    """Each row's ends and just outside, in every slot that it fits, with the neighbouring bits at random; of a checked edit the word has the
    form, if a word can. Those of retired forms are refused: `kept` has their rows."""
    for name, tag, slot in slots_of_rows():
        talk.any_side()
        talk("code 48")
        put_journal(talk, [])
        for value in operands_of(ROWS[name]):
            talk.bundle(1, tag, {slot: name} if call == "checked" and name in CHOSEN else {})
            talk.call(f"{call} 1 {slot} {ord(name[0])} {name[1:]} {value}")
            talk("get 0 48")
            talk(f"immediate 1 {slot} {ord(name[0])} {name[1:]}")
            if talk.random.random() < 0.5:
                talk.call("undo")
            if talk.own().count > 40:
                put_journal(talk, [])
        shown(talk)


def some_words(random, tag):
    """For the slots of a bundle with that tag forms of their words, of those with a row, or none."""
    fit = {slot: [name for name in CHOSEN if name in ROWS and name[0] == TABLES.get(unit)] for slot, unit in enumerate(UNITS[tag])}
    return {slot: random.choice(names) for slot, names in fit.items() if names and random.random() < 0.7}


def begun(talk, length, bundles):
    """A random code with a journal in which the party has no record and so many bundles that will be edited, and its standing edits."""
    random = talk.random
    talk.fill(length)
    busy = [random.randrange(length // 16) for _ in range(bundles)]
    for n in busy:
        tag = random.choice(list(UNITS))
        talk.bundle(n, tag, some_words(random, tag))
    put_journal(talk, [])
    return busy, Standing(talk.model.code, talk.room())


def stored(talk, standing, busy):
    """Now and then the party has records of retired forms, from when they weren't."""
    random, records = talk.random, []
    for _ in range(random.choice((0, 0, 1, 2, 5, 12))):
        n = random.choice(busy)
        old = number_at(standing.code, n)
        fit = [(slot, name) for slot, name in slots_for(old % 32) if name in RETIRED]
        if fit:
            slot, name = random.choice(fit)
            value = ROWS[name].value(random.getrandbits(ROWS[name].width))
            standing.make((n, slot, name, value))
            records.append((n, slot, name, value, *halves(old), *halves(number_at(standing.code, n))))
    if records:
        put_code(talk, standing.code)
        way = random.choice(WAYS)
        assert had(talk, records, way) != "load 13", "records of retired forms aren't loaded"
        standing.whole = len(records) if way == "old lines" else 0
        shown(talk)


def undo_all(talk, standing):
    while standing.edits:
        undo(talk, standing)
    assert talk.model.code == standing.first, "undoing all edits doesn't give the first code"


def runs(talk, count, calls):
    """Runs from a journal with no record of the party's, or some of retired forms, and nothing else writing the code: demand 3 is worked out
    beside the model."""
    random = talk.random
    for _ in range(count):
        talk.any_side()
        lengths = (16, 17, 47, 48, 160, 160, 160, 320, 320, 1000, 65520, 65535, 65536) if random.random() < 0.1 else (48, 80, 160, 170)
        busy, standing = begun(talk, random.choice(lengths), random.choice((1, 2, 5)))
        stored(talk, standing, busy)
        undoing = random.choice((0.1, 0.3, 0.5))
        for _ in range(calls):
            step(talk, standing, busy, undoing)
        undo_all(talk, standing)


def long_runs(talk):
    """Runs up to the limit, for a while about it with every record shown, and back."""
    for side in SIDES[0], talk.random.choice(SIDES[1:]):
        talk.side(*side)
        busy, standing = begun(talk, 320, 12)
        stored(talk, standing, busy)
        climb(talk, standing, busy, 2)
        for _ in range(30):
            step(talk, standing, busy, 0.3)
            talk("records")
        undo_all(talk, standing)


def climb(talk, standing, busy, free):
    """Edits, and few undos, until so many places are free."""
    while talk.own().count < talk.room() - free:
        step(talk, standing, busy, 0.02)


def step(talk, standing, busy, undoing):
    """One edit or undo, predicted with no journal, and then the whole code and journal."""
    random = talk.random
    if random.random() < undoing:
        return undo(talk, standing)
    n = random.choice(busy)
    units = UNITS.get(standing.code[16 * n] % 32, "MII")
    slot = random.randrange(3)
    names = [name for name in ROWS if units[slot] in FITTING[name[0]]] or list(ROWS)
    chosen = choice(units[slot], bundle_at(standing.code, n).words[slot])
    own = [chosen[0]] if chosen and chosen[0] in ROWS else []
    call = random.choice(EDITS)
    name = random.choice(own or names if call == "checked" and random.random() < 0.8 else names)
    family, number = ord(name[0]), int(name[1:])
    if random.random() < 0.15:
        n, slot, (family, number) = random.choice((n, talk.any_number())), random.choice((slot, 3, HUGE - 1)), forms(random)
    value = value_for(random, family, number)
    taken = talk.call(f"{call} {n} {slot} {family} {number} {value}") == f"{call} 0"
    same(talk, standing, taken, standing.edit(call == "checked", n, slot, family, number, *operand(value)), n)


def undo(talk, standing):
    n = standing.edits[-1][0] if standing.edits else None
    taken = talk.call("undo") == "undo 0"
    same(talk, standing, taken, standing.undo(), n)


def same(talk, standing, taken, predicted, n):
    assert taken == predicted, f"demand 3 predicts another answer to {talk.lines[-1]}"
    assert talk.model.code == standing.code, f"demand 3 gives another code after {talk.lines[-1]}"
    told = [one[:4] for one in talk.standing()]
    assert told == standing.told(), f"demand 3 gives other records after {talk.lines[-1]}"
    shown(talk, n)


def full(talk):
    """The edit after the last place is refused by 7; after an undo it is taken. The other party's calls are taken, whatever stands of this."""
    for side in SIDES:
        talk.side(*side)
        talk("code 16")
        talk("put 0 30000000004000000000800000000080")
        put_journal(talk, [])
        for i in range(talk.room() + 2):
            talk.call(f"edit 0 2 66 1 I{16 * i}")
            shown(talk, 0)
        for _ in range(2):
            for line in ("undo", "edit 0 2 66 1 I-16", "edit 0 2 66 1 I-32"):
                talk.call(line)
            with as_party(talk, 1 - talk.party):
                others_calls(talk)
        for _ in range(talk.room() + 2):
            talk.call("undo")
            shown(talk, 0)


def others_calls(talk):
    """Calls of a party beside a full part; in a journal for one party it is an unknown one."""
    load(talk, sheet([EXAMPLE]))
    for line in ("edit 0 2 66 1 I16", "edit 0 2 66 1 I32", f"sheet {LONGEST}", "undo", "undo"):
        with_records(talk, line)


def some_journal(random, code, count):
    """Records for the first places, whose bundles the code has: all of a small journal, and of a large one some; the others are zero."""
    chosen = {0, count // 2, count - 1, *random.sample(range(count), min(count, 20))} if count > 64 else range(count)
    return [any_record(random, i % 64, number_at(code, i % 64)) if i in chosen else NONE for i in range(count)]


def number_at(code, n):
    return int.from_bytes(code[16 * n:16 * n + 16], "little")


def branches(talk):
    """A code of 64 bundles whose slot 2 has a branch."""
    talk("code 1024")
    for n in range(64):
        talk.bundle(n, 16, {2: "B1"})


REFUSED = (
    "edit 64 2 66 1 I16", "edit 5 2 66 1 I16", "edit 0 2 66 4 I16", "edit 0 1 66 1 I16", "edit 0 2 66 1 U16", "edit 0 2 66 1 I8",
    "edit 0 2 66 9 U16", "checked 0 2 66 9 U16", "checked 0 2 66 2 I16", "checked 0 0 77 44 U7", "checked 0 2 66 1 I8", "undo",
    "code 65537", "edit 0 2 66 1 I16", "undo", "code 0", "edit 0 2 66 1 I16", "undo",
)


def refused_calls(talk):
    """Edits and undos that are refused for each reason beside few records and many, all of them shown."""
    random = talk.random
    for count in each_side(talk, 0, 1, 2, 64, 65, 400):
        branches(talk)
        talk.bundle(5, 6)
        put_journal(talk, [any_record(random, 63 - i % 64, with_tag(random, 16)) for i in range(count)])
        for line in REFUSED:
            with_records(talk, line)
        branches(talk)
        for i in (max(count, 1) - 1, min(count, talk.room() - 1)):
            n, slot, *rest = talk.model.places[talk.own().first + i][0]
            for one in ((64, slot, *rest), (4096, slot, *rest), (n, 3, *rest), (n, slot, *rest)):
                put_record(talk, i, one)
                for line in ("edit 0 2 66 1 I16", "undo", "checked 0 2 66 1 I16", "undo", "undo"):
                    with_records(talk, line)


def slices(talk, calls):
    """Calls on slices of every wrong length (of two parties some), and of the right one, whose records can stand."""
    for length in (2048, 2049, 4096, (1 << 32) + PLACES, HUGE - 1):
        talk(f"journal 1 7 0 {length}")
        talk(f"place 2047 {' '.join(map(str, EXAMPLE))} 0")
        talk("records")
    for side in SIDES:
        talk.side(*side)
        room = talk.room()
        lengths = OTHER_LENGTHS if talk.parties == 1 else (1023, 1025, *talk.random.sample(OTHER_LENGTHS, 2))
        counts = 0, 1, 2, 64, room - 1, room, room + 1, 2 * room, HUGE - 1
        for length, count in itertools.product((*lengths, PLACES), counts):
            branches(talk)
            put_journal(talk, some_journal(talk.random, talk.model.code, min(count, length, room)), count, length)
            for line in calls:
                with_records(talk, line)
            for i in (max(length, 1) - 1, length):
                put_record(talk, i - talk.party * room, EXAMPLE)
            talk("records")


def refusals(talk, count):
    """Edits and undos on journals and codes of every kind, so that refusals meet."""
    random = talk.random
    for _ in range(count):
        talk.random_code()
        if random.random() < 0.4:
            any_journal(talk)
        if random.random() < 0.1:
            talk.party ^= 1
        if random.random() < 0.3:
            talk.call("undo")
        else:
            n, slot, family, number = talk.random_place()
            talk.call(f"{random.choice(EDITS)} {n} {slot} {family} {number} {value_for(random, family, number)}")
        if random.random() < 0.5:
            talk.call("undo")
        if random.random() < 0.2 and len(talk.model.code) >= 16:
            talk(f"put {16 * random.randrange(len(talk.model.code) // 16)} {random.randbytes(1).hex()}")
        shown(talk)


def any_journal(talk):
    """A journal that fits the code or doesn't, valid or not; now and then the slice has another length. Of a large one most places are zero."""
    random, code = talk.random, talk.model.code
    talk.any_side()
    room = talk.room()
    few, many = (0, 1, 2, 3, 20, 63, 64, 65), (room - 1, room, room + 1, 2 * room, 1 << 32, HUGE - 1)
    count = random.choice(few if random.random() < 0.7 else many)
    length = random.choice(OTHER_LENGTHS) if random.random() < 0.1 else PLACES
    blank(talk, count, length)
    inside, stand = max(1, len(code) // 16), min(count, length, room)
    for i in range(stand) if stand < 66 else {stand - 1, *random.sample(range(stand), 20)}:
        n = random.choice((random.randrange(inside), random.randrange(4096)))
        new = with_tag(random, random.randrange(32))
        if random.random() < 0.6 and 16 * n + 16 <= len(code):
            new = number_at(code, n)
        put_record(talk, i, any_record(random, n, new))
    if random.random() < 0.2:
        talk.party ^= talk.parties - 1
    spoil_places(talk)


def spoil_places(talk):
    """Now and then a record of the party's part is wrong in a number, or a place after those that stand isn't free."""
    random, first, stand = talk.random, talk.own().first, min(talk.own().count, talk.room())
    if random.random() < 0.25 and 0 < stand and first + stand <= len(talk.model.places):
        i = random.choice((stand - 1, random.randrange(stand)))
        one, party = talk.model.places[first + i]
        far = random.choice((4096, 4097, 1 << 60, HUGE - 1)), *one[1:]
        put_record(talk, i, *random.choice(((far, party), random.choice(list(changed_place(one, party))))))
    if random.random() < 0.25 and stand < talk.room():
        i = random.choice((stand, talk.room() - 1))
        put_record(talk, i, *random.choice(list(changed_place(NONE, 0))))


def names(talk):
    """Every byte as a form's letter, and forms that there aren't: a record holds those with a capital letter."""
    number = b"1", b"0", b"49", str(HUGE - 1).encode()
    bad = b"", b"01", b"00", b"-1", b"+1", b"1x", b"A", b"-", str(HUGE).encode(), str(10 * HUGE).encode(), b"9" * 40
    letters = [bytes([byte]) for byte in range(256) if byte != 10]
    for form in [letter + b"1" for letter in letters] + [b"A" + letter for letter in letters] + [b"1" + letter for letter in letters]:
        talk(b"place 3 0 0 %s 0 0 0 0 0 0" % form)
        talk("records")
    for letter, rest in itertools.product((b"A", b"M", b"X", b"Q", b"Z", b"@", b"[", b"a", b"", b"-"), number + bad):
        for count in (0, 1):
            talk(f"journal 1 {count} 0")
            talk(b"place 0 0 0 %s%s 0 0 0 0 0 0" % (letter, rest))
            talk("records")
            talk("undo 0")


def wrong_in_one(talk, calls):
    """Calls on journals that are wrong in one number of one place, standing or free, or are by chance not; of two parties either one's."""
    random = talk.random
    for count in each_side(talk, 0, 1, 2, 5, 64):
        room = talk.room()
        branches(talk)
        records = some_journal(random, talk.model.code, count)
        for i in {0, count // 2, max(0, count - 1), min(count, room - 1), room - 1}:
            some = list(changed_place(*((records[i], talk.party) if i < count else (NONE, 0))))
            for one, party in some if count < 64 and talk.parties == 1 else random.sample(some, 12 // talk.parties):
                put_journal(talk, records)
                put_record(talk, i, one, party)
                with as_party(talk, random.randrange(talk.parties)):
                    for line in calls:
                        talk.call(line)
                        shown(talk, 63)


def belonging(talk):
    """Records of every form with a row, in slots that it fits: what passes, and what is wrong in one number or in several."""
    random = talk.random
    for name, tag, slot in slots_of_rows():
        if name[0] == "X" or random.random() < 0.25:
            one = field_record(random, 0, with_tag(random, tag), name, slot)
            yield one
            yield from random.sample(list(changed(one)), 16)
            yield from beside(random, one)


def beside(random, one):
    """Records near one of an edit: with its halves swapped, a bit changed in both, another form of its row, the raw number as a value."""
    n, slot, name, value, *_ = one
    old, new, row = one[4:6], one[6:], ROWS[name]
    yield n, slot, name, value, *new, *new
    yield n, slot, name, value, *new, *old
    yield n, slot, name, value, *old, *old
    yield n, 0, "-", 0, *old, *new
    yield n, slot, "-", value, *old, *new
    for bit in (*random.sample(range(5, 128), 4), *range(5)):
        other = [half ^ part for half, part in zip(one[4:], halves(1 << bit) * 2)]
        yield n, slot, name, value, *other
    for other in ROWS:
        if ROWS[other].parts == row.parts or random.random() < 0.1:
            yield n, slot, other, value, *old, *new
    for raw in (0, 1, (1 << row.width) - 1, 1 << row.width - 1, random.getrandbits(row.width)):
        made = Bundle(joined(*old)).with_value(slot, row, row.value(raw))
        for said in (row.value(raw), raw, row.value(raw) + (1 << row.width), row.value(raw) ^ 1 << 63):
            yield n, slot, name, said % HUGE, *old, *halves(int.from_bytes(made, "little"))


def tested(talk):
    """A journal of one such record, and an undo of it."""
    talk("code 16")
    for one in belonging(talk):
        talk.any_side()
        put_journal(talk, [one])
        talk(f"put 0 {joined(*one[6:]).hex()}")
        talk.call("undo")
        shown(talk, 0)


def journals(talk):
    full(talk)
    names(talk)
    wrong_in_one(talk, ("edit 63 2 66 1 I-16", "undo", "checked 63 2 66 1 I-16", "edit 63 0 77 44 U7"))
    tested(talk)
    row_edits(talk, "edit")
    refused_calls(talk)
    slices(talk, ("edit 0 2 66 1 I-16", "checked 0 2 66 1 I-32", "edit 0 2 66 1 I8", "edit 0 2 66 4 I16", "edit 64 2 66 1 I16", "undo"))
    runs(talk, 100, 250)
    long_runs(talk)
    refusals(talk, 16000)


# ---- opcode and form of a word, and checked edits

def choices(talk):
    every_choice(talk)
    row_edits(talk, "checked")
    other_forms(talk)
    near_words(talk)
    faulty(talk)


def every_choice(talk):
    """Words with every value of the bits that the tables look at, the others at random; every unit, and numbers that are none."""
    random = talk.random
    for unit, family in TABLES.items():
        looked_at = [(mask, own) for form, mask, _, own, _ in OPCODES if form[0] == family]
        places = [place for place in range(41) if any(mask >> place & 1 or place in own for mask, own in looked_at)]
        for number in range(1 << len(places)):
            talk(f"choose {ord(unit)} {with_bits(random.getrandbits(41), places, number)}")
    for unit in (*range(256), *(by + ord(unit) for by in (256, 1 << 32, 1 << 63) for unit in "MIB"), HUGE - 1):
        for word in (*(word_of(random, name) for name in CHOSEN), *EDGES, random.getrandbits(41), random.getrandbits(64)):
            talk(f"choose {unit} {word}")


def other_forms(talk):
    """A word of each form, in a slot that it fits: a checked edit by every form, the plain one, and the checked one of the word that this
    left."""
    random = talk.random
    for own in CHOSEN:
        talk.any_side()
        put_journal(talk, [])
        for family, number in ((family, number) for family, numbers in FORMS.items() for number in numbers):
            tag, slot = fitting(random, ord(own[0]))
            talk("code 16")
            talk.bundle(0, tag, {slot: own})
            value = any_value(random, f"{family}{number}")
            for call in ("checked", "edit", "checked"):
                talk.call(f"{call} 0 {slot} {ord(family)} {number} {value}")
                talk(f"choose {ord(UNITS[tag][slot])} {bundle_at(talk.model.code, 0).words[slot]}")
            talk("get 0 16")
            if talk.own().count > 40:
                put_journal(talk, [])


def near_words(talk):
    """Words that are one bit away from one that has the form, by every bit."""
    random = talk.random
    talk.any_side()
    talk("code 16")
    for name, bit in itertools.product((name for name in CHOSEN if name in ROWS), range(41)):
        tag, slot = fitting(random, ord(name[0]))
        talk.bundle(0, tag, {slot: name})
        number = number_at(talk.model.code, 0) ^ 1 << 5 + 41 * slot + bit
        talk(f"put 0 {number.to_bytes(16, 'little').hex()}")
        talk(f"open {talk.parties}")
        talk.call(f"checked 0 {slot} {ord(name[0])} {name[1:]} {any_value(random, name)}")
        talk("get 0 16")


ORDER = 10, 1, 2, 3, 15, 5, 14, 6, 11, 7


def faulty(talk):
    """Edits with no fault, with each alone, with each two that can be had together, and with some three: the first in order is answered.
    Those of retired forms are had with each of them."""
    random = talk.random
    sets = [{*faults} for count in range(4) for faults in itertools.combinations(ORDER, count)]
    for side, faults in itertools.product(SIDES, sets):
        if not {1, 2} <= faults and not {3, 15} <= faults and (len(faults) < 3 or random.random() < 0.3):
            names = names_with(faults)
            for name in names if 15 in faults else [random.choice(names)]:
                talk.side(*side)
                line = with_faults(talk, faults, name)
                for call in EDITS:
                    in_order(talk, f"{call} {line}", [fault for fault in ORDER if fault in faults and (call == "checked" or fault != 14)])


def in_order(talk, line, wanted):
    """An edit with these faults, in order, which is undone where there are none."""
    said = talk.call(line)
    have = [number for number, applies in talk.model.reasons if applies]
    assert have == wanted and said.split(" ")[1] == str((*wanted, 0)[0]), f"{talk.lines[-1]} has the faults {have} and not {wanted}"
    shown(talk, 1)
    if not wanted:
        talk.call("undo")


def names_with(faults):
    """Forms that edits with these faults can have. B words have the first ones; the others are no word's."""
    if 3 in faults:
        words, no_words = ["B4", "B5"], ["M1", "I2", "F1"]
    elif 15 in faults:
        words, no_words = ["B9"], sorted(RETIRED - {"B9"})
    else:
        words, no_words = ["B1", "B2", "B3"], ["M44", "I21", "F14", "X3"]
    # of a word that isn't there, 14 says nothing
    return words if 14 not in faults else no_words if faults & {1, 2} else words + no_words


def with_faults(talk, faults, name):
    """A code, a journal and an edit of that form with these faults and no others: its bundle, slot, form and value."""
    random, length = talk.random, 65552 if 10 in faults else 64
    far = 5 in faults and (14 not in faults or faults & {1, 2} or name[0] != "B" and random.random() < 0.5)
    unfit = 5 in faults and not far
    tag, slot = fitting(random, ord(name[0]) if not unfit else ord("M" if name[0] == "B" else "B"))
    own = {} if name[0] != "B" else {slot: random.choice(("B6", "B7", "B8")) if 14 in faults else name}
    talk(f"code {length}")
    talk.bundle(1, random.choice((6, 7, 20, 21)) if 2 in faults else tag, own)
    put_journal(talk, [NONE] * (talk.room() if 7 in faults else random.randrange(3)))
    if 11 in faults:
        put_record(talk, talk.room() - 1, (4096, *NONE[1:]))
    n, slot = length // 16 if 1 in faults else 1, random.choice((3, 258, HUGE - 1)) if far else slot
    value = "None" if 6 in faults else any_value(random, name)
    return f"{n} {slot} {ord(name[0])} {name[1:]} {value}"


# ---- whether two edits meet, and the order of edits that don't

def meetings(talk):
    every_meeting(talk)
    asked(talk, 12000)
    pairs(talk, 4000)
    two_files(talk, 600)


def every_meeting(talk):
    """Every form with a row in every slot beside every other, in one bundle, and some in two."""
    random = talk.random
    fields = [f"{slot} {ord(name[0])} {name[1:]}" for name in ROWS for slot in range(3)]
    for one, other in itertools.product(fields, fields):
        n = talk.any_number()
        talk(f"meet {n} {one} {n} {other}")
        if random.random() < 0.1:
            talk(f"meet {n} {one} {random.choice((n ^ 1, n ^ 1 << 63, talk.any_number()))} {other}")


def asked(talk, count):
    """Edits that have bits and that have none, of one bundle and of two, with numbers of every size."""
    random = talk.random
    for _ in range(count):
        n, fields = talk.any_number(), []
        for _ in range(2):
            slot = random.randrange(3) if random.random() < 0.8 else random.choice((3, 4, 255, 256, 258, 1 << 32, (1 << 32) + 2, HUGE - 1))
            family, number = forms(random)
            fields.append(f"{n} {slot} {family} {number}")
            n = n if random.random() < 0.7 else talk.any_number()
        talk(f"meet {fields[0]} {fields[1]}")


def taken_edit(random, busy, code):
    """An edit that the code takes, of one of those bundles: bundle, slot, family and number, and the value."""
    n = random.choice(busy)
    slot, name = random.choice([(slot, name) for slot, name in slots_for(code[16 * n] % 32) if name not in RETIRED])
    return (n, slot, ord(name[0]), int(name[1:])), any_value(random, name)


def code_after(talk, first, edits):
    """The code after a party's edits that are each taken, from a first code and a journal with just the room, or more."""
    talk(f"put 0 {first.hex()}")
    put_journal(talk, [NONE] * (talk.room() - len(edits)) if talk.random.random() < 0.02 else [])
    for field, value in edits:
        said = talk.call(f"edit {' '.join(map(str, field))} {value}")
        assert said == "edit 0", f"{talk.lines[-1]} was acceptable at the start, and isn't now"
    talk(f"get 0 {len(first)}")
    return bytes(talk.model.code)


def are_apart(talk, one, other):
    return talk(f"meet {' '.join(map(str, one[0]))} {' '.join(map(str, other[0]))}") == "meet 0 0"


def pairs(talk, count):
    """Two edits in either order: where they don't meet the code is the same, and of two of one field the later decides it alone."""
    random = talk.random
    for _ in range(count):
        talk.any_side()
        busy, standing = begun(talk, 80, random.choice((1, 1, 2)))
        first = standing.first
        one, other = taken_edit(random, busy, first), taken_edit(random, busy, first)
        if random.random() < 0.2:
            other = one[0], any_value(random, name_of(*one[0][2:]))
        apart = are_apart(talk, one, other)
        assert apart == are_apart(talk, other, one), "whether two edits meet goes by their order"
        codes = code_after(talk, first, [one, other]), code_after(talk, first, [other, one])
        assert not apart or codes[0] == codes[1], "edits that don't meet don't commute"
        if one[0] == other[0]:
            assert codes == (code_after(talk, first, [other]), code_after(talk, first, [one])), "the later edit doesn't decide"


def any_mix(random, one, other):
    """The edits of two files, each in its own order."""
    ones, others = iter(one), iter(other)
    return [next(which) for which in random.sample([ones] * len(one) + [others] * len(other), len(one) + len(other))]


def two_files(talk, count):
    """Two files whose edits don't meet, though each file's own may: every mix gives the code of the one after the other."""
    random = talk.random
    for _ in range(count):
        talk.any_side()
        busy, standing = begun(talk, 80, random.choice((1, 2, 4)))
        first = standing.first
        one = [taken_edit(random, busy, first) for _ in range(random.randrange(6))]
        others = [taken_edit(random, busy, first) for _ in range(random.choice((0, 2, 12, 12)))]
        other = [edit for edit in others if all([are_apart(talk, mine, edit) for mine in one])]
        wanted = code_after(talk, first, one + other)
        for mix in (other + one, any_mix(random, one, other), any_mix(random, one, other)):
            assert code_after(talk, first, mix) == wanted, "the order of two files matters"


# ---- sheets

EXAMPLE = (0, 2, "B1", 16, 70368744177712, 9223372036863164416, 70368744177712, 9223372105582641152)


def small_sheets():
    """Two of each kind of line."""
    odd = [(4095, 0, "-", 0, 0, 1, HUGE - 1, 10), (7, 0, "-", 0, 1 << 63, 20, 300, 4000)]
    negative = (12, 2, "I24", -(1 << 43) % HUGE, 0, 0, 0, 1 << 59)
    return sheet([EXAMPLE]), sheet([odd[0], negative]), sheet([old_fields(EXAMPLE)]), sheet(list(map(old_fields, odd)))


def load(talk, data):
    return talk.call(f"load {data.hex() or '-'}")


def damaged(talk):
    """Texts that are no sheets, or are by chance; after each kind of damage the journal is shown."""
    random = talk.random
    for text in small_sheets():
        for at in range(len(text)):
            talk.any_side()
            put_journal(talk, [EXAMPLE] * 3)
            assert load(talk, text) == "load 0", "a small sheet is none"
            for byte in range(256):
                load(talk, text[:at] + bytes([byte]) + text[at + 1:])
            load(talk, text[:at] + text[at + 1:])
            for byte in b"\t\n0123 +-\rA":
                load(talk, text[:at] + bytes([byte]) + text[at:])
            load(talk, text[:at])
            talk("records")
    head = b"patches\t"
    for record in (b"1\t0\t-\t0\t2\t3\t4\t5\n", b"1\t2\t3\t4\t5\n"):
        for text in (b"", head, head + b"0", head + b"0\n", head + b"00\n", head + b"+0\n", head + b"0\n\n", head + b" 0\n", head + b"0\r\n",
                     head + b"-\n", head + b"1\n", head + b"0\n" + record, head + b"1\n" + record, head + b"1\n" + record[:-1],
                     head + b"2\n" + record, head + b"1\n" + record * 2, b"Patches\t0\n", b"patches 0\n", b"patches\t0\t\n",
                     b"\n" + head + b"0\n", b"\xef\xbb\xbf" + head + b"0\n", head + b"\xd9\xa0\n"):
            talk.any_side()
            put_journal(talk, [EXAMPLE] * 3)
            load(talk, text)
            talk("records")
        for field in range(record.count(b"\t") + 1):
            for value in ("0", "00", "01", "+1", "-1", " 1", "1 ", "", "4095", "4096", "65536", str(HUGE - 1), str(HUGE), str(HUGE + 1), str(HUGE * 10),
                          "9" * 30, "0" * 21, "1.0", "0x1", "1e3", "1\r", "-", "--", "A0", "A1", "M48", "m48", "M", "M048", f"A{HUGE}"):
                fields = record.strip().split(b"\t")
                fields[field] = value.encode()
                load(talk, head + b"1\n" + b"\t".join(fields) + b"\n")
                talk("records")
        for count in (0, 1, 2, 64, 65, 512, 513, 1023, 1024, 1025, 2048):
            talk.any_side()
            put_journal(talk, [])
            for said in (count - 1, count, count + 1, HUGE + count):
                load(talk, head + str(said).encode() + b"\n" + record * count)
                talk("records")
    for size in (1, 100, LONGEST - 1, LONGEST, LONGEST + 1, 199990):
        load(talk, head + b"0\n" + b"\n" * size)
        load(talk, random.randbytes(size))
    talk("records")


def mixed(talk):
    """Sheets in which the two kinds of lines stand beside each other, every way up to four lines, and one among many; and lines that have
    other numbers of fields."""
    random = talk.random
    news = [with_tag(random, random.choice(list(UNITS))) for _ in range(PLACES)]
    records = [any_record(random, n, new) for n, new in enumerate(news)]
    ways = [kinds for count in range(5) for kinds in itertools.product((False, True), repeat=count)]
    for count, most in itertools.product((5, 64, PLACES), (False, True)):
        ways += [[(i == odd) != most for i in range(count)] for odd in (0, 1, count // 2, count - 1, count)]
    for kinds in ways:
        talk.any_side()
        put_journal(talk, [])
        load(talk, sheet([old_fields(one) if old else one for one, old in zip(records, kinds)]))
        talk("records")
    for fields in itertools.chain((EXAMPLE[:count] for count in range(8)), (EXAMPLE + more for more in ((0,), (0,) * 8))):
        for lines in ([fields], [EXAMPLE, fields], [fields, EXAMPLE], [old_fields(EXAMPLE), fields]):
            load(talk, sheet(lines))
            talk("records")


def whole_lines(talk):
    """Lines of whole bundles: their halves are free, their slot and value 0."""
    random = talk.random
    for slot, value in itertools.product((0, 1, 2, 3, 256, 1 << 32, HUGE - 1), (0, 1, 16, 256, 1 << 32, 1 << 63, HUGE - 1)):
        for old, new in ((0, 0), (0, 1), (random.getrandbits(128), random.getrandbits(128))):
            one = random.randrange(4096), slot, "-", value, *halves(old), *halves(new)
            talk.any_side()
            put_journal(talk, [])
            load(talk, sheet([one]))
            put_journal(talk, [one])
            talk.call("sheet 130")


def kept(talk):
    """Of each retired form, in every slot that it fits, records with its row's ends and just outside, in every call: those that an edit
    could have made before stand beside edits that are refused, are undone, written and loaded; others aren't."""
    random = talk.random
    talk("code 16")
    for name, tag, slot in slots_of_rows():
        row = ROWS[name]
        for value in (value for value in values(row) if 0 <= value < HUGE) if name in RETIRED else ():
            talk.any_side()
            old = with_tag(random, tag)
            new = int.from_bytes(Bundle(old.to_bytes(16, "little")).with_value(slot, row, value), "little")
            one = 0, slot, name, value, *halves(old), *halves(new)
            assert may_stand(one) == row.takes(value), "a record isn't tested by its row"
            for way in WAYS:
                had(talk, [one], way)
                every_call(talk, one, f"{slot} {ord(name[0])} {name[1:]}")
                talk.call("undo")
                shown(talk, 0)


def every_call(talk, one, form):
    """The calls of that form over the code that a record gives, beside the journal that has it; each leaves both."""
    talk(f"put 0 {joined(*one[6:]).hex()}")
    for line in (f"edit 0 {form} U{one[3]}", f"checked 0 {form} U{one[3]}", "edit 0 2 66 9 None", f"immediate 0 {form}",
                 f"target 0 {form} 16", f"meet 0 {form} 0 {form}", "sheet 200", "sheetline 1 116"):
        talk.call(line)
    shown(talk, 0)


def told(talk):
    """Lines whose form, slot, value and halves belong together, or don't, alone and behind one that does; what is refused by 13 as a line
    makes a journal that is refused by 11."""
    for one in belonging(talk):
        talk.any_side()
        put_journal(talk, [])
        load(talk, sheet([one]))
        talk("records")
        bad = load(talk, sheet([EXAMPLE, one])) == "load 13"
        put_journal(talk, [one])
        answer = talk.call("sheet 200")
        assert answer.startswith("sheet 11") == bad, "loading and validity aren't one test"


LONGEST = 118797


def longest(talk):
    """The longest sheet of each kind: 1,024 lines of 116 bytes, and of 89."""
    talk.side(1, 0)
    ones = (1 << 128) - 32 | 8
    one = field_record(talk.random, 4095, ones, "M20", 0)
    put_journal(talk, [one] * PLACES)
    assert len(sheet([one] * PLACES)) == LONGEST
    for length in (LONGEST - 1, LONGEST, LONGEST + 1, 130000, 130001, 0):
        talk.call(f"sheet {length}")
    talk("records")
    for lines in ([one] * PLACES, [old_fields(one)] * PLACES):
        talk("open 1")
        load(talk, sheet(lines))
        talk("records")


def written(talk):
    """Sheets of journals of every kind into outputs of every length about their own, and loaded again."""
    random = talk.random
    for _ in range(1000):
        talk.random_code()
        any_journal(talk)
        text = sheet(talk.standing())
        for length in {0, len(text) - 1, len(text), len(text) + 1, random.randrange(8000)}:
            talk.call(f"sheet {length}")
        for i in (0, 1, random.randrange(PLACES), talk.own().count):
            talk.call(f"sheetline {i} {random.choice((0, 8, 9, 10, 17, 18, 100, 116, 200, random.randrange(202)))}")
        if random.random() < 0.5:
            any_journal(talk)
        load(talk, text)
        talk("records")


def any_records(random, count):
    return [any_record(random, random.randrange(4096), with_tag(random, random.choice(list(UNITS)))) for _ in range(count)]


def large(talk):
    """Sheets of both kinds of lines, of few and of many, in place of other records; then written again, and line by line."""
    random = talk.random
    for side, count in itertools.product(SIDES, (0, 1, 2, 5, 64, 65, 511, 512, 513, 700, PLACES - 1, PLACES, PLACES + 1, 1500)):
        talk.side(*side)
        records = any_records(random, count)
        wanted = "load 13" if count > PLACES else "load 7" if count > talk.room() else "load 0"
        for lines in (records, list(map(old_fields, records))):
            put_journal(talk, any_records(random, random.choice((0, 3, 64, 400, talk.room()))))
            assert load(talk, sheet(lines)) == wanted
            talk("records")
        if count in (1, 5, 64, talk.room()):
            line_by_line(talk)


def line_by_line(talk):
    """The sheet of a valid journal and each of its lines, into outputs too short, just long enough and longer; and lines past the last."""
    random, count = talk.random, talk.own().count
    whole = talk.call(f"sheet {LONGEST}").split(" ")[3]
    together = ""
    for i, line in enumerate(bytes.fromhex(whole).splitlines(keepends=True)):
        for length in (0, len(line) - 1, random.randrange(len(line), 202), len(line)):
            said = talk.call(f"sheetline {i} {length}")
        together += said.split(" ")[3]
    assert together == whole, "the lines aren't the sheet"
    for i in (count + 1, count + 2, PLACES + 1, 2 * PLACES, 1 << 32, HUGE - 1):
        for length in (0, 1, 200):
            talk.call(f"sheetline {i} {length}")


def faults(lines):
    """Texts that are one fault away from a sheet of those lines: in the first one, one within or the last, and at the ends."""
    text, count = sheet(lines), len(lines)
    for i in sorted({0, count // 2, count - 1}):
        n, *rest = lines[i]
        others = [(4096, *rest), rest, (n, *rest, 0), (n, *rest[:-1], HUGE), (n, *rest[:-1], "1\r"), ("", n, *rest), ()]
        for one in others + [(n, 3, *rest[1:])] * (len(rest) == 7):
            yield sheet([*lines[:i], one, *lines[i + 1:]])
        yield header(count) + sheet([*lines[:i], *lines[i + 1:]]).split(b"\n", 1)[1]
    yield from (text[:-1], text[:-2], text[1:], text + b"\n", text + b"0", b"\n" + text)
    for said in (count - 1, count + 1, PLACES + 1, HUGE + count):
        yield header(said) + text.split(b"\n", 1)[1]


def refused_loads(talk):
    """Texts with one fault, over journals of which every record is shown after."""
    random = talk.random
    for count in (1, 2, 64, PLACES):
        records = any_records(random, count)
        for lines, before in itertools.product((records, list(map(old_fields, records))), (0, 1, None)):
            talk.any_side()
            before = talk.room() if before is None else before
            put_journal(talk, any_records(random, before))
            for text in (*faults(lines), sheet(lines)):
                with_records(talk, f"load {text.hex()}")


def sheet_of(talk):
    """The sheet, written as a whole or line by line."""
    if talk.random.random() < 0.5:
        return talk.call(f"sheet {LONGEST}").split(" ")[3]
    return "".join(talk.call(f"sheetline {i} 116").split(" ")[3] for i in range(talk.own().count + 1))


def again(talk):
    """Loads the sheet."""
    talk.call(f"load {sheet_of(talk)}")
    shown(talk)


def again_old(talk, standing):
    """Loads an old tool's sheet of the same records."""
    load(talk, sheet(list(map(old_fields, talk.standing()))))
    standing.whole = len(standing.edits)
    shown(talk)


def runs_with(talk, does, count, calls, free=PLACES):
    """Demand 3 where more than edits and undos is done in a run, from a fresh journal, or one with so many places free."""
    for _ in range(count):
        talk.any_side()
        busy, standing = begun(talk, 160, 10)
        stored(talk, standing, busy)
        climb(talk, standing, busy, free)
        for _ in range(calls):
            does(talk, standing, busy)
        undo_all(talk, standing)


def step_or_sheet(talk, standing, busy):
    """An edit or undo, and before it, now and then, the sheet written and loaded."""
    kind = talk.random.random()
    if kind < 0.2:
        again(talk)
    elif kind < 0.22:
        again_old(talk, standing)
    step(talk, standing, busy, 0.3)


# ---- parties

ANY_PARTY = 0, 1, 2, 3, 4, 255, 256, 257, 258, (1 << 32) + 1, (1 << 32) + 2, 1 << 63, HUGE - 1

EVERY_CALL = (
    "edit 0 2 66 1 I16", "checked 0 2 66 1 I32", "edit 0 2 66 1 I8", "edit 64 2 66 1 I16", "edit 0 2 66 9 U16", "checked 0 2 66 9 U16",
    "sheet 200", "sheet 0", "sheetline 0 200", "sheetline 1 200", "undo", "undo",
    *(f"load {text.hex()}" for text in (sheet([EXAMPLE])[:-1], sheet([EXAMPLE]), sheet([old_fields(EXAMPLE)] * 2), sheet([]))),
)


def zero_of_1(talk, i):
    """Party 1's place i has the record that is zero but for its party."""
    talk.side(2, 1)
    put_record(talk, i, NONE)


def unknown(talk, calls):
    """Calls of any party on journals for any number of parties: fresh ones, and ones with a record of party 0, of party 1, or of both."""
    branches(talk)
    for parties, party in itertools.product(ANY_PARTY, repeat=2):
        for counts in ("0 0", "1 0", "0 1", "1 1"):
            talk(f"journal {parties} {counts}" if counts != "0 0" else f"open {parties}")
            if counts[-1] == "1":
                zero_of_1(talk, 0)
            talk.side(parties, party)
            for line in calls:
                with_records(talk, line)
            if parties < 4:
                with_records(talk, f"load {sheet([NONE] * 513).hex()}")


SOME_COUNTS = 0, 1, 2, 511, 512, 513, 1023, 1024, 1025, HUGE - 1


def some_counts(talk, calls):
    """Counts of both parties, in range and out of it, with their records and without."""
    branches(talk)
    for lower, upper in sorted({*itertools.product(SOME_COUNTS, (0, 1, 2)), *itertools.product((0, 512), SOME_COUNTS)}):
        for parties, filled in ((1, 0), (2, 0), (2, min(upper, PLACES // 2))):
            talk(f"journal {parties} {lower} {upper}")
            for i in range(filled):
                zero_of_1(talk, i)
            for line in calls:
                talk.side(parties, talk.random.randrange(2))
                with_records(talk, line)


def put_code(talk, code):
    if len(code) != len(talk.model.code):
        talk(f"code {len(code)}")
    talk(f"put 0 {code.hex()}")


class Mixed:
    """A party of a mixed run: its code, which it alone writes, its standing edits, and its lines with what was answered."""

    def __init__(self, talk, party):
        self.party, self.said = party, []
        talk.side(2, party)
        self.busy, self.standing = begun(talk, talk.random.choice((16, 32, 48, 50, 160)), 3)
        self.code = self.standing.first

    def turn(self, talk, does):
        """A turn of the party's, over its code."""
        talk.side(2, self.party)
        put_code(talk, self.code)
        before = len(talk.lines)
        does(talk, self)
        self.code = bytes(talk.model.code)
        shown(talk)
        new = zip(talk.lines[before:], talk.answers[before:])
        self.said += [(line, answer) for line, answer in new if line != b"records"]

    def alone(self, talk):
        """The same lines in a journal that was opened for two, with none of the other party's: they are answered the same."""
        talk.side(2, self.party)
        talk("open 2")
        put_code(talk, self.standing.first)
        for line, answer in self.said:
            assert talk(line) == answer, f"alone, another answer to {line}"
            if talk.random.random() < 0.02:
                talk("records")
        talk("records")


def stepped(talk, side):
    step_or_sheet(talk, side.standing, side.busy)


def climbed(talk, side):
    step(talk, side.standing, side.busy, 0.02)


def undone(talk, side):
    undo_all(talk, side.standing)


def wandered(talk, side):
    """Any call, with sheets of others, texts that are none, and the code written by hand; with no standing edits worked out."""
    random = talk.random
    kind = random.random()
    if kind < 0.4:
        n, slot, family, number = talk.random_place()
        talk.call(f"{random.choice(EDITS)} {n} {slot} {family} {number} {value_for(random, family, number)}")
    elif kind < 0.65:
        talk.call("undo")
    elif kind < 0.75:
        talk.call(f"sheet {random.choice((0, 9, 10, 1000, LONGEST))}")
    elif kind < 0.8:
        talk.call(f"sheetline {random.randrange(5)} {random.randrange(202)}")
    elif kind < 0.85 and len(talk.model.code) >= 16:
        talk.bundle(random.randrange(len(talk.model.code) // 16), 16)
    else:
        count = random.choice((0, 1, 2, 5) if random.random() < 0.9 else (511, 512, 513, PLACES, PLACES + 1))
        lines = any_records(random, count)
        text = sheet(random.choice((lines, list(map(old_fields, lines)))))
        load(talk, text[:len(text) - (random.random() < 0.2)])


def written_out(talk, side):
    talk.call(f"sheet {LONGEST}")


def mixings(talk, count, steps, wanders):
    """Two parties' calls, mixed, each party over its own code; then each party's alone, which are to be answered the same. Of the steps, for
    which demand 3 has standing edits, it is worked out for each party."""
    for _ in range(count):
        mixing(talk, [(steps, 100), (undone, 4)])
        mixing(talk, [(wanders, 100)])
    mixing(talk, [(climbed, 1700), (steps, 40), (undone, 4)])


def mixing(talk, phases):
    sides = [Mixed(talk, party) for party in (0, 1)]
    talk("open 2")
    for does, turns in phases:
        for _ in range(turns):
            talk.random.choice(sides).turn(talk, does)
    for side in sides:
        side.turn(talk, written_out)
    talk("records")
    for side in sides:
        side.alone(talk)


def sheets(talk):
    longest(talk)
    written(talk)
    damaged(talk)
    mixed(talk)
    whole_lines(talk)
    told(talk)
    kept(talk)
    calls = f"sheet {LONGEST}", "sheetline 0 200", "sheetline 1 200", f"sheetline {HUGE - 1} 0"
    wrong_in_one(talk, (*calls, "undo", f"sheet {LONGEST}"))
    texts = sheet([EXAMPLE])[:-1], sheet([NONE] * 2 * PLACES), sheet([NONE] * PLACES), sheet([EXAMPLE])
    slices(talk, (*calls, "sheet 0", "sheetline 0 0", *(f"load {text.hex()}" for text in texts)))
    large(talk)
    refused_loads(talk)
    runs_with(talk, step_or_sheet, 60, 60)
    runs_with(talk, step_or_sheet, 2, 30, 5)
    unknown(talk, EVERY_CALL)
    one = f"load {sheet([EXAMPLE]).hex()}"
    some_counts(talk, ("edit 0 2 66 1 I16", "checked 0 2 66 1 I32", "undo", f"sheet {LONGEST}", "sheetline 1 100", one))
    mixings(talk, 30, stepped, wandered)


# ---- folds

def folds(talk):
    tuned(talk)
    every_form(talk)
    set_and_folded(talk, 1000)
    full_folds(talk)
    any_folds(talk, 1000)
    wrong_in_one(talk, ("fold", "undo"))
    slices(talk, ("fold", "edit 0 2 66 1 I-16", "fold", "undo"))
    runs_with(talk, step_or_fold, 100, 60)
    refilled(talk)
    calls = "edit 0 2 66 1 I16", "edit 0 2 66 1 I32", "fold", "undo"
    unknown(talk, calls)
    some_counts(talk, calls)
    mixings(talk, 15, fold_stepped, fold_wandered)


def fold(talk):
    """A fold, and a second one straight after, which changes nothing."""
    said = talk.call("fold")
    now = talk("records")
    assert (talk.call("fold"), talk("records")) == (said, now), "a second fold changes something"
    talk("sum")
    return said


def fold_in_run(talk, standing):
    same(talk, standing, fold(talk) == "fold 0", standing.fold(), None)


def step_or_fold(talk, standing, busy):
    """An edit or undo, maybe with a sheet, and before it, now and then, a fold."""
    if talk.random.random() < 0.1:
        fold_in_run(talk, standing)
    step_or_sheet(talk, standing, busy)


def fold_stepped(talk, side):
    step_or_fold(talk, side.standing, side.busy)


def fold_wandered(talk, side):
    if talk.random.random() < 0.15:
        fold(talk)
    wandered(talk, side)


def refilled(talk):
    """Runs up to the limit and past it, folded, and up again over the places that this freed; then back."""
    for side in SIDES:
        talk.side(*side)
        busy, standing = begun(talk, 320, 12)
        stored(talk, standing, busy)
        for _ in range(2):
            climb(talk, standing, busy, 0)
            step(talk, standing, busy, 0)
            fold_in_run(talk, standing)
        undo_all(talk, standing)


def tuned(talk):
    """One number set often, and at last to what it was: its bundle's record stays, whatever the code is; then edits and folds by turns."""
    for side, count in itertools.product(SIDES, (0, 1, 2, 100)):
        talk.side(*side)
        branches(talk)
        put_journal(talk, [])
        first = talk("immediate 5 2 66 1").split(" ")[2]
        for value in (*(f"I{16 * i}" for i in range(count)), first):
            talk.call(f"edit 5 2 66 1 {value}")
        for length in (0, 65536, 65537):
            talk(f"code {length}")
            fold(talk)
        branches(talk)
        for line in ("edit 6 2 66 1 I16", "edit 5 2 66 1 I16", "fold", "edit 7 2 66 1 I16", "edit 6 2 66 1 I32", "fold", *["undo"] * 4):
            with_records(talk, line)


def every_form(talk):
    """Of each form with a row, retired or not, in every slot that it fits, a record or two: one of the whole bundle is left."""
    random = talk.random
    talk("code 16")
    for name, tag, slot in slots_of_rows():
        talk.any_side()
        talk.bundle(0, tag)
        last = field_record(random, 0, number_at(talk.model.code, 0), name, slot)
        before = field_record(random, 0, number_at(joined(*last[4:6]), 0), name, slot)
        fold_records(talk, random.choice(([last], [before, last])))


def following(random, code, ns):
    """Records of those bundles in order, each of which goes on from the one before, up to what the code has."""
    code, records = bytearray(code), []
    for n in reversed(ns):
        records.append(any_record(random, n, number_at(code, n)))
        code[16 * n:16 * n + 16] = joined(*records[-1][4:6])
    return records[::-1]


def returning(random, code, ns):
    """Two records of each of those bundles: away from what the code has, and back."""
    back = following(random, code, dict.fromkeys(ns))
    return [(one[0], 0, "-", 0, *one[6:], *one[4:6]) for one in back] + back


def loose(random, code, ns):
    """Records of those bundles in order, few of them outside the code, that don't go on from one another; most give what the code has."""
    ns = [n if random.random() < 0.99 else random.randrange(4096) for n in ns]
    return [any_record(random, n, number_at(code, n) if random.random() < 0.9 else with_tag(random, random.randrange(32))) for n in ns]


def set_and_folded(talk, count):
    """Journals whose records go on from one another, return or do neither, beside many of the other party's."""
    random = talk.random
    for _ in range(count):
        talk.any_side()
        talk.fill(16 * random.choice((1, 2, 5, 20, 60)))
        code, each = talk.model.code, range(len(talk.model.code) // 16)
        some, others = (random.choices(each, k=random.choice((0, 1, 2, 3, 10, 60))) for _ in range(2))
        fold_records(talk, random.choice((following, returning, loose))(random, code, some), following(random, code, others))


def full_folds(talk):
    """Full journals of one bundle, of some, and of as many as there are places; of two parties both parts are full."""
    random = talk.random
    for side in SIDES:
        talk.side(*side)
        room = talk.room()
        for count in (1, 2, 32, room - 1, room):
            talk.fill(65536)
            talk.bundle(0, 16)
            some, others = (touches(random, room, bundles) for bundles in (count, random.choice((1, 40, room))))
            fold_records(talk, following(random, talk.model.code, some), following(random, talk.model.code, others))


def touches(random, count, bundles):
    """So many touches of so many bundles, the last and the first among them."""
    ns = [4095, 0, *random.sample(range(1, 4095), bundles)][:bundles]
    return random.sample([*ns, *random.choices(ns, k=count - bundles)], count)


def fold_records(talk, records, others=()):
    """A journal that has those records, set or loaded, and those of the other party, is folded and, maybe, edited and loaded from its sheet.
    Undoing it writes the oldest old bundles where the code has the newest new ones, and is refused where it hasn't."""
    random, code = talk.random, bytearray(talk.model.code)
    fits = all(code[16 * n:16 * n + 16] == new for n, new in {one[0]: joined(*one[6:]) for one in records}.items())
    had(talk, records, random.choice(WAYS))
    with as_party(talk, 1 - talk.party):
        load(talk, sheet(others))
    talk("records")
    fold(talk)
    if talk.call("edit 0 2 66 1 I16") == "edit 0":
        talk("records")
        talk.call("undo")
    if random.random() < 0.5:
        anew(talk)
    while (said := talk.call("undo")) == "undo 0":
        talk("sum")
    for one in reversed(records):
        code[16 * one[0]:16 * one[0] + 16] = joined(*one[4:6])
    assert (said == "undo 8") == fits and (talk.model.code == code or not fits), "undoing a fold doesn't write the oldest old bundles"
    with as_party(talk, 1 - talk.party):
        fold(talk)


def anew(talk):
    """Loads the sheet into a journal without the party's records."""
    text = sheet_of(talk)
    put_journal(talk, [])
    talk.call(f"load {text}")
    talk("records")


def any_folds(talk, count):
    """Folds of journals and codes of every kind, and after an edit and undos."""
    random = talk.random
    for _ in range(count):
        talk.random_code()
        any_journal(talk)
        fold(talk)
        n, slot, family, number = talk.random_place()
        talk.call(f"edit {n} {slot} {family} {number} {value_for(random, family, number)}")
        fold(talk)
        talk.call("undo")
        talk.call("undo")
        shown(talk)


# ---- scripts

class Said:
    """What a part of a script was answered."""

    def __init__(self, answer):
        _, expected, stopped, done, _, lines, _ = answer.split(" ")
        self.expected, self.stopped, self.done = int(expected), int(stopped), int(done)
        self.lines = b"" if lines == "-" else bytes.fromhex(lines)

    def answers(self):
        return [int(line.split(b"\t")[1]) for line in self.lines.splitlines()]


def script(talk, text, expected=1, stopped=0, length=130000):
    return Said(talk.call(f"script {expected} {stopped} {length} {text.hex() or '-'}"))


def numbered(asked, first=1):
    """A script of lines that ask this, with their numbers."""
    return b"".join(line(((first + i) % HUGE, *fields)) for i, fields in enumerate(asked))


def edit_fields(n, slot, name, value):
    return "edit", n, slot, name, value % HUGE


SMALL = edit_fields(0, 2, "B1", 16), ("undo",), edit_fields(1, 2, "B1", -16), edit_fields(0, 2, "B1", 8), ("undo",), ("undo",)

# a third line that doesn't read, or is out of turn
BAD_LINES = [
    b"", b"3", b"3\t", b"3\t\n", b"3\n", b"\n", b"undo\n", b"\tundo\n", b"3undo\n", b"3 undo\n", b"3\tundo", b"3\tundo\t\n", b"3\tundo\r\n", b"3\tundo \n", b"3\t undo\n",
    b"3\tUndo\n", b"3\tundoo\n", b"3\tund\n", b"3\tundo\t0\n", b"3\t\tundo\n", b"03\tundo\n", b"+3\tundo\n", b"-3\tundo\n", b"3.\tundo\n", b"0x3\tundo\n", b"3\tredo\n",
    b"0\tundo\n", b"1\tundo\n", b"2\tundo\n", b"4\tundo\n", b"30\tundo\n", b"%d\tundo\n" % (HUGE + 3), b"%d\tundo\n" % (HUGE - 1), b"%d\tundo\n" % HUGE, b"9" * 40 + b"\tundo\n",
    b"3\tchecked\t0\t2\tB1\t16\n", b"3\tfold\n", b"3\tedit\n", b"3\tedit\t\n", b"3\tedit\t0\n", b"3\tedit\t0\t2\n", b"3\tedit\t0\t2\tB1\n", b"3\tedit\t0\t2\tB1\t\n", b"3\tedit\t0\t2\tB1\t16",
    b"3\tedit\t0\t2\tB1\t16\t\n", b"3\tedit\t0\t2\tB1\t16\t0\n", b"3\tedit\t0\t2\tB1\t16\r\n", b"3\tedit\t0\t2\tB1\t16 \n", b"3\tedit 0\t2\tB1\t16\n", b"3\tedit\t\t0\t2\tB1\t16\n",
    b"3\tedit\t\t2\tB1\t16\n", b"3\tedit\t0\t\tB1\t16\n", b"3\tedit\t0\t2\t\t16\n", b"3\tedit\t00\t2\tB1\t16\n", b"3\tedit\t0\t02\tB1\t16\n", b"3\tedit\t0\t2\tB01\t16\n", b"3\tedit\t0\t2\tb1\t16\n",
    b"3\tedit\t0\t2\t-\t16\n", b"3\tedit\t0\t2\t-\t0\n", b"3\tedit\t0\t0\t-\t0\n", b"3\tedit\t0\t2\tB\t16\n", b"3\tedit\t0\t2\t1\t16\n", b"3\tedit\t0\t2\tBB1\t16\n", b"3\tedit\t0\t2\tB1 \t16\n",
    b"3\tedit\t0\t2\tB1\t-16\n", b"3\tedit\t0\t2\tB1\tI16\n", b"3\tedit\t0\t2\tB1\t016\n", b"3\tedit\t%d\t2\tB1\t16\n" % HUGE, b"3\tedit\t0\t%d\tB1\t16\n" % HUGE, b"3\tedit\t0\t2\tB%d\t16\n" % HUGE,
    b"3\tedit\t0\t2\tB1\t%d\n" % HUGE, b"3\tEDIT\t0\t2\tB1\t16\n", b"3\tedit\t0\t2\tB1\t16\0\n", b"\0", b"3\tundo\0\n", b" 3\tundo\n",
]


def two_branches(talk):
    """A code of two bundles whose slot 2 has a branch, and a journal with no record of the party's."""
    talk("code 32")
    for n in range(2):
        talk(f"put {16 * n} 30000000004000000000800000000080")
    put_journal(talk, [])


def whole(talk, text, length=130000, expected=1):
    """A script run a part at a time, each into an output of that length, till it stops or all is done: the last part's answer, and all lines."""
    at, lines = 0, b""
    while True:
        said = script(talk, text[at:], expected, 0, length)
        at, expected, lines = at + said.done, said.expected, lines + said.lines
        if said.stopped or at == len(text):
            return said, lines
        assert said.lines, "a part does nothing"


def ended(talk, text, length=130000):
    """What there is after it, from two branches."""
    two_branches(talk)
    said, lines = whole(talk, text, length)
    talk("sum")
    return said.expected, said.stopped, lines, bytes(talk.model.code), talk.standing()


def bad_lines(talk):
    """Each line that doesn't read or is out of turn, between two that would do; it stops the script, and what came before stands."""
    good = script_lines(numbered(SMALL))
    for bad in BAD_LINES:
        talk.any_side()
        two_branches(talk)
        text = b"".join(good[:2]) + bad
        said = script(talk, text + b"".join(good[2:]))
        if bad:
            assert said.stopped and said.expected == 3 and said.done == len(good[0] + good[1]) and said.answers() == [0, 0, 16], f"{bad} doesn't stop it"
        with_records(talk, "undo")
        script(talk, b"".join(good[2:]), said.expected, said.stopped)
        talk("sum")


def damaged_scripts(talk):
    """A small script with each byte changed, taken out, or with one more before it."""
    random, text = talk.random, numbered(SMALL[:3])
    for at in range(len(text) + 1):
        for byte in {0, 9, 10, 13, 32, 48, 49, 51, 57, 66, 98, 255, random.randrange(256)}:
            more = bytes([byte])
            for changed in (text[:at] + more + text[at:], text[:at] + more + text[at + 1:], text[:at] + text[at + 1:]):
                two_branches(talk)
                script(talk, changed)
                shown(talk)


def cuts(talk):
    """Scripts cut at every place: between two lines the end is the same, with the lines written of the two parts one after the other."""
    for side, asked in itertools.product(SIDES, (SMALL, SMALL[:3] + (("redo",),) + SMALL[3:])):
        talk.side(*side)
        text = numbered(asked)
        all_at_once = ended(talk, text)
        for at in range(len(text) + 1):
            two_branches(talk)
            one = script(talk, text[:at])
            other = script(talk, text[at:], one.expected, one.stopped)
            shown(talk)
            assert not one.stopped or (other.stopped and not other.lines and not other.done), "a script that stopped goes on"
            if at == 0 or text[at - 1] == 10:
                cut = other.expected, other.stopped, one.lines + other.lines, bytes(talk.model.code), talk.standing()
                assert cut == all_at_once, f"cut at {at} it comes to something else"


def rooms(talk):
    """Outputs of every room from none on, a part at a time: the end is the same."""
    for side in SIDES:
        talk.side(*side)
        text = numbered(SMALL + (("redo",), ("undo",)))
        all_at_once = ended(talk, text)
        for length in range(0, 90):
            two_branches(talk)
            said = script(talk, text, length=length)
            assert (not said.lines) == (length < 29), "29 bytes of room are asked for a line"
            shown(talk)
            if length >= 29:
                assert ended(talk, text, length) == all_at_once, f"with room for {length} it comes to something else"
        for length in (129999, 130000, 130001, 1 << 32, HUGE - 1):
            talk.call(f"script 1 0 {length} {text.hex()}")
        for stopped in (1, 2, HUGE - 1):
            talk.call(f"script 1 {stopped} 100 {text.hex()}")


AROUND = 0, 1, 2, 9, 10, 99, 1 << 63, HUGE - 12, HUGE - 3, HUGE - 2, HUGE - 1


def turns(talk):
    """Numbers up to 2^64 - 1, after which 0 is expected and no line is in turn."""
    for expected, first in itertools.product(AROUND, AROUND):
        for text in (numbered(SMALL, first), numbered([("undo",)] * 20, first)):
            two_branches(talk)
            said = script(talk, text, expected)
            script(talk, text[said.done:], said.expected, said.stopped)
            script(talk, text[said.done:], said.expected, 0)
    talk("sum")


def any_line(talk):
    """What a line asks: an undo, or an edit of any place, in the code as it is."""
    random = talk.random
    if random.random() < 0.25:
        return ("undo",)
    n, slot, family, number = talk.random_place()
    name = f"{chr(family) if 65 <= family <= 90 else 'Z'}{number}"
    kind, value = operand(value_for(random, family, number))
    return edit_fields(n, slot, name, value if kind in "IU" else random.getrandbits(64))


def any_scripts(talk, count):
    """Scripts on codes and journals of every kind; each answer that there is comes up."""
    random, answers = talk.random, set()
    for _ in range(count):
        talk.random_code()
        if random.random() < 0.4:
            any_journal(talk)
        if random.random() < 0.1:
            talk.party ^= 1
        expected = random.choice((1, 1, 1, talk.any_number()))
        text = numbered([any_line(talk) for _ in range(random.choice((0, 1, 2, 3, 8, 20)))], expected)
        if random.random() < 0.1:
            text = text[:random.randrange(len(text) + 1)] + random.randbytes(random.randrange(3)) + text[random.randrange(len(text) + 1):]
        said = script(talk, text, expected, int(random.random() < 0.03), random.choice((130000, 130000, 130000, random.randrange(200))))
        answers.update(said.answers())
        if random.random() < 0.2 and len(talk.model.code) >= 16:
            talk(f"put {16 * random.randrange(len(talk.model.code) // 16)} {random.randbytes(1).hex()}")
        shown(talk)
    return answers


def long_scripts(talk):
    """A script past the party's places, and back past the first."""
    for side in SIDES:
        talk.side(*side)
        two_branches(talk)
        room = talk.room()
        text = numbered([edit_fields(i % 2, 2, "B1", 16 * i) for i in range(room + 3)] + [("undo",)] * (room + 3))
        for length in (130000, 1000):
            _, lines = whole(talk, text, length)
            assert lines.count(b"\t7\t%d\n" % room) == 3 and lines.count(b"\t8\t0\n") == 3
            talk("records")
            talk("sum")


def script_step(talk, standing, busy):
    """Now and then some edits and undos in a script, each answer predicted with no journal; else one of them as a call."""
    random = talk.random
    if random.random() < 0.6:
        return step_or_fold(talk, standing, busy)
    lines, wanted = [], []
    for _ in range(random.randrange(6)):
        if random.random() < 0.35:
            lines.append(("undo",))
            wanted.append(standing.undo())
        else:
            n, slot = random.choice(busy), random.randrange(3)
            name = random.choice(list(ROWS))
            value = operand(value_for(random, ord(name[0]), int(name[1:])))[1]
            lines.append(edit_fields(n, slot, name, value))
            row = ROWS[name]
            wanted.append(standing.edit(False, n, slot, ord(name[0]), int(name[1:]), row.kind(), row.of_pattern(value % HUGE)))
    said = script(talk, numbered(lines))
    assert [answer == 0 for answer in said.answers()] == wanted, "demand 3 predicts other answers to a script"
    assert [int(line.split(b"\t")[2]) for line in said.lines.splitlines()][-1:] in ([], [len(standing.edits)]), "other edits stand"
    same(talk, standing, True, True, None)


def script_stepped(talk, side):
    script_step(talk, side.standing, side.busy)


def script_wandered(talk, side):
    if talk.random.random() < 0.2:
        script(talk, numbered([any_line(talk) for _ in range(4)]))
    fold_wandered(talk, side)


def scripts(talk):
    bad_lines(talk)
    damaged_scripts(talk)
    cuts(talk)
    rooms(talk)
    turns(talk)
    answers = any_scripts(talk, 2000)
    missed = {0, 1, 2, 3, 5, 6, 7, 8, 9, 10, 11, 15, 16} - answers
    assert not missed, f"no script is answered {missed}"
    long_scripts(talk)
    text = numbered(SMALL).hex()
    wrong_in_one(talk, (f"script 1 0 1000 {text}",))
    slices(talk, (f"script 1 0 1000 {text}", "undo"))
    unknown(talk, (f"script 1 0 1000 {text}", "script 7 0 28 370975", "script 7 1 100 370975"))
    some_counts(talk, (f"script 1 0 1000 {text}", "undo"))
    runs_with(talk, script_step, 60, 60)
    runs_with(talk, script_step, 2, 30, 5)
    mixings(talk, 10, script_stepped, script_wandered)


# ---- stages, by the crate that brings them

STAGES = {
    "bundle": (("code", "put", "get", "sum", "find", "cut", "join"), bundles),
    "readers": (("operands",), refused_operands),
    "immediate": (("immediate", "target"), immediates),
    "journal": (("open", "journal", "place", "records", "edit", "undo"), journals),
    "choice": (("choose", "checked"), choices),
    "meet": (("meet",), meetings),
    "sheet": (("sheet", "sheetline", "load"), sheets),
    "fold": (("fold",), folds),
    "script": (("script",), scripts),
    "tally": (("report", "clear"), reports),
}

# every pair of refusals (in 01's order) that can apply together; not among them: 1 with 2 and with 9, 3 with 15 (every retired form has a
# row), 8 with 1 and with 9, 13 with 7; and a sheet is never too long for a journal of one party
TOGETHER = {
    "find": "10 1", "cut": "10 1 2", "join": "4 2 12", "operands": "3 4", "immediate": "10 1 2 3 5", "target": "10 1 2 3 5 6",
    "choose": "4 14",
    **{f"edit of {parties}": "10 1 2 3 15 5 6 11 7" for parties in (1, 2)},
    **{f"checked of {parties}": "10 1 2 3 15 5 14 6 11 7" for parties in (1, 2)},
    **{f"undo of {parties}": "10 11 8 1 9" for parties in (1, 2)},
    **{f"fold of {parties}": "11" for parties in (1, 2)},
    **{f"{call} of {parties}": "11 12" for parties in (1, 2) for call in ("sheet", "sheetline")},
    "load of 1": "11 13", "load of 2": "11 13 7",
    "meet": "3 5", "report": "10 6",
}
APART = {(1, 2), (1, 9), (3, 15), (8, 1), (8, 9), (13, 7)}


def unseen(seen, known):
    """The refusals and pairs of them that the lines so far don't have."""
    for call, numbers in TOGETHER.items():
        if call.split(" ")[0] in known:
            wanted = {(0, 0), *itertools.combinations_with_replacement(map(int, numbers.split()), 2)} - APART
            for pair in sorted(wanted - seen.get(call, set())):
                yield f"{call} {pair[0]} {pair[1]}"
