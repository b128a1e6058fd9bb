"""The tests' table of document 01, as Python has it: read from the text files beside this one, whose first lines say what they hold."""
import pathlib

HERE = pathlib.Path(__file__).resolve().parent


def lines(name):
    """The fields of each line of a file."""
    for line in (HERE / name).read_text(encoding="utf-8").splitlines():
        if not line.startswith("#"):
            yield [field.strip() for field in line.split("|")]


def span(text):
    """The numbers of `36`, or of `13..19` with both ends."""
    low, _, high = text.partition("..")
    return range(int(low), int(high or low) + 1)


def part(text):
    """(1 for the L word and else 0, lowest bit, width, lowest value bit) of `13..19→0` or `L 0..40→21`."""
    bits, to = text.split("→")
    place = span(bits.removeprefix("L "))
    return int(bits.startswith("L")), place[0], len(place), int(to)


# the numbers of a family's forms, and the units that they fit
FORMS = {family: span(numbers) for family, numbers, _ in lines("forms.txt")}
FITTING = {family: units.split(", ") for family, _, units in lines("forms.txt")}

# the units of a tag, and the slots that a stop follows; a reserved one has none
UNITS = {int(tag): units for tag, units, _ in lines("units.txt")}
STOPS = {int(tag): [] if stops == "-" else list(map(int, stops.split(", "))) for tag, _, stops in lines("units.txt")}

def meaning(fields):
    """(times, plus, nothing) of `16 | 0`, or (1, 0, the values) of values to choose from."""
    if len(fields) == 1:
        return 1, 0, [int(value) for value in fields[0].split(", ")]
    times, plus = fields
    return int(times), int(plus), None


# a form's parts, whether it is signed, times, plus and the values that it chooses from; a form without a row has none
ROWS = {
    form: ([part(text) for text in parts.split(", ")], {"signed": True, "unsigned": False}[kind], *meaning(fields))
    for forms, parts, kind, *fields in lines("rows.txt") for form in forms.split(", ")
}


def places(text):
    """The places of `12, 33`, of `27..32`, or of none."""
    return [] if text == "-" else [place for one in text.split(", ") for place in span(one)]


def fixed(text):
    """(mask, pattern) of `37..40=8, 33=0`."""
    mask = pattern = 0
    for bits, value in (one.split("=") for one in text.split(", ")):
        mask |= sum(1 << place for place in span(bits))
        pattern |= int(value) << span(bits)[0]
    return mask, pattern


# a form's opcodes: the form, mask and pattern of its words, the places that choose, and what they choose
OPCODES = [(form, *fixed(bits), places(choosing), names.split(", ")) for form, bits, choosing, names in lines("opcodes.txt")]

# the forms of which no new edit is taken
RETIRED = {form for fields in lines("retired.txt") for form in fields[0].split(", ")}
