"""What is compared: words to read each of the 118 forms from, words to choose opcode and form of, and bundles to cut.

A form is named as in `M48`. A part of its words is (which, start, end), where which is 0 for the word itself and 1 for the L word.
"""
import pathlib
import random
import sys

sys.path.append(str(pathlib.Path(__file__).resolve().parents[1] / "table"))
import table

FORMS = [f"{family}{number}" for family, numbers in table.FORMS.items() for number in numbers]
BITS = 41
ONES = (1 << BITS) - 1
X6 = ((27, 33), (30, 36))
RANDOM_WORDS = 20000


def asked(form, word, l):
    """A reading's line, `F N WORD L`."""
    return b"%d %d %d %d" % (ord(form[0]), int(form[1:]), word, l)


def with_part(background, start, end, value):
    mask = (1 << end - start) - 1
    return background & ~(mask << start) | value << start


def field_words(taken, chance):
    """Every value of every part, or 1,024 of them, on zeros and on ones; every x6; (word, L)."""
    for back in (0, ONES):
        for which, start, end in [*taken, *((0, *x6) for x6 in X6)]:
            count = 1 << end - start
            values = range(count) if count <= 1024 else [chance.randrange(count) for _ in range(1024)]
            for value in values:
                pair = [back, back]
                pair[which] = with_part(back, start, end, value)
                yield pair


def single_bits():
    for bit in range(BITS):
        yield 1 << bit, 0
        yield 0, 1 << bit
        yield ONES ^ 1 << bit, ONES
        yield ONES, ONES ^ 1 << bit


def words_of(form, taken, seed):
    """All the words (and L words) that a form is read from. L is any number for a form that doesn't look at it."""
    chance = random.Random(f"{seed} {form}")
    yield from ((0, 0), (ONES, 0), (0, ONES), (ONES, ONES))
    yield from single_bits()
    yield from field_words(taken, chance)
    wide = BITS if form[0] == "X" else 64
    for _ in range(RANDOM_WORDS):
        yield chance.getrandbits(BITS), chance.getrandbits(wide)


# the bits by which 000's A and B tables decide, of the first of which bit 40 is set, and the units that each is for
A_BITS = (12, *range(27, 40))
B_BITS = (3, 4, 6, 7, 8, 12, *range(27, 36), *range(37, 41))
CHOICES = {"choose M": (A_BITS, 1 << 40), "choose I": (A_BITS, 1 << 40), "choose B": (B_BITS, 0)}


def spread(places, number):
    """The number's bits, set at these places."""
    return sum((number >> i & 1) << place for i, place in enumerate(places))


def chosen_from(name, word):
    """A choice's line, `U WORD`."""
    return b"%d %d" % (ord(name[-1]), word)


def choices(seed):
    """For each unit the lines of its choices: every value of the bits that decide, the others at random."""
    found = {}
    for name, (places, fixed) in CHOICES.items():
        chance = random.Random(f"{seed} {name}")
        others = ONES & ~spread(places, -1)
        words = (spread(places, number) | fixed | chance.getrandbits(BITS) & others for number in range(1 << len(places)))
        found[name] = [chosen_from(name, word) for word in words]
    return found


def bundles(seed):
    """Sixteen bytes each, in hex: random ones, each tag with each of them, and ones with a bit or a byte changed."""
    chance = random.Random(f"{seed} cuts")
    found = []
    for _ in range(64):
        data = chance.getrandbits(128)
        found += [data & ~31 | tag for tag in range(32)]
        found += [data ^ 1 << chance.randrange(128) for _ in range(16)]
        found += [data ^ chance.randrange(1, 256) << 8 * chance.randrange(16) for _ in range(16)]
    return [data.to_bytes(16, "little").hex().encode() for data in found]


def questions(seed, taken):
    """All that is compared: for each form, by the parts that its reader takes, the lines of its readings; for each unit those of its choices;
    then the bundles of `cuts`."""
    lines = {form: [asked(form, *pair) for pair in words_of(form, taken[form], seed)] for form in FORMS}
    return {**lines, **choices(seed), "cuts": bundles(seed)}
