"""How 000 and the compiled library are asked: 000 through target/oracle/oracle, the library through `probe`."""
import itertools
import pathlib
import re
import subprocess
import tempfile

import words

ROOT = pathlib.Path(__file__).resolve().parents[2]
ORACLE = [ROOT / "target/oracle/oracle"]
PROBE = [ROOT / "tests/probe"]


def place_of_000():
    """Where 000 is looked for, and whether it stands there."""
    said = subprocess.run([ROOT / "tests/oracle/given"], stdout=subprocess.PIPE, check=False)
    return said.stdout.decode().strip(), said.returncode == 0


def build():
    subprocess.run([ROOT / "tests/oracle/build"], check=True, stdout=subprocess.DEVNULL)


def answers(command, lines):
    """What a program writes to these lines, as lines."""
    with tempfile.TemporaryFile() as given, tempfile.TemporaryFile() as written:
        given.write(b"\n".join(lines) + b"\n")
        given.seek(0)
        subprocess.run(command, stdin=given, stdout=written, check=True)
        written.seek(0)
        said = written.read().split(b"\n")
    if said.pop() or len(said) != len(lines):
        raise SystemExit(f"oracle: {len(lines)} lines were given to {command[0]} and {len(said)} written")
    return said


def part_of(text):
    """A part as the oracle writes it, `6..13` or, of the L word, `L0..41`."""
    l, start, end = re.fullmatch(r"(L?)(\d+)\.\.(\d+)", text).groups()
    return int(bool(l)), int(start), int(end)


def parts():
    """The parts that 000's reader of each form takes, on some word or other."""
    some = [0, words.ONES] + [words.with_part(back, *x6, value) for back in (0, words.ONES) for x6 in words.X6 for value in range(64)]
    said = answers(ORACLE, [b"parts " + words.asked(form, word, word) for form in words.FORMS for word in some])
    taken = {form: set() for form in words.FORMS}
    for i, line in enumerate(said):
        taken[words.FORMS[i // len(some)]].update(map(part_of, line.decode().split()))
    return {form: sorted(found) for form, found in taken.items()}


def parted(questions, said):
    """Answers to all questions, in their order, as a list for each form and for the cuts."""
    said = iter(said)
    return {name: list(itertools.islice(said, len(lines))) for name, lines in questions.items()}


# the one template whose stops 000 has otherwise than the manual (docs/DIFFERENCES.md): the tag, and the units with 000's stops and the manual's
OTHERWISE = (b"5 ML;X ", b"5 MLX; ")


def cut_by_000(said):
    """A cut of 000's in `probe`'s words, with the manual's stops for the tag where they differ."""
    theirs, manual = OTHERWISE
    if said.startswith(theirs[:2]):
        if not said.startswith(theirs):
            raise SystemExit(f"oracle: 000 was to have {theirs.decode()}and has {said.decode()}")
        said = manual + said[len(theirs):]
    tag, units, *_ = said.split(b" ")
    return b"cut 2 %s - 0 0 0" % tag if units == b"BadBundle" else b"cut 0 " + said


def for_000(name, line):
    """A question as the oracle reads it."""
    return b"cut " + line if name == "cuts" else b"choose " + line if name in words.CHOICES else line


def by_000(name, said):
    """An answer of the oracle's in `probe`'s words. Where its table has no form, the choice is refused by 14."""
    if name == "cuts":
        return cut_by_000(said)
    if name in words.CHOICES:
        return b"choose 14 - -" if said == b"- -" else b"choose 0 " + said
    return b"operands 0 " + said


def of_000(questions):
    """What 000 answers, in `probe`'s words."""
    lines = [for_000(name, line) for name, asked in questions.items() for line in asked]
    found = parted(questions, answers(ORACLE, lines))
    return {name: [by_000(name, line) for line in said] for name, said in found.items()}


def for_probe(name, asked):
    """Questions as `probe` reads them."""
    if name == "cuts":
        return [b"cut %d" % n for n in range(len(asked))]
    call = b"choose " if name in words.CHOICES else b"operands "
    return [call + line for line in asked]


def of_probe(questions):
    """What the compiled library answers."""
    bundles = questions["cuts"]
    code = [b"code %d" % (16 * len(bundles)), b"put 0 " + b"".join(bundles)]
    lines = [line for name, asked in questions.items() for line in for_probe(name, asked)]
    return parted(questions, answers(PROBE, code + lines)[len(code):])
