"""The file digests: a line for each form, with the parts that 000's reader takes, the number of its readings for the seed 1, and the digest
of 000's answers to them; and a line for each unit's choices and for the cuts."""
import hashlib

import ask

FILE = ask.ROOT / "tests/oracle/digests"
SEED = 1


def digest(lines, said):
    return hashlib.blake2b(b"".join(b"%s -> %s\n" % pair for pair in zip(lines, said)), digest_size=8).hexdigest()


def table(taken, questions, said):
    """The file's lines, by name, for these answers."""
    shown = {name: " ".join(f"{'L' * which}{start}..{end}" for which, start, end in taken.get(name, [])) for name in questions}
    return {name: f"{name}\t{shown[name]}\t{len(lines)}\t{digest(lines, said[name])}" for name, lines in questions.items()}


def stored():
    return {line.split("\t")[0]: line for line in FILE.read_text().splitlines()}


def stored_parts():
    return {name: [ask.part_of(part) for part in line.split("\t")[1].split()] for name, line in stored().items()}
