"""Random commands on a file of several windows, each held to the judge's model of its window: answer, code and sheet; undone to the first bytes."""
import pathlib
import random
import re
import sys

import files
from program import ROOT, quick

sys.path.append(str(ROOT / "tests/judge"))
import model

BASE, SIZE = 0xFFC0, 0x20080  # four windows, the first and the last of four and eight bundles
HALF = 1 << 63


class Window:
    """The model of one window: the file's code at its place, zeros elsewhere."""

    def __init__(self, address, data):
        self.model, self.address = model.Model(), address
        self.low, self.high = max(BASE, address), min(BASE + SIZE, address + 65536)
        self.model.answer(b"code 65536")
        self.model.write(self.low - address, data[self.low - BASE:self.high - BASE])

    def ask(self, line):
        """The first number that is answered."""
        return int(self.model.answer(line.encode()).split(" ")[1])

    def code(self):
        return bytes(self.model.code[self.low - self.address:self.high - self.address])

    def sheet(self):
        """The sheet, where records stand."""
        said = self.model.answer(b"sheet 0 130000").split(" ")
        return bytes.fromhex(said[3]) if self.model.standing(0) else None


def signed(pattern):
    return pattern - 2 * HALF if pattern & HALF else pattern


def operand(row, value):
    """A value as the model takes it: one that its kind hasn't is none."""
    least = -HALF if row.signed else 0
    return f"{row.kind()}{value}" if least <= value < least + 2 * HALF else "None"


class Walk:
    def __init__(self, folder, seed):
        self.folder, self.chance = pathlib.Path(folder), random.Random(seed)
        self.first = files.bundles(SIZE // 16, seed)
        (self.folder / "guest").write_bytes(self.first)
        self.windows = {address: Window(address, self.first) for address in range(BASE & ~65535, BASE + SIZE, 65536)}
        self.rows = sorted(model.table.ROWS)

    def form(self, window, bundle, slot):
        """The word's form, where it has one and chance will; else any that has a row."""
        one = model.bundle_at(window.model.code, bundle)
        units = model.UNITS.get(one.tag)
        if units and self.chance.random() < 0.7:
            chosen = model.choice(units[slot], one.words[slot])
            if chosen and chosen[0] in model.table.ROWS:
                return chosen[0]
            fitting = [f for f in self.rows if model.fits(ord(f[0]), units, slot)]
            if fitting:
                return self.chance.choice(fitting)
        return self.chance.choice(self.rows)

    def value(self, form):
        row = model.row_of(ord(form[0]), int(form[1:]))
        near = [row.low, row.high, row.low - 1, row.high + 1, 0, self.chance.randint(row.low, row.high) // 16 * 16, self.chance.randint(row.low, row.high)]
        return row, self.chance.choice(row.chosen or near)

    def command(self):
        """The words of a command, its window, and the model's line for it."""
        address = BASE + 16 * self.chance.randrange(SIZE // 16)
        if self.chance.random() < 0.5:  # few bundles, so that patches stand on one another
            address = self.chance.choice([BASE, BASE + 0x30, 0x10000, 0x10FF0, 0x1FFF0, 0x20000, 0x30000, BASE + SIZE - 16])
        window = self.windows[address & ~65535]
        what = self.chance.random()
        if what < 0.25:
            return ["undo", "guest", hex(address)], window, "undo 0"
        if what < 0.29:
            return ["fold", "guest", address], window, "fold 0"
        bundle, slot = (address - window.address) // 16, self.chance.randrange(3)
        form = self.form(window, bundle, slot)
        plain = self.chance.random() < 0.4
        checked = form[0] in "AB" and not plain
        row, value = self.value(form)
        aim = f"{bundle} {slot} {ord(form[0])} {form[1:]}"
        more = ["--plain"] if plain else []
        line = f"{'checked' if checked else 'edit'} 0 {aim} {operand(row, value)}"
        if self.chance.random() < 0.2:
            wanted = (address + value) % (2 * HALF)
            if window.ask(f"target {aim} {address}"):
                line = f"target {aim} {address}"
            else:
                line = f"{'checked' if checked else 'edit'} 0 {aim} I{signed((wanted - address) % (2 * HALF))}"
            return ["branch", "guest", hex(address + slot), form, wanted, *more], window, line
        return ["edit", "guest", hex(address + slot), form, value, *more], window, line

    def step(self):
        words, window, line = self.command()
        answer = window.ask(line)
        ran = quick(self.folder, *words, "--base", hex(BASE))
        said = re.fullmatch(r"glindorsc: guest: 0x[0-9a-f]+: (\d+) \w+: .*\n", ran.err)
        told = 0 if ran.status == 0 and not ran.err else int(said[1]) if said and ran.status == 1 else ran
        return told == answer, f"{words} ({line}): {answer}, and {ran}"

    def is_as_modelled(self):
        code = b"".join(self.windows[address].code() for address in sorted(self.windows))
        kept = self.folder / "guest.patches"
        sheets = {p.name: p.read_bytes() for p in kept.iterdir() if p.name != "layout"} if kept.exists() else {}
        wanted = {f"{address:016x}": window.sheet() for address, window in self.windows.items() if window.sheet()}
        return (self.folder / "guest").read_bytes() == code and sheets == wanted


def tried(folder, seed, steps):
    walk = Walk(folder, seed)
    passed = failed = 0
    for _ in range(steps):
        good, shown = walk.step()
        good = good and walk.is_as_modelled()
        passed, failed = passed + good, failed + (not good)
        if not good:
            print(f"glindorsc: {shown}")
            return passed, failed
    verified = quick(folder, "verify", "guest", "--base", hex(BASE)).status == 0
    for address, window in walk.windows.items():
        if window.model.standing(0):
            quick(folder, "undo", "guest", hex(address), "--all", "--base", hex(BASE))
    undone = (folder / "guest").read_bytes() == walk.first and not (folder / "guest.patches").exists()
    return passed + verified + undone, failed + (not verified) + (not undone)
