"""The listing as document 01 describes it: text of hex bytes in, lines out. Bundles are those of the judge's model."""
import pathlib
import sys

sys.path.append(str(pathlib.Path(__file__).resolve().parents[1] / "judge"))
from model import MOST, Bundle

DIGITS = b"0123456789abcdef"


class Fault(Exception):
    pass


def parse(text):
    """The bytes of a text, or the fault met first."""
    code = bytearray()
    at = 0
    while at < len(text):
        pair = text[at:at + 2].lower()
        if len(pair) < 2 or pair[0] not in DIGITS or pair[1] not in DIGITS:
            raise Fault("badhex")
        if len(code) == MOST:
            raise Fault("toolong")
        if at + 2 < len(text) and text[at + 2] not in b" \n":
            raise Fault("badhex")
        code.append(16 * DIGITS.index(pair[0]) + DIGITS.index(pair[1]))
        at += 3
    return bytes(code)


def line(number, data):
    bundle = Bundle(data)
    return [number, bundle.tag] + ([bundle.marked(), *bundle.words] if bundle.units else ["reserved"])


def listing(text):
    try:
        code = parse(text)
    except Fault as fault:
        return f"{fault}\n".encode()
    lines = [["bundle", "tag", "units", "slot0", "slot1", "slot2"]]
    lines += [line(at // 16, code[at:at + 16]) for at in range(0, len(code) - 15, 16)]
    if len(code) % 16:
        lines.append(["rest", len(code) % 16])
    return "".join("\t".join(map(str, fields)) + "\n" for fields in lines).encode()
