"""Files for the operator's program, made anew in a folder: the linked example, two code sections, a large raw file, and files that it refuses."""
import pathlib
import random
import struct

ROOT = pathlib.Path(__file__).resolve().parents[2]
TEXT = 0x4000  # the example's code: its address
PLACE = 0x80  # and where it stands in the file


def example():
    return bytes.fromhex((ROOT / "tests/binutils/example.hex").read_text())


def bundles(count, seed):
    """Bundles of every kind, which any tag may begin: words with every bit pattern."""
    chance = random.Random(seed)
    return b"".join(chance.getrandbits(128).to_bytes(16, "little") for _ in range(count))


def elf(sections, kind=2, machine=50, ident=b"\x02\x01", segments=False, shift=0):
    """An ELF64 file with these sections of code, each an address and its bytes, and one of data."""
    head, at, parts, headers = 64, 64, [], []
    for address, data in [*sections, (0x9000000, b"data")]:
        parts.append(data)
        executable = data != b"data"
        if segments:
            headers.append(struct.pack("<IIQQQQQQ", 1, 5 if executable else 6, at, address, address, len(data), len(data), 16))
        else:
            headers.append(struct.pack("<IIQQQQIIQQ", 0, 1, 6 if executable else 3, address, at + shift, len(data), 0, 0, 16, 0))
        at += len(data)
    table = b"".join(headers)
    count = len(headers)
    tables = (at, 0, 56, count, 64, 0) if segments else (0, at, 56, 0, 64, count)
    start = b"\x7fELF" + ident + b"\x01" + bytes(9)
    return start + struct.pack("<HHIQQQIHHHHHH", kind, machine, 1, 0, tables[0], tables[1], 0, head, *tables[2:], 0) + b"".join(parts) + table


def two_sections():
    """Two sections in windows apart, the first across the border of two windows."""
    return elf([(0x400000000000FFC0, example()[PLACE:PLACE + 0x80]), (0x4000000000200000, bundles(3, 1) + example()[PLACE:PLACE + 0x80])])
