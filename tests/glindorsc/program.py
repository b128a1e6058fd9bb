"""The program as an operator starts it, and quickly: what it writes, and its status."""
import os
import pathlib
import platform
import subprocess

ROOT = pathlib.Path(__file__).resolve().parents[2]
STATUS = 9  # the descriptor that a quick start lends


class Ran:
    def __init__(self, done, status):
        self.out, self.err, self.status = done.stdout.decode(), done.stderr.decode(), status

    def __repr__(self):
        return f"status {self.status}, out {self.out!r}, err {self.err!r}"


def run(folder, *words):
    """By ./glindorsc."""
    done = subprocess.run([ROOT / "glindorsc", *map(str, words)], cwd=folder, stdin=subprocess.DEVNULL, capture_output=True, check=False)
    return Ran(done, done.returncode)


def built():
    """The words that start the built program: elsewhere than on x86-64 by the kit's emulator."""
    program = ROOT / "target/bin/operator"
    if platform.machine() == "x86_64":
        return [program]
    guide = subprocess.run(["rt", "doc"], capture_output=True, check=True).stdout.decode().strip()
    tools = pathlib.Path(guide).parents[1] / "on" / platform.machine() / "toolchain"
    return [tools / "bin/qemu-x86_64", tools / "lib/ld-linux-x86-64.so.2", "--library-path", tools / "lib", program]


def quick(folder, *words, before=(), **more):
    """The built program itself, with `before` in front of it."""
    told, tells = os.pipe()
    os.dup2(tells, STATUS)
    os.close(tells)
    done = subprocess.run([*before, *built(), "--status", str(STATUS), *map(str, words)], cwd=folder, stdin=subprocess.DEVNULL, capture_output=True,
                          check=False, pass_fds=(STATUS,), **more)
    os.close(STATUS)
    with os.fdopen(told) as said:
        status = said.read()
    return Ran(done, int(status) if status else done.returncode)
