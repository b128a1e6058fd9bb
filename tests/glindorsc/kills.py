"""A kill, EIO and ENOSPC at every system call that a command makes on files: started again, code and sheets are both old or both new."""
import collections
import os
import re
import shutil
import subprocess

import files
from program import quick

CALLS = "openat read pread64 write pwrite64 fsync rename renameat renameat2 unlink unlinkat mkdir mkdirat rmdir close lseek readlink readlinkat"
LEFT = []  # the lock of a process that is gone
PREPARED = [["edit", "guest", "0x4030", "A8", "16"], ["edit", "guest", "0x4052", "B1", "16"]]
COMMANDS = (([], ["edit", "guest", "0x4052", "B1", "-48"]), (PREPARED, ["edit", "guest", "0x4002", "X2", "7"]), (PREPARED, ["undo", "guest"]),
            (PREPARED, ["undo", "guest", "--all"]), (PREPARED, ["fold", "guest"]), ([*PREPARED, LEFT], ["undo", "guest"]))


def state(folder):
    """The code, and what of it stands beside it but for what a command leaves while it works."""
    kept = folder / "guest.patches"
    names = sorted(kept.iterdir()) if kept.exists() else []
    return (folder / "guest").read_bytes(), {p.name: p.read_bytes() for p in names if p.name not in ("lock", "breaking", "redo.new", "new")}


def begin(folder, prepared):
    shutil.rmtree(folder / "guest.patches", ignore_errors=True)
    (folder / "guest").write_bytes(files.example())
    for words in prepared:
        if words:
            quick(folder, *words)
        else:
            (folder / "guest.patches/lock").write_text(f"{gone()}\t{os.uname().nodename}\n")


def gone():
    """The number of a process that is gone."""
    process = subprocess.Popen(["true"])
    process.wait()
    return process.pid


def copy(folder, to):
    shutil.rmtree(to, ignore_errors=True)
    shutil.copytree(folder, to)


def tried(folder):
    passed = failed = 0
    first, work = folder / "first", folder / "work"
    first.mkdir()
    for prepared, words in COMMANDS:
        begin(first, prepared)
        copy(first, work)
        log = folder / "log"
        quick(work, *words, before=["strace", "-f", "-o", log])
        counts = collections.Counter(re.findall(r"(?m)^(?:\d+ +)?(\w+)\(", log.read_text()))
        old, new = state(first), state(work)
        for call in CALLS.split():
            for n in range(1, counts[call] + 1):
                for how in ("signal=KILL", "error=EIO", "error=ENOSPC"):
                    copy(first, work)
                    ran = quick(work, *words, before=["strace", "-f", "-o", "/dev/null", "-e", f"trace={call}", "-e", f"inject={call}:{how}:when={n}"])
                    between = state(work)
                    again = quick(work, "verify", "guest")
                    after = state(work)
                    good = again.status == 0 and after in (old, new) and (ran.status != 0 or after == new)
                    passed, failed = passed + good, failed + (not good)
                    if not good:
                        print(f"glindorsc: {' '.join(words)}: {how} at {call} {n}: {ran}; again {again}", sorted(between[1]), sorted(after[1]))
    return passed, failed
