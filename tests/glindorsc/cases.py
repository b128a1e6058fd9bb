"""Single commands: what each writes, says and ends with, on linked files, raw ones, and files that are refused; each refused one changes nothing."""
import os
import pathlib
import shutil
import subprocess

import files
from program import ROOT, quick, run

EDIT = "0x4050\t10000000010000000002000320000040\t100000000100000000020003d0ffff48\nvalue\t32\t-48\ntarget\t0x4070\t0x4020\nstand\t1\n"
USAGE = "glindorsc: usage:\n"


def tree(folder):
    return {p: p.read_bytes() if p.is_file() else None for p in sorted(pathlib.Path(folder).rglob("*"))}


class Cases:
    def __init__(self, folder):
        self.folder, self.passed, self.failed = pathlib.Path(folder), 0, 0

    def is_so(self, what, holds, shown=""):
        self.passed, self.failed = self.passed + bool(holds), self.failed + (not holds)
        if not holds:
            print(f"glindorsc: {what}: {shown}")

    def file(self, name, data):
        shutil.rmtree(self.folder / f"{name}.patches", ignore_errors=True)
        (self.folder / name).write_bytes(data)
        return name

    def done(self, words, out, err=""):
        ran = run(self.folder, *words)
        self.is_so(words, (ran.status, ran.out, ran.err) == (0, out, err), ran)

    def refused(self, words, status, err):
        """It ends with the status, says just this line, writes nothing, and leaves every file as it was."""
        before = tree(self.folder)
        ran = run(self.folder, *words)
        self.is_so(words, (ran.status, ran.out, ran.err) == (status, "", err) and tree(self.folder) == before, ran)


def example(c):
    name = c.file("guest", files.example())
    c.done(["list", name, "0x4030", 2], "  0x4030\tMIB;\t0x1c839154180 A8 42\t0x8000000\t0x91ffffe140 B2 -16 -> 0x4020\n"
                                        "  0x4040\tMFI;\t0x8000040\t0x8000080\t0x80000c0\n")
    c.done(["show", name, "0x4052", "B1"], "value\t32\ntarget\t0x4070\n")
    c.done(["show", name, "0x405c", "B1"], "value\t32\ntarget\t0x4070\n")
    c.done(["edit", name, "0x4052", "B1", "-48", "--dry-run"], EDIT, "glindorsc: guest: a dry run: nothing was changed\n")
    c.is_so("a dry run changes nothing", (c.folder / name).read_bytes() == files.example() and not (c.folder / "guest.patches").exists())
    c.done(["branch", name, "0x4052", "B1", "0x4020"], EDIT)
    c.done(["list", name, "0x4050", 1], "* 0x4050\tMIB\t0x8000000\t0x8000000\t0x91ffffa006 B1 -48 -> 0x4020\n")
    c.done(["status", name], "read\telf\nwindow\t0x0\t1\n")
    c.done(["verify", name], "fits\t1\n")
    c.done(["edit", name, 16432, "A8", "0x10"], "0x4030\t1130a82207390000000200a0f0ffff48\t1130402207390000000200a0f0ffff48\nvalue\t42\t16\nstand\t2\n")
    c.done(["edit", name, "0x4002", "X2", "7"],
           "0x4000\t0500000001808967452301c0f1766d66\t0500000001000000000000c071000060\nvalue\t81985529216486895\t7\tform not checked\nstand\t3\n")
    c.done(["fold", name], "stand\t3\n")
    c.refused(["edit", name, "0x4052", "B1", "8"], 1, "glindorsc: guest: 0x4052: 6 BadValue: B1 takes multiples of 16 in -16777216..16777200\n")
    c.refused(["edit", name, "0x4052", "B2", "16"], 1,
              "glindorsc: guest: 0x4052: 14 BadOpcode: B2 isn't the form of the word there (list shows it); --plain doesn't ask\n")
    c.refused(["edit", name, "0x4050", "B1", "16"], 1, "glindorsc: guest: 0x4050: 5 BadSlot: B1 doesn't fit that slot\n")
    c.refused(["edit", name, "0x4052", "B7", "16"], 1, "glindorsc: guest: 0x4052: 3 BadForm: B7 has no such number\n")
    c.refused(["edit", name, "0x4050", "M48", "1"], 1,
              "glindorsc: guest: 0x4050: 15 Retired: M48 is of break, nop or hint, whose numbers aren't patched any more\n")
    c.refused(["edit", name, "0x4080", "B1", "16"], 1, "glindorsc: guest: 0x4080: 1 ExhaustedInput: no code stands there\n")
    c.refused(["branch", name, "0x4052", "B1", "0x90000000000"], 1,
              "glindorsc: guest: 0x4052: 6 BadValue: B1 takes multiples of 16 in -16777216..16777200\n")
    c.refused(["branch", name, "0x4030", "A8", "0x4000"], 1, "glindorsc: guest: 0x4030: 3 BadForm: A8 has no such number\n")
    c.refused(["list", name, "0x8000"], 1, "glindorsc: guest: 0x8000: 1 ExhaustedInput: no code stands there\n")
    c.refused(["list", name, "--raw"], 1, "glindorsc: guest: read as raw, base 0x0, offset 0, length 472, and patches stand in it read as elf\n")
    c.refused(["edit", name, "0x4053", "B1", "16"], 2,
              "glindorsc: guest: an ADDRESS is that of a bundle, plus 0, 1 or 2 for the slot: decimal, or hex after 0x\n")
    c.refused(["edit", name, "0x4052", "b1", "16"], 2, "glindorsc: guest: a FORM is a family's letter and a number, as B3\n")
    ran = run(c.folder, "undo", name, "--all")
    c.is_so("undo --all", ran.status == 0 and ran.out.endswith("stand\t0\n"), ran)
    c.is_so("the first bytes", (c.folder / name).read_bytes() == files.example() and not (c.folder / "guest.patches").exists())
    c.refused(["undo", name], 1, "glindorsc: guest: 8 Empty: no patch stands in it\n")
    c.done(["verify", name], "fits\t0\n")


def stale(c):
    name = c.file("guest", files.example())
    run(c.folder, "edit", name, "0x4052", "B1", "-48")
    data = bytearray((c.folder / name).read_bytes())
    data[files.PLACE + 0x5c] ^= 1
    (c.folder / name).write_bytes(data)
    for words in (["verify", name], ["undo", name], ["edit", name, "0x4002", "X2", "7"], ["fold", name]):
        c.refused(words, 1, "glindorsc: guest: 0x4050: 9 Stale: its patch left 100000000100000000020003d0ffff48, and there stands "
                            "100000000100000000020003d1ffff48\n")


def others_sheets(c):
    """A sheet of another window or file, one that is damaged, missing or not listed; a damaged layout or redo file."""
    def patched():
        name = c.file("guest", files.example())
        run(c.folder, "edit", name, "0x4052", "B1", "-48")
        return name, c.folder / "guest.patches"

    name, kept = patched()
    (kept / "0000000000000000").write_text("patches\t1\n0\t2\tB1\t16\t70368744177712\t9223372036863164416\t70368744177712\t9223372105582641152\n")
    c.refused(["verify", name], 1, "glindorsc: guest: 0x0: 9 Stale: its patch left 30000000004000000000800010000080, and there stands "
                                   "00000000000000000000000000000000\n")
    for text in ("", "patches\t2\n", "patches\t1\n1029\t2\tB1\t16\t1\t2\t3\t4\n"):
        name, kept = patched()
        (kept / "0000000000000000").write_text(text)
        c.refused(["undo", name], 1, "glindorsc: guest: 0x0: 13 BadSheet: the window's sheet isn't one\n")
    name, kept = patched()
    (kept / "0000000000000000").unlink()
    c.refused(["undo", name], 1, "glindorsc: guest: 13 BadSheet: the layout lists this window, and its sheet is missing\n")
    name, kept = patched()
    (kept / "layout").unlink()
    c.refused(["edit", name, "0x4002", "X2", "7"], 1,
              "glindorsc: guest: 13 BadSheet: a sheet stands in its folder for this window, and the layout doesn't list it\n")
    name, kept = patched()
    (kept / "layout").write_text("layout\t0\t0\t0\t0\t2\n0\n")
    c.refused(["undo", name], 1, "glindorsc: guest: 13 BadSheet: the layout in its folder can't be read\n")
    for text in ("", "redo\t1\t0\t0\t0\n", "redo\t0\t0\t0\t0\nend", "redo\t0\t0\t0\t0\nend\nend\n"):
        name, kept = patched()
        (kept / "redo").write_text(text)
        c.refused(["undo", name], 1, "glindorsc: guest: finishing what was committed\n"
                                     "glindorsc: guest: the redo file in its folder is damaged: nothing was changed\n")
    name, kept = patched()
    (kept / "redo").write_text("redo\t1\t0\t0\t0\n128\t1\t2\t3\t4\nend\n")
    c.refused(["undo", name], 1, "glindorsc: guest: finishing what was committed\nglindorsc: guest: 9 Stale: a bundle is neither as the commit "
                                 "found it nor as it is to be; the redo file stays\n")


def readings(c):
    """Raw files, with a base, an offset and a length; two code sections; segments; ELF files that are refused."""
    raw = c.file("raw", files.bundles(70000, 2)[:1 << 20])
    ran = run(c.folder, "list", raw, "--base", "0x10000")
    c.is_so("a raw megabyte", ran.status == 0 and ran.out.count("\n") == 65536 and ran.out.startswith("  0x10000\t"), ran.err)
    ran = run(c.folder, "list", raw, "--offset", 16, "--length", 40, "--base", "0x20")
    c.is_so("a part of it", ran.status == 0 and [line.split()[0] for line in ran.out.splitlines()] == ["0x20", "0x30"], ran)
    c.refused(["list", raw, "--base", "8"], 2, "glindorsc: raw: a base is a multiple of 16\n")
    c.refused(["list", raw, "--base", "x"], 2, "glindorsc: raw: --base, --offset, --length, COUNT and TARGET are numbers: decimal, or hex after 0x\n")
    c.refused(["list", raw, "--offset", 1 << 20, "--length", 1], 1,
              "glindorsc: raw: a part of its code lies past the end of the file, or past the highest address\n")
    c.refused(["list", raw, "--base", "0xfffffffffffffff0"], 1,
              "glindorsc: raw: a part of its code lies past the end of the file, or past the highest address\n")
    two = c.file("two", files.two_sections())
    at = 0x400000000000FFC0
    for k in range(5):  # the branch of the example, in the second window, and a number in the first
        ran = run(c.folder, "edit", two, hex(at + 0x52), "B1", -16 * k)
        c.is_so("an edit across a border", ran.status == 0, ran)
    ran = run(c.folder, "edit", two, hex(at + 0x30), "A8", 1)
    c.is_so("an edit in the first window", ran.status == 0 and ran.out.endswith("stand\t1\n"), ran)
    c.done(["status", two], "read\telf\nwindow\t0x4000000000010000\t5\nwindow\t0x4000000000000000\t1\n")
    c.refused(["undo", two], 2, "glindorsc: two: patches stand in several windows: name an ADDRESS in one of them (status lists them)\n")
    c.done(["verify", two], "fits\t2\n")
    for words in (["undo", two, hex(at)], ["undo", two, "--all"]):
        c.is_so(words, run(c.folder, *words).status == 0)
    c.is_so("the first bytes of two sections", (c.folder / two).read_bytes() == files.two_sections() and not (c.folder / "two.patches").exists())
    code = files.example()[files.PLACE:files.PLACE + 0x80]
    parts = c.file("parts", files.elf([(0x4000, code)], segments=True))
    c.done(["show", parts, "0x4052", "B1"], "value\t32\ntarget\t0x4070\n")
    for words, data in (("a relocatable object: the linker writes its numbers; patch the linked file", files.elf([(0x4000, code)], kind=1)),
                        ("an ELF file of another machine than Itanium", files.elf([(0x4000, code)], machine=62)),
                        ("an ELF file that isn't little-endian", files.elf([(0x4000, code)], ident=b"\x02\x02")),
                        ("an ELF file that isn't of 64 bits", files.elf([(0x4000, code)], ident=b"\x01\x01")),
                        ("a part of its code lies past the end of the file, or past the highest address", files.elf([(0x4000, code)], shift=200)),
                        ("a header of the ELF file lies past its end", files.elf([(0x4000, code)])[:-64]),
                        ("two parts of its code share bytes or addresses", files.elf([(0x4000, code), (0x4070, code)])),
                        ("no code in it", files.elf([])), ("no code in it", b"")):
        c.refused(["list", c.file("odd", data)], 1, f"glindorsc: odd: {words}\n")
    report = run(c.folder, "report", c.file("guest", files.example()), two)
    c.is_so("a report of the code alone", report.status == 0 and "bundles\t27\n" in report.out and report.out.endswith("rest\t0\n"), report)


def system(c):
    """What can't be opened, made, read or written: a line with the system's word, status 3, and nothing changed."""
    name = c.file("guest", files.example())
    c.refused(["list", "missing"], 3, "glindorsc: missing: No such file or directory\n")
    c.refused(["edit", "missing", "0x4052", "B1", "-48"], 3, "glindorsc: missing: No such file or directory\n")
    (c.folder / "folder").mkdir()
    c.refused(["list", "folder"], 3, "glindorsc: folder: Is a directory\n")
    (c.folder / "link").symlink_to("guest")
    c.refused(["edit", "link", "0x4052", "B1", "-48"], 1, "glindorsc: link: a symbolic link: name the file itself\n")
    c.refused(["list", "/dev/null"], 1, "glindorsc: /dev/null: no code in it\n")
    (c.folder / "guest.patches").write_text("a file in the folder's place")
    c.refused(["edit", name, "0x4052", "B1", "-48"], 3, "glindorsc: guest: Not a directory\n")
    (c.folder / "guest.patches").unlink()
    if os.path.exists("/dev/full"):
        with open("/dev/full", "w") as full:
            ran = subprocess.run([ROOT / "glindorsc", "list", name], cwd=c.folder, stdin=subprocess.DEVNULL, stdout=full, stderr=subprocess.PIPE, check=False)
        c.is_so("a full output", (ran.returncode, ran.stderr) == (3, b"glindorsc: standard output: No space left on device\n"), ran)
    for closed in (">&-", "<&-", "2>&-", ">&- 2>&- <&-"):
        ran = subprocess.run(f"'{ROOT}/glindorsc' edit guest 0x4052 B1 -48 --dry-run {closed}", shell=True, cwd=c.folder, capture_output=True, check=False)
        c.is_so(f"closed {closed}", ran.returncode == (3 if ">&-" in closed.replace("2>&-", "") else 0) and (c.folder / name).read_bytes() == files.example(), ran)
        run(c.folder, "edit", name, "0x4052", "B1", "-48")
        subprocess.run(f"'{ROOT}/glindorsc' undo guest {closed}", shell=True, cwd=c.folder, capture_output=True, check=False)
        c.is_so(f"closed {closed}, an undo", (c.folder / name).read_bytes() == files.example() and not (c.folder / "guest.patches").exists())


def read_only(c):
    """A folder that one may not write in, and a file: it can be listed, and not patched."""
    nobody = {"user": 65534} if os.geteuid() == 0 else {}
    name = c.file("guest", files.example())
    os.chmod(c.folder.parent, 0o755)
    os.chmod(c.folder, 0o555)
    if quick(c.folder, "--version", **nobody).status == 0:
        before = tree(c.folder)
        ran = quick(c.folder, "list", name, "0x4050", 1, **nobody)
        c.is_so("a read-only folder, list", ran.status == 0 and ran.err == "", ran)
        for words in (["edit", name, "0x4052", "B1", "-48"], ["verify", name]):
            ran = quick(c.folder, *words, **nobody)
            c.is_so(f"a read-only folder, {words[0]}", (ran.status, ran.out, ran.err) == (3, "", "glindorsc: guest: Permission denied\n"), ran)
        c.is_so("a read-only folder is left", tree(c.folder) == before)
        os.chmod(c.folder, 0o777)
        os.chmod(c.folder / name, 0o444)
        ran = quick(c.folder, "edit", name, "0x4052", "B1", "-48", **nobody)
        c.is_so("a read-only file", (ran.status, ran.out, ran.err) == (3, "", "glindorsc: guest: Permission denied\n") and tree(c.folder) == before, ran)
        os.chmod(c.folder / name, 0o644)
    else:
        print("glindorsc: no read-only folder: another user can't start the program here")
    os.chmod(c.folder, 0o755)


def usage(c):
    c.file("guest", files.example())
    for words in ([], ["lost"], ["list"], ["show", "guest", "0x4052"], ["edit", "guest", "0x4052", "B1"], ["list", "guest", "--lost"],
                  ["list", "guest", "--base"], ["undo", "guest", "0x4000", "0x4000"]):
        before = tree(c.folder)
        ran = run(c.folder, *words)
        c.is_so(words, ran.status == 2 and ran.out == "" and ran.err.startswith(USAGE) and tree(c.folder) == before, ran)
    for words in (["--help"], ["edit", "--help"], ["--version"]):
        ran = run(c.folder, *words)
        c.is_so(words, ran.status == 0 and ran.out.startswith("glindorsc ") and ran.err == "", ran)


def locks(c):
    """A lock of a process that is gone is broken, one of another host or a living process isn't; one that says nothing is left behind."""
    name = c.file("guest", files.example())
    kept = c.folder / "guest.patches"
    host = os.uname().nodename
    gone = subprocess.Popen(["true"])
    gone.wait()
    for text in (f"{gone.pid}\t{host}\n", ""):
        for breaking in (None, text):
            kept.mkdir(exist_ok=True)
            (kept / "lock").write_text(text)
            if breaking is not None:
                (kept / "breaking").write_text(breaking)
            c.is_so(f"a lock {text!r} that was left", run(c.folder, "edit", name, "0x4052", "B1", "-48").status == 0)
            c.is_so("and its undoing", run(c.folder, "undo", name).status == 0 and not kept.exists(), list(kept.iterdir()) if kept.exists() else "")
    for text in (f"{os.getpid()}\t{host}\n", f"{gone.pid}\tanother.{host}\n", "what is this\n"):
        kept.mkdir(exist_ok=True)
        (kept / "lock").write_text(text)
        for words in (["edit", name, "0x4052", "B1", "-48"], ["verify", name], ["undo", name]):
            c.refused(words, 4, f"glindorsc: guest: locked by process and host {text}")
        c.is_so("status tells of the lock", "lock\theld\n" in run(c.folder, "status", name).out)
    shutil.rmtree(kept)
    one = subprocess.Popen(["sh", "-c", f"for i in $(seq 40); do '{ROOT}/glindorsc' edit guest 0x4052 B1 -48 >>said.one 2>&1; echo $? >>said.one; done"], cwd=c.folder)
    two = subprocess.Popen(["sh", "-c", f"for i in $(seq 40); do '{ROOT}/glindorsc' edit guest 0x4052 B1 16 >>said.two 2>&1; echo $? >>said.two; done"], cwd=c.folder)
    one.wait(), two.wait()
    said = (c.folder / "said.one").read_text() + (c.folder / "said.two").read_text()
    taken = said.count("\n0\n")
    c.is_so("two at once", taken + said.count("\n4\n") == 80 and run(c.folder, "verify", name).status == 0, said)
    c.is_so("as many as were taken stand", run(c.folder, "status", name).out == f"read\telf\nwindow\t0x0\t{taken}\n")
    c.is_so("undone", run(c.folder, "undo", name, "--all").status == 0 and (c.folder / name).read_bytes() == files.example())


def tried(folder):
    c = Cases(folder)
    for case in (example, stale, others_sheets, readings, system, read_only, usage, locks):
        case(c)
    return c.passed, c.failed
