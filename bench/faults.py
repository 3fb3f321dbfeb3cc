"""Helps bench/faults.sh: plays runs with one failing call each, and judges what was taken.

faults.py PROGRAM LIBRARY RUN-FOLDER..
"""
import errno
import os
import pathlib
import re
import subprocess
import sys
import tempfile

from reload import records_of

KINDS = ("lines", "samples", "script", "folder")
RECORD = re.compile(rb"(?:\\.|[^;\\])*;", re.S)
REFUSED = re.compile(rb"^error: (?:edit|save) refused: shelf fault\n", re.M)
SCRIPT_FAILED, SHELF_FAILED = b"error: script read failed\n", b"error: shelf failed\n"
# The exit codes of faults of lines or samples, of the script, of the folder, and of a file of samples that can't be made.
UNWRITTEN, UNREAD, UNSHELVED, UNMADE = 7, 6, 8, 11
# A byte is given or taken at a time, or in so many times all bytes of a kind, where there are more.
MOST_PARTS = 100


class Result:
    """What a run came to: its exit code, lines, samples and files, what it said besides, and its calls."""

    def __init__(self, code, lines, besides, room):
        self.code, self.lines, self.besides = code, lines, besides
        files = {it.name: it.read_bytes() for it in sorted(room.iterdir()) if it.is_file() and not it.is_symlink()}
        self.samples = files.pop("out.pcm", b"")
        self.files = files
        self.calls = []

    def is_like(self, other):
        return (self.code, self.lines, self.samples, self.files) == (other.code, other.lines, other.samples, other.files)

    def count(self, kind):
        return sum(1 for it in self.calls if it[0] == kind and it[1] != "took")

    def bytes(self, kind):
        return sum(it[2] for it in self.calls if it[0] == kind)


class Run:
    """A run, and how it goes without a fault."""

    def __init__(self, program, library, folder):
        self.program, self.library = program, library
        self.words = (folder / "words").read_text().split("\n")[:-1]
        self.script = (folder / "script").read_bytes()
        self.files = {it.name: it.read_bytes() for it in sorted((folder / "files").iterdir())} if (folder / "files").is_dir() else {}
        self.records = records_of(self.script)
        self.whole = self.play()
        byte_by_byte = self.play(parts={"script": 1})
        self.marks = marks_of(byte_by_byte.calls) + [(len(self.script) + 1, len(self.whole.lines), len(self.whole.samples))]
        self.saved = [self.files] + [self.play(self.script_to(i + 1)).files for i in self.saving()]
        self.without = [self.play(self.script_without(i)) for i in range(len(self.records)) if self.word(i) in (b"edit", b"save")]

    def play(self, script=None, parts=None, fault=None, **streams):
        """Plays the run or another script, with parts of so many bytes for kinds of calls, and with a kind's call of a number failing by an error."""
        with tempfile.TemporaryDirectory(prefix="faults-") as name:
            room, calls = pathlib.Path(name, "files"), pathlib.Path(name, "calls")
            room.mkdir()
            for file, data in self.files.items():
                (room / file).write_bytes(data)
            return self.play_in(room, calls, self.script if script is None else script, parts or {}, fault, streams)

    def play_in(self, room, calls, script, parts, fault, streams):
        env = {**os.environ, "LD_PRELOAD": self.library, "CALLS_TO": str(calls)}
        env.update({f"PART_{kind}": str(most) for kind, most in parts.items()})
        if fault:
            env.update({"FAULT": fault[0], "FAULT_AT": str(fault[1]), "FAULT_ERROR": str(fault[2])})
        pathlib.Path(room.parent, "script").write_bytes(script)
        with open(room.parent / "script", "rb") as given:
            done = subprocess.run([self.program, *self.words], cwd=room, env=env, timeout=300, check=False,
                                  **{"stdin": given, "stdout": subprocess.PIPE, "stderr": subprocess.PIPE, **streams})
        result = Result(done.returncode, done.stdout or b"", done.stderr, room)
        if calls.is_file():
            result.calls = [(a, b, int(c)) for a, b, c in map(str.split, calls.read_text().splitlines())]
        return result

    def word(self, i):
        return self.records[i].split()[1:2][0] if len(self.records[i].split()) > 1 else b""

    def saving(self):
        return [i for i in range(len(self.records)) if self.word(i) == b"save"]

    def script_to(self, count):
        return b"".join(it + b";\n" for it in self.records[:count]) + b"0 end;\n"

    def script_without(self, i):
        """The script without a record, whose time is that of an empty send before the next one."""
        return b"".join(it + b";\n" for it in [*self.records[:i], *self.later(i)]) + self.ending()

    def later(self, i):
        """The records behind one, the next of them so much later."""
        time = float(self.records[i].split()[0])
        rest = self.records[i + 1:]
        if not rest or not time:
            return rest
        words = rest[0].split(None, 1)
        return [b"%.10g " % (float(words[0]) + time) + words[1], *rest[1:]]

    def ending(self):
        """The record that ends the script, where it has one."""
        rest = [it for it in RECORD.findall(self.script) if it.split(b";")[0].split()]
        return rest[len(self.records)] + b"\n" if len(rest) > len(self.records) else b""

    def saves_in(self, given):
        """How many saves there are among so many bytes of the script."""
        count = sum(1 for it in RECORD.findall(self.script[:given]) if it.split(b";")[0].split())
        return sum(1 for i in self.saving() if i < count)


def marks_of(calls):
    """Before each read of the script how many bytes of it were given, and how many of lines and samples were taken."""
    marks, taken = [], {kind: 0 for kind in KINDS}
    for kind, what, count in calls:
        if (kind, what) == ("script", "read"):
            marks.append((taken["script"], taken["lines"], taken["samples"]))
        taken[kind] += count
    return marks


def is_first_part(run, got, is_behind):
    """Whether what was taken is a first part of the run; the samples that a file took may be behind the lines."""
    if not run.whole.lines.startswith(got.lines) or not run.whole.samples.startswith(got.samples):
        return False
    lines, samples, states = len(got.lines), len(got.samples), [i for i, it in enumerate(run.saved) if it == got.files]
    for (given, low_lines, low_samples), (after, high_lines, high_samples) in zip([(0, 0, 0), *run.marks], run.marks):
        is_here = low_lines <= lines <= high_lines and (is_behind or low_samples <= samples) and samples <= high_samples
        if is_here and any(run.saves_in(given) <= i <= run.saves_in(after) for i in states):
            return True
    return False


def is_cut_script(run, got):
    """Whether all was taken that the bytes of the script that were given tell, and nothing more."""
    given = got.bytes("script")
    mark = next((it for it in run.marks if it[0] == given), None)
    if mark is None:
        return False
    lines, samples = run.whole.lines[:mark[1]] + SCRIPT_FAILED, run.whole.samples[:mark[2]]
    return (got.lines, got.samples, got.files) == (lines, samples, run.saved[run.saves_in(given)])


def is_refused(run, got):
    rest, times = REFUSED.subn(b"", got.lines)
    return times == 1 and any((got.code, rest, got.samples, got.files) == (it.code, it.lines, it.samples, it.files) for it in run.without)


def judged(run, kind, got):
    """How a run with a failing call of a kind went, or None."""
    if got.besides:
        return None
    if got.is_like(run.whole):
        return "same"
    is_untouched = not got.samples and got.files == run.files
    if (got.code, got.lines) == (UNSHELVED, SHELF_FAILED) and kind == "folder" or (got.code, got.lines) == (UNMADE, b"") and kind == "samples":
        return "unopened" if is_untouched else None
    if kind == "script" and got.code == UNREAD:
        return "cut" if is_cut_script(run, got) else None
    if kind in ("lines", "samples") and got.code == UNWRITTEN:
        return "cut" if is_first_part(run, got, kind == "samples") else None
    return "refused" if kind == "folder" and is_refused(run, got) else None


def told(got):
    return f"exit code {got.code}, {len(got.samples)} bytes of samples, lines {got.lines[-200:]!r} {got.besides[-200:]!r}"


def try_calls(run, name, parts):
    """Lets each call fail; how many runs went no way."""
    others = 0
    calm = run.play(parts=parts)
    if not calm.is_like(run.whole):
        print(f"{name}: otherwise in parts of {parts}: {told(calm)}", flush=True)
        others += 1
    for kind in KINDS:
        counts = {}
        for number in range(1, calm.count(kind) + 1):
            errors = [errno.EIO if kind in ("script", "folder") else errno.ENOSPC]
            what = [it[1] for it in calm.calls if it[0] == kind and it[1] != "took"][number - 1]
            errors += [errno.EINTR] if kind != "folder" and what in ("read", "write") else []
            for error in errors:
                got = run.play(parts=parts, fault=(kind, number, error))
                way = judged(run, kind, got)
                if error == errno.EINTR and way != "same":
                    way = None
                if way is None:
                    others += 1
                    print(f"{name}: call {number} of {kind} ({what}), parts {parts}, error {error}: {told(got)}", flush=True)
                counts[way] = counts.get(way, 0) + 1
        ways = ", ".join(f"{way or 'other'} {count}" for way, count in sorted(counts.items(), key=str))
        print(f"{name}, {'in parts' if parts else 'as they come'}, {kind}: {calm.count(kind)} calls: {ways or 'none'}", flush=True)
    return others


def parts_of(run):
    """The parts in which each kind is tried."""
    whole = run.whole
    return {kind: max(1, -(-whole.bytes(kind) // MOST_PARTS)) for kind in KINDS}


def without_library(run, name):
    """Lines, samples and script that fail of themselves; how many runs went no way."""
    run.library, others, ways = "", 0, []
    reader, writer = os.pipe()
    os.close(reader)
    with open("/dev/full", "wb") as full, tempfile.TemporaryDirectory() as folder:
        folder = os.open(folder, os.O_RDONLY)
        tried = [("lines", "a full disk", run.play(stdout=full)), ("lines", "a pipe that nobody reads", run.play(stdout=writer)),
                 ("lines", "nothing", run.play(preexec_fn=lambda: os.close(1), stdout=None)), ("script", "a folder", run.play(stdin=folder)),
                 ("none", "no script", run.play(preexec_fn=lambda: os.close(0), stdin=None))]
        os.close(folder)
    os.close(writer)
    empty = run.play(b"")
    for kind, what, got in tried:
        way = "same" if kind == "none" and got.is_like(empty) else judged(run, kind, got)
        others += way is None
        ways.append(f"{what} {way or 'other'}")
        if way is None:
            print(f"{name}: {kind}, {what}: {told(got)}", flush=True)
    way = full_samples(run)
    print(f"{name}, without the library: {', '.join(ways)}, samples on a full disk {way}", flush=True)
    return others + (way == "other")


def full_samples(run):
    """How a run goes whose file of samples leads to a full disk."""
    with tempfile.TemporaryDirectory(prefix="faults-") as name:
        room = pathlib.Path(name, "files")
        room.mkdir()
        for file, data in run.files.items():
            (room / file).write_bytes(data)
        (room / "out.pcm").symlink_to("/dev/full")
        got = run.play_in(room, room.parent / "calls", run.script, {}, None, {})
        if not run.whole.samples and (got.code, got.lines, got.files) == (run.whole.code, run.whole.lines, run.whole.files):
            return "same"
        return "cut" if got.code == UNWRITTEN and not got.besides and is_first_part(run, got, True) else "other"


def main(program, library, folders):
    others = 0
    for folder in map(pathlib.Path, folders):
        if not (folder / "words").is_file() or not (folder / "script").is_file():
            print(f"{folder}: no run", flush=True)
            continue
        run = Run(program, library, folder)
        if run.whole.bytes("lines") != len(run.whole.lines) or run.whole.bytes("samples") != len(run.whole.samples):
            print(f"{folder.name}: the library isn't asked for all calls", flush=True)
            return 2
        others += try_calls(run, folder.name, {})
        others += try_calls(run, folder.name, parts_of(run))
        others += without_library(run, folder.name)
    print(f"{others} went another way")
    return 1 if others else 0


if __name__ == "__main__":
    sys.exit(main(sys.argv[1], sys.argv[2], sys.argv[3:]))
