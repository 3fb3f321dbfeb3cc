"""Helps bench/texts.sh: plays runs whose files or script are harmed, and judges how they end.

texts.py PROGRAM RUN-FOLDER..
"""
import collections
import concurrent.futures
import os
import pathlib
import re
import shlex
import subprocess
import sys
import tempfile

BLOCK = 256
CAUSES = rb"bad record|data structure|too deep|too long|too many boxes|too many wires|too much sound|too many symbols"
REFUSALS = (rb"no document|no canvas|text too long|too deep|shelf fault|too many symbols|too many boxes|too much sound|no box \d+|no outlet \d+ at box \d+|"
            rb"no inlet \d+ at box \d+|signal into control|too many wires|no wire|out of memory|nothing to undo|nothing to redo")
# What stands behind `error: `, but where a patch is refused.
ERRORS = re.compile(rb"|".join([
    rb".*: couldn't create", rb".*: bad file at record \d+", rb".*: inside itself", rb".*: too deep", rb"wire \d+ \d+ \d+ \d+ does not fit at /[\d/]*",
    rb"signal loop at /[\d/]*: [\d ]+", rb".*: no method for '.*'", rb".*: no such object", rb"\$\d+: no such argument", rb"stack overflow",
    rb"event cut at 1000000 deliveries", rb"message cut at 1024 atoms", rb"msg: text full", rb"symbol table full", rb"edit queue full",
    rb"vline~: too many ramps", rb"pd: bad arguments for '[a-z]+'", rb"show: no canvas", rb"(?:edit|save|undo|redo) refused: (?:%s)" % REFUSALS,
    rb"script record \d+"]))


class Result:
    """What a run came to."""

    def __init__(self, code, lines, besides, room):
        self.code, self.lines, self.besides = code, lines, besides
        self.files = {it.name: it.read_bytes() for it in sorted(room.iterdir())}
        self.samples = self.files.pop("out.pcm", b"")

    def parts(self):
        return {"exit code": self.code, "lines": self.lines, "samples": self.samples, "files": self.files}


def play(program, words, files, script):
    """Plays a script in a folder of these files; None where the run doesn't end."""
    with tempfile.TemporaryDirectory(prefix="texts-") as name:
        room = pathlib.Path(name)
        for file, data in files.items():
            (room / file).write_bytes(data)
        try:
            done = subprocess.run([*program, *words], input=script, cwd=room, stdout=subprocess.PIPE, stderr=subprocess.PIPE, timeout=300, check=False)
        except subprocess.TimeoutExpired:
            return None
        return Result(done.returncode, done.stdout, done.stderr, room)


def harms_of(text):
    """The harmed texts, with what was done to each."""
    for count in range(len(text)):
        yield f"the first {count} bytes", text[:count]
    for put in (ord(";"), 0, 255):
        for i, byte in enumerate(text):
            if byte != put:
                yield f"byte {i} is {put}", text[:i] + bytes([put]) + text[i + 1:]


def is_named(line):
    """Whether the manual names a line; those of `print` say anything behind a colon."""
    if line.startswith(b"error: "):
        return ERRORS.fullmatch(line[len(b"error: "):]) is not None
    return b": " in line or re.fullmatch(rb"(?:chain|stuck) /[\d/]*:[\d ]*", line) is not None


def fault_of(got, words, files):
    """What is wrong of itself with how a run ended, or None."""
    patch = words[0].encode()
    refused = re.fullmatch(rb"error: " + re.escape(patch) + rb": record \d+: (?:%s)\n" % CAUSES, got.lines)
    lines = got.lines.split(b"\n")
    if got.code not in (0, 4, 5):
        return f"exit code {got.code}"
    if got.besides:
        return f"it says besides {got.besides[-200:]!r}"
    if (got.code == 4) != bool(refused):
        return "exit code 4 and its line don't go together"
    if got.code == 5 and not re.fullmatch(rb"error: script record \d+", lines[-2] if len(lines) > 1 else b""):
        return "exit code 5 without its line"
    if lines[-1]:
        return "half a line"
    unnamed = [it for it in lines[:-1] if got.code != 4 and not is_named(it)]
    if unnamed:
        return f"the line {unnamed[0]!r}"
    if len(got.samples) % BLOCK:
        return "half a block"
    if set(got.files) != set(files):
        return f"the files {sorted(got.files)}"
    return None


class Trial:
    """A run whose texts are harmed, played by the program and by one beside, where there is one."""

    def __init__(self, program, beside, folder):
        self.program, self.beside = program, beside
        self.words = (folder / "words").read_text().split("\n")[:-1]
        self.script = (folder / "script").read_bytes()
        self.files = {it.name: it.read_bytes() for it in sorted((folder / "files").iterdir())} if (folder / "files").is_dir() else {}

    def texts(self):
        return [*self.files, None]

    def harmed(self, text):
        """What was done, the files and the script, for each harm of a file or, where it has no name, of the script."""
        for what, data in harms_of(self.script if text is None else self.files[text]):
            yield what, (self.files, data) if text is None else ({**self.files, text: data}, self.script)

    def tried(self, harm):
        """What was done, the exit code, and what is wrong."""
        what, (files, script) = harm
        got = play([self.program], self.words, files, script)
        if got is None:
            return what, "no end", "no end"
        fault = fault_of(got, self.words, files)
        if fault is None and self.beside:
            other = play(self.beside, self.words, files, script)
            if other is None or other.besides:
                fault = f"the program beside fails: {other and other.besides[-300:]!r}"
            else:
                differs = [key for key, value in got.parts().items() if other.parts()[key] != value]
                fault = f"{', '.join(differs)} differ: {got.code} {got.lines[-200:]!r}, beside {other.code} {other.lines[-200:]!r}" if differs else None
        return what, got.code, fault


def main(program, folders):
    beside, total, faults = shlex.split(os.environ.get("BESIDE", "")), 0, 0
    with concurrent.futures.ThreadPoolExecutor(int(os.environ.get("WORKERS", "1"))) as pool:
        for folder in map(pathlib.Path, folders):
            if not (folder / "words").is_file() or not (folder / "script").is_file():
                print(f"{folder}: no run", flush=True)
                continue
            trial = Trial(program, beside, folder)
            for text in trial.texts():
                name = f"{folder.name}, {'the script' if text is None else text}"
                codes = collections.Counter()
                for what, code, fault in pool.map(trial.tried, trial.harmed(text)):
                    codes[code] += 1
                    if fault:
                        faults += 1
                        print(f"{name}, {what}: {fault}", flush=True)
                total += sum(codes.values())
                print(f"{name}: {sum(codes.values())} times: {', '.join(f'exit code {it} {codes[it]}' for it in sorted(codes, key=str))}", flush=True)
    print(f"{total} harmed texts{', played beside' if beside else ''}: {faults} otherwise")
    return 1 if faults else 0


if __name__ == "__main__":
    sys.exit(main(sys.argv[1], sys.argv[2:]))
