"""Helps bench/reload.sh: plays runs to each of their records, and compares the patch that plays with the one that opens from what it saves.

reload.py PROGRAM RUN-FOLDER..
"""
import pathlib
import re
import subprocess
import sys
import tempfile

RECORD = re.compile(rb"((?:\\.|[^;\\])*);", re.S)
# A longer word is no name that a record sends to.
WORD = re.compile(r"^[A-Za-z][A-Za-z0-9_.~-]{0,200}$")
NO_CANVAS = b"error: show: no canvas"
# A canvas is sought so deep, a run is asked for so many canvases and names, and played to so many of its records.
DEEP, MOST_CANVASES, MOST_NAMES, MOST_RECORDS = 6, 200, 300, 60


def records_of(script):
    """The records of a script up to the one that ends it, without their semicolons."""
    found = []
    for record in RECORD.findall(script):
        words = record.split()
        if not words:
            continue
        if words[1:2] == [b"end"]:
            break
        found.append(record.strip())
    return found


def play(program, words, files, script):
    """The exit code and the lines of a run, and its patch as it is afterwards."""
    with tempfile.TemporaryDirectory(prefix="reload-") as room:
        for name, data in files.items():
            pathlib.Path(room, name).write_bytes(data)
        done = subprocess.run([program, *words], input=script, cwd=room, stdout=subprocess.PIPE, stderr=subprocess.PIPE, timeout=120, check=False)
        patch = pathlib.Path(room, words[0])
        return done.returncode, done.stdout, patch.read_bytes() if patch.is_file() else b""


class Run:
    """A run up to a record: its folder's files, its words, and the records so far."""

    def __init__(self, program, words, files, records):
        self.program, self.words, self.files, self.records = program, words, files, records

    def script(self, asked):
        """The script of the run with these records behind it, at the same time, and its end."""
        return b"".join(it + b";\n" for it in [*self.records, *[b"0 " + it for it in asked], b"0 end"])

    def answers(self, asked):
        """The lines that are printed because of these records: those of the run without them come before, and what falls due at its end behind."""
        before = play(self.program, self.words, self.files, self.script([]))[1].splitlines()
        after = play(self.program, self.words, self.files, self.script(asked))[1].splitlines()
        same = next((i for i, it in enumerate(before) if after[i:i + 1] != [it]), len(before))
        rest = before[same:]
        return after[same:len(after) - len(rest)] if rest and after[-len(rest):] == rest else after[same:]

    def saved(self):
        code, lines, patch = play(self.program, self.words, self.files, self.script([b"save ."]))
        return None if code or b"error: save" in lines else patch

    def answers_each(self, asked):
        """What each of these records is answered, each played by itself behind the run."""
        return {it: self.answers([it]) for it in asked}


def boxes_most(files):
    """At least as many as a canvas of these files has boxes."""
    return max([len(re.findall(rb"#[XN] ", it)) for it in files.values()] + [1])


def paths_of(run):
    """The paths to the canvases of a run, sought by `show`, the root first."""
    found, level, most = [b"/"], [b""], min(boxes_most(run.files) + len(run.records), 80)
    for _ in range(DEEP):
        tried = [b"%s/%d" % (path, i) for path in level for i in range(most)]
        if not tried:
            break
        lines = iter(run.answers([b"show " + it for it in tried]))
        level = []
        for path in tried:
            line = next(lines, NO_CANVAS)
            if line != NO_CANVAS:
                next(lines, b"")
                level.append(path)
        found += level
        if len(found) > MOST_CANVASES:
            return found[:MOST_CANVASES]
    return found


def names_of(files, patch):
    """The names that occur in a patch and its files, with those of the canvases."""
    words = []
    for data in [patch, *files.values()]:
        for it in re.split(rb"[\s;,]+", data):
            word = it.decode("latin-1")
            if word.startswith("\\$0"):
                words += [f"{zero}{word[3:]}" for zero in range(1001, 1006)]
            elif WORD.match(word):
                words += [word, f"pd-{word}"]
    names = [it for it in dict.fromkeys(words) if WORD.match(it) or re.match(r"^\d+-[A-Za-z0-9_.~-]{1,200}$", it)]
    return [it.encode("latin-1") for it in names[:MOST_NAMES]]


def asked_of(run, patch, name):
    """The records that a patch and the one that opens from its text are asked."""
    paths = paths_of(run)
    asked = [b"show " + it for it in paths]
    asked += [b"send %s nobody-hears-this" % it for it in [*names_of(run.files, patch), b"pd-" + name]]
    return asked


def differs_after(program, words, files, records):
    """In what the patch that plays and the one that opens differ after these records, or None."""
    run = Run(program, words, files, records)
    patch = run.saved()
    if patch is None:
        return None
    again = Run(program, words, {**files, words[0]: patch}, [])
    if again.saved() != patch:
        return "the file that is saved again"
    asked = asked_of(run, patch, words[0].encode())
    if run.answers(asked) != again.answers(asked):
        one, other = run.answers_each(asked[:40]), again.answers_each(asked[:40])
        return next((it.decode("latin-1") for it in asked[:40] if one[it] != other[it]), "an answer")
    return None


def main(program, folders):
    tried = different = 0
    for folder in map(pathlib.Path, folders):
        if not (folder / "words").is_file() or not (folder / "script").is_file():
            print(f"{folder}: no run", flush=True)
            continue
        words = (folder / "words").read_text().split("\n")[:-1]
        files = {it.name: it.read_bytes() for it in sorted((folder / "files").iterdir())} if (folder / "files").is_dir() else {}
        if not words or words[0] not in files:
            continue
        records = records_of((folder / "script").read_bytes())
        for count in range(min(len(records), MOST_RECORDS) + 1):
            tried += 1
            why = differs_after(program, words, files, records[:count])
            if why:
                different += 1
                print(f"{folder.name}, after {count} records: {why[:80]}", flush=True)
    print(f"{tried} times saved and opened: {different} differ")
    return 1 if different else 0


if __name__ == "__main__":
    sys.exit(main(sys.argv[1], sys.argv[2:]))
