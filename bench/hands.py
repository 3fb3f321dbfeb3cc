"""Helps bench/compatibility.sh: writes copies of a patch that are touched by a script, for pdplay and for Pd, and compares their samples.

hands.py touch PATCH OURS THEIRS   writes two copies of a patch, to folders, and with them the scripts of a run; prints the run's length in ms
hands.py look OURS THEIRS          prints whether the samples of a run sound before the first touch, sound at all, and are alike

A touch is what a hand would do in the window, once to each box that no wire and no name feeds, in the order of the file: a click on a message box,
bng or tgl, and for a number box, slider or row of buttons the middle of its range, or 60 where it has none.
"""
import array
import pathlib
import re
import struct
import sys

RATE, BLOCK = 44100, 64
# No round time, at which a clock of the patch may fire too: Pd and pdplay take them in another order.
QUIET_MS, STEP_MS, REST_MS = 200.37, 20, 300
RECORD = re.compile(rb"((?:\\.|[^;\\])*);", re.S)
CLICKED, TURNED = ("bng", "tgl"), {"nbx": (2, 3, 7), "hsl": (2, 3, 7), "vsl": (2, 3, 7), "hradio": (None, 3, 5), "vradio": (None, 3, 5)}
RECEIVES = {"bng": 5, "tgl": 3} | {name: at for name, (_, _, at) in TURNED.items()}


def words_of(record):
    """The words of a record, up to a bare comma."""
    return re.split(rb"(?<!\\),", record, maxsplit=1)[0].decode("latin-1").split()


def number(words, at):
    try:
        return float(words[at])
    except (TypeError, ValueError, IndexError):
        return 0.0


def middle(low, high):
    return (low + high) / 2 if low < high and abs(low) < 1e9 and abs(high) < 1e9 else 60


def is_clicked(atoms):
    """Whether a message box is clicked: not where it is empty, or sends to a canvas, or to Pd itself anything but what turns the sound on."""
    messages = " ".join(atoms).split("\\;")
    sent = [message.split() for message in messages[1:]]
    return len(atoms) > 0 and not any(it and (it[0].startswith("pd-") or it[0] == "pd" and it[1:] != ["dsp", "1"]) for it in sent)


def touch_of(words):
    """What a hand does with a box, as the atoms of a message, or None."""
    if words[1] == "msg":
        return "bang" if is_clicked(words[4:]) else None
    if words[1] == "floatatom":
        return f"{middle(number(words, 5), number(words, 6)):g}" if len(words) < 10 or words[9] in ("-", "empty") else None
    if words[1] != "obj" or len(words) < 5 or words[4] not in RECEIVES:
        return None
    fields = words[5:]
    name = fields[RECEIVES[words[4]]] if RECEIVES[words[4]] < len(fields) else "empty"
    if name != "empty":
        return None
    if words[4] in CLICKED:
        return "bang"
    low, high, _ = TURNED[words[4]]
    return f"{middle(number(fields, low), number(fields, high)):g}" if low else "1"


def touched(text):
    """The text of a patch with a receive box for each touch, and the touches."""
    out, touches = [], []
    open_canvases = []

    def close():
        canvas = open_canvases.pop()
        added = canvas["boxes"]
        for place, atoms in canvas["touches"]:
            if (place, 0) not in canvas["fed"]:
                touches.append(atoms)
                out.append(f"#X obj 0 0 r hand-{len(touches)};\n#X connect {added} 0 {place} 0;\n".encode())
                added += 1

    for match in RECORD.finditer(text):
        words = words_of(match.group(1))
        if words[:2] == ["#N", "canvas"]:
            open_canvases.append({"boxes": 0, "touches": [], "fed": set()})
        elif words[:2] == ["#X", "restore"] and len(open_canvases) > 1:
            close()
            open_canvases[-1]["boxes"] += 1
        elif words[:2] == ["#X", "connect"] and open_canvases and len(words) == 6:
            open_canvases[-1]["fed"].add((int(words[4]), int(words[5])))
        elif len(words) > 1 and words[0] == "#X" and words[1] not in ("coords", "declare") and open_canvases:
            atoms = touch_of(words)
            if atoms:
                open_canvases[-1]["touches"].append((open_canvases[-1]["boxes"], atoms))
            open_canvases[-1]["boxes"] += 1
        out.append(match.group(0).strip() + b"\n")
    while open_canvases:
        close()
    return b"".join(out), touches


def recorded(text):
    """The text of a patch for Pd, whose dac~ boxes are heard by the patch hands-run.pd."""

    def instead(match):
        channels = match.group(2).split(b",")[0].split() or [b"1", b"2"]
        return match.group(1) + b"hands-dac~ " + b" ".join(channels) + b";"

    return re.sub(rb"(#X\s+obj\s+\S+\s+\S+\s+)dac~(?=[\s,;])((?:\\.|[^;\\])*);", instead, text)


def hands_dac():
    """An abstraction in the place of dac~, of four channels."""
    boxes = "".join(f"#X obj {50 * i} 10 inlet~;\n#X obj {50 * i} 40 throw~ hands-\\${i};\n" for i in range(1, 5))
    return "#N canvas 0 0 300 100 12;\n" + boxes + "".join(f"#X connect {2 * i} 0 {2 * i + 1} 0;\n" for i in range(4))


def hands_run(samples):
    """The patch that turns the sound of Pd on, records two channels, reads the script and writes the samples."""
    return f"""#N canvas 0 0 400 300 12;
#X obj 10 10 loadbang;
#X obj 10 40 t b b b;
#X msg 10 70 read hands-script.txt \\, bang;
#X obj 10 100 qlist;
#X msg 10 130 write -wave -bytes 4 hands.wav hands-left hands-right \\;;
#X obj 10 160 soundfiler;
#X msg 10 190 \\; pd quit;
#X msg 100 70 \\; pd dsp 1;
#X obj 200 70 catch~ hands-1;
#X obj 200 100 tabwrite~ hands-left;
#X obj 300 70 catch~ hands-2;
#X obj 300 100 tabwrite~ hands-right;
#X obj 200 160 table hands-left {samples};
#X obj 200 190 table hands-right {samples};
#X obj 10 115 r hands-end;
#X connect 0 0 1 0;
#X connect 1 0 2 0;
#X connect 1 1 9 0;
#X connect 1 1 11 0;
#X connect 1 2 7 0;
#X connect 2 0 3 0;
#X connect 4 0 5 0;
#X connect 5 0 6 0;
#X connect 8 0 9 0;
#X connect 10 0 11 0;
#X connect 14 0 4 0;
"""


def touch(patch, ours, theirs):
    text, touches = touched(patch.read_bytes())
    length = QUIET_MS + STEP_MS * len(touches) + REST_MS
    records = ["0 send hands-begin bang;"]
    lines = []
    for at, atoms in enumerate(touches):
        after = QUIET_MS if at == 0 else STEP_MS
        records.append(f"{after} send hand-{at + 1} {atoms};")
        lines.append(f"{after} hand-{at + 1} {atoms};")
    rest = REST_MS if touches else QUIET_MS + REST_MS
    records.append(f"{rest} end;")
    lines.append(f"{rest + 10} hands-end bang;")
    begin = b"#X obj 0 0 r hands-begin;\n#X obj 0 0 print hands-begin;\n"
    boxes = text_boxes(text)
    (ours / patch.name).write_bytes(text + begin + f"#X connect {boxes} 0 {boxes + 1} 0;\n".encode())
    (ours / "hands-script").write_text("\n".join(records) + "\n")
    (theirs / patch.name).write_bytes(text)
    for file in theirs.glob("*.pd"):
        file.write_bytes(recorded(file.read_bytes()))
    (theirs / "hands-dac~.pd").write_text(hands_dac())
    (theirs / "hands-run.pd").write_text(hands_run(int((length + 10) * RATE / 1000)))
    (theirs / "hands-script.txt").write_text("\n".join(lines) + "\n")
    print(f"{length:g}")


def text_boxes(text):
    """The number of boxes of the outermost canvas."""
    depth = boxes = 0
    for match in RECORD.finditer(text):
        words = words_of(match.group(1))
        if words[:2] == ["#N", "canvas"]:
            depth += 1
        elif words[:2] == ["#X", "restore"]:
            depth -= 1
            boxes += depth == 1
        elif len(words) > 1 and words[0] == "#X" and words[1] not in ("connect", "coords", "declare"):
            boxes += depth == 1
    return boxes


def our_samples(path):
    samples = array.array("h", path.read_bytes() if path.is_file() else b"")
    return [it / 32767 for it in samples[0::2]], [it / 32767 for it in samples[1::2]]


def their_samples(path):
    data = path.read_bytes() if path.is_file() else b""
    at = data.find(b"data")
    if at < 0:
        return [], []
    size = min(struct.unpack("<I", data[at + 4 : at + 8])[0], len(data) - at - 8)
    samples = array.array("f", data[at + 8 : at + 8 + size // 8 * 8])
    clipped = [min(max(it, -1.0), 1.0) for it in samples]
    return clipped[0::2], clipped[1::2]


def difference(ours, theirs, lag):
    """The greatest difference of two sounds, where ours comes so many samples later."""
    greatest = 0.0
    for mine, other in zip(ours, theirs):
        first = mine[lag:] if lag >= 0 else mine
        second = other if lag >= 0 else other[-lag:]
        greatest = max([greatest, *(abs(a - b) for a, b in zip(first, second))])
    return greatest


def look(ours, theirs):
    mine = our_samples(ours / "out.pcm")
    # The first touch comes before the block in which its time falls.
    quiet = int(QUIET_MS * RATE / 1000) // BLOCK * BLOCK
    by_itself = any(any(channel[:quiet]) for channel in mine)
    sounds = any(any(channel) for channel in mine)
    other = their_samples(theirs / "hands.wav")
    peak = max((abs(it) for channel in other for it in channel), default=0.0)
    is_alike = "-"
    if other[0]:
        # Two blocks either way, since what comes first at one time isn't the same; and a step of 16 bits, since theirs has more.
        best = min(difference(mine, other, lag * BLOCK) for lag in range(-2, 3))
        is_alike = "yes" if best <= peak / 100 + 1 / 32767 else f"no({best / peak if peak else 0:.3g})"
    theirs_sounds = "-" if not other[0] else "yes" if peak > 0.5 / 32767 else "no"
    print("yes" if by_itself else "no", "yes" if sounds else "no", theirs_sounds, is_alike)


if __name__ == "__main__":
    paths = [pathlib.Path(it) for it in sys.argv[2:]]
    {"touch": touch, "look": look}[sys.argv[1]](*paths)
