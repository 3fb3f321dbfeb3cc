"""The programs that play sound, each with how it is called so that little sound waits in it."""

import os
import subprocess
from typing import Dict, List, NamedTuple


class Player(NamedTuple):
    """How a program is called that plays the samples of its standard input."""

    words: List[str]
    # Variables for its environment.
    variables: Dict[str, str]
    # How many seconds of sound it keeps by itself.
    buffer: float
    # How many seconds it takes at once and can't go on without, where it doesn't wait for them.
    gulp: float
    # Whether it takes all that it is given at once, so that a clock has to hold it back.
    is_greedy: bool


# It takes 2,048 frames at 44,100 a second, and 4,096 at twice that.
GULP_OF_FFPLAY = 0.047


def player_of(path: str, rate: int, buffer: float) -> Player:
    """Returns how the player at a path is called, to keep so many seconds of sound where it can be told."""
    name = os.path.basename(path)
    if name == "aplay":
        return Player([path, *words_of_aplay(rate, buffer)], {}, buffer, 0, False)
    if name == "play":
        # It has no word for how much a sound server is to keep.
        return Player([path, *words_of_sox(rate, buffer)], {"PULSE_LATENCY_MSEC": str(round(1000 * buffer))}, buffer, 0, False)
    return Player([path, *words_of_ffplay(rate, path)], {}, buffer, GULP_OF_FFPLAY, True)


def words_of_aplay(rate: int, buffer: float) -> List[str]:
    # Four periods wait in the sound card, and a fifth one in its own hands.
    period = round(buffer * 1_000_000 / 5)
    return ["-q", f"--buffer-time={4 * period}", f"--period-time={period}", "-t", "raw", "-f", "S16_LE", "-r", str(rate), "-c", "2", "-"]


def words_of_sox(rate: int, buffer: float) -> List[str]:
    # The sound card gets room for twice as many frames as its buffer has bytes, and it has two such buffers itself.
    size = max(64, round(buffer * rate / 2.5))
    return ["-q", "--buffer", str(size), "-t", "raw", "-r", str(rate), "-e", "signed", "-b", "16", "-c", "2", "-"]


def words_of_ffplay(rate: int, path: str) -> List[str]:
    quick = "-nodisp -autoexit -loglevel error -fflags nobuffer -flags low_delay -probesize 32 -analyzeduration 0"
    return [*quick.split(), "-f", "s16le", "-ar", str(rate), *channels_of_ffplay(path), "-i", "-"]


def channels_of_ffplay(path: str) -> List[str]:
    """Returns the words for two channels, which are others from its version 5.1 on."""
    told = subprocess.run(
        [path, "-hide_banner", "-h", "demuxer=s16le"],
        stdin=subprocess.DEVNULL,
        stdout=subprocess.PIPE,
        stderr=subprocess.STDOUT,
        check=False,
    )
    return ["-ch_layout", "stereo"] if b"ch_layout" in told.stdout else ["-channels", "2"]
