"""Plays a patch while it is heard, by what is typed: the driver of ./play --live, which looks at the words and builds the program before.

A typed line is looked at (commands.py), stamped with the logical time that was sent so far, sent and kept (feed.py, take.py). The samples come by a
pipe in the place of out.pcm and go on to the player (listener.py), which paces all (session.py).
"""

import argparse
import os
import shlex
import signal
import sys
from typing import List

from feed import STEP
from listener import Listener
from players import player_of
from session import COULD_NOT_HEAR, Session
from take import SCRIPT, Take

# The exit codes of ./play where nothing can be kept, and where the program can't be started, which it tells itself.
COULD_NOT_KEEP = 11
COULD_NOT_START = 126


class Stopped(Exception):
    """A signal asked for the end."""

    def __init__(self, number: int) -> None:
        super().__init__(number)
        self.code = 128 + number


def stop(number: int, _frame: object) -> None:
    # A further signal doesn't disturb the end that has begun.
    for it in (signal.SIGINT, signal.SIGTERM, signal.SIGHUP):
        signal.signal(it, signal.SIG_IGN)
    raise Stopped(number)


def say(text: str) -> None:
    try:
        sys.stderr.write(f"play: {text}\n")
        sys.stderr.flush()
    except OSError:
        pass


def read_words() -> argparse.Namespace:
    parser = argparse.ArgumentParser(prog="live", description=__doc__)
    parser.add_argument("--play", required=True, help="how ./play was called, for what is said at the end")
    parser.add_argument("--program", required=True)
    parser.add_argument("--player", required=True)
    parser.add_argument("--folder", required=True, help="where the patch is")
    parser.add_argument("--patch", required=True, help="its file name")
    parser.add_argument("--home", required=True, help="where what is kept and saved goes")
    parser.add_argument("--room", required=True, help="a folder that is removed after the run")
    parser.add_argument("--rate", required=True, type=int)
    parser.add_argument("--latency", required=True, type=int, help="in milliseconds")
    parser.add_argument("--send", action="append", default=[], help="a message to be sent at the start")
    return parser.parse_args()


def main() -> int:
    for number in (signal.SIGINT, signal.SIGTERM, signal.SIGHUP):
        signal.signal(number, stop)
    words = read_words()
    try:
        return play(words)
    except Stopped as stopped:
        # The session wasn't there yet.
        return stopped.code


def tidy(path: str) -> str:
    """Returns a path as one would write it; no word begins with a dash."""
    path = os.path.normpath(path)
    return f"./{path}" if path.startswith("-") else path


def play(words: argparse.Namespace) -> int:
    """Plays a patch as the words say, and returns the exit code."""
    home = tidy(words.home)
    work = os.path.join(words.room, "live")
    try:
        os.mkdir(work)
        take = Take(words.folder, words.patch, home, work, say)
    except OSError as error:
        say(f"nothing can be kept in {home}: {error.strerror}")
        return COULD_NOT_KEEP
    try:
        session = begin(words, take)
    except OSError as error:
        take.drop()
        if error.filename != words.player:
            return COULD_NOT_START
        say(f"{words.player} can't be started: {error.strerror}")
        return COULD_NOT_HEAR
    code = run(session, words.send)
    if not session.has_begun():
        take.drop()
        return code
    say_what_is_kept(session, words)
    return code or (COULD_NOT_HEAR if take.has_failed else 0)


def begin(words: argparse.Namespace, take: Take) -> Session:
    """Starts the player and the program. Half of the latency lies in the player, the other half before it."""
    half = words.latency / 2000
    player = player_of(words.player, words.rate, half)
    listener = Listener(player, words.rate, os.path.join(words.room, "player"))
    program = [words.program, "--rate", str(words.rate), words.patch]
    step = STEP / 1000
    session = Session(program, take, listener, words.rate, max(half - step, player.gulp + step), say)
    say(f"{listener.name} plays {words.patch}: type send, show, edit, save, undo or redo; Ctrl-D ends it")
    return session


def run(session: Session, messages: List[str]) -> int:
    """Runs a session to its end, however that comes."""
    try:
        for message in messages:
            session.type(b"send " + os.fsencode(message))
        code = session.run()
    except Stopped as stopped:
        session.stop()
        return stopped.code
    if code == 5:
        typed = session.feed.last_typed.decode("utf-8", "replace")
        say(f"code 5: what was typed last is no command, or brings the 65,537th name: {typed[:200]}")
    return code


def say_what_is_kept(session: Session, words: argparse.Namespace) -> None:
    seconds = session.received / session.listener.bytes_a_second
    folder = session.take.folder
    again = [words.play, "--listen", "--keep", os.path.join(folder, "again"), "--script", os.path.join(folder, SCRIPT)]
    if words.rate != 44100:
        again += ["--rate", str(words.rate)]
    again.append(os.path.join(folder, words.patch))
    say(f"{seconds:.3f} seconds were played. They are kept in {folder}, and are heard again by")
    say(f"  {shlex.join(again)}")


if __name__ == "__main__":
    sys.exit(main())
