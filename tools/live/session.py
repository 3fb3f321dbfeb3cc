"""A patch that plays while it is heard, by what is typed."""

import os
import select
import subprocess
import time
from typing import Callable, List, Optional

from commands import Mistyped, commands_of
from feed import MOST_TIME, STEP, Feed
from listener import Listener
from take import Take

Say = Callable[[str], None]

FRAMES_OF_A_BLOCK = 64
BYTES_OF_A_BLOCK = 4 * FRAMES_OF_A_BLOCK
# How often is looked whether the player has taken something, in seconds: no call waits for that.
LOOK = 0.004
# How long the player may take to end once it has played all, in seconds.
PATIENCE = 5.0
# The least time between two complaints of one sort, in seconds; the least silence that is worth one, and how long a player may stand still.
PAUSE = 5.0
WORTH_TELLING = 0.01
STILL = 2.0

COULD_NOT_HEAR = 1
COULD_NOT_PRINT = 7


class Session:
    """One program, one player and one terminal, served in turn.

    The player paces all: logical time is sent only until the sound of it lies so many seconds, `ahead`, before what the player has taken. A typed line
    acts at the time that was sent so far, and is heard that much later, and later by what the player keeps itself. No other clock counts, so a sound
    card may run a little faster or slower than the machine. Where a player takes all at once, the machine's clock stands for what it has played.
    """

    def __init__(self, program: List[str], take: Take, listener: Listener, rate: int, ahead: float, say: Say) -> None:
        self.say = say
        self.take = take
        self.listener = listener
        self.rate = rate
        self.ahead = ahead
        # It is opened before the program makes it, which waits for that.
        os.mkfifo(os.path.join(take.work, "out.pcm"))
        self.samples: Optional[int] = os.open(os.path.join(take.work, "out.pcm"), os.O_RDONLY | os.O_NONBLOCK)
        self.program = subprocess.Popen(
            program, cwd=take.work, stdin=subprocess.PIPE, stdout=subprocess.PIPE, bufsize=0, start_new_session=True
        )
        self.script: Optional[int] = self.program.stdin.fileno()
        self.lines: Optional[int] = self.program.stdout.fileno()
        os.set_blocking(self.script, False)
        self.terminal: Optional[int] = 0
        self.feed = Feed(self.send, take)
        self.slowness = Slowness(say)
        self.next_telling = 0.0
        self.unsent = bytearray()
        self.typed = bytearray()
        self.printed = bytearray()
        self.received = 0
        self.code = 0

    def run(self) -> int:
        """Plays until the program ends, and returns its exit code, or what else went wrong."""
        while self.lines is not None or self.program.poll() is None:
            now = time.monotonic()
            self.ask(now)
            self.serve()
            self.watch(time.monotonic())
        self.take_samples()
        self.take.bring_home()
        self.listener.finish(PATIENCE)
        self.slowness.sum_up()
        status = self.program.returncode
        return self.code or (status if status >= 0 else 128 - status)

    def ask(self, now: float) -> None:
        """Lets logical time go on as far as the player needs it."""
        while not self.feed.has_ended and self.feed.time / 1000 < self.listener.taken(now) + self.ahead:
            if self.feed.time + STEP > MOST_TIME:
                self.say("24 hours are over, which is the most that a script lasts")
                self.feed.type(b"end")
            else:
                self.feed.step()

    def serve(self) -> None:
        """Serves all that have something to read or room to write, or nobody after a short while."""
        sources = [source for source in (self.terminal, self.lines, self.samples) if source is not None]
        sinks = [self.script] if self.unsent and self.script is not None else []
        readable, writable, _ = select.select(sources, sinks, [], LOOK)
        if self.lines in readable:
            self.print_lines()
        if self.samples in readable:
            self.take_samples()
        if self.terminal in readable:
            self.read_terminal()
        if writable:
            self.send(b"")

    def send(self, record: bytes) -> None:
        """Sends a record to the program; what its pipe has no room for waits."""
        self.unsent += record
        if self.script is None:
            return
        try:
            del self.unsent[: os.write(self.script, self.unsent)]
        except BlockingIOError:
            pass
        except BrokenPipeError:
            # The program has ended, which its lines show.
            self.script = None

    def read_terminal(self) -> None:
        """Takes what was typed. The end of it ends the run."""
        try:
            text = os.read(0, 65536)
        except OSError:
            text = b""
        self.typed += text
        *lines, rest = self.typed.split(b"\n")
        self.typed = bytearray(rest)
        for line in lines:
            self.type(bytes(line))
        if not text:
            self.terminal = None
            self.type(bytes(self.typed))
            self.end()

    def type(self, line: bytes) -> None:
        """Sends the commands of a line, or says why it is none."""
        try:
            for command in commands_of(line):
                if not self.feed.has_ended:
                    self.feed.type(command)
        except Mistyped as mistake:
            self.say(f"not sent: {mistake}")

    def end(self) -> None:
        if not self.feed.has_ended:
            self.feed.type(b"end")

    def print_lines(self) -> None:
        """Prints what the program printed, whole lines, but for the answers to the records that only let time go on."""
        text = os.read(self.lines, 65536)
        if not text:
            self.lines = None
        self.printed += text
        *lines, rest = self.printed.split(b"\n")
        self.printed = bytearray(rest)
        told = b"".join(line + b"\n" for line in lines if self.feed.hears(bytes(line)))
        try:
            while told and self.code != COULD_NOT_PRINT:
                told = told[os.write(1, told) :]
        except OSError:
            self.fail(COULD_NOT_PRINT)

    def take_samples(self) -> None:
        """Hands the samples that have come to the player."""
        try:
            samples = os.read(self.samples, 1 << 20) if self.samples is not None else b""
        except BlockingIOError:
            return
        if not samples:
            self.samples = None
        elif self.code == 0:
            self.received += len(samples)
            self.listener.give(samples, time.monotonic())

    def watch(self, now: float) -> None:
        """Looks after the player: what waits for it, whether it has ended, and whether it runs dry for want of samples."""
        if self.code != 0:
            return
        self.listener.hand_on()
        if self.listener.has_ended():
            self.say(f"{self.listener.name} has ended: {self.listener.last_words() or 'it said nothing'}")
            self.fail(COULD_NOT_HEAR)
            return
        self.listener.look(now)
        if self.listener.stands_still(now) > STILL and now >= self.next_telling:
            self.say(f"{self.listener.name} takes no sound, for {self.listener.stands_still(now):.0f} seconds now")
            self.next_telling = now + PAUSE
        blocks = self.feed.time * self.rate // (1000 * FRAMES_OF_A_BLOCK)
        self.slowness.look(now, self.listener.dry_at, self.received < blocks * BYTES_OF_A_BLOCK)

    def fail(self, code: int) -> None:
        """Ends the run for another cause than the program's."""
        self.code = code
        self.end()

    def stop(self) -> None:
        """Ends the run at once. The script that is kept has its end."""
        self.end()
        self.listener.kill()
        if self.program.poll() is None:
            self.program.terminate()
            self.program.wait()
        self.take.bring_home()
        self.slowness.sum_up()

    def has_begun(self) -> bool:
        """Whether something was heard: the player took samples."""
        return self.listener.has_taken


class Slowness:
    """How long the player had nothing to play because the program still worked."""

    def __init__(self, say: Say) -> None:
        self.say = say
        self.silence = 0.0
        self.told = 0.0
        self.looked = 0.0
        self.next_telling = 0.0

    def look(self, now: float, dry_at: float, is_owed: bool) -> None:
        if is_owed and now > dry_at:
            self.silence += now - max(self.looked, dry_at)
        self.looked = now
        if self.silence - self.told >= WORTH_TELLING and now >= self.next_telling:
            self.say(f"the machine is too slow for this patch: {1000 * self.silence:.0f} ms of silence so far, where the sound came late")
            self.told = self.silence
            self.next_telling = now + PAUSE

    def sum_up(self) -> None:
        if self.silence > self.told:
            self.say(f"the machine was too slow for this patch: {1000 * self.silence:.0f} ms of silence in all; played offline there are none")
