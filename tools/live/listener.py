"""A player at work."""

import array
import fcntl
import os
import subprocess
import termios
from typing import Optional

from players import Player

BYTES_OF_A_FRAME = 4


class Listener:
    """What a player was given, what of that it has taken, and when it runs dry."""

    def __init__(self, player: Player, rate: int, errors: str) -> None:
        self.player = player
        self.name = os.path.basename(player.words[0])
        self.bytes_a_second = rate * BYTES_OF_A_FRAME
        self.errors = errors
        with open(errors, "wb") as file:
            # A session of its own: Ctrl-C is for the driver alone, which ends the player.
            self.process = subprocess.Popen(
                player.words,
                env={**os.environ, **player.variables},
                stdin=subprocess.PIPE,
                stdout=subprocess.DEVNULL,
                stderr=file,
                bufsize=0,
                start_new_session=True,
            )
        self.pipe = self.process.stdin.fileno()
        os.set_blocking(self.pipe, False)
        self.waiting = bytearray()
        self.written = 0
        self.dry_at = 0.0
        self.has_taken = False
        # The bytes that were given at a time, until they are taken.
        self.mark = 0
        self.mark_time = 0.0

    def give(self, samples: bytes, now: float) -> None:
        """Takes samples to play; what the pipe has no room for waits."""
        self.waiting += samples
        self.dry_at = max(self.dry_at, now) + len(samples) / self.bytes_a_second
        self.hand_on()

    def hand_on(self) -> None:
        try:
            count = os.write(self.pipe, self.waiting) if self.waiting else 0
        except BlockingIOError:
            count = 0
        except BrokenPipeError:
            # The player has ended, which is seen by `has_ended`.
            count = len(self.waiting)
        self.written += count
        del self.waiting[:count]

    def unread(self) -> int:
        """The bytes that the player hasn't taken yet."""
        count = array.array("i", [0])
        fcntl.ioctl(self.pipe, termios.FIONREAD, count)
        return count[0] + len(self.waiting)

    def taken(self, now: float) -> float:
        """The seconds of sound that the player has taken; of a greedy one those that it has played by the clock."""
        given = self.written + len(self.waiting)
        if self.player.is_greedy:
            return given / self.bytes_a_second - max(0.0, self.dry_at - now)
        return (given - self.unread()) / self.bytes_a_second

    def look(self, now: float) -> None:
        """Estimates anew when the player runs dry."""
        unread = self.unread()
        given = self.written + len(self.waiting)
        self.has_taken = self.has_taken or unread < given
        if given - unread >= self.mark:
            self.mark, self.mark_time = given, now
        if not self.has_taken:
            self.dry_at = now + unread / self.bytes_a_second
        elif now - self.mark_time > self.player.buffer / 4 and not self.player.is_greedy:
            # It leaves sound in the pipe for a while, so its own buffer is about full.
            self.dry_at = max(self.dry_at, now + unread / self.bytes_a_second + self.player.buffer / 2)

    def stands_still(self, now: float) -> float:
        """For how many seconds sound has lain before the player that it doesn't take."""
        return now - self.mark_time

    def has_ended(self) -> bool:
        return self.process.poll() is not None

    def finish(self, seconds: float) -> None:
        """Lets the player play what it has, for so many seconds at the most."""
        deadline = self.player.buffer + self.unread() / self.bytes_a_second + seconds
        os.set_blocking(self.pipe, True)
        try:
            self.process.stdin.write(self.waiting)
            self.process.stdin.close()
            self.process.wait(deadline)
        except (OSError, subprocess.TimeoutExpired):
            self.kill()

    def kill(self) -> None:
        self.process.kill()
        self.process.wait()

    def last_words(self) -> Optional[str]:
        """The last line that the player complained with."""
        with open(self.errors, "rb") as file:
            lines = file.read().decode("utf-8", "replace").split("\n")
        return next((line.strip() for line in reversed(lines) if line.strip()), None)
