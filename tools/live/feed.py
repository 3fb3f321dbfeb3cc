"""The script as it is sent to the program while it plays, and which of its answers are printed."""

from collections import deque
from typing import Callable, Deque, Optional

from commands import words_of
from take import Take

# Logical time is sent in steps of so many milliseconds: whole ones, so that their sums are exact.
STEP = 5
# The longest time of a script is 24 hours.
MOST_TIME = 86_400_000

# A record that changes nothing in any patch: a box of this number is nowhere, since a patch has 16,384 boxes at the most.
NOTHING = b"show /65535"
ANSWER_OF_NOTHING = b"error: show: no canvas"


class Feed:
    """Sends records and keeps those that matter.

    Between typed lines logical time runs on by records that change nothing. These aren't kept: the milliseconds of a kept record count from the last
    one that was kept, so that the script comes to the same samples.
    """

    def __init__(self, send: Callable[[bytes], None], take: Take) -> None:
        self.send = send
        self.take = take
        # The milliseconds that were sent, those of them up to the last record that was kept, and the records that were sent.
        self.time = 0
        self.kept_time = 0
        self.count = 0
        self.last_typed = b""
        self.has_ended = False
        # Of the records with a last line of their own, those whose line hasn't come: each one's first word.
        self.awaited: Deque[bytes] = deque()
        # The records before a save whose lines haven't come, where a save was typed.
        self.before_save: Optional[int] = None

    def step(self) -> None:
        """Lets logical time go on by a step."""
        self.time += STEP
        self.put(STEP, NOTHING)
        self.awaited.append(b"step")

    def type(self, command: bytes) -> None:
        """Sends a command, which acts at the time that was sent so far."""
        self.take.keep(self.time - self.kept_time, command)
        self.kept_time = self.time
        self.last_typed = command
        self.put(0, command)
        word = words_of(command)[0]
        if word == b"show":
            self.awaited.append(word)
        elif word == b"save":
            self.before_save = len(self.awaited)
        self.has_ended = word == b"end"

    def put(self, milliseconds: int, command: bytes) -> None:
        self.count += 1
        self.send(b"%d %s;\n" % (milliseconds, command))

    def hears(self, line: bytes) -> bool:
        """Takes a line that the program printed, and returns whether it is for the user."""
        if not self.awaited or not self.is_last_line(line):
            return True
        word = self.awaited.popleft()
        self.pass_save()
        return word == b"show"

    def is_last_line(self, line: bytes) -> bool:
        """Whether a line is the last one of the first record that waits for one."""
        return line == ANSWER_OF_NOTHING or (self.awaited[0] == b"show" and line.startswith(b"stuck "))

    def pass_save(self) -> None:
        """Brings home what was saved, once a record behind the save has been carried out."""
        if self.before_save is None:
            return
        if self.before_save == 0:
            self.before_save = None
            self.take.bring_home()
        else:
            self.before_save -= 1
