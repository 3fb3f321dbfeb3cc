"""What is kept of a run: its script, the files of the patch as they were when it began, and what it saves."""

import os
import shutil
from typing import BinaryIO, Callable, Dict, List, Optional

SCRIPT = "script"


class Take:
    """A new folder live-1, live-2 and so on: with it what was heard can be played again, whatever is saved meanwhile.

    The program works in a folder of its own, with copies of the same files. What it saves there is brought to the folder `home`.
    """

    def __init__(self, source: str, patch: str, home: str, work: str, say: Callable[[str], None]) -> None:
        self.home = home
        self.work = work
        self.say = say
        self.has_failed = False
        # The script's file, until it can't be written, and its whole records' bytes.
        self.script: Optional[BinaryIO] = None
        self.length = 0
        self.folder = new_folder(home)
        try:
            for name in patch_files(source, patch):
                shutil.copyfile(os.path.join(source, name), os.path.join(self.folder, name))
                shutil.copyfile(os.path.join(source, name), os.path.join(work, name))
            self.contents = contents_of(work)
            self.script = open(os.path.join(self.folder, SCRIPT), "wb", buffering=0)
        except OSError:
            shutil.rmtree(self.folder, ignore_errors=True)
            raise

    def keep(self, milliseconds: int, command: bytes) -> None:
        """Adds a record to the script. Where that fails it is said, and no more is kept."""
        if self.script is None:
            return
        record = b"%d %s;\n" % (milliseconds, command)
        try:
            write_all(self.script, record)
            self.length += len(record)
        except OSError as error:
            self.fail(f"the script can't be kept on in {self.folder}: {error.strerror}")
            self.cut_back(self.script)
            self.script = None

    def cut_back(self, script: BinaryIO) -> None:
        """Takes a part of a record off the script, where that can be done."""
        try:
            script.truncate(self.length)
        except OSError:
            pass

    def bring_home(self) -> None:
        """Writes the files that the program has saved since the last time to the patch's folder."""
        now = contents_of(self.work)
        for name, content in now.items():
            if self.contents.get(name) != content:
                try:
                    with open(os.path.join(self.home, name), "wb") as file:
                        file.write(content)
                except OSError as error:
                    self.fail(f"{name} can't be saved in {self.home}: {error.strerror}")
        self.contents = now

    def drop(self) -> None:
        """Removes the folder of a run that never began."""
        shutil.rmtree(self.folder, ignore_errors=True)

    def fail(self, why: str) -> None:
        self.has_failed = True
        self.say(why)


def new_folder(beside: str) -> str:
    """Makes the first of live-1, live-2 and so on that isn't there, and returns its path."""
    number = 1
    while True:
        path = os.path.normpath(os.path.join(beside, f"live-{number}"))
        try:
            os.mkdir(path)
            return path
        except FileExistsError:
            number += 1


def patch_files(folder: str, patch: str) -> List[str]:
    names = [name for name in os.listdir(folder) if name.endswith(".pd") and name != patch]
    return [patch] + [name for name in sorted(names) if os.path.isfile(os.path.join(folder, name))]


def contents_of(folder: str) -> Dict[str, bytes]:
    """The files of a folder, but for one that the program is just writing beside a patch."""
    contents = {}
    for entry in os.scandir(folder):
        if entry.is_file() and not entry.name.endswith(".pdplay-save"):
            with open(entry.path, "rb") as file:
                contents[entry.name] = file.read()
    return contents


def write_all(file: BinaryIO, content: bytes) -> None:
    """Writes to a file without a buffer, which may take less at a time."""
    while content:
        content = content[file.write(content) :]
