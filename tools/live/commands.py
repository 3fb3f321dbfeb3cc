"""Which lines are commands of a script: the grammar of docs/MANUAL.md, as crates/pd_script reads it.

A line that would be no command ends a run with code 5, so each one is looked at before it is sent.
"""

import re
from typing import Callable, Dict, List

MOST_BYTES_OF_A_WORD = 255
# A record may have 65,536 bytes with its milliseconds and the white space before it.
MOST_BYTES_OF_A_COMMAND = 65_000
GREATEST_NUMBER_OF_A_BOX = 65_535

NUMERAL = re.compile(rb"-?([0-9]+(\.[0-9]*)?|\.[0-9]+)([eE][+-]?[0-9]+)?")
WHOLE = re.compile(rb"[0-9]+")
ARGUMENT = re.compile(rb"\$[0-9]")
PATH = re.compile(rb"/|(/[0-9]+)+")
# A backslash takes the byte behind it along.
PART = re.compile(rb"(?:\\.|[^\\;])+", re.DOTALL)
WORD = re.compile(rb",|(?:\\.|[^\\ \t\n\r,;])+", re.DOTALL)
ESCAPE = re.compile(rb"\\(.)", re.DOTALL)
LONE_BACKSLASH = re.compile(rb"(?:\\.|[^\\])*\\", re.DOTALL)

# What stands behind the verb of an edit: numbers of boxes and ports, numerals, and a text of any atoms.
NEW_BOX = "X Y TEXT"
WIRE = "BOX OUTLET BOX INLET"
FORMS = {
    b"obj": NEW_BOX,
    b"msg": NEW_BOX,
    b"text": NEW_BOX,
    b"floatatom": NEW_BOX,
    b"symbolatom": NEW_BOX,
    b"sub": NEW_BOX,
    b"connect": WIRE,
    b"disconnect": WIRE,
    b"delete": "BOX",
    b"move": "BOX X Y",
    b"retype": "BOX TEXT",
}


class Mistyped(Exception):
    """A line is no command, for the reason that it says."""


def commands_of(line: bytes) -> List[bytes]:
    """Returns the commands of a line, mostly one, with semicolons between them; or raises Mistyped."""
    if LONE_BACKSLASH.fullmatch(line):
        raise Mistyped("the backslash at the end takes nothing into a word")
    parts = [part.lstrip(b" \t\r\n") for part in PART.findall(line)]
    commands = [part for part in parts if words_of(part)]
    for command in commands:
        check(command)
    return commands


def words_of(command: bytes) -> List[bytes]:
    """Returns the words of a command without their escapes; a comma is one by itself."""
    return [ESCAPE.sub(rb"\1", word) for word in WORD.findall(command)]


def check(command: bytes) -> None:
    """Raises Mistyped where this is no command."""
    if len(command) > MOST_BYTES_OF_A_COMMAND:
        raise Mistyped("that is longer than a record may be")
    words = words_of(command)
    for word in words:
        if len(word) > MOST_BYTES_OF_A_WORD:
            raise Mistyped(f"a word has more than {MOST_BYTES_OF_A_WORD} bytes: {told(word[:20])}..")
    if NUMERAL.fullmatch(words[0]):
        raise Mistyped("what is typed has no time before it: it acts at once")
    if words[0] not in CHECKS:
        raise Mistyped(f"{told(words[0])} is none of send, show, edit, save, undo, redo and end")
    CHECKS[words[0]](words[1:])


def check_send(words: List[bytes]) -> None:
    if not words:
        raise Mistyped("send takes a name and the atoms of a message, as send freq 440")
    if not is_symbol(words[0]):
        raise Mistyped(f"{told(words[0])} is no name to send to")
    for word in words[1:]:
        if not is_symbol(word) and not NUMERAL.fullmatch(word):
            raise Mistyped(f"a message has no {told(word)} in it: numbers and symbols alone")


def check_show(words: List[bytes]) -> None:
    if len(words) != 1:
        raise Mistyped("show takes a path, as show / or show /2")
    check_path(words[0])


def check_save(words: List[bytes]) -> None:
    if len(words) != 1 or not is_document(words[0]):
        raise Mistyped("save takes a document: save . for the patch, or the name of an abstraction")


def check_edit(words: List[bytes]) -> None:
    if len(words) < 3:
        raise Mistyped("edit takes a document, a path and a change, as edit . / connect 3 0 0 0")
    document, path, verb = words[:3]
    if not is_document(document):
        raise Mistyped(f"{told(document)} is no document: . is the patch, another one is the name of an abstraction")
    check_path(path)
    if verb not in FORMS:
        raise Mistyped(f"{told(verb)} is none of {', '.join(map(told, FORMS))}")
    check_form(verb, words[3:])


def check_form(verb: bytes, words: List[bytes]) -> None:
    form = FORMS[verb].split()
    has_text = form[-1] == "TEXT"
    if has_text:
        form.pop()
    if len(words) < len(form) or (len(words) > len(form) and not has_text):
        raise Mistyped(f"{told(verb)} takes {FORMS[verb]}")
    for part, word in zip(form, words):
        is_right = NUMERAL.fullmatch(word) if part in "XY" else is_whole(word)
        if not is_right:
            raise Mistyped(f"{told(verb)} takes {FORMS[verb]}, and {told(word)} is no {part}")


def check_alone(words: List[bytes]) -> None:
    if words:
        raise Mistyped(f"nothing stands behind undo, redo and end: {told(words[0])} is too much")


def check_path(word: bytes) -> None:
    if not PATH.fullmatch(word):
        raise Mistyped(f"{told(word)} is no path, as / or /2 or /2/0")


def is_document(word: bytes) -> bool:
    return word == b"." or is_symbol(word)


def is_symbol(word: bytes) -> bool:
    return word not in (b",", b";") and not NUMERAL.fullmatch(word) and not ARGUMENT.search(word)


def is_whole(word: bytes) -> bool:
    return bool(WHOLE.fullmatch(word)) and int(word) <= GREATEST_NUMBER_OF_A_BOX


def told(word: bytes) -> str:
    return word.decode("utf-8", "replace")


CHECKS: Dict[bytes, Callable[[List[bytes]], None]] = {
    b"send": check_send,
    b"show": check_show,
    b"edit": check_edit,
    b"save": check_save,
    b"undo": check_alone,
    b"redo": check_alone,
    b"end": check_alone,
}
