"""What a script can end with if it has no edit."""
from enum import Enum
from typing import Tuple


class Refusal(Enum):
    """Why a call was refused. docs/SCRIPTS.md says which line gets which, and when.

    >>> Refusal("Intersecting")
    <Refusal.INTERSECTING: 'Intersecting'>
    """

    FOREIGN = "Foreign"
    BAD_RANGE = "BadRange"
    DELETES_ROOT = "DeletesRoot"
    ROOT_REPLACEMENT = "RootReplacement"
    NOT_A_CHILD = "NotAChild"
    NOT_YOUNGER = "NotYounger"
    OTHER_SHAPE = "OtherShape"
    INTERSECTING = "Intersecting"
    MISSING_MAPPING = "MissingMapping"
    NOT_EACH_ONCE = "NotEachOnce"
    OWNER_TOO_EARLY = "OwnerTooEarly"
    GAP_OUT_OF_ORDER = "GapOutOfOrder"
    TOKEN_TOO_EARLY = "TokenTooEarly"
    TOO_LONG = "TooLong"


class SynedError(Exception):
    """What all errors of this package are.

    >>> issubclass(BadScript, SynedError)
    True
    """


class NoLibrary(SynedError):
    """libsyned.so isn't there, or can't be loaded. The message says how to make it.

    >>> import os
    >>> from unittest.mock import patch
    >>> from syned import run
    >>> with patch.dict(os.environ, SYNED_LIB="nowhere"):
    ...     run(b"")
    Traceback (most recent call last):
        ...
    syned._errors.NoLibrary: nowhere/libsyned.so is not there: `bash bindings/build.sh` makes it, ...
    """


class Refused(SynedError):
    """A call of the script was refused.

    `refusal` says why, `changes` are the numbers of the two changes that it is about (empty for a refusal without
    numbers), `lines` the numbers of the lines that it is about, counted from 1, and `sentence` says it for people.

    >>> from syned import carry_out
    >>> try:
    ...     carry_out(b'tree A (ARG_LIST)\\nedit R A\\ndelete R\\nfinish\\n')
    ... except Refused as error:
    ...     print(error.refusal, error.changes, error.lines, error)
    Refusal.DELETES_ROOT () (3,) refused DeletesRoot: the root of the edited tree cannot be deleted; ...: line 3
    """

    def __init__(self, refusal: Refusal, changes: Tuple[int, ...], lines: Tuple[int, ...], sentence: str) -> None:
        super().__init__(refusal, changes, lines, sentence)
        self.refusal = refusal
        self.changes = changes
        self.lines = lines
        self.sentence = sentence

    def __str__(self) -> str:
        return self.sentence


class BadScript(SynedError):
    """A line of the script is bad: its number, counted from 1, and a sentence for people.

    The number is 0 for a script that is too long, or no UTF-8.

    >>> from syned import carry_out
    >>> try:
    ...     carry_out(b"tree A (LITERAL)\\n")
    ... except BadScript as error:
    ...     print(error.line, error)
    2 no finish line
    """

    def __init__(self, line: int, sentence: str) -> None:
        super().__init__(line, sentence)
        self.line = line
        self.sentence = sentence

    def __str__(self) -> str:
        return self.sentence


class Failed(SynedError):
    """Memory ran out. Nothing else is wrong with the script.

    >>> raise Failed("memory ran out")
    Traceback (most recent call last):
        ...
    syned._errors.Failed: memory ran out
    """
