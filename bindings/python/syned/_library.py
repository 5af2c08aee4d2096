"""The calls of libsyned, with bytes for pointers."""
import ctypes
import os
from enum import Enum, IntEnum
from functools import lru_cache
from pathlib import Path
from typing import Optional, Tuple

from ._errors import NoLibrary

# Room for the answer of a usual edit. One with the new tree is about twice as long as the script, if that is long.
SPARE_ROOM = 1024
SENTENCE_ROOM = 512


class Status(IntEnum):
    """How a run ended: the exit statuses of `syned`.

    >>> Status(1)
    <Status.REFUSED: 1>
    """

    DONE = 0
    REFUSED = 1
    BAD_SCRIPT = 2
    FAILED = 3


class Dialect(Enum):
    """A form of scripts: that of the program `syned`, or the wide one, with kinds of its own, any size and any depth.

    >>> run(b"kinds call\\ntree A (call)\\nedit R A\\nfinish\\n", Dialect.WIDE)
    (<Status.DONE: 0>, b'text ""\\nchanged\\n')
    """

    SYNED = "syned"
    WIDE = "wide"


def _folder() -> Path:
    """The folder of the library: that of SYNED_LIB, else the package's own, if it was installed, else `bindings/out`."""
    here = Path(__file__).resolve()
    installed = here.with_name("libsyned.so").is_file()
    return Path(os.environ.get("SYNED_LIB") or (here.parent if installed else here.parents[2] / "out"))


@lru_cache(maxsize=None)
def _load(path: Path) -> ctypes.CDLL:
    if not path.is_file():
        raise NoLibrary(
            f"{path} is not there: `bash bindings/build.sh` makes it, and SYNED_LIB can name the folder of another"
        )
    try:
        library = ctypes.CDLL(str(path))
    except OSError as error:
        raise NoLibrary(f"{path} can't be loaded ({error}): `bash bindings/build.sh` makes it anew") from error
    # A `bytes` lends its own memory as a c_char_p, which is never null, also if it is empty.
    script_and_room = [ctypes.c_char_p, ctypes.c_size_t, ctypes.c_char_p, ctypes.c_size_t]
    for run_one in (library.syned_run, library.syned_run_wide):
        run_one.argtypes = script_and_room + [ctypes.POINTER(ctypes.c_size_t)]
        run_one.restype = ctypes.c_uint8
    for explain_one in (library.syned_explain, library.syned_explain_wide):
        explain_one.argtypes = script_and_room
        explain_one.restype = ctypes.c_size_t
    library.syned_version.argtypes = []
    library.syned_version.restype = ctypes.c_char_p
    return library


def _library() -> ctypes.CDLL:
    return _load(_folder() / "libsyned.so")


def library_version() -> str:
    """The version of the library that is loaded. That of the package is `__version__`.

    >>> from syned import __version__
    >>> library_version() == __version__
    True
    """
    return str(_library().syned_version().decode())


def _check(script: bytes) -> None:
    # None would be a null pointer, and a text has no bytes of its own.
    if not isinstance(script, bytes):
        raise TypeError(f"a script is bytes, not {type(script).__name__}")


def run(script: bytes, dialect: Dialect = Dialect.SYNED) -> Tuple[Status, bytes]:
    """Carries out a script: its status and its answer, as the program `syned` prints them.

    Several threads may call at a time.

    >>> status, answer = run(b'tree A (ARG_LIST COMMA",")\\nedit R A\\ndelete R/0\\nfinish\\n')
    >>> status
    <Status.DONE: 0>
    >>> answer
    b'text ""\\nchanged\\n'
    >>> run(b"")
    (<Status.BAD_SCRIPT: 2>, b'bad script line 1\\n')
    """
    _check(script)
    library = _library()
    call = library.syned_run if dialect == Dialect.SYNED else library.syned_run_wide
    length = ctypes.c_size_t(2 * len(script) + SPARE_ROOM)
    while True:
        room_length = length.value
        room = ctypes.create_string_buffer(room_length)
        status = call(script, len(script), room, room_length, ctypes.byref(length))
        if length.value <= room_length:
            return Status(status), memoryview(room)[: length.value].tobytes()


def explain(script: bytes, dialect: Dialect = Dialect.SYNED) -> Optional[str]:
    """Why a script has no edit: a sentence for people, which may change. None if it has one.

    >>> explain(b"tree A (LITERAL)")
    'no finish line'
    >>> print(explain(b"tree A (LITERAL)\\nedit R A\\nfinish"))
    None
    """
    _check(script)
    library = _library()
    call = library.syned_explain if dialect == Dialect.SYNED else library.syned_explain_wide
    length = SENTENCE_ROOM
    while True:
        room_length = length
        room = ctypes.create_string_buffer(room_length)
        length = call(script, len(script), room, room_length)
        if length <= room_length:
            return memoryview(room)[:length].tobytes().decode() or None
