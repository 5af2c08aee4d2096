"""The answer to a script."""
import re
from dataclasses import dataclass, field
from typing import AnyStr, Dict, Iterable, Iterator, List, NamedTuple, Optional, Tuple

from ._errors import BadScript, Failed, Refusal, Refused
from ._library import Dialect, Status, explain, run
from ._tree import Node, Range, read_expression, unescaped

# The way to an element of the new tree: its child numbers, from the root. It is empty for the root.
ElementPath = Tuple[int, ...]


class TextEdit(NamedTuple):
    """An edit of the old text: what stands from `start` to `end`, in bytes of UTF-8, becomes `text`.

    >>> start, end, text = TextEdit(1, 2, "x")
    >>> start, end, text
    (1, 2, 'x')
    """

    start: int
    end: int
    text: str


def _in_order(edits: Iterable[TextEdit], length: int) -> Iterator[TextEdit]:
    """The edits, unless one can't be one of a text of so many bytes."""
    reached = 0
    for edit in edits:
        if not reached <= edit.start <= edit.end <= length:
            raise ValueError(f"{edit} overlaps the edit before it, or is not in the text")
        reached = edit.end
        yield edit


def in_characters(edits: Iterable[TextEdit], source: str) -> Tuple[Tuple[int, int, str], ...]:
    """The start, the end and the text of each edit of a source, in characters where `TextEdit` has bytes.

    A ValueError if one overlaps the one before it, is not in the source, or begins or ends within a character.

    >>> in_characters([TextEdit(0, 2, "e"), TextEdit(3, 3, "!")], "éa")
    ((0, 1, 'e'), (2, 2, '!'))
    """
    given = source.encode()
    found: List[Tuple[int, int, str]] = []
    byte = character = 0
    for start, end, text in _in_order(edits, len(given)):
        first = character + len(given[byte:start].decode())
        byte, character = end, first + len(given[start:end].decode())
        found.append((first, character, text))
    return tuple(found)


def apply_edits(edits: Iterable[TextEdit], source: AnyStr) -> AnyStr:
    """The new text of a source that is a text or bytes. A ValueError as for `in_characters`.

    >>> edits = [TextEdit(0, 2, "e"), TextEdit(3, 3, "!")]
    >>> apply_edits(edits, "éa"), apply_edits(edits, "éa".encode())
    ('ea!', b'ea!')
    """
    if isinstance(source, str):
        return _applied(in_characters(edits, source), source)
    return _applied([(start, end, text.encode()) for start, end, text in _in_order(edits, len(source))], source)


def _applied(edits: Iterable[Tuple[int, int, AnyStr]], source: AnyStr) -> AnyStr:
    parts: List[AnyStr] = []
    copied = 0
    for start, end, text in edits:
        parts += [source[copied:start], text]
        copied = end
    parts.append(source[copied:])
    return source[:0].join(parts)


@dataclass(frozen=True)
class Edit:
    """What an edit has made.

    `text` is the text of the new tree. `changed` are the paths of the topmost elements that a change put in. `notes`
    has the paths of the elements of each note, by its word; an element that is gone has none. A path is a tuple of
    child numbers, empty for the root.

    `edits` are the edits of the old text, in order. `ranges` has where the element of each of these paths starts and
    ends in `text`, in bytes of UTF-8. `tree` is the new tree. An answer has these three if its script asks for them;
    whether two edits are equal, the others say.

    >>> Edit.parse('text "a\\\\tb"\\nchanged . 3/0\\nnote old 1/2\\nnote gone\\n')
    Edit(text='a\\tb', changed=((), (3, 0)), notes={'old': ((1, 2),), 'gone': ()})
    """

    text: str
    changed: Tuple[ElementPath, ...]
    notes: Dict[str, Tuple[ElementPath, ...]]
    edits: Tuple[TextEdit, ...] = field(default=(), repr=False, compare=False)
    ranges: Dict[ElementPath, Range] = field(default_factory=dict, repr=False, compare=False)
    tree: Optional[Node] = field(default=None, repr=False, compare=False)

    @staticmethod
    def parse(answer: str) -> "Edit":
        """The edit that an answer of status 0 describes. A ValueError if no answer is like this.

        >>> edit = Edit.parse('text "ab"\\nchanged 0@0..1\\nedit 0 0 "a"\\ntree (NAME IDENT"a" IDENT"b")\\n')
        >>> edit.edits, edit.ranges, edit.tree
        ((TextEdit(start=0, end=0, text='a'),), {(0,): (0, 1)}, <Node NAME of 2 bytes>)
        """
        found = _ANSWER.fullmatch(answer)
        if found is None:
            raise ValueError(f"{answer[:100]!r} begins no answer that this package knows")
        ranges: Dict[ElementPath, Range] = {}
        notes = (note.split(" ") for note in found["notes"].split("\n")[:-1])
        return Edit(
            text=unescaped(found["text"]),
            changed=_paths(found["changed"].split(" ")[1:], ranges),
            notes={word: _paths(fields, ranges) for _, word, *fields in notes},
            edits=tuple(_text_edit(line) for line in found["edits"].split("\n")[:-1]),
            ranges=ranges,
            tree=read_expression(found["tree"]) if found["tree"] is not None else None,
        )


# Only newlines end a line here: other characters that break lines are as they were in a text.
_ANSWER = re.compile(
    r'text "(?P<text>[^\n]*)"\nchanged(?P<changed>(?: [^\n]*)?)\n(?P<notes>(?:note \w+(?: [^\n]*)?\n)*)'
    r'(?P<edits>(?:edit [^\n]*\n)*)(?:tree (?P<tree>[^\n]*)\n)?',
    re.ASCII,
)
_PLACE = re.compile(r"(?:\.|(\d+(?:/\d+)*))(?:@(\d+)\.\.(\d+))?", re.ASCII)
_EDIT = re.compile(r'edit (\d+) (\d+) "(.*)"', re.ASCII | re.DOTALL)


def _paths(fields: Iterable[str], ranges: Dict[ElementPath, Range]) -> Tuple[ElementPath, ...]:
    """The paths of these fields. Where a field has a range, that is put into the ranges."""
    found: List[ElementPath] = []
    for place in fields:
        read = _PLACE.fullmatch(place)
        if read is None:
            raise ValueError(f"{place!r} is no path")
        path = tuple(map(int, read[1].split("/"))) if read[1] else ()
        if read[2]:
            ranges[path] = int(read[2]), int(read[3])
        found.append(path)
    return tuple(found)


def _text_edit(line: str) -> TextEdit:
    read = _EDIT.fullmatch(line)
    if read is None:
        raise ValueError(f"{line!r} is no edit")
    return TextEdit(int(read[1]), int(read[2]), unescaped(read[3]))


def carry_out(script: bytes, dialect: Dialect = Dialect.SYNED) -> Edit:
    """Carries out a script that is written already. `Script.finish` does it with one that it wrote.

    Raises `Refused`, `BadScript` or `Failed` if there is no edit.

    >>> carry_out(b'tree A (ARG_LIST COMMA"," COMMA",")\\nedit R A\\ndelete R/0\\nfinish\\n')
    Edit(text=',', changed=(), notes={})
    """
    status, answer = run(script, dialect)
    if status == Status.DONE:
        return Edit.parse(answer.decode())
    if status == Status.FAILED:
        raise Failed("memory ran out")
    fields = answer.decode().split()
    sentence = explain(script, dialect) or ""
    if status == Status.REFUSED:
        changes = tuple(int(number) for number in fields[2:])
        lines = tuple(int(number) for number in re.findall(r"\bline ([0-9]+)", sentence))
        raise Refused(Refusal(fields[1]), changes, lines, sentence)
    raise BadScript(int(fields[-1]), sentence)
