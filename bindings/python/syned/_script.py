"""Scripts, written line by line."""
import re
from dataclasses import dataclass
from typing import Callable, Dict, Iterable, Iterator, List, Optional, Set, Tuple

from ._edit import Edit, carry_out
from ._errors import SynedError
from ._kind import Kind, kind_of, written
from ._library import Dialect
from ._tree import Node, Token, Tree, children_of, dedented, expression, indented, kinds_of, with_tokens

_WORD = re.compile("[A-Za-z][A-Za-z0-9_]{0,31}")


@dataclass(frozen=True, eq=False, repr=False)
class Element:
    """An element of a tree of a script: `Script.tree` and `Script.edit` return roots, and `child` leads down.

    `name` is what the script calls the tree, `path` the child numbers on the way, `tree` what was given for it, and
    `parent` the element above it, None of a root. Two are equal if they have the same script, name and path: no tree
    is compared or printed.

    >>> from syned import Kind, Script, node, token
    >>> root = Script().tree(node(Kind.ARG_LIST, token(Kind.L_PAREN, "("), token(Kind.R_PAREN, ")")))
    >>> str(root[1]), root[1].text
    ('T0/1', ')')
    >>> [child.kind.value for child in root]
    ['L_PAREN', 'R_PAREN']
    >>> root[1].parent == root, root[1]
    (True, <Element T0/1 R_PAREN>)
    """

    script: "Script"
    name: str
    path: Tuple[int, ...]
    tree: Tree
    parent: "Optional[Element]" = None

    @property
    def kind(self) -> str:
        """The kind.

        >>> from syned import Kind, Script, node
        >>> Script().tree(node(Kind.ATTR)).kind
        <Kind.ATTR: 'ATTR'>
        """
        return self.tree.kind

    @property
    def text(self) -> str:
        """The text, before the edit.

        >>> from syned import Kind, Script, node, token
        >>> Script().tree(node(Kind.LITERAL, token(Kind.INT_NUMBER, "1"))).text
        '1'
        """
        return self.tree.text

    @property
    def children(self) -> "Tuple[Element, ...]":
        """All children, in order; a token has none. `iter(element)` goes over the same.

        >>> from syned import Kind, Script, node, token
        >>> Script().tree(node(Kind.LITERAL, token(Kind.INT_NUMBER, "1"))).children
        (<Element T0/0 INT_NUMBER>,)
        """
        return tuple(self)

    def child(self, number: int) -> "Element":
        """The child of this number, counted from 0. An IndexError if there is none. `element[number]` is the same.

        >>> from syned import Kind, Script, node, token
        >>> root = Script().tree(node(Kind.LITERAL, token(Kind.INT_NUMBER, "1")))
        >>> root.child(0) == root[0]
        True
        >>> root.child(1)
        Traceback (most recent call last):
            ...
        IndexError: T0 has no child 1
        """
        children = children_of(self.tree)
        if not 0 <= number < len(children):
            raise IndexError(f"{self} has no child {number}")
        return Element(self.script, self.name, self.path + (number,), children[number], self)

    def at(self, path: Iterable[int]) -> "Element":
        """The element at the end of a path that begins here: a child's number for each step down. An IndexError if the
        path leads nowhere.

        >>> from syned import Kind, Script, node, token
        >>> root = Script().tree(node(Kind.ATTR, node(Kind.NAME, token(Kind.IDENT, "a"))))
        >>> root.at((0, 0)) == root[0][0], root.at(()) == root
        (True, True)
        """
        element = self
        for number in path:
            element = element.child(number)
        return element

    @property
    def length(self) -> int:
        """The length of its text, in bytes of UTF-8.

        >>> from syned import Kind, Script, node, token
        >>> Script().tree(node(Kind.NAME, token(Kind.IDENT, "é"))).length
        2
        """
        return self.tree.length

    @property
    def range(self) -> Tuple[int, int]:
        """Where its text starts and ends in the text of the tree, in bytes.

        >>> from syned import Kind, Script, node, token
        >>> Script().tree(node(Kind.NAME, token(Kind.IDENT, "é"), token(Kind.IDENT, "b")))[1].range
        (2, 3)
        """
        start = 0
        element = self
        while element.parent is not None:
            before = children_of(element.parent.tree)[: element.path[-1]]
            start += sum(tree.length for tree in before)
            element = element.parent
        return start, start + self.length

    def covering(self, start: int, end: int) -> "Optional[Element]":
        """The last element in document order, of this one and all below it, whose text contains these bytes of the text of
        the tree; where there are such bytes, it is the deepest. None if they are not within this one.

        >>> from syned import Kind, Script, node, token
        >>> root = Script().tree(node(Kind.ATTR, node(Kind.NAME, token(Kind.IDENT, "a")), token(Kind.IDENT, "b")))
        >>> root.covering(0, 1), root.covering(0, 2), root.covering(1, 3)
        (<Element T0/0/0 IDENT>, <Element T0 ATTR>, None)
        """
        at, stop = self.range
        if not at <= start <= end <= stop:
            return None
        element = self
        while True:
            found = None
            for number, tree in enumerate(children_of(element.tree)):
                if at <= start and end <= at + tree.length:
                    found = number, at
                at += tree.length
            if found is None:
                return element
            element, at = element.child(found[0]), found[1]

    def __getitem__(self, number: int) -> "Element":
        return self.child(number)

    def __iter__(self) -> "Iterator[Element]":
        return (self.child(number) for number in range(len(children_of(self.tree))))

    def __eq__(self, other: object) -> bool:
        if not isinstance(other, Element):
            return NotImplemented
        return self.script is other.script and (self.name, self.path) == (other.name, other.path)

    def __hash__(self) -> int:
        return hash((id(self.script), self.name, self.path))

    def __str__(self) -> str:
        return "/".join((self.name, *map(str, self.path)))

    def __repr__(self) -> str:
        return f"<Element {self} {written(self.kind)}>"


@dataclass(frozen=True)
class Position:
    """Where an insert goes: `first` and `last` inside a node, `before` and `after` beside an element.

    >>> from syned import Kind, Script, node
    >>> str(Position.first(Script().tree(node(Kind.ATTR))))
    'first T0'
    """

    where: str
    element: Element

    @staticmethod
    def first(parent: Element) -> "Position":
        """Before all children of a node.

        >>> from syned import Kind, Script, node
        >>> Position.first(Script().tree(node(Kind.ATTR))).where
        'first'
        """
        return Position("first", parent)

    @staticmethod
    def last(parent: Element) -> "Position":
        """After all children of a node.

        >>> from syned import Kind, Script, node
        >>> Position.last(Script().tree(node(Kind.ATTR))).where
        'last'
        """
        return Position("last", parent)

    @staticmethod
    def before(element: Element) -> "Position":
        """Directly before an element.

        >>> from syned import Kind, Script, node
        >>> Position.before(Script().tree(node(Kind.ATTR, node(Kind.NAME)))[0]).where
        'before'
        """
        return Position("before", element)

    @staticmethod
    def after(element: Element) -> "Position":
        """Directly after an element.

        >>> from syned import Kind, Script, node
        >>> Position.after(Script().tree(node(Kind.ATTR, node(Kind.NAME)))[0]).where
        'after'
        """
        return Position("after", element)

    def __str__(self) -> str:
        return f"{self.where} {self.element}"


class Script:
    """A script of the wide dialect, with a method for each word that begins a line. It names its trees itself, and in its
    first line the kinds that `Kind` lacks.

    A line isn't carried out when it is recorded: `finish` carries out all, and raises what docs/SCRIPTS.md calls a
    refusal or a bad line. It leaves the script as it is, which can go on, and be finished again. `str(script)` is the
    script as it is so far, `bytes(script)` what `finish()` carries out.

    What records a line gives its number, counted from 1, as errors name it; `take_back` takes such a line back.

    >>> from syned import Kind, Script, node, token
    >>> script = Script()
    >>> one = node(Kind.LITERAL, token(Kind.INT_NUMBER, "1"))
    >>> root = script.edit(script.tree(node(Kind.ARG_LIST, one, token(Kind.COMMA, ","), one)))
    >>> new = script.tree(node(Kind.SOURCE_FILE, token(Kind.UNDERSCORE, "_")))
    >>> script.replace(root[0], new[0])
    5
    >>> script.finish()
    Edit(text='_,1', changed=((0,),), notes={})
    >>> print(str(script).strip())
    tree T0 (ARG_LIST (LITERAL INT_NUMBER"1") COMMA"," (LITERAL INT_NUMBER"1"))
    edit R T0
    tree T1 (SOURCE_FILE UNDERSCORE"_")
    replace R/0 T1/0
    """

    def __init__(self) -> None:
        # The first line gives names to the kinds that have none from the start, and is empty if there are none.
        self._lines: List[str] = [""]
        self._kinds: Dict[str, None] = {}
        # The numbers of those that can be taken back.
        self._recorded: Set[int] = set()
        self._trees = 0

    def __str__(self) -> str:
        return "".join(f"{line}\n" for line in self._lines)

    def __bytes__(self) -> bytes:
        return self._finished("edits", "ranges")

    def _finished(self, *shown: str) -> bytes:
        """The script with its end. The answer has these parts besides."""
        return "".join((str(self), *(f"show {part}\n" for part in shown), "finish\n")).encode()

    def _name(self, kinds: Iterable[str]) -> None:
        """Has the first line name these kinds, where it has to."""
        self._kinds.update((kind, None) for kind in kinds if not isinstance(kind, Kind))
        self._lines[0] = " ".join(("kinds", *self._kinds)) if self._kinds else ""

    def _line(self, word: str, *elements: Element) -> str:
        """A line of a word and elements. Those of another script are refused: their names are other trees' here."""
        for element in elements:
            if element.script is not self:
                raise ValueError(f"{element} is an element of another script")
        return " ".join((word, *map(str, elements)))

    def _record(self, line: str) -> int:
        self._lines.append(line)
        self._recorded.add(len(self._lines))
        return len(self._lines)

    def take_back(self, line: int) -> None:
        """Takes back the line of this number, which `map`, `note`, `order` or a change gave. It stays empty, so the other
        lines keep their numbers. A ValueError if there is none, or if it was taken back.

        >>> from syned import Kind, Script, node, token
        >>> script = Script()
        >>> root = script.edit(script.tree(node(Kind.NAME, token(Kind.IDENT, "a"), token(Kind.IDENT, "b"))))
        >>> first, both = script.replace(root[0], root[1]), script.range(root[0], root[1])
        >>> error = script.check()
        >>> error.refusal, error.lines
        (<Refusal.INTERSECTING: 'Intersecting'>, (4, 5))
        >>> script.take_back(both)
        >>> script.finish().text
        'bb'
        """
        if line not in self._recorded:
            raise ValueError(f"no call recorded line {line}, or it was taken back")
        self._recorded.remove(line)
        self._lines[line - 1] = ""

    def tree(self, tree: Node) -> Element:
        """Makes a tree, and returns its root.

        >>> from syned import Kind, Script, node
        >>> script = Script()
        >>> root = script.tree(node(Kind.SOURCE_FILE))
        >>> print(str(script).strip())
        tree T0 (SOURCE_FILE)
        """
        if not isinstance(tree, Node):
            raise TypeError("the root of a tree is a node")
        self._name(kinds_of(tree))
        return self._root(f"tree T{self._trees} {expression(tree)}", tree)

    def _root(self, line: str, tree: Node) -> Element:
        """The root of the next tree, which this line makes."""
        self._lines.append(line)
        root = Element(self, f"T{self._trees}", (), tree)
        self._trees += 1
        return root

    def indent(self, node: Element) -> Element:
        """Makes a tree of a node, a level further in, and returns its root: each whitespace token with a newline ends
        with four spaces more.

        >>> from syned import Kind, Script, node, token
        >>> script = Script()
        >>> lines = script.tree(node(Kind.BLOCK_EXPR, token(Kind.L_CURLY, "{"), token(Kind.WHITESPACE, "\\n")))
        >>> script.indent(lines).text
        '{\\n    '
        """
        return self._shifted("indent", node, indented)

    def dedent(self, node: Element) -> Element:
        """The same a level further out: four spaces are taken after each newline of a whitespace token, where there
        are as many.

        >>> from syned import Kind, Script, node, token
        >>> script = Script()
        >>> lines = script.tree(node(Kind.BLOCK_EXPR, token(Kind.WHITESPACE, "\\n  \\n        ")))
        >>> script.dedent(lines).text
        '\\n  \\n    '
        """
        return self._shifted("dedent", node, dedented)

    def _shifted(self, word: str, node: Element, shift: Callable[[Token], Token]) -> Element:
        line = self._line(f"{word} T{self._trees}", node)
        if not isinstance(node.tree, Node):
            raise TypeError("the root of a tree is a node")
        return self._root(line, with_tokens(node.tree, shift))

    def edit(self, target: Element) -> Element:
        """Starts the edit of a node, and returns the root that the changes refer to.

        >>> from syned import Kind, Script, node
        >>> script = Script()
        >>> root = script.edit(script.tree(node(Kind.SOURCE_FILE)))
        >>> str(root)
        'R'
        """
        self._lines.append(self._line("edit R", target))
        return Element(self, "R", (), target.tree)

    def map(self, parent: Element, old: Element, copy: Element) -> int:
        """Says that `copy`, a child of the node `parent`, is a copy of the node `old`.

        If a change replaces `old` by a node that contains `copy`, changes inside `old` move into `copy`.

        >>> from syned import Kind, Script, node, token
        >>> script = Script()
        >>> name = node(Kind.NAME_REF, token(Kind.IDENT, "a"))
        >>> root = script.edit(script.tree(node(Kind.EXPR_STMT, name)))
        >>> block = script.tree(node(Kind.BLOCK_EXPR, token(Kind.L_CURLY, "{"), name, token(Kind.R_CURLY, "}")))
        >>> new = script.tree(node(Kind.NAME, token(Kind.IDENT, "total")))
        >>> script.map(block, root[0], block[1])
        6
        >>> script.replace(root[0][0], new[0])
        7
        >>> script.replace(root[0], block)
        8
        >>> script.finish().text
        '{total}'
        """
        return self._record(self._line("map", parent, old, copy))

    def insert(self, position: Position, element: Element, *more: Element) -> int:
        """Inserts elements, in this order.

        >>> from syned import Kind, Position, Script, node, token
        >>> script = Script()
        >>> root = script.edit(script.tree(node(Kind.TUPLE_EXPR, token(Kind.IDENT, "a"))))
        >>> new = script.tree(node(Kind.TUPLE_EXPR, token(Kind.COMMA, ","), token(Kind.IDENT, "b")))
        >>> script.insert(Position.after(root[0]), new[0], new[1])
        5
        >>> script.finish().text
        'a,b'
        """
        return self._record(self._line(f"insert {position.where}", position.element, element, *more))

    def insert_with_whitespace(self, position: Position, element: Element, *more: Element) -> int:
        """Inserts elements, in this order, with whitespace before and after them where their neighbors ask for it.

        >>> from syned import Kind, Position, Script, node, token
        >>> script = Script()
        >>> root = script.edit(script.tree(node(Kind.TUPLE_EXPR, token(Kind.IDENT, "a"), token(Kind.COMMA, ","))))
        >>> script.insert_with_whitespace(Position.first(root), root[0])
        4
        >>> script.finish().text
        'a a,'
        """
        return self._record(self._line(f"spaced {position.where}", position.element, element, *more))

    def delete(self, element: Element) -> int:
        """Deletes an element.

        >>> from syned import Kind, Script, node, token
        >>> script = Script()
        >>> root = script.edit(script.tree(node(Kind.NAME, token(Kind.IDENT, "a"), token(Kind.IDENT, "b"))))
        >>> script.delete(root[0])
        4
        >>> script.finish().text
        'b'
        """
        return self._record(self._line("delete", element))

    def replace(self, old: Element, *new: Element) -> int:
        """Replaces an element by others, in this order. By none, it is a change of its own that deletes it.

        >>> from syned import Kind, Script, node, token
        >>> script = Script()
        >>> root = script.edit(script.tree(node(Kind.NAME, token(Kind.IDENT, "a"), token(Kind.IDENT, "b"))))
        >>> script.replace(root[0], root[1], root[0])
        4
        >>> script.finish().text
        'bab'
        """
        return self._record(self._line("replace", old, *new))

    def range(self, first: Element, last: Element, *new: Element) -> int:
        """Replaces the siblings from the first to the last by others, or deletes them if there are no others.

        >>> from syned import Kind, Script, node, token
        >>> script = Script()
        >>> root = script.edit(script.tree(node(Kind.NAME, *(token(Kind.IDENT, text) for text in "abc"))))
        >>> script.range(root[0], root[1])
        4
        >>> script.finish().text
        'c'
        """
        return self._record(self._line("range", first, last, *new))

    def remove(self, element: Element, separator: str) -> int:
        """Removes an element of a list with the separator after it and one whitespace token, else with that before it.

        >>> from syned import Kind, Script, node, token
        >>> script = Script()
        >>> items = token(Kind.IDENT, "a"), token(Kind.COMMA, ","), token(Kind.WHITESPACE, " "), token(Kind.IDENT, "b")
        >>> root = script.edit(script.tree(node(Kind.TUPLE_EXPR, *items)))
        >>> script.remove(root[3], Kind.COMMA)
        4
        >>> script.finish().text
        'a'
        """
        separator = kind_of(separator)
        line = f"{self._line('remove', element)} {written(separator)}"
        self._name([separator])
        return self._record(line)

    def wrap(self, element: Element, kind: str, before: Iterable[Element] = (), after: Iterable[Element] = ()) -> int:
        """Replaces a node by a new one of this kind, which has it between other elements. Changes inside the node move into the
        new one, with no `map`.

        >>> from syned import Kind, Script, node, token
        >>> script = Script()
        >>> one, two = (node(Kind.LITERAL, token(Kind.INT_NUMBER, it)) for it in "12")
        >>> root = script.edit(script.tree(node(Kind.ARG_LIST, one, token(Kind.COMMA, ","), two)))
        >>> sides = script.tree(node(Kind.NAME, token(Kind.L_PAREN, "("), token(Kind.R_PAREN, ")")))
        >>> script.wrap(root[0], Kind.TUPLE_EXPR, [sides[0]], [sides[1]])
        5
        >>> script.replace(root[0][0], root[2][0])
        6
        >>> script.finish().text
        '(2),2'
        """
        kind = kind_of(kind)
        line = f"{self._line('wrap', element)} {self._line(written(kind), *before)} {self._line('|', *after)}"
        self._name([kind])
        return self._record(line)

    def note(self, word: str, element: Element) -> int:
        """Asks where an element is in the new tree: `Edit.notes` has it by this word, which may have several elements.

        >>> from syned import Kind, Script, node, token
        >>> script = Script()
        >>> root = script.edit(script.tree(node(Kind.NAME, token(Kind.IDENT, "a"), token(Kind.IDENT, "b"))))
        >>> script.note("last", root[1])
        4
        >>> script.delete(root[0])
        5
        >>> script.finish().notes
        {'last': ((0,),)}
        """
        if not _WORD.fullmatch(word):
            raise ValueError(f"{word!r}: a word has 1 to 32 letters, digits and underscores, a letter first")
        return self._record(self._line(f"note {word}", element))

    def order(self, *changes: int) -> int:
        """The order in which the changes are carried out, by their numbers, counted from 0 as they were recorded.

        >>> from syned import Kind, Script, node, token
        >>> script = Script()
        >>> root = script.edit(script.tree(node(Kind.NAME, *(token(Kind.IDENT, text) for text in "abc"))))
        >>> script.delete(root[0])
        4
        >>> script.delete(root[2])
        5
        >>> script.order(1, 0)
        6
        >>> script.finish().text
        'b'
        """
        return self._record(" ".join(("order", *(f"{change:d}" for change in changes))))

    def check(self) -> Optional[SynedError]:
        """What `finish` would raise, or None if there is an edit.

        >>> from syned import Kind, Script, node
        >>> script = Script()
        >>> root = script.edit(script.tree(node(Kind.SOURCE_FILE)))
        >>> print(script.check())
        None
        >>> print(script.check() if script.delete(root) else "")
        refused DeletesRoot: the root of the edited tree cannot be deleted; ...: line 4
        """
        try:
            self.finish()
        except SynedError as error:
            return error
        return None

    def finish(self, tree: bool = False) -> Edit:
        """Carries out the script. Raises `Refused`, `BadScript` or `Failed` if there is no edit.

        The edit has text edits and ranges, and the new tree if that is asked for: its answer is about twice as long.

        >>> from syned import Kind, Script, node, token
        >>> script = Script()
        >>> root = script.edit(script.tree(node(Kind.NAME, token(Kind.IDENT, "a"), token(Kind.IDENT, "b"))))
        >>> line = script.delete(root[0])
        >>> edit = script.finish(tree=True)
        >>> edit.edits, edit.tree
        ((TextEdit(start=0, end=1, text=''),), <Node NAME of 1 bytes>)
        >>> line = script.delete(root)
        >>> script.finish()
        Traceback (most recent call last):
            ...
        syned._errors.Refused: refused DeletesRoot: the root of the edited tree cannot be deleted; ...: line 5
        """
        script = self._finished("edits", "ranges", "tree") if tree else bytes(self)
        return carry_out(script, Dialect.WIDE)
