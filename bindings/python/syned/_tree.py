"""Trees, before a script has them."""
import re
from dataclasses import dataclass, field
from typing import Callable, Iterable, Iterator, List, Match, Optional, Tuple, TypeVar, Union

from ._kind import Kind, kind_of, spelled, written

_ESCAPES = str.maketrans({"\n": "\\n", "\r": "\\r", "\t": "\\t", '"': '\\"', "\\": "\\\\"})
_PLAIN = {escaped: chr(plain) for plain, escaped in _ESCAPES.items()}
# A level of indentation.
_LEVEL = "    "

N = TypeVar("N")
Range = Tuple[int, int]
# What is in a gap between two nodes: the kind and the text of each token.
Pieces = Iterable[Tuple[str, str]]


class Tree:
    """A `Node` or a `Token`. `length` is that of its text, in bytes of UTF-8.

    >>> isinstance(node(Kind.ATTR), Tree), token(Kind.IDENT, "é").length
    (True, 2)
    """

    kind: str
    text: str
    length: int

    @staticmethod
    def from_nodes(
        source: Union[str, bytes],
        root: N,
        *,
        kind: Callable[[N], str],
        children: Callable[[N], Iterable[N]],
        range: Callable[[N], Optional[Range]],
        gap: "Optional[Callable[[str], Pieces]]" = None,
    ) -> "Node":
        """A tree of any parser's nodes, whose text is the whole source.

        `range` gives where a node starts and ends in the source: in bytes if the source is bytes, in characters if it is
        a text. A node without a range is left out, and its children stand in its place. Children may come in any order;
        a ValueError names those that overlap or lie outside their parent.

        A node without children becomes a token, any other a node. What lies between nodes becomes tokens: `gap` splits
        it, or else `pieces` does. A kind's name may be any text: `spelled` writes it as one of a tree.

        >>> words = {"name": "sum", "parts": [{"name": "a", "at": (0, 1)}, {"name": "b", "at": (4, 5)}]}
        >>> tree = Tree.from_nodes(
        ...     "a , b", words, kind=lambda it: it["name"], children=lambda it: it.get("parts", []),
        ...     range=lambda it: it.get("at", (0, 5)))
        >>> print(expression(tree))
        (sum a"a" WHITESPACE" " COMMA"," WHITESPACE" " b"b")
        """
        return _Adapter(source, kind, children, range, gap or pieces).tree(root)


@dataclass(frozen=True)
class Token(Tree):
    """A piece of text with a kind. `token` makes one.

    >>> Token(Kind.IDENT, "a").text
    'a'
    """

    kind: str
    text: str
    length: int = field(init=False, repr=False, compare=False)

    def __post_init__(self) -> None:
        object.__setattr__(self, "kind", kind_of(self.kind))
        # A text that isn't UTF-8 is found here, where it was made.
        object.__setattr__(self, "length", len(self.text.encode()))


@dataclass(frozen=True, repr=False)
class Node(Tree):
    """A kind with children. `node` makes one.

    >>> Node(Kind.ARG_LIST, (Token(Kind.COMMA, ","),))
    <Node ARG_LIST of 1 bytes>
    """

    kind: str
    children: Tuple[Tree, ...]
    length: int = field(init=False, compare=False)

    def __post_init__(self) -> None:
        object.__setattr__(self, "kind", kind_of(self.kind))
        for child in self.children:
            if not isinstance(child, Tree):
                raise TypeError(f"a child is a Node or a Token, not {child!r}")
        object.__setattr__(self, "length", sum(child.length for child in self.children))

    @property
    def text(self) -> str:  # type: ignore[override]
        """The texts of all tokens in it, one after the other.

        >>> node(Kind.ARG_LIST, token(Kind.L_PAREN, "("), token(Kind.R_PAREN, ")")).text
        '()'
        """
        return "".join(token.text for token in tokens_of(self))

    def __repr__(self) -> str:
        return f"<Node {name_of(self)} of {self.length} bytes>"


def node(kind: str, *children: Tree) -> Node:
    """A node of this kind, with these children.

    >>> node(Kind.LITERAL, token(Kind.INT_NUMBER, "1")).children
    (Token(kind=<Kind.INT_NUMBER: 'INT_NUMBER'>, text='1'),)
    """
    return Node(kind, children)


def token(kind: str, text: str) -> Token:
    """A token of this kind, with this text, which is escaped where it is written.

    >>> token(Kind.WHITESPACE, "\\n")
    Token(kind=<Kind.WHITESPACE: 'WHITESPACE'>, text='\\n')
    """
    return Token(kind, text)


def name_of(tree: Tree) -> str:
    """The name of a tree's kind."""
    return written(tree.kind)


def children_of(tree: Tree) -> Tuple[Tree, ...]:
    """The children of a node; a token has none."""
    return tree.children if isinstance(tree, Node) else ()


def tokens_of(tree: Tree) -> Iterator[Token]:
    """The tokens in a tree, in order. Without recursion, so that a deep tree is no failure."""
    rest: List[Tree] = [tree]
    while rest:
        tree = rest.pop()
        if isinstance(tree, Token):
            yield tree
        rest.extend(reversed(children_of(tree)))


def kinds_of(tree: Tree) -> Iterator[str]:
    """The kind of each element of a tree, without recursion."""
    rest: List[Tree] = [tree]
    while rest:
        tree = rest.pop()
        yield tree.kind
        rest.extend(children_of(tree))


def expression(tree: Tree) -> str:
    """The tree expression of a tree. Without recursion, so that a deep tree is answered and not a failure here."""
    written: List[str] = []
    rest: List[Union[Tree, str]] = [tree]
    while rest:
        piece = rest.pop()
        if isinstance(piece, str):
            written.append(piece)
        elif isinstance(piece, Token):
            written.append(f'{name_of(piece)}"{piece.text.translate(_ESCAPES)}"')
        else:
            written.append(f"({name_of(piece)}")
            rest.append(")")
            for child in reversed(children_of(piece)):
                rest.append(child)
                rest.append(" ")
    return "".join(written)


def unescaped(text: str) -> str:
    """The text that is written so between two quotes. A ValueError if none is."""

    def plain(found: Match[str]) -> str:
        if found.group() not in _PLAIN:
            raise ValueError(f"{found.group()!r} in a text between quotes")
        return _PLAIN[found.group()]

    return re.sub(r'\\.?|"', plain, text, flags=re.DOTALL)


# The beginning of a node, a token, or the end of a node.
_PART = re.compile(r' *(?:\((\w+)|(\w+)"([^"\\]*(?:\\.[^"\\]*)*)"|\))', re.ASCII | re.DOTALL)


def read_expression(text: str) -> Node:
    """The tree of a tree expression, a ValueError if it is none. Without recursion, as `expression` is written."""
    above: List[Tuple[str, List[Tree]]] = []
    kind, at = "", 0
    made: List[Tree] = []
    while at < len(text):
        found = _PART.match(text, at)
        if found is None or not (above or at == 0):
            raise ValueError(f"no part of a tree expression is at {at}")
        at = found.end()
        opens, token_kind, quoted = found.groups()
        if opens is not None:
            above.append((kind, made))
            kind, made = opens, []
        elif token_kind is not None:
            made.append(Token(token_kind, unescaped(quoted)))
        elif above:
            closed = Node(kind, tuple(made))
            kind, made = above.pop()
            made.append(closed)
    if above or len(made) != 1 or not isinstance(made[0], Node):
        raise ValueError("no whole tree expression")
    return made[0]


def indented(token: Token) -> Token:
    """A token further in: a line that begins in it gets a level more."""
    return Token(token.kind, token.text + _LEVEL) if _breaks_line(token) else token


def dedented(token: Token) -> Token:
    """A token further out: each line that begins in it gets a level less, where it has one."""
    return Token(token.kind, token.text.replace("\n" + _LEVEL, "\n")) if _breaks_line(token) else token


def _breaks_line(token: Token) -> bool:
    return token.kind == Kind.WHITESPACE and "\n" in token.text


def with_tokens(tree: Node, change: Callable[[Token], Token]) -> Node:
    """A tree with other tokens. What stays is shared. Without recursion."""
    opened: List[Tuple[Node, List[Tree]]] = [(tree, [])]
    while True:
        old, made = opened[-1]
        if len(made) < len(old.children):
            child = old.children[len(made)]
            if isinstance(child, Node):
                opened.append((child, []))
            else:
                made.append(change(child) if isinstance(child, Token) else child)
            continue
        is_same = all(before is after for before, after in zip(old.children, made))
        opened.pop()
        new = old if is_same else Node(old.kind, tuple(made))
        if not opened:
            return new
        opened[-1][1].append(new)


_PIECES = re.compile(r"(?P<WHITESPACE>\s+)|(?P<COMMENT>(?:#|//)[^\r\n]*)|(?P<word>\w+)|(?P<sign>.)", re.DOTALL)
_SIGNS = {
    ",": Kind.COMMA,
    ";": Kind.SEMICOLON,
    "(": Kind.L_PAREN,
    ")": Kind.R_PAREN,
    "[": Kind.L_BRACK,
    "]": Kind.R_BRACK,
    "{": Kind.L_CURLY,
    "}": Kind.R_CURLY,
    "=": Kind.EQ,
}


def pieces(gap: str) -> Iterator[Tuple[str, str]]:
    """The tokens of what lies between two nodes: runs of whitespace, comments to the end of a line after `#` or `//`,
    words, and each other character by itself. Commas, brackets and the like have the kinds of `Kind`.

    >>> [(kind, text) for kind, text in pieces(", x")] == [("COMMA", ","), ("WHITESPACE", " "), ("WORD", "x")]
    True
    """
    for found in _PIECES.finditer(gap):
        text = found.group()
        if found.lastgroup == "sign":
            yield _SIGNS.get(text) or f"SIGN_{ord(text):X}", text
        else:
            yield "WORD" if found.lastgroup == "word" else str(found.lastgroup), text


class _Open:
    """A node whose children are being made: those that wait, those that are made, and where the next one begins."""

    def __init__(self, kind: str, place: Range, waiting: "List[Tuple[Range, object]]") -> None:
        self.kind, self.place, self.waiting = kind, place, waiting
        self.made: List[Tree] = []
        self.at = place[0]


class _Adapter:
    """Makes a tree of another parser's nodes. Without recursion, for deep ones."""

    def __init__(self, source, kind, children, place, gap) -> None:  # type: ignore[no-untyped-def]
        self.source, self.kind, self.children, self.place, self.gap = source, kind, children, place, gap

    def text(self, start: int, end: int) -> str:
        found = self.source[start:end]
        return found.decode() if isinstance(found, bytes) else str(found)

    def below(self, node: object) -> "List[Tuple[Range, object]]":
        """The children of a node, in order, with their places; in the place of one without a place are its children."""
        found: List[Tuple[Range, object]] = []
        rest = [*reversed([*self.children(node)])]
        while rest:
            child = rest.pop()
            place = self.place(child)
            if place is None:
                rest.extend(reversed([*self.children(child)]))
            else:
                found.append(((place[0], place[1]), child))
        return sorted(found, key=lambda it: it[0])

    def fill(self, opened: _Open, end: int) -> None:
        """Tokens for what lies between what was made last and a place."""
        if opened.at < end:
            opened.made += [Token(kind_of(kind), text) for kind, text in self.gap(self.text(opened.at, end))]
        opened.at = end

    def tree(self, root: object) -> Node:
        opened = [_Open(spelled(self.kind(root)), (0, len(self.source)), self.below(root))]
        opened[0].waiting.reverse()
        while True:
            last = opened[-1]
            if not last.waiting:
                self.fill(last, last.place[1])
                made = Node(last.kind, tuple(last.made))
                opened.pop()
                if not opened:
                    return made
                opened[-1].made.append(made)
                opened[-1].at = last.place[1]
                continue
            (start, end), child = last.waiting.pop()
            if not last.at <= start <= end <= last.place[1]:
                raise ValueError(f"{self.kind(child)} at {start}..{end} overlaps what is before it, or is not in {last.kind}")
            self.fill(last, start)
            below = self.below(child)
            if below:
                below.reverse()
                opened.append(_Open(spelled(self.kind(child)), (start, end), below))
            else:
                last.made.append(Token(spelled(self.kind(child)), self.text(start, end)))
                last.at = end
