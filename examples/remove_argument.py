#!/usr/bin/env python3
"""Removes an argument at every call of a function in a Python source, and prints the new text.

    remove_argument.py FILE FUNCTION NUMBER    python3 examples/remove_argument.py tests/docs.py re.findall 0

FUNCTION is the name as it is written at the calls: `findall` is another name than `re.findall`. NUMBER is counted
from 0, as the arguments are written: a keyword or a starred argument is one. Definitions, and calls with fewer
arguments, stay as they are, and so do calls inside an f-string. A pattern `case f(a)` looks like a call, and is one
here. An argument goes with the comma after it and the whitespace after that, else with the comma before it. A comment
before its comma goes with it, any other stays.

It needs bindings/out/libsyned.so, which `bash bindings/build.sh` makes."""
import keyword
import re
import sys
from pathlib import Path
from typing import Iterator, List, NamedTuple, Tuple

sys.path.insert(0, str(Path(__file__).resolve().parents[1] / "bindings/python"))
from syned import Element, Kind, Node, Script, SynedError, Token, Tree, node, token

# What is at a place of a source: the first of these that fits.
TOKENS = re.compile(
    r"""
    (?P<WHITESPACE> (?: \s | \\\r?\n )+ )
  | (?P<COMMENT> \#[^\r\n]* )
  | (?P<LITERAL> (?i: [rbuft]{0,2} ) (?:
        \"{3} (?: [^\\] | \\. )*? \"{3} | '{3} (?: [^\\] | \\. )*? '{3} | " (?: [^"\\\n] | \\. )* "
      | ' (?: [^'\\\n] | \\. )* ' ) )
  | (?P<IDENT> [^\W\d]\w* (?: \. [^\W\d]\w* )* )
  | (?P<INT_NUMBER> \d [\w.]* )
  | (?P<COMMA> , )
  | (?P<L_PAREN> \( ) | (?P<R_PAREN> \) )
  | (?P<L_BRACK> \[ ) | (?P<R_BRACK> \] )
  | (?P<L_CURLY> \{ ) | (?P<R_CURLY> \} )
  | (?P<EQ> := | \.{3} | . )
    """,
    re.VERBOSE | re.DOTALL,
)
ENDS = {"lambda": ":", "for": "in"}
CLOSERS = {Kind.L_PAREN: Kind.R_PAREN, Kind.L_BRACK: Kind.R_BRACK, Kind.L_CURLY: Kind.R_CURLY}


class Piece(NamedTuple):
    """A token of a source. There is no kind for an operator: each has the kind EQ."""

    kind: Kind
    text: str
    offset: int


def pieces(source: str) -> List[Piece]:
    """The tokens of a source, with all that is between them."""
    return [Piece(Kind[match.lastgroup or ""], match.group(), match.start()) for match in TOKENS.finditer(source)]


class Parser:
    """Makes a tree of the tokens of a source: tokens, an ARG_LIST for what a call has in brackets, and a TUPLE_EXPR for
    all other brackets. In an ARG_LIST the arguments are BIN_EXPR nodes; there is no kind for an expression as such."""

    def __init__(self, source: str) -> None:
        self.source = source
        self.pieces = pieces(source)
        self.next = 0

    def file(self) -> Node:
        children = self.elements()
        if self.next < len(self.pieces):
            raise self.unbalanced(self.pieces[self.next])
        return node(Kind.SOURCE_FILE, *children)

    def unbalanced(self, piece: Piece) -> ValueError:
        line = self.source.count("\n", 0, piece.offset) + 1
        return ValueError(f"line {line}: {piece.text} has no other bracket")

    def elements(self) -> List[Tree]:
        """All up to the next bracket that closes."""
        found: List[Tree] = []
        while self.next < len(self.pieces) and self.pieces[self.next].kind not in CLOSERS.values():
            piece = self.pieces[self.next]
            if piece.kind in CLOSERS:
                found.append(self.brackets(is_called(found)))
            else:
                found.append(token(piece.kind, piece.text))
                self.next += 1
        return found

    def brackets(self, after_name: bool) -> Node:
        opener = self.pieces[self.next]
        self.next += 1
        inner = self.elements()
        if self.next == len(self.pieces) or self.pieces[self.next].kind != CLOSERS[opener.kind]:
            raise self.unbalanced(opener)
        closer = self.pieces[self.next]
        self.next += 1
        is_call = after_name and opener.kind == Kind.L_PAREN
        return node(
            Kind.ARG_LIST if is_call else Kind.TUPLE_EXPR,
            token(opener.kind, opener.text),
            *(list_of_arguments(inner) if is_call else inner),
            token(closer.kind, closer.text),
        )


def is_called(before: List[Tree]) -> bool:
    """Whether a parenthesis after these is that of a call: a name is before it, on the same line, and it is neither a
    word of the language nor the name of a definition. A name after a dot is that of a method of something else."""
    name = len(before) - 1
    if name >= 0 and before[name].kind == Kind.WHITESPACE and "\n" not in before[name].text:
        name -= 1
    if name < 0 or before[name].kind != Kind.IDENT or keyword.iskeyword(before[name].text):
        return False
    name -= 1
    while name >= 0 and before[name].kind in (Kind.WHITESPACE, Kind.COMMENT):
        name -= 1
    return name < 0 or before[name] not in (token(Kind.IDENT, "def"), token(Kind.IDENT, "class"), token(Kind.EQ, "."))


def list_of_arguments(inner: List[Tree]) -> Iterator[Tree]:
    """What is between the parentheses of a call, with a node for each argument."""
    argument: List[Tree] = []
    # What ends the parameters of each lambda, or the targets of each `for`, that is open: commas there separate those.
    ends: List[str] = []
    for tree in inner:
        if tree.kind == Kind.COMMA and not ends:
            yield from argument_and_rest(argument)
            yield tree
            argument = []
        elif argument or tree.kind not in (Kind.WHITESPACE, Kind.COMMENT):
            argument.append(tree)
            if isinstance(tree, Token) and tree.text in ENDS:
                ends.append(ENDS[tree.text])
            elif isinstance(tree, Token) and ends and tree.text == ends[-1]:
                ends.pop()
        else:
            yield tree
    yield from argument_and_rest(argument)


def argument_and_rest(argument: List[Tree]) -> Iterator[Tree]:
    """The node of an argument, and the whitespace after it, which isn't the argument's."""
    rest = [argument.pop()] if argument and argument[-1].kind == Kind.WHITESPACE else []
    if argument:
        yield node(Kind.BIN_EXPR, *argument)
    yield from rest


def calls(root: Element, function: str) -> Iterator[Element]:
    """The argument lists of all calls of a function below an element."""
    waiting = [root]
    while waiting:
        element = waiting.pop()
        before = ""
        for child in element:
            if child.kind == Kind.ARG_LIST and before == function:
                yield child
            if child.kind != Kind.WHITESPACE:
                before = child.text if child.kind == Kind.IDENT else ""
            waiting.append(child)


def remove_argument(source: str, function: str, number: int) -> Tuple[str, int]:
    """The new text, and how many calls had the argument.

    >>> remove_argument('f(1, "a, b", f(2, 3))', "f", 1)
    ('f(1, f(2))', 2)
    """
    script = Script()
    root = script.edit(script.tree(Parser(source).file()))
    count = 0
    for call in calls(root, function):
        arguments = [child for child in call if child.kind == Kind.BIN_EXPR]
        if number < len(arguments):
            script.remove(arguments[number], Kind.COMMA)
            count += 1
    return script.finish().text, count


def main() -> int:
    if len(sys.argv) != 4 or not sys.argv[3].isdecimal():
        print(__doc__, file=sys.stderr)
        return 2
    path, function, number = sys.argv[1:]
    try:
        # As bytes, so that the ends of lines stay as they are.
        text, count = remove_argument(Path(path).read_bytes().decode(), function, int(number))
    except (OSError, ValueError, RecursionError, SynedError) as error:
        print(f"{path}: {error}", file=sys.stderr)
        return 1
    sys.stdout.buffer.write(text.encode())
    print(f"{count} calls of {function} had argument {number}", file=sys.stderr)
    return 0


if __name__ == "__main__":
    sys.exit(main())
