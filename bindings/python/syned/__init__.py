"""syned: edits of syntax trees, all carried out at once or refused for a named reason.

A `Script` is made of trees and of changes against one of them. docs/SCRIPTS.md says what each line of it does.

>>> from syned import Kind, Script, node, token
>>> script = Script()
>>> one, two, three = (node(Kind.LITERAL, token(Kind.INT_NUMBER, it)) for it in "123")
>>> comma = token(Kind.COMMA, ","), token(Kind.WHITESPACE, " ")
>>> opening, closing = token(Kind.L_PAREN, "("), token(Kind.R_PAREN, ")")
>>> arguments = node(Kind.ARG_LIST, opening, one, *comma, two, *comma, three, closing)
>>> root = script.edit(script.tree(arguments))
>>> first, second, third = root[1], root[4], root[7]
>>> swapped = script.replace(first, second), script.replace(second, first)
>>> removed = script.remove(third, Kind.COMMA)
>>> script.finish()
Edit(text='(2, 1)', changed=((1,), (4,)), notes={})
"""
from ._edit import Edit, ElementPath, TextEdit, apply_edits, carry_out, in_characters
from ._errors import BadScript, Failed, NoLibrary, Refusal, Refused, SynedError
from ._kind import Kind, kind_of, spelled
from ._library import Dialect, Status, explain, library_version, run
from ._script import Element, Position, Script
from ._tree import Node, Token, Tree, node, pieces, token

__version__ = "0.1.0"

__all__ = [
    "BadScript",
    "Dialect",
    "Edit",
    "Element",
    "ElementPath",
    "Failed",
    "Kind",
    "NoLibrary",
    "Node",
    "Position",
    "Refusal",
    "Refused",
    "Script",
    "Status",
    "SynedError",
    "TextEdit",
    "Token",
    "Tree",
    "apply_edits",
    "carry_out",
    "explain",
    "in_characters",
    "kind_of",
    "library_version",
    "node",
    "pieces",
    "run",
    "spelled",
    "token",
]
