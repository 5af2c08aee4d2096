"""The kinds of nodes and tokens: names."""
import re
from enum import Enum


class Kind(str, Enum):
    """The kinds that have a name from the start, which is a text like that of any other kind.

    Any kind can be a node's or a token's, and a tree may have kinds of its own: `node("CALL_EXPR")`.

    >>> Kind.COMMA == "COMMA"
    True
    >>> Kind("ARG_LIST") is Kind.ARG_LIST
    True
    >>> len(Kind)
    65
    """

    WHITESPACE = "WHITESPACE"
    COMMENT = "COMMENT"
    DOC_COMMENT = "DOC_COMMENT"
    SEMICOLON = "SEMICOLON"
    COMMA = "COMMA"
    L_PAREN = "L_PAREN"
    R_PAREN = "R_PAREN"
    L_CURLY = "L_CURLY"
    R_CURLY = "R_CURLY"
    L_BRACK = "L_BRACK"
    R_BRACK = "R_BRACK"
    L_ANGLE = "L_ANGLE"
    R_ANGLE = "R_ANGLE"
    AMP = "AMP"
    POUND = "POUND"
    UNDERSCORE = "UNDERSCORE"
    EQ = "EQ"
    FAT_ARROW = "FAT_ARROW"
    THIN_ARROW = "THIN_ARROW"
    PLUS = "PLUS"
    IDENT = "IDENT"
    INT_NUMBER = "INT_NUMBER"
    LIFETIME_IDENT = "LIFETIME_IDENT"
    TRUE_KW = "TRUE_KW"
    LET_KW = "LET_KW"
    FN_KW = "FN_KW"
    USE_KW = "USE_KW"
    SOURCE_FILE = "SOURCE_FILE"
    ARG_LIST = "ARG_LIST"
    LITERAL = "LITERAL"
    TUPLE_EXPR = "TUPLE_EXPR"
    BIN_EXPR = "BIN_EXPR"
    BLOCK_EXPR = "BLOCK_EXPR"
    STMT_LIST = "STMT_LIST"
    ITEM_LIST = "ITEM_LIST"
    LET_STMT = "LET_STMT"
    EXPR_STMT = "EXPR_STMT"
    IDENT_PAT = "IDENT_PAT"
    WILDCARD_PAT = "WILDCARD_PAT"
    NAME = "NAME"
    NAME_REF = "NAME_REF"
    MATCH_ARM = "MATCH_ARM"
    MATCH_ARM_LIST = "MATCH_ARM_LIST"
    PARAM_LIST = "PARAM_LIST"
    RET_TYPE = "RET_TYPE"
    TUPLE_TYPE = "TUPLE_TYPE"
    ATTR = "ATTR"
    LIFETIME = "LIFETIME"
    GENERIC_ARG_LIST = "GENERIC_ARG_LIST"
    USE = "USE"
    CONST = "CONST"
    ENUM = "ENUM"
    EXTERN_BLOCK = "EXTERN_BLOCK"
    EXTERN_CRATE = "EXTERN_CRATE"
    FN = "FN"
    IMPL = "IMPL"
    MACRO_CALL = "MACRO_CALL"
    MACRO_DEF = "MACRO_DEF"
    MACRO_RULES = "MACRO_RULES"
    MODULE = "MODULE"
    STATIC = "STATIC"
    STRUCT = "STRUCT"
    TRAIT = "TRAIT"
    TYPE_ALIAS = "TYPE_ALIAS"
    UNION = "UNION"


_NAME = re.compile("[A-Za-z0-9_]+")
_KNOWN = {kind.value: kind for kind in Kind}


def kind_of(name: str) -> str:
    """The kind of this name: one of `Kind` if it has that name. A ValueError if no kind can have it.

    >>> kind_of("COMMA"), kind_of("call")
    (<Kind.COMMA: 'COMMA'>, 'call')
    >>> kind_of("+=")
    Traceback (most recent call last):
        ...
    ValueError: '+=' is no name of a kind: that has letters, digits and underscores, and at least one
    """
    if not isinstance(name, str):
        raise TypeError(f"a kind is a text, not {name!r}")
    if not _NAME.fullmatch(name):
        raise ValueError(f"{name!r} is no name of a kind: that has letters, digits and underscores, and at least one")
    return _KNOWN.get(name, name)


def spelled(text: str) -> str:
    """A name for a kind that others call by any text: the text if it is one, else with `_` and a number in hexadecimal
    digits for each other character. Different texts may get one name only if they have underscores.

    >>> spelled("call_expression"), spelled("+="), spelled("")
    ('call_expression', '_2B_3D', '_')
    """
    return re.sub("[^A-Za-z0-9_]", lambda found: f"_{ord(found.group()):X}", text) or "_"


def written(kind: str) -> str:
    """The name of a kind as a plain text."""
    return kind.value if isinstance(kind, Kind) else kind
