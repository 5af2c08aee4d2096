"""Which functions of the libraries a call goes through, crate by crate, in the order in which they are first called.

    walk.py             both walks of docs/ARCHITECTURE.md, and how many crates, files and functions each has
    walk.py CALL..      the walk of other calls, each as TYPE::FUNCTION or CRATE::FUNCTION
    walk.py --unknown   the calls in both walks whose receiver has no type that was found, where libraries have a method of that name

A free function is resolved by the imports of its file, `TYPE::f` by the type, and `x.f` by the type of `x`: of a parameter, a field, a pattern,
or what a call gives. An engine is `OnePassEngine`. What a macro derives and std are not counted, and neither are laws and what is read for the
proof alone. The functions of the two lowest crates are counted apart.
"""

import re
import sys
from pathlib import Path

ROOT = Path(__file__).resolve().parent.parent
# The walks, and how many functions each has at most: above the two lowest crates, and in them. These numbers only fall.
WALKS = {"SyntaxEditor::finish": (100, 62), "EditRun::step": (43, 43)}
BELOW = {"green_tree", "cst_core"}
ENGINES = {"E": "OnePassEngine"}
LIBRARIES = [
    "green_tree", "cst_core", "path_table", "edit_map", "edit_change", "text_edit", "one_pass", "edit_steps", "edit_plan", "change_list",
    "whitespace", "syntax_editor", "list_removal",
]
# What a type of std gives that is asked: `0` for its first parameter, `self` for itself.
LISTS = {"Vec", "["}
OF_LISTS = {
    "get": "Option<0>", "get_mut": "Option<0>", "first": "Option<0>", "last": "Option<0>", "last_mut": "Option<0>", "pop": "Option<0>",
    "as_slice": "[0]", "iter": "Iter<0>", "iter_mut": "Iter<0>", "split_first": "Option<(0, [0])>", "split_last": "Option<(0, [0])>",
    "remove": "0", "swap_remove": "0", "into_iter": "Iter<0>", "as_mut_slice": "[0]", "drain": "Iter<0>",
}
OF_OPTIONS = {
    "as_ref": "self", "as_mut": "self", "copied": "self", "cloned": "self", "take": "self", "ok_or": "self", "ok": "self", "filter": "self",
    "unwrap_or": "0", "unwrap_or_default": "0", "or": "self", "as_deref": "self", "replace": "self", "unwrap_or_else": "0", "or_else": "self",
}
OF_ITERATORS = {
    "next": "Option<0>", "rev": "self", "skip": "self", "take": "self", "copied": "self", "filter": "self", "enumerate": "Iter<(usize, 0)>",
    "last": "Option<0>", "find": "Option<0>", "nth": "Option<0>", "next_back": "Option<0>", "peekable": "self", "peek": "Option<0>",
    "skip_while": "self", "take_while": "self", "chain": "self", "by_ref": "self", "min": "Option<0>", "max": "Option<0>", "cloned": "self",
}


class Function:
    def __init__(self, crate, file, owner, name, signature, body):
        self.crate, self.file, self.owner, self.name, self.body = crate, file, owner, name, body
        signature = re.sub(r"\s+", " ", signature)
        told = re.search(r"-> (.+?)\s*(?:where .*)?$", signature)
        self.gives = plain(told[1]) if told else ""
        bounds = dict(re.findall(r"\b([A-Z]\w*): (\w+)", signature[: signature.find("(")]))
        self.variables = {
            it: plain(bounds.get(written.strip("& "), written) if written.strip("& ") not in ENGINES else written)
            for it, written in parameters(signature)
        }

    def __str__(self):
        return f"{self.owner}::{self.name}" if self.owner else self.name


def parameters(signature):
    inside = signature[signature.find("(") + 1 :]
    inside = inside[: closing("(" + inside, 0) - 1]
    return [(it[1], it[2]) for part in parts_of(inside) if (it := re.match(r"\s*(?:mut )?(\w+): (.*)", part, re.S))]


def without_comments(text):
    """The text without comments, and without what is read for the proof alone."""
    text = re.sub(r"^ *// For the proof: (?:[^\n]*\n *//)*[^\n]*\n[^;{}]*;", "", text, flags=re.M)
    return re.sub(r"//[^\n]*", "", text)


def plain(written):
    """A type without references, lifetimes, and what holds one value and reads as it."""
    written = re.sub(r"&|\bmut\b|\bdyn\b|\bimpl\b|'\w+,? ?", " ", written)
    written = re.sub(r"\s+", " ", written.replace("< >", "")).strip()
    while held := re.search(r"\b(?:Box|Rc)<", written):
        depth, end = 1, held.end()
        while depth and end < len(written):
            depth += {"<": 1, ">": -1}.get(written[end], 0)
            end += 1
        written = written[: held.start()] + written[held.end() : end - 1] + written[end:]
    return written


def base(written):
    found = re.match(r"\(|\[|\w+", written or "")
    return ENGINES.get(found[0], found[0]) if found else ""


def parts_of(text):
    """What commas part, but for those in brackets."""
    depth, parts, begun = 0, [], 0
    for at, c in enumerate(text):
        depth += {"<": 1, "(": 1, "[": 1, "{": 1, ">": -1, ")": -1, "]": -1, "}": -1}.get(c, 0) if text[at - 1 : at + 1] not in ("->", "=>") else 0
        if c == "," and depth == 0:
            parts.append(text[begun:at].strip())
            begun = at + 1
    return [it for it in [*parts, text[begun:].strip()] if it]


def inner(written, which=0):
    """The parameter of a type, the element of a list, a part of a tuple."""
    opened = re.search(r"[<(\[]", written or "")
    if not opened:
        return None
    parts = parts_of(re.split(r";", written[opened.start() + 1 : written.rfind({"<": ">", "(": ")", "[": "]"}[opened[0]])])[0])
    return parts[which] if which < len(parts) else None


def closing(text, start):
    """The place of the bracket that closes the one at the start."""
    depth = 0
    for at in range(start, len(text)):
        depth += {"{": 1, "(": 1, "[": 1, "}": -1, ")": -1, "]": -1}.get(text[at], 0)
        if depth == 0:
            return at
    return len(text) - 1


def block(text, start):
    return text[start : closing(text, start) + 1]


def body_of(text, start):
    """The body after a signature and its clauses, or nothing if there is none."""
    at = start
    while at < len(text):
        if text[at] == ";":
            return ""
        if text[at] == "{":
            clause = re.search(r"(?:ensures|requires)\s*(?:\w+\s*)?$", text[start:at])
            part = block(text, at)
            if not clause:
                return part
            at += len(part)
        else:
            at += 1
    return ""


def functions_of(crate, file):
    text = without_comments(file.read_text())
    owners = []
    for entry in re.finditer(r"^impl(?:<[^>]*>)?\s+(?:(\w+)(?:<[^>]*>)?\s+for\s+)?&?(\w+)[^{;]*", text, re.M):
        opened = text.index("{", entry.start())
        owners.append((opened, opened + len(block(text, opened)), entry.group(2)))
    found = []
    for entry in re.finditer(r"\bfn (\w+)", text):
        owner = next((owner for begin, end, owner in owners if begin < entry.start() < end), None)
        body = body_of(text, entry.end())
        if body:
            signature = re.split(r"\bensures\b|\brequires\b|\{", text[entry.end():])[0]
            found.append(Function(crate, file, owner, entry.group(1), signature, body))
    return found


class Sources:
    def __init__(self):
        self.functions, self.imports, self.fields, self.unknown = [], {}, {}, []
        for crate in LIBRARIES:
            for file in sorted((ROOT / "crates" / crate / "src").rglob("*.rt")):
                if file.name != "laws.rt":
                    self.functions += functions_of(crate, file)
                text = without_comments(file.read_text())
                names = re.findall(r"^(?:pub(?:\(crate\))? )?use ([^;]+);", text, re.M)
                self.imports[file] = {word: word for name in names for word in re.findall(r"\w+", name)}
                self.imports[file] |= {alias: word for name in names for word, alias in re.findall(r"(\w+) as (\w+)", name)}
                self.add_types(text)

    def add_types(self, text):
        """The fields of structs and of variants, by name or by number."""
        for found in re.finditer(r"\b(struct|enum) (\w+)(?:<[^>]*>)? ?([{(])", text):
            inside = block(text, found.end() - 1)[1:-1]
            if found[1] == "struct":
                self.add_fields(found[2], found[3], inside)
            else:
                for part in parts_of(inside):
                    if variant := re.search(r"(?:^|\s)(\w+) ?([({])", re.sub(r"#\[[^\]]*\]", "", part)):
                        part = re.sub(r"#\[[^\]]*\]", "", part)
                        self.add_fields(f"{found[2]}::{variant[1]}", variant[2], block(part, variant.end() - 1)[1:-1])

    def add_fields(self, name, bracket, inside):
        parts = [re.sub(r"#\[[^\]]*\]|\bpub(?:\(\w+\))? ", "", it).strip() for it in parts_of(inside)]
        named = [it.split(": ", 1) for it in parts] if bracket == "{" else [[str(at), it] for at, it in enumerate(parts)]
        self.fields.setdefault(name, {}).update({it[0]: plain(it[1]) for it in named if len(it) == 2})

    def free(self, caller, name):
        own = [f for f in self.functions if f.owner is None and f.name == name and f.file == caller.file]
        if own:
            return own
        if name not in self.imports[caller.file]:
            return []
        named = [f for f in self.functions if f.owner is None and f.name == self.imports[caller.file][name]]
        return [f for f in named if f.crate == caller.crate] or named

    def of_type(self, caller, owner, name):
        owner = caller.owner if owner == "Self" else owner
        return [f for f in self.functions if f.owner == owner and f.name == name]

    def gives(self, functions, owner):
        return functions[0].gives.replace("Self", owner or "Self") if functions else None

    def type_of(self, caller, known, text):
        """The type of an expression: what it begins with, and what is asked of that, one after the other."""
        text = re.sub(r"^(?:[&*]|mut )+", "", text.strip())
        if text.startswith("(") and closing(text, 0) == len(text) - 1:
            return self.type_of(caller, known, text[1:-1])
        begun = re.match(r"(?:(\w+)::)?(\w+)(?:::<[^>]*>)?(\()?", text)
        if not begun:
            return None
        end = closing(text, begun.end() - 1) + 1 if begun[3] else begun.end()
        if begun[3] and begun[1] in ("Rc", "Box"):
            found = self.type_of(caller, known, text[begun.end() : end - 1])
            found = f"Option<{found}>" if begun[2] == "get_mut" and found else found
        elif begun[3] and begun[1]:
            found = self.gives(self.of_type(caller, begun[1], begun[2]), begun[1] if begun[1] != "Self" else caller.owner) or begun[1]
        elif begun[3]:
            found = self.type_of(caller, known, text[begun.end() : end - 1]) if begun[2] in ("Some", "Ok") else self.gives(self.free(caller, begun[2]), None)
            found = f"Option<{found}>" if begun[2] in ("Some", "Ok") and found else found
        else:
            found = caller.owner if begun[2] == "self" else known.get(begun[2])
        while found and end < len(text):
            part = re.match(r"\s*(?:(\?)|(\[)|\.(\w+)(?:::<[^>]*>)?(\()?)", text[end:])
            if not part:
                break
            at = end + part.end()
            if part[1]:
                found = inner(found) if base(found) in ("Option", "Result") else found
            elif part[2]:
                stop = closing(text, at - 1)
                found, at = (found if ".." in text[at:stop] else inner(found)), stop + 1
            elif part[4]:
                stop = closing(text, at - 1)
                found, at = self.asked(caller, found, part[3]), stop + 1
            else:
                found = inner(found, int(part[3])) if part[3].isdigit() and found.startswith("(") else self.fields.get(base(found), {}).get(part[3])
            end = at
        return found

    def asked(self, caller, found, name):
        """The type of what a method of a type gives."""
        kind = base(found)
        own = self.of_type(caller, kind, name)
        if own:
            return self.gives(own, kind)
        table = OF_LISTS if kind in LISTS else OF_OPTIONS if kind in ("Option", "Result") else OF_ITERATORS if kind == "Iter" else {}
        given = table.get(name)
        if given is None or given == "self":
            return found if given else None
        return re.sub(r"\b0\b", lambda _: inner(found) or "?", given)

    def bind(self, caller, known, pattern, found):
        """Adds the types of the names of a pattern."""
        pattern = re.sub(r"^(?:&|ref |mut )+", "", pattern.strip())
        inside = re.match(r"(?:\w+::)?(\w+)? ?([({])", pattern)
        if re.fullmatch(r"[a-z_]\w*", pattern):
            known[pattern] = found
        elif inside and found:
            parts = parts_of(block(pattern, inside.end() - 1)[1:-1])
            if inside[1] in ("Some", "Ok", None):
                for at, part in enumerate(parts):
                    self.bind(caller, known, part, inner(found, at) if inside[1] is None else inner(found))
            elif inside[1] != "Err":
                kind = base(found)
                fields = self.fields.get(kind if inside[1] in (kind, "Self") else f"{kind}::{inside[1]}", {})
                for at, part in enumerate(parts):
                    name, _, renamed = re.sub(r"^(?:ref |mut )+", "", part).partition(": ")
                    self.bind(caller, known, renamed or part, fields.get(name if inside[2] == "{" else str(at)))

    def calls(self, caller):
        """The functions that a body calls, in order, with the types of names as they are known there."""
        known, found, body = dict(caller.variables), [], caller.body
        places = r"\blet ((?:mut )?[^=;]+?)(?:: ([^=;]+?))? = |\bfor (.+?) in |\bmatch |([\w.]*\.|\w+::|\.)?\b([a-z_]\w*)(?:::<[^>]*>)?\("
        for entry in re.finditer(places, body):
            pattern, written, each, before, name = entry.groups()
            if name is None:
                told = self.expression(body, entry.end())
                kind = plain(written) if written else self.type_of(caller, known, told)
                if pattern:
                    self.bind(caller, known, pattern, kind)
                elif each:
                    self.bind(caller, known, each, inner(kind) if kind else None)
                else:
                    self.bind_arms(caller, known, block(body, entry.end() + len(told)), kind)
            elif before and before.endswith("."):
                receiver = self.receiver(body, entry.start() + len(before) - 1)
                kind = self.type_of(caller, known, receiver)
                found += self.method(caller, kind, name, receiver)
                if closure := re.match(r"(?:move )?\|([^|]+)\|", body[entry.end() :]):
                    self.bind(caller, known, closure[1], inner(kind) if kind else None)
            else:
                found += self.of_type(caller, before[:-2], name) if before else self.free(caller, name)
        return [f for f in found if f is not caller]

    def bind_arms(self, caller, known, arms, kind):
        for arm in re.finditer(r"(?:^|[{},|])\s*((?:\w+::)?\w*\s?[({][^=;]*?[)}]|[a-z_]\w*)(?: if [^=]*)?\s*(?=\||=>)", arms[1:-1]):
            self.bind(caller, known, arm[1], kind)

    def method(self, caller, kind, name, receiver):
        named = [f for f in self.functions if f.owner and f.name == name]
        if not kind:
            if named:
                self.unknown.append((caller, f"{receiver}.{name}", named))
            return []
        return [f for f in named if f.owner == base(kind)]

    def expression(self, body, start):
        """What is bound: up to the brace, the `else` or the semicolon that ends it."""
        at = start
        while at < len(body) and body[at] not in ";{":
            at = closing(body, at) + 1 if body[at] in "([" else at + 1
        return re.sub(r"\belse\s*$", "", body[start:at])

    def receiver(self, body, dot):
        """The expression before a dot."""
        at = dot
        while at > 0:
            c = body[at - 1]
            if c in ")]":
                depth = 0
                while at > 0:
                    at -= 1
                    depth += {")": 1, "]": 1, "(": -1, "[": -1}.get(body[at], 0)
                    if depth == 0:
                        break
            elif re.match(r"[\w.?:]", c) or (c.isspace() and re.match(r"\s*\.", body[at:])):
                at -= 1
            else:
                break
        return re.sub(r"^.*\.\.=?", "", body[at:dot].strip())

    def start(self, call):
        owner, name = call.split("::")
        return next(f for f in self.functions if f.name == name and owner in (f.owner, f.crate))

    def walk(self, call):
        found, waiting = [], [self.start(call)]
        while waiting:
            function = waiting.pop()
            if function not in found:
                found.append(function)
                waiting += reversed(self.calls(function))
        return found


def shown(functions):
    lines = []
    for crate in dict.fromkeys(f.crate for f in functions):
        files = dict.fromkeys(f.file for f in functions if f.crate == crate)
        for file in files:
            names = ", ".join(f"`{f}`" for f in functions if f.file == file)
            lines.append(f"| `{crate}` | `{file.relative_to(ROOT / 'crates' / crate / 'src')}` | {names} |")
    return lines


def parted(functions):
    """Those above the two lowest crates, and those in them."""
    return [f for f in functions if f.crate not in BELOW], [f for f in functions if f.crate in BELOW]


def counted(functions):
    above, below = parted(functions)
    crates, files = len({f.crate for f in above}), len({f.file for f in above})
    return f"{crates} crates, {files} files, {len(above)} functions; {len(below)} more below"


def main():
    if "--help" in sys.argv:
        sys.exit(print(__doc__))
    sources = Sources()
    calls = [word for word in sys.argv[1:] if not word.startswith("--")]
    for call in calls or WALKS:
        functions = sources.walk(call)
        print(f"{call}: {counted(functions)}")
        print("\n".join(shown(functions) if "--unknown" not in sys.argv else []))
    if "--unknown" in sys.argv:
        print("\n".join(sorted({f"{caller}: {asked}: {', '.join(map(str, named))}" for caller, asked, named in sources.unknown})))


if __name__ == "__main__":
    main()
