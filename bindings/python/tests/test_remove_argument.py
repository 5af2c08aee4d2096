"""examples/remove_argument.py makes the text that cuts in the source make, at offsets of Python's own parser."""
import ast
import re
import subprocess
import sys
import tempfile
import unittest
from collections import Counter
from pathlib import Path

ROOT = Path(__file__).resolve().parents[3]
EXAMPLE = ROOT / "examples/remove_argument.py"
sys.path.insert(0, str(EXAMPLE.parent))
from remove_argument import pieces, remove_argument

SPACE = rb"(?:\s|\\\r?\n)*"

# Sources, a function, the number of an argument, and the new text, worked by hand.
BY_HAND = [
    ("f(1, 2)\n", "f", 0, "f(2)\n"),
    ("f(1, 2)\n", "f", 1, "f(1)\n"),
    ("f(1, 2)\n", "f", 2, "f(1, 2)\n"),
    ("f(1,2,3)\n", "f", 1, "f(1,3)\n"),
    ("f(1)\n", "f", 0, "f()\n"),
    ("f(1,)\n", "f", 0, "f()\n"),
    ("f( 1 )\n", "f", 0, "f(  )\n"),
    ("f(1 , 2)\n", "f", 0, "f(2)\n"),
    ("f(1 , 2)\n", "f", 1, "f(1 )\n"),
    ("f()\n", "f", 0, "f()\n"),
    ("f(f(1, 2), f(3, 4))\n", "f", 0, "f(f(4))\n"),
    ("f(f(1, 2), f(3, 4))\n", "f", 1, "f(f(1))\n"),
    ("g(f(1, f(2, 3)), 4)\n", "f", 1, "g(f(1), 4)\n"),
    ("f(g(1, 2), [3, 4], {5: 6, 7: 8}, (9, 0))\n", "f", 1, "f(g(1, 2), {5: 6, 7: 8}, (9, 0))\n"),
    ("f(g(1, 2), [3, 4], {5: 6, 7: 8}, (9, 0))\n", "f", 3, "f(g(1, 2), [3, 4], {5: 6, 7: 8})\n"),
    ("f('a, (b', \"c,\\\" )\", 1)\n", "f", 0, "f(\"c,\\\" )\", 1)\n"),
    ("f('a, (b', \"c,\\\" )\", 1)\n", "f", 1, "f('a, (b', 1)\n"),
    ("f('''a,\n'b', (''', rb'\\', 1', 2)\n", "f", 1, "f('''a,\n'b', (''', 2)\n"),
    ("f(\n    1,\n    2,\n    3,\n)\n", "f", 1, "f(\n    1,\n    3,\n)\n"),
    ("f(\n    1,\n    2,\n    3,\n)\n", "f", 2, "f(\n    1,\n    2,\n    )\n"),
    ("f(\n    1,\n    2\n)\n", "f", 1, "f(\n    1\n)\n"),
    ("f(1,  # one, (\n  2)\n", "f", 0, "f(# one, (\n  2)\n"),
    ("f(1,  # one\n  2)\n", "f", 1, "f(1,  # one\n  )\n"),
    ("f(1  # one\n  , 2)\n", "f", 0, "f(2)\n"),
    ("f(1, 2  # two\n)\n", "f", 1, "f(1\n)\n"),
    ("f(lambda x, y=(1, 2): x, 3)\n", "f", 0, "f(3)\n"),
    ("f(lambda x, y=lambda z, w: 1, v=2: x, 3)\n", "f", 1, "f(lambda x, y=lambda z, w: 1, v=2: x)\n"),
    ("f(*a, b=1, **c)\n", "f", 1, "f(*a, **c)\n"),
    ("f((1), (2, 3))\n", "f", 0, "f((2, 3))\n"),
    ("f(x for x in y)\n", "f", 0, "f()\n"),
    ("f(\n    x for x in y\n)\n", "f", 0, "f(\n    \n)\n"),
    ("def g(): ...\nf(1, 2)\n", "f", 0, "def g(): ...\nf(2)\n"),
    ("f((x for x, y in z), 1)\n", "f", 1, "f((x for x, y in z))\n"),
    ("f(x for x, y in z for a, b in x)\n", "f", 0, "f()\n"),
    ("f(lambda x=1 in (2, 3), y=4: x, 5)\n", "f", 1, "f(lambda x=1 in (2, 3), y=4: x)\n"),
    ("f((x) + (y), 1)\n", "f", 1, "f((x) + (y))\n"),
    ("f(1, \\\n  2)\n", "f", 0, "f(2)\n"),
    ("f (1, 2)\n", "f", 0, "f (2)\n"),
    ("f(1, 2)(3, 4)\n", "f", 0, "f(2)(3, 4)\n"),
    ("f('é, ü', 'ö') # f(1, 2)\n", "f", 0, "f('ö') # f(1, 2)\n"),
    ("f(1,\r\n  2)\r\n", "f", 0, "f(2)\r\n"),
    ("a.f(1, 2) + f(1, 2) + a().f(1, 2)\n", "f", 0, "a.f(1, 2) + f(2) + a().f(1, 2)\n"),
    ("a.f(1, 2) + f(1, 2) + b.a.f(1, 2)\n", "a.f", 0, "a.f(2) + f(1, 2) + b.a.f(1, 2)\n"),
    ("def f(a, b):\n    return f(a, b)\n", "f", 0, "def f(a, b):\n    return f(b)\n"),
    ("class f(a, b):\n    pass\n", "f", 0, "class f(a, b):\n    pass\n"),
    ("@f(1, 2)\ndef g(f=f(3, 4)):\n    pass\n", "f", 1, "@f(1)\ndef g(f=f(3)):\n    pass\n"),
    ("f = 1\n(2, 3)\n", "f", 0, "f = 1\n(2, 3)\n"),
    ("not (1, 2)\n", "not", 0, "not (1, 2)\n"),
    ("'f(1, 2)'\n", "f", 0, "'f(1, 2)'\n"),
    ("", "f", 0, ""),
]


def start_of(source, lines, tree):
    return lines[tree.lineno - 1] + tree.col_offset


def end_of(source, lines, tree):
    return lines[tree.end_lineno - 1] + tree.end_col_offset


def parsed_calls(tree):
    """All calls below a node of Python's parser, but those in an f-string."""
    waiting = [tree]
    while waiting:
        parsed = waiting.pop()
        if isinstance(parsed, ast.Call):
            yield parsed
        if not isinstance(parsed, ast.JoinedStr):
            waiting.extend(ast.iter_child_nodes(parsed))


def without_comments(source):
    """The same bytes, with spaces for comments. The gaps between arguments have no strings."""
    return re.sub(rb"#[^\r\n]*", lambda comment: b" " * len(comment.group()), source)


def argument_ranges(source, lines, call):
    """Where the arguments of a call begin and end. The parser doesn't tell the parentheses of an argument, so an
    argument takes all that is between two commas, but whitespace and what comments are before it."""
    opener = source.index(b"(", end_of(source, lines, call.func))
    closer = end_of(source, lines, call) - 1
    bare = []
    for argument in call.args:
        start, end = start_of(source, lines, argument), end_of(source, lines, argument)
        if start == opener:
            # The parser takes the parentheses of the call for those of the generator.
            inner = source[start + 1 : end - 1]
            start, end = end - 1 - len(inner.lstrip()), start + 1 + len(inner.rstrip())
        bare.append((start, end))
    for argument in call.keywords:
        start = start_of(source, lines, argument.value)
        name = re.search(rb"(?:\w+" + SPACE + rb"=|\*\*)[\s(]*\Z", source[opener + 1 : start])
        bare.append((opener + 1 + name.start(), end_of(source, lines, argument.value)))
    bare.sort()
    commas = [opener]
    for (_, end), (start, _) in zip(bare, bare[1:] + [(closer, closer)]):
        comma = without_comments(source[end:start]).find(b",")
        commas.append(closer if comma < 0 else end + comma)
    ranges = []
    for before, after, (start, _) in zip(commas, commas[1:], bare):
        gap = without_comments(source[before + 1 : start])
        first = before + 1 + len(gap) - len(re.sub(rb"\A" + SPACE, b"", gap))
        ranges.append((first, before + 1 + len(source[before + 1 : after].rstrip())))
    return ranges


def cut_out(source, start, end):
    """What goes with an argument: the comma after it and the whitespace after that, else the comma before it."""
    after = re.compile(SPACE + b"," + SPACE).match(source, end)
    if after:
        return start, after.end()
    before = re.search(b"," + SPACE + rb"\Z", source[:start])
    return (before.start(), end) if before else (start, end)


def by_cuts(text, function, number):
    source = text.encode()
    lines = [0] + [newline.end() for newline in re.finditer(b"\n", source)]
    cuts = []
    for call in parsed_calls(ast.parse(text)):
        name = source[start_of(source, lines, call.func) : end_of(source, lines, call.func)]
        ranges = argument_ranges(source, lines, call)
        if name == function.encode() and number < len(ranges):
            cuts.append(cut_out(source, *ranges[number]))
    kept, done = [], 0
    for start, end in sorted(cuts):
        # A cut inside another one is a call in an argument that goes.
        if start >= done:
            kept.append(source[done:start])
            done = end
    return b"".join(kept + [source[done:]]).decode()


def called_names(text):
    """The names that are called in a source, the most frequent ones first."""
    names = Counter()
    for call in parsed_calls(ast.parse(text)):
        parts, function = [], call.func
        while isinstance(function, ast.Attribute):
            parts.append(function.attr)
            function = function.value
        if isinstance(function, ast.Name):
            names[".".join([function.id] + parts[::-1])] += 1
    return [name for name, _ in names.most_common()]


class RemoveArgument(unittest.TestCase):
    def test_by_hand(self):
        for source, function, number, text in BY_HAND:
            with self.subTest(source=source, number=number):
                self.assertEqual(remove_argument(source, function, number)[0], text)

    def test_against_cuts(self):
        for source, function, number, text in BY_HAND:
            with self.subTest(source=source, number=number):
                self.assertEqual(by_cuts(source, function, number), text)

    def test_each_function_of_a_file(self):
        path = ROOT / "tests/docs.py"
        self.assertIn("re.findall", called_names(path.read_text(encoding="utf-8")))
        self.compare_file(path, 1000)

    def test_some_functions_of_each_file(self):
        paths = [path for folder in ("tests", "bindings", "examples") for path in sorted((ROOT / folder).rglob("*.py"))]
        self.assertIn(EXAMPLE, paths)
        for path in paths:
            self.compare_file(path, 4)

    def compare_file(self, path, most):
        text = path.read_bytes().decode()
        self.assertEqual("".join(piece.text for piece in pieces(text)), text)
        for function in called_names(text)[:most]:
            for number in range(3):
                with self.subTest(path=path.name, function=function, number=number):
                    new, count = remove_argument(text, function, number)
                    self.assertEqual(new, by_cuts(text, function, number))
                    self.assertEqual(count > 0, new != text)
                    ast.parse(new)

    def test_the_program(self):
        text = 'def f(a, b):\n    return a\n\n\nprint(f("src", ".rt"), f(\n    1, [2, 3]\n).real, g.f(4, 5))\n'
        new = text.replace('f("src", ".rt")', 'f("src")').replace("1, [2, 3]\n", "1\n")
        with tempfile.TemporaryDirectory() as folder:
            path = Path(folder, "calls.py")
            path.write_bytes(text.encode())
            ran = subprocess.run(
                [sys.executable, str(EXAMPLE), str(path), "f", "1"],
                stdout=subprocess.PIPE, stderr=subprocess.PIPE, check=True,
            )
        self.assertEqual(ran.stdout.decode(), new)

    def test_what_it_says_of_mistakes(self):
        with tempfile.TemporaryDirectory() as folder:
            unbalanced = Path(folder, "unbalanced.py")
            unbalanced.write_text("f(1\n")
            for arguments, status, said in (
                ([], 2, "remove_argument.py FILE FUNCTION NUMBER"),
                (["nowhere.py", "f", "x"], 2, "remove_argument.py FILE FUNCTION NUMBER"),
                (["nowhere.py", "f", "0"], 1, "nowhere.py: "),
                ([str(unbalanced), "f", "0"], 1, "has no other bracket"),
            ):
                ran = subprocess.run(
                    [sys.executable, str(EXAMPLE), *arguments], stdout=subprocess.PIPE, stderr=subprocess.PIPE, check=False
                )
                self.assertEqual((ran.returncode, ran.stdout), (status, b""))
                self.assertIn(said, ran.stderr.decode())

    def test_brackets_that_do_not_match(self):
        for source, line in (("f(1", 1), ("f(1]", 1), ("\n)", 2), ("f(\n[)", 2)):
            with self.assertRaisesRegex(ValueError, f"line {line}: . has no other bracket"):
                remove_argument(source, "f", 0)


if __name__ == "__main__":
    unittest.main()
