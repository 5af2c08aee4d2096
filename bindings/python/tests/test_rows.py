"""The scripts of the folder SYNED_ROWS, which bindings/scripts.py filled, get the answers in its files."""
import os
import unittest
from concurrent.futures import ThreadPoolExecutor
from pathlib import Path

from syned import BadScript, Dialect, Edit, Refused, Status, carry_out, explain, run
from syned._tree import expression

THREADS = 8


def told(path):
    """Whether what is told of a script is what its files have."""
    script, dialect = path.read_bytes(), Dialect.WIDE if path.parent.name == "wide" else Dialect.SYNED
    status = Status(int(path.with_suffix(".status").read_text(encoding="utf-8")))
    answer = path.with_suffix(".answer").read_bytes()
    said = path.with_suffix(".said").read_bytes().decode()
    is_run = run(script, dialect) == (status, answer) and (explain(script, dialect) or "") == said
    return is_run and is_parsed(script, dialect, answer, said)


def is_parsed(script, dialect, answer, said):
    """Whether the edit, or what is raised, has all that the answer has: it is written again from that."""
    try:
        return written(carry_out(script, dialect)) == answer.decode()
    except Refused as error:
        numbers = "".join(f" {number}" for number in error.changes)
        return f"refused {error.refusal.value}{numbers}\n" == answer.decode() and error.sentence == said
    except BadScript as error:
        return f"bad script line {error.line}\n" == answer.decode() and error.sentence == said


def written(edit: Edit):
    def paths(found):
        return "".join(f" {way(path)}{place(path)}" for path in found)

    def place(path):
        return "@%d..%d" % edit.ranges[path] if edit.ranges else ""

    notes = "".join(f"note {word}{paths(found)}\n" for word, found in edit.notes.items())
    edits = "".join(f"edit {start} {end} {quoted(text)}\n" for start, end, text in edit.edits)
    tree = f"tree {expression(edit.tree)}\n" if edit.tree else ""
    return f"text {quoted(edit.text)}\nchanged{paths(edit.changed)}\n{notes}{edits}{tree}"


def way(path):
    return "/".join(map(str, path)) or "."


def quoted(text):
    for plain, escaped in (("\\", "\\\\"), ("\n", "\\n"), ("\r", "\\r"), ("\t", "\\t"), ('"', '\\"')):
        text = text.replace(plain, escaped)
    return f'"{text}"'


class Rows(unittest.TestCase):
    def test_each_row_on_several_threads(self):
        self.assertIn("SYNED_ROWS", os.environ, "SYNED_ROWS names the folder that bindings/scripts.py filled")
        folder = Path(os.environ["SYNED_ROWS"])
        scripts, wide = sorted(folder.glob("*.script")), sorted(folder.glob("wide/*.script"))
        self.assertTrue(scripts and wide, "the folder SYNED_ROWS is missing or empty")
        scripts += wide

        def wrong(start):
            # Each thread begins at another row, so different scripts run at the same time.
            return [str(path) for path in scripts[start:] + scripts[:start] if not told(path)]

        with ThreadPoolExecutor(THREADS) as threads:
            starts = [len(scripts) * thread // THREADS for thread in range(THREADS)]
            for names in threads.map(wrong, starts):
                self.assertEqual(names, [])


if __name__ == "__main__":
    unittest.main()
