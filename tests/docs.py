"""Compares what the docs and the spec files say with what is there.

- Each source of a library begins with what it holds, in three lines at most but for a root. The head of a spec file names what it defines for others, all
  of it, and nothing else; docs/DEFINITIONS.md is made of these heads (tests/api.py).
- What docs/CALLING.md and README.md show of a caller, and docs/SCRIPTS.md of a script, is in its file, word for word.
- docs/GUARANTEES.md and the signatures of docs/CALLING.md are made of the doc comments and contracts of the public calls (tests/api.py).
- Each file that a page names is there. No line of a page is over 120 columns but in a table, README.md is one page, and it names the kit.
- docs/ARCHITECTURE.md says how many crates, files and functions its walks have, and none has more functions than it had (tests/walk.py).
- Each file of rows is read for one group, and is not too long (tests/rows.py).
- Each planted bug can be made. Each public function has one, or a reason. Those there and those gone are together the number in
  tests/planted.txt, which never falls (tests/planted.py).
"""

import re
import shutil
import subprocess
import sys
from pathlib import Path

import api
import planted
import rows
import walk

ROOT = Path(__file__).resolve().parent.parent
# Files that the check writes beside a proof, and no one commits.
GENERATED = {"AnswersOffered.antt"}
wrong = []


def library_sources():
    """The sources of each library."""
    for crate in api.libraries():
        yield from sorted((ROOT / "crates" / crate / "src").rglob("*.rt"))


def compare_source_heads():
    for file in library_sources():
        lines = len(re.match(r"(?://!.*\n)*", file.read_text())[0].splitlines())
        if not 1 <= lines <= (9 if file.name == "lib.rt" else 3):
            wrong.append(f"{file.relative_to(ROOT)}: its head has {lines} lines")


def defined_names(text):
    """All names that a spec file gives a meaning; of these, without the fields of records, those that others may use."""
    names, public, record = set(), set(), None
    for line in text.splitlines():
        entry = re.match(r"(\s*)(?:abbrev |unfoldable )?(pub )?(record |data )?([^\s(:]+)", line)
        if not entry or not line.strip():
            continue
        indent = len(entry.group(1))
        if record is not None and indent <= record:
            record = None
        names.add(entry.group(4))
        if entry.group(2) and record is None and entry.group(4) not in ("mod", "use", "mutual"):
            public.add(entry.group(4))
        if entry.group(3) == "record ":
            record = indent
    return names, public


def head_names(text):
    """The names in the first column of a spec file's head, if it has one."""
    listed = []
    for line in text.splitlines():
        if not line.startswith("--"):
            break
        entry = re.match(r"--     (\S.*?)(?:\s{2,}|$)", line)
        listed += entry.group(1).split(", ") if entry else []
    return listed


def compare_heads():
    for file in sorted(ROOT.glob("crates/*/specs/**/*.antt")):
        if file.stem in ("Lib", "inner"):
            continue
        text = file.read_text()
        names, public = defined_names(text)
        listed = head_names(text)
        for name in listed:
            if name not in names:
                wrong.append(f"{file.relative_to(ROOT)}: its head names {name}, which is not defined in it")
        for name in sorted(public - set(listed)):
            wrong.append(f"{file.relative_to(ROOT)}: its head does not name {name}")


def compare_reads():
    """A value that a library reads and does not use is read for the proof: the comment before it says so in one phrase."""
    for file in library_sources():
        before = ""
        for number, line in enumerate(file.read_text().splitlines(), 1):
            read = re.match(r"\s*let _(?:count|builds)? = (?!.*\.(?:unwrap|remove)\()", line)
            if read and not before.lstrip().startswith("// For the proof: "):
                wrong.append(f"{file.relative_to(ROOT)}:{number}: reads a value without a comment 'For the proof: ..'")
            before = before if read else line


def shown_code(text):
    return re.findall(r"```rust\n(.*?)```", text, re.S)


def compare_examples():
    """A heading of docs/CALLING.md names the caller whose code it shows, of the crate or of examples/; README.md shows code of these and of
    what the bindings say of themselves, which their tests run."""
    sources = {file.name: file.read_text() for file in (ROOT / "crates/callers/src").glob("*.rt") if file.stem != "main"}
    sources |= {str(file.relative_to(ROOT)): file.read_text() for file in (ROOT / "examples/callers").glob("*.txt")}
    shown = set()
    for section in re.split(r"^## ", (ROOT / "docs/CALLING.md").read_text(), flags=re.M):
        named = re.search(r"`(\w+\.rt|examples/callers/\w+\.txt)`", section.split("\n")[0])
        shown |= set(re.findall(r"`(examples/callers/\w+\.txt)`", section))
        if named:
            shown.add(named.group(1))
            for code in shown_code(section):
                if code not in sources.get(named.group(1), ""):
                    wrong.append(f"docs/CALLING.md: code that is not in {named.group(1)}: {code[:60]!r}")
    for name in sorted(set(sources) - shown):
        wrong.append(f"docs/CALLING.md: does not name {name}")
    rust = (ROOT / "bindings/rust/src/lib.rs").read_text().replace("//! ", "")
    shown_from = [*sources.values(), rust, (ROOT / "bindings/python/syned/__init__.py").read_text()]
    for code in re.findall(r"```(?:rust|python)\n(.*?)```", (ROOT / "README.md").read_text(), re.S):
        if not any(code in source for source in shown_from):
            wrong.append(f"README.md: code that is in no example: {code[:60]!r}")


def compare_scripts():
    """A heading of docs/SCRIPTS.md names a script of examples/; its first block is the script, its second the answer. The kinds are there."""
    shown, page = set(), (ROOT / "docs/SCRIPTS.md").read_text()
    for section in re.split(r"^### ", page, flags=re.M):
        named = re.search(r"`(examples/\w+)\.script`", section.split("\n")[0])
        if named:
            shown.add(named.group(1) + ".script")
            files = [(ROOT / (named.group(1) + ending)).read_text() for ending in (".script", ".stdout")]
            if re.findall(r"```text\n(.*?)```", section, re.S) != files:
                wrong.append(f"docs/SCRIPTS.md: does not show {named.group(1)}.script with its answer as they are")
    for file in sorted(ROOT.glob("examples/*.script")):
        name = str(file.relative_to(ROOT))
        if name not in shown and name != "examples/replace.script":
            wrong.append(f"docs/SCRIPTS.md: no heading names {name}")
    table = re.search(r"KIND_NAMES: \[&str; 65\] = \[(.*?)\];", (ROOT / "crates/green_tree/src/kind.rt").read_text(), re.S)
    if re.findall(r'"(\w+)"', table.group(1)) not in [block.split() for block in re.findall(r"```text\n(.*?)```", page, re.S)]:
        wrong.append("docs/SCRIPTS.md: does not list the names of the kinds")


def pages():
    return [*sorted(ROOT.glob("*.md")), *sorted(ROOT.glob("docs/**/*.md")), *sorted(ROOT.glob("bench/*.md"))]


def compare_names():
    """Paths of the repository that a page names, and files that it names by their names alone."""
    files = {file.name for file in ROOT.glob("crates/*/*/**/*")}
    for page in pages():
        text = re.sub(r"```(?:rust|python)\n.*?```", "", page.read_text(), flags=re.S)
        for path in re.findall(r"(?<![\w./-])(?:docs|tests|crates|examples|bindings|bench)/[\w./*-]*[\w*/]", text):
            if not re.search(r"NAME|CRATE|FILE|my_caller|/out\b|/target\b", path) and not list(ROOT.glob(path)):
                wrong.append(f"{page.relative_to(ROOT)}: names {path}, which is not there")
        # A clause, in the last column of a table, has fields, which are no files.
        for name in re.findall(r"(?<![\w/.])(\w+\.(?:rt|antt|edit))\b", re.sub(r"^(\|.*\|)[^|\n]*\|$", r"\1", text, flags=re.M)):
            if name not in files and name not in GENERATED:
                wrong.append(f"{page.relative_to(ROOT)}: names {name}, which is not there")
        for link in re.findall(r"\]\(([^)#]+)(?:#[^)]*)?\)", text):
            if "://" not in link and not (page.parent / link).exists():
                wrong.append(f"{page.relative_to(ROOT)}: links to {link}, which is not there")


def compare_widths():
    for page in pages():
        for number, line in enumerate(page.read_text().splitlines(), 1):
            if len(line) > 120 and not line.startswith("|"):
                wrong.append(f"{page.relative_to(ROOT)}:{number}: has {len(line)} columns")


def compare_readme():
    text = (ROOT / "README.md").read_text()
    if text.count("\n") > 90:
        wrong.append(f"README.md: has {text.count(chr(10))} lines, 90 at most")
    if shutil.which("rt"):
        kit = subprocess.run(["rt", "version"], capture_output=True, text=True, check=True).stdout.strip()
        if kit not in text:
            wrong.append(f"README.md: does not name the kit as rt version does: {kit}")


def compare_walks():
    """docs/ARCHITECTURE.md says how many functions each of its walks has, and none has more than it had."""
    text = (ROOT / "docs/ARCHITECTURE.md").read_text()
    sources = walk.Sources()
    for call, most in walk.WALKS.items():
        functions = sources.walk(call)
        told, counts = f"**`{call}`: {walk.counted(functions)}**", tuple(map(len, walk.parted(functions)))
        if told not in text:
            wrong.append(f"docs/ARCHITECTURE.md: does not say {told}")
        if counts != most:
            more = any(count > it for count, it in zip(counts, most))
            wrong.append(f"tests/walk.py: {call} has {counts} functions, {'at most' if more else 'so lower'} {most}")


def compare_believed():
    """What a reader has to believe is short, and stands outside inner/; what stands there is that, and no more."""
    specs = api.Specs()
    from_where = api.reached(specs)
    of_editor, of_scripts = api.of_editor_and_scripts(from_where)
    said = f"{of_editor:,} lines of the editor and {of_scripts} of scripts"
    print(f"docs: public clauses reach {said}")
    if of_editor > api.MOST_OF_EDITOR or of_scripts > api.MOST_OF_SCRIPTS:
        wrong.append(f"public clauses reach {said}: at most {api.MOST_OF_EDITOR} and {api.MOST_OF_SCRIPTS}")
    if said not in (ROOT / "docs/DEFINITIONS.md").read_text().replace("\n", " "):
        wrong.append(f"docs/DEFINITIONS.md: does not say that public clauses reach {said}")
    wrong.extend(f"{it}: a public clause reaches it, and it is in inner/" for it in api.reached_inside(from_where))
    wrong.extend(f"{it}: no public clause reaches it, and it is outside inner/" for it in api.unreached_outside(specs, from_where))


# The crates that users of the editor name.
EDITOR = ["cst_core", "edit_map", "edit_plan", "syntax_editor", "edit_chain", "list_removal", "text_edit"]
WITHOUT_BUG = {
    "green_tree::GreenToken::kind": "its bug takes the whole function away and writes another one elsewhere",
    "green_tree::GreenNode::kind": "its bug takes the whole function away and writes another one elsewhere",
    "edit_change::Change::text": "it prints the change, and the bugs are in what prints it",
    "edit_chain::EditChain::new": "no other root is at hand",
    "edit_plan::EditPlan::root": "no other root is at hand",
    "edit_plan::EditRun::plan": "no other plan is at hand",
    "edit_plan::SpliceEngine::new": "no other engine of splices is at hand",
    "syntax_editor::SyntaxEditor::make": "no other factory is at hand",
    "syntax_editor::SyntaxEditor::make_mut": "no other factory is at hand",
}


def compare_planted_bugs():
    """Each bug can be made. Each public function that users of the editor name has one, or calls a function of its crate that has one."""
    names, missing = set().union(*(api.given(crate) for crate in EDITOR)), set()
    for crate in api.libraries():
        folder = ROOT / "crates" / crate
        bugs = [planted.Bug(edit, folder) for edit in planted.bugs_of(crate)]
        wrong.extend(f"{crate}/{bug.name}: {bug.why}" for bug in bugs if bug.why)
        edited = {it.name for bug in bugs for it in bug.functions.values() if it}
        whole = {f"{it.type}::{it.name}".removeprefix("::") for bug in bugs for it in bug.functions.values() if it}
        bodies = {}
        for file in folder.glob("src/**/*.rt"):
            for it in planted.functions_of(str(file.relative_to(folder)), file.read_text()):
                bodies.setdefault(f"{it.type}::{it.name}".removeprefix("::"), []).append(it.text.partition("{\n")[2])
        for call in api.calls_of(crate):
            calls = set(re.findall(r"\b(\w+)(?:::<[^>]*>)?\(", " ".join(bodies.get(call.name, []))))
            has_body = any(text.strip() for text in bodies.get(call.name, []))
            if call.owner in names and call.owner != "laws" and has_body and call.name not in whole and not calls & edited:
                missing.add(f"{crate}::{call.name}")
    wrong.extend(f"{name}: a public function without a planted bug" for name in sorted(missing - WITHOUT_BUG.keys()))
    wrong.extend(f"{Path(__file__).name}: {name} has a planted bug, or is not there" for name in sorted(WITHOUT_BUG.keys() - missing))


def compare_count():
    """The number of planted bugs, which README says, never falls, in the whole history of the count; one that went has a line that says why."""
    there = {f"{crate}/{bug.stem}" for crate in planted.crates_with_bugs() for bug in planted.bugs_of(crate)}
    record = planted.RECORD.read_text()
    gone = set(re.findall(r"^gone (\S+): \S", record, re.M))
    history = ["git", "-C", str(ROOT), "log", "-p", "--format=", "--", "tests/planted.txt", "tests/planted_bugs.txt"]
    past = subprocess.run(history, capture_output=True, text=True, check=False).stdout
    most = max(map(int, re.findall(r"^\+?planted (\d+)$", f"{past}\n{record}", re.M)))
    if len(there | gone) != most or there & gone:
        wrong.append(f"tests/planted.txt: {len(there)} planted bugs are there and {len(gone)} are gone, of {most}")
    if f"refuse {len(there)} planted bugs" not in (ROOT / "README.md").read_text():
        wrong.append(f"README.md does not say that there are {len(there)} planted bugs")


def main(words):
    if words:
        print(__doc__)
        return 0 if words == ["--help"] else 2
    compare_source_heads()
    compare_heads()
    compare_reads()
    compare_examples()
    compare_scripts()
    compare_names()
    compare_widths()
    compare_readme()
    compare_believed()
    wrong.extend(f"{page}: not what the sources say: python3 tests/api.py write" for page in api.stale())
    compare_walks()
    compare_planted_bugs()
    compare_count()
    wrong.extend(rows.wrong_files())
    for line in wrong:
        print("wrong:", line)
    print(f"docs: {len(wrong)} wrong")
    return bool(wrong)


if __name__ == "__main__":
    sys.exit(main(sys.argv[1:]))
