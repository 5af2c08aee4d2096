#!/usr/bin/env python3
"""Finds the programs that the tests run: those that the gate built; else it makes them, or runs them without their proofs.

    programs.py NAME      prints the path of a program, which `rt run` makes if it is not there or older than a source; `bench`, which is no crate
                          of the repository, is made and proved in a copy of it
    programs.py caller    runs the callers of docs/CALLING.md that are not proved, as one program, without proofs
    programs.py counts    runs `bench` without proofs, and compares the counts that it prints

With INSTEAD set, each program is that file: tests/broken_programs.sh sets it to programs that do nothing."""
import os
import re
import shutil
import subprocess
import sys
import tempfile
from pathlib import Path

from api import libraries

ROOT = Path(__file__).resolve().parent.parent


# The program that measures: its line of crates.txt, and the folder of its sources.
BENCH, MEASURES = "bench: anyhow cst_core syntax_editor", ROOT / "bench/program"


def path_of(name):
    return Path(os.environ.get("INSTEAD") or ROOT / ("bench" if name == "bench" else f"crates/{name}") / "out" / name)


def limited(path, seconds, stack=None):
    """The words that run a program with so many seconds of processor time, and so many KiB of stack if they are given. A program sets the limits,
    since for a function that does (`preexec_fn`) Python would copy itself, which takes longer than most runs."""
    return ["/usr/bin/prlimit", f"--cpu={seconds}:{seconds}", *([f"--stack={stack * 1024}:{stack * 1024}"] if stack else []), str(path)]


def is_built(name):
    """Whether a program is there, and no file of a crate is newer."""
    program = path_of(name)
    if "INSTEAD" in os.environ or not os.access(program, os.X_OK):
        return "INSTEAD" in os.environ
    newer = ["find", ROOT / "crates", MEASURES, "-name", "out", "-prune", "-o", "-type", "f", "-newer", program, "-print", "-quit"]
    return not subprocess.run(newer, capture_output=True, check=True).stdout


def program(name):
    """The path of a program, which is made if it is not there or older than a source."""
    if not is_built(name):
        with tempfile.TemporaryDirectory() as copy:
            done = run(with_bench(copy) if name == "bench" else ROOT / "crates" / name)
            if name == "bench":
                path_of(name).parent.mkdir(exist_ok=True)
                shutil.copy(f"{copy}/crates/bench/out/bench", path_of(name))
        # The status is the program's, so it does not say whether it was made.
        if not is_built(name):
            sys.exit(done.stdout + done.stderr)
    return path_of(name)


def run(folder):
    """Has a program made, and run on its stored input."""
    stored = folder / "stdin"
    with open(stored if stored.is_file() else os.devnull, "rb") as given:
        return subprocess.run(["rt", "run"], cwd=folder, stdin=given, capture_output=True, text=True, check=False)


def with_one_more(copy, entry, sources):
    """Makes a copy of the repository with one crate more, of which these are the line of crates.txt and the sources by name, and gives its folder."""
    list_files = ["git", "ls-files", "--cached", "--others", "--exclude-standard", "-z", "crates", "crates.txt", "HANDLES"]
    for name in subprocess.run(list_files, cwd=ROOT, capture_output=True, text=True, check=True).stdout.split("\0"):
        if name and (ROOT / name).is_file():
            Path(copy, name).parent.mkdir(parents=True, exist_ok=True)
            shutil.copy(ROOT / name, Path(copy, name))
    with open(f"{copy}/crates.txt", "a", encoding="utf-8") as crates:
        crates.write(f"{entry}\n")
    folder = Path(copy, "crates", entry.split(":")[0])
    (folder / "src").mkdir(parents=True)
    for name, text in sources.items():
        Path(folder, "src", name).write_text(text)
    return folder


def with_bench(copy):
    """Makes a copy of the repository in which `bench` is a crate, and gives its folder."""
    folder = with_one_more(copy, BENCH, {f"{it.stem}.rt": it.read_text() for it in MEASURES.glob("*.rs")})
    shutil.copy(MEASURES / "stdin", folder)
    return folder


def try_program(name, *flags, root=ROOT, given=subprocess.DEVNULL, errors=subprocess.PIPE):
    """What `rt try` says of a program. The interpreter that it also has is stopped at once: it takes longer than the compiled program."""
    command = ["rt", "try", "--steps", "1", "--seconds", "300", *flags]
    streams = {"stdin": given, "stdout": subprocess.PIPE, "stderr": errors}
    return subprocess.run(command, cwd=f"{root}/crates/{name}", text=True, check=False, **streams)


def try_cases(name, cases, *flags, words=()):
    """What `rt try --cases` says of a program that is called with these words and reads each of these texts. A case is a name with a text and
    with the answer, or None."""
    with tempfile.TemporaryDirectory() as folder:
        for case, (text, answer) in cases.items():
            for file, content in ((case, text), (f"{case}.stdout", answer)):
                if content is not None:
                    Path(folder, file.replace("/", " ")).write_bytes(content.encode() if isinstance(content, str) else content)
        # What a case prints and what is said of it come on two streams, in turns.
        after = ["--", *words] if words else []
        return try_program(name, *flags, "--cases", folder, *after, errors=subprocess.STDOUT).stdout


def calling_program():
    """A line of crates.txt, the files of a program by name, and what it prints: the first caller of docs/CALLING.md, and beside it a module for
    each caller of examples/callers, which it calls at its end. They stand on `printed.rt` of the crate `callers`."""
    page = (ROOT / "docs/CALLING.md").read_text()
    entry = re.search(r"^ *(my_caller: .*)$", page, re.M).group(1)
    code = re.sub(r"^   ", "", re.search(r"^   ```rust\n((?s:.*?))^   ```", page, re.M).group(1), flags=re.M)
    wanted = re.search(r"`rt try` prints `(.*?)`", page).group(1) + "\n"
    callers = sorted(ROOT.glob("examples/callers/*.txt"))
    files = {f"{it.stem}.rt": it.read_text() for it in (*callers, ROOT / "crates/callers/src/printed.rt")}
    wanted += "".join(it.with_suffix(".stdout").read_text() for it in callers)
    head, body = code.split("#![tactic(auto)]\n")
    before, end = body.rsplit("    Ok(())\n", 1)
    calls = "".join(f'    println!(rt; "{{}}", {it.stem}::example(rt.alloc())?)?;\n' for it in callers)
    modules = "".join(f"mod {it};\n" for it in ("printed", *(it.stem for it in callers)))
    files["main.rt"] = f"{head}#![tactic(auto)]\n{modules}{before}{calls}    Ok(())\n{end}"
    used = {name for text in files.values() for name in re.findall(r"^use (\w+)::", text, re.M)} & {*libraries()}
    return " ".join([entry, *sorted(used - set(entry.split()))]), files, wanted


def caller():
    """Runs these callers as one program, in a copy of the repository."""
    entry, sources, wanted = calling_program()
    with tempfile.TemporaryDirectory() as copy:
        with_one_more(copy, entry, sources)
        done = try_program("my_caller", root=copy)
    if done.stdout != wanted or done.returncode != 0:
        print("caller: wrong:", done.stdout, "wanted:", wanted, *done.stderr.splitlines()[-5:], sep="\n")
        return False
    print(f"caller: {len(sources) - 1} callers print what is wanted, without proofs")
    return True


def counts():
    """Compares the counts that `bench` prints."""
    wanted = (MEASURES / "stdout").read_text()
    with tempfile.TemporaryDirectory() as copy:
        with open(with_bench(copy) / "stdin", "rb") as given:
            done = try_program("bench", root=copy, given=given)
    if done.stdout != wanted or done.returncode != 0:
        print("counts: wrong:", done.stdout, "wanted:", wanted, *done.stderr.splitlines()[-5:], sep="\n")
        return False
    print(f"counts: {wanted.count(chr(10))} counts of `bench` are as wanted, without proofs")
    return True


def main(words):
    if len(words) != 1 or words[0].startswith("-"):
        print(__doc__)
        return 0 if words == ["--help"] else 2
    if words[0] in ("caller", "counts"):
        return not (caller() if words == ["caller"] else counts())
    print(program(words[0]))
    return 0


if __name__ == "__main__":
    sys.exit(main(sys.argv[1:]))
