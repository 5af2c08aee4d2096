#!/usr/bin/env python3
"""Scripts with what `syned` makes of them, for the tests of the bindings.

    scripts.py FOLDER    writes NUMBER.script, NUMBER.answer (what `syned` prints), NUMBER.said (its line on the standard error, without the
                         newline) and NUMBER.status for each script of tests/scripts, each fourth one of tests/corpus, and for damaged
                         ones; and in FOLDER/wide for scripts of the wide dialect"""
import random
import subprocess
import sys
from pathlib import Path

sys.path.insert(0, str(Path(__file__).resolve().parent.parent / "tests"))
import known
import programs

DAMAGED = 300


def damaged(whole):
    """Some of these, with a byte changed, taken away or doubled, or cut off; the same ones in each run."""
    chance = random.Random(1)
    whole = [script for script in whole if script]
    for _ in range(DAMAGED):
        script = bytearray(chance.choice(whole))
        at = chance.randrange(len(script))
        how = chance.randrange(4)
        if how == 0:
            script[at] = chance.randrange(256)
        elif how == 1:
            del script[at]
        elif how == 2:
            script.insert(at, script[at])
        else:
            del script[at:]
        yield bytes(script)


def write(folder, program, every):
    """Writes what a program, with its words, makes of scripts."""
    folder.mkdir(exist_ok=True)
    for number, script in enumerate(every):
        ran = subprocess.run(program, input=script, capture_output=True, check=False)
        (folder / f"{number}.script").write_bytes(script)
        (folder / f"{number}.answer").write_bytes(ran.stdout)
        (folder / f"{number}.said").write_bytes(ran.stderr.removesuffix(b"\n"))
        (folder / f"{number}.status").write_text(f"{ran.returncode}\n")


def main():
    folder, program = Path(sys.argv[1]), programs.program("syned")
    cases = [*known.known("tables", "lines", "explained"), *list(known.known("corpus"))[::4]]
    whole = [case.script for case in cases]
    every = whole + list(damaged(whole))
    write(folder, [program], every)
    wide = [case.script for case in known.known("wide", "spaced")]
    write(folder / "wide", [program, *known.WIDE], wide)
    print(f"bindings: {len(every)} scripts, {DAMAGED} of them damaged, and {len(wide)} of the wide dialect")


if __name__ == "__main__":
    main()
