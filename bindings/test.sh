#!/usr/bin/env bash
# test.sh: builds the archive and the shared library, and tests the bindings for C, Rust and Python on the same scripts. A language whose
# tools are not there is named and left out.
set -euo pipefail
cd "$(dirname "$0")/.."
rows=$(mktemp -d)
trap 'rm -rf "$rows"' EXIT

bash bindings/build.sh
python3 bindings/scripts.py "$rows"

# Each binding is of one version, that of the library.
versions() {
    local found
    found=$(sed -n 's/^#define SYNED_VERSION "\(.*\)"$/\1/p' bindings/c/syned.h
        sed -n 's/^Version: //p' bindings/c/syned.pc
        sed -n 's/^version = "\(.*\)"$/\1/p' bindings/rust/Cargo.toml
        sed -n 's/^__version__ = "\(.*\)"$/\1/p' bindings/python/syned/__init__.py)
    [ "$(wc -l <<<"$found")" = 4 ] && [ "$(sort -u <<<"$found" | wc -l)" = 1 ] || { echo "bindings of versions $found" && exit 1; }
}

test_c() {
    cc -O1 -Wall -Wextra -Werror -Ibindings/c bindings/c/run_scripts.c bindings/out/libsyned.a -lpthread -o "$rows/run_scripts"
    "$rows/run_scripts" "$rows"
    "$rows/run_scripts" "$rows/wide" wide
    cc -O1 -Wall -Wextra -Werror -Ibindings/c examples/first.c bindings/out/libsyned.a -o "$rows/first"
    # The example edits as plain text would: each `1` of the list becomes `one`.
    is_first "$rows/first"
    first_on_files
    # The same with the shared library, which has a version of its own in its name, as pkg-config says to link it.
    if command -v pkg-config >/dev/null; then
        # shellcheck disable=SC2046
        cc examples/first.c $(PKG_CONFIG_PATH=bindings/c pkg-config --cflags --libs syned) -o "$rows/shared"
        LD_LIBRARY_PATH=bindings/out is_first "$rows/shared"
    fi
}

# The example on real files: it prints what replacing each number 1 in the plain text gives.
first_on_files() {
    python3 - "$rows/first" <<'END'
import os, re, subprocess, sys
from pathlib import Path

files = (it for it in sorted(Path(os.__file__).parent.rglob("*.py")) if 0 < it.stat().st_size < 2500)
texts = [text for text in (it.read_bytes() for it in files) if text == text.replace(b"\0", b"").decode(errors="ignore").encode()][:400]
printed = [subprocess.run([sys.argv[1], text], stdout=subprocess.PIPE, check=False).stdout for text in texts]
wrong = [text for text, said in zip(texts, printed) if said != re.sub(rb"(?<!\d)1(?!\d)", b"one", text) + b"\n"]
changed = sum(said != text + b"\n" for said, text in zip(printed, texts))
print(f"c: {len(texts) - len(wrong)} of {len(texts)} files are edited as plain text is, {changed} of them changed")
sys.exit(bool(wrong) or changed < 100)
END
}

is_first() {
    [ "$("$1" '(1, 21, 1)')" = '(one, 21, one)' ] && [ "$("$1" $'"1\t\\\n1é')" = $'"one\t\\\noneé' ] ||
        { echo 'c: examples/first.c prints something else' && exit 1; }
}

# The example with each of its allocations made to fail: it prints all of its answer, or nothing and ends with status 3.
refuse_each() {
    local growth status
    cc -O1 -shared -fPIC -o "$rows/refuse.so" tests/refuse_growth.c -ldl
    for ((growth = 1; growth <= 5000; growth++)); do
        status=0
        REFUSE_GROWTH=$growth LD_PRELOAD=$rows/refuse.so "$rows/first" '(1, 21, 1)' >"$rows/out" 2>"$rows/err" || status=$?
        case $status in
        0) [ "$(cat "$rows/out")" = '(one, 21, one)' ] ;;
        3) [ ! -s "$rows/out" ] ;;
        *) false ;;
        esac || { echo "c: with allocation $growth failed: status $status" && exit 1; }
        if ! grep -q '^growth refused' "$rows/err"; then
            echo "c: failed allocations: $((growth - 1)), each answered"
            return
        fi
    done
    echo 'c: more than 5000 allocations' && exit 1
}

versions
test_c
refuse_each
SYNED_ROWS=$rows bash bindings/rust/test.sh
SYNED_ROWS=$rows bash bindings/python/test.sh
