#!/usr/bin/env bash
# test.sh: all tests and doc tests of the crate, with cargo, and a trial of proc-macro2; it is checked, by clippy too if that is there, and documented
# without the archive. SYNED_ROWS names a folder that bindings/scripts.py filled.
set -euo pipefail
cd "$(dirname "$0")"

if ! command -v cargo >/dev/null; then
    echo "rust: not tested, there is no cargo"
    exit
fi
if [ -z "${SYNED_ROWS:-}" ]; then
    echo "rust: SYNED_ROWS must name a folder that bindings/scripts.py filled"
    exit 1
fi
# The tests run in the crate's folder.
case $SYNED_ROWS in
    /*) ;;
    *) SYNED_ROWS=$OLDPWD/$SYNED_ROWS ;;
esac
export SYNED_ROWS
# Runs a command, and prints what it said only if it failed.
quietly() {
    said=$("$@" 2>&1) || { echo "$said" && echo "rust: failed: $*" && exit 1; }
}

# Trees of the tokens that proc-macro2 finds in real files, where Debian's package of it is installed.
try_proc_macro2() {
    local registry=/usr/share/cargo/registry files
    if ! compgen -G "$registry/proc-macro2-*" >/dev/null; then
        echo 'rust: not tried with proc-macro2, which is not there'
        return
    fi
    mapfile -t files < <(find "$registry" "$(rustc --print sysroot)" -name '*.rs' -size -60k)
    (cd trials/proc_macro2 && quietly cargo build --offline --quiet && target/debug/trial_of_proc_macro2 "${files[@]}")
}

quietly cargo test -j1 --offline --quiet
passed=$(echo "$said" | awk '/^test result: ok/ { passed += $4 } END { print passed + 0 }')
without=(env SYNED_LIB=nowhere CARGO_TARGET_DIR=target/without cargo)
quietly "${without[@]}" check -j1 --offline --quiet
quietly "${without[@]}" doc --no-deps --offline --quiet
clippy='no clippy'
if cargo clippy --version >/dev/null 2>&1; then
    quietly "${without[@]}" clippy -j1 --all-targets --offline --quiet -- -D warnings
    clippy='clippy is content'
fi
try_proc_macro2
echo "rust: $passed tests passed, checked and documented without an archive, $clippy"
[ "$passed" -gt 0 ]
