#!/usr/bin/env bash
# all.sh            runs all tests, what fails soonest first: quick checks; all proofs and programs, and beside them planted bugs; then scripts,
#                   the model, chains of edits, hostile scripts, allocations that fail, their number, the bindings, and whether these tests
#                   notice a program that does nothing
# all.sh quick      the quick checks, for while you write, without proofs: format, docs, all rows, callers, counts of `bench`, scripts, the model,
#                   and the editor against it
# all.sh CHECK..    those of these that are named: docs format rows caller counts model models scripts
# Says how long each took, and names at the end those that failed.
set -euo pipefail
cd "$(dirname "$0")/.."
room=$(mktemp -d)
trap 'rm -rf "$room"' EXIT
started=()
passed=0
failed=()

# Runs a command as the step of this name, and keeps whether it succeeded.
timed() {
    local name=$1 TIMEFORMAT="$1: %0R seconds, processors %0U and %0S"
    shift
    if time "$@"; then : >"$room/$name.passed"; fi
}

# A step that others wait for.
step() {
    timed "$@"
    count "$1"
}

# A step beside others. What it prints comes when it is finished.
start() {
    timed "$@" >"$room/$1" 2>&1 &
    started+=("$1")
}

finish() {
    local name
    wait
    for name in "${started[@]}"; do
        cat "$room/$name"
        count "$name"
    done
    started=()
}

count() {
    if [ -e "$room/$1.passed" ]; then passed=$((passed + 1)); else failed+=("$1"); fi
}

# The last lines of a run, here or at its end: what failed, and nothing else.
end_if_failed() {
    [ ${#failed[@]} -gt 0 ] || return 0
    printf 'FAILED: %s\n' "${failed[@]}"
    exit 1
}

end() {
    end_if_failed
    echo "$passed passed, 0 failed"
}

# Each file of a crate as `rt fmt` lays it out.
format() {
    mkdir "$room/as_is"
    git ls-files -z --cached --others --exclude-standard crates crates.txt HANDLES |
        xargs -0 sh -c 'for file; do [ ! -e "$file" ] || printf "%s\0" "$file"; done' sh |
        xargs -0 cp --parents -t "$room/as_is"
    cp -r "$room/as_is" "$room/laid_out"
    for crate in "$room"/laid_out/crates/*/; do
        (cd "$crate" && rt fmt >/dev/null)
    done
    diff -r "$room/as_is/crates" "$room/laid_out/crates" && echo "format: as rt fmt lays it out"
}

# Quick checks, side by side.
quick() {
    local check
    for check; do
        case $check in
        docs) start docs python3 tests/docs.py ;;
        format) start format format ;;
        rows) start rows python3 tests/rows.py ;;
        caller) start caller python3 tests/programs.py caller ;;
        counts) start counts python3 tests/programs.py counts ;;
        model) start model python3 tests/models.py known ;;
        models) start models python3 tests/models.py quick ;;
        scripts) start scripts python3 tests/known.py quick ;;
        *) echo "all.sh: there is no check $check" >&2 && exit 2 ;;
        esac
    done
    finish
}

everything() {
    quick docs format model caller counts
    end_if_failed

    # One proof fewer than processors, with one job each: a proof takes up to a quarter more of their time with several jobs. The planted bugs take the
    # last processor.
    start planted env RT_JOBS=1 python3 tests/planted.py --gate
    step proofs env RT_JOBS=$(($(nproc) > 3 ? $(nproc) - 1 : 2)) rt ci
    finish
    end_if_failed

    start rows python3 tests/rows.py
    start scripts python3 tests/known.py
    start models python3 tests/models.py
    start chains python3 tests/chains.py
    start hostile python3 tests/hostile.py
    start growths_refused python3 tests/rows.py refused
    start growths python3 tests/rows.py growths
    start bindings bash bindings/test.sh
    finish
    step broken_programs tests/broken_programs.sh
}

case ${1:-} in
'') everything ;;
quick) quick docs format rows caller counts model models scripts ;;
--help) sed -n '2,/^[^#]/s/^# //p' tests/all.sh && exit ;;
*) quick "$@" ;;
esac
end
