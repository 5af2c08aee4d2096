#!/usr/bin/env bash
# Tests the tests: each script that asks a program for answers has to fail, with status 1, where that program prints nothing and succeeds,
# prints nothing and fails, prints what it reads, or reads nothing and prints what `test_rows` has to print. tests/known.py has to fail, too,
# where `syned` has no answer for a text that gets too long, for one of more than 4,096 bytes or of a megabyte, or for a script of more than
# 300,000 bytes.
set -euo pipefail
cd "$(dirname "$0")/.."
if [ $# -gt 0 ]; then
    sed -n '2,/^[^#]/s/^# //p' tests/broken_programs.sh
    [ "$*" = --help ] && exit
    exit 2
fi
room=$(mktemp -d)
trap 'rm -rf "$room"' EXIT

tried=0
wrong=0

# A run of a script of tests, $2 and further, with the program $1 has to end with status 1.
must_fail() {
    local status=0 program=$1
    shift
    INSTEAD=$program timeout 300 "$@" </dev/null >"$room/out" 2>&1 || status=$?
    tried=$((tried + 1))
    if [ "$status" -ne 1 ]; then
        wrong=$((wrong + 1))
        echo "wrong: $* ends with status $status where the program is $program ${wrong_where:-}:"
        tail -n 5 "$room/out"
    fi
}

printf '#!/bin/sh\ncat "%s/crates/test_rows/stdout"\n' "$PWD" >"$room/unread"
chmod +x "$room/unread"
for program in true false cat "$room/unread"; do
    while read -r -a test; do
        must_fail "$(type -P "$program")" python3 "${test[@]}"
    done <<'TESTS'
tests/known.py
tests/known.py quick
tests/models.py
tests/models.py quick
tests/chains.py
tests/hostile.py
tests/hostile.py damage 100
tests/hostile.py deep 1000 8192
tests/rows.py
tests/rows.py refused
tests/rows.py growths
TESTS
done

# A program that is `syned`, but prints nothing and ends with status 3 where the command $1 holds of what it reads and prints, the files
# `in` and `out`.
syned=$(python3 tests/programs.py syned)
while IFS= read -r wrong_where; do
    {
        printf '#!/usr/bin/env bash\nroom=$(mktemp -d)\ntrap '\''rm -rf "$room"'\'' EXIT\ncat >"$room/in"\nstatus=0\n'
        printf '"%s" <"$room/in" >"$room/out" || status=$?\ncd "$room"\n' "$syned"
        printf 'if %s; then exit 3; fi\ncat out\nexit "$status"\n' "$wrong_where"
    } >"$room/program"
    chmod +x "$room/program"
    must_fail "$room/program" python3 tests/known.py examples limits
done <<'BUGS'
grep -q '^refused TooLong' out
[ "$(stat -c %s out)" -gt 4096 ]
[ "$(stat -c %s out)" -gt 1000000 ]
[ "$(stat -c %s in)" -gt 300000 ]
BUGS
echo "broken programs: noticed by $((tried - wrong)) of $tried runs of tests"
[ "$wrong" -eq 0 ]
