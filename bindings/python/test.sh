#!/usr/bin/env bash
# test.sh: runs all tests of the Python package, the examples in its docstrings, its installation by pip, and mypy where
# it is installed. It needs bindings/out (`bash bindings/build.sh`) and SYNED_ROWS, a folder that bindings/scripts.py
# filled.
set -euo pipefail
: "${SYNED_ROWS:?names a folder that bindings/scripts.py filled}"
SYNED_ROWS=$(realpath "$SYNED_ROWS")
export SYNED_ROWS
cd "$(dirname "$0")"

said=$(mktemp)
trap 'rm -f "$said"' EXIT
if ! python3 -m unittest discover -s tests -t . >"$said" 2>&1; then
    cat "$said"
    echo 'python: tests failed'
    exit 1
fi
tests=$(sed -n 's/^Ran \([0-9]*\) tests.*/\1/p' "$said")
rows=$(find "$SYNED_ROWS" -name '*.script' | wc -l)
types='no mypy'
for mypy in 'python3 -m mypy' mypy; do
    if $mypy --version >/dev/null 2>&1; then
        $mypy --strict syned build/wheel_with_library.py >"$said" || { cat "$said" && echo 'python: types failed' && exit 1; }
        types='types checked'
        break
    fi
done
installed='no pip'
if python3 -m pip --version >/dev/null 2>&1; then
    room=$(mktemp -d)
    trap 'rm -rf "$said" "$room"' EXIT
    python3 -m pip install --quiet --no-index --no-deps --target "$room/site" . >"$said" 2>&1 || { cat "$said" && exit 1; }
    # The package that was installed, with the library in it.
    installed_says="import doctest, sys, syned; sys.exit(doctest.testmod(syned).failed)"
    (cd "$room" && SYNED_LIB= PYTHONPATH=site python3 -c "$installed_says")
    (cd "$room" && SYNED_LIB= PYTHONPATH=site python3 -c 'import syned; print(syned.library_version())') >"$said"
    grep -qx "$(sed -n 's/^__version__ = "\(.*\)"$/\1/p' syned/__init__.py)" "$said" || { echo 'python: not installed' && exit 1; }
    installed='installed by pip'
fi
echo "python: $tests tests passed, $rows scripts as expected on 8 threads, $types, $installed"
