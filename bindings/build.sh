#!/usr/bin/env bash
# build.sh        makes bindings/out/libsyned.a, with the toolchain's C part and bindings/c/syned.c inside, and bindings/out/libsyned.so. It takes
#                 the archive of the crate `syned_c` that is there, unless a source is newer. Else it makes that archive: over the libraries that
#                 `rt ci` left, if these are fresh, in less than a minute, and by `rt lib`, which proves all of them, if not.
# build.sh try    makes both without proofs, in a minute, for those who only try: each call starts a program that was compiled without them. The
#                 version says so.
set -euo pipefail
cd "$(dirname "$0")/.."
room=$(mktemp -d)
trap 'rm -rf "$room"' EXIT
archive=crates/syned_c/out/libsyned_c.a
kit=$(dirname "$(rt doc)")
needed=$(python3 tests/api.py below syned_c)
libraries=${needed//syned_c/}

# Whether no source of these crates is newer than this file or folder.
is_newest() {
    local made=$1
    shift
    [ -e "$made" ] && [ -z "$(find "${@/#/crates/}" -name out -prune -o -type f -newer "$made" -print -quit)" ]
}

# Whether the gate left each library, made of the sources as they are.
are_left() {
    local library
    for library in $libraries; do
        is_newest "crates/$library/out/rlib/$library.rlib" "$library" || return 1
    done
}

# The same command with which `rt lib` builds, over the libraries of the gate. It proves what the archive adds to these.
build_over_left() {
    local library words=(--crate-name syned_c src/lib.rt --extern "std=$kit/rlibs/std.rlib" -L "dependency=$kit/rlibs")
    words+=(--extern syned_run=../syned_run/out/rlib/syned_run.rlib)
    for library in $libraries; do
        words+=(-L "dependency=../$library/out/rlib")
    done
    words+=(--antt-project "$kit/rattle/logic/antt-project.json" --logic-built "$kit/logic_built" --jobs 1)
    words+=(--links syned_c= --crate-type staticlib --toolchain "$kit/toolchain" --backend llvm -o out/libsyned_c.a)
    (cd crates/syned_c && mkdir -p out && rattle build "${words[@]}")
}

# The objects of a library over a program without proofs.
objects_to_try() {
    local program
    program=$(python3 examples/run.py --program)
    cp "$program" bindings/out/syned-not-proved
    cc -O2 -fPIC -Wall -Wextra -Werror -Ibindings/c -DSYNED_PROGRAM="\"$PWD/bindings/out/syned-not-proved\"" -c bindings/c/try.c -o "$room/try.o"
    version=", not proved"
    echo 'bindings: this library is not proved: each call starts a program that was compiled without proofs' >&2
}

# The objects of the archive.
objects() {
    if ! is_newest "$archive" $needed; then
        if are_left; then
            build_over_left
        else
            (cd crates/syned_c && rt lib)
        fi >bindings/build.log 2>&1 || { tail -n 20 bindings/build.log >&2 && exit 1; }
    fi
    archive=$PWD/$archive
    (cd "$room" && ar x "$archive" && ar x "$kit/c/liblibc_c.a")
}

version=
mkdir -p bindings/out
case ${1:-} in
'') objects ;;
try) objects_to_try ;;
*) sed -n '2,/^[^#]/s/^# //p' bindings/build.sh && exit 2 ;;
esac
cc -O2 -fPIC -Wall -Wextra -Werror -Ibindings/c -DSYNED_HOW="\"$version\"" -c bindings/c/syned.c -o "$room/syned_c_part.o"
rm -f bindings/out/libsyned.*
ar rcs bindings/out/libsyned.a "$room"/*.o
# Only what syned.h declares is exported. A program that was linked to another major version does not find this one.
{
    echo '{ global:'
    sed -n 's/^[a-z].*\b\(syned_[a-z_]*\)(.*);$/\1;/p' bindings/c/syned.h
    echo 'local: *; };'
} >"$room/exports"
cc -shared -o bindings/out/libsyned.so.0 "$room"/*.o -Wl,--version-script="$room/exports" -Wl,-soname,libsyned.so.0
ln -s libsyned.so.0 bindings/out/libsyned.so
