#!/usr/bin/env bash
# Proves and builds the library into a folder:
#
#   c/build.sh FOLDER
#
# FOLDER/include has erlay.h and minisketch.h, FOLDER/lib has liberlay.a and liberlay.so, and FOLDER/lib/pkgconfig has
# erlay.pc. CC names the C compiler, and CFLAGS adds options for minisketch.c (as -fsanitize=address). Needs rt on the
# path, a C compiler and ar.
set -euo pipefail
top=$(cd "$(dirname "$(readlink -f "$0")")/.." && pwd)
[ $# -eq 1 ] || { echo "usage: c/build.sh FOLDER" >&2; exit 2; }
mkdir -p "$1/include" "$1/lib/pkgconfig"
to=$(cd "$1" && pwd)
cc=${CC:-cc}
kit=$(dirname "$(rt doc)")

objects=$(mktemp -d)
trap 'rm -rf "$objects"' EXIT

# the proved part: out/liberlay_c.a, which calls the C library's memory through the kit's small file of C
(cd "$top/crates/erlay_c" && rt lib) >"$objects/log" 2>&1 || { cat "$objects/log" >&2; exit 1; }
(cd "$objects" && ar x "$top/crates/erlay_c/out/liberlay_c.a" && ar x "$kit/c/liblibc_c.a")
# shellcheck disable=SC2086
$cc -std=c11 -O2 -fPIC -Wall -Wextra -Wpedantic -Werror ${CFLAGS:-} -I "$top/c" -c "$top/c/minisketch.c" -o "$objects/minisketch.o"

rm -f "$to/lib/liberlay.a"
ar rcs "$to/lib/liberlay.a" "$objects"/*.o
# shellcheck disable=SC2086
$cc -shared ${CFLAGS:-} -Wl,-soname,liberlay.so -Wl,--version-script="$top/c/exports.map" -o "$to/lib/liberlay.so" "$objects"/*.o
cp "$top/c/erlay.h" "$top/c/minisketch.h" "$to/include/"
cat >"$to/lib/pkgconfig/erlay.pc" <<END
prefix=$to
includedir=\${prefix}/include
libdir=\${prefix}/lib

Name: erlay
Description: Sketches of sets of 32-bit numbers, proved
Version: 0.1.0
Cflags: -I\${includedir}
Libs: -L\${libdir} -lerlay
END
