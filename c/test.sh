#!/usr/bin/env bash
# Builds the library for C and for Python into a temporary folder and tests it: c/test_*.c, python/test_erlay.py, the
# examples, and the tests in C again under the address and undefined-behaviour sanitizers where these are there.
# Without a C compiler or Python it says so and tests nothing. CC names the C compiler, PYTHON the interpreter.
set -euo pipefail
top=$(cd "$(dirname "$(readlink -f "$0")")/.." && pwd)
cc=${CC:-cc}
python=${PYTHON:-python3}
for tool in "$cc" ar "$python"; do
    command -v "$tool" >/dev/null || { echo "library: skipped, since there is no $tool"; exit 0; }
done

built=$(mktemp -d)
trap 'rm -rf "$built"' EXIT
echo "library: building liberlay.a and liberlay.so"
"$top/c/build.sh" "$built"
flags=(-std=c11 -O1 -g -Wall -Wextra -Wpedantic -Werror -I "$built/include")

# run_all SUFFIX OPTION..: builds the tests in C with these options, and runs them
run_all() {
    local suffix=$1 name
    shift
    for name in test_erlay test_minisketch test_memory; do
        local wraps=()
        [ "$name" = test_memory ] && wraps=(-Wl,--wrap=malloc,--wrap=realloc,--wrap=free)
        $cc "${flags[@]}" "$@" "$top/c/$name.c" "$top/c/minisketch.c" -o "$built/$name$suffix" "$built/lib/liberlay.a" "${wraps[@]}"
        "$built/$name$suffix"
        echo "library: $name$suffix passed"
    done
}

run_all ""
cxx=${CXX:-c++}
if command -v "$cxx" >/dev/null; then # C++ reads the headers
    printf '#include "erlay.h"\n#include "minisketch.h"\nint main() { return minisketch_bits_supported(32) - 1 + static_cast<int>(erlay_sketch_size(0)); }\n' >"$built/headers.cpp"
    $cxx -std=c++11 -Wall -Wextra -Wpedantic -Werror -I "$built/include" "$built/headers.cpp" -o "$built/headers" "$built/lib/liberlay.a" && "$built/headers"
fi
sanitizers=(-fsanitize=address,undefined -fno-sanitize-recover=all)
echo 'int main(void) { return 0; }' >"$built/probe.c"
if $cc "${sanitizers[@]}" "$built/probe.c" -o "$built/probe" 2>/dev/null && "$built/probe"; then
    run_all _sanitized "${sanitizers[@]}"
else
    echo "library: the sanitizers are not there, so no test runs under them"
fi

# as a program for libminisketch is linked: against the shared library, by its pkg-config file where there is pkg-config
link="-I$built/include -L$built/lib -lerlay"
if command -v pkg-config >/dev/null; then
    link=$(PKG_CONFIG_PATH=$built/lib/pkgconfig pkg-config --cflags --libs erlay)
fi
export LD_LIBRARY_PATH=$built/lib${LD_LIBRARY_PATH:+:$LD_LIBRARY_PATH}
# shellcheck disable=SC2086
$cc -std=c11 "$top/c/test_minisketch.c" -o "$built/shared" $link && "$built/shared"
# shellcheck disable=SC2086
$cc -std=c11 -Wall -Werror "$top/examples/difference.c" -o "$built/difference" $link
[ "$("$built/difference")" = $'00000001\n89abcdef' ] || { echo "library: examples/difference.c writes another difference" >&2; exit 1; }
echo "library: the shared library passed, with examples/difference.c"

export ERLAY_LIBRARY=$built/lib/liberlay.so PYTHONPATH=$top/python PYTHONDONTWRITEBYTECODE=1
[ "$("$python" "$top/examples/difference.py")" = $'00000001 ours\n89abcdef theirs' ] || { echo "library: examples/difference.py writes another difference" >&2; exit 1; }
"$python" "$top/python/test_erlay.py"
echo "library: python/test_erlay.py passed, with examples/difference.py"
