#!/usr/bin/env bash
# The headers as C99, C11 and C++17, with what the archive exports; the trials with the archive and with the shared object (tools/build-library.sh makes both); the stack that a call uses; no division;
# the example cabinet: how it is called, with a peer of another maker, beside strangers, with signatures, and, with the library installed, with another of its own.
set -euo pipefail
cd "$(dirname "$0")/../.."
library=target/staticlib
work=$(mktemp -d)
trap 'rm -rf "$work"' EXIT
flags=(-Wall -Wextra -Werror -pedantic -Iinclude)
for standard in c99 c11; do
    "${CC:-cc}" "-std=$standard" "${flags[@]}" -c tests/c/layout.c -o "$work/layout.o"
done
"${CXX:-c++}" -x c++ -std=c++17 "${flags[@]}" -c tests/c/layout.c -o "$work/layout.o"
declared=$(sed -n 's/^[a-z0-9_]* \(ldp_ft_[a-z0-9_]*\)(.*/\1/p' include/ldp_ft.h | sort)
exported=$(nm --defined-only --extern-only "$library/libldp_ft.a" | awk '$2 == "T" { print $3 }' | sort)
diff <(echo "$declared") <(echo "$exported") || { echo "run.sh: the header declares others than the archive exports"; exit 1; }
trials=()
for source in trial session requests left_out labels prefixes plain images format published convert readings text; do
    "${CC:-cc}" -std=c99 "${flags[@]}" -c "tests/c/$source.c" -o "$work/$source.o"
    trials+=("$work/$source.o")
done
"${CC:-cc}" "${trials[@]}" "$library/libldp_ft.a" -o "$work/with-archive"
"${CC:-cc}" "${trials[@]}" -L"$library" -lldp_ft -Wl,-rpath,"$PWD/$library" -o "$work/with-shared-object"
"$work/with-archive"
"$work/with-shared-object"
tests/c/stack.py
tests/c/no_divide.sh
make --silent -C examples BUILD="$work/examples"
for test in words peer strangers signed; do
    timeout 600 "tests/c/$test.py" "$work/examples/cabinet"
done
tests/c/installed.sh
