#!/usr/bin/env bash
# Proves the library and the three programs, and builds them:
#   target/staticlib/libldp_ft.a, libldp_ft.so.MAJOR and its copy libldp_ft.so   include/ldp_ft.h declares them and says the version
#   target/bin/ldp_dump, target/bin/print_image, target/bin/convert_image
# rt leaves the archive and each program in the out/ folder of its crate; they are copied to target/, where all else looks for them.
# Shows a line for each crate as rt reports it proved; target/build-library.log has all that the prover said. Where all that they are made from is as
# it was, and they are too, nothing is proved again.
set -euo pipefail
cd "$(dirname "$0")/.."
# a check at a time for each processor, as many as memory holds
jobs=$(awk -v most="$(nproc)" '/^MemAvailable:/ { n = int($2 / 3000000); print n < 1 ? 1 : n < most ? n : most }' /proc/meminfo)
cc="${CC:-cc}"
programs=(ldp_dump print_image convert_image)
log=target/build-library.log
stamp=target/build-library.stamp

fail() {
    echo "tools/build-library.sh: $1" >&2
    exit 1
}
for tool in rt "$cc"; do
    command -v "$tool" >/dev/null || fail "there is no $tool on the path"
done
major=$(sed -n 's/^#define LDP_FT_VERSION_MAJOR \([0-9][0-9]*\)$/\1/p' include/ldp_ft.h)
[ -n "$major" ] || fail "include/ldp_ft.h has no line '#define LDP_FT_VERSION_MAJOR N', which the shared object is named by"
built=(target/staticlib/libldp_ft.a "target/staticlib/libldp_ft.so.$major" target/staticlib/libldp_ft.so "${programs[@]/#/target/bin/}")

# the crates of this repository that a crate stands on: its line in crates.txt has all of them, and the kit's libraries; before the colon may stand more
# than its name, as `staticlib`
stands_on() {
    sed -nE "s/^$1( [^:]*)?://p" crates.txt | tr ' ' '\n' | while read -r name; do
        if [ -n "$name" ] && [ -d "crates/$name" ]; then echo "$name"; fi
    done
}
mapfile -t crates < <(for name in ldp_ft "${programs[@]}"; do
    stands_on "$name"
    echo "$name"
done | sort -u)
count=${#crates[@]}

# one sum over what the results are made from, and over the results
state() {
    {
        rt version
        uname -m
        "$cc" --version
        echo "$major"
        sha256sum crates.txt tools/build-library.sh
        find "${crates[@]/#/crates/}" -type f ! -path '*/must-fail/*' ! -path '*/out/*' | sort | xargs -d '\n' sha256sum
        sha256sum "${built[@]}" 2>&1
    } | sha256sum
}
results="target/staticlib/libldp_ft.a, libldp_ft.so; target/bin/ldp_dump, print_image, convert_image"
if [ -f "$stamp" ] && [ "$(state)" = "$(cat "$stamp")" ]; then
    echo "$results: unchanged"
    exit 0
fi

# of rt's report each crate as it comes: its part begins with `== NAME` and ends with the verdict, or is empty where nothing has changed
declare -A proved=()
tell_proved() {
    if [ -n "$name" ] && [ -z "${proved[$name]:-}" ] && [[ $last =~ ^(logic=proved .*)?$ ]]; then
        proved[$name]=yes
        echo "proved ${#proved[@]} of $count: $name (after $SECONDS s)"
    fi
}
prove() {
    local name='' last='' line next
    while IFS= read -r line; do
        printf '%s\n' "$line" >>"$log"
        if [[ $line =~ ^==\ ([a-z0-9_]+)$ ]]; then
            next=${BASH_REMATCH[1]}
            tell_proved
            name=$next last=
            [ "$name" != summary ] || name=
        elif [[ $line != rt:* ]]; then
            last=$line
        fi
    done < <(cd "crates/$1" && rt all check --jobs "$jobs" 2>&1 || echo "rt: ended with $?")
    grep --quiet "^[0-9]* of [0-9]* crates ok$" <<<"$last" && ! grep --quiet '^rt: ended with' <(tail -n 1 "$log")
}
# build CRATE MADE TO COMMAND..: rt's command in the crate's folder makes a file, which is copied; in one step, so that none is ever there in part
build() {
    local crate=$1 made=$2 to=$3
    shift 3
    (cd "crates/$crate" && "$@" </dev/null) >>"$log" 2>&1
    cp "crates/$crate/$made" "$to.new"
    mv "$to.new" "$to"
}
link() {
    cd target/staticlib
    "$cc" -shared -o "libldp_ft.so.$major" "-Wl,-soname,libldp_ft.so.$major" -Wl,--whole-archive libldp_ft.a -Wl,--no-whole-archive -Wl,--no-undefined
    # a copy: rt refuses links in a checkout
    cp -f --remove-destination "libldp_ft.so.$major" libldp_ft.so
}
tell_failure() {
    if [ $? -ne 0 ]; then
        tail -n 30 "$log" >&2
        echo "tools/build-library.sh: FAILED; $log has all of it" >&2
    fi
}
mkdir -p target
rm -f "$stamp"
: >"$log"
trap tell_failure EXIT
mkdir -p target/staticlib target/bin
echo "proving $count crates, some of which take a minute; $log has all that the prover says"
for name in ldp_ft "${programs[@]}"; do
    prove "$name"
done
build ldp_ft out/libldp_ft.a target/staticlib/libldp_ft.a rt lib
for program in "${programs[@]}"; do
    # rt builds a program where it runs it
    build "$program" "out/$program" "target/bin/$program" rt run -- --help
done
(link) >>"$log" 2>&1
state >"$stamp"
echo "$results"
