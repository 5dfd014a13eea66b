#!/usr/bin/env bash
# Installs to a folder of its own, compiles the example cabinet with what pkg-config says of it and nothing else, and lets two of them exchange labels with the installed shared object.
set -euo pipefail
cd "$(dirname "$0")/../.."
work=$(mktemp -d)
trap 'rm -rf "$work"' EXIT
prefix=$work/prefix
tools/install.sh "$prefix"
export PKG_CONFIG_PATH=$prefix/lib/pkgconfig

# flags --cflags|--libs|--modversion
flags() {
    if command -v pkg-config >/dev/null; then
        pkg-config "$1" ldp_ft
        return
    fi
    local field
    case $1 in --cflags) field=Cflags ;; --libs) field=Libs ;; *) field=Version ;; esac
    sed -n "s/^$field: //p" "$PKG_CONFIG_PATH/ldp_ft.pc" | sed "s:\${includedir}:$prefix/include:; s:\${libdir}:$prefix/lib:"
}

command -v pkg-config >/dev/null || echo "installed.sh: pkg-config is not there; its file is read by hand"
version=$(flags --modversion)
soname=$(objdump --private-headers "$prefix/lib/libldp_ft.so" | awk '$1 == "SONAME" { print $2 }')
[ "$soname" = "libldp_ft.so.${version%%.*}" ] || { echo "installed.sh: the soname is '$soname', and the version $version"; exit 1; }
make --silent -C examples BUILD="$work" LDP_FT_CFLAGS="$(flags --cflags)" LDP_FT_LIBS="$(flags --libs)"
export LD_LIBRARY_PATH=$prefix/lib
objdump --private-headers "$work/cabinet" | grep --quiet "NEEDED *$soname" || { echo "installed.sh: the example does not need $soname"; exit 1; }
timeout 600 examples/loopback.sh "$work/cabinet"
