#!/usr/bin/env bash
# install.sh PREFIX: the headers, the archive, the shared object with its soname's names, and a file for pkg-config, below
# PREFIX (below $DESTDIR/PREFIX if that is set).
set -euo pipefail
usage() {
    echo "usage: tools/install.sh PREFIX   installs the headers, the libraries and a file for pkg-config below PREFIX"
    echo "                                 (below \$DESTDIR/PREFIX if DESTDIR is set); tools/build-library.sh comes first"
}
if [ $# -eq 1 ] && { [ "$1" = --help ] || [ "$1" = -h ]; }; then
    usage
    exit 0
fi
# what begins with - is an option that is not known, never a folder; ./- is one
case ${1:-} in '' | -*) known=no ;; *) known=yes ;; esac
if [ $# -ne 1 ] || [ $known = no ]; then
    usage >&2
    exit 2
fi
case $1 in /*) prefix=$1 ;; *) prefix=$PWD/$1 ;; esac
cd "$(dirname "$0")/.."
number() { sed -n "s/^#define LDP_FT_VERSION_$1 //p" include/ldp_ft.h; }
major=$(number MAJOR)
version=$major.$(number MINOR).$(number PATCH)
built=target/staticlib
for file in "$built/libldp_ft.a" "$built/libldp_ft.so.$major"; do
    [ -f "$file" ] || { echo "install.sh: $file is not there; tools/build-library.sh makes it" >&2; exit 1; }
done

below=${DESTDIR:-}$prefix
install -d "$below/include" "$below/lib/pkgconfig"
install -m 644 include/ldp_ft.h include/ldp_ft_text.h "$below/include/"
install -m 644 "$built/libldp_ft.a" "$below/lib/"
install -m 755 "$built/libldp_ft.so.$major" "$below/lib/libldp_ft.so.$version"
ln -sf "libldp_ft.so.$version" "$below/lib/libldp_ft.so.$major"
ln -sf "libldp_ft.so.$major" "$below/lib/libldp_ft.so"
cat >"$below/lib/pkgconfig/ldp_ft.pc" <<END
prefix=$prefix
includedir=\${prefix}/include
libdir=\${prefix}/lib

Name: ldp_ft
Description: The fault-tolerant LDP session of a cabinet (RFC 3036 with draft-ietf-mpls-ldp-ft-02 or RFC 3479)
Version: $version
Cflags: -I\${includedir}
Libs: -L\${libdir} -lldp_ft
END
echo "ldp_ft $version in $below: include/, lib/, lib/pkgconfig/ldp_ft.pc"
case :${PKG_CONFIG_PATH:-}: in
*:"$prefix/lib/pkgconfig":*) ;;
*) echo "pkg-config finds it with PKG_CONFIG_PATH=$prefix/lib/pkgconfig, programs that use the shared object with LD_LIBRARY_PATH=$prefix/lib" ;;
esac
