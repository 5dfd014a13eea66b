#!/usr/bin/env bash
# run.sh: the example cabinet on a live link with FRR's ldpd, in two network namespaces that this script makes and removes, in both TCP roles, and again with TCP MD5 signatures. Takes five minutes.
# What came out is written to the folder named as its argument (a new one below /tmp if there is none). FORM=published has our Inits in RFC 3479's form; else they are in the draft's. docs/INTEROP.md has a run.
set -euo pipefail
here=$(cd "$(dirname "$0")" && pwd)
top=$(cd "$here/../.." && pwd)
frr=${FRR:-/usr/lib/frr}
form=${FORM:-draft}
missing=$(for tool in ip tcpdump tshark vtysh make; do command -v $tool >/dev/null || echo "$tool"; done; for daemon in zebra staticd ldpd; do [ -x "$frr/$daemon" ] || echo "$frr/$daemon"; done)
if [ "$(id -u)" -ne 0 ] || [ -n "$missing" ]; then
    echo "tests/interop/run.sh needs root and Debian's packages frr, iproute2, tcpdump, tshark and make${missing:+; missing: $(echo $missing)}"
    exit 2
fi
out=${1:-$(mktemp -d)}
mkdir -p "$out"
work=$(mktemp -d)
pids=()
. "$here/link.sh"
. "$here/checks.sh"
trap finish EXIT
make --silent -C "$top/examples" BUILD="$work/examples"

# The greater identifier connects.
one_role connects 10.255.0.2 10.255.0.1
one_role listens 10.255.0.1 10.255.0.2
signed_role connects 10.255.0.2 10.255.0.1
signed_role listens 10.255.0.1 10.255.0.2
echo "run.sh: both roles as they must be, signed and not; what came out is in $out"
