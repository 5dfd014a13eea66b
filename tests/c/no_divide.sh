#!/usr/bin/env bash
# The boot image has no divide routine: fails where the block check divides, and lists what else in the archive does.
# The compiler turns a division by a constant into a wide multiplication, so these count too; the check is merged into its callers, so its sources are read as well.
set -euo pipefail
cd "$(dirname "$0")/../.."
archive=${1:-target/staticlib/libldp_ft.a}
command -v objdump >/dev/null || { echo "no_divide.sh: objdump is not there"; exit 1; }

# "FUNCTION: WHAT" for each divide, each call of a divide routine and each product of twice the width
divisions() {
    objdump --disassemble --reloc --no-show-raw-insn "$archive" | awk '
        /^[0-9a-f]+ <.*>:$/ { name = substr($2, 2, length($2) - 3) }
        $2 ~ /^i?div[bwlq]?$/ || $2 ~ /^mulx/ || ($2 ~ /^i?mul[bwlq]?$/ && $3 !~ /,/) { print name ": " $2 }
        $2 ~ /^R_X86_64/ && $3 ~ /^__u?(div|mod)/ { print name ": " $3 }'
}

# the code of the check, with no comment, contract or import
sources() {
    sed -E -e 's://.*::' -e '/^    (requires|ensures)\b/,/^\{/d' -e '/^(ghost use|#)/d' crates/block/src/lib.rt crates/block/src/rows.rt crates/block/src/remainder.rt
}

objdump --syms "$archive" | grep ' block::rows::check_rows$' >/dev/null || { echo "no_divide.sh: the check is not found in $archive"; exit 1; }
found=$(divisions | sort -u)
in_check=$(
    grep -E '^(block::|ldp_ft_block_check:)' <<<"$found" || true
    sources | grep '[/%]' || true
)
if [ -n "$in_check" ]; then
    echo "no_divide.sh: the block check divides:"
    echo "$in_check"
    exit 1
fi
echo "no_divide.sh: the block check does not divide; elsewhere in the archive:"
echo "${found:-nothing divides}"
