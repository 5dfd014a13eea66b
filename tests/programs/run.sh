#!/usr/bin/env bash
# Runs ldp_dump, print_image and convert_image as people start them, with a file's name, --help, what they refuse and what cannot be read, and compares what
# they write on both outputs, and of convert_image the file that it makes. Then tools/install.sh with what it refuses.
# rt ci runs the programs on their stored input alone; tools/build-library.sh builds them.
set -euo pipefail
cd "$(dirname "$0")/../.."
room=$(mktemp -d)
trap 'rm -rf "$room"' EXIT

# expect OUT ERR PROGRAM ARGUMENT..: two files that hold what the program writes with these arguments
expect() {
    local out=$1 err=$2 program=$3
    shift 3
    "target/bin/$program" "$@" <"$input" >"$room/out" 2>"$room/err"
    if ! cmp -s "$room/out" "$out" || ! cmp -s "$room/err" "$err"; then
        echo "tests/programs/run.sh: $program${*:+ $*}: it wrote" >&2
        head -n 5 "$room/out" "$room/err" >&2
        exit 1
    fi
}

: >"$room/nothing"
for program in ldp_dump print_image; do
    input=crates/$program/stdin
    stored=crates/$program/stdout
    expect "$stored" "$room/nothing" "$program"
    input=$room/nothing
    expect "$stored" "$room/nothing" "$program" "crates/$program/stdin"

    "target/bin/$program" --help >"$room/usage" </dev/null
    if [ "$(grep -c "^usage: $program \[FILE\]" "$room/usage")" -ne 1 ] || [ "$(wc -l <"$room/usage")" -ne 1 ]; then
        echo "tests/programs/run.sh: $program --help does not print one line of usage" >&2
        exit 1
    fi
    expect "$room/usage" "$room/nothing" "$program" --help
    for unknown in --version -h -- - ""; do
        expect "$room/nothing" "$room/usage" "$program" "$unknown"
    done
    expect "$room/nothing" "$room/usage" "$program" "$stored" "$stored"
    expect "$room/nothing" "$room/usage" "$program" --help "$stored"
    echo "$room/no_such_file: No such file or directory" >"$room/said"
    expect "$room/nothing" "$room/said" "$program" "$room/no_such_file"
done

# what cannot be read is told as such, and not judged: a folder, no standard input at all, and an input that fails after some bytes: the memory of the process
# that runs the program, up to where it ends
# failing BYTES PROGRAM ARGUMENT..
failing() {
    python3 - "$room" "$@" <<'END'
import ctypes, mmap, os, subprocess, sys
room, length, *command = sys.argv[1:]
# a page with nothing behind it; a PDU of 260 bytes begins so far before its end
place, read_write, private_anonymous_fixed = 1 << 40, 0x3, 0x100022
end, begun = place + mmap.PAGESIZE, bytes([0, 1, 1, 0]).ljust(100, b"\0")[: int(length)]
of_c = ctypes.CDLL(None).mmap
of_c.restype, of_c.argtypes = ctypes.c_void_p, [ctypes.c_void_p, ctypes.c_size_t, *[ctypes.c_int] * 3, ctypes.c_long]
assert of_c(place, mmap.PAGESIZE, read_write, private_anonymous_fixed, -1, 0) == place
ctypes.memmove(end - len(begun), begun, len(begun))
memory = os.open("/proc/self/mem", os.O_RDONLY)
os.lseek(memory, end - len(begun), os.SEEK_SET)
with open(room + "/out", "wb") as out, open(room + "/err", "wb") as err:
    subprocess.run(command, stdin=memory, stdout=out, stderr=err, check=True)
END
}
for program in ldp_dump print_image "convert_image forward $room/unread"; do
    # shellcheck disable=SC2086  # a program and its arguments
    set -- $program
    echo "standard input: Is a directory" >"$room/said"
    input=$room
    expect "$room/nothing" "$room/said" "$@"
    echo "standard input: Input/output error" >"$room/said"
    for length in 0 100; do
        failing "$length" "target/bin/$1" "${@:2}"
        cmp "$room/err" "$room/said"
        # ldp_dump has written what it read before
        if [ "$1" != ldp_dump ] && [ -s "$room/out" ]; then
            echo "tests/programs/run.sh: $1 judges an image that it could not read: $(cat "$room/out")" >&2
            exit 1
        fi
    done
    echo "standard input: Bad file descriptor" >"$room/said"
    "target/bin/$1" "${@:2}" <&- >"$room/out" 2>"$room/err"
    cmp "$room/err" "$room/said"
    cmp "$room/out" "$room/nothing"
done
[ ! -e "$room/unread" ]
input=$room/nothing
for program in ldp_dump print_image; do
    for unread in "$room: Is a directory" "/proc/self/mem: Input/output error"; do
        echo "$unread" >"$room/said"
        expect "$room/nothing" "$room/said" "$program" "${unread%%:*}"
    done
done
# a pipe that has ended is no fault, and neither is one that stays open behind a PDU that ends the dump
: >"$room/said"
head -c 100 "crates/print_image/stdin" | target/bin/print_image >"$room/out" 2>"$room/err"
cmp "$room/err" "$room/said"
[ "$(cat "$room/out")" = "refused 12 block 0" ]
mkfifo "$room/pipe"
timeout 60 target/bin/ldp_dump <"$room/pipe" >"$room/out" 2>"$room/err" &
dump=$!
exec 3>"$room/pipe"
printf '\0\2\0\6\0\0\0\1\0\0' >&3
wait "$dump"
exec 3>&-
cmp "$room/err" "$room/said"
[ "$(cat "$room/out")" = "0 malformed pdu" ]

# convert_image: every answer, either way. The file is there whole when its line is; a refusal makes no file
mkdir "$room/cases"
python3 tests/images/conversions.py "$room/cases"
for given in "$room"/cases/*.in; do
    case=${given%.in}
    input=$given
    expect "$case.line" "$room/nothing" convert_image "$(cat "$case.args")" "$case.made"
    if [ -e "$case.out" ]; then
        cmp "$case.made" "$case.out"
    elif [ -e "$case.made" ]; then
        echo "tests/programs/run.sh: convert_image made a file of ${case##*/}, which it refuses" >&2
        exit 1
    fi
done
# a file that is there stays as it is, and one that cannot be made is said to be so
input=$room/cases/paper.in
echo kept >"$room/kept"
echo "$room/kept: File exists" >"$room/said"
expect "$room/nothing" "$room/said" convert_image forward "$room/kept"
[ "$(cat "$room/kept")" = kept ]
echo "$room/no_folder/made: No such file or directory" >"$room/said"
expect "$room/nothing" "$room/said" convert_image forward "$room/no_folder/made"
# a file that does not get there whole goes away again, and is not said to be there; nor is one whose line cannot be written called a fault of the file
echo "$room/short: File too large" >"$room/said"
(
    trap '' XFSZ
    ulimit -f 8
    exec target/bin/convert_image forward "$room/short"
) <"$input" >"$room/out" 2>"$room/err"
cmp "$room/err" "$room/said"
cmp "$room/out" "$room/nothing"
[ ! -e "$room/short" ]
echo "standard output: No space left on device" >"$room/said"
target/bin/convert_image forward "$room/untold" <"$input" >/dev/full 2>"$room/err"
cmp "$room/err" "$room/said"
cmp "$room/untold" "$room/cases/paper.out"
# usage
target/bin/convert_image --help >"$room/usage" </dev/null
if [ "$(grep -c "^usage: convert_image forward|back FILE" "$room/usage")" -ne 1 ] || [ "$(wc -l <"$room/usage")" -ne 1 ]; then
    echo "tests/programs/run.sh: convert_image --help does not print one line of usage" >&2
    exit 1
fi
expect "$room/usage" "$room/nothing" convert_image --help
expect "$room/nothing" "$room/usage" convert_image
for wrong in forward "" "forward -" "forward --help" "sideways made" "--help made" "forward made more"; do
    # shellcheck disable=SC2086  # one word for each argument
    expect "$room/nothing" "$room/usage" convert_image $wrong
done
expect "$room/nothing" "$room/usage" convert_image forward ""
[ ! -e made ]

# tools/install.sh: what asks for help, or is not known, installs nothing
tool=$PWD/tools/install.sh
mkdir "$room/empty"
cd "$room/empty"
for wrong in --help -h --prefix "" "one two"; do
    status=0
    # shellcheck disable=SC2086  # one word for each argument
    "$tool" $wrong >"$room/out" 2>"$room/err" || status=$?
    case $wrong in
    --help | -h) told=$room/out silent=$room/err due=0 ;;
    *) told=$room/err silent=$room/out due=2 ;;
    esac
    if [ "$status" -ne $due ] || [ -s "$silent" ] || ! grep --quiet '^usage: tools/install.sh PREFIX' "$told"; then
        echo "tests/programs/run.sh: tools/install.sh $wrong ended with $status and said" >&2
        cat "$room/out" "$room/err" >&2
        exit 1
    fi
done
[ -z "$(ls -A)" ]
echo "tests/programs/run.sh: ldp_dump, print_image and convert_image write what they should with every kind of argument and input; tools/install.sh installs only when asked"
