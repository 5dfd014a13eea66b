#!/usr/bin/env bash
# loopback.sh CABINET: two cabinets in two processes on 127.0.0.1 and 127.0.0.2, one with the draft's form of FT Session and one with the published form, exchange labels while the
# connection is cut and each of them is killed and begins again from its store; both label lists are then as they must be. Ends by itself in seconds.
set -euo pipefail
if [ $# -ne 1 ] || [ ! -x "$1" ]; then
    echo "usage: examples/loopback.sh CABINET: the program that make -C examples builds, target/examples/cabinet" >&2
    exit 2
fi
cabinet=$1
work=$(mktemp -d)
declare -A pid
port=0

finish() {
    for name in "${!pid[@]}"; do kill "${pid[$name]}" 2>/dev/null || true; done
    wait
    rm -rf "$work"
}
trap finish EXIT

fail() {
    echo "loopback.sh: $*"
    for name in a b; do sed "s/^/$name: /" "$work/$name.log" | tail -n 20; done
    exit 1
}

# until WHAT COMMAND..: the command succeeds within two minutes
until_so() {
    local what=$1 deadline=$((SECONDS + 120))
    shift
    until "$@"; do
        [ "$SECONDS" -lt "$deadline" ] || fail "$what: not within two minutes"
        sleep 0.05
    done
}

# start NAME OUR-LSR PEER-LSR HOW OUR-ADDRESS PEER-ADDRESS TIMEOUT FORM: with its console at a descriptor of this script; KeepAlive time 3 s
start() {
    local name=$1 console
    "$cabinet" "$work/$name.image" "$2" "$3" "$4" "$5" "$6" "$port" 3 "$7" "$8" <"$work/$name.console" >>"$work/$name.log" 2>&1 &
    pid[$name]=$!
    exec {console}>"$work/$name.console"
    printf -v "console_$name" '%s' "$console"
}
# a proposes 300 seconds, b 200,500 milliseconds: both keep the lesser, and no busy machine outlasts it
start_a() { start a 10.255.0.1 10.255.0.2 listen 127.0.0.1 127.0.0.2 300 draft; }
start_b() { start b 10.255.0.2 10.255.0.1 connect 127.0.0.2 127.0.0.1 200500 published; }

tell() { local console="console_$1"; echo "$2" >&"${!console}"; }
prefix() { echo "10.$(($1 / 256)).$(($1 % 256)).0/24"; }
give() { local label; for label in $(seq "$2" "$3"); do tell "$1" "give $label $(prefix "$label")"; done; }
stored() { "$cabinet" show "$work/$1.image"; }
said() { [ "$(grep -c -F -- "$2" "$work/$1.log")" -ge "$3" ]; }

# power_cut NAME: the process is gone at once, with all that is not in its store, and the store is sound
power_cut() {
    kill -KILL "${pid[$1]}"
    wait "${pid[$1]}" 2>/dev/null || true
    stored "$1" >/dev/null || fail "the store of $1 is refused: $(stored "$1")"
}

# holds NAME TEXT: the labels in its store, and nothing held
holds() { [ "$(stored "$1" | grep -E '^(label|held)' | sort)" = "$(sort <<<"$2")" ]; }
labels() { local label; for label in $(seq "$1" "$2"); do echo "label $label of $(prefix "$label") $3"; done; }

mkfifo "$work/a.console" "$work/b.console"
touch "$work/a.log" "$work/b.log"
start_a
until_so "a listens" said a listening 1
port=$(sed -n 's/^listening //p' "$work/a.log")
start_b
give a 100 119
give b 200 219
until_so "the first labels at a" holds a "$(labels 100 119 given; labels 200 219 using)"
until_so "the first labels at b" holds b "$(labels 100 119 using; labels 200 219 given)"

tell b cut
give a 120 129
until_so "resumed after a cut" said a "up UpFT, resumed" 1
until_so "labels after the cut" holds b "$(labels 100 129 using; labels 200 219 given)"

give b 220 229
power_cut b
start_b
until_so "b begins with what it had stored" said b "begin Failed" 1
until_so "resumed after b's power cut" said a "up UpFT, resumed" 2

give a 130 134
power_cut a
start_a
until_so "a begins with what it had stored" said a "begin Failed" 1
until_so "resumed after a's power cut" said b "up UpFT, resumed" 3
give a 130 134
give b 220 229
until_so "labels after the power cuts" holds a "$(labels 100 134 given; labels 200 229 using)"

for label in 100 101 102; do tell a "withdraw $label"; done
until_so "labels of a at the end" holds a "$(labels 103 134 given; labels 200 229 using)"
until_so "labels of b at the end" holds b "$(labels 103 134 using; labels 200 229 given)"
said a "FT Session has the published form" 4 || fail "a was not always sent the published form"
said b "FT Session has the draft's form" 4 || fail "b was not always sent the draft's form"
for name in a b; do
    [[ $(stored "$name") == *" timeout 200500 ms"* ]] || fail "$name keeps its state for another time: $(stored "$name" | head -n 1)"
    tell "$name" quit
    wait "${pid[$name]}" || fail "$name did not end well"
    unset "pid[$name]"
done
echo "loopback.sh: both forms, 65 labels given, 3 of them taken back, over one cut and two power cuts; a: $(stored a | head -n 1); both lists as expected"
