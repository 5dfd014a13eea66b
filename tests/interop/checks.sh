# What a role must show; sourced by run.sh.

fail() {
    echo "run.sh: $role: $*"
    tail -n 30 "$log"
    exit 1
}

# until_so SECONDS WHAT COMMAND..
until_so() {
    local deadline=$((SECONDS + $1)) what=$2
    shift 2
    until "$@"; do
        [ "$SECONDS" -lt "$deadline" ] || fail "$what: not in time"
        sleep 0.3
    done
}

said() { [ "$(grep -c -E -- "$1" "$log")" -ge "${2:-1}" ]; }
operational() { vty 'show mpls ldp neighbor' | grep -q OPERATIONAL; }
lists() { vty 'show mpls ldp binding' | grep -q -E "$1"; }
lacks() { ! lists "$1"; }

# tell COMMAND: at the cabinet's console
tell() { echo "$1" >&7; }

# keep WORDS..: the words of FRR, with the command before them
keep() { { echo "frr# $1"; vty "$1"; echo; } >>"$out/$role-frr.txt"; }

# one_role NAME OUR-LSR FRR-LSR
one_role() {
    role=$1
    log=$out/$role-cabinet.txt
    rm -f "$work/image" "$out/$role-frr.txt"
    make_link "$2" "$3"
    start_capture "$work/$role.pcap"
    start_frr "$2" "$3"
    start_cabinet "$2" "$3" "$log"
    tell "give 100 10.7.0.0/16"
    tell "give 101 10.8.0.0/16"
    comes_up
    stays_up
    takes_changes
    is_shut_down
    tell quit
    stop_all
    remove_link
    read_capture | sed 's/ *$//' >"$out/$role-tshark.txt"
    if grep -q -i 'malformed' "$out/$role-tshark.txt"; then fail "tshark finds something malformed"; fi
    echo "run.sh: $role: up $(grep -c '^up UpPlain' "$log") times, $(grep -c '^received' "$log") messages read beside KeepAlives, answer 36 $(grep -c 'answer 36' "$log") time"
}

# signed_role NAME OUR-LSR FRR-LSR: TCP MD5 signatures with FRR's `neighbor .. password`: with a wrong key the session does not come up, with FRR's it does
signed_role() {
    role=signed-$1
    make_link "$2" "$3"
    start_frr "$2" "$3" "right-key"
    for key in wrong right; do
        log=$out/$role-$key.txt
        rm -f "$work/image" "$out/$role-frr.txt"
        start_cabinet "$2" "$3" "$log" "$key-key"
        tell "give 100 10.7.0.0/16"
        until_so 40 "a Hello" said "^a Hello of the peer's has come"
        if [ "$key" = wrong ]; then stays_down; else comes_up_signed; fi
        tell quit
        wait "${pids[-1]}" || fail "the cabinet did not end well"
        unset "pids[-1]"
    done
    stop_all
    remove_link
    echo "run.sh: $role: down with a wrong key, up with FRR's"
}

# For two KeepAlive times
stays_down() {
    sleep 30
    if said '^up '; then fail "up with a wrong key"; fi
    if operational; then fail "FRR says so with a wrong key"; fi
}

comes_up_signed() {
    until_so 60 "the session is up" said '^up UpPlain'
    until_so 20 "FRR says so" operational
    until_so 20 "our label at FRR" lists '10\.7\.0\.0/16 .* 100 '
    keep 'show mpls ldp neighbor'
}

# Every packet in a line; then the first Inits and the Notification whole
read_capture() {
    tshark -r "$work/$role.pcap" -Y ldp -t r 2>/dev/null
    for type in 0x0200 0x0001; do
        echo
        tshark -r "$work/$role.pcap" -Y "ldp.msg.type == $type" -V 2>/dev/null | awk '/^Frame/ { frames++; shown = 0 } /^Label Distribution/ { shown = 1 } shown && frames <= 2 && NF'
    done
}

# Init taken both ways, no FT Session in FRR's: UpPlain. Its Address and Mappings are read, ours are listed there.
comes_up() {
    until_so 40 "the session is up" said '^up UpPlain, KeepAlive time 15 s'
    until_so 20 "FRR says so" operational
    until_so 20 "an Address message" said '^received Address'
    until_so 20 "a Mapping of implicit null" said '^received Label Mapping: label 3, '
    until_so 20 "our labels at FRR" lists '10\.7\.0\.0/16 .* 100 '
    keep 'show mpls ldp discovery'
    keep 'show mpls ldp neighbor'
    keep 'show mpls ldp binding'
}

# More than three hold intervals, on one connection
stays_up() {
    sleep 50
    operational || fail "FRR has lost the session"
    if said '^connection closed'; then fail "the connection was closed"; fi
    keep 'show mpls ldp neighbor'
}

# A label of ours is withdrawn. A route comes to FRR and goes: a Mapping, and a Withdraw, which is answered with a Release.
takes_changes() {
    tell "withdraw 101"
    until_so 20 "our label is gone at FRR" lacks '10\.8\.0\.0/16 .* 101 '
    until_so 20 "FRR's Release" said '^received Label Release: label 101, '
    vty 'configure terminal' 'ip route 10.9.0.0/16 10.0.12.1' >/dev/null
    until_so 20 "a Mapping of the new route" said '^received Label Mapping: label [0-9]+, 10\.9\.0\.0/16'
    vty 'configure terminal' 'no ip route 10.9.0.0/16 10.0.12.1' >/dev/null
    until_so 20 "a Withdraw of it" said '^received Label Withdraw: label [0-9]+, 10\.9\.0\.0/16'
    tell labels
}

# FRR's Notification with status Shutdown, E set: 36. Then the session comes up again.
is_shut_down() {
    vty 'clear mpls ldp neighbor' >/dev/null
    until_so 20 "answer 36" said '^receive: answer 36, the peer ends the session'
    until_so 60 "the session is up again" said '^up UpPlain' 2
    until_so 20 "FRR says so again" operational
    until_so 20 "our label at FRR again" lists '10\.7\.0\.0/16 .* 100 '
    keep 'show mpls ldp neighbor'
    keep 'show mpls ldp binding'
}
