# Two network namespaces with a link between them, and what runs in each; sourced by run.sh.
# The cabinet's end of the link is 10.0.12.1, FRR's 10.0.12.2; the LSR identifiers are addresses of the loopback interfaces.
ours=ldp-ft-cabinet-$$
theirs=ldp-ft-frr-$$

# finish: every process that was started is stopped, by its number, and the namespaces go
finish() {
    stop_all
    ip netns delete "$ours" 2>/dev/null || true
    ip netns delete "$theirs" 2>/dev/null || true
    rm -rf "$work"
}

stop_all() {
    local pid
    for pid in "${pids[@]}"; do kill "$pid" 2>/dev/null || true; done
    for pid in "${pids[@]}"; do
        while kill -0 "$pid" 2>/dev/null; do sleep 0.1; done
    done
    pids=()
}

# make_link OUR-LSR FRR-LSR
make_link() {
    ip netns add "$ours"
    ip netns add "$theirs"
    ip link add cabinet0 netns "$ours" type veth peer name frr0 netns "$theirs"
    set_up "$ours" cabinet0 10.0.12.1/24 "$1"
    set_up "$theirs" frr0 10.0.12.2/24 "$2"
    ip -n "$ours" route add "$2/32" via 10.0.12.2
}

# set_up NAMESPACE INTERFACE ADDRESS LSR; with checksums in the packets, so that captures read clean
set_up() {
    ip -n "$1" address add "$3" dev "$2"
    ip -n "$1" address add "$4/32" dev lo
    ip -n "$1" link set lo up
    ip -n "$1" link set "$2" up
    ip netns exec "$1" ethtool -K "$2" tx off >/dev/null 2>&1 || true
}

remove_link() {
    ip netns delete "$ours"
    ip netns delete "$theirs"
}

# start_frr OUR-LSR FRR-LSR [PASSWORD]: zebra, staticd and ldpd, each with its files in a folder of this run
start_frr() {
    local folder=$work/frr daemon
    rm -rf "$folder"
    mkdir -p "$folder"
    echo "hostname frr" >"$folder/zebra.conf"
    printf 'ip route %s/32 10.0.12.1\nip route 10.7.0.0/16 10.0.12.1\nip route 10.8.0.0/16 10.0.12.1\n' "$1" >"$folder/staticd.conf"
    cat >"$folder/ldpd.conf" <<END
mpls ldp
 router-id $2
${3:+ neighbor $1 password $3}
 address-family ipv4
  discovery transport-address $2
  session holdtime 15
  interface frr0
END
    chown -R frr:frr "$folder"
    chmod 755 "$work"
    for daemon in zebra staticd ldpd; do start_daemon "$folder" "$daemon"; done
}

# start_daemon FOLDER NAME
start_daemon() {
    local more=()
    if [ "$2" = ldpd ]; then more=(--ctl_socket "$1/"); fi
    ip netns exec "$theirs" "$frr/$2" --daemon --pid_file "$1/$2.pid" --socket "$1/zserv.api" --vty_socket "$1" --config_file "$1/$2.conf" \
        --log "file:$1/$2.log" --vty_port 0 "${more[@]}" 2>>"$1/start.log" || fail "$2 does not start: $(tail -n 1 "$1/start.log")"
    pids+=("$(cat "$1/$2.pid")")
}

# vty COMMAND..: of FRR
vty() {
    local arguments=() command
    for command in "$@"; do arguments+=(-c "$command"); done
    ip netns exec "$theirs" vtysh --vty_socket "$work/frr" "${arguments[@]}"
}

# start_capture FILE
start_capture() {
    ip netns exec "$ours" tcpdump -i cabinet0 --immediate-mode -U -w "$1" 'port 646' 2>/dev/null &
    pids+=($!)
}

# start_cabinet OUR-LSR FRR-LSR LOG [PASSWORD]: KeepAlive time 15 s, timeout 30 s in the unit of the form; its console is descriptor 7
start_cabinet() {
    local timeout=30 signed=()
    if [ "$form" = published ]; then timeout=30000; fi
    if [ -n "${4:-}" ]; then
        echo "$4" >"$work/key"
        signed=(--md5 "$work/key")
    fi
    rm -f "$work/console"
    mkfifo "$work/console"
    : >"$3"
    ip netns exec "$ours" "$work/examples/cabinet" "${signed[@]}" "$work/image" "$1" "$2" hello 10.0.12.1 15 "$timeout" "$form" <"$work/console" >"$3" 2>&1 &
    pids+=($!)
    exec 7>"$work/console"
}
