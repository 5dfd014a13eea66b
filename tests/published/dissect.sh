#!/usr/bin/env bash
# dissect.sh: what Wireshark's dissector reads in our Inits in the published form. Puts each message of inits.txt into a PDU of 10.255.0.2:0, all of them into a capture of TCP port 646,
# and writes tshark's version and its reading of the LDP part to dissection.txt. Needs Debian's package tshark; make.py --check holds the reading to what we mean.
set -euo pipefail
cd "$(dirname "$0")"
for tool in tshark text2pcap; do
    command -v "$tool" >/dev/null || { echo "tests/published/dissect.sh needs $tool: Debian's package tshark"; exit 2; }
done
work=$(mktemp -d)
trap 'rm -rf "$work"' EXIT

# text2pcap's form: an offset, then the bytes; offset 0 begins a packet
grep -v '^#' inits.txt | while read -r _ _ _ message; do
    pdu=$(printf '0001%04x0aff00020000%s' $((${#message} / 2 + 6)) "$message")
    echo "000000 $(sed 's/../& /g' <<<"$pdu")"
done >"$work/bytes"
text2pcap -q -T 1025,646 -4 10.255.0.2,10.255.0.1 "$work/bytes" "$work/capture"
{
    tshark --version 2>/dev/null | head -n 1
    tshark -r "$work/capture" -V 2>/dev/null | awk '/^Label Distribution/ { shown = 1; print "" } /^Frame/ { shown = 0 } shown && NF'
} >dissection.txt
echo "tests/published/dissection.txt: $(grep -c '^Label Distribution' dissection.txt) Inits as $(head -n 1 dissection.txt) reads them"
