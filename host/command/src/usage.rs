//! What `--help` prints.

/// The tool as a whole.
pub const TOOL: &str = "\
ldp-ft COMMAND [OPTION..]
  image FILE                    what a stored image holds, or why it is refused
  convert forward|back IN OUT   a stored image of version 1 as one of version 2, or back
  dump FILE                     the messages of LDP PDUs: a stream, or lines of hexadecimal
  watch                         two cabinets at work, cut off and killed on the way; ends with a verdict
`ldp-ft COMMAND --help` says more, `ldp-ft --version` the version of the tool and of the library. Exit status: 0; 1
where input is refused or the verdict is bad; 2 for wrong usage, and for what cannot be read or written.
";

const IMAGE: &str = "\
ldp-ft image [--json] FILE
Says what a stored image holds: its six counts, what was agreed with the peer, every label with its prefix, if it has
one, and what it waits for, every open Request, and every message held with its FT number, or `pended` where it has none
yet. Labels and Requests stand in the order of their numbers. An image that fails a check is refused: the answer's
number, the block, which check, and what to do. So is one of version 1, which `ldp-ft convert forward` moves to version
2. FILE `-` is standard input.
  --json   one JSON object; its timeout is in milliseconds
Exit status: 0; 1 where the image is refused; 2 for wrong usage, and for what cannot be read or written.
";

const CONVERT: &str = "\
ldp-ft convert forward|back [--overwrite] IN OUT
Reads a stored image from IN and writes it to OUT in another version: forward from version 1 to version 2, back from
version 2 to version 1. Back and forth gives the same bytes. Block 0 alone differs: its timeout is in milliseconds in
version 2, in seconds in version 1. An image of 33,280 or 33,792 bytes, as earlier releases stored it, is extended on
the way forward; on the way back such a release reads the first so many bytes of OUT. An image that is refused is not
written: the answer's number, the block, and why.
IN `-` is standard input. OUT `-` is standard output, which then has the image alone; what was done is said on standard
error. A file is written beside OUT, synced and renamed, and its directory synced: it is there whole or not at all. A
new file has the mode of IN.
  10, 11   a check of the version that it should have fails; 11 in block 0 also where it has the other version
  12       it has another size
  16       forward: the last of its 120 label words is in use, and version 2 has 119; the earlier release is to give up
           the label or the Request in it first. Back: its timeout is not whole seconds up to 65,535
  --overwrite   OUT may be there already, and may be IN; it is replaced, and keeps its mode and owner
Exit status: 0 where all of the image is written; 1 where it is refused; 2 for wrong usage, and for what cannot be read
or written, also where nobody reads standard output.
";

const DUMP: &str = "\
ldp-ft dump [--json] FILE
Says what LDP PDUs hold, a line for each PDU and for each message. FILE is a stream of PDUs as in a TCP connection,
or text: lines of hexadecimal, whose bytes are one stream, so that a PDU may go over several lines. A line that begins
with a tab is of the connection's other side, as `tshark -z follow,tcp,raw,N` writes it; the lines that tshark adds are
passed over, and where it says that bytes are missing in the capture, so does dump. A file is text where its first byte
is a character; a stream begins with the byte 0. A capture itself (pcap, pcapng) is refused with the command that makes
lines of it. FILE `-` is standard input. Where a PDU's version or length is wrong it is not known where the next one
starts: a stream ends there, lines go on with the next line. Of a malformed message the first reason is said. FT Session
is shown in the form that it has: the draft's, or that of RFC 3479.
  --json   one JSON object for each PDU, a line each; FT Session has `timeout_seconds` in the draft's form,
           `timeout_milliseconds` in that of RFC 3479
Exit status: 0; 1 where a PDU or message is malformed, bytes are missing, or the file is neither; 2 for wrong usage, and
for what cannot be read or written.
";

const WATCH: &str = "\
ldp-ft watch [--labels N] [--cut-every N] [--kill-every N] [--on-demand] [--form draft|published|mixed]
             [--all | --json] [--keep DIR]
Two cabinets in two processes exchange labels over TCP on loopback, each with its store in a file. Meanwhile connections
are cut and processes killed and started again. What happens is told as a story: starts, cuts, kills, and each time the
session is resumed how many messages were sent again and left out. The last line is the verdict on every message.
  --labels N       labels that each gives to the other, 1 to 59 (40)
  --cut-every N    a cut after so many messages that arrived, 0 for never (20)
  --kill-every N   a kill after so many, 0 for never (35)
  --on-demand      labels are asked for with Requests; one in five is aborted, and one turned down. A Request that a
                   break catches on its way is aborted too: it is left out of what is sent again, and asked anew
  --form FORM      the form of FT Session in both Inits: the draft's, or the published one of RFC 3479; mixed: the
                   draft's from north, the published one from south (draft)
  --all            every line: each message accepted, sent again and secured; at the end both label lists, all accounts
  --json           only the result, one JSON object
  --keep DIR       the stores stay, as DIR/north.store and DIR/south.store, and beside them what each owner recorded;
                   DIR is made, or is there and empty
Exit status: 0 where nothing was lost, twice or out of order and both lists agree; 1 where not, or where the pair does
not come to its end; 2 for wrong usage, and where output cannot be written; 128 and its number where a signal ended it:
then there is no verdict.
";

/// The help of a command.
pub fn of(command: &str) -> Option<&'static str> {
    match command {
        "image" => Some(IMAGE),
        "convert" => Some(CONVERT),
        "dump" => Some(DUMP),
        "watch" => Some(WATCH),
        _ => None,
    }
}
