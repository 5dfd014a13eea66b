//! `ldp-ft dump FILE`: PDUs in words, a line for each message; the file is a stream of PDUs, or lines of hexadecimal.

mod capture;
mod hex_lines;
mod pdu;
mod side;

use hex_lines::Line;
use side::Side;
use std::io::{self, BufRead, Cursor, ErrorKind, Read, Write};
use support::wire::Arrived;

/// A stream is read in pieces of this size.
const PIECE: usize = 65_536;
/// A line is no longer than this: the hexadecimal of the longest PDU fits several times.
const LONGEST_LINE: u64 = 1 << 20;

/// What hinders a dump.
#[derive(Debug)]
pub enum Trouble {
    Input(io::Error),
    Output(io::Error),
}

/// Prints what is read from a file until nothing is left, or nobody reads what is printed. True where all of it, so
/// far, was PDUs with sound messages.
pub fn dump(file: &str, input: &mut dyn BufRead, output: &mut dyn Write, json: bool) -> Result<bool, Trouble> {
    let mut dump = Dump { output, json, count: 0, sound: true };
    let mut first = Vec::new();
    input.take(capture::MAGIC).read_to_end(&mut first).map_err(Trouble::Input)?;
    let mut whole = Cursor::new(&first).chain(input);
    let result = match first.first() {
        _ if capture::is_capture(&first) => dump.refuse(&capture::advice(file)),
        Some(byte) if is_text(*byte) => dump.lines(&mut whole),
        _ => dump.stream(&mut whole),
    };
    match result {
        Err(Trouble::Output(error)) if error.kind() == ErrorKind::BrokenPipe => Ok(dump.sound),
        Err(trouble) => Err(trouble),
        Ok(()) => Ok(dump.sound),
    }
}

/// A stream of PDUs begins with the byte 0 of their version, lines of hexadecimal with a character.
fn is_text(first: u8) -> bool {
    first.is_ascii_graphic() || first.is_ascii_whitespace()
}

/// The next line with its end, empty after the last; no more of it than the longest has.
fn next_line(input: &mut dyn BufRead) -> Result<Vec<u8>, Trouble> {
    let mut line = Vec::new();
    input.take(LONGEST_LINE).read_until(b'\n', &mut line).map_err(Trouble::Input)?;
    Ok(line)
}

/// What has been printed so far.
struct Dump<'a> {
    output: &'a mut dyn Write,
    json: bool,
    count: u64,
    sound: bool,
}

impl Dump<'_> {
    /// A stream of one side, until its end, or until it is not known where the next PDU starts.
    fn stream(&mut self, input: &mut dyn BufRead) -> Result<(), Trouble> {
        let mut arrived = Arrived::default();
        let mut piece = vec![0; PIECE];
        loop {
            let length = input.read(&mut piece).map_err(Trouble::Input)?;
            if length == 0 {
                return self.end(&arrived);
            }
            arrived.add(&piece[..length]);
            if !self.pdus(&mut arrived)? {
                return Ok(());
            }
        }
    }

    /// Lines of hexadecimal, of one side or both. After bytes that are no PDU the rest of their line is passed over.
    fn lines(&mut self, input: &mut dyn BufRead) -> Result<(), Trouble> {
        let mut sides = [Side::default(), Side::default()];
        for number in 1u64.. {
            let line = next_line(input)?;
            if line.is_empty() {
                break;
            }
            match hex_lines::read(&line) {
                Line::Nothing => {}
                Line::Bytes { side, bytes } if (line.len() as u64) < LONGEST_LINE => {
                    sides[side].add(&bytes);
                    if !self.pdus(&mut sides[side].arrived)? {
                        sides[side].drop_rest();
                    }
                }
                Line::Missing { side, bytes } => self.miss(&mut sides[side], bytes)?,
                _ => return self.refuse(&format!("line {number} is no hexadecimal")),
            }
        }
        sides.iter().try_for_each(|side| self.end(&side.arrived))
    }

    /// Bytes of one side are not in the capture.
    fn miss(&mut self, side: &mut Side, bytes: usize) -> Result<(), Trouble> {
        if side.miss(bytes) {
            self.count += 1;
            return self.refuse(&format!("{bytes} bytes of PDU {} are missing in the capture", self.count - 1));
        }
        self.refuse(&format!(
            "{bytes} bytes are missing in the capture: what follows is passed over up to a line with a PDU"
        ))
    }

    /// Prints the PDUs that have arrived whole; false where it is not known where the next one starts.
    fn pdus(&mut self, arrived: &mut Arrived) -> Result<bool, Trouble> {
        while let Some(bytes) = arrived.next_pdu() {
            let read = pdu::read(self.count, bytes);
            let in_step = read.is_in_step();
            self.count += 1;
            self.sound &= read.is_sound();
            self.print(&if self.json { format!("{}\n", read.json()) } else { read.to_string() })?;
            if !in_step {
                return Ok(false);
            }
        }
        Ok(true)
    }

    /// The input may not end inside a PDU.
    fn end(&mut self, arrived: &Arrived) -> Result<(), Trouble> {
        match arrived.rest().len() {
            0 => Ok(()),
            length => self.refuse(&format!("the input ends inside PDU {}, after {length} bytes of it", self.count)),
        }
    }

    fn refuse(&mut self, what: &str) -> Result<(), Trouble> {
        self.sound = false;
        self.print(&if self.json { format!("{}\n", pdu::refusal(what)) } else { format!("{what}\n") })
    }

    fn print(&mut self, text: &str) -> Result<(), Trouble> {
        self.output.write_all(text.as_bytes()).map_err(Trouble::Output)
    }
}
