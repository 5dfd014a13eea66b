//! FT numbers on their circle 1 to 0xFFFFFFFF, with 0 for "none"; the lesser of two timeouts.

use cabinet::{Distance, Next};

/// The circle's size, which is also its largest number.
const CIRCLE: u32 = u32::MAX;
/// On a resumed connection a peer may leave out messages; its next number is at most so many steps ahead.
const FARTHEST: u32 = 64;

pub fn successor(number: u32) -> u32 {
    if number == CIRCLE {
        1
    } else {
        number + 1
    }
}

/// The steps forwards from one number to another by the successor; none lead from a nonzero number to 0.
pub fn steps(from: u32, to: u32) -> Option<u32> {
    if to >= from {
        Some(to - from)
    } else if to == 0 {
        None
    } else {
        Some(CIRCLE - (from - to))
    }
}

/// The number that stands so many steps after another.
pub fn advance(number: u32, by: u32) -> u32 {
    let room = CIRCLE - number;
    if by > room {
        by - room
    } else {
        number + by
    }
}

/// Whether a number may come after the one secured last, and how many were left out before it.
pub fn next(secured: u32, number: u32, resumed: bool) -> Next {
    if number == 0 {
        return Next { answer: 30, left_out: 0 };
    }
    let farthest = if resumed { FARTHEST } else { 1 };
    match steps(secured, number) {
        Some(ahead) if (1..=farthest).contains(&ahead) => Next { answer: 0, left_out: ahead - 1 },
        _ => Next { answer: 20, left_out: 0 },
    }
}

/// The shorter way round between two nonzero numbers; 2 with a zero.
pub fn distance(from: u32, to: u32) -> Distance {
    if from == 0 || to == 0 {
        return Distance { answer: 2, steps: 0 };
    }
    let way = i64::from(to) - i64::from(from);
    let half = i64::from(CIRCLE / 2);
    let shorter = if way > half {
        way - i64::from(CIRCLE)
    } else if way < -half {
        way + i64::from(CIRCLE)
    } else {
        way
    };
    Distance { answer: 0, steps: shorter as i32 }
}

/// The lesser timeout, zero counting as infinite.
pub fn lesser_timeout(a: u32, b: u32) -> u32 {
    match (a, b) {
        (0, other) | (other, 0) => other,
        _ => a.min(b),
    }
}
