//! Everything that a stored image holds, as the library's calls show it.

use cabinet::{Cabinet, Prefix, Summary, PLACES};
use ldp_ft::Library;
use std::fmt;
use std::net::Ipv4Addr;

const CODE_SHIFT: u32 = 20;
const LABEL_MASK: u32 = (1 << CODE_SHIFT) - 1;
/// The code of an open Request's word.
const REQUEST: u32 = 7;

/// A label with its code, and with its prefix where it has one.
#[derive(Clone, Copy, Debug, PartialEq, Eq, PartialOrd, Ord)]
pub struct Listed {
    pub label: u32,
    pub code: u32,
    pub prefix: Option<Ipv4Prefix>,
}

/// As it is told to people, who know labels by what they lead to: `16 of 10.0.16.0/24`.
impl fmt::Display for Listed {
    fn fmt(&self, f: &mut fmt::Formatter) -> fmt::Result {
        match self.prefix {
            Some(prefix) => write!(f, "{} of {prefix}", self.label),
            None => write!(f, "{}", self.label),
        }
    }
}

/// An IPv4 address and how many of its bits count.
#[derive(Clone, Copy, Debug, PartialEq, Eq, PartialOrd, Ord)]
pub struct Ipv4Prefix {
    pub address: Ipv4Addr,
    pub length: u32,
}

impl fmt::Display for Ipv4Prefix {
    fn fmt(&self, f: &mut fmt::Formatter) -> fmt::Result {
        write!(f, "{}/{}", self.address, self.length)
    }
}

/// A message in the send store, with its FT number, if it has one yet.
#[derive(Clone, Debug, PartialEq, Eq)]
pub struct Held {
    pub number: Option<u32>,
    pub message: Vec<u8>,
}

/// What an image holds.
#[derive(Clone, Debug)]
pub struct Holdings {
    pub summary: Summary,
    pub labels: Vec<Listed>,
    /// The IDs of the open Requests.
    pub requests: Vec<u32>,
    pub held: Vec<Held>,
}

impl Holdings {
    /// Reads an image that passes restore's checks; else the summary with the answer and its block.
    pub fn read(image: &[u8]) -> Result<Self, Summary> {
        let summary = Library.summarize(image);
        if summary.answer != 0 {
            return Err(summary);
        }
        Ok(Holdings { summary, labels: labels(image), requests: requests(image), held: held(image) })
    }

    /// The labels of a code, in order.
    pub fn labels_of(&self, code: u32) -> Vec<Listed> {
        self.labels.iter().filter(|listed| listed.code == code).copied().collect()
    }
}

/// The labels that are listed, in their own order.
pub fn labels(image: &[u8]) -> Vec<Listed> {
    let mut words = [0; PLACES];
    Library.labels(image, &mut words);
    let lists_label = |word: u32| word != 0 && word >> CODE_SHIFT != REQUEST;
    let listed = (0..).zip(words).filter(|(_, word)| lists_label(*word)).map(|(place, word)| Listed {
        label: word & LABEL_MASK,
        code: word >> CODE_SHIFT,
        prefix: prefix_at(image, place),
    });
    let mut labels: Vec<Listed> = listed.collect();
    labels.sort_unstable();
    labels
}

fn prefix_at(image: &[u8], place: u32) -> Option<Ipv4Prefix> {
    let Prefix { indexed, length, prefix } = Library.prefix_at(image, place);
    (indexed == 1).then_some(Ipv4Prefix { address: Ipv4Addr::from(prefix), length })
}

/// The IDs of the open Requests, in their own order.
pub fn requests(image: &[u8]) -> Vec<u32> {
    let places = (0..PLACES as u32).map(|place| Library.request_at(image, place));
    let mut requests: Vec<u32> = places.filter(|request| request.open == 1).map(|request| request.id).collect();
    requests.sort_unstable();
    requests
}

/// The messages held, the oldest first.
pub fn held(image: &[u8]) -> Vec<Held> {
    let summary = Library.summarize(image);
    let numbered = summary.held.saturating_sub(summary.pended) as usize;
    let numbers =
        std::iter::successors(Some(Library.successor(summary.released)), |last| Some(Library.successor(*last)));
    let numbers = numbers.take(numbered).map(Some).chain(std::iter::repeat(None));
    let parts = (0..summary.held).map(|place| Library.held(image, place));
    let messages = parts.filter_map(|part| image.get(part.start as usize..part.end as usize));
    numbers.zip(messages).map(|(number, message)| Held { number, message: message.to_vec() }).collect()
}
