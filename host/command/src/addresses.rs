//! FECs, addresses and LDP identifiers in words: a prefix as `10.0.0.0/24`, an LSR and its label space as `10.0.0.1:0`.

use std::net::{Ipv4Addr, Ipv6Addr};
use support::hex;

const WILDCARD: u8 = 1;
const PREFIX: u8 = 2;
const HOST: u8 = 3;
/// RFC 5918: every FEC of a type.
const TYPED_WILDCARD: u8 = 5;

const IPV4: [u8; 2] = [0, 1];
const IPV6: [u8; 2] = [0, 2];

/// The elements of a FEC TLV's value. What cannot be read ends the list, in hexadecimal.
pub fn elements(value: &[u8]) -> Vec<String> {
    let mut rest = value;
    let mut elements = Vec::new();
    while let Some((element, after)) = first(rest) {
        elements.push(element);
        rest = after;
    }
    if !rest.is_empty() {
        elements.push(format!("0x{}", hex::digits(rest)));
    }
    elements
}

/// The first element, and what stands after it.
fn first(value: &[u8]) -> Option<(String, &[u8])> {
    match value {
        [WILDCARD, after @ ..] => Some(("every FEC".to_string(), after)),
        [PREFIX, high, low, bits, after @ ..] => {
            let (bytes, after) = after.split_at_checked(usize::from(bits.div_ceil(8)))?;
            Some((format!("{}/{bits}", address(&[*high, *low], bytes)?), after))
        }
        [HOST, high, low, length, after @ ..] => {
            let (bytes, after) = after.split_at_checked(usize::from(*length))?;
            Some((format!("host {}", whole_address(&[*high, *low], bytes)?), after))
        }
        [TYPED_WILDCARD, PREFIX, 2, high, low, after @ ..] => {
            let family = match [*high, *low] {
                IPV4 => "IPv4",
                IPV6 => "IPv6",
                _ => return None,
            };
            Some((format!("every {family} prefix"), after))
        }
        _ => None,
    }
}

/// An address of a family; bytes that are not there are zeros.
fn address(family: &[u8; 2], bytes: &[u8]) -> Option<String> {
    match *family {
        IPV4 => padded(bytes).map(|bytes: [u8; 4]| Ipv4Addr::from(bytes).to_string()),
        IPV6 => padded(bytes).map(|bytes: [u8; 16]| Ipv6Addr::from(bytes).to_string()),
        _ => None,
    }
}

/// An address of a family, all of whose bytes are there.
fn whole_address(family: &[u8; 2], bytes: &[u8]) -> Option<String> {
    (bytes.len() == length_of(family)).then(|| address(family, bytes))?
}

fn length_of(family: &[u8; 2]) -> usize {
    if *family == IPV6 {
        16
    } else {
        4
    }
}

fn padded<const N: usize>(bytes: &[u8]) -> Option<[u8; N]> {
    let mut all = [0; N];
    all.get_mut(..bytes.len())?.copy_from_slice(bytes);
    Some(all)
}

/// The addresses of an Address List TLV's value, all of one family; none where it cannot be read.
pub fn addresses(value: &[u8]) -> Option<Vec<String>> {
    let (family, bytes) = value.split_first_chunk()?;
    bytes.chunks(length_of(family)).map(|bytes| whole_address(family, bytes)).collect()
}

/// A transport address, whose length tells its family.
pub fn transport_address(value: &[u8]) -> Option<String> {
    [IPV4, IPV6].iter().find_map(|family| whole_address(family, value))
}

/// An LDP identifier of six bytes: the LSR, and its label space.
pub fn ldp_identifier(bytes: &[u8; 6]) -> String {
    let [a, b, c, d, high, low] = *bytes;
    format!("{}:{}", Ipv4Addr::new(a, b, c, d), u16::from_be_bytes([high, low]))
}

#[cfg(test)]
mod tests {
    use super::*;

    #[test]
    fn elements_in_words() {
        assert_eq!(elements(&[2, 0, 1, 24, 10, 0, 0]), ["10.0.0.0/24"]);
        assert_eq!(elements(&[2, 0, 1, 0]), ["0.0.0.0/0"]);
        assert_eq!(elements(&[2, 0, 1, 32, 10, 1, 2, 3, 2, 0, 1, 9, 10, 128]), ["10.1.2.3/32", "10.128.0.0/9"]);
        assert_eq!(elements(&[2, 0, 2, 64, 0x20, 1, 0xd, 0xb8, 0, 0, 0, 1]), ["2001:db8:0:1::/64"]);
        assert_eq!(elements(&[1]), ["every FEC"]);
        assert_eq!(elements(&[3, 0, 1, 4, 192, 0, 2, 1]), ["host 192.0.2.1"]);
        assert_eq!(elements(&[5, 2, 2, 0, 1]), ["every IPv4 prefix"]);
        assert!(elements(&[]).is_empty());
    }

    #[test]
    fn what_cannot_be_read_is_shown_as_it_is() {
        assert_eq!(elements(&[2, 0, 1, 24, 10, 0]), ["0x020001180a00"]);
        assert_eq!(elements(&[2, 0, 1, 40, 1, 2, 3, 4, 5]), ["0x020001280102030405"]);
        assert_eq!(elements(&[1, 9, 9]), ["every FEC", "0x0909"]);
        assert_eq!(elements(&[2, 0, 9, 8, 1]), ["0x0200090801"]);
        assert_eq!(elements(&[3, 0, 1, 3, 192, 0, 2]), ["0x03000103c00002"]);
        assert_eq!(elements(&[5, 2, 2, 0, 9]), ["0x0502020009"]);
    }

    #[test]
    fn lists_of_addresses() {
        assert_eq!(addresses(&[0, 1, 10, 0, 0, 1, 10, 0, 0, 2]).unwrap(), ["10.0.0.1", "10.0.0.2"]);
        assert_eq!(addresses(&[0, 1]).unwrap(), [""; 0]);
        for unreadable in [&[][..], &[0], &[0, 1, 10, 0, 0], &[0, 9, 10, 0, 0, 1], &[0, 2, 10, 0, 0, 1]] {
            assert_eq!(addresses(unreadable), None);
        }
        assert_eq!(transport_address(&[10, 0, 0, 1]).unwrap(), "10.0.0.1");
        assert_eq!(transport_address(&[10, 0, 0]), None);
        assert_eq!(ldp_identifier(&[10, 0, 0, 1, 1, 0]), "10.0.0.1:256");
    }
}
