//! Finding blocks, UIBs and lists in host memory, by walking from the
//! addresses of the runs through the bytes as they stand in the field.

use crate::record::{BLOCK_LENGTH, ELEMENT_LENGTH, LINK_OPTION, UIB_LENGTH, UNIT_OPTION};
use std::ops::Range;

/// The greatest allowance: no run fetches more blocks.
const LONGEST_CHAIN: usize = 64;
const MOST_ELEMENTS: usize = 64;

#[derive(Clone, Copy, PartialEq)]
pub enum Kind {
    Block,
    Uib,
    List,
}

/// A structure wholly inside a host field.
pub struct Structure {
    pub kind: Kind,
    pub place: Range<usize>,
}

/// Which addresses a walk follows.
#[derive(Clone, Copy, PartialEq)]
enum Addresses {
    /// Those the board can read from.
    Even,
    Any,
}

/// The structures of a host field, none over another. Those at even addresses
/// come first, so that an odd address never displaces what the board reads.
pub fn structures(host: &[u8], runs: &[u32]) -> Vec<Structure> {
    let mut found = Vec::new();
    for addresses in [Addresses::Even, Addresses::Any] {
        for &run in runs {
            for block in chain(host, run, addresses) {
                claim(&mut found, Kind::Block, block.clone());
                if let Some((kind, place)) = pointed_to(host, &block, addresses) {
                    claim(&mut found, kind, place);
                }
            }
        }
    }
    found
}

/// The UIBs that the chain of a run names for a unit, in order.
pub fn uibs<'a>(host: &'a [u8], run: u32, unit: usize) -> Vec<&'a [u8]> {
    let mut found: Vec<&'a [u8]> = Vec::new();
    for block in chain(host, run, Addresses::Even) {
        let names_unit = usize::from(host[block.start + 1] & UNIT_OPTION != 0) == unit;
        if let Some((Kind::Uib, place)) = pointed_to(host, &block, Addresses::Even) {
            if names_unit {
                found.push(&host[place]);
            }
        }
    }
    found
}

fn claim(found: &mut Vec<Structure>, kind: Kind, place: Range<usize>) {
    let apart =
        |other: &Structure| place.end <= other.place.start || other.place.end <= place.start;
    if found.iter().all(apart) {
        found.push(Structure { kind, place });
    }
}

/// The blocks linked from an address, until a link is clear, leads out of the
/// field or comes back, or the longest chain is reached.
fn chain(host: &[u8], run: u32, addresses: Addresses) -> Vec<Range<usize>> {
    let mut blocks = Vec::new();
    let mut next = inside(host, run, BLOCK_LENGTH, addresses);
    while let Some(block) = next {
        if blocks.contains(&block) || blocks.len() == LONGEST_CHAIN {
            break;
        }
        next = linked(host, &block, addresses);
        blocks.push(block);
    }
    blocks
}

fn linked(host: &[u8], block: &Range<usize>, addresses: Addresses) -> Option<Range<usize>> {
    if host[block.start + 1] & LINK_OPTION == 0 {
        return None;
    }
    inside(
        host,
        address(host, block.start + 20),
        BLOCK_LENGTH,
        addresses,
    )
}

/// The UIB of an 87, or the list of an A1 or A2 of 1 to 64 elements.
fn pointed_to(
    host: &[u8],
    block: &Range<usize>,
    addresses: Addresses,
) -> Option<(Kind, Range<usize>)> {
    let elements = usize::from(host[block.start + 27]);
    let (kind, length) = match host[block.start] {
        0x87 => (Kind::Uib, UIB_LENGTH),
        0xA1 | 0xA2 if (1..=MOST_ELEMENTS).contains(&elements) => {
            (Kind::List, elements * ELEMENT_LENGTH)
        }
        _ => return None,
    };
    let place = inside(host, address(host, block.start + 10), length, addresses)?;
    Some((kind, place))
}

/// The big-endian address that stands at a place.
pub fn address(host: &[u8], at: usize) -> u32 {
    u32::from_be_bytes([host[at], host[at + 1], host[at + 2], host[at + 3]])
}

/// The bytes from an address on, if they are wholly inside the field.
fn inside(host: &[u8], at: u32, length: usize, addresses: Addresses) -> Option<Range<usize>> {
    if addresses == Addresses::Even && at % 2 == 1 {
        return None;
    }
    let at = usize::try_from(at).ok()?;
    let end = at.checked_add(length)?;
    (end <= host.len()).then_some(at..end)
}
