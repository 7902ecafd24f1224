//! The session program, as a function from the bytes it reads to the bytes it prints.

use crate::geometry::{Geometry, Record, Volume};
use crate::holders::{Controller, Holder};
use crate::order::Order;
use crate::run::{run, World, LEAST_EVENT_BYTES};
use crate::spares::Table;

const MOST_FIELD_BYTES: usize = 16_384;

/// A field: "tag, two-byte big-endian length, bytes".
struct Field<'a> {
    tag: u8,
    bytes: &'a [u8],
    /// Where the next field's tag stands.
    end: usize,
}

/// "What a run leaves in memory, images and unit records is there for the next."
pub fn session(input: &[u8]) -> Vec<u8> {
    let mut world = empty_world();
    let mut printed = String::new();
    let mut at = 0;
    while at < input.len() {
        let field = match read_field(input, at) {
            Some(field) => field,
            None => {
                printed.push_str(&format!("session refused at byte {}\n", at));
                break;
            }
        };
        match field.tag {
            0x01 => world.host = field.bytes.to_vec(),
            0x02 => world.images[0] = field.bytes.to_vec(),
            0x03 => world.images[1] = field.bytes.to_vec(),
            _ => printed.push_str(&run_and_print(&mut world, field.bytes)),
        }
        at = field.end;
    }
    printed.into_bytes()
}

/// Memory and images are "empty until given. Units start uninitialized." A session has one controller,
/// and that is the first.
fn empty_world() -> World {
    let volume = Volume {
        start_head: 0,
        heads: 0,
    };
    let geometry = Geometry {
        cylinders: 0,
        sectors_a_track: 0,
        bytes_a_sector: 0,
        volumes: [volume, volume],
        order: Order::ByHead,
    };
    let record = Record {
        initialized: false,
        geometry,
        cylinder: 0,
        table: Table::NONE,
        holder: Holder::Nobody,
    };
    World {
        controller: Controller::First,
        host: Vec::new(),
        images: [Vec::new(), Vec::new()],
        records: [record, record],
        events: vec![0; LEAST_EVENT_BYTES],
    }
}

/// The field whose tag stands at a place; None for "a cut field, an unknown tag, a length over
/// 16,384 or a 04 not of length 5".
fn read_field(input: &[u8], at: usize) -> Option<Field<'_>> {
    let tag = *input.get(at)?;
    let upper = *input.get(at + 1)?;
    let lower = *input.get(at + 2)?;
    let length = upper as usize * 256 + lower as usize;
    if !(0x01..=0x04).contains(&tag) {
        return None;
    }
    if length > MOST_FIELD_BYTES {
        return None;
    }
    if tag == 0x04 && length != 5 {
        return None;
    }
    let end = at + 3 + length;
    let bytes = input.get(at + 3..end)?;
    Some(Field { tag, bytes, end })
}

/// "It prints each run, one line and then a line for each block run."
fn run_and_print(world: &mut World, field: &[u8]) -> String {
    let mut first: u32 = 0;
    for byte in &field[0..4] {
        first = first * 256 + *byte as u32;
    }
    let outcome = run(world, first, field[4] as u32);
    let mut printed = format!(
        "run answer {} blocks {} sectors {}\n",
        outcome.answer, outcome.blocks, outcome.sectors
    );
    for k in 1..=outcome.blocks as usize {
        let entry = &world.events[8 * (k - 1)..8 * k];
        let travel = i32::from_be_bytes([entry[4], entry[5], entry[6], entry[7]]);
        printed.push_str(&format!(
            "block {} status {:02x} error {:02x} level {:02x} vector {:02x} travel {}\n",
            k, entry[0], entry[1], entry[2], entry[3], travel
        ));
    }
    printed
}
