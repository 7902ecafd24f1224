//! A case that can be read: what was handed in, and the blocks of the chain as they were fetched.

use crate::case::{record_in, Case, TABLE_AT};
use crate::sides::{memory_at_fetch, model_side};
use model::{Block, Controller, Element, Geometry, Holder, Order, Record, Track, Visit};
use std::fmt::Write;

/// The blocks shown at most.
const MOST_BLOCKS: usize = 12;

pub fn dump(case: &Case) -> String {
    let (left, trace) = model_side(case);
    let mut text = String::new();
    let _ = writeln!(
        text,
        "{}: host {} bytes, images {} and {}, events {}, first {:#x}, allowance {}",
        controller_words(case.controller),
        case.host.len(),
        case.images[0].len(),
        case.images[1].len(),
        case.events.len(),
        case.first,
        case.allowance
    );
    for unit in 0..2 {
        let record = record_in(&case.records[unit]);
        let _ = writeln!(
            text,
            "unit {}: {}",
            unit,
            record_line(&record, &case.records[unit])
        );
    }
    for (k, visit) in trace.blocks.iter().enumerate().take(MOST_BLOCKS) {
        let host = memory_at_fetch(case, k as u32 + 1);
        block_lines(&mut text, k + 1, visit, &host);
    }
    if trace.blocks.len() > MOST_BLOCKS {
        let _ = writeln!(text, "and {} blocks more", trace.blocks.len() - MOST_BLOCKS);
    }
    let _ = writeln!(text, "the model's outcome: {:?}", left.outcome);
    text
}

pub fn controller_words(controller: Controller) -> &'static str {
    match controller {
        Controller::First => "the first controller",
        Controller::Second => "the second controller",
    }
}

fn holder_words(holder: Holder) -> &'static str {
    match holder {
        Holder::Nobody => "held by nobody",
        Holder::First => "held by the first",
        Holder::Second => "held by the second",
    }
}

pub fn geometry_words(g: &Geometry) -> String {
    format!(
        "C {} S {} B {} volumes {}+{} and {}+{}, {}",
        g.cylinders,
        g.sectors_a_track,
        g.bytes_a_sector,
        g.volumes[0].start_head,
        g.volumes[0].heads,
        g.volumes[1].start_head,
        g.volumes[1].heads,
        match g.order {
            Order::ByHead => "by head",
            Order::ByCylinder => "by cylinder",
        }
    )
}

fn record_line(record: &Record, bytes: &[u8]) -> String {
    format!(
        "{}, {}, {}, on cylinder {}, needs {} bytes; record {}",
        if record.counts_as_initialized() {
            "initialized"
        } else {
            "counts as not initialized"
        },
        holder_words(record.holder),
        geometry_words(&record.geometry),
        record.cylinder,
        record.geometry.need(),
        hex(&bytes[..TABLE_AT])
    ) + &table_words(record)
}

/// The pairs that count, as far as there are any.
fn table_words(record: &Record) -> String {
    let track = |track: &Track| match track.last {
        0 => format!("{}/{}", track.cylinder, track.head),
        last => format!("{}/{}/{:02x}", track.cylinder, track.head, last),
    };
    let pairs = record.table.pairs().iter();
    let pairs: Vec<String> = pairs
        .map(|pair| format!(" {}>{}", track(&pair.bad), track(&pair.spare)))
        .collect();
    match record.table.count() {
        0 => String::new(),
        count => format!("; {} pairs{}", count, pairs.concat()),
    }
}

fn hex(bytes: &[u8]) -> String {
    let digits: Vec<String> = bytes.iter().map(|byte| format!("{:02x}", byte)).collect();
    digits.join(" ")
}

fn block_lines(text: &mut String, k: usize, visit: &Visit, host: &[u8]) {
    let Some(block) = Block::read(host, visit.at) else {
        return;
    };
    let at = visit.at as usize;
    let _ = writeln!(
        text,
        "block {} at {:#x}: {}",
        k,
        at,
        hex(&host[at..at + 28])
    );
    let _ = writeln!(
        text,
        "  {:02x} unit {} volume {}{}{}{}{}{}, {}, count {}, buffer {:#x}, link {:#x}",
        block.command,
        block.unit(),
        block.volume(),
        if block.link() { " LK" } else { "" },
        if block.logical() { " XL" } else { "" },
        if block.reserve() { " RV" } else { "" },
        if block.disable_read_data_errors() {
            " DE"
        } else {
            ""
        },
        if block.interrupt() { " IE" } else { "" },
        target_words(&block),
        block.sector_count,
        block.buffer_address,
        block.linked_block_address
    );
    match block.command {
        0x87 => uib_line(text, &block, host),
        0xa1 | 0xa2 => list_line(text, &block, host),
        _ => {}
    }
    let _ = writeln!(
        text,
        "  the model: answer {}, sectors {}, travel {}, {} and then {}",
        visit.answer,
        visit.sectors,
        visit.travel,
        holder_words(visit.holder),
        holder_words(visit.held_after)
    );
}

fn target_words(block: &Block) -> String {
    if block.command == 0x85 {
        let pair = block.pair();
        format!(
            "bad {}/{} spare {}/{}",
            pair.bad.cylinder, pair.bad.head, pair.spare.cylinder, pair.spare.head
        )
    } else if block.logical() {
        format!("number {}", block.logical_sector())
    } else {
        format!(
            "cylinder {} head {} sector {}",
            block.cylinder, block.head, block.sector
        )
    }
}

fn uib_line(text: &mut String, block: &Block, host: &[u8]) {
    let from = block.buffer_address as usize;
    let Some(bytes) = host.get(from..from.saturating_add(18)) else {
        let _ = writeln!(text, "  UIB not in memory");
        return;
    };
    let uib: &[u8; 18] = bytes.try_into().expect("18 bytes");
    let _ = writeln!(text, "  UIB {}", geometry_words(&Geometry::from_uib(uib)));
}

fn list_line(text: &mut String, block: &Block, host: &[u8]) {
    let mut words = Vec::new();
    for k in 0..block.element_count.min(65) as u64 {
        match Element::read(host, block.buffer_address as u64 + 8 * k) {
            Some(e) => words.push(format!("{}@{:#x}", e.byte_count, e.address)),
            None => words.push("not in memory".to_string()),
        }
    }
    let _ = writeln!(
        text,
        "  list of {}: {}",
        block.element_count,
        words.join(" ")
    );
}
