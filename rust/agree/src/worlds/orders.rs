//! Drives of either order: in records and in UIBs half of them are by cylinder, with tables of bad tracks
//! or without, and transfers go over the ends of tracks, of heads and of volumes.

use super::chain::{Maker, Unit, XL};
use super::drives::{self, wide_geometry};
use super::{tables, Theme};
use crate::case::{record_in, ORDER_AT};
use crate::draw::Draw;
use model::{Address, Block, Geometry, Order};

/// A geometry as worlds without tables have it or as those with them, of either order.
pub fn geometry(draw: &mut Draw) -> Geometry {
    let order = draw.pick(&Order::BOTH);
    let any = if draw.percent(50) {
        drives::geometry(draw)
    } else {
        tables::geometry(draw)
    };
    Geometry { order, ..any }
}

impl Unit {
    pub fn ordered(draw: &mut Draw) -> Unit {
        let wide = draw.percent(5);
        let mut meant = geometry(draw);
        if wide {
            meant = Geometry {
                order: meant.order,
                ..wide_geometry(draw)
            };
        }
        Unit::ordered_as(draw, meant, wide)
    }

    /// A unit with a table or without; now and then with a number for its order that is none.
    pub fn ordered_as(draw: &mut Draw, meant: Geometry, wide: bool) -> Unit {
        let mut unit = if draw.percent(60) {
            Unit::tabled_as(draw, meant, wide)
        } else {
            let is_ready = draw.percent(80);
            Unit::with(draw, meant, wide, is_ready)
        };
        if draw.percent(4) {
            let any = draw.between(2, 255) as u8;
            unit.record[ORDER_AT] =
                draw.weighted(&[(3, 2), (1, 3), (1, 0x80), (1, 0x81), (2, any)]);
            unit.ready = record_in(&unit.record).counts_as_initialized();
        }
        unit
    }
}

impl Maker {
    /// The order that an initialize asks for: in worlds that are about it either of the two, whatever
    /// the drive had.
    pub fn draw_order(&mut self, g: &mut Geometry) {
        if self.theme == Theme::Orders {
            g.order = self.draw.pick(&Order::BOTH);
        }
    }

    /// How many sectors of a drive by cylinder come before heads have to move: those of a track, to the
    /// next cylinder, or those of a head, back to cylinder 0.
    pub fn row_by_cylinder(&mut self, g: &Geometry) -> u64 {
        let a_track = g.sectors_a_track as u64;
        let a_head = a_track * g.cylinders as u64;
        self.draw.pick(&[a_track, a_head])
    }

    /// Lets the block begin at a physical address, with as many sectors as one order has from there and
    /// the other has not. Nothing is changed where there is no such number.
    pub fn end_between_orders(&mut self, block: &mut Block, g: &Geometry, volume: u8) {
        for _ in 0..8 {
            let address = Address {
                cylinder: self.draw.below(g.cylinders as u64),
                head: self.draw.below(g.volumes[volume as usize].heads as u64),
                sector: self.draw.below(g.sectors_a_track as u64),
            };
            let other = Geometry {
                order: g.order.other(),
                ..*g
            };
            let room = |g: &Geometry| {
                let before = g.logical(volume, address)?;
                g.volume_sectors(volume).checked_sub(before)
            };
            let (Some(own), Some(other)) = (room(g), room(&other)) else {
                return;
            };
            let most = other.min(u16::MAX as u64);
            if own >= most {
                continue;
            }
            block.options &= !XL;
            block.cylinder = address.cylinder as u16;
            block.head = address.head as u8;
            block.sector = address.sector as u8;
            let any = self.draw.between(own + 1, most);
            let count = self
                .draw
                .weighted(&[(2, own + 1), (1, most), (1, own), (2, any)]);
            block.sector_count = count as u16;
            return;
        }
    }
}
