//! The order of tracks (paper 02, K4) on the small drive, by the numbers that one gets with pencil and
//! paper. The place of cylinder c, head h, sector s is 12c + 4h + s whatever the order.

mod common;
use common::*;
use model::*;

fn by_cylinder() -> Geometry {
    Geometry {
        order: Order::ByCylinder,
        ..small()
    }
}

fn place_of(g: &Geometry, volume: u8, n: u64) -> Option<u64> {
    g.place(volume, g.address(volume, n)?)
}

#[test]
fn places_by_cylinder() {
    let g = by_cylinder();
    for (n, place) in [(0, 0), (3, 3), (4, 12), (39, 111), (40, 4), (79, 115)] {
        assert_eq!(place_of(&g, 0, n), Some(place), "logical {n}");
    }
    assert_eq!(place_of(&g, 0, 80), None);
    // Volume 1 has one head, so that both orders are the same there.
    for n in 0..40 {
        assert_eq!(place_of(&g, 1, n), place_of(&small(), 1, n));
    }
}

#[test]
fn numbers_and_addresses_go_both_ways() {
    for g in [small(), by_cylinder()] {
        let mut seen = [0; 120];
        for volume in 0..2 {
            for n in 0..g.volume_sectors(volume) {
                let address = g.address(volume, n).unwrap();
                assert_eq!(g.logical(volume, address), Some(n));
                seen[g.place(volume, address).unwrap() as usize] += 1;
            }
        }
        assert_eq!(seen, [1; 120]);
    }
}

#[test]
fn a_physical_start_is_numbered_by_the_order() {
    let address = Address {
        cylinder: 0,
        head: 1,
        sector: 0,
    };
    // Of 80 sectors 76 are left by head, and 40 by cylinder.
    assert_eq!(small().logical(0, address), Some(4));
    assert_eq!(by_cylinder().logical(0, address), Some(40));
    // Each part is judged by itself first.
    for (cylinder, head, sector) in [(10, 0, 0), (0, 2, 0), (0, 0, 4)] {
        let outside = Address {
            cylinder,
            head,
            sector,
        };
        assert_eq!(by_cylinder().logical(0, outside), None);
    }
}

#[test]
fn the_order_of_a_uib_is_one_bit() {
    let order = |attributes| {
        let mut uib = SMALL_UIB;
        uib[14] = attributes;
        Geometry::from_uib(&uib).order
    };
    for attributes in 0..=255 {
        let set = [Order::ByCylinder, Order::ByHead][(attributes as usize >> 2) & 1];
        assert_eq!(order(attributes), set, "attributes {attributes:02x}");
    }
    assert_eq!(Geometry::from_uib(&TABLE_11), Geometry::table_11());
    assert_eq!(Geometry::table_11().order, Order::ByHead);
}

#[test]
fn numbers_of_an_order() {
    for order in Order::BOTH {
        assert!(Order::is_one(order.number()));
        assert_eq!(Order::said(order.number()), order);
    }
    assert!((2..=255).all(|number| !Order::is_one(number)));
}
