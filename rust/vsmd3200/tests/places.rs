//! Where sectors stand by a record alone, on the small drive, worked out by hand.

mod common;

use common::{BY_CYLINDER, SMALL};
use vsmd3200::{
    part_of, Geometry, Order, Pair, Part, Record, Standing, Track, Untold, Volume, RECORD_LEN,
};

fn record(geometry: Geometry) -> Record {
    Record::from_parts(true, geometry, 0)
}

/// Cylinder 1 and head 0 is bad, and cylinder 9 and head 2 serves it.
fn with_a_spare(geometry: Geometry) -> Record {
    let bad = Track {
        cylinder: 1,
        head: 0,
    };
    let spare = Track {
        cylinder: 9,
        head: 2,
    };
    record(geometry).with_pairs(&[Pair { bad, spare }]).unwrap()
}

const fn standing(place: u64, first: u64, mark: u64) -> Result<Standing, Untold> {
    Ok(Standing { place, first, mark })
}

const NOT_THERE: Result<Standing, Untold> = Err(Untold::SectorNotThere);

#[test]
fn an_image_needs_its_sectors_and_their_marks() {
    for geometry in [SMALL, BY_CYLINDER] {
        assert_eq!(record(geometry).image_need(), Some(7800));
        assert_eq!(with_a_spare(geometry).image_need(), Some(7800));
    }
    let largest = Geometry {
        cylinders: 4096,
        sectors_a_track: 255,
        bytes_a_sector: 4096,
        volumes: [
            Volume {
                start_head: 0,
                heads: 64,
            },
            Volume::default(),
        ],
        order: Order::ByHead,
    };
    assert_eq!(record(largest).image_need(), Some(273_871_011_840));
    let last = standing(66_846_719, 273_804_161_024, 273_871_011_839);
    assert_eq!(record(largest).sector_of(0, 66_846_719), last);
    assert_eq!(record(largest).sector_of(0, 66_846_720), NOT_THERE);
}

#[test]
fn numbers_of_a_volume() {
    let small = record(SMALL);
    assert_eq!(small.sector_of(0, 8), standing(12, 768, 7692));
    assert_eq!(small.sector_of(0, 4), standing(4, 256, 7684));
    assert_eq!(small.sector_of(0, 79), standing(115, 7360, 7795));
    assert_eq!(small.sector_of(1, 0), standing(8, 512, 7688));
    assert_eq!(small.sector_of(1, 39), standing(119, 7616, 7799));
    let by_cylinder = record(BY_CYLINDER);
    assert_eq!(by_cylinder.sector_of(0, 4), standing(12, 768, 7692));
    assert_eq!(by_cylinder.sector_of(0, 8), standing(24, 1536, 7704));
    assert_eq!(by_cylinder.sector_of(0, 40), standing(4, 256, 7684));
    assert_eq!(by_cylinder.sector_of(1, 39), standing(119, 7616, 7799));
    for small in [small, by_cylinder] {
        for (volume, number) in [(0, 80), (0, 1 << 32), (0, u64::MAX), (1, 40)] {
            assert_eq!(small.sector_of(volume, number), NOT_THERE);
        }
        for volume in [2, 0x100, u32::MAX] {
            assert_eq!(small.sector_of(volume, 0), NOT_THERE);
        }
    }
    // A volume that is absent has no sector.
    let mut alone = SMALL;
    alone.volumes[1].heads = 0;
    assert_eq!(record(alone).sector_of(1, 0), NOT_THERE);
    assert_eq!(record(alone).image_need(), Some(5200));
}

#[test]
fn addresses_of_the_drive() {
    for geometry in [SMALL, BY_CYLINDER] {
        let small = record(geometry);
        assert_eq!(small.sector_at(1, 0, 0), standing(12, 768, 7692));
        assert_eq!(small.sector_at(0, 1, 2), standing(6, 384, 7686));
        assert_eq!(small.sector_at(0, 2, 1), standing(9, 576, 7689));
        assert_eq!(small.sector_at(9, 2, 3), standing(119, 7616, 7799));
        for (cylinder, head, sector) in [
            (10, 0, 0),
            (0, 3, 0),
            (0, 0, 4),
            (0, 256, 0),
            (u16::MAX, u16::MAX, u16::MAX),
        ] {
            assert_eq!(small.sector_at(cylinder, head, sector), NOT_THERE);
        }
    }
}

#[test]
fn a_bad_track_is_its_spare() {
    let small = with_a_spare(SMALL);
    assert_eq!(small.sector_of(0, 8), standing(116, 7424, 7796));
    assert_eq!(small.sector_of(0, 7), standing(7, 448, 7687));
    assert_eq!(small.sector_of(0, 12), standing(16, 1024, 7696));
    assert_eq!(small.sector_at(1, 0, 2), standing(118, 7552, 7798));
    // The spare named itself is where it was.
    assert_eq!(small.sector_at(9, 2, 2), standing(118, 7552, 7798));
    assert_eq!(small.sector_of(1, 36), standing(116, 7424, 7796));
    let by_cylinder = with_a_spare(BY_CYLINDER);
    assert_eq!(by_cylinder.sector_of(0, 4), standing(116, 7424, 7796));
}

#[test]
fn a_unit_that_is_not_initialized() {
    let mut at_10 = *record(SMALL).as_bytes();
    at_10[15] = 10;
    let mut twice = *with_a_spare(SMALL).as_bytes();
    twice[20..24].copy_from_slice(&[0x00, 0x09, 0x02, 0x00]);
    let mut order_2 = *record(SMALL).as_bytes();
    order_2[16] = 2;
    for bytes in [
        [0; RECORD_LEN],
        [0xff; RECORD_LEN],
        *Record::from_parts(false, SMALL, 0).as_bytes(),
        at_10,
        twice,
        order_2,
    ] {
        let record = Record::from_bytes(bytes);
        assert_eq!(record.image_need(), None);
        assert_eq!(record.sector_of(0, 0), Err(Untold::NotInitialized));
        assert_eq!(record.sector_of(2, 0), Err(Untold::NotInitialized));
        assert_eq!(record.sector_at(10, 0, 0), Err(Untold::NotInitialized));
    }
}

/// What stands at a place is what an inspection of the place lends, on a held drive too.
#[test]
fn the_inspection_says_the_same() {
    for geometry in [SMALL, BY_CYLINDER] {
        let mut held = *with_a_spare(geometry).as_bytes();
        held[17] = 2;
        let records = [Record::UNINITIALIZED, Record::from_bytes(held)];
        let need = records[1].image_need().unwrap() as usize;
        for number in 0..80 {
            let at = records[1].sector_of(0, number).unwrap();
            let part = Part {
                image: 1,
                at: at.first as usize,
                bytes: 64,
            };
            assert_eq!(part_of(&records, [0, need], 1, at.place), part);
            assert_eq!(at.mark, 7680 + at.place);
        }
    }
}
