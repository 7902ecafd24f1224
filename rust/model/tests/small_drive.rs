//! "Small drive, by hand", line by line, and the geometry's own numbers.

mod common;
use common::*;
use model::*;

fn place(volume: u8, n: u64) -> u64 {
    let address = small().address(volume, n).unwrap();
    assert_eq!(small().logical(volume, address), Some(n));
    small().place(volume, address).unwrap()
}

#[test]
fn the_drive_itself() {
    assert!(small().within_limits());
    assert_eq!(small().drive_heads(), 3);
    assert_eq!(small().drive_sectors(), 120);
    assert_eq!(small().volume_sectors(0), 80);
    assert_eq!(small().volume_sectors(1), 40);
    assert_eq!(small().need(), 7800);
    assert_eq!(small().marks_at(), 7680);
    assert_eq!(Geometry::from_uib(&SMALL_UIB), small());
}

#[test]
fn places_of_volume_0() {
    assert_eq!(place(0, 0), 0);
    assert_eq!(place(0, 7), 7);
    assert_eq!(place(0, 8), 12);
    assert_eq!(place(0, 79), 115);
    assert_eq!(small().address(0, 80), None);
}

#[test]
fn place_of_volume_1() {
    assert_eq!(place(1, 0), 8);
    assert_eq!(place(1, 0) * 64, 512);
    // The image gives back those bytes through a read as well.
    let mut w = world(200);
    assert_eq!(one(&mut w, &logical(0x81, VO, 0, 1, 64)), 0);
    assert_eq!(w.host[64..128], image()[512..576]);
}

#[test]
fn outside_the_volume() {
    let mut w = world(64 + 81 * 64);
    assert_eq!(one(&mut w, &logical(0x81, 0, 80, 1, 64)), 16);
    assert_eq!(one(&mut w, &logical(0x81, 0, 0, 80, 64)), 0);
    assert_eq!(one(&mut w, &logical(0x81, 0, 0, 81, 64)), 16);
    assert_eq!(one(&mut w, &logical(0x81, 0, 79, 2, 64)), 16);
    assert_eq!(one(&mut w, &logical(0x81, 0, 79, 1, 64)), 0);
}

#[test]
fn image_one_byte_short() {
    for command in [0x81, 0x82, 0x8c] {
        let mut w = world(200);
        w.images[0].truncate(7799);
        assert_eq!(one(&mut w, &logical(command, 0, 0, 1, 64)), 17);
        w.images[0].push(0);
        assert_eq!(one(&mut w, &logical(command, 0, 0, 1, 64)), 0);
    }
    // 89 and 8A do not ask for an image.
    let mut w = world(200);
    w.images[0].clear();
    assert_eq!(one(&mut w, &block(0x89, 0)), 0);
    assert_eq!(one(&mut w, &logical(0x8a, 0, 79, 0, 1)), 0);
}

#[test]
fn list_of_64_and_65() {
    for command in [0xa1, 0xa2] {
        let mut w = world(4000);
        for k in 0..65 {
            put_element(&mut w, 100 + 8 * k, 2, 1000 + 2 * k as u32);
        }
        let mut b = logical(command, 0, 0, 2, 100);
        b.element_count = 64;
        assert_eq!(one(&mut w, &b), 0);
        b.element_count = 65;
        assert_eq!(one(&mut w, &b), 18);
        b.element_count = 255;
        assert_eq!(one(&mut w, &b), 18);
        b.element_count = 0;
        assert_eq!(one(&mut w, &b), 18);
    }
    // 65 elements that would sum right are refused for their number.
    let mut w = world(4000);
    put_element(&mut w, 100, 64, 1000);
    for k in 1..65 {
        put_element(&mut w, 100 + 8 * k, 2, 1100 + 2 * k as u32);
    }
    let mut b = logical(0xa1, 0, 0, 3, 100);
    b.element_count = 65;
    assert_eq!(one(&mut w, &b), 18);
}

#[test]
fn read_of_2_from_logical_7() {
    let mut w = world(300);
    put_block(&mut w, 0, &logical(0x81, 0, 7, 2, 100));
    let before = w.clone();
    let (outcome, trace) = run_traced(&mut w, 0, 1);
    assert_eq!(
        outcome,
        Outcome {
            answer: 0,
            failed: 0,
            blocks: 1,
            sectors: 2
        }
    );
    assert_eq!(w.host[100..164], image()[448..512]);
    assert_eq!(w.host[164..228], image()[768..832]);
    assert_eq!(w.host[2..4], [0x80, 0x00]);
    assert_eq!(w.host[..2], before.host[..2]);
    assert_eq!(w.host[4..100], before.host[4..100]);
    assert_eq!(w.host[228..], before.host[228..]);
    assert_eq!(w.images, before.images);
    assert_eq!(event(&w, 1), [0x80, 0, 0, 0, 0, 0, 0, 1]);
    assert_eq!(w.events[8..], before.events[8..]);
    assert_eq!(
        w.records[0],
        Record {
            cylinder: 1,
            ..ready()
        }
    );
    assert_eq!(w.records[1], before.records[1]);
    assert!(trace.blocks[0].crossed_cylinder);
    assert!(!trace.blocks[0].on_volume_1);
}

#[test]
fn write_whose_buffer_covers_its_own_word_1() {
    let mut w = world(100);
    put_block(
        &mut w,
        0,
        &Block {
            status: 0x12,
            error: 0x34,
            ..logical(0x82, 0, 5, 1, 0)
        },
    );
    let before = w.clone();
    let (outcome, trace) = run_traced(&mut w, 0, 1);
    assert_eq!(outcome.answer, 0);
    let mut expected = before.host[0..64].to_vec();
    put(&mut expected, 2, &[0x81, 0x00]);
    assert_eq!(w.images[0][320..384], expected);
    assert_eq!(w.host[2..4], [0x80, 0x00]);
    assert!(trace.blocks[0].took_own_status);
}

#[test]
fn block_linked_to_itself() {
    let mut w = world(28);
    put_block(&mut w, 0, &block(0x89, LK));
    let outcome = run(&mut w, 0, 3);
    assert_eq!(
        outcome,
        Outcome {
            answer: 6,
            failed: 0,
            blocks: 3,
            sectors: 0
        }
    );
    assert_eq!(w.events[24..], [0xdd; 520][24..]);
}

#[test]
fn host_of_27_and_28() {
    let handshake = block(0x86, 0).bytes();
    let mut w = world(28);
    w.host = handshake.to_vec();
    assert_eq!(
        run(&mut w, 0, 1),
        Outcome {
            answer: 0,
            failed: 0,
            blocks: 1,
            sectors: 0
        }
    );
    let mut expected = handshake;
    put(&mut expected, 2, &[0x80, 0x00]);
    put(
        &mut expected,
        4,
        &[
            0x32, 0x00, 0x01, 0x03, 0x00, 0x00, 0x06, 0x11, 0x07, 0xc3, 0x00, 0x00,
        ],
    );
    assert_eq!(w.host, expected);

    let mut w = world(27);
    w.host = handshake[..27].to_vec();
    let before = w.clone();
    assert_eq!(
        run(&mut w, 0, 1),
        Outcome {
            answer: 3,
            failed: 0,
            blocks: 0,
            sectors: 0
        }
    );
    assert_eq!(w, before);
}

#[test]
fn table_11() {
    let g = Geometry::from_uib(&TABLE_11);
    assert_eq!(g, Geometry::table_11());
    assert!(g.within_limits());
    assert_eq!(g.drive_heads(), 10);
    assert!(!g.volume_present(1));
    let mut w = world(100);
    w.records[0].cylinder = 7;
    put(&mut w.host, 40, &TABLE_11);
    assert_eq!(
        one(
            &mut w,
            &Block {
                buffer_address: 40,
                ..block(0x87, 0)
            }
        ),
        0
    );
    assert_eq!(
        w.records[0],
        Record {
            initialized: true,
            geometry: g,
            cylinder: 0,
            table: Table::NONE,
            holder: Holder::Nobody
        }
    );
    assert_eq!(travel(&w, 1), 0);
}

#[test]
fn limits() {
    let s = small();
    let with = |v0: (u8, u8), v1: (u8, u8)| Geometry {
        volumes: [
            Volume {
                start_head: v0.0,
                heads: v0.1,
            },
            Volume {
                start_head: v1.0,
                heads: v1.1,
            },
        ],
        ..s
    };
    for (cylinders, fits) in [
        (0, false),
        (1, true),
        (4096, true),
        (4097, false),
        (65535, false),
    ] {
        assert_eq!(Geometry { cylinders, ..s }.within_limits(), fits);
    }
    for (sectors_a_track, fits) in [(0, false), (1, true), (255, true), (256, false)] {
        assert_eq!(
            Geometry {
                sectors_a_track,
                ..s
            }
            .within_limits(),
            fits
        );
    }
    for (bytes_a_sector, fits) in [
        (62, false),
        (63, false),
        (64, true),
        (65, false),
        (4096, true),
        (4097, false),
        (4098, false),
    ] {
        assert_eq!(
            Geometry {
                bytes_a_sector,
                ..s
            }
            .within_limits(),
            fits
        );
    }
    assert!(!with((0, 0), (2, 1)).within_limits());
    assert!(with((0, 64), (0, 0)).within_limits());
    assert!(!with((1, 64), (0, 0)).within_limits());
    assert!(with((63, 1), (0, 63)).within_limits());
    assert!(!with((0, 2), (63, 2)).within_limits());
    assert!(!with((0, 3), (2, 1)).within_limits());
    assert!(!with((2, 1), (0, 3)).within_limits());
    assert!(!with((0, 9), (3, 2)).within_limits());
    // An absent volume 1 is neither judged nor counted in H.
    assert!(with((0, 2), (60, 0)).within_limits());
    assert!(with((0, 2), (255, 0)).within_limits());
    assert_eq!(with((0, 2), (60, 0)).drive_heads(), 2);
    assert!(with((4, 2), (5, 0)).within_limits());
    // H is not taken from volume 0 alone, nor from volume 1 alone.
    assert_eq!(with((0, 2), (5, 1)).drive_heads(), 6);
    assert_eq!(with((5, 2), (0, 1)).drive_heads(), 7);
    // At the limits.
    let most = Geometry {
        cylinders: 4096,
        sectors_a_track: 255,
        bytes_a_sector: 4096,
        ..with((0, 64), (0, 0))
    };
    assert_eq!(most.drive_sectors(), 66_846_720);
    assert_eq!(most.need(), 273_871_011_840);
}

#[test]
fn every_place_is_used_once() {
    let mut seen = [0; 120];
    for volume in 0..2 {
        for n in 0..small().volume_sectors(volume) {
            seen[place(volume, n) as usize] += 1;
        }
    }
    assert_eq!(seen, [1; 120]);
}

#[test]
fn inspection() {
    let nothing = Part {
        unit: 0,
        at: 0,
        bytes: 0,
    };
    let records = [unready(), ready()];
    assert_eq!(
        inspect(&records, [0, 7800], 1, 8),
        Part {
            unit: 1,
            at: 512,
            bytes: 64
        }
    );
    assert_eq!(
        inspect(&records, [0, 7800], 1, 119),
        Part {
            unit: 1,
            at: 7616,
            bytes: 64
        }
    );
    assert_eq!(inspect(&records, [0, 7800], 1, 120), nothing);
    assert_eq!(inspect(&records, [0, 7800], 1, u64::MAX), nothing);
    assert_eq!(inspect(&records, [0, 7799], 1, 8), nothing);
    assert_eq!(inspect(&records, [7800, 7800], 0, 8), nothing);
    assert_eq!(inspect(&records, [7800, 7800], 2, 8), nothing);
    assert_eq!(inspect(&records, [7800, 7800], u32::MAX, 8), nothing);
    let records = [
        Record {
            cylinder: 10,
            ..ready()
        },
        ready(),
    ];
    assert_eq!(inspect(&records, [7800, 7800], 0, 0), nothing);
}
