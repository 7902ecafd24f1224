//! What the transfers move, and the places where bytes lie under one another.

mod common;
use common::*;
use model::*;

fn listed(command: u8, options: u8, n: u32, count: u16, list: u32, elements: u8) -> Block {
    Block {
        element_count: elements,
        ..logical(command, options, n, count, list)
    }
}

#[test]
fn read_stops_before_an_unreadable_sector() {
    // Logical 8 is place 12, on cylinder 1.
    let mut w = world(400);
    w.images[0][7680 + 12] = 0x40;
    put_block(
        &mut w,
        0,
        &Block {
            error_vector: 9,
            interrupt_level: 5,
            ..logical(0x81, IE | LK, 7, 3, 100)
        },
    );
    let before = w.clone();
    let outcome = run(&mut w, 0, 4);
    assert_eq!(
        outcome,
        Outcome {
            answer: 4,
            failed: 20,
            blocks: 1,
            sectors: 1
        }
    );
    assert_eq!(w.host[100..164], image()[448..512]);
    assert_eq!(w.host[164..], before.host[164..]);
    assert_eq!(w.host[2..4], [0x82, 0x13]);
    // The sector that stopped it counts as tried.
    assert_eq!(event(&w, 1), [0x82, 0x13, 5, 9, 0, 0, 0, 1]);
    assert_eq!(w.records[0].cylinder, 1);
    assert_eq!(w.images, before.images);

    // With DE it is moved.
    let mut w = before.clone();
    put_block(&mut w, 0, &logical(0x81, DE, 7, 3, 100));
    let (outcome, trace) = run_traced(&mut w, 0, 4);
    assert_eq!(
        outcome,
        Outcome {
            answer: 0,
            failed: 0,
            blocks: 1,
            sectors: 3
        }
    );
    assert_eq!(w.host[164..292], image()[768..896]);
    assert!(trace.blocks[0].moved_unreadable);

    // A write ignores the mark and leaves it.
    let mut w = before.clone();
    assert_eq!(one(&mut w, &logical(0x82, 0, 7, 3, 100)), 0);
    assert_eq!(w.images[0][768..896], [0xee; 128]);
    assert_eq!(w.images[0][7680..], before.images[0][7680..]);
}

#[test]
fn read_that_stops_at_once() {
    let mut w = world(200);
    w.records[0].cylinder = 3;
    w.images[0][7680 + 115] = 1;
    assert_eq!(one(&mut w, &logical(0x81, 0, 79, 1, 100)), 20);
    assert_eq!(w.host[100..164], [0xee; 64]);
    assert_eq!((w.records[0].cylinder, travel(&w, 1)), (9, 6));
}

#[test]
fn scatter_and_gather_join_the_elements_in_order() {
    let mut w = world(600);
    for (k, (count, address)) in [(50, 400), (6, 300), (72, 200)].iter().enumerate() {
        put_element(&mut w, 100 + 8 * k, *count, *address);
    }
    let scatter = listed(0xa1, 0, 7, 2, 100, 3);
    assert_eq!(one(&mut w, &scatter), 0);
    let mut data = image()[448..512].to_vec();
    data.extend_from_slice(&image()[768..832]);
    assert_eq!(w.host[400..450], data[0..50]);
    assert_eq!(w.host[300..306], data[50..56]);
    assert_eq!(w.host[200..272], data[56..128]);
    // Gathered to volume 1 from 3, which is places 11 and 20.
    put_block(&mut w, 0, &listed(0xa2, VO, 3, 2, 100, 3));
    let (outcome, trace) = run_traced(&mut w, 0, 1);
    assert_eq!((outcome.answer, outcome.sectors), (0, 2));
    assert_eq!(w.images[0][11 * 64..12 * 64], data[0..64]);
    assert_eq!(w.images[0][20 * 64..21 * 64], data[64..128]);
    assert!(trace.blocks[0].on_volume_1 && trace.blocks[0].crossed_cylinder);
}

#[test]
fn six_elements_over_three_sectors_of_528() {
    let mut w = world(3000);
    w.records[0].geometry.bytes_a_sector = 528;
    w.images[0] = (0..120 * 528).map(|k| (k * 3 + k / 528) as u8).collect();
    w.images[0].resize(120 * 529, 0);
    let mut expected = Vec::new();
    for k in 0..3 {
        put_element(&mut w, 100 + 16 * k, 16, 200 + 16 * k as u32);
        put_element(&mut w, 108 + 16 * k, 512, 300 + 512 * k as u32);
        expected.push(w.images[0][528 * k..528 * (k + 1)].to_vec());
    }
    assert_eq!(one(&mut w, &listed(0xa1, 0, 0, 3, 100, 6)), 0);
    for k in 0..3 {
        assert_eq!(w.host[200 + 16 * k..216 + 16 * k], expected[k][..16]);
        assert_eq!(w.host[300 + 512 * k..812 + 512 * k], expected[k][16..]);
    }
}

#[test]
fn read_that_stops_inside_an_element() {
    let mut w = world(600);
    w.images[0][7680 + 1] = 1;
    put_element(&mut w, 100, 60, 200);
    put_element(&mut w, 108, 68, 300);
    put_block(&mut w, 0, &listed(0xa1, 0, 0, 2, 100, 2));
    let mut between = w.clone();
    let (outcome, trace) = run_traced(&mut w, 0, 1);
    assert_eq!((outcome.failed, outcome.sectors), (20, 1));
    assert_eq!(w.host[200..260], image()[0..60]);
    assert_eq!(w.host[300..304], image()[60..64]);
    assert_eq!(w.host[304..], [0xee; 600][304..]);
    assert!(trace.blocks[0].stopped_inside_element);

    put_element(&mut between, 100, 64, 200);
    put_element(&mut between, 108, 64, 300);
    let (outcome, trace) = run_traced(&mut between, 0, 1);
    assert_eq!((outcome.failed, outcome.sectors), (20, 1));
    assert!(!trace.blocks[0].stopped_inside_element);
}

#[test]
fn later_stores_stand_where_elements_overlap() {
    let mut w = world(400);
    put_element(&mut w, 100, 40, 200);
    put_element(&mut w, 108, 24, 220);
    put_block(&mut w, 0, &listed(0xa1, 0, 0, 1, 100, 2));
    let (_, trace) = run_traced(&mut w, 0, 1);
    assert_eq!(w.host[200..220], image()[0..20]);
    assert_eq!(w.host[220..244], image()[40..64]);
    assert!(trace.blocks[0].elements_overlap);
}

#[test]
fn list_under_its_own_status_word() {
    // The list begins at the block's word 1: its byte count is status and error, its address
    // words 2 and 3, which are also the logical number 0x48 = 72.
    let mut w = world(300);
    put_block(
        &mut w,
        0,
        &Block {
            status: 0,
            error: 64,
            ..listed(0xa1, 0, 72, 1, 2, 1)
        },
    );
    let (outcome, trace) = run_traced(&mut w, 0, 1);
    assert_eq!(outcome.answer, 0);
    let place = 108;
    assert_eq!(w.host[72..136], image()[place * 64..place * 64 + 64]);
    assert_eq!(w.host[2..4], [0x80, 0x00]);
    assert!(trace.blocks[0].list_under_own_status);
}

#[test]
fn list_under_the_data_it_moves() {
    // The first sector's bytes fall on the list; the second still goes where the list said.
    let mut w = world(400);
    put_element(&mut w, 100, 64, 80);
    put_element(&mut w, 108, 64, 300);
    put_block(&mut w, 0, &listed(0xa1, 0, 0, 2, 100, 2));
    let (outcome, trace) = run_traced(&mut w, 0, 1);
    assert_eq!(outcome.answer, 0);
    assert_eq!(w.host[80..144], image()[0..64]);
    assert_eq!(w.host[300..364], image()[64..128]);
    assert!(trace.blocks[0].stored_over_own_list);
}

#[test]
fn uib_under_its_own_status_word() {
    // The UIB begins at word 1: status and error are volume 0's start head and
    // heads, and so on to word 9.
    let mut w = world(28);
    let mut bytes = Block {
        buffer_address: 2,
        ..block(0x87, 0)
    }
    .bytes();
    // Bytes 10 to 13 of the block are the UIB's address and its bytes 8 to 11, which are not
    // judged.
    put(&mut bytes, 2, &SMALL_UIB[..8]);
    put(&mut bytes, 14, &SMALL_UIB[12..]);
    put(&mut w.host, 0, &bytes);
    w.records[0] = unready();
    let (outcome, trace) = run_traced(&mut w, 0, 1);
    assert_eq!(outcome.answer, 0);
    assert_eq!(w.records[0], ready());
    assert!(trace.blocks[0].uib_under_own_status);
}

#[test]
fn read_over_its_own_block() {
    // All of the block is read over; status, link and vector are those of the copy, and the
    // final status lies on top.
    let mut w = world(200);
    let mut b = logical(0x81, LK | IE, 0, 1, 0);
    b.linked_block_address = 100;
    b.interrupt_level = 3;
    b.normal_vector = 4;
    put_block(&mut w, 0, &b);
    put_block(&mut w, 100, &block(0x89, 0));
    let (outcome, trace) = run_traced(&mut w, 0, 9);
    assert_eq!((outcome.answer, outcome.blocks), (0, 2));
    let mut expected = image()[0..64].to_vec();
    put(&mut expected, 2, &[0x80, 0x00]);
    assert_eq!(w.host[0..64], expected);
    assert_eq!(event(&w, 1)[..4], [0x80, 0, 3, 4]);
    assert!(trace.blocks[0].stored_over_own_status);
    assert!(!trace.blocks[1].overwritten);
}

#[test]
fn read_over_its_own_status_that_then_stops() {
    let mut w = world(200);
    w.images[0][7680 + 1] = 1;
    assert_eq!(one(&mut w, &logical(0x81, 0, 0, 2, 0)), 20);
    let mut expected = image()[0..64].to_vec();
    put(&mut expected, 2, &[0x82, 0x13]);
    assert_eq!(w.host[0..64], expected);
}

#[test]
fn block_overwritten_before_it_is_fetched() {
    // The sector read holds a handshake; it falls on the second block, which was no command.
    let mut w = world(200);
    put(&mut w.images[0], 0, &block(0x86, 0).bytes());
    put_block(
        &mut w,
        0,
        &Block {
            linked_block_address: 100,
            ..logical(0x81, LK, 0, 1, 100)
        },
    );
    put_block(&mut w, 100, &block(0x00, 0));
    let (outcome, trace) = run_traced(&mut w, 0, 2);
    assert_eq!((outcome.answer, outcome.blocks), (0, 2));
    assert_eq!(w.host[104..108], [0x32, 0x00, 0x01, 0x03]);
    assert!(!trace.blocks[0].overwritten);
    assert!(trace.blocks[1].overwritten);
    assert!(trace.blocks[1].overwritten_with_other_bytes);
    assert_eq!(trace.blocks[1].command, 0x86);
}

#[test]
fn a_status_word_may_be_another_block_s_first_word() {
    // The second block lies two bytes further on: its command and options are the status 80 and
    // error 00 of the first.
    let mut w = world(100);
    put_block(
        &mut w,
        0,
        &Block {
            linked_block_address: 2,
            ..block(0x89, LK)
        },
    );
    let (outcome, trace) = run_traced(&mut w, 0, 2);
    assert_eq!(
        outcome,
        Outcome {
            answer: 4,
            failed: 10,
            blocks: 2,
            sectors: 0
        }
    );
    assert_eq!(w.host[0..6], [0x89, LK, 0x80, 0x00, 0x82, 0x14]);
    assert!(trace.blocks[1].overwritten);
}

#[test]
fn handshake_loop_overwrites_itself() {
    let mut w = world(28);
    put_block(&mut w, 0, &block(0x86, LK));
    let (_, trace) = run_traced(&mut w, 0, 2);
    assert!(!trace.blocks[0].overwritten);
    assert!(trace.blocks[1].overwritten && trace.blocks[1].overwritten_with_other_bytes);
    // Its own word 1 alone does not count.
    put_block(&mut w, 0, &block(0x89, LK));
    let (_, trace) = run_traced(&mut w, 0, 2);
    assert!(!trace.blocks[1].overwritten && !trace.blocks[1].overwritten_with_other_bytes);
}

#[test]
fn format_a_track_of_the_whole_drive() {
    // Head 2 is volume 1's; VO, XL, sector and count say otherwise and are ignored.
    for options in [0, VO, XL, VO | XL] {
        let mut w = world(200);
        w.records[0].cylinder = 9;
        w.images[0][7680 + 20] = 1;
        for k in 0..64 {
            w.host[100 + k] = k as u8;
        }
        let before = w.clone();
        put_block(&mut w, 0, &physical(0x8c, options, (1, 2, 200), 0, 100));
        let outcome = run(&mut w, 0, 1);
        assert_eq!(
            outcome,
            Outcome {
                answer: 0,
                failed: 0,
                blocks: 1,
                sectors: 4
            }
        );
        let mut expected = before.images[0].clone();
        for place in 20..24 {
            put(&mut expected, place * 64, &before.host[100..164]);
        }
        assert_eq!(w.images[0], expected);
        assert_eq!((w.records[0].cylinder, travel(&w, 1)), (1, -8));
        // The last sector formatted and their number; the head stays.
        assert_eq!(w.host[6..10], [2, 3, 0, 4]);
    }
    assert_eq!(
        one(&mut world(200), &physical(0x8c, 0, (9, 2, 0), 0, 100)),
        0
    );
    assert_eq!(
        one(&mut world(200), &physical(0x8c, 0, (9, 3, 0), 0, 100)),
        16
    );
    assert_eq!(
        one(&mut world(200), &physical(0x8c, 0, (10, 0, 0), 0, 100)),
        16
    );
}

#[test]
fn format_a_track_of_no_volume() {
    let mut w = world(200);
    w.records[0].geometry.volumes = [
        Volume {
            start_head: 1,
            heads: 1,
        },
        Volume {
            start_head: 2,
            heads: 1,
        },
    ];
    put_block(&mut w, 0, &physical(0x8c, 0, (0, 0, 0), 0, 100));
    let (outcome, trace) = run_traced(&mut w, 0, 1);
    assert_eq!((outcome.answer, outcome.sectors), (0, 4));
    assert_eq!(w.images[0][0..256], [0xee; 256]);
    assert!(trace.blocks[0].on_no_volume);
}

#[test]
fn format_with_its_own_word_1() {
    let mut w = world(64);
    put_block(&mut w, 0, &physical(0x8c, 0, (0, 0, 0), 0, 0));
    let before = w.clone();
    assert_eq!(run(&mut w, 0, 1).answer, 0);
    let mut expected = before.host[..64].to_vec();
    put(&mut expected, 2, &[0x81, 0x00]);
    for place in 0..4 {
        assert_eq!(w.images[0][place * 64..place * 64 + 64], expected);
    }
    assert_eq!(w.host[7..10], [3, 0, 4]);
}

#[test]
fn units_do_not_mix() {
    let mut w = world(200);
    w.images[1] = vec![0x55; 8000];
    w.records[1] = Record {
        cylinder: 4,
        ..ready()
    };
    let before = w.clone();
    assert_eq!(one(&mut w, &logical(0x82, UN, 0, 1, 100)), 0);
    assert_eq!(w.images[0], before.images[0]);
    assert_eq!(w.images[1][..64], [0xee; 64]);
    assert_eq!(w.images[1][64..], before.images[1][64..]);
    assert_eq!(w.records, [ready(), ready()]);
    assert_eq!(travel(&w, 1), -4);
}

#[test]
fn sectors_are_summed_over_the_chain() {
    let mut w = world(600);
    w.images[0][7680 + 1] = 1;
    put_block(
        &mut w,
        0,
        &Block {
            linked_block_address: 30,
            ..logical(0x81, LK | DE, 0, 3, 200)
        },
    );
    put_block(
        &mut w,
        30,
        &Block {
            linked_block_address: 60,
            ..logical(0x82, LK, 9, 2, 200)
        },
    );
    put_block(
        &mut w,
        60,
        &Block {
            linked_block_address: 90,
            ..physical(0x8c, LK, (0, 0, 0), 0, 200)
        },
    );
    put_block(&mut w, 90, &logical(0x81, 0, 0, 5, 200));
    let outcome = run(&mut w, 0, 4);
    assert_eq!(
        outcome,
        Outcome {
            answer: 4,
            failed: 20,
            blocks: 4,
            sectors: 3 + 2 + 4 + 1
        }
    );
}
