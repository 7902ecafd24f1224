//! Two controllers on the small drive: who is refused, who takes the drive, and who gives it up.

mod common;
use common::*;
use model::*;

/// The small drive held so, with a run of that controller to come.
fn held_by(holder: Holder, controller: Controller) -> World {
    let mut w = world(400);
    w.controller = controller;
    w.records[0].holder = holder;
    put(&mut w.host, 200, &SMALL_UIB);
    w
}

/// A block of each command that ends 80 on the small drive, with its holder left aside.
fn each(options: u8) -> [Block; 10] {
    let mut list = Block {
        element_count: 1,
        ..logical(0xa1, options, 0, 1, 240)
    };
    let scatter = list;
    list.command = 0xa2;
    [
        logical(0x81, options, 0, 1, 100),
        logical(0x82, options, 0, 1, 100),
        remap(options, (1, 0), (9, 2)),
        block(0x86, options),
        Block {
            buffer_address: 200,
            ..block(0x87, options)
        },
        block(0x89, options),
        logical(0x8a, options, 9, 1, 0),
        physical(0x8c, options, (3, 0, 0), 0, 100),
        scatter,
        list,
    ]
}

fn with_list(mut w: World) -> World {
    put(&mut w.host, 240, &[0, 64, 0, 0, 1, 0, 0, 0]);
    w
}

/// Only word 1 and the entry change.
fn refused(mut w: World, b: &Block, answer: u8) {
    put_block(&mut w, 0, b);
    let mut expected = w.clone();
    put(&mut expected.host, 2, &[0x82, error_byte(answer)]);
    let entry = [0x82, error_byte(answer), 0, 0, 0, 0, 0, 0];
    put(&mut expected.events, 0, &entry);
    assert_eq!(one(&mut w, b), answer);
    assert_eq!(w, expected);
}

fn other(controller: Controller) -> Holder {
    controller.other().as_holder()
}

#[test]
fn held_by_the_other_is_24_for_all_but_86() {
    assert_eq!(error_byte(24), 0x2e);
    for controller in Controller::BOTH {
        for options in [0, RV] {
            for b in each(options).iter().filter(|b| b.command != 0x86) {
                let w = with_list(held_by(other(controller), controller));
                refused(w, b, 24);
            }
            let mut w = held_by(other(controller), controller);
            assert_eq!(one(&mut w, &block(0x86, options)), 0);
            assert_eq!(w.records[0].holder, other(controller));
        }
    }
}

/// Whoever holds the drive, or finds it free, takes it or gives it up with a block that ends 80.
#[test]
fn taken_kept_and_given_up() {
    for controller in Controller::BOTH {
        let own = controller.as_holder();
        for before in [Holder::Nobody, own] {
            for options in [0, RV] {
                for b in each(options) {
                    let mut w = with_list(held_by(before, controller));
                    assert_eq!(one(&mut w, &b), 0);
                    let after = match (b.command, options) {
                        (0x86, _) => before,
                        (_, RV) => own,
                        _ => Holder::Nobody,
                    };
                    assert_eq!(w.records[0].holder, after, "{:02x}", b.command);
                    assert_eq!(w.records[1].holder, Holder::Nobody);
                }
            }
        }
    }
}

/// 10 comes before 24, and 24 before all else; a command that is not listed asks nobody.
#[test]
fn the_order_of_answers() {
    let theirs = || held_by(Holder::First, Controller::Second);
    for command in [0x00, 0x83, 0x9f, 0xff] {
        refused(theirs(), &block(command, 0), 10);
        refused(theirs(), &block(command, RV), 10);
    }
    let mut w = theirs();
    w.records[0].initialized = false;
    for b in each(0).iter().filter(|b| b.command != 0x86) {
        refused(w.clone(), b, 24);
    }
    // 12, 13, 14, 15, 16, 17, 18, 19 and 22 would come next
    let uib = |at| Block {
        buffer_address: at,
        ..block(0x87, 0)
    };
    let later = [
        uib(201),
        uib(100),
        logical(0x81, 0, 0, 0, 100),
        logical(0x81, 0, 80, 1, 100),
        logical(0x82, 0, 0, 1, 101),
        logical(0xa1, 0, 0, 1, 240),
        remap(0, (1, 0), (1, 0)),
    ];
    for b in &later {
        refused(theirs(), b, 24);
        let mut w = held_by(Holder::Second, Controller::Second);
        assert!(!matches!(one(&mut w, b), 0 | 24));
    }
    let mut w = theirs();
    w.images[0].clear();
    refused(w, &logical(0x82, VO, 0, 1, 100), 24);
}

#[test]
fn a_failed_block_leaves_the_holder() {
    for controller in Controller::BOTH {
        for before in [Holder::Nobody, controller.as_holder()] {
            for options in [0, RV] {
                let w = || held_by(before, controller);
                refused(w(), &logical(0x81, options, 80, 1, 100), 16);
                refused(w(), &block(0x83, options), 10);
                refused(w(), &block(0x87, options | UN), 13);
                let mut w = w();
                w.images[0][7680 + 1] = 1;
                assert_eq!(one(&mut w, &logical(0x81, options, 0, 2, 100)), 20);
                assert_eq!(w.records[0].holder, before);
            }
        }
    }
}

/// Each unit has a holder of its own.
#[test]
fn the_other_unit_keeps_its_holder() {
    for holder in [Holder::Nobody, Holder::First, Holder::Second] {
        let mut w = held_by(Holder::Nobody, Controller::First);
        w.records[1].holder = holder;
        assert_eq!(one(&mut w, &block(0x89, RV)), 0);
        assert_eq!(w.records.map(|r| r.holder), [Holder::First, holder]);
        assert_eq!(one(&mut w, &block(0x89, 0)), 0);
        assert_eq!(w.records.map(|r| r.holder), [Holder::Nobody, holder]);
    }
}

/// The drives go from one controller to the other, each with a memory of its own.
#[test]
fn in_turn() {
    let mut first = held_by(Holder::Nobody, Controller::First);
    let mut second = held_by(Holder::Nobody, Controller::Second);
    second.host = vec![0x11; 300];
    let hand_over = |from: &World, to: &mut World| {
        to.images = from.images.clone();
        to.records = from.records;
    };
    assert_eq!(one(&mut first, &logical(0x82, RV, 8, 1, 300)), 0);
    hand_over(&first, &mut second);
    assert_eq!(one(&mut second, &logical(0x81, 0, 8, 1, 100)), 24);
    hand_over(&second, &mut first);
    assert_eq!(one(&mut first, &block(0x89, 0)), 0);
    hand_over(&first, &mut second);
    assert_eq!(one(&mut second, &logical(0x81, RV, 8, 1, 100)), 0);
    assert_eq!(second.host[100..164], [0xee; 64]);
    // it came from where the other left the heads
    assert_eq!(travel(&second, 1), 1);
    hand_over(&second, &mut first);
    assert_eq!(one(&mut first, &block(0x89, 0)), 24);
}

/// In one chain: taken, kept by an 86 without RV, given up.
#[test]
fn along_a_chain() {
    let mut w = held_by(Holder::Nobody, Controller::Second);
    let linked = |b: Block, to| Block {
        options: b.options | LK,
        linked_block_address: to,
        ..b
    };
    put_block(&mut w, 0, &linked(block(0x89, RV), 32));
    put_block(&mut w, 32, &linked(block(0x86, 0), 64));
    put_block(&mut w, 64, &block(0x8a, 0));
    for (allowance, holder) in [
        (1, Holder::Second),
        (2, Holder::Second),
        (3, Holder::Nobody),
    ] {
        let mut w = w.clone();
        run(&mut w, 0, allowance);
        assert_eq!(w.records[0].holder, holder);
    }
}

#[test]
fn what_the_bytes_of_a_record_say() {
    let own = [0x02, 0x01, 0x01, 0x14];
    assert_eq!(Holder::said(own, 0), Holder::Nobody);
    assert_eq!(Holder::said(own, 1), Holder::First);
    assert_eq!(Holder::said(own, 2), Holder::Second);
    for number in 3..=255 {
        assert_eq!(Holder::said(own, number), Holder::Nobody);
        assert!(!Holder::is_one(number));
    }
    for flag in [0x00, 0x02, 0xff] {
        assert_eq!(Holder::said([0x02, flag, 0x01, 0x14], 2), Holder::Second);
    }
    for opening in [
        [0x01, 0x01, 0x01, 0x14],
        [0x03, 0x01, 0x01, 0x14],
        [0x02, 0x01, 0x00, 0x14],
        [0x02, 0x01, 0x01, 0x10],
        [0x00; 4],
        [0xff; 4],
    ] {
        for number in 0..=255 {
            assert_eq!(Holder::said(opening, number), Holder::Nobody);
        }
    }
    for holder in [Holder::Nobody, Holder::First, Holder::Second] {
        assert_eq!(Holder::said(own, holder.number()), holder);
        assert!(Holder::is_one(holder.number()));
    }
}

/// A drive that somebody holds is inspected as any other.
#[test]
fn inspection_asks_no_holder() {
    for holder in [Holder::Nobody, Holder::First, Holder::Second] {
        let w = held_by(holder, Controller::First);
        let part = inspect(&w.records, [7800, 0], 0, 12);
        assert_eq!((part.unit, part.at, part.bytes), (0, 768, 64));
    }
}
