//! Fullness in BEGIN's line, of few booked trays and of many, in bounds at both
//! ends of 32 bits.

use crate::menu::Menu;
use crate::printer::printed;

/// The largest need of a task without children.
const LARGEST: u32 = 2 * 65_535;

/// The most trays that `leaves` can book.
const MOST: u32 = 1023 * LARGEST;

/// A plan that books so many trays at BEGIN: as needs of tasks without children
/// that all feed the root, which then has no missing trays.
fn leaves(booked: u32, memory_bound: u32) -> Menu {
    let count = booked.div_ceil(LARGEST);
    let leaf = |before: u32| {
        let need = LARGEST.min(booked - before * LARGEST);
        let out = need / 2;
        (count as u16 + 1, (need - out) as u16, out as u16)
    };
    let mut records: Vec<_> = (0..count).map(leaf).collect();
    records.push((0, 0, 0));
    Menu::new(1, memory_bound, &records)
}

/// Booked trays, a bound, and the reading.
const CASES: [(u32, u32, u32); 14] = [
    (0, 0, 0),
    (0, 1, 0),
    (1, 1, 1000),
    (0, u32::MAX, 0),
    (1, u32::MAX, 0),
    (4_294_967, u32::MAX, 0),
    (4_294_968, u32::MAX, 1),
    (133_143_986, u32::MAX, 30),
    (133_143_987, u32::MAX, 31),
    (MOST, u32::MAX, 31),
    (MOST, u32::MAX - 1, 31),
    (MOST, 1 << 31, 62),
    (MOST, MOST + 1, 999),
    (MOST, MOST, 1000),
];

#[test]
fn as_the_definition_has_it() {
    for (booked, memory_bound, full) in CASES {
        let mut stream = leaves(booked, memory_bound).commands().concat();
        stream.push(0x05);
        let line = printed(&stream);
        let standing = format!(" booked={booked} ");
        let reading = format!(" full={full} start 1\n");
        assert!(line.contains(&standing), "{line}");
        assert!(line.ends_with(&reading), "{memory_bound}: {line}");
    }
}
