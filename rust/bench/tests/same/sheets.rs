//! The same for field sheets.

use super::*;
use bench::inputs::sheet;

fn same_sheet(bytes: &[u8]) -> Option<Refused> {
    let calls: Calls<Result<usize, Refused>> = [
        &|_| plain::read_sheet(bytes).map_err(number_input_place),
        &|_| reference::read_sheet(bytes).map_err(of_reference),
        &|_| {
            let read = goltximen::read_sheet(bytes).map(usize::from);
            read.map_err(of_product)
        },
    ];
    same_written(0, calls).err()
}

#[test]
fn drawn_descriptions_and_sheets() {
    let mut chance = Chance::new(0x5eed_000c);
    let mut outside = 0;
    for _ in 0..3000 {
        let bytes = drawn(&DESCRIPTIONS, &mut chance);
        outside += usize::from(same_sheet(&bytes).is_some_and(|(number, ..)| number == 19));
        let shape = [Shape::Wide, Shape::Deep][chance.below(2)];
        let entries = 4 + length(&mut chance).min(1004);
        let mut bytes = encode(&sheet(entries, shape, &mut chance));
        assert_eq!(same_sheet(&bytes), None);
        spoil(&mut bytes, &mut chance);
        same_sheet(&bytes);
    }
    assert!(outside > 1000);
}

/// Each kind, number and depth around the borders, before an entry that no description has and without.
#[test]
fn borders() {
    for kind in 0..=10 {
        for number in [0, 1, 99, 100, 65_535] {
            for depth in 0..=5 {
                let chain = (0..depth).map(|owner| entry(5, owner, 1, 0));
                let mut entries: Vec<Entry> = chain.collect();
                entries.push(entry(kind, depth, 7, number));
                same_sheet(&encode(&entries));
                entries.push(entry(0, 0, 7, 0));
                same_sheet(&encode(&entries));
            }
        }
    }
}
