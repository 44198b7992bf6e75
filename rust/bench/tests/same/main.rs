//! The plain Rust gives the same answers and output bytes as the reference, and so does the proved library.

mod catalogue;
mod desk;
mod earning;
mod excluding;
mod failing;
mod first_tellers;
mod hierarchy;
mod items;
mod missing;
mod naming;
mod narrowest;
mod sheets;
mod stored;

use std::fmt::Debug;

use bench::inputs::{
    entry, every_of_owning, first_cell, one_bucket, one_cell, one_every_of_owning,
    one_link_at_least, one_link_every, one_link_place, single_links, worst_fit, Chance, Model,
    Shape,
};
use bench::plain;
use reference::{encode, Entry};

const FILL: u8 = 0xa5;

/// How random entries are drawn.
struct Draw {
    kinds: &'static [u8],
    owner_kind: u8,
    /// The names begin after this.
    after: u16,
    names: usize,
    numbers: usize,
    /// One entry in so many owns, where another kind was drawn.
    deeper: usize,
}

const DESCRIPTIONS: Draw = Draw {
    kinds: &[1, 1, 2, 3, 3, 4, 4, 5, 5, 5],
    owner_kind: 5,
    after: 0,
    names: 4,
    numbers: 4,
    deeper: 4,
};

const SPECIMENS: Draw = Draw {
    kinds: &[1, 7],
    owner_kind: 7,
    after: 0,
    names: 4,
    numbers: 3,
    deeper: 4,
};

/// Random entries that are accepted, but for a few groups that bring their owner a second item by a link that leads to one only.
fn draw(rules: &Draw, entries: usize, chance: &mut Chance) -> Vec<Entry> {
    let mut drawn: Vec<Entry> = Vec::new();
    let mut owners = vec![(0, 0)];
    for number in 1..=entries {
        // Often the latest owner, so that chains grow.
        let pick = match chance.below(rules.deeper) {
            0 => owners.len() - 1,
            _ => chance.below(owners.len()),
        };
        let (owner, depth) = owners[pick];
        let kind = rules.kinds[chance.below(rules.kinds.len())];
        let numbered = matches!(kind, 3 | 4 | 7);
        let amount = if numbered {
            chance.below(rules.numbers)
        } else {
            0
        };
        let mut one = entry(
            kind,
            owner,
            rules.after + chance.name(rules.names),
            amount as u16,
        );
        let same = |e: &Entry| (e.kind, e.owner, e.name) == (7, one.owner, one.name);
        let second = amount > 0 || drawn.iter().any(same);
        if kind == 7 && one.name >= 32_768 && second && chance.below(200) > 0 {
            one = entry(1, owner, one.name, 0);
        }
        drawn.push(one);
        if one.kind == rules.owner_kind && depth < 32 {
            owners.push((number, depth + 1));
        }
    }
    if rules.owner_kind == 5 && chance.below(4) == 0 && !drawn.is_empty() {
        let at = chance.below(drawn.len());
        if drawn[at].kind != 5 {
            drawn[at] = entry(6, drawn[at].owner as usize, 0, 0);
        }
    }
    drawn
}

/// A number of entries, mostly small.
fn length(chance: &mut Chance) -> usize {
    match chance.below(20) {
        0 => chance.below(1009),
        1..=4 => chance.below(253),
        5..=9 => chance.below(64),
        _ => chance.below(9),
    }
}

/// A few words are changed, and the checks are mostly made right again, now and then the first alone.
fn spoil(bytes: &mut Vec<u8>, chance: &mut Chance) {
    for _ in 0..=chance.below(2) {
        let at = chance.below(bytes.len());
        bytes[at] = chance.below(9) as u8;
    }
    if chance.below(8) == 0 {
        bytes.truncate(chance.below(bytes.len() + 1));
    }
    let mended = chance.below(8);
    for block in bytes.chunks_exact_mut(512) {
        if mended > 1 {
            mend_second(block);
        }
        if mended > 0 {
            mend_first(block);
        }
    }
}

/// The word of a block with this number, counted from 1.
fn word(block: &[u8], number: usize) -> usize {
    usize::from(block[2 * number - 2]) + 256 * usize::from(block[2 * number - 1])
}

/// Writes the second check that is right for the block.
fn mend_second(block: &mut [u8]) {
    let sum: usize = (1..=254).map(|number| number * word(block, number)).sum();
    block[508..510].copy_from_slice(&(sum as u16).to_le_bytes());
}

/// Writes the first check that is right for the block, whatever its second is.
fn mend_first(block: &mut [u8]) {
    let sum: usize = (1..=255).map(|number| word(block, number)).sum();
    block[510..].copy_from_slice(&(sum as u16).to_le_bytes());
}

/// Where names begin and how many there are: few and many, and such that links on both sides of 32,768 are among them.
const NAMES: [(u16, usize); 9] = [
    (0, 1),
    (0, 2),
    (0, 4),
    (0, 40),
    (0, 65_535),
    (32_767, 1),
    (32_766, 2),
    (32_765, 4),
    (32_747, 40),
];

fn drawn(rules: &Draw, chance: &mut Chance) -> Vec<u8> {
    let (after, names) = NAMES[chance.below(NAMES.len())];
    let wider = Draw {
        after,
        names,
        numbers: [2, 4, 65_536][chance.below(3)],
        ..*rules
    };
    let entries = length(chance);
    let mut bytes = encode(&draw(&wider, entries, chance));
    if chance.below(8) == 0 {
        spoil(&mut bytes, chance);
    }
    bytes
}

fn number_input_place(refusal: plain::Refusal) -> Refused {
    (refusal.number, refusal.input, refusal.place.into())
}

fn of_reference(refusal: reference::Refusal) -> Refused {
    (refusal.number, refusal.input, refusal.place)
}

fn of_product(refusal: goltximen::Refusal) -> Refused {
    (refusal.reason.number(), refusal.input, refusal.place.into())
}

fn same_reading(bytes: &[u8]) {
    let found = plain::read_description(bytes).map_err(number_input_place);
    assert_eq!(
        found,
        reference::read_description(bytes).map_err(of_reference)
    );
    let product = goltximen::read_description(bytes).map(usize::from);
    assert_eq!(found, product.map_err(of_product));
    let found = plain::read_specimen(bytes).map_err(number_input_place);
    assert_eq!(found, reference::read_specimen(bytes).map_err(of_reference));
    let product = goltximen::read_specimen(bytes).map(usize::from);
    assert_eq!(found, product.map_err(of_product));
}

/// A refusal's number, input and place.
type Refused = (u8, u16, u32);

/// A call of the plain Rust, of the reference and of the library, each on an output.
type Calls<'a, A> = [&'a dyn Fn(&mut [u8]) -> A; 3];

/// The answer of three calls that have to give the same and to write the same into an output of this length.
fn same_written<A: PartialEq + Debug>(out: usize, calls: Calls<A>) -> A {
    let [found, due, product] = calls.map(|call| {
        let mut out = vec![FILL; out];
        (call(&mut out), out)
    });
    assert_eq!(found.0, due.0);
    assert_eq!(found.0, product.0);
    assert!(found.1 == due.1 && found.1 == product.1);
    found.0
}

fn same_normal_form(bytes: &[u8], out: usize) {
    let calls: Calls<Result<usize, Refused>> = [
        &|out| plain::normal_form(bytes, out).map_err(number_input_place),
        &|out| reference::normal_form(bytes, out).map_err(of_reference),
        &|out| product_count(goltximen::normal_form(bytes, out)),
    ];
    let _ = same_written(out, calls);
}

fn product_count(answer: Result<u16, goltximen::Refusal>) -> Result<usize, Refused> {
    answer.map(usize::from).map_err(of_product)
}

/// The failing entry and the entries of the specimen; both are 0 where contained.
type Compared = Result<(usize, usize), Refused>;

fn plain_comparison(answer: Result<plain::Comparison, plain::Refusal>) -> Compared {
    let entries = answer.map(|answer| match answer {
        plain::Comparison::Contained => (0, 0),
        plain::Comparison::NotContained { entry, entries } => (entry, entries),
    });
    entries.map_err(number_input_place)
}

fn reference_comparison(answer: Result<reference::Comparison, reference::Refusal>) -> Compared {
    let entries = answer.map(|answer| match answer {
        reference::Comparison::Contained => (0, 0),
        reference::Comparison::NotContained { entry, entries } => (entry, entries),
    });
    entries.map_err(of_reference)
}

fn product_comparison(answer: Result<goltximen::Comparison, goltximen::Refusal>) -> Compared {
    let entries = answer.map(|answer| match answer {
        goltximen::Comparison::Contained => (0, 0),
        goltximen::Comparison::NotContained { entry, entries } => (entry.into(), entries.into()),
    });
    entries.map_err(of_product)
}

fn same_comparison(c: &[u8], d: &[u8], out: usize) {
    let calls: Calls<Compared> = [
        &|out| plain_comparison(plain::compare(c, d, out)),
        &|out| reference_comparison(reference::compare(c, d, out)),
        &|out| product_comparison(goltximen::compare(c, d, out)),
    ];
    let _ = same_written(out, calls);
}

fn product_fit(answer: Result<goltximen::Fit, goltximen::Refusal>) -> Result<bool, Refused> {
    let yes = answer.map(|answer| answer == goltximen::Fit::Yes);
    yes.map_err(of_product)
}

fn same_fit(specimen: &[u8], description: &[u8]) -> Option<bool> {
    let calls: Calls<Result<bool, Refused>> = [
        &|_| plain::fit(specimen, description).map_err(number_input_place),
        &|_| reference::fit(specimen, description).map_err(of_reference),
        &|_| product_fit(goltximen::fit(specimen, description)),
    ];
    same_written(0, calls).ok()
}

/// An output's length: mostly enough, at times one byte short or long.
fn room(needed: usize, chance: &mut Chance) -> usize {
    match chance.below(8) {
        0 => needed.saturating_sub(1),
        1 => needed + 1,
        _ => needed,
    }
}

#[test]
fn reading_and_normal_form() {
    let mut chance = Chance::new(0x5eed_0001);
    for _ in 0..3000 {
        let bytes = drawn(&DESCRIPTIONS, &mut chance);
        same_reading(&bytes);
        same_normal_form(&bytes, room(bytes.len(), &mut chance));
        same_reading(&drawn(&SPECIMENS, &mut chance));
    }
}

/// Each byte changed in a block before the last and in the last, with neither check, each of them and both made right again.
#[test]
fn each_byte_and_check() {
    let entries: Vec<Entry> = (1..=70).map(|n| entry(1, 0, 900 * n, 0)).collect();
    let bytes = encode(&entries);
    for at in 0..bytes.len() {
        for change in [1, 0x80] {
            for mended in 0..4 {
                let mut bytes = bytes.clone();
                bytes[at] ^= change;
                let block = &mut bytes[at / 512 * 512..][..512];
                if mended & 1 != 0 {
                    mend_second(block);
                }
                if mended & 2 != 0 {
                    mend_first(block);
                }
                same_reading(&bytes);
            }
        }
    }
}

/// Each two entries of a full block exchanged.
#[test]
fn each_exchange() {
    let entries: Vec<Entry> = (1..=63).map(|n| entry(1, 0, 1 + n % 3 * 512, 0)).collect();
    let bytes = encode(&entries);
    for (one, other) in (0..63).flat_map(|one| (0..one).map(move |other| (one, other))) {
        let mut bytes = bytes.clone();
        for byte in 0..8 {
            bytes.swap(4 + 8 * one + byte, 4 + 8 * other + byte);
        }
        same_reading(&bytes);
    }
}

/// Depths around 32, and numbers of blocks around 16 and 32.
#[test]
fn limits() {
    for (owns, entries) in [(5, 1008), (7, 2016)] {
        for depth in 30..36 {
            let chain: Vec<Entry> = (0..depth).map(|at| entry(owns, at, 1, 0)).collect();
            let bytes = encode(&chain);
            same_reading(&bytes);
            same_normal_form(&bytes, bytes.len());
            let mut below = chain;
            below.push(entry(1, depth, 9, 0));
            let below = encode(&below);
            same_reading(&below);
            same_normal_form(&below, below.len());
            same_comparison(&bytes, &below, bytes.len() + below.len());
            same_comparison(&below, &bytes, bytes.len() + below.len());
        }
        for entries in [entries - 1, entries, entries + 1] {
            let has: Vec<Entry> = (1..=entries).map(|n| entry(1, 0, n as u16, 0)).collect();
            let bytes = encode(&has);
            same_reading(&bytes);
            same_normal_form(&bytes, bytes.len());
            same_comparison(&bytes, &bytes, 2 * bytes.len());
            same_fit(&bytes, &encode(&has[..has.len().min(1008)]));
        }
    }
    same_reading(&[]);
}

/// The longest specimen: 1,008 at least, and a path of 32 links to an at most.
#[test]
fn longest_specimen() {
    for entries in [63, 252, 1008] {
        let c: Vec<Entry> = (1..=entries).map(|n| entry(3, 0, n, 1)).collect();
        let mut d: Vec<Entry> = (0..32).map(|at| entry(5, at, 2000, 0)).collect();
        d.push(entry(4, 32, 2000, 65_535));
        let (c, d) = (encode(&c), encode(&d));
        same_comparison(&c, &d, c.len() + d.len());
    }
}

#[test]
fn comparison() {
    let mut chance = Chance::new(0x5eed_0002);
    for _ in 0..3000 {
        let c = drawn(&DESCRIPTIONS, &mut chance);
        let d = drawn(&DESCRIPTIONS, &mut chance);
        same_comparison(&c, &d, room(c.len() + d.len(), &mut chance));
        same_comparison(&c, &c, 2 * c.len());
    }
}

/// A description against its own normal form without some entries, so that late entries are reached.
#[test]
fn comparison_that_nearly_holds() {
    let mut chance = Chance::new(0x5eed_0003);
    for _ in 0..3000 {
        let entries = length(&mut chance);
        let names = Draw {
            names: 40,
            ..DESCRIPTIONS
        };
        let mut d = draw(&names, entries, &mut chance);
        let c = encode(&d);
        if let Some(last) = d.last_mut() {
            *last = entry(
                2 + chance.below(3) as u8,
                last.owner as usize,
                chance.name(40),
                0,
            );
        }
        let d = encode(&d);
        same_comparison(&c, &d, c.len() + d.len());
    }
}

#[test]
fn fit() {
    let mut chance = Chance::new(0x5eed_0004);
    let mut yes = 0;
    for _ in 0..3000 {
        let specimen = drawn(&SPECIMENS, &mut chance);
        let description = drawn(&DESCRIPTIONS, &mut chance);
        yes += usize::from(same_fit(&specimen, &description) == Some(true));
        // The specimen that a comparison writes fits the one description and not the other.
        let other = drawn(&DESCRIPTIONS, &mut chance);
        let mut out = vec![0; description.len() + other.len()];
        let answer = plain::compare(&description, &other, &mut out);
        if let Ok(plain::Comparison::NotContained { entries, .. }) = answer {
            let written = &out[..512 * entries.div_ceil(63).max(1)];
            assert_eq!(same_fit(written, &description), Some(true));
            assert_eq!(same_fit(written, &other), Some(false));
        }
    }
    assert!(yes > 100);
}

/// Groups by links around those that lead to one item only, one item or two, at two owners: each list of up to three.
#[test]
fn second_items() {
    let one = |n: usize| {
        let (link, owner, number) = ([32_767, 32_768, 65_535][n % 3], n / 3 % 2, n / 6);
        entry(7, owner, link, number as u16)
    };
    let first = entry(7, 0, 1, 4);
    for a in 0..12 {
        same_reading(&encode(&[first, one(a)]));
        for b in 0..12 {
            same_reading(&encode(&[first, one(a), one(b)]));
            for c in 0..12 {
                let bytes = encode(&[first, one(a), one(b), one(c)]);
                same_reading(&bytes);
                same_fit(&bytes, &encode(&[entry(4, 0, 32_768, 0)]));
            }
        }
    }
}

/// As many groups as a specimen may have, the last of which brings a second item to each of the others' owners in turn.
#[test]
fn second_items_at_the_limit() {
    let (specimen, _) = single_links();
    let groups = reference::decode(&specimen);
    for owner in (0..2016).step_by(31) {
        let mut groups = groups.clone();
        groups[2015] = entry(7, owner, 32_768, 0);
        same_reading(&encode(&groups));
    }
    // Different links of one owner, and the first of them again.
    let mut links: Vec<Entry> = (0..2016).map(|n| entry(7, 0, 32_768 + n, 0)).collect();
    same_reading(&encode(&links));
    links[2015].name = 32_768;
    same_reading(&encode(&links));
    for entries in [63, 64, 252, 253] {
        same_reading(&encode(&links[..entries]));
        let mut again = links[..entries].to_vec();
        again[entries - 1] = again[0];
        same_reading(&encode(&again));
    }
}

#[test]
fn inputs_of_the_benchmark() {
    let mut chance = Chance::new(1);
    for shape in [Shape::Wide, Shape::Deep] {
        for entries in [16, 63, 250, 1008] {
            let model = Model::new(entries, shape, &mut chance);
            let description = encode(&model.description());
            let looser = encode(&model.looser(&mut chance));
            let specimen = encode(&model.specimen());
            same_normal_form(&description, description.len());
            same_comparison(&description, &looser, 2 * description.len());
            assert_eq!(same_fit(&specimen, &description), Some(true));
            assert_eq!(same_fit(&specimen, &looser), Some(true));
        }
        let model = Model::single(1008, shape, &mut chance);
        let description = encode(&model.description());
        let looser = encode(&model.looser(&mut chance));
        same_normal_form(&description, description.len());
        same_comparison(&description, &looser, 2 * description.len());
        same_comparison(&looser, &description, 2 * description.len());
        assert!(model
            .description()
            .iter()
            .all(|e| e.kind < 3 || e.name >= 32_768));
    }
    let (groups, every) = single_links();
    assert_eq!(same_fit(&groups, &every), Some(true));
    same_reading(&groups);
    assert_eq!(reference::read_specimen(&groups), Ok(2016));
    let groups = one_cell();
    same_reading(&groups);
    assert_eq!(reference::read_specimen(&groups), Ok(2016));
    for group in reference::decode(&groups) {
        assert!(group.kind == 7 && group.name >= 32_768);
        assert_eq!(first_cell(group.owner.into(), group.name), 0);
    }
    let (groups, every) = one_link_place();
    let shipped = include_bytes!("../../../../crates/fits/stdin");
    assert!([&groups[..], &every[..]].concat() == shipped);
    let cases = [
        one_link_at_least(),
        one_link_every(),
        worst_fit(),
        one_bucket(),
        one_every_of_owning(),
        every_of_owning(),
    ];
    for (groups, description) in cases.iter().chain([&(groups, every)]) {
        assert_eq!(same_fit(groups, description), Some(true));
    }
}
