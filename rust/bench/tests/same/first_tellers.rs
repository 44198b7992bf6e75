//! The same for the entries that earn a yes by first tellers, where that answers.

use super::*;
use bench::earning::{alternate, asked, Needed};

/// The answer by first tellers, which has to be that of the reference and of the library, with the same bytes. None where
/// a place of C is impossible; then nothing is written.
fn same_by_first_tellers(
    pairs: &[u8],
    c: &[u8],
    d: &[u8],
    out: usize,
) -> Option<Result<bool, Refused>> {
    let mut bytes = vec![FILL; out];
    if plain::first_tellers(pairs, c, d, &mut bytes) == Ok(None) {
        assert!(bytes.iter().all(|&byte| byte == FILL));
        return None;
    }
    let answered = |answer: Option<bool>| answer.expect("no place was impossible before");
    let calls: Calls<Result<bool, Refused>> = [
        &|out| {
            let answer = plain::first_tellers(pairs, c, d, out);
            answer.map(answered).map_err(number_input_place)
        },
        &|out| reference::earning(pairs, c, d, out).map_err(of_reference),
        &|out| goltximen::earning(pairs, c, d, out).map_err(of_product),
    ];
    Some(same_written(out, calls))
}

/// How the entries of a case are drawn: few names, so that entries meet.
struct Few {
    properties: usize,
    links: usize,
}

impl Few {
    /// One link in three leads to one item only.
    fn link(&self, chance: &mut Chance) -> u16 {
        let name = chance.name(self.links);
        [name, name, 32_768 + name][chance.below(3)]
    }

    /// Lists of no pairs half of the time, else of at most four.
    fn pairs(&self, chance: &mut Chance) -> Vec<(u16, u16)> {
        let count = [0, 1 + chance.below(4)][chance.below(2)];
        let drawn: Vec<_> = (0..count)
            .map(|_| (chance.name(self.properties), chance.name(self.properties)))
            .collect();
        drawn
            .into_iter()
            .filter(|(one, other)| one != other)
            .collect()
    }

    /// An entry of a place. At most 0 of a link, which closes it, as often as any other number.
    fn entry(&self, owner: usize, chance: &mut Chance) -> Entry {
        let number = chance.below(3) as u16;
        match chance.below(36) {
            0..6 => entry(1, owner, chance.name(self.properties), 0),
            6..12 => entry(2, owner, chance.name(self.properties), 0),
            12..18 => entry(3, owner, self.link(chance), number),
            18..21 => entry(4, owner, self.link(chance), number),
            21..24 => entry(4, owner, self.link(chance), 0),
            24 if chance.below(10) == 0 => entry(6, owner, 0, 0),
            _ => entry(5, owner, self.link(chance), 0),
        }
    }

    /// A description of so many entries. An 'every' is twice as often an owner as the top.
    fn description(&self, entries: usize, chance: &mut Chance) -> Vec<Entry> {
        let (mut drawn, mut owners) = (Vec::new(), vec![0]);
        for number in 1..=entries {
            let one = self.entry(owners[chance.below(owners.len())], chance);
            if one.kind == 5 {
                owners.extend([number; 2]);
            }
            drawn.push(one);
        }
        drawn
    }
}

/// What is asked of a supplier whose entries are C, so that most of the time C is contained: some of them, more loosely,
/// also as what follows from them, and more below links of which there is at most 0.
struct Looser<'a> {
    few: &'a Few,
    pairs: &'a [(u16, u16)],
    d: Vec<Entry>,
}

impl Looser<'_> {
    /// Takes entries of C, all that own and half of the others.
    fn take(&mut self, c: &[Entry], chance: &mut Chance) {
        let mut taken = vec![Some(0)];
        for &one in c {
            let owner = taken[usize::from(one.owner)];
            let wanted = one.kind == 5 || chance.below(2) == 0;
            taken.push(owner.filter(|_| wanted).map(|owner| {
                self.enter(entry(one.kind, owner, one.name, one.number), chance);
                self.d.len()
            }));
        }
    }

    fn enter(&mut self, mut one: Entry, chance: &mut Chance) {
        match one.kind {
            1 if chance.below(4) == 0 => self.exclude(&mut one, chance),
            3 => one.number = one.number.saturating_sub(chance.below(2) as u16),
            4 if one.number == 0 && chance.below(2) == 0 => return self.below(one, chance),
            4 => one.number += chance.below(2) as u16,
            _ => {}
        }
        self.d.push(one);
    }

    /// A lack of a property that the one which C has excludes.
    fn exclude(&self, one: &mut Entry, chance: &mut Chance) {
        let excluded: Vec<u16> = self
            .pairs
            .iter()
            .flat_map(|&(one, other)| [(one, other), (other, one)])
            .filter_map(|(has, lacks)| (has == one.name).then_some(lacks))
            .collect();
        if !excluded.is_empty() {
            (one.kind, one.name) = (2, excluded[chance.below(excluded.len())]);
        }
    }

    /// Anything of every item by a link of which there is at most 0.
    fn below(&mut self, closed: Entry, chance: &mut Chance) {
        self.d.push(Entry { kind: 5, ..closed });
        let owner = self.d.len();
        for _ in 0..=chance.below(2) {
            self.d.push(self.few.entry(owner, chance));
        }
    }

    /// Up to two entries of any place.
    fn add(&mut self, chance: &mut Chance) {
        for _ in 0..chance.below(3) {
            let every = (1..).zip(&self.d).filter(|(_, e)| e.kind == 5);
            let places: Vec<usize> = every.map(|(number, _)| number).chain([0]).collect();
            let place = places[chance.below(places.len())];
            self.d.push(self.few.entry(place, chance));
        }
    }
}

/// A list of pairs, a description, and one that it is contained in more often than not.
struct Case {
    pairs: Vec<(u16, u16)>,
    c: Vec<Entry>,
    d: Vec<Entry>,
}

impl Case {
    fn draw(most: usize, chance: &mut Chance) -> Case {
        let few = Few {
            properties: 3 + chance.below(3),
            links: 1 + chance.below(3),
        };
        let pairs = few.pairs(chance);
        let c = few.description(chance.below(most + 1), chance);
        let d = if chance.below(4) == 0 {
            few.description(chance.below(6), chance)
        } else {
            let d = Vec::new();
            let (few, pairs) = (&few, &pairs);
            let mut looser = Looser { few, pairs, d };
            looser.take(&c, chance);
            if chance.below(2) == 0 {
                looser.add(chance);
            }
            looser.d
        };
        Case { pairs, c, d }
    }

    fn list(&self) -> Vec<u8> {
        let words = self.pairs.iter().flat_map(|&(one, other)| [one, other]);
        words.flat_map(u16::to_le_bytes).collect()
    }

    fn answer(&self, out: usize) -> Option<Result<bool, Refused>> {
        same_by_first_tellers(&self.list(), &encode(&self.c), &encode(&self.d), out)
    }

    /// Whether nothing fits some place of C: what C says of it, as a description, is contained in one that nothing
    /// fits.
    fn has_impossible_place(&self) -> bool {
        let (list, nothing) = (self.list(), encode(&[entry(6, 0, 0, 0)]));
        let every = self.c.iter().filter(|e| e.kind == 5);
        let mut places = every.map(|e| way(&self.c, e)).chain([Vec::new()]);
        places.any(|place| {
            let below = encode(&below(&self.c, &place));
            let mut out = vec![0; below.len() + nothing.len()];
            let compared = reference::compare_with(&list, &[], &below, &nothing, &mut out);
            compared == Ok(reference::Comparison::Contained)
        })
    }

    /// Whether it has a list, a link that leads to one item only, a link of which there is at most 0, and a place below
    /// a place.
    fn features(&self) -> [bool; 4] {
        let c = &self.c;
        let nested = |e: &Entry| e.owner > 0 && c[usize::from(e.owner) - 1].owner > 0;
        [
            !self.pairs.is_empty(),
            c.iter().any(|e| e.kind > 2 && e.name >= 32_768),
            c.iter().any(|e| e.kind == 4 && e.number == 0),
            c.iter().any(nested),
        ]
    }
}

/// The links to the items of which an entry speaks; for an 'every', to those of its own place.
fn way(c: &[Entry], e: &Entry) -> Vec<u16> {
    let mut links = match e.owner {
        0 => Vec::new(),
        owner => way(c, &c[usize::from(owner) - 1]),
    };
    links.extend((e.kind == 5).then_some(e.name));
    links
}

/// What entries say of the place at the end of these links, as a description by itself.
fn below(c: &[Entry], place: &[u16]) -> Vec<Entry> {
    let mut numbers = vec![0];
    let mut part: Vec<Entry> = Vec::new();
    for e in c {
        let links = way(c, e);
        let is_part = links.starts_with(place) && !(e.kind == 5 && links.len() == place.len());
        if is_part {
            let owner = numbers[usize::from(e.owner)];
            part.push(entry(e.kind, owner, e.name, e.number));
        }
        numbers.push(if is_part { part.len() } else { 0 });
    }
    part
}

/// Small descriptions of few names. Both kinds occur: no place is impossible, and one is, which the reference tells too;
/// and contained ones with each feature and without.
#[test]
fn drawn_cases() {
    let mut chance = Chance::new(0x5eed_7e11);
    let (mut contained, mut others, mut impossible) = (0, 0, 0);
    let mut featured = [0; 4];
    for _ in 0..12_000 {
        let case = Case::draw(12, &mut chance);
        let answer = case.answer(case.c.len());
        assert_eq!(answer.is_none(), case.has_impossible_place());
        match answer {
            None => impossible += 1,
            Some(Ok(true)) => {
                contained += 1;
                for (count, has) in featured.iter_mut().zip(case.features()) {
                    *count += usize::from(has);
                }
            }
            Some(answer) => {
                assert_eq!(answer, Ok(false));
                others += 1;
            }
        }
    }
    assert!(contained > 3_000 && others > 1_000 && impossible > 1_000);
    assert!(featured
        .iter()
        .all(|&count| count > 1_000 && count < contained));
}

/// More entries than the smallest table holds, and outputs that are too short.
#[test]
fn larger_cases_and_short_outputs() {
    let mut chance = Chance::new(0x5eed_7e12);
    let mut answers = [0; 3];
    for _ in 0..400 {
        let few = Case::draw(12, &mut chance);
        let short = few.c.len().saturating_sub(1 + chance.below(2));
        if short < few.c.len() && few.answer(short) == Some(Err((7, 0, 0))) {
            answers[0] += 1;
        }
        // Properties of other names, so that no more of them have an impossible place.
        let mut many = few;
        for name in 1_000..1_060 + chance.name(300) {
            many.c.push(entry(1 + chance.below(2) as u8, 0, name, 0));
            if chance.below(3) == 0 {
                many.d.push(many.c[many.c.len() - 1]);
            }
        }
        match many.answer(many.c.len()) {
            Some(Ok(true)) => answers[1] += 1,
            Some(_) => {}
            None => answers[2] += 1,
        }
    }
    assert!(answers.iter().all(|&times| times > 40), "{answers:?}");
}

/// The inputs of the rows, of which no place is impossible.
#[test]
fn inputs_of_the_rows() {
    let mut chance = Chance::new(13);
    for sizes in [(40, 40), (130, 40), (400, 40)] {
        for shape in [Shape::Wide, Shape::Deep] {
            for needed in Needed::ALL {
                let (c, d) = asked(sizes, shape, needed, &mut chance);
                let answer = same_by_first_tellers(&[], &encode(&c), &encode(&d), c.len());
                assert_eq!(answer, Some(Ok(true)));
            }
        }
    }
    let (c, d) = alternate(250, &mut chance);
    let answer = same_by_first_tellers(&[], &encode(&c), &encode(&d), c.len());
    assert_eq!(answer, Some(Ok(true)));
}
