//! Rounds of cases, and how often each answer came.

mod catalogue;
mod desk;
mod earning;
mod failing;
mod hierarchy;
mod items;
mod missing;
mod narrowest;
mod sheets;
mod stored;

use std::collections::BTreeMap;
use std::fmt;

use reference::notation::entry;
use reference::{encode, Entry};

use crate::agree::{self, Answer, Difference};
use crate::chance::Chance;
use crate::damage::{damaged, Sort};
use crate::derived;
use crate::doubles::{self, Background};
use crate::draw::{self, Names, Shape};
use crate::exchange;
use crate::excluding::{self, Given};
use crate::naming::{self, Dictionary};
use crate::small::{confirm, confirm_fit, confirm_unfolded, Pool, Size};
use crate::{MOST_DEPTH, MOST_DESCRIPTION};

/// What a round gives: nothing, or the difference that it found.
pub type Found = Result<(), Difference>;

/// Whether a call was given a list of pairs and a dictionary, of length above 0.
#[derive(Clone, Copy, Debug, Default, PartialEq, Eq, PartialOrd, Ord)]
struct With {
    list: bool,
    names: bool,
}

impl With {
    fn of(given: &Given) -> With {
        With {
            list: !given.pairs.is_empty(),
            names: !given.dictionary.is_empty(),
        }
    }
}

/// How often each answer came of each call, with a list of pairs, with a dictionary, with both and without.
#[derive(Clone, Debug, Default)]
pub struct Tally(BTreeMap<(&'static str, With, String), u64>);

impl Tally {
    /// Counts an answer.
    fn add(&mut self, call: &'static str, with: With, answer: Answer) {
        let name = match answer {
            // The descriptions of a dictionary together.
            Answer::Refused(number, 101..) => format!("refused {number} input 100 + n"),
            // The services of a list after the first.
            Answer::Refused(number, 3..=65) => format!("refused {number} input 2 + n"),
            Answer::Refused(number, input) => format!("refused {number} input {input}"),
            Answer::Count(_) => "count".to_string(),
            Answer::Yes => "yes".to_string(),
            Answer::No => "no".to_string(),
            Answer::Contained => "contained".to_string(),
            Answer::NotContained(..) => "not contained".to_string(),
        };
        *self.0.entry((call, with, name)).or_insert(0) += 1;
    }

    /// How often this answer came of this call, with whatever it was given.
    pub fn count(&self, call: &'static str, answer: &str) -> u64 {
        self.count_where(call, answer, |_| true)
    }

    /// How often this answer came of this call under a list.
    pub fn count_listed(&self, call: &'static str, answer: &str) -> u64 {
        self.count_where(call, answer, |with| with.list)
    }

    /// How often this answer came of this call with a dictionary.
    pub fn count_named(&self, call: &'static str, answer: &str) -> u64 {
        self.count_where(call, answer, |with| with.names)
    }

    fn count_where(&self, call: &str, answer: &str, wanted: fn(&With) -> bool) -> u64 {
        let each = self.0.iter();
        each.filter(|((of, with, name), _)| *of == call && name == answer && wanted(with))
            .map(|(_, count)| count)
            .sum()
    }
}

impl fmt::Display for Tally {
    fn fmt(&self, f: &mut fmt::Formatter<'_>) -> fmt::Result {
        for ((call, with, answer), count) in &self.0 {
            let given = match (with.list, with.names) {
                (false, false) => "",
                (true, false) => "list",
                (false, true) => "names",
                (true, true) => "list and names",
            };
            writeln!(f, "{call:<17} {given:<14} {answer:<24} {count:>10}")?;
        }
        Ok(())
    }
}

/// So many items, two properties and two links.
fn size(names: Names, items: usize) -> Size {
    Size {
        items,
        properties: 2,
        links: 2,
        names,
    }
}

/// All records of one or two items with these names.
fn pool(names: Names) -> Pool {
    let mut pool = Pool::empty();
    pool.add_all(size(names, 1));
    pool.add_all(size(names, 2));
    pool
}

/// Two descriptions, and what is answered where the first is compared with the second, and the second with the first.
struct Two {
    c: Vec<Entry>,
    d: Vec<Entry>,
    answers: [Answer; 2],
}

/// A run of rounds.
pub struct Rounds {
    /// What is drawn from.
    pub chance: Chance,
    /// How often each answer came.
    pub tally: Tally,
    /// What the calls of a round are given before their inputs.
    given: Given,
    /// The dictionary that the descriptions of a round are drawn for.
    dictionary: Dictionary,
    pools: [(Names, Pool); 3],
}

impl Rounds {
    /// A run with this seed, and with pools of all records of one or two items: with links that may lead to several items, with
    /// one of each sort, and with links that lead to one item only.
    pub fn from_seed(seed: u64) -> Rounds {
        Rounds {
            chance: Chance::from_seed(seed),
            tally: Tally::default(),
            given: Given::default(),
            dictionary: Dictionary::default(),
            pools: [Names::Low, Names::Middle, Names::High].map(|names| (names, pool(names))),
        }
    }

    /// One round of a drawn sort.
    ///
    /// # Errors
    ///
    /// The difference.
    pub fn any(&mut self) -> Found {
        match self.chance.below(96) {
            0..=13 => self.pair(),
            14..=17 => self.doubles(),
            18..=24 => self.normal(),
            25..=33 => self.fits(),
            34..=43 => self.damage(),
            44..=45 => self.lists(),
            46..=48 => self.dictionaries(),
            49..=51 => self.exchange(),
            52..=54 => self.outputs(),
            55..=57 => self.unfolds(),
            58..=60 => self.small(),
            61 => self.small_doubles(),
            62 => self.hostile(),
            63 => self.full(),
            64..=65 => self.catalogues(),
            66..=67 => self.wrong_lists_of_services(),
            68 => self.hierarchies(),
            69 => self.wrong_hierarchies(),
            70..=71 => self.desks(),
            72..=73 => self.damaged_desks(),
            74..=75 => self.stores(),
            76..=77 => self.sheets(),
            78..=79 => self.wrong_stores(),
            80..=81 => self.deliveries(),
            82 => self.wrong_deliveries(),
            83..=84 => self.earnings(),
            85 => self.wrong_earnings(),
            86..=87 => self.failings(),
            88 => self.wrong_failings(),
            89..=90 => self.lacks(),
            91 => self.wrong_lacks(),
            92..=94 => self.narrowings(),
            _ => self.wrong_narrowings(),
        }
    }

    fn description(&mut self) -> Vec<Entry> {
        let shape = draw::shape(&mut self.chance);
        self.shaped(&shape)
    }

    /// A description of this shape, which may name what is in the round's dictionary.
    fn shaped(&mut self, shape: &Shape) -> Vec<Entry> {
        let plain = draw::description(&mut self.chance, shape);
        self.dictionary.naming(&mut self.chance, &plain)
    }

    /// Draws a dictionary for the descriptions to come; two times of three there is none.
    fn draw_dictionary(&mut self) {
        self.dictionary = Dictionary::default();
        if self.chance.once_in(3) {
            let shape = draw::shape(&mut self.chance);
            let most = self.chance.one_of([6, 6, 40]);
            self.dictionary = Dictionary::drawn(&mut self.chance, &shape, most);
        }
    }

    /// Gives the calls to come a list drawn for these entries, half of the time an empty one, and the round's dictionary.
    fn give_list(&mut self, entries: &[Entry]) {
        self.given = Given::default();
        self.given.dictionary = self.dictionary.bytes();
        if self.chance.once_in(2) {
            let named = self.dictionary.descriptions.concat();
            self.given.pairs = excluding::drawn(&mut self.chance, &[entries, &named].concat());
        }
    }

    /// The bytes of a description once it is unfolded.
    fn needed(&self, d: &[u8]) -> usize {
        agree::plain(self.given.under(), d).len()
    }

    /// Counts an answer of a call that takes a list.
    fn count(&mut self, call: &'static str, answer: Answer) -> Answer {
        self.tally.add(call, With::of(&self.given), answer);
        answer
    }

    fn compare(&mut self, c: &[u8], d: &[u8], length: usize) -> Result<Answer, Difference> {
        let answer = agree::compare(&mut self.chance, self.given.under(), c, d, length)?;
        Ok(self.count("compare", answer))
    }

    fn compare_entries(&mut self, c: &[Entry], d: &[Entry]) -> Result<Answer, Difference> {
        let (c, d) = (encode(c), encode(d));
        let longer = self.chance.one_of([0, 0, 1, 511, 513]);
        self.compare(&c, &d, self.needed(&c) + self.needed(&d) + longer)
    }

    fn contained(&mut self, c: &[Entry], d: &[Entry]) -> Found {
        let answer = agree::contained(&mut self.chance, self.given.under(), c, d)?;
        self.count("compare", answer);
        Ok(())
    }

    fn fit(&mut self, s: &[u8], d: &[u8]) -> Result<Answer, Difference> {
        let answer = agree::fit(self.given.under(), s, d)?;
        Ok(self.count("fit", answer))
    }

    fn normal_form(&mut self, d: &[u8], length: usize) -> Result<Answer, Difference> {
        let answer = agree::normal_form(&mut self.chance, self.given.under(), d, length)?;
        Ok(self.count("normal form", answer))
    }

    /// Unfolds with the dictionary that is given; the list plays no part.
    fn unfold(&mut self, d: &[u8], length: usize) -> Result<Answer, Difference> {
        let answer = agree::unfold(&mut self.chance, &self.given.dictionary, d, length)?;
        let with = With {
            list: false,
            ..With::of(&self.given)
        };
        self.tally.add("unfold", with, answer);
        Ok(answer)
    }

    /// Reads the bytes as a description, as a specimen and as a field sheet.
    ///
    /// # Errors
    ///
    /// The difference.
    pub fn read(&mut self, bytes: &[u8]) -> Found {
        let (description, specimen) = (
            agree::read_description(bytes)?,
            agree::read_specimen(bytes)?,
        );
        self.tally
            .add("read description", With::default(), description);
        self.tally.add("read specimen", With::default(), specimen);
        self.read_sheet(bytes)
    }

    /// A description compared with others: one drawn on its own, a weaker one, and one that misses by an entry.
    ///
    /// # Errors
    ///
    /// The difference.
    pub fn pair(&mut self) -> Found {
        self.draw_dictionary();
        let c = self.description();
        let other = self.description();
        self.give_list(&[&c[..], &other].concat());
        self.compare_entries(&c, &other)?;
        self.weaker_and_missed(&c)
    }

    /// A description compared with weaker ones, and with ones that miss by an entry.
    fn weaker_and_missed(&mut self, c: &[Entry]) -> Found {
        let chance = &mut self.chance;
        let mut d = self.dictionary.within(&derived::weaker(chance, c));
        if chance.once_in(2) {
            d = derived::reordered(chance, &d);
        }
        let missed = derived::missed(chance, &d);
        let past = derived::past_at_most_0(chance, c);
        let implied = excluding::with_implied_lacks(chance, &self.given.pairs, &d);
        let implied = self.dictionary.within(&implied);
        self.contained(c, &implied)?;
        self.contained(c, &d)?;
        self.compare_entries(c, &missed)?;
        self.compare_entries(&missed, c)?;
        past.map_or(Ok(()), |past| self.contained(c, &past))
    }

    /// The normal form of a description; each of the two is contained in the other.
    ///
    /// # Errors
    ///
    /// The difference.
    pub fn normal(&mut self) -> Found {
        self.draw_dictionary();
        let d = self.description();
        self.give_list(&d);
        self.normal_of(&d)
    }

    fn normal_of(&mut self, d: &[Entry]) -> Found {
        let bytes = encode(d);
        let longer = self.chance.one_of([0, 1, 511, 512, 1500]);
        let needed = self.needed(&bytes);
        self.normal_form(&bytes, needed + longer)?;
        let mut out = vec![0; needed];
        let under = self.given.under();
        let entries = under.normal_form(&bytes, &mut out).map_or(0, usize::from);
        let normal = reference::decode(out.get(..crate::length_of(entries)).unwrap_or(&[]));
        self.contained(d, &normal)?;
        self.contained(&normal, d)
    }

    /// Two descriptions, half of the time made so that they mean the same: they have one normal form exactly where each is contained
    /// in the other.
    ///
    /// # Errors
    ///
    /// The difference.
    pub fn doubles(&mut self) -> Found {
        self.draw_dictionary();
        let shape = draw::shape(&mut self.chance);
        self.two(&shape).map(|_| ())
    }

    /// The same for small ones, with their answers looked at in records: where they have one normal form, the same items fit both, and
    /// where they do not, an item of a specimen's record fits one of them.
    ///
    /// # Errors
    ///
    /// The difference.
    pub fn small_doubles(&mut self) -> Found {
        let (shape, pool) = self.draw_small();
        let Two { c, d, answers } = self.two(&shape)?;
        let pool = pool.keeping(&self.given.pairs);
        let few = pool.some(&mut self.chance, 200);
        let (c, d) = (self.plain_in(&few, &c)?, self.plain_in(&few, &d)?);
        confirm(&pool, self.given.under(), &c, &d, answers[0])?;
        confirm(&pool, self.given.under(), &d, &c, answers[1])
    }

    /// A description of this shape and another one, which is a double of it half of the time. The other half it is made from what is
    /// not known to mean the same, by the same steps.
    fn two(&mut self, shape: &Shape) -> Result<Two, Difference> {
        let c = self.shaped(shape);
        if self.chance.once_in(2) {
            doubles::give_name(&mut self.chance, &mut self.dictionary, &c);
        }
        let made = self.chance.once_in(2);
        let mut d = match made {
            true => c.clone(),
            false => self.another(shape, &c),
        };
        self.give_list(&[&c[..], &d].concat());
        let (chance, under) = (&mut self.chance, self.given.under());
        let background = Background {
            pairs: under.pairs,
            dictionary: &self.dictionary,
        };
        d = doubles::double(chance, background, &d);
        let (call, answers) = match made {
            true => ("double", doubles::compared_double(chance, under, &c, &d)?),
            false => ("another", doubles::compared(chance, under, &c, &d)?),
        };
        let alike = match doubles::are_alike(answers) {
            true => Answer::Yes,
            false => Answer::No,
        };
        self.count(call, alike);
        Ok(Two { c, d, answers })
    }

    /// Another description: one drawn on its own, one that asks less than this one, or one that misses it by an entry.
    fn another(&mut self, shape: &Shape, c: &[Entry]) -> Vec<Entry> {
        let chance = &mut self.chance;
        let d = match chance.below(3) {
            0 => return self.shaped(shape),
            1 => derived::weaker(chance, c),
            _ => derived::missed(chance, c),
        };
        self.dictionary.within(&d)
    }

    /// Specimens against descriptions: drawn on their own, and made for the description and then changed a little or given a
    /// property that the list excludes.
    ///
    /// # Errors
    ///
    /// The difference.
    pub fn fits(&mut self) -> Found {
        self.draw_dictionary();
        let shape = draw::shape(&mut self.chance);
        let d = self.shaped(&shape);
        let alone = draw::specimen(&mut self.chance, &shape);
        self.give_list(&[&d[..], &alone].concat());
        self.fit(&encode(&alone), &encode(&d))?;
        let made = self.specimen_for(&d);
        self.fit(&encode(&made), &encode(&d))?;
        let changed = changed(&mut self.chance, &made);
        self.fit(&encode(&changed), &encode(&d))?;
        for s in [&alone, &made] {
            let both = excluding::with_partner(&mut self.chance, &self.given.pairs, s);
            self.fit(&encode(&both), &encode(&d))?;
        }
        Ok(())
    }

    /// A specimen whose top item fits the description, if there is one: the one that shows that it is not contained in 'nothing
    /// fits'.
    fn specimen_for(&mut self, d: &[Entry]) -> Vec<Entry> {
        let (d, nothing) = (encode(d), encode(&[entry(6, 0, 0, 0)]));
        let mut out = vec![0; self.needed(&d) + nothing.len()];
        let entries = match self.given.under().compare(&d, &nothing, &mut out) {
            Ok(goltximen::Comparison::NotContained { entries, .. }) => usize::from(entries),
            _ => return Vec::new(),
        };
        reference::decode(out.get(..crate::length_of(entries)).unwrap_or(&[]))
    }

    /// Damaged bytes in each call, alone and with an input that is accepted or damaged too.
    ///
    /// # Errors
    ///
    /// The difference.
    pub fn damage(&mut self) -> Found {
        self.draw_dictionary();
        let shape = draw::shape(&mut self.chance);
        let entries = self.shaped(&shape);
        let chance = &mut self.chance;
        let good = encode(&entries);
        let bad = damaged(chance, Sort::Description, &entries);
        let worse = damaged(chance, Sort::Description, &entries);
        let entries = draw::specimen(chance, &shape);
        let specimen = encode(&entries);
        let bad_specimen = damaged(chance, Sort::Specimen, &entries);
        self.give_list(&entries);
        self.read(&bad)?;
        self.read(&bad_specimen)?;
        for (c, d) in [(&bad, &good), (&good, &bad), (&bad, &worse)] {
            let both = self.needed(c) + self.needed(d);
            let length = self.chance.one_of([0, both]);
            self.compare(c, d, length)?;
            self.catalogue(c, d, length)?;
        }
        for (s, d) in [
            (&bad_specimen, &good),
            (&specimen, &bad),
            (&bad_specimen, &bad),
        ] {
            self.fit(s, d)?;
        }
        let needed = self.needed(&bad);
        let length = self.chance.one_of([0, needed]);
        self.normal_form(&bad, length)?;
        self.unfold(&bad, length)?;
        Ok(())
    }

    /// Lists that are refused and dictionaries with slips, alone and together, in each call with inputs that are accepted or damaged.
    ///
    /// # Errors
    ///
    /// The difference.
    pub fn lists(&mut self) -> Found {
        let shape = draw::shape(&mut self.chance);
        let chance = &mut self.chance;
        let entries = draw::description(chance, &shape);
        let properties = draw::specimen(chance, &shape);
        let right = excluding::drawn(chance, &properties);
        let (d, s) = (encode(&entries), encode(&properties));
        let bad = damaged(chance, Sort::Description, &entries);
        let bad_specimen = damaged(chance, Sort::Specimen, &properties);
        let wrong = excluding::wrong(chance, &right);
        let names = Dictionary::drawn(chance, &shape, 6);
        let slip = chance.below(naming::SLIPS);
        let dictionary = naming::slipped(chance, &names, slip);
        for (pairs, dictionary) in [
            (&wrong, &Vec::new()),
            (&right, &dictionary),
            (&wrong, &dictionary),
        ] {
            self.given = Given {
                pairs: pairs.clone(),
                dictionary: dictionary.clone(),
            };
            for (s, d) in [(&s, &d), (&bad_specimen, &bad)] {
                let length = self.chance.one_of([0, 2 * d.len()]);
                self.fit(s, d)?;
                self.normal_form(d, length)?;
                self.compare(d, d, length)?;
                self.catalogue(d, d, length)?;
            }
        }
        Ok(())
    }

    /// A dictionary with each slip in turn, in each call with inputs that name what is in it and are accepted or damaged.
    ///
    /// # Errors
    ///
    /// The difference.
    pub fn dictionaries(&mut self) -> Found {
        let shape = draw::shape(&mut self.chance);
        self.dictionary = Dictionary::drawn(&mut self.chance, &shape, 6);
        let entries = self.shaped(&shape);
        let chance = &mut self.chance;
        let properties = draw::specimen(chance, &shape);
        let (d, s) = (encode(&entries), encode(&properties));
        let bad = damaged(chance, Sort::Description, &entries);
        let bad_specimen = damaged(chance, Sort::Specimen, &properties);
        for slip in 0..naming::SLIPS {
            self.given = Given {
                pairs: Vec::new(),
                dictionary: naming::slipped(&mut self.chance, &self.dictionary, slip),
            };
            for (s, d) in [(&s, &d), (&bad_specimen, &bad)] {
                let needed = self.needed(d);
                let length = self.chance.one_of([0, 2 * needed]);
                self.fit(s, d)?;
                self.normal_form(d, length)?;
                self.compare(d, d, length)?;
                self.catalogue(d, d, length)?;
                self.unfold(d, length)?;
            }
        }
        Ok(())
    }

    /// Unfolding with outputs of lengths around the one that is needed, of descriptions that stay within the limits and of ones
    /// with a name too many.
    ///
    /// # Errors
    ///
    /// The difference.
    pub fn unfolds(&mut self) -> Found {
        let shape = draw::shape(&mut self.chance);
        let most = self.chance.one_of([6, 40, 200]);
        self.dictionary = Dictionary::drawn(&mut self.chance, &shape, most);
        let d = self.description();
        self.give_list(&[]);
        let bytes = encode(&d);
        let needed = self.needed(&bytes);
        for length in [0, 1, needed - 1, needed, needed + 1, needed + 512] {
            self.unfold(&bytes, length)?;
        }
        self.too_many_names(d)
    }

    /// The description with names added at any owner until it is too much, or a few more.
    fn too_many_names(&mut self, mut d: Vec<Entry>) -> Found {
        let due = |extent: naming::Extent| match extent.is_too_much() {
            true => Answer::Refused(14, 1),
            false => Answer::Count(extent.entries),
        };
        let owners: Vec<u16> = (1..)
            .zip(&d)
            .filter(|(_, e)| e.kind == 5)
            .map(|e| e.0)
            .collect();
        for _ in 0..self.chance.below(40) {
            let name = self.dictionary.any_name(&mut self.chance);
            if name == 0 || d.len() == MOST_DESCRIPTION {
                break;
            }
            let owner = self.chance.any(&owners).unwrap_or(0);
            let depth = derived::way(&d, owner).len();
            d.push(naming::named(
                if depth > MOST_DEPTH { 0 } else { owner },
                name,
            ));
        }
        let bytes = encode(&d);
        let answer = self.unfold(&bytes, crate::length_of(MOST_DESCRIPTION))?;
        if answer != due(self.dictionary.extent(&d)) {
            let under = self.given.under();
            return Err(agree::found(
                "unfold: 14 goes by another size",
                under,
                &[&d],
            ));
        }
        self.normal_form(&bytes, crate::length_of(MOST_DESCRIPTION))?;
        self.fit(&encode(&[]), &bytes)?;
        self.compare(&bytes, &bytes, 2 * crate::length_of(MOST_DESCRIPTION))?;
        let empty = encode(&[]);
        self.catalogue(&bytes, &empty, 1)?;
        self.catalogue(&empty, &[&empty[..], &bytes].concat(), 2)?;
        Ok(())
    }

    /// Dictionaries that are meant to take long, and descriptions that name each of theirs and the last many times.
    ///
    /// # Errors
    ///
    /// The difference.
    pub fn hostile(&mut self) -> Found {
        self.dictionary = Dictionary::hostile(&mut self.chance);
        let times = self.chance.one_of([1, 2, 63, 64, MOST_DESCRIPTION]);
        let last = crate::word(naming::MOST_NAMES);
        let many = vec![naming::named(0, last); times];
        let mut below = naming::chain(self.chance.below(MOST_DEPTH + 2));
        let owner = crate::word(below.len().min(MOST_DEPTH));
        below.extend((1..=last).map(|name| naming::named(owner, name)));
        self.give_list(&[]);
        for d in [many, below] {
            self.too_many_names(d)?;
        }
        Ok(())
    }

    /// Two entries of one block exchanged, in a description and in a specimen: refused or not as distance and word sums say, and
    /// the same in each call.
    ///
    /// # Errors
    ///
    /// The difference.
    pub fn exchange(&mut self) -> Found {
        self.given = Given::default();
        self.dictionary = Dictionary::default();
        let shape = draw::shape(&mut self.chance);
        let d = draw::description(&mut self.chance, &shape);
        let s = draw::specimen(&mut self.chance, &shape);
        let d = self.exchanged(Sort::Description, d)?;
        let s = self.exchanged(Sort::Specimen, s)?;
        let good = encode(&[entry(1, 0, 1, 0)]);
        self.fit(&s, &d)?;
        self.normal_form(&d, d.len())?;
        self.compare(&d, &good, d.len() + good.len())?;
        self.compare(&good, &d, d.len() + good.len())?;
        Ok(())
    }

    /// The blocks of the entries with two of one block exchanged, after a look at what reading answers to them. Half of the time
    /// the two are first made ones that the checks do not tell, or nearly so.
    fn exchanged(&mut self, sort: Sort, mut entries: Vec<Entry>) -> Result<Vec<u8>, Difference> {
        let Some(two) = exchange::two_of_a_block(&mut self.chance, entries.len()) else {
            return Ok(encode(&entries));
        };
        if self.chance.once_in(2) {
            exchange::make_nearly_unseen(&mut self.chance, sort, &mut entries, two);
        }
        let (one, other) = two;
        let mut bytes = encode(&entries);
        exchange::exchange(&mut bytes, one, other);
        let answer = agree::exchanged(sort, &bytes, exchange::told(&entries, one, other))?;
        self.tally.add("exchange", With::default(), answer);
        Ok(bytes)
    }

    /// Outputs of lengths around the ones that are needed.
    ///
    /// # Errors
    ///
    /// The difference.
    pub fn outputs(&mut self) -> Found {
        self.draw_dictionary();
        let (c, d) = (self.description(), self.description());
        self.give_list(&[&c[..], &d].concat());
        let (c, d) = (encode(&c), encode(&d));
        let (needed, other) = (self.needed(&c), self.needed(&d));
        let both = needed + other;
        for length in [
            0,
            1,
            needed.max(other),
            both - 512,
            both - 1,
            both,
            both + 1,
            both + 512,
        ] {
            self.compare(&c, &d, length)?;
        }
        for length in [
            0,
            1,
            needed - 512,
            needed - 1,
            needed,
            needed + 1,
            needed + 512,
        ] {
            self.normal_form(&c, length)?;
            self.unfold(&c, length)?;
        }
        Ok(())
    }

    /// Small descriptions, with their answers looked at in records.
    ///
    /// # Errors
    ///
    /// The difference.
    pub fn small(&mut self) -> Found {
        let (shape, pool) = self.draw_small();
        let chance = &mut self.chance;
        let c = draw::description(chance, &shape);
        let c = self.dictionary.naming(chance, &c);
        let weaker = derived::weaker(chance, &c);
        let missed = derived::missed(chance, &weaker);
        let other = draw::description(chance, &shape);
        let other = self.dictionary.naming(chance, &other);
        let s = draw::specimen(chance, &shape);
        let more = with_one_more(chance, &s);
        self.give_list(&[&c[..], &missed].concat());
        let pool = pool.keeping(&self.given.pairs);
        let few = pool.some(&mut self.chance, 200);
        let plain_c = self.plain_in(&few, &c)?;
        for d in [&weaker, &missed, &other] {
            let plain_d = self.plain_in(&few, d)?;
            let answer = self.compare_entries(&c, d)?;
            confirm(&pool, self.given.under(), &plain_c, &plain_d, answer)?;
        }
        // Each byte is that of a comparison, which the records have confirmed.
        self.catalogue(&encode(&c), &naming::laid(&[weaker, missed, other]), 3)?;
        let made = self.specimen_for(&c);
        let changed = changed(&mut self.chance, &made);
        let both =
            [&s, &made].map(|s| excluding::with_partner(&mut self.chance, &self.given.pairs, s));
        for s in [&s, &more, &made, &changed, &both[0], &both[1]] {
            let answer = self.fit(&encode(s), &encode(&c))?;
            confirm_fit(self.given.under(), s, &plain_c, answer)?;
        }
        Ok(())
    }

    /// A small shape, for which a small dictionary is drawn or none, and records to look at its descriptions in: some of all those
    /// of one or two items, and some of three.
    fn draw_small(&mut self) -> (Shape, Pool) {
        let chance = &mut self.chance;
        let entries = chance.below(draw::SMALL.entries + 1);
        let (names, pool) = &self.pools[chance.below(3)];
        let shape = Shape {
            entries,
            names: *names,
            ..draw::SMALL
        };
        self.dictionary = match chance.once_in(3) {
            true => {
                let count = 1 + chance.below(3);
                Dictionary::of_drawn(chance, &shape, count, 4)
            }
            false => Dictionary::default(),
        };
        let mut pool = pool.some(chance, 1000);
        pool.add_drawn(chance, size(*names, 3), 1000);
        (shape, pool)
    }

    /// What a description is once unfolded, after a look in these records whether the same items fit it.
    fn plain_in(&self, pool: &Pool, d: &[Entry]) -> Result<Vec<Entry>, Difference> {
        let plain = reference::decode(&agree::plain(self.given.under(), &encode(d)));
        confirm_unfolded(pool, &self.dictionary, d, &plain)?;
        Ok(plain)
    }

    /// Descriptions and specimens at the limit.
    ///
    /// # Errors
    ///
    /// The difference.
    pub fn full(&mut self) -> Found {
        self.draw_dictionary();
        let shape = draw::full_shape(&mut self.chance);
        let (c, d) = (self.shaped(&shape), self.shaped(&shape));
        let s = draw::full_specimen(&mut self.chance);
        self.give_list(&[&c[..], &d, &s].concat());
        self.normal_of(&c)?;
        self.compare_entries(&c, &d)?;
        self.weaker_and_missed(&c)?;
        self.read(&encode(&s))?;
        self.fit(&encode(&s), &encode(&c))?;
        let made = self.specimen_for(&c);
        self.fit(&encode(&made), &encode(&c))?;
        self.two(&shape).map(|_| ())
    }
}

/// The specimen with one item more in a drawn group, or in a group beside it.
fn with_one_more(chance: &mut Chance, s: &[Entry]) -> Vec<Entry> {
    let mut s = s.to_vec();
    let groups: Vec<usize> = (0..s.len()).filter(|&at| s[at].kind == 7).collect();
    match chance.any(&groups) {
        Some(at) if chance.once_in(2) => s[at].number = s[at].number.saturating_add(1),
        Some(at) => s.push(Entry { number: 0, ..s[at] }),
        None => s.push(entry(7, 0, 32_768, 1)),
    }
    s
}

/// The specimen with one entry changed, or with one entry more.
fn changed(chance: &mut Chance, s: &[Entry]) -> Vec<Entry> {
    let mut s = s.to_vec();
    let at = chance.below(s.len());
    match s.get_mut(at) {
        Some(e) if chance.once_in(3) => e.name = chance.one_of([1, 2, 3, 32_767, 32_768]),
        Some(e) if e.kind == 7 && chance.once_in(2) => e.number = e.number.saturating_sub(1),
        Some(e) => {
            let more = *e;
            s.push(more);
        }
        None => s.push(entry(1, 0, 1, 0)),
    }
    s
}
