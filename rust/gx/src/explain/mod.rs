//! A 'not contained' that people understand: which entry fails, where it stands, what the supplier's description says there, and
//! where the specimen shows it.
//!
//! The entry and the specimen are the library's answer, and so is the normal form in which the supplier's words are looked up.

mod all;
mod sentences;

use crate::background::Background;
use crate::entry::{Entry, Link, Property, Says};
use crate::input::Input;
use crate::library::{self, Compared};
use crate::pairs::List;
use crate::tree::{owners, places, way, Tree};

pub use all::all_failing;

/// Why the supplier's description is not contained in the service's.
#[derive(Clone, Debug)]
pub struct Failure {
    /// The number of the first entry of the service's description that fails.
    pub entry: usize,
    /// What it says.
    pub says: Says,
    /// The numbers of its owners, from the top.
    pub owners: Vec<usize>,
    /// The links to the place where it stands.
    pub way: Vec<Link>,
    /// What the supplier's normal form says there of the same thing.
    pub said: Vec<Says>,
    /// The properties that the supplier's normal form has there and that exclude the one that is asked for.
    pub excluding: Vec<Property>,
    /// Whether the supplier's normal form has entries at that place.
    pub place_known: bool,
    /// The entries of the supplier's description at that place which speak of the same thing, or of what excludes it.
    pub supplier: Vec<usize>,
    /// Whether one of these says nothing, since its link leads to one item only.
    pub supplier_always_met: bool,
    /// The entries of the supplier's description that lead there, or as far as any does.
    pub supplier_owners: Vec<usize>,
    /// The specimen.
    pub specimen: Specimen,
}

/// A specimen with the place that shows the failure.
#[derive(Clone, Debug)]
pub struct Specimen {
    /// The entries.
    pub entries: Vec<Entry>,
    /// The groups from the top to the place where the entry fails.
    pub path: Vec<usize>,
    /// The group where the failure shows; 0 is the top item.
    pub at: usize,
    /// The property there that the entry does not allow.
    pub property: Option<Property>,
    /// How many items there are of the link that the entry bounds.
    pub count: u32,
    /// Whether these are several groups, as a specimen may have them that is not the library's.
    pub several: bool,
}

/// The answer of the comparison, explained where it is a no.
#[derive(Clone, Debug)]
pub enum Explained {
    /// Contained, and which entries of the supplier's description earn it.
    Contained(Vec<bool>),
    /// Not contained, and why.
    NotContained(Box<Failure>),
}

/// Compares two accepted descriptions against a background and explains the answer, by their entries once unfolded.
///
/// # Errors
///
/// The library's refusal, which accepted descriptions and lists do not meet.
pub fn compared(
    background: &Background,
    supplier: &Input,
    service: &Input,
) -> Result<Explained, library::Refusal> {
    let (list, under) = (&background.list, background.under());
    match library::compare(under, &supplier.bytes, &service.bytes)? {
        Compared::Contained => {
            let marks = library::earning(under.pairs, &supplier.entries, &service.entries)?;
            Ok(Explained::Contained(marks.unwrap_or_default()))
        }
        Compared::NotContained { entry, specimen } => {
            let normal = library::normal(under, &supplier.bytes)?;
            let normal = library::entries(&normal);
            let specimen = library::entries(&specimen);
            let failure = failure(list, supplier, service, entry, &normal, specimen);
            Ok(Explained::NotContained(Box::new(failure)))
        }
    }
}

fn failure(
    list: &List,
    supplier: &Input,
    service: &Input,
    entry: usize,
    normal: &[Entry],
    specimen: Vec<Entry>,
) -> Failure {
    let says = service.entries[entry - 1].says();
    let way = way(&service.entries, entry);
    let (said, _) = on_subject(normal, &way, says);
    let (by_supplier, mut numbers) = on_subject(&supplier.entries, &way, says);
    let excluding = excluding_there(list, normal, &way, says);
    for &property in &excluding {
        let has = on_subject(&supplier.entries, &way, Says::Has(property));
        numbers.extend(has.1);
    }
    numbers.sort_unstable();
    Failure {
        entry,
        says,
        owners: owners(&service.entries, entry),
        place_known: !places(normal, &Tree::new(normal), &way).is_empty(),
        said,
        excluding,
        supplier: numbers,
        supplier_always_met: by_supplier.iter().any(|says| says.is_always_met()),
        supplier_owners: leading(&supplier.entries, &way),
        specimen: marked(specimen, &way, says),
        way,
    }
}

impl Failure {
    /// That a specimen does not meet an entry of a description, at this item.
    pub fn of_specimen(
        specimen: &[Entry],
        description: &[Entry],
        entry: usize,
        item: usize,
    ) -> Failure {
        let says = description[entry - 1].says();
        let tree = Tree::new(specimen);
        let mut path = owners(specimen, item);
        path.extend(Some(item).filter(|&item| item > 0));
        let bounded = match says {
            Says::AtLeast(link, _) | Says::AtMost(link, _) => groups(specimen, &tree, item, link),
            _ => Vec::new(),
        };
        let property = match says {
            Says::Lacks(property) => Some(property),
            _ => None,
        };
        if let [(group, _)] = bounded.as_slice() {
            path.push(*group);
        }
        Failure {
            entry,
            says,
            owners: owners(description, entry),
            way: way(description, entry),
            said: Vec::new(),
            excluding: Vec::new(),
            place_known: true,
            supplier: Vec::new(),
            supplier_always_met: false,
            supplier_owners: Vec::new(),
            specimen: Specimen {
                entries: specimen.to_vec(),
                at: path.last().copied().unwrap_or(0),
                path,
                property,
                count: bounded.iter().map(|(_, count)| count).sum(),
                several: bounded.len() > 1,
            },
        }
    }
}

/// The properties that a place has and that exclude the one that is asked for there.
fn excluding_there(list: &List, normal: &[Entry], way: &[Link], says: Says) -> Vec<Property> {
    let excluding = says.property().map(|property| list.excluding(property));
    let has = |property: &Property| {
        let has = Says::Has(*property);
        on_subject(normal, way, has).0.contains(&has)
    };
    excluding.into_iter().flatten().filter(has).collect()
}

/// The owners that lead to a place, or as far towards it as there are any.
fn leading(entries: &[Entry], way: &[Link]) -> Vec<usize> {
    let tree = Tree::new(entries);
    let ends = (0..=way.len())
        .rev()
        .map(|length| places(entries, &tree, &way[..length]))
        .find(|ends| !ends.is_empty());
    let mut leading: Vec<usize> = ends
        .unwrap_or_default()
        .into_iter()
        .filter(|&end| end > 0)
        .flat_map(|end| owners(entries, end).into_iter().chain([end]))
        .collect();
    leading.sort_unstable();
    leading.dedup();
    leading
}

/// The entries at a place that speak of the same property or link, and their numbers.
pub(crate) fn on_subject(entries: &[Entry], way: &[Link], says: Says) -> (Vec<Says>, Vec<usize>) {
    let tree = Tree::new(entries);
    let ends = places(entries, &tree, way);
    let numbers = ends.iter().flat_map(|&end| tree.owned(end)).copied();
    let same = |number: &usize| {
        let other = entries[number - 1].says();
        let bound = matches!(other, Says::AtLeast(..) | Says::AtMost(..));
        let link = bound && other.link() == says.link();
        let property = other.property().is_some() && other.property() == says.property();
        link || property
    };
    let numbers: Vec<usize> = numbers.filter(same).collect();
    let said = numbers
        .iter()
        .map(|number| entries[number - 1].says())
        .collect();
    (said, numbers)
}

/// The specimen with the place where the entry fails.
fn marked(entries: Vec<Entry>, way: &[Link], says: Says) -> Specimen {
    let tree = Tree::new(&entries);
    let mut path = Vec::new();
    let mut at = 0;
    for &link in way {
        if let Some((number, _)) = group(&entries, &tree, at, link) {
            path.push(number);
            at = number;
        }
    }
    let bounded = says
        .link()
        .and_then(|link| group(&entries, &tree, at, link));
    if let Some((number, _)) = bounded {
        path.push(number);
        at = number;
    }
    let property = match says {
        Says::Lacks(property) => Some(property),
        _ => None,
    };
    Specimen {
        path,
        at,
        property,
        count: bounded.map_or(0, |(_, count)| count),
        several: false,
        entries,
    }
}

/// The first group of this link at a place, and its count; a specimen of the library's has no other.
fn group(entries: &[Entry], tree: &Tree, owner: usize, link: Link) -> Option<(usize, u32)> {
    groups(entries, tree, owner, link).first().copied()
}

/// The groups of this link at a place, and their counts.
fn groups(entries: &[Entry], tree: &Tree, owner: usize, link: Link) -> Vec<(usize, u32)> {
    let owned = tree.owned(owner).iter();
    let groups = owned.filter_map(|&number| match entries[number - 1].says() {
        Says::Group(of, count) if of == link => Some((number, count)),
        _ => None,
    });
    groups.collect()
}
