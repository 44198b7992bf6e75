//! One entry, and what it says.

/// A property. It is a type of its own, so that a link is never looked up as a property.
#[derive(Clone, Copy, Debug, PartialEq, Eq, PartialOrd, Ord)]
pub struct Property(pub u16);

/// A link.
#[derive(Clone, Copy, Debug, PartialEq, Eq, PartialOrd, Ord)]
pub struct Link(pub u16);

impl Link {
    /// Whether the link leads to one item only, as those from 32,768 up do: no item of a record has two items by it.
    pub fn leads_to_one(self) -> bool {
        self.0 >= 32_768
    }
}

/// A description of a dictionary, by its number there.
#[derive(Clone, Copy, Debug, PartialEq, Eq, PartialOrd, Ord)]
pub struct Named(pub u16);

/// What the entries of an input stand for.
#[derive(Clone, Copy, Debug, PartialEq, Eq)]
pub enum Sort {
    /// Entries of kinds 1 to 6, and of kind 9 where there is a dictionary, in at most 16 blocks.
    Description,
    /// Entries of kinds 1 and 7, in at most 32 blocks.
    Specimen,
}

impl Sort {
    /// The word for it.
    pub fn word(self) -> &'static str {
        match self {
            Sort::Description => "description",
            Sort::Specimen => "specimen",
        }
    }

    /// The most blocks that the library takes.
    pub fn most_blocks(self) -> usize {
        match self {
            Sort::Description => 16,
            Sort::Specimen => 32,
        }
    }

    /// The kind of the entries that own others, with its word.
    pub fn owner_kind(self) -> (u8, &'static str) {
        match self {
            Sort::Description => (5, "every"),
            Sort::Specimen => (7, "group"),
        }
    }

    /// The sort that these entries are of, where nobody says it: a specimen if they are all of kinds 1 and 7 and one is a group;
    /// otherwise a description.
    pub fn guess(entries: &[Entry]) -> Sort {
        let specimen_kinds = entries.iter().all(|e| e.kind == 1 || e.kind == 7);
        if specimen_kinds && entries.iter().any(|e| e.kind == 7) {
            Sort::Specimen
        } else {
            Sort::Description
        }
    }
}

/// An entry as it stands in a block.
#[derive(Clone, Copy, Debug, Default, PartialEq, Eq)]
pub struct Entry {
    /// The kind, 1 to 7 and 9 in accepted inputs.
    pub kind: u8,
    /// The byte that is zero in accepted inputs.
    pub zero: u8,
    /// The entry that owns this one, or 0 for the top.
    pub owner: u16,
    /// The property, the link or the description of a dictionary, 0 for kind 6.
    pub name: u16,
    /// n for kinds 3 and 4, one less than the count for kind 7, otherwise 0.
    pub number: u16,
}

/// What an entry says, by its kind.
#[derive(Clone, Copy, Debug, PartialEq, Eq)]
pub enum Says {
    /// Kind 1.
    Has(Property),
    /// Kind 2.
    Lacks(Property),
    /// Kind 3.
    AtLeast(Link, u16),
    /// Kind 4.
    AtMost(Link, u16),
    /// Kind 5.
    Every(Link),
    /// Kind 6.
    Nothing,
    /// Kind 7, with the count of items.
    Group(Link, u32),
    /// Kind 9.
    Named(Named),
    /// A kind that there is not.
    Unknown(u8),
}

impl Entry {
    /// What the entry says.
    pub fn says(self) -> Says {
        match self.kind {
            1 => Says::Has(Property(self.name)),
            2 => Says::Lacks(Property(self.name)),
            3 => Says::AtLeast(Link(self.name), self.number),
            4 => Says::AtMost(Link(self.name), self.number),
            5 => Says::Every(Link(self.name)),
            6 => Says::Nothing,
            7 => Says::Group(Link(self.name), u32::from(self.number) + 1),
            9 => Says::Named(Named(self.name)),
            kind => Says::Unknown(kind),
        }
    }

    /// Whether the kind is one that owns entries.
    pub fn owns(self) -> bool {
        self.kind == 5 || self.kind == 7
    }
}

impl Says {
    /// The link that the entry speaks of.
    pub fn link(self) -> Option<Link> {
        match self {
            Says::AtLeast(link, _)
            | Says::AtMost(link, _)
            | Says::Every(link)
            | Says::Group(link, _) => Some(link),
            _ => None,
        }
    }

    /// Whether every item meets the entry, since its link leads to one item only: at most 1 or more.
    pub fn is_always_met(self) -> bool {
        matches!(self, Says::AtMost(link, n) if link.leads_to_one() && n > 0)
    }

    /// Whether no item meets the entry, since its link leads to one item only: at least 2 or more.
    pub fn is_impossible(self) -> bool {
        matches!(self, Says::AtLeast(link, n) if link.leads_to_one() && n > 1)
    }

    /// The description of a dictionary that the entry stands for.
    pub fn named(self) -> Option<Named> {
        match self {
            Says::Named(named) => Some(named),
            _ => None,
        }
    }

    /// The property that the entry speaks of.
    pub fn property(self) -> Option<Property> {
        match self {
            Says::Has(property) | Says::Lacks(property) => Some(property),
            _ => None,
        }
    }
}
