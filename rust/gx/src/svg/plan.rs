//! Which boxes are drawn, and what stands in them.

use super::boxes::{Look, Node, Written};
use crate::entry::{Entry, Says};
use crate::explain::{Failure, Specimen};
use crate::specimen::properties;
use crate::tree::Tree;
use crate::words::{grouped, Words};

/// Up to so many groups all are drawn; of more, those on the path and a few beside it.
const MOST_GROUPS: usize = 40;
/// Of more groups, so many are drawn beside the path at each place.
const BESIDE: usize = 3;
/// So many properties of an item are drawn where not all are.
const MOST_PROPERTIES: usize = 8;
/// The most characters of a line of properties.
const LONGEST: usize = 56;

/// Of a way with more groups than this the middle is not drawn, so that its end is near its beginning.
const LONG_WAY: usize = 12;
/// So many groups are drawn on each side of what is left out.
const ENDS: usize = 3;

/// The boxes of the specimen that shows a failure.
pub(super) fn nodes(failure: &Failure, words: Words<'_>, whole: bool) -> Vec<Node> {
    let specimen = &failure.specimen;
    let groups = specimen.entries.iter().filter(|e| e.owns()).count();
    let mut plan = Plan {
        failure,
        specimen,
        words,
        tree: Tree::new(&specimen.entries),
        part: groups > MOST_GROUPS && !whole,
        whole,
        nodes: Vec::new(),
    };
    plan.item(0, 0, None);
    plan.nodes
}

struct Plan<'a> {
    failure: &'a Failure,
    specimen: &'a Specimen,
    words: Words<'a>,
    tree: Tree,
    part: bool,
    whole: bool,
    nodes: Vec<Node>,
}

impl Plan<'_> {
    fn on_way(&self, group: usize) -> bool {
        group == 0 || self.specimen.path.contains(&group)
    }

    /// The box of the top item or a group, and those below it.
    fn item(&mut self, group: usize, depth: usize, above: Option<usize>) {
        let entries: &[Entry] = &self.specimen.entries;
        let count = match group.checked_sub(1).map(|at| entries[at].says()) {
            Some(Says::Group(_, count)) => count,
            _ => 1,
        };
        let look = match (group == self.specimen.at, self.on_way(group)) {
            (true, _) => Look::Fails,
            (_, true) => Look::Way,
            _ => Look::Plain,
        };
        let below: Vec<usize> = self.tree.owned(group).to_vec();
        let below: Vec<usize> = below
            .into_iter()
            .filter(|&n| entries[n - 1].owns())
            .collect();
        let cut = self.part && !self.on_way(group);
        let mut lines = self.lines(group, look);
        if cut && !below.is_empty() {
            let more = format!("and {} below, not drawn", groups(self.groups_below(group)));
            lines.push(Written::small(&more));
        }
        let here = self.nodes.len();
        let sheets = (count as usize - 1).min(2);
        self.nodes
            .push(Node::new(depth, above, look, sheets, lines));
        if !cut {
            self.below(&below, depth + 1, here);
        }
    }

    /// The boxes below one: all of them, or those on the path and a few others. The path comes last, so that no line is long.
    fn below(&mut self, groups_here: &[usize], depth: usize, above: usize) {
        let most = if self.part { BESIDE } else { usize::MAX };
        let (way, beside): (Vec<usize>, Vec<usize>) =
            groups_here.iter().partition(|&&group| self.on_way(group));
        for &group in beside.iter().take(most) {
            self.item(group, depth, Some(above));
        }
        if beside.len() > most {
            let more = format!("{} more here, not drawn", groups(beside.len() - most));
            let line = Written::small(&more);
            self.nodes
                .push(Node::new(depth, Some(above), Look::More, 0, vec![line]));
        }
        for group in way {
            match self.folded_to(group) {
                Some((count, end)) => {
                    let more = format!("{count} more on this way, not drawn");
                    let line = Written::small(&more);
                    let fold = self.nodes.len();
                    self.nodes
                        .push(Node::new(depth, Some(above), Look::More, 0, vec![line]));
                    self.item(end, depth + 1, Some(fold));
                }
                None => self.item(group, depth, Some(above)),
            }
        }
    }

    /// How many groups of a long way are left out from this one on, and the group that is drawn after them.
    fn folded_to(&self, group: usize) -> Option<(usize, usize)> {
        let path = &self.specimen.path;
        let long = path.len() > LONG_WAY && !self.whole;
        let end = path.len().checked_sub(ENDS)?;
        let from = path.iter().position(|&on| on == group)?;
        (long && from == ENDS).then(|| (end - from, path[end]))
    }

    fn groups_below(&self, group: usize) -> usize {
        let owned = self.tree.owned(group).iter();
        let groups = owned.filter(|&&n| self.specimen.entries[n - 1].owns());
        groups.map(|&n| 1 + self.groups_below(n)).sum()
    }

    /// The words in a box: the count, the properties, and what is wrong.
    fn lines(&self, group: usize, look: Look) -> Vec<Written> {
        let entries = &self.specimen.entries;
        let title = match group.checked_sub(1).map(|at| entries[at].says()) {
            Some(Says::Group(link, count)) => self.words.items(count, link),
            _ => "the top item".into(),
        };
        let mut lines = vec![Written::title(&title)];
        let has: Vec<String> = self.properties(group);
        let mut rest = has.as_slice();
        let mut begin = if has.len() == 1 {
            "has property "
        } else {
            "has properties "
        };
        while !rest.is_empty() {
            let taken = fitting(rest);
            let text = format!("{begin}{}", rest[..taken].join(" · "));
            lines.push(Written::small(&text));
            rest = &rest[taken..];
            begin = "· ";
        }
        if look == Look::Fails {
            lines.push(Written::note("✕ fails here:"));
            lines.push(Written::note(&self.failure.note(self.words)));
        }
        lines
    }

    /// The properties of an item, the one that is not allowed first.
    fn properties(&self, group: usize) -> Vec<String> {
        let owned = self.tree.owned(group);
        let mut list: Vec<_> = properties(&self.specimen.entries, owned).collect();
        if group == self.specimen.at {
            list.sort_by_key(|&property| Some(property) != self.specimen.property);
        }
        let mut has: Vec<String> = list.iter().map(|&p| self.words.property_word(p)).collect();
        if has.len() > MOST_PROPERTIES && !self.whole {
            let more = has.len() - MOST_PROPERTIES;
            has.truncate(MOST_PROPERTIES);
            has.push(format!("{} more", grouped(more as u32)));
        }
        has
    }
}

fn groups(count: usize) -> String {
    let word = if count == 1 { "group" } else { "groups" };
    format!("{} {word}", grouped(count as u32))
}

/// How many of these words go on one line, at least one.
fn fitting(words: &[String]) -> usize {
    let mut length = 9;
    let count = words
        .iter()
        .take_while(|word| {
            length += word.chars().count() + 3;
            length <= LONGEST
        })
        .count();
    count.max(1)
}
