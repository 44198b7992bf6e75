//! Each rule alone.

use super::*;

fn every(link: u16, place: Place) -> Every {
    Every {
        link: Link(link),
        place,
    }
}

fn place(facts: &[Fact], every: Vec<Every>) -> Place {
    Place {
        facts: facts.to_vec(),
        every,
    }
}

const HAS: Fact = Fact::Has(Property(1));
const LACKS: Fact = Fact::Lacks(Property(1));

/// No pairs.
fn without(rule: Rule) -> impl Fn(&mut Place) -> bool {
    move |place| rule(place, &Pairs::default())
}

/// Properties 1 and 2 exclude each other, and 2 and 3.
fn with_pairs(rule: Rule) -> impl Fn(&mut Place) -> bool {
    let pairs = Pairs::read(&[1, 0, 2, 0, 3, 0, 2, 0]).unwrap();
    move |place| rule(place, &pairs)
}

/// Each rule alone, before and after, and that it then no longer applies.
fn check(rule: impl Fn(&mut Place) -> bool, before: Place, after: Place) {
    let mut found = before;
    assert!(rule(&mut found));
    assert_eq!(found, after);
    assert!(!rule(&mut found));
    assert_eq!(found, after);
}

#[test]
fn rule_1() {
    let one = every(1, place(&[HAS], vec![every(2, Place::default())]));
    let two = every(1, place(&[LACKS], vec![every(2, place(&[HAS], vec![]))]));
    let other = every(3, place(&[HAS], vec![]));
    let below = vec![every(2, Place::default()), every(2, place(&[HAS], vec![]))];
    check(
        merge_every,
        place(&[], vec![one, other.clone(), two]),
        place(&[], vec![every(1, place(&[HAS, LACKS], below)), other]),
    );
}

#[test]
fn rule_2() {
    let bad = every(
        4,
        place(&[HAS, LACKS], vec![every(1, place(&[HAS], vec![]))]),
    );
    let worse = every(5, place(&[HAS, Fact::Nothing], vec![]));
    let good = every(4, place(&[HAS, Fact::Lacks(Property(2))], vec![]));
    check(
        without(remove_contradictions),
        place(&[HAS], vec![bad, good.clone(), worse]),
        place(
            &[HAS, Fact::AtMost(Link(4), 0), Fact::AtMost(Link(5), 0)],
            vec![good],
        ),
    );
}

#[test]
fn rule_3() {
    let facts = [Fact::AtLeast(Link(1), 3), Fact::AtMost(Link(1), 2)];
    let level = [Fact::AtLeast(Link(1), 2), Fact::AtMost(Link(1), 2)];
    let apart = [Fact::AtLeast(Link(1), 3), Fact::AtMost(Link(2), 2)];
    let bad = every(9, place(&facts, vec![every(1, Place::default())]));
    let good = vec![
        every(7, place(&level, vec![])),
        every(8, place(&apart, vec![])),
    ];
    let mut all = good.clone();
    all.push(bad);
    check(
        remove_overcounts,
        place(&[], all),
        place(&[Fact::AtMost(Link(9), 0)], good),
    );
}

#[test]
fn rules_3_and_5_of_a_single_link() {
    let two = [Fact::AtLeast(Link(32_768), 2)];
    let one = [Fact::AtLeast(Link(32_768), 1)];
    let good = vec![
        every(7, place(&one, vec![])),
        every(8, place(&[Fact::AtLeast(Link(32_767), 2)], vec![])),
    ];
    let mut all = good.clone();
    all.push(every(9, place(&two, vec![every(1, Place::default())])));
    check(
        remove_overcounts,
        place(&[], all),
        place(&[Fact::AtMost(Link(9), 0)], good),
    );
    check(
        without(replace_impossible_top),
        place(&two, vec![]),
        place(&[Fact::Nothing], vec![]),
    );
}

#[test]
fn the_rule_of_single_links() {
    let at_most = |link, n| Fact::AtMost(Link(link), n);
    check(
        drop_at_most_always_met,
        place(
            &[
                at_most(32_768, 1),
                HAS,
                at_most(32_768, 0),
                at_most(65_535, 65_535),
                at_most(32_767, 1),
            ],
            vec![],
        ),
        place(&[HAS, at_most(32_768, 0), at_most(32_767, 1)], vec![]),
    );
}

#[test]
fn rules_2_and_5_of_excluding_pairs() {
    let has = |property| Fact::Has(Property(property));
    let good = vec![
        every(7, place(&[has(1), has(3)], vec![])),
        every(8, place(&[has(1), Fact::Lacks(Property(2))], vec![])),
    ];
    let mut all = good.clone();
    all.push(every(9, place(&[has(2), has(1)], good.clone())));
    check(
        with_pairs(remove_contradictions),
        place(&[], all.clone()),
        place(&[Fact::AtMost(Link(9), 0)], good.clone()),
    );
    check(
        with_pairs(replace_impossible_top),
        place(&[has(3), has(2)], good),
        place(&[Fact::Nothing], vec![]),
    );
    let mut found = place(&[], all.clone());
    assert!(!without(remove_contradictions)(&mut found));
    assert_eq!(found, place(&[], all));
}

#[test]
fn the_rule_of_excluding_pairs() {
    let lacks = |property| Fact::Lacks(Property(property));
    check(
        with_pairs(drop_implied_lacks),
        place(&[lacks(2), HAS, lacks(3), lacks(2), lacks(4)], vec![]),
        place(&[HAS, lacks(3), lacks(4)], vec![]),
    );
    // One lack implies nothing, and neither does what stands below.
    let below = vec![every(1, place(&[HAS], vec![]))];
    let mut found = place(&[LACKS, lacks(2)], below.clone());
    assert!(!with_pairs(drop_implied_lacks)(&mut found));
    assert_eq!(found, place(&[LACKS, lacks(2)], below));
}

#[test]
fn rule_4() {
    let facts = [Fact::AtMost(Link(1), 0), Fact::AtMost(Link(2), 1)];
    let kept = every(2, place(&[HAS], vec![]));
    check(
        drop_every_of_at_most_0,
        place(&facts, vec![every(1, place(&[HAS], vec![])), kept.clone()]),
        place(&facts, vec![kept]),
    );
}

#[test]
fn rule_5() {
    let nothing = place(&[Fact::Nothing], vec![]);
    let over = [Fact::AtLeast(Link(1), 1), Fact::AtMost(Link(1), 0)];
    let below = vec![every(1, place(&[HAS], vec![]))];
    check(
        without(replace_impossible_top),
        place(&[HAS, LACKS], below.clone()),
        nothing.clone(),
    );
    check(
        without(replace_impossible_top),
        place(&over, below.clone()),
        nothing.clone(),
    );
    check(
        without(replace_impossible_top),
        place(&[Fact::Nothing], below),
        nothing.clone(),
    );
    check(
        without(replace_impossible_top),
        place(&[Fact::Nothing; 2], vec![]),
        nothing,
    );
}

#[test]
fn rules_6_7_8_9_and_equal_entries() {
    let at_most = |n| Fact::AtMost(Link(1), n);
    let at_least = |n| Fact::AtLeast(Link(1), n);
    check(
        keep_smallest_at_most,
        place(&[at_most(5), HAS, at_most(2), at_most(7)], vec![]),
        place(&[HAS, at_most(2)], vec![]),
    );
    check(
        keep_largest_at_least,
        place(&[at_least(5), HAS, at_least(2), at_least(7)], vec![]),
        place(&[HAS, at_least(7)], vec![]),
    );
    check(
        drop_at_least_0,
        place(&[at_least(0), HAS, at_least(1)], vec![]),
        place(&[HAS, at_least(1)], vec![]),
    );
    check(
        drop_empty_every,
        place(
            &[],
            vec![every(1, Place::default()), every(2, place(&[HAS], vec![]))],
        ),
        place(&[], vec![every(2, place(&[HAS], vec![]))]),
    );
    check(
        join_equal,
        place(
            &[HAS, at_most(2), HAS, LACKS, at_most(2), at_least(2)],
            vec![],
        ),
        place(&[HAS, at_most(2), LACKS, at_least(2)], vec![]),
    );
}

#[test]
fn rules_are_the_nine_equal_entries_and_the_requests() {
    let numbers: Vec<u8> = RULES.iter().map(|rule| rule.0).collect();
    let requests = [SINGLE_LINKS, EXCLUDING_PAIRS];
    assert_eq!(numbers[..9], [1, 2, 3, 4, 6, 7, 8, 9, 0]);
    assert_eq!(numbers[9..], requests);
}
