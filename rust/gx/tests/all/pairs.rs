//! Lists of properties that exclude each other: their texts, their refusals in words, and the answers under them.

use differential::chance::Chance;
use differential::excluding::{drawn, with_implied_lacks, with_partner, wrong};
use goltximen::{Comparison, Fit, Under};
use gx::blocks::encode;
use gx::entry::Property;
use gx::names::Names;
use gx::owl::{question, read, read_pairs};
use gx::pairs::{self, Pair};
use gx::text::{desk_pairs, parse_pairs};

use crate::mistakes::is_at;
use crate::support::{description, ours, specimen, Folder};

const NAMES: &str = "property 7 \"clay\"\nproperty 8 \"wet sand\"\nlink 1 \"sample\" \"samples\"\n";

/// A folder with these names and a list of two pairs.
fn laboratory(name: &str) -> Folder {
    let folder = Folder::new(name);
    folder
        .put("names", NAMES)
        .put("list", "clay excludes wet sand\nproperty 9 excludes clay\n");
    folder
}

fn listed(pairs: &[(u16, u16)]) -> Vec<Pair> {
    let pairs = pairs.iter();
    pairs
        .map(|&(one, other)| Pair(Property(one), Property(other)))
        .collect()
}

#[test]
fn texts_of_lists() {
    let names = Names::read(NAMES).unwrap();
    for (text, due) in [
        ("pairs", vec![]),
        ("pairs:\n\n", vec![]),
        ("7,8", vec![(7, 8)]),
        (
            "pairs: 7,8; 8,7 // again\n65535,1",
            vec![(7, 8), (8, 7), (65_535, 1)],
        ),
        ("property 7 excludes property 8", vec![(7, 8)]),
        (
            "property 7 \"clay\" excludes property 8 \"wet sand\"",
            vec![(7, 8)],
        ),
        (
            "clay excludes wet sand; wet sand excludes \"clay\"",
            vec![(7, 8), (8, 7)],
        ),
        (
            "property clay excludes property 9 \"loam\"\nloam excludes clay",
            vec![(7, 9), (9, 7)],
        ),
        // Read, and then refused by the library.
        ("0,0; 7,7", vec![(0, 0), (7, 7)]),
    ] {
        let parsed = parse_pairs(text, &names).unwrap();
        assert_eq!(parsed.pairs, listed(&due), "{text}");
        assert_eq!(parsed.positions.len(), due.len());
    }
}

/// A text, the line and column of its mistake, and what is expected and found there.
const MISTAKES: &[(&str, usize, usize, &str, &str)] = &[
    (
        "",
        1,
        1,
        "'pairs' for a list without pairs",
        "the end of the text",
    ),
    ("7", 1, 2, "','", "the end of the text"),
    ("7,65536", 1, 3, "a property from 0 to 65,535", "'65536'"),
    ("7,8 9,10", 1, 5, "a new line or ';'", "'9'"),
    ("clay", 1, 5, "'excludes'", "the end of the text"),
    (
        "clay excludes\n",
        1,
        14,
        "'property' and a number",
        "the end of the line",
    ),
    (
        "excludes clay",
        1,
        1,
        "'property' and a number",
        "'excludes'",
    ),
    (
        "loam excludes clay",
        1,
        1,
        "gives to a property",
        "\"loam\"",
    ),
    (
        "property 7 \"loam\" excludes property 7 \"silt\"",
        1,
        39,
        "\"loam\", as property 7 is called (line 1)",
        "\"silt\"",
    ),
    ("pairs\n[", 2, 1, "a pair", "'['"),
    (
        "description\n7,8",
        1,
        1,
        "gives to a property",
        "\"description\"",
    ),
];

#[test]
fn mistakes_in_lists() {
    let names = Names::read(NAMES).unwrap();
    for &(text, line, column, expected, found) in MISTAKES {
        let mistake = parse_pairs(text, &names).unwrap_err();
        is_at(&mistake, line, column, expected, found);
    }
}

#[test]
fn show_and_write_give_the_same_bytes() {
    let mut chance = Chance::from_seed(31);
    let folder = laboratory("list-bytes");
    for _ in 0..20 {
        let d = description(&mut chance);
        let bytes = drawn(&mut chance, &d);
        folder.put("bytes", &bytes);
        for to in ["text", "desk"] {
            let args = [
                "show", "bytes", "--sort", "pairs", "--from", "blocks", "--to", to,
            ];
            let text = folder.gx(&args);
            assert_eq!((text.status, text.err.as_str()), (0, ""));
            // The heading tells that it is a list.
            let ran = folder.gx_with(&["write"], &text.out);
            assert_eq!((ran.status, &ran.out), (0, &bytes), "{}", text.text());
        }
    }
    let ran = folder.gx(&["show", "list", "--sort", "pairs", "--names", "names"]);
    let due = "pairs\nproperty 7 \"clay\" excludes property 8 \"wet sand\"\nproperty 9 excludes property 7 \"clay\"\n";
    assert_eq!((ran.status, ran.text().as_str()), (0, due));
    let ran = folder.gx(&["check", "list", "--sort", "pairs", "--names", "names"]);
    assert_eq!(ran.text(), "accepted: a list of 2 pairs\n");
    // In bytes the ending of the file tells.
    folder.put("soil.pairs", [7, 0, 8, 0]);
    let ran = folder.gx(&["check", "soil.pairs"]);
    assert_eq!(ran.text(), "accepted: a list of 1 pair\n");
    // Bytes that have no zero are no text either, where they are no UTF-8; a text in another code is a mistake.
    folder.put("soil.pairs", [0xfe, 0xff, 0xff, 0xff]);
    let ran = folder.gx(&["show", "soil.pairs", "--to", "desk"]);
    assert_eq!(ran.text(), "pairs: 65534,65535\n");
    folder.put("soil.pairs", b"property 7 \"S\xe4ure\" excludes property 8");
    let ran = folder.gx(&["check", "soil.pairs"]);
    assert!(ran.text().contains("expected text in UTF-8"));
    let ran = folder.gx_with(&["check", "--json"], b"pairs: 7,8");
    let due = "{\"answer\":\"accepted\",\"sort\":\"pairs\",\"pairs\":[{\"pair\":1,\"properties\":[7,8],\"words\":[null,null]}]}\n";
    assert_eq!((ran.status, ran.text().as_str()), (0, due));
}

/// A list of these bytes or this text is refused as 11, with these words, before anything else is looked at.
fn is_refused(folder: &Folder, list: &[u8], place: u16, words: &str) {
    folder.put("wrong", list);
    let ran = folder.gx(&["check", "wrong", "--sort", "pairs"]);
    assert_eq!(ran.status, 2);
    let begin = format!("wrong: refused 11: {words}");
    assert!(ran.text().starts_with(&begin), "{}", ran.text());
    for args in [
        ["fit", "none", "none", "--pairs", "wrong", "--json"],
        ["compare", "none", "none", "--pairs", "wrong", "--json"],
    ] {
        let ran = folder.gx(&args);
        let begin =
            format!("{{\"answer\":\"refused\",\"refusal\":11,\"input\":0,\"place\":{place},");
        assert!(ran.text().starts_with(&begin), "{}", ran.text());
        assert_eq!(ran.status, 2);
    }
}

#[test]
fn refused_lists_in_words() {
    let folder = laboratory("list-refused");
    for (list, place, words) in [
        (&b"\x07\0\x08\0\x09\0"[..], 0, "the list has 6 bytes, which is no multiple of 4: 1 whole pair, and 2 bytes more\n"),
        (b"\x07\0\x08\0\0\0\x09\0", 2, "pair 2: its first property is 0\n"),
        (b"pairs\n7,0", 1, "pair 1: its second property is 0 (line 2)\n"),
        (b"0,0", 1, "pair 1: both of its properties are 0 (line 1)\n"),
        (b"7,8\n7,7; 0,1", 2, "pair 2: it names property 7 twice, and no property excludes itself (line 2)\n\n  pair 1: property 7 excludes property 8\n> pair 2: property 7 excludes property 7\n  pair 3: property 0 excludes property 1\n\n  pair 2 is bytes 4 to 7: 07 00 07 00\n"),
    ] {
        is_refused(&folder, list, place, words);
    }
    let many = "7,8;".repeat(65);
    is_refused(
        &folder,
        many.as_bytes(),
        0,
        "the list has 65 pairs, and the most is 64\n",
    );
}

#[test]
fn drawn_wrong_lists_get_the_library_s_refusal() {
    let mut chance = Chance::from_seed(32);
    let folder = Folder::new("list-wrong");
    for _ in 0..30 {
        let list = wrong(&mut chance, &[7, 0, 8, 0]);
        let under = Under {
            pairs: &list,
            dictionary: &[],
        };
        let refusal = under.fit(&[], &[]).unwrap_err();
        folder.put("list", &list);
        let args = [
            "check", "list", "--sort", "pairs", "--from", "blocks", "--json",
        ];
        let ran = folder.gx(&args);
        let begin = format!("\"refusal\":11,\"input\":0,\"place\":{},", refusal.place);
        assert!(ran.text().contains(&begin), "{refusal} {}", ran.text());
    }
}

#[test]
fn a_specimen_with_both_in_words() {
    let folder = laboratory("list-both");
    folder
        .put(
            "s",
            "specimen\nhas clay\ngroup of 2 sample [has wet sand]\nhas property 9 \"loam\"\n",
        )
        .put(
            "kept",
            "specimen\nhas clay\ngroup of 2 sample [has wet sand]\n",
        )
        .put("d", "every sample [has wet sand]");
    let fit = |s, d| folder.gx(&["fit", s, d, "--names", "names", "--pairs", "list"]);
    // Before the description, which is not there.
    let ran = fit("s", "none");
    assert_eq!(ran.status, 2);
    let begin = "s: refused 12: entry 4: it gives the top item property loam, and entry 1 gives property clay; pair 2 of the list \
                 says that the two exclude each other (line 4)\n";
    assert!(ran.text().starts_with(begin), "{}", ran.text());
    assert!(ran
        .text()
        .contains("> entry 4, at the top: has property 9 \"loam\"\n"));
    let ran = fit("kept", "d");
    assert_eq!((ran.status, ran.err.as_str()), (0, ""));
    folder.put("s", "specimen\ngroup of 2 sample [has wet sand; has clay]");
    let ran = fit("s", "d");
    assert!(ran.text().contains(
        "it gives the items of entry 1 property clay, and entry 2 gives property wet sand; pair 1"
    ));
    // Other refusals of the specimen come first.
    folder.put(
        "s",
        "specimen\nhas clay; has wet sand\ngroup of 2 link 32768",
    );
    assert!(fit("s", "d").text().starts_with("s: refused 9: entry 3:"));
}

#[test]
fn a_no_tells_implied_lacks() {
    let folder = laboratory("list-implied");
    folder
        .put(
            "c",
            "every sample [has clay; lacks wet sand]; at least 1 sample",
        )
        .put(
            "d",
            "every sample [lacks wet sand; lacks property 9; has wet sand]",
        )
        .put("yes", "every sample [lacks property 9]");
    let compare = |d| folder.gx(&["compare", "c", d, "--names", "names", "--pairs", "list"]);
    let ran = compare("d");
    assert_eq!(ran.status, 1);
    for words in [
        "Entry 4 of the service's description (line 1) fails:\n    every sample has property wet sand\n",
        "    every sample lacks property wet sand, since it has property clay - its entries 2 (line 1) and 3 (line 1)\n",
    ] {
        assert!(ran.text().contains(words), "{}", ran.text());
    }
    let ran = compare("yes");
    let due = "contained\n\nEvery item that fits the supplier's description fits the service's description, in every record that \
               keeps the 2 pairs of list.\n\nOf its 4 entries 2 earn it: 1 and 2. One such set, of which none can be left out; leaving out was tried from \
               the last.\n";
    assert_eq!((ran.status, ran.text().as_str()), (0, due));
    let ran = folder.gx(&["compare", "c", "yes", "--names", "names"]);
    assert_eq!(ran.status, 1);
    let ran = folder.gx(&[
        "normal", "c", "--names", "names", "--pairs", "list", "--to", "desk",
    ]);
    assert_eq!((ran.status, ran.text().as_str()), (0, "3,1,1; 5,1 [1,7]\n"));
}

#[test]
fn answers_under_lists_are_the_library_s() {
    let mut chance = Chance::from_seed(33);
    let folder = Folder::new("list-answers");
    for _ in 0..25 {
        let (c, d) = (description(&mut chance), description(&mut chance));
        let s = specimen(&mut chance);
        let list = drawn(&mut chance, &[&c[..], &s].concat());
        let d = with_implied_lacks(&mut chance, &list, &d);
        let s = with_partner(&mut chance, &list, &s);
        let [c, d, s] = [c, d, s].map(|entries| encode(&ours(&entries)));
        let under = Under {
            pairs: &list,
            dictionary: &[],
        };
        folder.put("c", &c).put("d", &d).put("s", &s);
        folder.put("list", pairs_text(&list));
        let mut out = vec![0; c.len() + d.len()];
        let due = match under.compare(&c, &d, &mut out).unwrap() {
            Comparison::Contained => "{\"answer\":\"contained\"".into(),
            Comparison::NotContained { entry, .. } => {
                format!("{{\"answer\":\"not contained\",\"entry\":{entry},")
            }
        };
        let ran = folder.gx(&["compare", "c", "d", "--pairs", "list", "--json"]);
        assert!(ran.text().starts_with(&due), "{}", ran.text());
        let due = match under.fit(&s, &d) {
            Ok(Fit::Yes) => "{\"answer\":\"yes\"".into(),
            Ok(Fit::No) => "{\"answer\":\"no\"".into(),
            Err(refusal) => format!(
                "{{\"answer\":\"refused\",\"refusal\":{},\"input\":1,\"place\":{},",
                refusal.reason.number(),
                refusal.place
            ),
        };
        let ran = folder.gx(&["fit", "s", "d", "--pairs", "list", "--json"]);
        assert!(ran.text().starts_with(&due), "{}", ran.text());
        let count = usize::from(under.normal_form(&c, &mut out).unwrap());
        let args = ["normal", "c", "--pairs", "list", "--to", "blocks"];
        let normal = folder.gx(&args).out;
        assert_eq!(normal, out[..512 * count.div_ceil(63).max(1)]);
    }
}

/// The list as a text, which is told from bytes by itself.
fn pairs_text(list: &[u8]) -> String {
    desk_pairs(&pairs::decode(list))
}

#[test]
fn lists_in_owl_both_ways() {
    let mut chance = Chance::from_seed(34);
    for _ in 0..50 {
        let c = description(&mut chance);
        let list = pairs::decode(&drawn(&mut chance, &c));
        let c = ours(&c);
        let text = question(&list, &c, &c, &Names::default());
        let found = read(&text, Some("Service"), &Names::default()).unwrap();
        assert_eq!(found.pairs, list);
        let found = read_pairs(&text, &Names::default()).unwrap();
        assert_eq!((found.pairs, found.entries), (list, vec![]));
    }
}

#[test]
fn disjoint_classes() {
    let names = Names::read(NAMES).unwrap();
    let pairs_in = |axioms: &str| {
        let text = format!("Ontology({axioms} EquivalentClasses(:A :property_1))");
        read_pairs(&text, &names).map(|found| found.pairs)
    };
    assert_eq!(
        pairs_in("DisjointClasses(:property_1 <http://ex.test/clay> :property_3)"),
        Ok(listed(&[(1, 7), (1, 3), (7, 3)]))
    );
    // A class that is no property is in no description.
    let other = "DisjointClasses(:property_1 <http://ex.test/loam>) DisjointClasses(:property_2 :property_1)";
    assert_eq!(pairs_in(other), Ok(listed(&[(2, 1)])));
    for wrong in [
        "DisjointClasses(:property_1 ObjectComplementOf(:property_2))",
        "DisjointClasses(:A :property_1)",
    ] {
        let mistake = pairs_in(wrong).unwrap_err().remove(0);
        assert!(
            mistake.expected.contains("a class by its name"),
            "{mistake}"
        );
    }
    assert!(read_pairs(":property_1", &names).is_err());
}

#[test]
fn lists_from_owl() {
    let folder = laboratory("list-owl");
    folder.put("d", "has clay");
    let ran = folder.gx(&[
        "owl", "d", "d", "--names", "names", "--pairs", "list", "--out", "q",
    ]);
    assert_eq!((ran.status, ran.err.as_str()), (0, ""));
    let ran = folder.gx(&["from-owl", "q", "--sort", "pairs", "--to", "desk"]);
    assert_eq!((ran.status, ran.text().as_str()), (0, "pairs: 7,8; 9,7\n"));
    let ran = folder.gx(&["from-owl", "q", "--sort", "pairs", "--to", "blocks"]);
    assert_eq!(ran.out, [7, 0, 8, 0, 9, 0, 7, 0]);
    let ran = folder.gx(&["from-owl", "q", "--class", "Supplier"]);
    let due = "// under 2 pairs of properties that exclude each other: --sort pairs writes them\nhas property 7 \"clay\"\n";
    assert_eq!((ran.status, ran.text().as_str()), (0, due));
    let many: Vec<String> = (1..=12).map(|n| format!(":property_{n}")).collect();
    let text = format!("Ontology(DisjointClasses({}))", many.join(" "));
    let ran = folder
        .put("many", text)
        .gx(&["from-owl", "many", "--sort", "pairs"]);
    assert_eq!(ran.status, 2);
    assert!(
        ran.err.contains("many: refused 11: the list has 66 pairs"),
        "{}",
        ran.err
    );
}

#[test]
fn usage_of_lists() {
    let folder = laboratory("list-usage");
    folder.put("d", "1,7");
    for args in [
        &["compare", "d", "-", "--pairs", "-"][..],
        &["show", "d", "--pairs", "list"],
        &["from-owl", "d", "--sort", "specimen"],
        &["check", "d", "--sort", "list"],
    ] {
        assert_eq!(folder.gx(args).status, 64, "{args:?}");
    }
    // A list from standard input, a list that is not there, and one that is no list.
    let ran = folder.gx_with(&["compare", "d", "d", "--pairs", "-"], b"7,8");
    assert_eq!(ran.status, 0, "{}", ran.err);
    let ran = folder.gx(&["compare", "d", "d", "--pairs", "none"]);
    assert_eq!((ran.status, ran.out.len()), (2, 0));
    assert!(
        ran.err.starts_with("gx: none: cannot be read"),
        "{}",
        ran.err
    );
    let ran = folder.gx(&["compare", "d", "d", "--pairs", "names"]);
    assert_eq!(ran.status, 2);
    assert!(
        ran.text().starts_with("names:1:18: expected "),
        "{}",
        ran.text()
    );
}
