//! Texts to blocks to texts, and blocks to texts to blocks, give the same again.

use differential::chance::Chance;
use differential::draw;
use gx::blocks::{decode, encode};
use gx::entry::{Entry, Sort};
use gx::library;
use gx::names::Names;
use gx::text::{desk, parse, text, Numbers};

use crate::support::{description, ours, specimen};

/// Words for some of the properties and links that are drawn, with signs that a text has to mind.
const WORDS: &str = r#"
property 1 "sealed"
property 2 "taken from \"field\" \\ 2"
property 65535 "3,4 [5; #6] // no remark"
property 65534 link
property 40508 "ground, dried and sieved at 2 mm"
link 1 "sample" "samples"
link 2 core
link 3 "every"
link 65535 "Bodenprobe Ä ß 土"
link 65534 property
"#;

fn names() -> Names {
    Names::read(WORDS).unwrap()
}

/// The blocks are the same after each of the three ways of writing them.
fn blocks_survive(sort: Sort, entries: &[Entry], names: &Names) {
    let blocks = encode(entries);
    assert_eq!(decode(&blocks), entries);
    assert_eq!(library::read(sort, &blocks), Ok(entries.len() as u16));
    for numbers in [Numbers::WhereNeeded, Numbers::All] {
        let written = text(sort, entries, names, numbers);
        let again = parse(&written, names).unwrap();
        assert_eq!(encode(&again.entries), blocks, "{written}");
        let told = again
            .sort
            .map_or(Sort::guess(&again.entries), |(sort, _)| sort);
        assert_eq!(told, sort, "{written}");
        assert_eq!(text(sort, &again.entries, names, numbers), written);
        // Without the names file the text says the same, by its numbers.
        let alone = parse(&written, &Names::default()).unwrap();
        assert_eq!(alone.entries, entries);
        assert_eq!(text(sort, &alone.entries, &alone.words, numbers), written);
    }
    let line = desk(sort, entries);
    let again = parse(&line, &Names::default()).unwrap();
    assert_eq!(encode(&again.entries), blocks, "{line}");
    let told = again
        .sort
        .map_or(Sort::guess(&again.entries), |(sort, _)| sort);
    assert_eq!((told, desk(sort, &again.entries)), (sort, line));
}

#[test]
fn drawn_descriptions_survive() {
    let mut chance = Chance::from_seed(1);
    for _ in 0..400 {
        blocks_survive(
            Sort::Description,
            &ours(&description(&mut chance)),
            &names(),
        );
    }
}

#[test]
fn drawn_specimens_survive() {
    let mut chance = Chance::from_seed(2);
    for _ in 0..400 {
        blocks_survive(Sort::Specimen, &ours(&specimen(&mut chance)), &names());
    }
}

#[test]
fn inputs_at_the_limit_survive() {
    let mut chance = Chance::from_seed(3);
    for _ in 0..6 {
        let shape = draw::full_shape(&mut chance);
        let entries = draw::description(&mut chance, &shape);
        let entries = differential::derived::reordered(&mut chance, &entries);
        blocks_survive(Sort::Description, &ours(&entries), &names());
        let entries = draw::full_specimen(&mut chance);
        let entries = differential::derived::reordered(&mut chance, &entries);
        blocks_survive(Sort::Specimen, &ours(&entries), &names());
    }
}

#[test]
fn inputs_without_entries_survive() {
    blocks_survive(Sort::Description, &[], &names());
    blocks_survive(Sort::Specimen, &[], &names());
    assert_eq!(
        text(Sort::Description, &[], &names(), Numbers::All),
        "description\n"
    );
}

#[test]
fn the_desk_examples_are_read_as_the_reference_reads_them() {
    for line in [
        "1,7",
        "5,1 [3,2,1; 4,2,1]",
        "5,1 [5,2 [6]; 3,2,1]",
        "5,3 [3,1,0]",
        "5,1 []",
        "3,1,2; 4,1,2",
        "4,1,65535",
        "7,1,1 [1,7]; 7,2",
    ] {
        let entries = ours(&reference::notation::entries(line));
        assert_eq!(
            parse(line, &Names::default()).unwrap().entries,
            entries,
            "{line}"
        );
    }
}

#[test]
fn the_words_of_the_paper_are_its_kinds() {
    let written = "has property 7; lacks property 8; at least 1 link 2; at most 1 link 32768; every link 1 [nothing fits]";
    let entries = ours(&reference::notation::entries(
        "1,7; 2,8; 3,2,1; 4,32768,1; 5,1 [6]",
    ));
    assert_eq!(parse(written, &Names::default()).unwrap().entries, entries);
    let written = "specimen\ngroup of 65536 link 1 [\n    has property 7\n]\n";
    let entries = ours(&reference::notation::entries("7,1,65535 [1,7]"));
    let parsed = parse(written, &Names::default()).unwrap();
    assert_eq!(parsed.entries, entries);
    assert_eq!(
        text(
            Sort::Specimen,
            &entries,
            &Names::default(),
            Numbers::WhereNeeded
        ),
        written
    );
}

#[test]
fn words_alone_stand_for_their_numbers() {
    let names = names();
    let entries = ours(&reference::notation::entries(
        "5,1 [3,2,2; 4,1,3; 1,1; 2,2]",
    ));
    for written in [
        "every sample [\n at least 2 core\n at most 3 samples\n has sealed\n lacks \"taken from \\\"field\\\" \\\\ 2\" ]",
        "every link sample [at least 2 link \"core\"; at most 3 link samples; has property sealed; lacks property 2]",
        "// a remark\nevery \"sample\"\n\n[ 3,2,2 // and another\n; 4,1,3\r\nhas property 1 \"sealed\";; 2,2\n]\n\n",
    ] {
        assert_eq!(parse(written, &names).unwrap().entries, entries, "{written}");
    }
    // A plural that the names file knows is a word too, also after the number.
    let both = "every link 1 \"sample\" []; at least 2 link 1 \"samples\"";
    assert_eq!(parse(both, &names).unwrap().entries.len(), 2);
    // A text's own words count from where it gives them.
    let own = "every link 1 \"pit\" [ every pit [ has property 3 \"wet\"; lacks wet ] ]";
    let entries = ours(&reference::notation::entries("5,1 [5,1 [1,3; 2,3]]"));
    assert_eq!(parse(own, &Names::default()).unwrap().entries, entries);
}

#[test]
fn short_forms_are_shown_as_what_they_stand_for() {
    let names = names();
    let written = "exactly 2 core; no sample; some link 7\nevery sample [\n    #9 exactly 0 link 5\n]\n#6 has property 3; #7 1,4; #8 1,5";
    let entries = parse(written, &names).unwrap().entries;
    let due = reference::notation::entries(
        "3,2,2; 4,2,2; 4,1,0; 3,7,1; 5,1; 1,3; 1,4; 1,5; 3,5,0; 4,5,0",
    );
    let mut due = ours(&due);
    due[8].owner = 5;
    due[9].owner = 5;
    assert_eq!(entries, due);
    let shown = text(
        Sort::Description,
        &entries[..4],
        &Names::default(),
        Numbers::WhereNeeded,
    );
    assert_eq!(
        shown,
        "at least 2 link 2\nat most 2 link 2\nat most 0 link 1\nat least 1 link 7\n"
    );
    for wrong in ["exactly core", "exactly 2", "no", "some 2", "no property 7"] {
        assert!(parse(wrong, &names).is_err(), "{wrong}");
    }
}

#[test]
fn numbers_are_written_only_where_the_order_needs_them() {
    let e = |kind, owner, name, number| Entry {
        kind,
        zero: 0,
        owner,
        name,
        number,
    };
    let entries = [
        e(5, 0, 1, 0),
        e(1, 0, 7, 0),
        e(1, 1, 8, 0),
        e(3, 1, 2, 1),
        e(6, 0, 0, 0),
    ];
    let written = "every link 1 [\n    #3 has property 8\n    at least 1 link 2\n]\n#2 has property 7\n#5 nothing fits\n";
    assert_eq!(
        text(
            Sort::Description,
            &entries,
            &Names::default(),
            Numbers::WhereNeeded
        ),
        written
    );
    assert_eq!(
        desk(Sort::Description, &entries),
        "5,1 [#3 1,8; 3,2,1]; #2 1,7; #5 6"
    );
    assert_eq!(parse(written, &Names::default()).unwrap().entries, entries);
}
