//! What is shown is read back before: texts, pages, and after a no the specimen and the entries around the one that fails.

use differential::chance::Chance;
use differential::draw;
use gx::entry::{Entry, Property, Sort};
use gx::input::Input;
use gx::names::Names;
use gx::text::{self, Numbers, Position};
use gx::trouble::Trouble;
use gx::{blocks, page, readback};
use reference::encode;

use crate::support::Folder;

/// A description whose word no text can have.
fn unreadable() -> Input {
    let mut names = Names::default();
    let bad = names.name_property(Property(7), "a\nb", Position::default(), &Names::default());
    assert!(bad.is_ok());
    let entries = vec![Entry {
        kind: 1,
        name: 7,
        ..Entry::default()
    }];
    Input {
        title: "d".into(),
        sort: Sort::Description,
        bytes: blocks::encode(&entries),
        sent: 1,
        stored: None,
        entries,
        names,
        positions: Vec::new(),
        origins: Vec::new(),
    }
}

#[test]
fn what_is_shown_is_read_back() {
    let input = unreadable();
    let written = text::text(
        input.sort,
        &input.entries,
        &input.names,
        Numbers::WhereNeeded,
    );
    let back = |text: &str| {
        readback::entries(
            text.into(),
            input.sort,
            &input.entries,
            &Names::default(),
            "d",
        )
    };
    for wrong in [
        written.as_str(),
        "has property 8",
        "lacks property 7",
        "has property 7; has property 7",
        "specimen; has property 7",
    ] {
        let Err(trouble @ Trouble::Fault { .. }) = back(wrong) else {
            panic!("{wrong}");
        };
        assert_eq!(trouble.status().code(), 70);
        assert!(trouble
            .lines()
            .starts_with("d: an error of gx, not of the input: "));
    }
    assert_eq!(back("has property 7").unwrap(), "has property 7");
}

#[test]
fn what_a_page_shows_is_read_back() {
    let input = unreadable();
    let plain = Names::default();
    let explained = gx::explain::Explained::Contained(Vec::new());
    let sheet = page::Sheet {
        explained: &explained,
        list: &Default::default(),
        supplier: &input,
        service: &input,
        names: &plain,
        whole: false,
        all: None,
        given: &Default::default(),
    };
    assert!(page::page(sheet).is_ok());
    let names = &input.names;
    let trouble = page::page(page::Sheet { names, ..sheet }).unwrap_err();
    assert_eq!(trouble.status().code(), 70);
}

/// What is wrong with a shown specimen is noticed: a count, a property, a group that is missing or stands elsewhere, the mark.
#[test]
fn a_shown_specimen_is_read_back() {
    let names =
        Names::read("link 1 \"a, which has\" \"2 b\"\nproperty 2 \"x, y and 3 more\"").unwrap();
    let entries = |text: &str| gx::text::parse(text, &Names::default()).unwrap().entries;
    let specimen = entries("1,2; 1,7; 7,1,1 [1,2; 1,3; 1,4; 7,5,2000 [1,9]]; 7,6 [1,2]");
    let failure = gx::explain::Failure::of_specimen(&specimen, &entries("5,1 [2,3]"), 2, 3);
    let words = gx::words::Words::new(&names);
    let shown = "    the top item has properties x, y and 3 more and 7, and\n        \
                 2 2 b, each of which has properties x, y and 3 more, 3 and 4, and    <-- with property 3\n            \
                 2,001 items by link 5, each of which has property 9\n        \
                 1 item by link 6, which has property x, y and 3 more\n";
    let back = |text: String| gx::readback::specimen(text, &failure, words);
    assert_eq!(back(shown.into()).unwrap(), shown);
    let lines: Vec<&str> = shown.lines().collect();
    for (one, other) in [
        ("2,001", "2,000"),
        ("link 5", "link 6"),
        ("2 2 b", "2 b"),
        ("3 and 4", "4 and 3"),
        ("property 9", "property x, y and 3 more"),
        ("    <-- with property 3", ""),
        ("with property 3\n", "with property 4\n"),
        (lines[2], &lines[2][4..]),
        (lines[3], "(1 more groups; --html shows them all)"),
        (&format!("{}\n", lines[3]), ""),
    ] {
        assert!(shown.contains(one), "{one}");
        let trouble = back(shown.replacen(one, other, 1)).unwrap_err();
        assert_eq!(trouble.status().code(), 70, "{one}");
    }
    // Of many groups those off the path may be left out, if their number is told.
    let short = format!(
        "{}\n{}\n    (2 more groups; --html shows them all)\n",
        lines[0], lines[1]
    );
    assert!(back(short.clone()).is_ok());
    assert!(back(short.replace("(2 more", "(3 more")).is_err());
}

#[test]
fn the_entries_around_one_that_fails_are_read_back() {
    let names = Names::default();
    let folder = Folder::new("around");
    folder.put("d", "1,7; 5,1 [3,2,1; 2,9]; 4,3,2");
    let reading = gx::input::Reading::default();
    let naming = gx::dictionary::Naming::Nothing;
    let input = reading
        .input(&folder.path().join("d"), None, 1, naming)
        .unwrap();
    let shown =
        "    2  every link 1\n    ...\n    3      at least 1 link 2\n  > 4      lacks property 9\n";
    let back = |text: String| gx::readback::surroundings(text, &input, &names);
    assert!(back(shown.into()).is_ok());
    for (one, other) in [
        ("property 9", "property 8"),
        ("> 4", "> 1"),
        ("> 4", "> 9"),
        ("lacks", "has"),
        ("...", ".."),
    ] {
        assert!(back(shown.replace(one, other)).is_err(), "{one}");
    }
}

/// Words that have in them what lines are made of keep no answer back.
#[test]
fn strange_words_are_shown_and_read_back() {
    let folder = Folder::new("strange-words");
    let strange = [
        "a and b",
        "a",
        "b, c",
        "9",
        "x, which has",
        "5 more",
        "the top item",
        "2 items by link 1",
        "    <-- d",
        "e, and",
        "(3 more groups;",
    ];
    let words = |of: &str| -> String {
        let numbered = (1..).zip(strange);
        numbered
            .map(|(number, word)| format!("{of} {number} \"{}\"\n", word.trim()))
            .collect()
    };
    folder.put("n.names", words("link") + &words("property"));
    let mut chance = Chance::from_seed(52);
    let mut shown = 0;
    for _ in 0..60 {
        let shape = draw::Shape {
            entries: 14,
            names: draw::Names::Low,
            ..draw::shape(&mut chance)
        };
        let mut drawn = || encode(&draw::description(&mut chance, &shape));
        folder.put("c", drawn()).put("d", drawn());
        let ran = folder.gx(&[
            "compare", "c", "d", "--names", "n.names", "--html", "p.html",
        ]);
        assert!(ran.status < 2, "{}", ran.text() + &ran.err);
        shown += ran.status;
    }
    assert!(shown > 20);
}
