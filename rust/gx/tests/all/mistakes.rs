//! A mistake in a text or a names file is told with line, column and what was expected.

use differential::chance::Chance;
use differential::draw;
use gx::dictionary::Part;
use gx::entry::Sort;
use gx::names::Names;
use gx::owl::{question, read};
use gx::text::{desk, dictionary, parse, parse_dictionary, text, Bracketed, Mistake, Numbers};
use gx::text::{mistakes, mistakes_of_pairs, mistakes_of_parts};

use crate::support::{ours, Folder};

pub fn is_at(mistake: &Mistake, line: usize, column: usize, expected: &str, found: &str) {
    let told = format!("{mistake}");
    assert_eq!(
        (mistake.at.line, mistake.at.column),
        (line, column),
        "{told}"
    );
    assert!(mistake.expected.contains(expected), "{told}");
    assert!(mistake.found.contains(found), "{told}");
}

/// A text, the line and column of its mistake, and what is expected and found there.
const TEXTS: &[(&str, usize, usize, &str, &str)] = &[
    ("", 1, 1, "'description'", "the end of the text"),
    ("// nothing\n\n", 3, 1, "an entry", "the end of the text"),
    ("hass property 7", 1, 1, "an entry (has, lacks", "'hass'"),
    ("has 7", 1, 5, "'property' and a number", "'7'"),
    ("has property", 1, 13, "a property", "the end of the text"),
    ("has property 65536", 1, 14, "65,535", "'65536'"),
    (
        "has property 7 has property 8",
        1,
        16,
        "a new line",
        "'has'",
    ),
    (
        "at\nleast 1",
        1,
        3,
        "'least' or 'most'",
        "the end of the line",
    ),
    (
        "at least one link 2",
        1,
        10,
        "a number from 0 to 65,535",
        "'one'",
    ),
    ("at most 1 link", 1, 15, "a link", "the end of the text"),
    ("at most 1 2", 1, 11, "'link' and a number", "'2'"),
    ("nothing fit", 1, 9, "'fits'", "'fit'"),
    (
        "group of 0 link 1",
        1,
        10,
        "a count from 1 to 65,536",
        "'0'",
    ),
    (
        "group of 65537 link 1",
        1,
        10,
        "a count from 1 to 65,536",
        "'65537'",
    ),
    ("has property 7 [", 1, 16, "only every and group", "'['"),
    ("1,7 [1,8]", 1, 5, "only every and group", "'['"),
    (
        "every link 1 [\n\thas property 7\n",
        3,
        1,
        "']' for the '[' of line 1",
        "the end",
    ),
    ("has property 7\n]", 2, 1, "an entry", "']'"),
    (
        "every link 1 [] has property 7",
        1,
        17,
        "a new line",
        "'has'",
    ),
    ("256,1", 1, 1, "a kind", "'256'"),
    ("3,2,x", 1, 5, "a number", "'x'"),
    ("1,7\n  3,,1", 2, 5, "a property or link", "','"),
    (
        "has property 7 \"sealed",
        1,
        23,
        "'\"' after the word",
        "the end of the text",
    ),
    ("has property 7 \"a\\n\"", 1, 18, "\\\\", "'\\'"),
    ("has \"dried\"", 1, 5, "gives to a property", "\"dried\""),
    ("every sealed []", 1, 7, "gives to a link", "\"sealed\""),
    (
        "every link 3 \"a\" []\nevery link 3 \"b\" []",
        2,
        14,
        "\"a\", as link 3 is called (line 1)",
        "\"b\"",
    ),
    (
        "has property 7 \"frozen\"; has property 8 \"frozen\"",
        1,
        41,
        "not that of property 7 (line 1)",
        "\"frozen\"",
    ),
    (
        "every link 2 \"sample\" []",
        1,
        14,
        "not that of link 1",
        "\"sample\"",
    ),
    (
        "has property 8 \"x\"; has property 9 \"x\"",
        1,
        36,
        "not that of property 8",
        "\"x\"",
    ),
    ("#0 has property 7", 1, 4, "from 1", "'0'"),
    ("#x has property 7", 1, 2, "an entry's number", "'x'"),
    (
        "has property 7\n#1 has property 8",
        2,
        1,
        "entry 1 is that of line 1",
        "entry 1 again",
    ),
    (
        "has property 7\n#3 has property 8",
        2,
        1,
        "an entry 2",
        "entry 3",
    ),
    ("has property 7\u{1}", 1, 15, "letters", "U+0001"),
    ("has\u{a0}property 7", 1, 4, "letters", "U+00A0"),
    (
        "has property 7 \"a\u{202e}b\"",
        1,
        18,
        "letters",
        "U+202E, which turns text around",
    ),
    ("1,7 // \u{2066}", 1, 8, "letters", "U+2066"),
    ("has\u{2069} property 7", 1, 4, "letters", "U+2069"),
];

#[test]
fn of_a_text() {
    let names = Names::read("link 1 \"sample\"\nproperty 7 \"sealed\"").unwrap();
    for &(text, line, column, expected, found) in TEXTS {
        let mistake = parse(text, &names).unwrap_err();
        is_at(&mistake, line, column, expected, found);
    }
}

#[test]
fn of_a_names_file() {
    for (text, line, column, expected, found) in [
        (
            "properti 7 x",
            1,
            1,
            "'property', 'link' or 'description'",
            "'properti'",
        ),
        ("link one \"x\"", 1, 6, "a number from 1 to 65,535", "'one'"),
        ("link 0 \"x\"", 1, 6, "a number from 1 to 65,535", "'0'"),
        ("link 1", 1, 7, "a word", "the end of the text"),
        ("link 1 \"\"", 1, 8, "neither begins nor ends", "\"\""),
        (
            "link 1 \"x\" \"y\" \"z\"",
            1,
            16,
            "the end of the line",
            "\"z\"",
        ),
        (
            "property 1 \"x\" \"y\"",
            1,
            16,
            "the end of the line",
            "\"y\"",
        ),
        ("link 1 a, b", 1, 9, "stands in quotes", "','"),
        (
            "link 1 a\nlink 1 b",
            2,
            8,
            "\"a\", as link 1 is called",
            "\"b\"",
        ),
        ("link 1 a\nlink 2 a", 2, 8, "not that of link 1", "\"a\""),
    ] {
        let mistake = Names::read(text).unwrap_err();
        is_at(&mistake, line, column, expected, found);
    }
    // Properties and links have nothing to do with each other.
    assert!(Names::read("property 7 a\nlink 7 b\nlink 8 a").is_ok());
}

#[test]
fn a_mistake_is_shown_under_its_line() {
    let text = "every link 1 [\n\tat last 1 link 2\n]";
    let mistake = parse(text, &Names::default()).unwrap_err();
    assert_eq!(mistake.shown_in(text), "   at last 1 link 2\n      ^");
}

#[test]
fn up_to_twenty_are_told_in_one_run() {
    let folder = Folder::new("many-mistakes");
    std::fs::create_dir_all(folder.path().join("in")).unwrap();
    let text = "every sampel [\n    hass sealed\n    lacks frozn\n    at lest 1 core\n]\nhas sealed extra\n1,7\n";
    folder
        .put(
            "names",
            "link 1 \"sample\"\nlink 2 \"core\"\nproperty 7 \"sealed\"\nproperty 8 \"frozen\"",
        )
        .put("in/text", text);
    let ran = folder.gx(&["check", "in/text", "--names", "names"]);
    let told: Vec<String> = ran.text().lines().step_by(3).map(String::from).collect();
    for (line, due) in told.iter().zip([
        "in/text:1:7: expected a word that the names file, or the text before, gives to a link, found \"sampel\"; did you mean 'sample'?",
        "in/text:2:5: expected an entry (has, lacks, at least, at most, every, nothing fits, named, group, or kind,name,number), found 'hass'; did you mean 'has'?",
        "in/text:3:11: expected a word that the names file, or the text before, gives to a property, found \"frozn\"; did you mean 'frozen'?",
        "in/text:4:8: expected 'least' or 'most', found 'lest'",
        "in/text:6:5: ",
    ]) {
        assert!(line.starts_with(due), "{line}");
    }
    assert_eq!((ran.status, told.len()), (2, 5), "{}", ran.text());
    let ran = folder.gx(&["check", "in", "--names", "names"]);
    assert!(
        ran.text()
            .ends_with("did you mean 'sample'? (and 4 more)\n"),
        "{}",
        ran.text()
    );
    let ran = folder.gx(&["check", "in/text", "--names", "names", "--json"]);
    let text = ran.text();
    assert!(
        text.contains("\"hint\":\"did you mean 'sample'?\",\"more\":[{\"line\":2,"),
        "{text}"
    );
    assert_eq!(text.matches("\"expected\":").count(), 5);
    folder.put("many", "has\n".repeat(1000));
    let ran = folder.gx(&["check", "many"]);
    assert_eq!(ran.text().matches("many:").count(), 20);
    assert_eq!(mistakes("1,7\n", &Names::default()), []);
}

/// The lines and columns at which mistakes are told of this file.
fn places(told: &str, file: &str) -> Vec<String> {
    let lines = told.lines().map(|line| line.trim_start_matches("gx: "));
    let lines = lines.filter_map(|line| line.strip_prefix(file)?.strip_prefix(':'));
    let place = |line: &str| line.split(": ").next().map(String::from);
    lines.filter_map(place).collect()
}

#[test]
fn many_mistakes_of_lists_dictionaries_names_and_owl() {
    let folder = Folder::new("many-mistakes");
    let is = |name: &str, text: &str, args: &[&str], due: &[&str]| {
        folder.put(name, text);
        let ran = folder.gx(args);
        let told = ran.text() + &ran.err;
        assert_eq!(
            (ran.status, places(&told, name).as_slice()),
            (
                2,
                &due.iter().map(|at| at.to_string()).collect::<Vec<_>>()[..]
            ),
            "{told}"
        );
    };
    folder.put("text", "1,7");
    let pairs = "pairs\n7,8\n7,\nfoo excludes\n8,9\nproperty 7 excludes property 8 x\n";
    is(
        "p.pairs",
        pairs,
        &["check", "p.pairs"],
        &["3:3", "4:1", "6:32"],
    );
    is(
        "p.pairs",
        pairs,
        &["check", "text", "--pairs", "p.pairs"],
        &["3:3", "4:1", "6:32"],
    );
    let dictionary = "dictionary\ndescription 1 [1,7\n1,\nhas x]\ndescription 2 [2,]\nfoo\ndescriptoin 3 [\n1,]\n[\n1,1\n]\n9 [";
    let due = ["3:3", "4:5", "5:18", "6:1", "7:1", "8:3", "12:1"];
    is("d.dictionary", dictionary, &["check", "d.dictionary"], &due);
    is(
        "d.dictionary",
        dictionary,
        &["check", "text", "--dictionary", "d.dictionary"],
        &due,
    );
    let services = dictionary
        .replace("dictionary", "services")
        .replace("description", "service");
    let due = ["3:3", "4:5", "5:14", "6:1", "7:1", "8:3", "12:1"];
    is("services", &services, &["check", "services"], &due);
    is(
        "services",
        &services,
        &["catalogue", "text", "services"],
        &due,
    );
    let names =
        "property 7 \"sealed\"\nprop 8\nlink 0 \"x\"\nlink 9\nproperty 8 \"sealed\"\nlink 4 \"a";
    is(
        "n.names",
        names,
        &["check", "text", "--names", "n.names"],
        &["2:1", "3:6", "4:7", "5:12", "6:10"],
    );
    let owl = "Ontology(\nSubClassOf(:property_1 :property_2)\nEquivalentClasses(:A ObjectIntersectionOf(\n\
               ObjectOneOf(:a)\n:property_0\nObjectAllValuesFrom(:link_1 ObjectIntersectionOf(:x ObjectMinCardinality(70000 :link_2)))\n))\n\
               DisjointClasses(:A :property_1)\nFunctionalObjectProperty(:link_7)\n)";
    let due = ["2:1", "4:1", "5:1", "6:50", "6:74", "8:17", "9:26"];
    is("a.ofn", owl, &["from-owl", "a.ofn"], &due);
    let ran = folder.gx(&["from-owl", "a.ofn", "--json"]);
    assert_eq!(ran.text().matches("\"expected\":").count(), due.len());
    // No more than twenty, and a class that names itself twice ends.
    let many = format!("ObjectIntersectionOf({})", ":x\n".repeat(100));
    let due: Vec<String> = (1..=20)
        .map(|line| format!("{line}:{}", if line == 1 { 22 } else { 1 }))
        .collect();
    is(
        "b.ofn",
        &many,
        &["from-owl", "b.ofn"],
        &due.iter().map(String::as_str).collect::<Vec<_>>(),
    );
    let twice = "Ontology(EquivalentClasses(:description_1 ObjectIntersectionOf(:description_1 :description_1)))";
    folder.put("c.ofn", twice);
    assert_eq!(folder.gx(&["from-owl", "c.ofn"]).status, 2);
}

#[test]
fn what_is_missing_is_hinted() {
    let folder = Folder::new("hints");
    folder.put("text", "has sealed");
    let ran = folder.gx(&["check", "text"]);
    let due = "found \"sealed\"; no names file is given (--names FILE)\n";
    assert!(ran.text().contains(due), "{}", ran.text());
    let ran = folder.gx(&["check", "none"]);
    assert_eq!(
        ran.err,
        "gx: none: cannot be read: no such file or directory\n"
    );
    let ran = folder.gx(&["show", "text", "--out", "none/x"]);
    assert!(!ran.err.contains("os error"), "{}", ran.err);
}

/// The bytes with a few of them changed, taken away or repeated.
fn spoilt(chance: &mut Chance, bytes: &[u8]) -> Vec<u8> {
    let mut bytes = bytes.to_vec();
    for _ in 0..=chance.below(3) {
        let (at, to) = (chance.below(bytes.len()), chance.below(bytes.len()));
        match chance.below(4) {
            0 if !bytes.is_empty() => bytes[at] = chance.one_of(*b"[];,#\" \n/\\9x\xc3"),
            1 => bytes.truncate(at),
            2 => drop(bytes.drain(at.min(to)..to)),
            _ => bytes.extend_from_within(at.min(to)..to),
        }
    }
    bytes
}

#[test]
fn spoilt_texts_are_mistakes_or_texts() {
    let mut chance = Chance::from_seed(31);
    let names = Names::read("link 1 sample\nproperty 1 sealed").unwrap();
    let mut mistakes = 0;
    for _ in 0..3000 {
        let shape = draw::Shape {
            entries: 12,
            ..draw::shape(&mut chance)
        };
        let entries = ours(&draw::description(&mut chance, &shape));
        let part = || Part {
            entries: entries.clone(),
            ..Part::default()
        };
        let written = match chance.below(4) {
            0 => text(Sort::Description, &entries, &names, Numbers::All),
            1 => desk(Sort::Description, &entries),
            2 => dictionary(&[part(), part()], &names, Numbers::WhereNeeded),
            _ => question(&[], &entries, &entries, &names),
        };
        let bytes = spoilt(&mut chance, written.as_bytes());
        let spoilt = String::from_utf8_lossy(&bytes);
        for mistake in [
            gx::text::mistakes(&spoilt, &names).pop(),
            parse(&spoilt, &names).err(),
            parse_dictionary(&spoilt, &names).err(),
            mistakes_of_pairs(&spoilt, &names).pop(),
            mistakes_of_parts(&spoilt, &names, Bracketed::Dictionary).pop(),
            read(&spoilt, Some("Service"), &names)
                .err()
                .and_then(|mut all| all.pop()),
            Names::read(&spoilt).err(),
            Names::mistakes(&spoilt).pop(),
        ] {
            // Where a mistake is told, it can be shown.
            mistakes += mistake.map_or(0, |mistake| mistake.shown_in(&spoilt).len().min(1));
        }
    }
    assert!(mistakes > 3000);
}
