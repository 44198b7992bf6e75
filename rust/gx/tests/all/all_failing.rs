//! `gx compare --all`: every entry that fails, and no other.

use differential::chance::Chance;
use differential::derived::{missed, weaker};
use goltximen::{Comparison, Under};
use gx::background::Background;
use gx::blocks::encode;
use gx::entry::{Entry, Sort};
use gx::explain::all_failing;
use gx::input::Input;
use gx::names::Names;
use gx::tree::alone;

use crate::support::{description, ours, Folder};

fn input(entries: Vec<Entry>) -> Input {
    Input {
        title: "drawn".into(),
        sort: Sort::Description,
        bytes: encode(&entries),
        sent: entries.len(),
        stored: None,
        entries,
        names: Names::default(),
        positions: Vec::new(),
        origins: Vec::new(),
    }
}

/// The entry that fails first, by the library.
fn first(c: &[u8], d: &[u8]) -> Option<usize> {
    let mut out = vec![0; 32 * 512];
    match Under::default().compare(c, d, &mut out).unwrap() {
        Comparison::Contained => None,
        Comparison::NotContained { entry, .. } => Some(entry.into()),
    }
}

#[test]
fn the_entries_that_fail_alone_are_told_and_no_others() {
    let mut chance = Chance::from_seed(81);
    let mut several = 0;
    for _ in 0..120 {
        let drawn = description(&mut chance);
        let d = match chance.below(3) {
            0 => weaker(&mut chance, &drawn),
            1 => missed(&mut chance, &drawn),
            _ => description(&mut chance),
        };
        let (c, d) = (input(ours(&drawn)), input(ours(&d)));
        let all = all_failing(&Background::default(), &c, &d)
            .unwrap()
            .unwrap();
        let all: Vec<usize> = all.iter().map(|failure| failure.entry).collect();
        let alone = |&entry: &usize| encode(&alone(&d.entries, entry));
        let entries = 1..=d.entries.len();
        let due: Vec<usize> = entries
            .filter(|entry| first(&c.bytes, &alone(entry)).is_some())
            .collect();
        assert_eq!(all, due);
        assert_eq!(all.first().copied(), first(&c.bytes, &d.bytes));
        several += usize::from(all.len() > 1);
        // Where each of them asks for nothing, the description is contained.
        let mut rest = d.entries.clone();
        for entry in all {
            rest[entry - 1] = Entry {
                kind: 3,
                name: 1,
                number: 0,
                ..rest[entry - 1]
            };
        }
        assert_eq!(first(&c.bytes, &encode(&rest)), None);
    }
    assert!(several > 20, "{several}");
}

const SERVICE: &str =
    "every sample [\n    has sealed\n    at most 2 core\n]\nlacks property 9\nat least 1 sample";
const SUPPLIER: &str =
    "every sample [\n    at most 4 core\n    has property 8\n]\nat least 1 sample";
const NAMES: &str =
    "link 1 \"sample\" \"samples\"\nlink 2 \"core\" \"cores\"\nproperty 7 \"sealed\"";

fn desk(name: &str) -> Folder {
    let folder = Folder::new(name);
    folder
        .put("c", SUPPLIER)
        .put("d", SERVICE)
        .put("n", NAMES)
        .put("yes", "at least 0 sample");
    folder
}

#[test]
fn in_text() {
    let folder = desk("all-text");
    let ran = folder.gx(&["compare", "c", "d", "--names", "n", "--all"]);
    let due = "
All that fails: 3 entries of 5, by their numbers
    2 (line 2): every sample has property sealed
        supplier: of every sample, nothing about property sealed
        specimen: 1 sample, which lacks property sealed
    3 (line 3): of every sample, at most 2 cores
        supplier: of every sample, at most 4 cores - its entry 2 (line 2)
        specimen: 1 sample, which has 3 cores, not at most 2
    4 (line 5): the top item lacks property 9
        supplier: of the top item, nothing about property 9
        specimen: the top item has property 9
";
    assert!(ran.text().contains(due), "{}", ran.text());
    assert!(ran.text().starts_with("not contained\n\nEntry 2 of"));
    let ran = folder.gx(&["compare", "c", "yes", "--names", "n", "--all"]);
    assert_eq!(ran.status, 0);
    assert!(!ran.text().contains("All that fails"));
    std::fs::create_dir_all(folder.path().join("in")).unwrap();
    folder.put("in/d", SERVICE);
    let ran = folder.gx(&["compare", "c", "in", "--names", "n", "--all"]);
    let due =
        "d: not contained, entry 2: every sample has property sealed; 3 entries fail: 2, 3 and 4\n";
    assert_eq!(ran.text(), due);
}

#[test]
fn for_programs() {
    let folder = desk("all-json");
    let ran = folder.gx(&["compare", "c", "d", "--names", "n", "--all", "--json"]);
    let text = ran.text();
    let all = text.split_once("\"all\":[").unwrap().1;
    let due = "{\"entry\":2,\"line\":2,\"owners\":[1],\"links\":[1],\"asks\":\"every sample has property sealed\",\
        \"supplier\":\"of every sample, nothing about property sealed\",\"supplier_entries\":[],\"shows\":\"without property sealed\"},\
        {\"entry\":3,";
    assert!(all.starts_with(due), "{text}");
    assert_eq!(all.matches("\"entry\":").count(), 3);
    let ran = folder.gx(&["compare", "c", "yes", "--names", "n", "--all", "--json"]);
    assert!(ran
        .text()
        .starts_with("{\"answer\":\"contained\",\"earning\":[],\"all\":[]"));
}

#[test]
fn on_a_page() {
    let folder = desk("all-page");
    let args = [
        "compare", "c", "d", "--names", "n", "--all", "--html", "page",
    ];
    assert_eq!(folder.gx(&args).status, 1);
    let page = String::from_utf8(folder.get("page")).unwrap();
    assert!(page.contains("<h2>All that fails</h2>\n<p class=\"size\">3 entries of 5 entries</p>"));
    for entry in [2, 3, 4] {
        assert!(page.contains(&format!("<tr><td><a href=\"#service-{entry}\">{entry}</a>")));
        assert!(page.contains(&format!("<li id=\"service-{entry}\">")));
    }
    assert_eq!(page.matches("class=\"e too\"").count(), 2);
    assert_eq!(page.matches("<mark>").count(), 1);
}

#[test]
fn many_entries_and_named_ones() {
    let folder = Folder::new("all-many");
    let d: String = (1..=300).map(|n| format!("has property {n}\n")).collect();
    folder
        .put("c", "has property 100; named 1")
        .put("d", d)
        .put("dictionary", "dictionary\n[has property 200]");
    let args = [
        "compare",
        "c",
        "d",
        "--dictionary",
        "dictionary",
        "--all",
        "--json",
    ];
    let ran = folder.gx(&args);
    let text = ran.text();
    let all = text.split_once("\"all\":[").unwrap().1;
    assert_eq!(all.matches("{\"entry\":").count(), 298);
    for holds in [100, 200] {
        assert!(!all.contains(&format!("{{\"entry\":{holds},")));
    }
}
