//! What a description lacks for a yes.

use differential::chance::Chance;
use differential::derived::{missed, weaker};
use gx::library::{self, Compared};
use reference::{decode, encode, Missing};

use crate::support::{description, Folder, Ran};

fn is(ran: &Ran, status: i32, out: &str) {
    assert_eq!(
        (ran.status, ran.text().as_str(), ran.err.as_str()),
        (status, out, "")
    );
}

fn desk(name: &str) -> Folder {
    let folder = Folder::new(name);
    folder
        .put("c", "every link 1 [ has property 7 ]; at least 1 link 1")
        .put(
            "d",
            "every link 1 [ at least 2 link 2; has property 7 ]; at least 1 link 1",
        )
        .put("e", "at most 0 link 1; has property 9");
    folder
}

const ADDED: &str = "\
to be added: 2 of 4 entries

  + 1  every link 1
  + 2      at least 2 link 2
    3      has property 7
    4  at least 1 link 1

One such set, of which none can be left out; leaving out was tried from the last.
";

const AGAINST: &str = "\
no item fits both: the supplier's contradicts 1 of 2 entries

  + 1  at most 0 link 1
    2  has property 9

Of the supplier's description these contradict them:

    1  every link 1
    2      has property 7
  + 3  at least 1 link 1

One such set, of which none can be left out; leaving out was tried from the last.
";

#[test]
fn what_is_to_be_added() {
    let folder = desk("missing-missing");
    let ran = folder.gx(&["missing", "c", "d", "-o", "addition"]);
    is(&ran, 0, ADDED);
    let due = "every link 1 [\n    at least 2 link 2\n]\n";
    assert_eq!(String::from_utf8(folder.get("addition")).unwrap(), due);
    let ran = folder.gx(&["missing", "c", "d", "--json"]);
    is(&ran, 0, "{\"answer\":\"to be added\",\"missing\":[1,2]}\n");
    let ran = folder.gx(&["missing", "c", "d", "-o", "addition", "--to", "desk"]);
    assert_eq!(
        (ran.status, folder.get("addition")),
        (0, b"5,1 [3,2,2]\n".to_vec())
    );
}

#[test]
fn nothing_to_add_and_nothing_that_can_be() {
    let folder = desk("missing-none");
    let ran = folder.gx(&["missing", "d", "c", "-o", "addition"]);
    is(&ran, 0, "nothing to add: contained\n");
    let ran = folder.gx(&["missing", "c", "e", "-o", "addition"]);
    is(&ran, 1, AGAINST);
    assert!(!folder.path().join("addition").exists());
    let ran = folder.gx(&["missing", "c", "e", "--json"]);
    is(
        &ran,
        1,
        "{\"answer\":\"no item fits both\",\"against\":[3],\"missing\":[1]}\n",
    );
}

/// The page has the supplier's description with the addition in its places, or both with what contradicts.
#[test]
fn on_a_page() {
    let folder = desk("missing-page");
    let page = |c: &str, d: &str| {
        folder.gx(&["missing", c, d, "--html", "page"]);
        String::from_utf8(folder.get("page")).unwrap()
    };
    let added = page("c", "d");
    assert!(added.contains("</span> 1 entry to add</h1>"), "{added}");
    // It stands below the supplier's 'every', which has no other.
    let (before, after) = added.split_once("<li id=\"supplier-4\">").unwrap();
    assert!(before.ends_with("has property 7</span></span></li>\n"));
    assert!(after.starts_with("<span class=\"e added\"><span class=\"n\">4</span><span class=\"w\"><b>at least 2 items by link 2</b>"));
    assert!(after.contains("added: <a href=\"#service-2\">entry 2</a> of the service’s"));
    assert_eq!(added.matches(">to be added</span>").count(), 1);
    let against = page("c", "e");
    assert!(against.contains(" No item fits both</h1>"));
    assert_eq!(
        against.matches(">contradicts the service’s</span>").count(),
        1
    );
    assert_eq!(
        against
            .matches(">contradicts the supplier’s</span>")
            .count(),
        1
    );
    let none = page("d", "c");
    assert!(none.contains(" Nothing to add</h1>"));
    assert!(!none.contains("to be added"));
}

/// Named entries are unfolded, pairs count, and many services get a line each.
#[test]
fn pairs_a_dictionary_and_folders() {
    let folder = Folder::new("missing-background");
    std::fs::create_dir(folder.path().join("services")).unwrap();
    folder
        .put("lab.pairs", "pairs: 7,8")
        .put("lab.dictionary", "dictionary: [1,7; 3,1,2]")
        .put("named", "9,1")
        .put("services/a.txt", "2,8")
        .put("services/b.txt", "3,1,3; 1,9")
        .put("services/c.txt", "1,8");
    let with = ["--pairs", "lab.pairs", "--dictionary", "lab.dictionary"];
    let ran = folder.gx(&[&["missing", "named", "services"], &with[..]].concat());
    let due = "a.txt: nothing to add: contained\nb.txt: to be added: 2 of 2 entries\n\
               c.txt: no item fits both: the supplier's contradicts 1 of 1 entry\n";
    is(&ran, 1, due);
    let ran = folder.gx(&[
        &["missing", "named", "services", "--html", "pages"],
        &with[..],
    ]
    .concat());
    is(&ran, 1, due);
    let index = String::from_utf8(folder.get("pages/index.html")).unwrap();
    assert!(index.contains("<h1 id=\"answer\">2 can be met, 1 cannot</h1>"));
    assert!(index.contains("<a href=\"./b.txt.html\">"));
}

#[test]
fn more_than_sixteen_blocks() {
    let folder = Folder::new("missing-much");
    let many = |entries: u16| {
        let named = (1..=entries).map(|name| reference::notation::entry(1, 0, name, 0));
        encode(&named.collect::<Vec<_>>())
    };
    folder.put("c", many(504)).put("d", many(505));
    let ran = folder.gx(&["missing", "c", "d"]);
    assert_eq!(ran.status, 2);
    assert!(
        (ran.text() + &ran.err).contains("both descriptions together have more than 16 blocks"),
        "{} {}",
        ran.text(),
        ran.err
    );
}

/// Drawn ones, beside the reference, and what is written compared.
#[test]
fn as_the_reference() {
    let folder = Folder::new("missing-drawn");
    let mut chance = Chance::from_seed(7);
    for _ in 0..25 {
        let c = description(&mut chance);
        let d = match chance.below(3) {
            0 => description(&mut chance),
            1 => missed(&mut chance, &c),
            _ => weaker(&mut chance, &c),
        };
        let (c, d) = (encode(&c), encode(&d));
        folder.put("c", &c).put("d", &d);
        let numbers = |marks: &[u8]| {
            let marked = (1..).zip(marks).filter(|(_, &mark)| mark == 1);
            let marked: Vec<String> = marked.map(|(number, _)| format!("{number}")).collect();
            marked.join(",")
        };
        let mut out = vec![0; decode(&d).len()];
        let lacks = reference::missing(&[], &c, &d, &mut out).unwrap();
        let ran = folder.gx(&[
            "missing", "c", "d", "--json", "-o", "addition", "--to", "blocks",
        ]);
        let against = lacks == Missing::NothingFitsBoth;
        assert_eq!(ran.status, i32::from(against));
        assert!(
            ran.text()
                .contains(&format!("\"missing\":[{}]}}", numbers(&out))),
            "{}",
            ran.text()
        );
        if lacks == Missing::ToBeAdded {
            let addition = gx::blocks::decode(&folder.get("addition"));
            let whole = gx::tree::joined(&gx::blocks::decode(&c), &addition);
            let compared = library::compare(Default::default(), &gx::blocks::encode(&whole), &d);
            assert_eq!(compared, Ok(Compared::Contained));
        }
    }
}
