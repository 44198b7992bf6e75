//! The entries that earn a yes.

use differential::chance::Chance;
use differential::derived::{missed, weaker};
use gx::library::{self, Compared};
use reference::{decode, encode};

use crate::support::{description, Folder, Ran};

fn is(ran: &Ran, status: i32, out: &str) {
    assert_eq!(
        (ran.status, ran.text().as_str(), ran.err.as_str()),
        (status, out, "")
    );
}

fn desk(name: &str) -> Folder {
    let folder = Folder::new(name);
    folder
        .put("c", "every link 1 [ has property 7; at least 3 link 2; lacks property 8 ]; at least 1 link 1")
        .put("d", "every link 1 [ at least 2 link 2; has property 7 ]")
        .put("e", "every link 1 [ at most 4 link 2 ]; has property 9");
    folder
}

const KEPT: &str = "\
contained; 3 of 5 entries earn it

  + 1  every link 1
  + 2      has property 7
  + 3      at least 3 link 2
    4      lacks property 8
    5  at least 1 link 1

One such set, of which none can be left out; leaving out was tried from the last.
";

#[test]
fn what_earns_a_yes() {
    let folder = desk("keep-keep");
    let ran = folder.gx(&["keep", "c", "d", "-o", "kept", "--html", "page"]);
    is(&ran, 0, KEPT);
    let due = "every link 1 [\n    has property 7\n    at least 3 link 2\n]\n";
    assert_eq!(String::from_utf8(folder.get("kept")).unwrap(), due);
    let page = String::from_utf8(folder.get("page")).unwrap();
    assert!(page.contains(" Contained</h1>"));
    assert_eq!(page.matches(">earns it</span>").count(), 3);
    let ran = folder.gx(&["keep", "c", "d", "--json"]);
    is(&ran, 0, "{\"answer\":\"contained\",\"earning\":[1,2,3]}\n");
    let ran = folder.gx(&["keep", "c", "d", "-o", "kept", "--to", "desk"]);
    assert_eq!(
        (ran.status, folder.get("kept")),
        (0, b"5,1 [1,7; 3,2,3]\n".to_vec())
    );
    let ran = folder.gx(&["keep", "c", "e", "--html", "page"]);
    let due = "not contained: no entry earns a yes\n\ngx compare tells why.\n";
    is(&ran, 1, due);
    // The page is that of the comparison.
    let page = folder.get("page");
    folder.gx(&["compare", "c", "e", "--html", "page"]);
    assert_eq!(folder.get("page"), page);
    // The comparison tells it too.
    let ran = folder.gx(&["compare", "c", "d"]);
    let due = "\nOf its 5 entries 3 earn it: 1, 2 and 3. One such set, of which none can be left out; leaving out was tried from the last.\n";
    assert!(ran.text().ends_with(due), "{}", ran.text());
}

/// Named entries are unfolded, pairs count, and many lines get an answer each.
#[test]
fn pairs_a_dictionary_and_folders() {
    let folder = Folder::new("keep-background");
    std::fs::create_dir(folder.path().join("services")).unwrap();
    folder
        .put("lab.pairs", "pairs: 7,8")
        .put("lab.dictionary", "dictionary: [1,7; 3,1,2]")
        .put("named", "9,1")
        .put("services/a.txt", "2,8")
        .put("services/b.txt", "3,1,1")
        .put("services/c.txt", "1,9");
    let with = ["--pairs", "lab.pairs", "--dictionary", "lab.dictionary"];
    let ran = folder.gx(&[&["keep", "named", "services"], &with[..]].concat());
    let due = "a.txt: contained; 1 of 2 entries earns it\nb.txt: contained; 1 of 2 entries earns it\nc.txt: not contained: no entry earns a yes\n";
    is(&ran, 1, due);
}

/// On a page of many entries the places of those that earn the yes are open, and runs of the others folded.
#[test]
fn a_page_of_many_entries() {
    let folder = Folder::new("keep-many");
    let owned: Vec<String> = (1..=60).map(|name| format!("1,{name}")).collect();
    folder
        .put("c", format!("5,1 [{0}]; 5,2 [{0}]", owned.join("; ")))
        .put("d", "5,1 [1,30]");
    let ran = folder.gx(&["keep", "c", "d", "--html", "page"]);
    assert_eq!(ran.status, 0, "{}", ran.err);
    let page = String::from_utf8(folder.get("page")).unwrap();
    assert_eq!(page.matches(">earns it</span>").count(), 2);
    assert!(page.contains("<li id=\"supplier-1\"><details open>"));
    assert!(page.contains("<li id=\"supplier-62\"><details>"));
    assert!(page.contains("29 entries of this place, 2 to 30<"));
}

/// Drawn ones, beside the reference, and what is written compared.
#[test]
fn as_the_reference() {
    let folder = Folder::new("keep-drawn");
    let mut chance = Chance::from_seed(7);
    let contained =
        |c: &[u8], d: &[u8]| library::compare(Default::default(), c, d) == Ok(Compared::Contained);
    for _ in 0..25 {
        let c = description(&mut chance);
        let d = match chance.below(3) {
            0 => description(&mut chance),
            1 => missed(&mut chance, &c),
            _ => weaker(&mut chance, &c),
        };
        let (c, d) = (encode(&c), encode(&d));
        folder.put("c", &c).put("d", &d);
        let numbers = |marks: &[u8]| {
            let marked = (1..).zip(marks).filter(|(_, &mark)| mark == 1);
            let marked: Vec<String> = marked.map(|(number, _)| format!("{number}")).collect();
            marked.join(",")
        };
        let mut out = vec![0; decode(&c).len()];
        let earns = reference::earning(&[], &c, &d, &mut out).unwrap();
        let ran = folder.gx(&["keep", "c", "d", "--json", "-o", "kept", "--to", "blocks"]);
        assert_eq!(ran.status, i32::from(!earns));
        assert!(
            ran.text()
                .contains(&format!("\"earning\":[{}]}}", numbers(&out))),
            "{}",
            ran.text()
        );
        if earns {
            assert!(contained(&folder.get("kept"), &d));
        }
    }
}

#[test]
fn one_entry() {
    let folder = Folder::new("keep-one");
    let full: Vec<String> = (1..=1008).map(|name| format!("1,{name}")).collect();
    folder.put("one", "1,7").put("full", full.join("; "));
    let ran = folder.gx(&["keep", "one", "one"]);
    assert!(ran.text().starts_with("contained; 1 of 1 entry earns it\n"));
    let ran = folder.gx(&["compare", "one", "one"]);
    assert!(ran.text().ends_with("\nIts one entry is needed for it.\n"));
    let ran = folder.gx(&["keep", "full", "full"]);
    let due = "contained; 1,008 of 1,008 entries earn it\n";
    assert!(ran.text().starts_with(due), "{}", ran.text());
}
