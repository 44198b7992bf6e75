//! Delivered records: as text, as a table and as blocks, which items fit, and the path to what breaks a no.

use differential::chance::Chance;
use reference::{encode, Entry};

use crate::support::{description, Folder, Ran};

const RECORD: &str = "\
record of 5 items
item 1 link 1 \"sample\" item 2
item 1 link 1 \"sample\" item 3
item 2 has property 7 \"sealed\"
item 3 link 2 \"core\" item 4
item 3 link 2 \"core\" item 5
item 5 link 1 \"sample\" item 1
";

fn is(ran: &Ran, status: i32, out: &str) {
    assert_eq!(
        (ran.status, ran.text().as_str(), ran.err.as_str()),
        (status, out, "")
    );
}

fn desk(name: &str) -> Folder {
    let folder = Folder::new(name);
    folder
        .put(
            "names",
            "link 1 \"sample\" \"samples\"\nlink 2 \"core\" \"cores\"\nproperty 7 \"sealed\"\n",
        )
        .put("r", RECORD)
        .put(
            "d",
            "every sample [ at most 1 core ]\nevery sample [ every sample [ has sealed ] ]",
        );
    folder
}

const TOLD: &str = "\
3 of 5 items fit

item 1: does not fit, entry 2 (line 1): of every sample, at most 1 core
    item 1, sample: item 3: 2 cores, not at most 1
item 2: fits
item 3: fits
item 4: fits
item 5: does not fit, entry 5 (line 2): every sample of every sample has property sealed
    item 5, sample: item 1, sample: item 3: lacks property sealed
";

#[test]
fn each_item() {
    let folder = desk("delivered-items");
    is(
        &folder.gx(&["delivered", "r", "d", "--names", "names"]),
        1,
        TOLD,
    );
    let ran = folder.gx_with(
        &["delivered", "r", "-", "--names", "names"],
        b"at most 2 sample",
    );
    is(
        &ran,
        0,
        "all 5 items fit\n\nitem 1: fits\nitem 2: fits\nitem 3: fits\nitem 4: fits\nitem 5: fits\n",
    );
    let ran = folder.gx(&["delivered", "r", "d", "--names", "names", "--json"]);
    let due = "{\"answer\":\"no\",\"items\":[{\"item\":1,\"answer\":\"no\",\"entry\":2,\"asks\":\"of every sample, at most 1 core\",\"path\":[1,3],\
         \"shows\":\"2 cores, not at most 1\"},{\"item\":2,\"answer\":\"yes\"},";
    assert!(ran.text().starts_with(due), "{}", ran.text());
    let ran = folder.gx(&["delivered", "r", "d", "--names", "names", "--html", "page"]);
    assert_eq!(ran.status, 1);
    let page = String::from_utf8(folder.get("page")).unwrap();
    for due in [
        "3 of 5 fit</h1>",
        "<a href=\"#item-5\">item 5</a>",
        "id=\"item-5\"",
        "sample: item 3",
        "✕ lacks property sealed",
    ] {
        assert!(page.contains(due), "{due}: {page}");
    }
}

/// On the page many items that fit one after the other have a row together.
#[test]
fn many_that_fit() {
    let folder = Folder::new("delivered-many");
    let record = "record of 256 items\nitem 100 has property 7\nitem 103 has property 7";
    folder.put("r", record).put("d", "lacks property 7");
    let ran = folder.gx(&["delivered", "r", "d", "--html", "page"]);
    assert_eq!(ran.status, 1);
    assert!(ran.text().contains("\nitem 256: fits\n"));
    let page = String::from_utf8(folder.get("page")).unwrap();
    for due in [
        "<td>items 1 to 99</td><td>fit</td>",
        "<td>item 101</td><td>fits</td>",
        "<td>item 102</td><td>fits</td>",
        "<td>items 104 to 256</td><td>fit</td>",
        "<a href=\"#item-103\">item 103</a>",
    ] {
        assert!(page.contains(due), "{due}");
    }
    assert_eq!(page.matches("<tr class=").count(), 6);
}

/// Each form is read, and text and blocks are written.
#[test]
fn forms() {
    let folder = desk("delivered-forms");
    is(&folder.gx(&["show", "r"]), 0, RECORD);
    is(
        &folder.gx(&["check", "r"]),
        0,
        "accepted: a record of 5 items, 6 entries in 1 block\n",
    );
    let ran = folder.gx(&["write", "r", "-o", "blocks"]);
    assert_eq!((ran.status, folder.get("blocks").len()), (0, 512));
    let ran = folder.gx(&[
        "show", "blocks", "--sort", "record", "--items", "5", "--names", "names",
    ]);
    is(&ran, 0, RECORD);
    let ran = folder.gx(&["delivered", "blocks", "d", "--names", "names"]);
    assert_eq!((ran.status, ran.err.contains("--items N does")), (2, true));
    let table = "item,says,name,to\n1,link,sample,2\n1,link,1,3\n2,has,\"sealed\",\n3,link,core,4\n3,link,2,5\n5,link,1,1\n";
    let ran = folder
        .put("table.csv", table)
        .gx(&["show", "table.csv", "--names", "names"]);
    is(&ran, 0, RECORD);
    let ran = folder.gx(&["show", "r", "--json"]);
    assert!(ran.text().starts_with("{\"answer\":\"accepted\",\"sort\":\"record\",\"items\":5,\"said\":[{\"item\":1,\"kind\":8,\"name\":1,\"to\":2},"));
}

#[test]
fn refused_and_mistaken() {
    let folder = Folder::new("delivered-refused");
    folder.put("list.pairs", "pairs: 7,8");
    for (text, due) in [
        ("record of 0 items", "refused 10: it has 0 items, and a record has 1 to 256"),
        ("record of 257 items", "refused 10: it has 257 items, and a record has 1 to 256"),
        ("record of 2 items\nitem 3 has property 7", "refused 10: entry 1: it speaks of item 3, and the record has items 1 to 2 (line 2)"),
        ("record of 2 items\nitem 1 link 1 item 0", "refused 10: entry 1: it links to item 0, and the record has items 1 to 2 (line 2)"),
        ("record of 1 item\nitem 1 has property 0", "refused 4: entry 1: its name is 0, and properties and links are 1 to 65,535 (line 2)"),
        ("record of 2 items\nitem 1 link 40000 item 1\nitem 1 link 40000 item 2", "refused 9: entry 2: it brings item 1 a second item by link 40000, which leads to one item only (line 3)"),
        ("record of 1 item\nitem 1 has property 7\nitem 1 has property 8", "refused 12: entry 2: item 1 has a property that excludes property 8 (line 3)"),
    ] {
        let ran = folder.gx_with(&["check", "-", "--pairs", "list.pairs"], text.as_bytes());
        assert_eq!(ran.status, 2, "{text}");
        let told = ran.text();
        assert_eq!(told.lines().next().unwrap(), format!("standard input: {due}"));
    }
    for (text, due) in [
        ("record of 2 item", "expected 'items'"),
        (
            "at least 1 sample",
            "expected a record (record of 3 items), or a table headed item,says,name,to, found 'at'",
        ),
        (
            "record of 2 items\n1 has property 7",
            "expected what is said of an item",
        ),
        ("record of 2 items\nitem 1 link 1 2", "found '2'"),
        (
            "item,says,name,to\n1,has,7",
            "expected four cells: item, says, name, to, found 3 cells",
        ),
        (
            "item,says,name,to\n1,owns,7,",
            "expected 'has' or 'link', found 'owns'",
        ),
    ] {
        let ran = folder.gx_with(&["check", "-", "--sort", "record"], text.as_bytes());
        assert!(
            ran.status == 2 && ran.text().contains(due),
            "{text}: {}",
            ran.text()
        );
    }
}

/// Blocks of which it is said how many items they have are a record's, and so are those of a file that ends so.
#[test]
fn in_blocks() {
    let folder = Folder::new("delivered-blocks");
    folder.put("r.txt", "record of 6 items\nitem 1 link 1 item 6");
    folder.gx(&["write", "r.txt", "-o", "r.blocks"]);
    folder.put("r.record", folder.get("r.blocks"));
    let due = "accepted: a record of 6 items, 1 entry in 1 block\n";
    for file in ["r.blocks", "r.record"] {
        is(&folder.gx(&["check", file, "--items", "6"]), 0, due);
        let shown = folder.gx(&["show", file, "--items", "6"]);
        is(&shown, 0, "record of 6 items\nitem 1 link 1 item 6\n");
        let written = folder.gx(&["write", file, "--items", "6"]);
        assert_eq!((written.status, &written.out), (0, &folder.get("r.blocks")));
    }
    let ran = folder.gx(&["check", "r.record"]);
    assert!(ran.err.contains("--items N does"), "{}", ran.err);
    assert!(folder.gx(&["--help"]).text().contains(".record"));
}

/// A drawn record of so many items.
fn drawn(chance: &mut Chance, items: usize) -> Vec<Entry> {
    let count = 1 + chance.below(40);
    let item = |chance: &mut Chance| 1 + chance.below(items) as u16;
    let one = |chance: &mut Chance| {
        let owner = item(chance);
        let name = 1 + chance.below(3) as u16;
        match chance.once_in(2) {
            true => reference::notation::entry(1, owner, name, 0),
            false => reference::notation::entry(8, owner, name, item(chance)),
        }
    };
    (0..count).map(|_| one(chance)).collect()
}

/// Which items fit is the reference's answer, and each path leads along links of the record to an item that breaks the entry.
#[test]
fn as_the_reference() {
    let folder = Folder::new("delivered-drawn");
    let mut chance = Chance::from_seed(9);
    let mut some = 0;
    for _ in 0..40 {
        let items = 1 + chance.below(12);
        let record = encode(&drawn(&mut chance, items));
        let d = encode(&description(&mut chance));
        let mut out = vec![0; items];
        reference::fit_all(&[], &[], items, &record, &d, &mut out).unwrap();
        folder.put("r", &record).put("d", &d);
        let ran = folder.gx(&["delivered", "r", "d", "--items", &items.to_string()]);
        let text = ran.text();
        for (item, fits) in (1..).zip(&out) {
            let line = text
                .lines()
                .find(|line| line.starts_with(&format!("item {item}: ")))
                .unwrap();
            assert_eq!(line.ends_with(": fits"), *fits == 1, "{text}");
            some += usize::from(*fits);
        }
        let all = out.iter().all(|&byte| byte == 1);
        assert_eq!(ran.status, i32::from(!all));
    }
    assert!(some > 10);
}
