//! One supplier against many services: files, folders and lists, good, damaged, empty and huge, and what programs get.

use differential::chance::Chance;
use differential::derived::{missed, weaker};
use reference::notation::blocks;
use reference::{encode, Entry};

use crate::golden::is_golden;
use crate::support::{description, repository, Folder, Ran};

/// A supplier and a folder of services: two that contain it, one that does not.
fn desk(name: &str) -> Folder {
    let folder = Folder::new(name);
    std::fs::create_dir(folder.path().join("services")).unwrap();
    folder
        .put("supplier.txt", "1,7; 3,1,2; 4,1,5")
        .put("services/a.txt", "1,7")
        .put("services/b.blocks", blocks("4,1,4"))
        .put("services/c.txt", "3,1,1; 4,1,9")
        .put("services/.hidden", "1,7")
        .put("services/words.names", "link 1 \"sample\"");
    folder
}

/// Four services that cannot be asked about: a mistake in a text, a wrong check, no bytes, a kind that may not stand there.
fn with_bad_ones(folder: &Folder) {
    let mut wrong = blocks("1,7");
    wrong[510] ^= 1;
    folder
        .put("services/bad-1.txt", "hass property 7")
        .put("services/bad-2.blocks", wrong)
        .put("services/bad-3.blocks", "")
        .put("services/bad-4.txt", "1,7\n8,1");
}

fn is(ran: &Ran, status: i32, out: &str) {
    assert_eq!(
        (ran.status, ran.text().as_str(), ran.err.as_str()),
        (status, out, "")
    );
}

#[test]
fn a_line_for_each_service() {
    let folder = desk("catalogue-lines");
    let all = "a.txt: contained\nb.blocks: not contained\nc.txt: contained\n";
    is(
        &folder.gx(&["catalogue", "supplier.txt", "services"]),
        1,
        all,
    );
    let files = ["services/c.txt", "services/b.blocks", "services/a.txt"];
    let ran = folder.gx(&["catalogue", "supplier.txt", files[0], files[1], files[2]]);
    is(
        &ran,
        1,
        "c.txt: contained\nb.blocks: not contained\na.txt: contained\n",
    );
    let ran = folder.gx(&["catalogue", "supplier.txt", files[0], files[2]]);
    is(&ran, 0, "c.txt: contained\na.txt: contained\n");
    let ran = folder.gx(&["catalogue", "supplier.txt", files[1], "services"]);
    is(&ran, 1, &format!("b.blocks: not contained\n{all}"));
    is(
        &folder.gx(&["catalogue", "supplier.txt", files[1]]),
        1,
        "b.blocks: not contained\n",
    );
}

/// Services of which one does not contain the description.
#[test]
fn the_services_of_the_examples() {
    let path = |name: &str| repository(name).display().to_string();
    let (supplier, services) = (path("examples/supplier.blocks"), path("examples/services"));
    let ran = Folder::new("catalogue-examples").gx(&["catalogue", &supplier, &services]);
    let due = "\
few-cores.blocks: contained
sealed.blocks: not contained
with-core.blocks: contained
";
    is(&ran, 1, due);
}

/// One bad service stops none of the others.
#[test]
fn bad_services() {
    let folder = desk("catalogue-bad");
    with_bad_ones(&folder);
    let ran = folder.gx(&["catalogue", "supplier.txt", "services", "none.txt"]);
    assert_eq!((ran.status, ran.err.as_str()), (2, ""));
    let text = ran.text();
    let lines: Vec<&str> = text.lines().collect();
    assert_eq!(lines.len(), 8);
    assert_eq!(lines[0], "a.txt: contained");
    assert_eq!(lines[1], "b.blocks: not contained");
    assert!(lines[2].starts_with("bad-1.txt: mistake: line 1, column 1: expected an entry"));
    assert!(lines[3].starts_with("bad-2.blocks: refused 2: the first check of block 1 is wrong"));
    assert!(lines[4].starts_with("bad-3.blocks: refused 1: the input is empty"));
    assert!(lines[5].starts_with("bad-4.txt: refused 4: entry 2: its kind is 8"));
    assert_eq!(lines[6], "c.txt: contained");
    assert!(lines[7].starts_with("none.txt: cannot be read: "));
    // All are bad.
    let ran = folder.gx(&[
        "catalogue",
        "supplier.txt",
        "services/bad-1.txt",
        "none.txt",
    ]);
    assert_eq!((ran.status, ran.text().lines().count()), (2, 2));
}

#[test]
fn the_supplier_is_read_first() {
    let folder = desk("catalogue-supplier");
    with_bad_ones(&folder);
    for (supplier, words) in [
        ("bad-1.txt", "1:1: expected an entry"),
        ("bad-2.blocks", "refused 2: "),
        ("bad-3.blocks", "refused 1: the input is empty"),
    ] {
        let ran = folder.gx(&["catalogue", &format!("services/{supplier}"), "services"]);
        let due = match supplier {
            "bad-1.txt" => format!("services/{supplier}:{words}"),
            _ => format!("{supplier}: {words}"),
        };
        assert_eq!((ran.status, ran.err.as_str()), (2, ""));
        assert!(ran.text().starts_with(&due), "{}", ran.text());
    }
    let ran = folder.gx(&["catalogue", "none.txt", "services"]);
    assert_eq!((ran.status, ran.out.len()), (2, 0));
    assert!(ran.err.starts_with("gx: none.txt: cannot be read"));
    let ran = folder.gx(&["catalogue", "services/bad-3.blocks", "services", "--json"]);
    let due = "{\"answer\":\"refused\",\"refusal\":1,\"input\":1,\"place\":0,";
    assert!(ran.text().starts_with(due), "{}", ran.text());
}

/// A file of blocks with several numbered 1 is a list, where it is the only one.
#[test]
fn a_list_in_one_file() {
    let folder = desk("catalogue-list");
    let list = [
        blocks("1,7"),
        blocks("1,8"),
        encode(&[SEVEN; 70]),
        blocks(""),
    ]
    .concat();
    let lines = "\
list service 1: contained
list service 2: not contained
list service 3: contained
list service 4: contained
";
    folder.put("list", &list);
    is(&folder.gx(&["catalogue", "supplier.txt", "list"]), 1, lines);
    let ran = folder.gx_with(&["catalogue", "supplier.txt", "-"], &list);
    is(&ran, 1, &lines.replace("list ", "standard input "));
    let ran = folder.gx_with(&["catalogue", "-", "list"], &blocks("1,7"));
    is(&ran, 1, lines);
    // One service is a list too, and a text is one service.
    let ran = folder.gx_with(&["catalogue", "supplier.txt", "-"], &blocks("1,8"));
    is(&ran, 1, "standard input: not contained\n");
    let ran = folder.gx_with(&["catalogue", "supplier.txt", "-"], b"1,7");
    is(&ran, 0, "standard input: contained\n");
    // Beside others each file is one service.
    let ran = folder.gx(&["catalogue", "supplier.txt", "list", "services/a.txt"]);
    assert_eq!(ran.status, 2);
    assert!(ran.text().starts_with("list: refused 3: block 1: "));
    assert!(ran.text().ends_with("\na.txt: contained\n"));
}

const SEVEN: Entry = Entry {
    kind: 1,
    zero: 0,
    owner: 0,
    name: 7,
    number: 0,
};

#[test]
fn damaged_lists() {
    let folder = desk("catalogue-damaged");
    let list = [
        blocks("1,7"),
        blocks("1,7; 8,1"),
        vec![0xff; 512],
        blocks("1,8"),
    ]
    .concat();
    let ran = folder
        .put("list", &list)
        .gx(&["catalogue", "supplier.txt", "list"]);
    assert_eq!((ran.status, ran.err.as_str()), (2, ""));
    let text = ran.text();
    let lines: Vec<&str> = text.lines().collect();
    // The block of another number belongs to the service before it.
    assert_eq!(lines.len(), 3);
    assert_eq!(lines[0], "list service 1: contained");
    assert!(lines[1].starts_with("list service 2: refused 3: block 1: it says that 2 entries"));
    assert_eq!(lines[2], "list service 3: not contained");
    let many = blocks("1,7").repeat(65);
    is(
        &folder
            .put("list", &many)
            .gx(&["catalogue", "supplier.txt", "list"]),
        2,
        "list: refused 8: the list has 65 services, and the most is 64\n",
    );
    is(
        &folder.put("list", &many[..1100]).gx(&["catalogue", "supplier.txt", "list"]),
        2,
        "list: refused 1: the list has 1100 bytes, which is no multiple of 512: 2 whole blocks, and 76 bytes more\n",
    );
    let long = [encode(&vec![SEVEN; 1009]), blocks("1,7")].concat();
    is(
        &folder.put("list", &long).gx(&["catalogue", "supplier.txt", "list"]),
        2,
        "list service 1: refused 1: the input has 17 blocks, and a description has at most 16\nlist service 2: contained\n",
    );
}

#[test]
fn no_services() {
    let folder = desk("catalogue-none");
    std::fs::create_dir(folder.path().join("empty")).unwrap();
    let ran = folder.gx(&["catalogue", "supplier.txt", "empty"]);
    let due = "gx: empty: no input in this folder\n";
    assert_eq!((ran.status, ran.out.len(), ran.err.as_str()), (2, 0, due));
    folder.put("nothing", "");
    let ran = folder.gx(&["catalogue", "supplier.txt", "nothing"]);
    assert!(ran
        .text()
        .starts_with("nothing: refused 1: the input is empty"));
    assert_eq!(ran.status, 2);
}

/// More than 64 services take several calls; the n-th of a call is input 1 + n, also where one before it is bad.
#[test]
fn many_services() {
    let folder = Folder::new("catalogue-many");
    std::fs::create_dir(folder.path().join("services")).unwrap();
    folder.put("supplier.txt", "1,7");
    for number in 0..150 {
        let text = match number {
            2 | 65 | 140 => "1,7; 5,1 [1,0]",
            _ if number % 3 == 0 => "1,8",
            _ => "1,7",
        };
        folder.put(&format!("services/{number:03}.txt"), text);
    }
    let ran = folder.gx(&["catalogue", "supplier.txt", "services"]);
    let text = ran.text();
    let lines: Vec<&str> = text.lines().collect();
    assert_eq!((ran.status, lines.len()), (2, 150));
    for (number, line) in lines.iter().enumerate() {
        let due = match number {
            2 | 65 | 140 => "refused 4: entry 3: its name is 0",
            _ if number % 3 == 0 => "not contained",
            _ => "contained",
        };
        let due = format!("{number:03}.txt: {due}");
        assert!(line.starts_with(&due), "{line}");
    }
    let ran = folder.gx(&["catalogue", "supplier.txt", "services", "--json"]);
    let text = ran.text();
    let lines: Vec<&str> = text.lines().collect();
    for (number, input) in [(2, 4), (65, 3), (140, 14)] {
        let due = format!("\"refusal\":4,\"input\":{input},\"place\":3,");
        assert!(lines[number].contains(&due), "{}", lines[number]);
    }
}

#[test]
fn huge_services() {
    let folder = desk("catalogue-huge");
    folder
        .put("services/huge", vec![0u8; 9 << 20])
        .put("services/long.txt", "has property 7\n".repeat(9 << 16))
        .put("services/over.txt", "1,7\n".repeat(1009));
    let ran = folder.gx(&["catalogue", "supplier.txt", "services"]);
    let text = ran.text();
    let lines: Vec<&str> = text.lines().collect();
    assert_eq!((ran.status, lines.len()), (2, 6));
    assert!(lines[3].starts_with("huge: refused 1: the input has 16384 blocks or more"));
    assert_eq!(
        lines[4],
        "long.txt: cannot be read: the text is longer than 8 MiB"
    );
    assert!(lines[5].starts_with("over.txt: refused 1: the input has 17 blocks"));
    // 64 services of 1,008 entries each in one list.
    let list = encode(&vec![SEVEN; 1008]).repeat(64);
    let ran = folder
        .put("list", &list)
        .gx(&["catalogue", "supplier.txt", "list"]);
    assert_eq!((ran.status, ran.text().lines().count()), (0, 64));
    let ran = folder.gx(&["catalogue", "supplier.txt", "services/huge"]);
    assert_eq!(ran.status, 2);
    assert!(ran.text().starts_with("huge: refused 1: "));
}

#[test]
fn pairs_names_and_a_dictionary() {
    let folder = Folder::new("catalogue-background");
    folder
        .put(
            "lab.names",
            "property 7 \"clay\"\nproperty 8 \"sand\"\nlink 1 \"core\"\n",
        )
        .put("lab.pairs", "pairs: 7,8")
        .put(
            "lab.dictionary",
            "dictionary\ndescription 1 \"wet\" [ 2,8; 3,1,1 ]",
        )
        .put("supplier.txt", "has clay; named 1")
        .put("one.txt", "lacks sand")
        .put("two.txt", "at least 1 core; named wet")
        .put("three.txt", "at least 2 core")
        .put("clay.txt", "has property 7");
    let with = |more: &[&str]| {
        let services = ["one.txt", "two.txt", "three.txt"];
        folder.gx(&[&["catalogue"], more, &services, &["--names", "lab.names"]].concat())
    };
    let lines = "one.txt: contained\ntwo.txt: contained\nthree.txt: not contained\n";
    is(
        &with(&["supplier.txt", "--dictionary", "lab.dictionary"]),
        1,
        lines,
    );
    let pairs = with(&[
        "clay.txt",
        "--dictionary",
        "lab.dictionary",
        "--pairs",
        "lab.pairs",
    ]);
    let due = "one.txt: contained\ntwo.txt: not contained\nthree.txt: not contained\n";
    is(&pairs, 1, due);
    let without = with(&["clay.txt", "--dictionary", "lab.dictionary"]);
    is(&without, 1, &due.replacen("contained", "not contained", 1));
    // A name that is not known is a mistake of that text alone; one by its number is refused.
    let ran = with(&["clay.txt"]);
    assert_eq!(ran.status, 2);
    assert!(
        ran.text().contains("\ntwo.txt: mistake: "),
        "{}",
        ran.text()
    );
    assert!(ran.text().ends_with("\nthree.txt: not contained\n"));
    let ran = folder.gx(&[
        "catalogue",
        "supplier.txt",
        "clay.txt",
        "--names",
        "lab.names",
    ]);
    assert!(
        ran.text()
            .starts_with("supplier.txt: refused 13: entry 2: "),
        "{}",
        ran.text()
    );
    let ran = with(&["clay.txt", "--pairs", "lab.names"]);
    assert_eq!(ran.status, 2);
}

/// The answers are those of the comparisons, one by one.
#[test]
fn as_comparisons() {
    let folder = Folder::new("catalogue-compared");
    std::fs::create_dir(folder.path().join("services")).unwrap();
    for seed in 0..12 {
        let chance = &mut Chance::from_seed(seed);
        let c = description(chance);
        folder.put("supplier", encode(&c));
        for number in 0..6 {
            let d = match number % 3 {
                0 => weaker(chance, &c),
                1 => missed(chance, &c),
                _ => description(chance),
            };
            folder.put(&format!("services/{number}"), encode(&d));
        }
        let one_by_one = folder.gx(&["compare", "supplier", "services"]);
        // A no also says which entry fails.
        let said = |line: &str| line.split(", entry ").next().unwrap_or("").to_string();
        let due: Vec<String> = one_by_one.text().lines().map(said).collect();
        let ran = folder.gx(&["catalogue", "supplier", "services"]);
        let found: Vec<String> = ran.text().lines().map(String::from).collect();
        assert_eq!((ran.status, found), (one_by_one.status, due));
    }
}

#[test]
fn for_programs() {
    let folder = desk("catalogue-json");
    with_bad_ones(&folder);
    folder.put(
        "list",
        [blocks("1,7"), blocks("1,8"), blocks("1,7; 8,1")].concat(),
    );
    let mut out = folder
        .gx(&["catalogue", "supplier.txt", "services", "--json"])
        .out;
    let list = folder.gx(&["catalogue", "supplier.txt", "list", "--json"]);
    assert_eq!(list.status, 2);
    out.extend(list.out);
    is_golden("catalogue.json", &out);
}

#[test]
fn wrong_usage() {
    let folder = desk("catalogue-usage");
    for args in [
        &["catalogue"][..],
        &["catalogue", "supplier.txt"],
        &["catalogue", "-", "-"],
        &["catalogue", "supplier.txt", "services", "--svg", "page"],
        &["catalogue", "supplier.txt", "services", "--only", "refused"],
        &["catalogue", "supplier.txt", "services", "--from", "paper"],
    ] {
        let ran = folder.gx(args);
        assert_eq!((ran.status, ran.out.len()), (64, 0), "{args:?}");
    }
}
