//! Field sheets: what is one, what is not, and every entry that is outside.

use crate::support::{Folder, Ran};

fn is(ran: &Ran, status: i32, out: &str) {
    assert_eq!(
        (ran.status, ran.text().as_str(), ran.err.as_str()),
        (status, out, "")
    );
}

fn desk(name: &str) -> Folder {
    let folder = Folder::new(name);
    folder
        .put("farm.txt", "1,7; 3,1,99; 5,1 [5,2 [5,3 [4,4,0]]]")
        .put(
            "more.txt",
            "1,7; 2,8; 3,1,200; 5,1 [5,2 [5,3 [5,4 [1,7; 6]]]]",
        )
        .put("any.txt", "3,1,1")
        .put("lab.dictionary", "dictionary: [1,7]");
    folder
}

const OUTSIDE: &str = "more.txt: refused 19: entry 2: it is of kind 2, lacks, and a field sheet has kinds 1, 3, 4 and 5; \
    outside too are entries 3, 8 and 9 (line 1)\n\n";

#[test]
fn accepted_or_all_that_is_outside() {
    let folder = desk("sheets-check");
    let ran = folder.gx(&["check", "--sheet", "farm.txt"]);
    is(&ran, 0, "accepted: a field sheet of 6 entries in 1 block\n");
    let ran = folder.gx(&["check", "--sheet", "more.txt"]);
    assert_eq!(ran.status, 2);
    assert!(ran.text().starts_with(OUTSIDE), "{}", ran.text());
    assert!(ran
        .text()
        .contains("> entry 2, at the top: lacks property 8\n"));
    let ran = folder.gx(&["check", "--sheet", "--json", "more.txt"]);
    let due = "outside too are entries 3, 8 and 9\",\"outside\":[2,3,8,9]}\n";
    assert!(ran.text().ends_with(due), "{}", ran.text());
    is(
        &folder.gx(&["check", "more.txt"]),
        0,
        "accepted: a description of 9 entries in 1 block\n",
    );
    let ran = folder.gx(&["check", "--sheet", "--json", "farm.txt"]);
    is(
        &ran,
        0,
        "{\"answer\":\"accepted\",\"sort\":\"field sheet\",\"entries\":6,\"blocks\":1}\n",
    );
}

/// Each reason in words, alone at its entry.
#[test]
fn each_reason() {
    let folder = Folder::new("sheets-reasons");
    for (text, due) in [
        ("6", "entry 1: it is of kind 6, nothing fits, and a field sheet has kinds 1, 3, 4 and 5"),
        ("4,1,100", "entry 1: its number is 100, and the most in a field sheet is 99"),
        ("3,1,65535", "entry 1: its number is 65,535, and the most in a field sheet is 99"),
        ("5,1 [5,1 [5,1 [5,1 [1,7]]]]", "entry 5: it stands 4 deep, and the most in a field sheet is 3"),
        ("2,7; 2,8", "entry 1: it is of kind 2, lacks, and a field sheet has kinds 1, 3, 4 and 5; outside too is entry 2"),
    ] {
        let ran = folder.gx_with(&["check", "--sheet", "-"], text.as_bytes());
        let text = ran.text();
        let line = text.lines().next().unwrap();
        assert_eq!(ran.status, 2);
        assert_eq!(line, format!("standard input: refused 19: {due} (line 1)"));
    }
    let many = vec!["2,7"; 40].join(";");
    let ran = folder.gx_with(&["check", "--sheet", "-"], many.as_bytes());
    let due = "; outside too are entries 2 to 40 (line 1)\n";
    assert!(ran.text().contains(due), "{}", ran.text());
}

/// Where the full reader refuses an entry before, its refusal is told.
#[test]
fn other_refusals_first() {
    let folder = Folder::new("sheets-others");
    let ran = folder.gx_with(&["check", "--sheet", "-"], b"1,0; 2,7");
    assert!(ran
        .text()
        .starts_with("standard input: refused 4: entry 1: "));
    let ran = folder.gx_with(&["check", "--sheet", "-"], b"2,7; 1,0");
    assert!(ran
        .text()
        .starts_with("standard input: refused 19: entry 1: "));
    let ran = folder.gx_with(&["check", "--sheet", "-"], b"9,1");
    let due = "standard input: refused 4: entry 1: its kind is 9, which names a description, and a field sheet names none";
    assert!(ran.text().starts_with(due), "{}", ran.text());
    let ran = folder.gx_with(&["check", "--sheet", "--from", "blocks", "-"], b"");
    assert!(ran.text().starts_with("standard input: refused 1: "));
}

/// In a comparison the supplier's description is the sheet.
#[test]
fn in_other_commands() {
    let folder = desk("sheets-commands");
    let ran = folder.gx(&["compare", "--sheet", "farm.txt", "more.txt"]);
    assert!(ran.text().starts_with("not contained\n"));
    let ran = folder.gx(&["compare", "--sheet", "farm.txt", "any.txt"]);
    assert!(ran.text().starts_with("contained\n"));
    let ran = folder.gx(&["compare", "--sheet", "more.txt", "any.txt"]);
    assert_eq!((ran.status, ran.text().starts_with(OUTSIDE)), (2, true));
    let ran = folder.gx(&["normal", "--sheet", "farm.txt", "--to", "desk"]);
    is(&ran, 0, "1,7; 3,1,99; 5,1 [5,2 [5,3 [4,4,0]]]\n");
    let ran = folder.gx(&["normal", "--sheet", "more.txt"]);
    assert_eq!((ran.status, ran.out.len()), (2, 0));
    folder.put("sample.txt", "specimen\n1,7; 7,1,99");
    let ran = folder.gx(&["fit", "--sheet", "sample.txt", "any.txt"]);
    assert!(ran.text().starts_with("yes: "));
    let ran = folder.gx(&["fit", "--sheet", "sample.txt", "more.txt"]);
    assert_eq!((ran.status, ran.text().starts_with(OUTSIDE)), (2, true));
    // A dictionary may be given; a sheet names nothing of it.
    folder.put("named.txt", "9,1");
    let with = [
        "compare",
        "--dictionary",
        "lab.dictionary",
        "named.txt",
        "named.txt",
    ];
    assert_eq!(folder.gx(&with).status, 0);
    assert_eq!(folder.gx(&[&with[..], &["--sheet"]].concat()).status, 2);
    for args in [
        &["check", "--sheet", "--sort", "specimen", "farm.txt"][..],
        &["unfold", "--sheet", "farm.txt"],
        &["catalogue", "--sheet", "farm.txt", "any.txt"],
    ] {
        assert_eq!(folder.gx(args).status, 64, "{args:?}");
    }
}

/// A folder of them: a line for each.
#[test]
fn many() {
    let folder = desk("sheets-many");
    let ran = folder.gx(&["check", "--sheet", "farm.txt", "any.txt", "more.txt"]);
    let text = ran.text();
    let lines: Vec<&str> = text.lines().collect();
    assert_eq!((ran.status, lines.len()), (2, 3));
    assert_eq!(
        lines[0],
        "farm.txt: accepted: a field sheet of 6 entries in 1 block"
    );
    assert!(lines[2].starts_with("more.txt: refused 19: entry 2: "));
}
