//! Lists of services as text and as bytes: shown, written, checked and asked about.

use crate::support::{Folder, Ran};

const LIST: &str = "\
services
service 1 [
    every link 1 \"sample\" [
        at least 1 link 2 \"core\"
    ]
    has property 7 \"sealed\"
]
service 2 []
service 3 [
    lacks property 9
]
";
const DESK: &str = "services: [5,1 [3,2,1]; 1,7]; []; [2,9]\n";

fn is(ran: &Ran, status: i32, out: &str) {
    assert_eq!(
        (ran.status, ran.text().as_str(), ran.err.as_str()),
        (status, out, "")
    );
}

/// The list as text, and its bytes under two names, one of which tells what they are.
fn desk(name: &str) -> Folder {
    let folder = Folder::new(name);
    folder.put("list.txt", LIST);
    is(
        &folder.gx(&["write", "list.txt", "-o", "list.services"]),
        0,
        "",
    );
    let bytes = folder.get("list.services");
    assert_eq!(bytes.len(), 3 * 512);
    folder.put("list.blocks", bytes);
    folder
}

#[test]
fn a_list_is_shown_written_and_checked() {
    let folder = desk("services-shown");
    is(&folder.gx(&["show", "list.txt"]), 0, LIST);
    is(&folder.gx(&["show", "list.txt", "--to", "desk"]), 0, DESK);
    let words = "link 1 \"sample\"\nlink 2 \"core\"\nproperty 7 \"sealed\"\n";
    folder.put("n.names", words).put("desk", DESK);
    for args in [
        &["show", "list.services"][..],
        &["show", "list.blocks", "--sort", "services"],
        &["show", "desk"],
    ] {
        is(
            &folder.gx(&[args, &["--names", "n.names"]].concat()),
            0,
            LIST,
        );
    }
    let checked = "accepted: a list of 3 services\n";
    is(&folder.gx(&["check", "list.txt"]), 0, checked);
    is(&folder.gx(&["check", "list.services"]), 0, checked);
    is(
        &folder.gx(&["check", "list.blocks", "--sort", "services"]),
        0,
        checked,
    );
    let ran = folder.gx(&[
        "show",
        "list.blocks",
        "--sort",
        "services",
        "--to",
        "blocks",
    ]);
    assert_eq!((ran.status, ran.out), (0, folder.get("list.blocks")));
    // Without the word they are no description.
    assert_eq!(folder.gx(&["show", "list.blocks"]).status, 2);
    let numbers = folder.gx(&["show", "list.txt", "--numbers"]).text();
    assert!(
        numbers.contains("    #3 has property 7") && numbers.contains("    #1 lacks property 9")
    );
    folder.put("numbers", numbers);
    is(&folder.gx(&["show", "numbers"]), 0, LIST);
}

#[test]
fn a_catalogue_takes_a_list_as_text_and_as_bytes() {
    let folder = desk("services-catalogue");
    folder.put(
        "supplier",
        "every link 1 [at least 2 link 2]; has property 7",
    );
    for list in ["list.txt", "list.blocks", "list.services"] {
        let due = format!(
            "{list} service 1: contained\n{list} service 2: contained\n{list} service 3: not contained\n"
        );
        is(&folder.gx(&["catalogue", "supplier", list]), 1, &due);
        // With pages each of them is compared, and both answers have to be one.
        let ran = folder.gx(&["catalogue", "supplier", list, "--html", "pages"]);
        is(&ran, 1, &due);
    }
    // The words of the text hold, and its lines are told.
    let ran = folder.gx(&["catalogue", "supplier", "list.txt", "--why", "--json"]);
    let last = ran.text().lines().last().unwrap().to_string();
    assert!(
        last.contains("\"service\":3") && last.contains("\"line\":10"),
        "{last}"
    );
    folder.put("other", "has property 7 \"frozen\"");
    let ran = folder.gx(&["catalogue", "other", "list.txt"]);
    assert_eq!(ran.status, 2);
    assert!(ran.text().contains("frozen"), "{}", ran.text());
}

#[test]
fn what_is_refused_of_a_list_is_told() {
    let folder = Folder::new("services-refused");
    folder
        .put("supplier", "1,7")
        .put(
            "wrong",
            "services\nservice 1 [1,7]\nservice 2 [1,7; 1,0]\n[1,7]",
        )
        .put("empty", "services")
        .put("many", format!("services: {}", "[1,7]; ".repeat(65)))
        .put("cut.services", [0u8; 700]);
    let ran = folder.gx(&["check", "wrong"]);
    let due = "wrong: refused 4: service 2: entry 2: its name is 0, and kind 1 has 1 to 65,535 (line 3)\n";
    assert_eq!(ran.status, 2);
    assert!(ran.text().starts_with(due), "{}", ran.text());
    let json = folder.gx(&["check", "wrong", "--json"]).text();
    assert!(
        json.contains("\"refusal\":4,\"input\":3,\"place\":2,\"line\":3"),
        "{json}"
    );
    // Of a catalogue the others are answered.
    let ran = folder.gx(&["catalogue", "supplier", "wrong"]);
    let due = "wrong service 1: contained\nwrong service 2: refused 4: entry 2: its name is 0, and kind 1 has 1 to 65,535 (line 3)\n\
               wrong service 3: contained\n";
    is(&ran, 2, due);
    for (file, due) in [
        ("empty", "refused 1: there is no service"),
        (
            "many",
            "refused 8: the list has 65 services, and the most is 64",
        ),
        ("cut.services", "refused 1: the list has 700 bytes"),
    ] {
        for args in [&["check", file][..], &["show", file], &["write", file]] {
            let ran = folder.gx(args);
            assert_eq!(ran.status, 2);
            let told = ran.text() + &ran.err;
            assert!(told.contains(due), "{told}");
        }
    }
    let ran = folder.gx(&["catalogue", "supplier", "many"]);
    assert_eq!(ran.status, 2);
}

#[test]
fn a_service_may_name_what_the_dictionary_has() {
    let folder = Folder::new("services-named");
    folder
        .put("d.dictionary", "[1,7]")
        .put("list", "services\n[named 1]\n[9,2]\n")
        .put("supplier", "1,7");
    let with = ["--dictionary", "d.dictionary"];
    let ran = folder.gx(&[&["catalogue", "supplier", "list"][..], &with].concat());
    assert_eq!(ran.status, 2);
    assert!(
        ran.text()
            .starts_with("list service 1: contained\nlist service 2: refused 13"),
        "{}",
        ran.text()
    );
    let ran = folder.gx(&[&["check", "list"][..], &with].concat());
    assert!(
        ran.text()
            .starts_with("list: refused 13: service 2: entry 1"),
        "{}",
        ran.text()
    );
    // Shown without a dictionary, any of its 64 may be named; checked without one, none.
    assert_eq!(folder.gx(&["show", "list"]).status, 0);
    assert_eq!(folder.gx(&["check", "list"]).status, 2);
}
