//! What each command prints and how it ends, on good, damaged, empty and huge inputs.

use gx::blocks::encode;

use crate::support::{ours, repository, Folder};

const NAMES: &str = "link 1 \"sample\" \"samples\"\nlink 2 \"core\" \"cores\"\nlink 3 \"layer\" \"layers\"\nlink 32768 \"field\" \"fields\"\nproperty 7 \"sealed\"\n";
const SUPPLIER: &str = "at least 1 sample\nevery sample [\n    at least 1 layer\n]\n";
const SERVICE: &str = "every sample [\n    at most 1 layer\n    has sealed\n]\n";

fn blocks(desk: &str) -> Vec<u8> {
    encode(&ours(&reference::notation::entries(desk)))
}

fn desk(name: &str) -> Folder {
    let folder = Folder::new(name);
    folder
        .put("names", NAMES)
        .put("supplier", SUPPLIER)
        .put("service", SERVICE);
    folder
}

#[test]
fn compare_explains_a_no() {
    let ran = desk("compare").gx(&["compare", "supplier", "service", "--names", "names"]);
    let due = "\
not contained

Entry 2 of the service's description (line 2) fails:
    of every sample, at most 1 layer
The supplier's description says there:
    of every sample, at least 1 layer, and no at most - its entry 3 (line 3)

The entry in the service's description:
    1  every link 1 \"sample\"
  > 2      at most 1 link 3 \"layer\"
    3      has property 7 \"sealed\"

A specimen that fits the supplier's description and not the service's:
    the top item has
        1 sample, which has
            2 layers    <-- 2 layers, not at most 1
";
    assert_eq!(
        (ran.status, ran.text().as_str(), ran.err.as_str()),
        (1, due, "")
    );
}

#[test]
fn compare_for_programs() {
    let folder = desk("compare-json");
    let ran = folder.gx(&[
        "compare", "supplier", "service", "--names", "names", "--json",
    ]);
    let due = "{\"answer\":\"not contained\",\"entry\":2,\"line\":2,\"owners\":[1],\"links\":[1],\
        \"asks\":\"of every sample, at most 1 layer\",\"supplier\":\"of every sample, at least 1 layer, and no at most\",\
        \"supplier_entries\":[3],\"shows\":\"2 layers, not at most 1\",\"specimen_entries\":2,\
        \"specimen\":[{\"entry\":1,\"kind\":7,\"owner\":0,\"link\":1,\"word\":\"sample\",\"count\":1},\
        {\"entry\":2,\"kind\":7,\"owner\":1,\"link\":3,\"word\":\"layer\",\"count\":2}]}\n";
    assert_eq!((ran.status, ran.text().as_str()), (1, due));
}

/// Two descriptions, and parts of what is asked, said and shown.
const SENTENCES: &[(&str, &str, &str, &str, &str)] = &[
    (
        "description",
        "has sealed",
        "the top item has property sealed",
        "nothing about property sealed",
        "without property sealed",
    ),
    (
        "lacks sealed",
        "has sealed",
        "the top item has property sealed",
        "the top item lacks property sealed",
        "without property sealed",
    ),
    (
        "has property 9",
        "lacks sealed",
        "the top item lacks property sealed",
        "nothing about property sealed",
        "with property sealed",
    ),
    (
        "at least 1 core",
        "at least 3 core",
        "of the top item, at least 3 cores",
        "at least 1 core",
        "1 core, not at least 3",
    ),
    (
        "at most 4 core",
        "at least 3 core",
        "of the top item, at least 3 cores",
        "at most 4 cores, and no at least",
        "no core, not at least 3",
    ),
    (
        "at most 4 core",
        "at most 3 core",
        "of the top item, at most 3 cores",
        "at most 4 cores",
        "4 cores, not at most 3",
    ),
    (
        "description",
        "nothing fits",
        "of the top item, nothing fits",
        "nothing that shuts out all items",
        "no item may be here",
    ),
    (
        "has property 9",
        "every core [ every sample [ has sealed ] ]",
        "every sample of every core has property sealed",
        "nothing about every sample of every core",
        "without property sealed",
    ),
    (
        "description",
        "at most 65535 link 4",
        "at most 65,535 items by link 4",
        "nothing about items by link 4",
        "65,536 items by link 4, not at most 65,535",
    ),
    // Links that lead to one item only.
    (
        "at least 1 field",
        "at least 2 field",
        "of the top item, at least 2 fields",
        "at least 1 field; at least 2 is impossible, since link 32768 leads to one item only",
        "1 field, not at least 2",
    ),
    (
        "at most 3 field",
        "at most 0 field",
        "of the top item, at most 0 fields",
        "nothing about fields; its at most says nothing, since link 32768 leads to one item only",
        "1 field, not at most 0",
    ),
    (
        "has property 9; at least 1 field; at most 1 field",
        "at most 1 field; at most 0 field",
        "of the top item, at most 0 fields",
        "at least 1 field, and no at most; its at most says nothing, since link 32768 leads to one item only",
        "1 field, not at most 0",
    ),
    (
        "at least 1 field",
        "at most 0 field",
        "of the top item, at most 0 fields",
        "of the top item, at least 1 field, and no at most\"",
        "1 field, not at most 0",
    ),
];

#[test]
fn the_sentences_for_each_kind() {
    let folder = Folder::new("kinds");
    folder.put("names", NAMES);
    for &(c, d, asks, says, shows) in SENTENCES {
        let ran = folder
            .put("c", c)
            .put("d", d)
            .gx(&["compare", "c", "d", "--names", "names", "--json"]);
        for part in [asks, says, shows] {
            assert!(
                ran.text().contains(part),
                "{c} | {d}: {part}: {}",
                ran.text()
            );
        }
        assert_eq!(ran.status, 1);
    }
}

#[test]
fn compare_says_yes() {
    let folder = desk("contained");
    let ran = folder
        .put("wide", "every sample [ at least 0 core ]")
        .gx(&["compare", "supplier", "wide", "--names", "names"]);
    assert_eq!(ran.status, 0);
    assert!(ran.text().starts_with("contained\n"));
}

#[test]
fn links_that_lead_to_one_item_only() {
    let folder = desk("single");
    folder
        .put("met", "every sample [ at most 1 field; at most 7 field ]")
        .put("impossible", "at least 2 field")
        .put("below", "every sample [ at least 2 field ]; has sealed")
        .put("nothing", "nothing fits");
    for (c, d) in [
        ("supplier", "met"),
        ("impossible", "nothing"),
        ("met", "met"),
    ] {
        let ran = folder.gx(&["compare", c, d, "--names", "names"]);
        assert_eq!(ran.status, 0, "{c} {d}: {}", ran.text());
    }
    for (d, normal) in [
        ("met", "description\n"),
        ("impossible", "nothing fits\n"),
        (
            "below",
            "has property 7 \"sealed\"\nat most 0 link 1 \"sample\"\n",
        ),
    ] {
        let ran = folder.gx(&["normal", d, "--names", "names"]);
        assert_eq!((ran.status, ran.text().as_str()), (0, normal));
    }
}

#[test]
fn fit_answers() {
    let folder = desk("fit");
    folder.put(
        "good",
        "specimen\ngroup of 1 sample [ has sealed; group of 1 layer; group of 1 field ]",
    );
    folder.put(
        "bad",
        "group of 1 sample [ has sealed; group of 1 layer; group of 1 layer ]",
    );
    let ran = folder.gx(&["fit", "good", "service", "--names", "names"]);
    assert_eq!(
        (ran.status, ran.text().as_str()),
        (
            0,
            "yes: the top item of the specimen fits the description\n"
        )
    );
    let ran = folder.gx(&["fit", "bad", "service", "--names", "names"]);
    let due = "no: the specimen does not meet entry 2 of the description: of every sample, at most 1 layer\n\n    \
               asked by entry 2 (line 2)\n    the item that fails: entry 1 of the specimen (line 1)\n    1 sample, which has 2 layers, not at most 1\n";
    assert_eq!((ran.status, ran.text().as_str()), (1, due));
    let ran = folder.gx(&["fit", "service", "good", "--names", "names"]);
    assert_eq!(ran.status, 2);
    assert!(
        ran.text().contains(
            "refused 4: entry 1: its kind is 5, and a specimen has kinds 1 and 7 (line 1)"
        ),
        "{}",
        ran.text()
    );
}

#[test]
fn show_and_write_and_normal() {
    let folder = Folder::new("show");
    let bytes = blocks("5,1 [5,2 [6]; 3,2,1]");
    folder.put("d", &bytes);
    let ran = folder.gx(&["show", "d"]);
    let due = "every link 1 [\n    every link 2 [\n        nothing fits\n    ]\n    at least 1 link 2\n]\n";
    assert_eq!((ran.status, ran.text().as_str()), (0, due));
    let ran = folder.gx(&["show", "d", "--to", "desk"]);
    assert_eq!(ran.text(), "5,1 [5,2 [6]; 3,2,1]\n");
    let ran = folder.gx_with(&["write"], due.as_bytes());
    assert_eq!((ran.status, &ran.out), (0, &bytes));
    let ran = folder.gx(&["normal", "d"]);
    assert_eq!((ran.status, ran.text().as_str()), (0, "at most 0 link 1\n"));
    let ran = folder.gx(&["normal", "-", "--to=desk"]);
    assert_eq!(ran.status, 2);
    let ran = folder.gx(&["show", "d", "--json"]);
    let begin = "{\"answer\":\"accepted\",\"sort\":\"description\",\"entries\":[{\"entry\":1,\"kind\":5,\"owner\":0,\"link\":1,\"word\":null},";
    assert!(ran.text().starts_with(begin), "{}", ran.text());
    let ran = folder.gx(&["write", "d", "--out", "again"]);
    assert_eq!(
        (ran.status, ran.out.len(), folder.get("again")),
        (0, 0, bytes)
    );
}

#[test]
fn the_shipped_examples_work() {
    let folder = Folder::new("shipped");
    let path = |name: &str| repository(name).display().to_string();
    let (c, d, names) = (
        path("examples/supplier.txt"),
        path("examples/service.txt"),
        path("examples/laboratory.names"),
    );
    let ran = folder.gx(&["compare", &c, &d, "--names", &names]);
    assert_eq!(ran.status, 1);
    assert!(ran.text().contains("of every sample, at most 2 cores"));
    let ran = folder.gx(&["show", &path("examples/supplier.blocks"), "--to", "desk"]);
    assert_eq!(ran.text(), "5,1 [3,2,1; 4,2,1]\n");
}

/// Three entries with an edit of their bytes, and the checks that are right for it.
fn sealed(edit: impl Fn(&mut Vec<u8>)) -> Vec<u8> {
    let mut bytes = blocks("5,1 [3,2,1; 4,2,1]");
    edit(&mut bytes);
    differential::damage::seal(&mut bytes);
    bytes
}

/// These bytes are refused with these words, on standard output.
fn are_refused(folder: &Folder, bytes: &[u8], words: &str) {
    let ran = folder.put("d", bytes).gx(&["check", "d"]);
    assert!(ran.text().contains(words), "{words}: {}", ran.text());
    assert_eq!((ran.status, ran.err.as_str()), (2, ""));
}

#[test]
fn check_tells_refusals_of_blocks_in_words() {
    let folder = Folder::new("refused-blocks");
    let mut wrong_first = blocks("1,7");
    wrong_first[510] ^= 1;
    let mut wrong_second = blocks("1,7");
    wrong_second[508] ^= 1;
    let both_wrong = wrong_second.clone();
    differential::damage::seal_first(&mut wrong_second);
    let mut exchanged = blocks("5,1 [3,2,1; 4,2,1]");
    differential::exchange::exchange(&mut exchanged, 2, 3);
    let long: Vec<u8> = blocks(&"2,7;".repeat(1009));
    for (bytes, words) in [
        (vec![], "refused 1: the input is empty: it has 0 bytes"),
        (blocks("1,7")[..500].to_vec(), "refused 1: the input has 500 bytes, which is no multiple of 512: 0 whole blocks, and 500 bytes more"),
        ([blocks("1,7"), vec![0]].concat(), "513 bytes, which is no multiple of 512: 1 whole block, and 1 byte more"),
        (long, "refused 1: the input has 17 blocks, and a description has at most 16"),
        (b"\xff\xfe1\0,\x007\0".to_vec(), "looks like a text in UTF-16"),
        (wrong_first, "refused 2: the first check of block 1 is wrong: it says 50, and the words before it add up to 51\n"),
        (wrong_second, "refused 2: the second check of block 1 is wrong: it says 40, and the words before it, each times its number, add up to 41\n"),
        (both_wrong, "refused 2: the first check of block 1 is wrong: it says 51, and the words before it add up to 50; the second check of block 1 is wrong: it says 40, "),
        (exchanged, "refused 2: the second check of block 1 is wrong: it says 180, and the words before it, each times its number, add up to 176\n"),
        (sealed(|b| b[0] = 2), "refused 3: block 1: its number says 2"),
        (sealed(|b| b[2] = 64), "refused 3: block 1: it says that 64 entries are used, and a block uses 0 to 63"),
        (sealed(|b| b[507] = 9), "refused 3: block 1: byte 507 is due to be zero and is 9"),
        (sealed(|b| b[30] = 1), "refused 3: block 1: byte 30 is due to be zero and is 1"),
    ] {
        are_refused(&folder, &bytes, words);
    }
}

#[test]
fn check_tells_refusals_of_entries_in_words() {
    let folder = Folder::new("refused-entries");
    let deep = blocks(&format!("{}1,7{}", "5,1 [".repeat(33), "]".repeat(33)));
    for (bytes, words) in [
        (
            sealed(|b| b[12] = 8),
            "refused 4: entry 2: its kind is 8, and a description has kinds 1 to 6",
        ),
        (
            sealed(|b| b[12] = 9),
            "refused 4: entry 2: its kind is 9, which names a description, and no dictionary is given",
        ),
        (
            sealed(|b| b[13] = 1),
            "refused 4: entry 2: its byte 1 is 1, and it is due to be zero",
        ),
        (
            sealed(|b| b[16] = 0),
            "refused 4: entry 2: its name is 0, and kind 3 has 1 to 65,535",
        ),
        (
            sealed(|b| b[10] = 1),
            "refused 4: entry 1: its number is 1, and kind 5 has 0",
        ),
        (
            sealed(|b| b[12] = 6),
            "refused 4: entry 2: its name is 2, and kind 6 has 0",
        ),
        (
            sealed(|b| b[14] = 2),
            "refused 5: entry 2: its owner is entry 2, itself",
        ),
        (
            sealed(|b| b[14] = 3),
            "refused 5: entry 2: its owner is entry 3, a later entry",
        ),
        (
            sealed(|b| b[14] = 9),
            "refused 5: entry 2: its owner is entry 9, and there is no such entry",
        ),
        (
            sealed(|b| b[22] = 2),
            "refused 5: entry 3: its owner is entry 2 of kind 3, and an owner is of kind 5 (every)",
        ),
        (
            deep,
            "refused 6: entry 34: it stands 33 deep, and the most is 32",
        ),
    ] {
        are_refused(&folder, &bytes, words);
    }
}

#[test]
fn check_tells_second_items_in_words() {
    let folder = Folder::new("refused-items");
    for (specimen, words) in [
        (
            "7,1; 7,32768,1",
            "refused 9: entry 2: it is a group of 2 items by link 32768, which leads to one item only",
        ),
        (
            "7,65535,65535",
            "refused 9: entry 1: it is a group of 65,536 items by link 65535, which leads to one item only",
        ),
        (
            "1,7; 7,32768; 7,32769; 7,32768",
            "refused 9: entry 4: it brings the top item a second item by link 32768, which leads to one item only; entry 2 is the first",
        ),
        (
            "7,40000; 7,1,3 [7,40000 [1,7]; 7,40000]",
            "refused 9: entry 5: it brings its owner, entry 2, a second item by link 40000, which leads to one item only; entry 3 is the first",
        ),
    ] {
        are_refused(&folder, &blocks(specimen), words);
    }
    folder.put("s", "group of 1 link 32768\ngroup of 1 link 32768\n");
    let ran = folder.put("d", "1,7").gx(&["fit", "s", "d"]);
    let due = "s: refused 9: entry 2: it brings the top item a second item by link 32768, which leads to one item only; entry 1 is the first (line 2)

  entry 1, at the top: group of 1 link 32768
> entry 2, at the top: group of 1 link 32768

  entry 2 is in block 1, bytes 12 to 19: 07 00 00 00 00 80 00 00
";
    assert_eq!((ran.status, ran.text().as_str()), (2, due));
    let ran = folder.gx(&["fit", "s", "d", "--json"]);
    let begin = "{\"answer\":\"refused\",\"refusal\":9,\"input\":1,\"place\":2,\"line\":2,";
    assert!(ran.text().starts_with(begin), "{}", ran.text());
}

#[test]
fn check_shows_the_surroundings() {
    let folder = Folder::new("surroundings");
    let mut bytes = blocks("5,1 [3,2,1; 4,2,1; 1,7]; 6");
    bytes[22] = 2;
    differential::damage::seal(&mut bytes);
    let ran = folder.put("d", &bytes).gx(&["check", "d"]);
    let due = "\
d: refused 5: entry 3: its owner is entry 2 of kind 3, and an owner is of kind 5 (every)

  entry 1, at the top: every link 1
  entry 2, owner 1: at least 1 link 2
> entry 3, owner 2: at most 1 link 2
  entry 4, owner 1: has property 7
  entry 5, at the top: nothing fits

  entry 3 is in block 1, bytes 20 to 27: 04 00 02 00 02 00 01 00
";
    assert_eq!(ran.text(), due);
    let mut bytes = blocks(&"1,7;".repeat(64));
    bytes[512] = 7;
    let ran = folder.put("d", &bytes).gx(&["check", "d"]);
    assert!(
        ran.text()
            .contains("> block 2 of 2 (bytes 512 to 1023): number 7, used 1, first check 53, sum 58, second check 42, sum 47\n"),
        "{}",
        ran.text()
    );
    let ran = folder.put("d", "1,7\n1,0\n").gx(&["check", "d"]);
    assert!(
        ran.text().starts_with(
            "d: refused 4: entry 2: its name is 0, and kind 1 has 1 to 65,535 (line 2)\n"
        ),
        "{}",
        ran.text()
    );
}

#[test]
fn refusals_go_where_answers_do_not() {
    let folder = Folder::new("channels");
    folder
        .put("empty", "")
        .put("bad", "hass property 7")
        .put("good", "1,7");
    for args in [
        vec!["show", "empty"],
        vec!["write", "empty"],
        vec!["normal", "empty"],
        vec!["owl", "good", "empty"],
        vec!["from-owl", "empty"],
    ] {
        let ran = folder.gx(&args);
        assert_eq!((ran.status, ran.out.len()), (2, 0), "{args:?}");
        assert!(ran.err.starts_with("gx: empty:"), "{}", ran.err);
    }
    for args in [
        vec!["check", "empty"],
        vec!["fit", "empty", "good"],
        vec!["compare", "good", "empty"],
    ] {
        let ran = folder.gx(&args);
        assert_eq!((ran.status, ran.err.as_str()), (2, ""), "{args:?}");
        assert!(ran.text().contains("refused 1"), "{}", ran.text());
    }
}

#[test]
fn mistakes_and_missing_files_are_told() {
    let folder = Folder::new("mistakes");
    folder
        .put("empty", "")
        .put("bad", "hass property 7")
        .put("good", "1,7");
    let ran = folder.gx(&["compare", "good", "bad"]);
    let due = "bad:1:1: expected an entry (has, lacks, at least, at most, every, nothing fits, named, group, or kind,name,number), found 'hass'; did you mean 'has'?\n  hass property 7\n  ^\n";
    assert_eq!((ran.status, ran.text().as_str()), (2, due));
    let ran = folder.gx(&["compare", "good", "empty", "--json"]);
    assert!(
        ran.text()
            .starts_with("{\"answer\":\"refused\",\"refusal\":1,\"input\":2,\"place\":0,"),
        "{}",
        ran.text()
    );
    let ran = folder.gx(&["compare", "good", "bad", "--json"]);
    let due = "{\"answer\":\"mistake\",\"of\":\"bad\",\"line\":1,\"column\":1,";
    assert!(ran.text().starts_with(due), "{}", ran.text());
    let ran = folder.gx(&["compare", "none", "bad", "--json"]);
    let due = "{\"answer\":\"unreadable\",\"of\":\"none\",\"words\":";
    assert!(ran.text().starts_with(due), "{}", ran.text());
    let ran = folder.gx(&["check", "none"]);
    assert_eq!((ran.status, ran.out.len()), (2, 0));
    assert!(ran.err.starts_with("gx: none: cannot be read: "));
    let ran = folder.gx(&["show", "good", "--names", "bad"]);
    assert_eq!(ran.status, 2);
    assert!(ran
        .err
        .contains("expected 'property', 'link' or 'description'"));
}

#[test]
fn huge_inputs_are_refused() {
    let folder = Folder::new("huge");
    let huge = vec![0u8; 9 << 20];
    folder.put("zeros", &huge).put("good", "1,7");
    let ran = folder.gx(&["check", "zeros"]);
    assert_eq!(ran.status, 2);
    assert!(
        ran.text().contains("16384 blocks or more"),
        "{}",
        ran.text()
    );
    let text = "has property 7\n".repeat(9 << 16);
    for command in ["check", "show", "write", "normal"] {
        let ran = folder.put("text", &text).gx(&[command, "text"]);
        assert_eq!(ran.status, 2, "{command}");
        assert!(ran.err.contains("longer than 8 MiB"), "{}", ran.err);
    }
    let ran = folder
        .put("text", "1,7\n".repeat(1009))
        .gx(&["compare", "text", "good"]);
    assert_eq!(ran.status, 2);
    assert!(ran.text().contains("refused 1: the input has 17 blocks"));
    let ran = folder
        .put("text", "1,7\n".repeat(70_000))
        .gx(&["check", "text"]);
    assert!(
        ran.text()
            .contains("text:65536:1: expected at most 65,535 entries"),
        "{}",
        ran.text()
    );
}

#[test]
fn inputs_of_the_other_form_can_be_forced() {
    let folder = Folder::new("forced");
    folder.put("blocks", blocks("1,7")).put("text", "1,7");
    assert_eq!(folder.gx(&["check", "blocks", "--from", "text"]).status, 2);
    assert_eq!(folder.gx(&["check", "text", "--from", "blocks"]).status, 2);
    assert_eq!(
        folder.gx(&["check", "text", "--sort", "specimen"]).text(),
        "accepted: a specimen of 1 entry in 1 block\n"
    );
    assert_eq!(folder.gx(&["check", "blocks", "--from=blocks"]).status, 0);
    let latin = b"has property 7 \"s\xe4ure\"";
    let ran = folder.put("latin", latin).gx(&["check", "latin"]);
    assert!(
        ran.text()
            .contains("latin:1:18: expected text in UTF-8, found the byte e4"),
        "{}",
        ran.text()
    );
    let ran = folder.put("bom", "\u{feff}1,7\r\n").gx(&["check", "bom"]);
    assert_eq!(ran.status, 0);
}

#[test]
fn wrong_usage_is_64() {
    let folder = Folder::new("usage");
    folder.put("d", "1,7");
    for args in [
        vec![],
        vec!["judge"],
        vec!["compare", "d"],
        vec!["compare", "d", "d", "d"],
        vec!["compare", "-", "-"],
        vec!["show", "--names", "-"],
        vec!["show", "--svg", "x", "d"],
        vec!["show", "--names"],
        vec!["show", "--json=yes", "d"],
        vec!["show", "--to", "paper", "d"],
        vec!["show", "-x", "d"],
        vec!["help", "judge"],
    ] {
        let ran = folder.gx(&args);
        assert_eq!((ran.status, ran.out.len()), (64, 0), "{args:?}");
        assert!(
            ran.err.starts_with("gx: ") && ran.err.contains("usage: gx"),
            "{}",
            ran.err
        );
    }
}

#[test]
fn the_help_names_each_command_and_option() {
    let folder = Folder::new("help");
    let all = folder.gx(&["--help"]);
    assert_eq!((all.status, all.err.as_str()), (0, ""));
    for command in gx::args::Command::ALL {
        assert!(all.text().contains(&format!("\n  {} ", command.word())));
        let help = folder.gx(&[command.word(), "--help"]);
        assert_eq!(
            (help.status, &help),
            (0, &folder.gx(&["help", command.word()]))
        );
        for option in command.options() {
            let name = option.name;
            assert!(help.text().contains(&format!("\n  {name}")), "{name}");
        }
    }
    let manual = std::fs::read_to_string(repository("rust/gx/gx.1")).unwrap();
    for command in gx::args::Command::ALL {
        assert!(
            manual.contains(&format!("\n.B gx {} ", command.word().replace('-', "\\-"))),
            "{}",
            command.word()
        );
        for option in command.options() {
            let name = option.name.replace('-', "\\-");
            assert!(manual.contains(&name), "{name}");
        }
    }
}

#[test]
fn owl_both_ways() {
    let folder = desk("owl");
    let ran = folder.gx(&[
        "owl", "supplier", "service", "--names", "names", "--out", "q.ofn",
    ]);
    assert_eq!((ran.status, ran.out.len(), ran.err.as_str()), (0, 0, ""));
    let ran = folder.gx(&["from-owl", "q.ofn", "--class", "Service", "--to", "desk"]);
    assert_eq!((ran.status, ran.text().as_str()), (0, "5,1 [4,3,1; 1,7]\n"));
    let ran = folder.gx(&["from-owl", "q.ofn", "--class", "Supplier"]);
    let due = "at least 1 link 1 \"sample\"\nevery link 1 \"sample\" [\n    at least 1 link 3 \"layer\"\n]\n";
    assert_eq!((ran.status, ran.text().as_str()), (0, due));
    let ran = folder.gx(&["from-owl", "q.ofn", "--class", "SupplierOnly"]);
    assert_eq!((ran.status, ran.out.len()), (2, 0));
    assert!(
        ran.err
            .contains("named definitions are not taken, found ':Supplier'"),
        "{}",
        ran.err
    );
    let other = "ObjectUnionOf(:property_1 :property_2)";
    let ran = folder.gx_with(&["from-owl"], other.as_bytes());
    assert_eq!((ran.status, ran.out.len()), (2, 0));
    assert!(ran.err.contains("standard input:1:1: ") && ran.err.contains("found 'ObjectUnionOf'"));
    let deep = "ObjectAllValuesFrom(:link_1 ".repeat(40) + ":property_1" + &")".repeat(40);
    let ran = folder.put("deep", deep).gx(&["from-owl", "deep"]);
    assert_eq!((ran.status, ran.out.len()), (2, 0));
    assert!(
        ran.err.contains("refused 6: entry 34: it stands 33 deep"),
        "{}",
        ran.err
    );
    let ran = folder
        .put("huge", "# \n".repeat(3 << 20))
        .gx(&["from-owl", "huge"]);
    assert_eq!(ran.status, 2);
    assert!(ran.err.contains("longer than 8 MiB"), "{}", ran.err);
}

#[test]
fn an_answer_that_cannot_be_printed_is_no_yes() {
    let folder = Folder::new("full");
    folder.put("d", "1,7");
    let Ok(full) = std::fs::File::create("/dev/full") else {
        println!("there is no /dev/full: not tried");
        return;
    };
    let mut gx = std::process::Command::new(env!("CARGO_BIN_EXE_gx"));
    let ran = gx
        .args(["compare", "d", "d"])
        .current_dir(folder.path())
        .stdout(full)
        .output()
        .unwrap();
    assert_eq!(ran.status.code(), Some(2));
    assert!(String::from_utf8_lossy(&ran.stderr).contains("standard output cannot be written"));
    let ran = folder.gx(&["show", "d", "--out", "none/d"]);
    assert_eq!(ran.status, 2);
    assert!(
        ran.err.starts_with("gx: none/d: cannot be written: "),
        "{}",
        ran.err
    );
}
