//! Dictionaries of named descriptions: their texts, their refusals in words, and the answers with them.

use differential::chance::Chance;
use differential::draw;
use goltximen::{Comparison, Fit, Under};
use gx::blocks::{decode, encode};
use gx::dictionary::{self, Dictionary, Part};
use gx::entry::{Entry, Named, Sort};
use gx::library;
use gx::names::Names;
use gx::text::{desk, desk_dictionary, parse, parse_dictionary, text, Numbers};

use crate::mistakes::is_at;
use crate::support::{ours, specimen, Folder};

const NAMES: &str = "property 7 \"sealed\"\nlink 1 \"sample\" \"samples\"\nlink 2 \"core\" \"cores\"\nlink 3 \"layer\" \"layers\"\ndescription 3 \"anything\"\n";

const DICTIONARY: &str = "dictionary
description 1 \"sealed core\" [
    has sealed
    at most 2 layer
]
description \"good sample\" [
    at least 1 core
    every core [ named sealed core ]
]
[]
";

/// A folder with these names and this dictionary.
fn laboratory(name: &str) -> Folder {
    let folder = Folder::new(name);
    folder.put("names", NAMES).put("dict", DICTIONARY);
    folder
}

fn entries(line: &str) -> Vec<Entry> {
    parse(line, &Names::default()).unwrap().entries
}

/// The descriptions in desk notation.
fn desks(parts: &[Part]) -> Vec<String> {
    let desks = parts
        .iter()
        .map(|part| desk(Sort::Description, &part.entries));
    desks.collect()
}

#[test]
fn names_in_texts() {
    let names = Names::read(NAMES).unwrap();
    let due = entries("9,3; 5,1 [9,3; 9,4; 9,4]");
    for written in [
        "9,3; 5,1 [9,3; 9,4; 9,4]",
        "named 3; every link 1 [named 3; named 4; named 4]",
        "named 3 \"anything\"\nevery sample [named anything\nnamed 4 \"wet 2\"\nnamed wet 2]",
    ] {
        let parsed = parse(written, &names).unwrap();
        assert_eq!(parsed.entries, due, "{written}");
    }
    assert_eq!(
        text(Sort::Description, &due, &names, Numbers::WhereNeeded),
        "named 3 \"anything\"\nevery link 1 \"sample\" [\n    named 3 \"anything\"\n    named 4\n    named 4\n]\n"
    );
    for (text, line, column, expected, found) in [
        (
            "named",
            1,
            6,
            "a description's number",
            "the end of the text",
        ),
        (
            "named 65536",
            1,
            7,
            "a description from 0 to 65,535",
            "'65536'",
        ),
        (
            "named 1 [1,7]",
            1,
            9,
            "only every and group own entries",
            "'['",
        ),
        ("named nothing", 1, 7, "the dictionary", "\"nothing\""),
        (
            "named 5 \"x\"; named 5 \"y\"",
            1,
            22,
            "\"x\", as description 5 is called (line 1)",
            "\"y\"",
        ),
        (
            "named 4 \"anything\"",
            1,
            9,
            "not that of description 3",
            "\"anything\"",
        ),
    ] {
        let mistake = parse(text, &names).unwrap_err();
        is_at(&mistake, line, column, expected, found);
    }
}

#[test]
fn texts_of_dictionaries() {
    let names = Names::read(NAMES).unwrap();
    for (text, due) in [
        ("dictionary", vec![]),
        ("dictionary:\n\n", vec![]),
        ("[1,7]", vec!["1,7"]),
        (
            "dictionary: [1,7]; [9,1; 3,3,2] // and\n[]",
            vec!["1,7", "9,1; 3,3,2", "description:"],
        ),
        (
            "description 1 [\nhas sealed\n]\ndescription [named 1]\ndescription 3\n[\n]",
            vec!["1,7", "9,1", "description:"],
        ),
        (
            "description \"a\" [#2 1,7; #1 1,8]\ndescription 2 \"b\" [every core [named a]]",
            vec!["1,8; 1,7", "5,2 [9,1]"],
        ),
        // Read, and then refused by the library.
        (
            "[9,0]; [9,2]; [7,1]",
            vec!["9", "9,2", "description: 7,1 []"],
        ),
    ] {
        let parsed = parse_dictionary(text, &names).unwrap();
        assert_eq!(desks(&parsed.parts), due, "{text}");
    }
    for (text, line, column, expected, found) in [
        (
            "",
            1,
            1,
            "'dictionary' for one without descriptions",
            "the end of the text",
        ),
        ("1,7", 1, 1, "a description (description 1", "'1'"),
        (
            "description 2 [1,7]",
            1,
            13,
            "1, since this is description 1",
            "'2'",
        ),
        (
            "description 1",
            1,
            14,
            "a description (description 1",
            "the end of the text",
        ),
        (
            "[1,7",
            1,
            5,
            "']' for the '[' of line 1",
            "the end of the text",
        ),
        (
            "[1,7]]",
            1,
            6,
            "a new line or ';' after the description",
            "']'",
        ),
        ("[1,7] [1,8]", 1, 7, "a new line", "'['"),
        (
            "description 1 \"a\" []; description 2 \"a\" []",
            1,
            37,
            "not that of description 1",
            "\"a\"",
        ),
        (
            "description 1 \"anything\" []",
            1,
            15,
            "not that of description 3",
            "\"anything\"",
        ),
        (
            "[#2 1,7]",
            1,
            2,
            "an entry 1 somewhere",
            "entry 2 as the next",
        ),
    ] {
        let mistake = parse_dictionary(text, &names).unwrap_err();
        is_at(&mistake, line, column, expected, found);
    }
}

/// A small drawn description in which some entries that own nothing are named ones, up to this name.
fn naming(chance: &mut Chance, most: usize) -> Vec<Entry> {
    let shape = draw::Shape {
        entries: 9,
        ..draw::shape(chance)
    };
    let mut entries = ours(&draw::description(chance, &shape));
    for e in &mut entries {
        if most > 0 && e.kind != 5 && chance.below(4) == 0 {
            *e = Entry {
                kind: 9,
                owner: e.owner,
                name: 1 + chance.below(most) as u16,
                ..Entry::default()
            };
        }
    }
    entries
}

/// A drawn dictionary that is accepted.
fn drawn(chance: &mut Chance) -> Vec<u8> {
    loop {
        let mut parts = Vec::new();
        for earlier in 0..chance.below(6) {
            let entries = match chance.below(5) {
                0 => Vec::new(),
                _ => naming(chance, earlier),
            };
            parts.push(Part {
                entries,
                ..Part::default()
            });
        }
        let bytes = dictionary::encode(&parts);
        assert_eq!(dictionary::decode(&bytes), parts);
        if library::read_dictionary(&bytes).is_ok() {
            return bytes;
        }
    }
}

#[test]
fn show_and_write_give_the_same_bytes() {
    let mut chance = Chance::from_seed(41);
    let folder = laboratory("dictionary-bytes");
    for _ in 0..25 {
        let bytes = drawn(&mut chance);
        folder.put("bytes", &bytes).put("by-its.dictionary", &bytes);
        for to in ["text", "desk", "blocks"] {
            let args = ["show", "bytes", "--sort", "dictionary", "--to", to];
            let shown = folder.gx(&[&args[..], &["--names", "names"]].concat());
            assert_eq!((shown.status, shown.err.as_str()), (0, ""));
            let args = ["show", "by-its.dictionary", "--to", to, "--names", "names"];
            assert_eq!(folder.gx(&args), shown);
            if to == "blocks" {
                assert_eq!(shown.out, bytes);
                continue;
            }
            // The heading tells that it is a dictionary.
            let ran = folder.gx_with(&["write"], &shown.out);
            assert_eq!((ran.status, &ran.out), (0, &bytes), "{}", shown.text());
            let again = folder.gx_with(&["show", "--to", to, "--names", "names"], &shown.out);
            assert_eq!(again.text(), shown.text());
        }
        // A description with names, without the dictionary.
        let d = encode(&naming(&mut chance, 64));
        folder.put("d", &d);
        for to in ["text", "desk"] {
            let shown = folder.gx(&["show", "d", "--to", to, "--numbers"]);
            assert_eq!((shown.status, shown.err.as_str()), (0, ""));
            let ran = folder.gx_with(&["write"], &shown.out);
            assert_eq!((ran.status, &ran.out), (0, &d), "{}", shown.text());
        }
    }
    let ran = folder.gx(&["show", "dict", "--names", "names"]);
    let due = "dictionary\ndescription 1 \"sealed core\" [\n    has property 7 \"sealed\"\n    at most 2 link 3 \"layer\"\n]\n\
               description 2 \"good sample\" [\n    at least 1 link 2 \"core\"\n    every link 2 \"core\" [\n        named 1 \"sealed core\"\n    ]\n]\n\
               description 3 \"anything\" []\n";
    assert_eq!((ran.status, ran.text().as_str()), (0, due));
    let ran = folder.gx(&["check", "dict", "--names", "names"]);
    assert_eq!(ran.text(), "accepted: a dictionary of 3 descriptions\n");
    let ran = folder.gx_with(&["check", "--json"], b"dictionary: [9,1]");
    let due = "{\"answer\":\"refused\",\"refusal\":13,\"input\":101,\"place\":1,\"line\":1,\"words\":\"description 1: entry 1: it names description 1, in which it stands itself\"}\n";
    assert_eq!((ran.status, ran.text().as_str()), (2, due));
    let ran = folder.gx_with(&["check", "--json"], b"dictionary: [1,7]; [9,1]");
    let due = "{\"answer\":\"accepted\",\"sort\":\"dictionary\",\"descriptions\":[{\"description\":1,\"word\":null,\"entries\":[{\"entry\":1,\"kind\":1,\"owner\":0,\"property\":7,\"word\":null}]},\
               {\"description\":2,\"word\":null,\"entries\":[{\"entry\":1,\"kind\":9,\"owner\":0,\"description\":1,\"word\":null}]}]}\n";
    assert_eq!((ran.status, ran.text().as_str()), (0, due));
}

/// A dictionary is refused by this number and input, with these words, before any input is looked at.
fn is_refused(folder: &Folder, bytes: &[u8], due: (u8, u16, u16), words: &str) {
    folder.put("wrong", bytes);
    let (number, input, place) = due;
    let ran = folder.gx(&["check", "wrong", "--sort", "dictionary"]);
    let begin = format!("wrong: refused {number}: {words}");
    assert!(ran.text().starts_with(&begin), "{}\n{begin}", ran.text());
    assert_eq!(ran.status, 2);
    for command in [
        &["normal", "none"][..],
        &["unfold", "none"],
        &["fit", "none", "none"],
        &["compare", "none", "none"],
    ] {
        let ran = folder.gx(&[command, &["--dictionary", "wrong", "--json"]].concat());
        let begin = format!(
            "{{\"answer\":\"refused\",\"refusal\":{number},\"input\":{input},\"place\":{place},"
        );
        assert!(ran.text().starts_with(&begin), "{}", ran.text());
        assert_eq!(ran.status, 2);
    }
}

#[test]
fn refused_dictionaries_in_words() {
    let folder = laboratory("dictionary-refused");
    let good = dictionary::encode(
        &parse_dictionary("[1,7]; [9,1; 1,8]", &Names::default())
            .unwrap()
            .parts,
    );
    is_refused(
        &folder,
        &good[..600],
        (1, 100, 0),
        "the dictionary has 600 bytes, which is no multiple of 512: 1 whole block, and 88 bytes more\n",
    );
    is_refused(
        &folder,
        "[];".repeat(65).as_bytes(),
        (8, 100, 0),
        "the dictionary has 65 descriptions, and the most is 64\n",
    );
    let long: Vec<Entry> = entries("1,7").repeat(63 * 16 + 1);
    is_refused(
        &folder,
        &[&good[..], &encode(&long)].concat(),
        (1, 103, 0),
        "description 3: it has 17 blocks, and a description has at most 16\n\n  description 3 is bytes 1024 to 9727 of the dictionary\n",
    );
    let mut spoilt = good.clone();
    spoilt[512 + 8] = 2;
    is_refused(
        &folder,
        &spoilt,
        (2, 102, 1),
        "description 2: the first check of block 1 is wrong: it says",
    );
    for (text, due, words) in [
        (
            "[1,7]\ndescription \"x\" [1,8\n9,0]",
            (13, 102, 2),
            "description 2 \"x\": entry 2: its name is 0, and descriptions count from 1 (line 3)\n\n  entry 1, at the top: has property 8\n> entry 2, at the top: named 0\n\n  entry 2 is in block 1, bytes 12 to 19: 09 00 00 00 00 00 00 00\n  description 2 is bytes 512 to 1023 of the dictionary\n",
        ),
        (
            "[1,7]; [5,1 [9,3]]; []",
            (13, 102, 2),
            "description 2: entry 2: it names description 3, and description 2 may name only earlier ones (line 1)\n",
        ),
        (
            "[9,7]; []",
            (13, 101, 1),
            "description 1: entry 1: it names description 7, and the dictionary has 2 descriptions (line 1)\n",
        ),
        (
            "[9,1,5]",
            (4, 101, 1),
            "description 1: entry 1: its number is 5, and kind 9 has 0 (line 1)\n",
        ),
        (
            "[7,1]",
            (4, 101, 1),
            "description 1: entry 1: its kind is 7, and a description has kinds 1 to 6 and 9 (line 1)\n",
        ),
    ] {
        is_refused(&folder, text.as_bytes(), due, words);
    }
}

#[test]
fn drawn_wrong_dictionaries_get_the_library_s_refusal() {
    let mut chance = Chance::from_seed(44);
    let folder = Folder::new("dictionary-wrong");
    let mut numbers = Vec::new();
    for _ in 0..60 {
        let mut parts = dictionary::decode(&drawn(&mut chance));
        let count = parts.len();
        for part in &mut parts {
            let length = part.entries.len().max(1);
            let at = chance.below(length);
            let (kind, name) = (chance.below(11) as u8, chance.below(count + 2) as u16);
            if let Some(e) = part.entries.get_mut(at) {
                *e = Entry {
                    kind,
                    owner: chance.below(at + 2) as u16,
                    name,
                    ..*e
                };
            }
        }
        let mut bytes = dictionary::encode(&parts);
        match chance.below(6) {
            0 => bytes.truncate(bytes.len().saturating_sub(1)),
            1 if !bytes.is_empty() => {
                let at = chance.below(bytes.len());
                bytes[at] ^= 1;
            }
            _ => (),
        }
        folder.put("dict", &bytes);
        let args = [
            "check",
            "dict",
            "--sort",
            "dictionary",
            "--from",
            "blocks",
            "--json",
        ];
        let ran = folder.gx(&args);
        let due = match library::read_dictionary(&bytes) {
            Ok(()) => "{\"answer\":\"accepted\",".into(),
            Err(refusal) => {
                numbers.push(refusal.reason.number());
                format!(
                    "{{\"answer\":\"refused\",\"refusal\":{},\"input\":{},\"place\":{},",
                    refusal.reason.number(),
                    refusal.input,
                    refusal.place
                )
            }
        };
        assert!(ran.text().starts_with(&due), "{due} {}", ran.text());
    }
    for number in [1, 2, 4, 5, 13] {
        assert!(
            numbers.contains(&number),
            "{number} is not among {numbers:?}"
        );
    }
}

#[test]
fn too_large_once_unfolded() {
    let folder = laboratory("dictionary-large");
    let hundred = format!("[{}]", vec!["1,7"; 100].join(";"));
    let names = |count| vec!["9,1"; count].join(";");
    is_refused(
        &folder,
        format!("{hundred}; [{}]", names(11)).as_bytes(),
        (14, 102, 0),
        "description 2: once unfolded it has 1,100 entries, and the most is 1,008 (line 1)\n\n  entry  1: named 1 puts in 100 entries, down to 0 deep\n",
    );
    let chain = |depth: usize| format!("[{}1,7{}]", "5,1 [".repeat(depth), "]".repeat(depth));
    is_refused(
        &folder,
        format!("{}; [1,8; 5,2 [9,1]]", chain(32)).as_bytes(),
        (14, 102, 0),
        "description 2: once unfolded it goes 33 deep, and the most is 32 (line 1)\n\n  entry 3: named 1 puts in 33 entries, down to 33 deep\n",
    );
    folder.put("dict", &hundred);
    for (count, status) in [(10, 0), (11, 2)] {
        folder.put("d", names(count));
        let ran = folder.gx(&["unfold", "d", "--dictionary", "dict", "--to", "blocks"]);
        assert_eq!(
            (ran.status, decode(&ran.out).len()),
            (status, if status == 0 { 1000 } else { 0 })
        );
    }
    let ran = folder.gx(&["compare", "dict", "d", "--dictionary", "dict"]);
    assert!(
        ran.text().starts_with("dict:1:1: expected "),
        "{}",
        ran.text()
    );
    folder.put("c", "1,7");
    let ran = folder.gx(&["compare", "c", "d", "--dictionary", "dict", "--json"]);
    let begin = "{\"answer\":\"refused\",\"refusal\":14,\"input\":2,\"place\":0,\"line\":null,\"words\":\"once unfolded it has 1,100 entries, and the most is 1,008\"}\n";
    assert_eq!((ran.status, ran.text().as_str()), (2, begin));
    // An empty one adds no depth, and none of a long chain of them costs anything.
    let empties: Vec<String> = (1..64)
        .map(|n| format!("[{}]", vec![format!("9,{n}"); 300].join(";")))
        .collect();
    folder.put("dict", format!("[]; {}", empties.join(";")));
    folder.put("d", format!("{}9,64{}", "5,1 [".repeat(33), "]".repeat(33)));
    let ran = folder.gx(&["unfold", "d", "--dictionary", "dict"]);
    assert!(ran.err.contains("refused 6: entry 34"), "{}", ran.err);
    folder.put("d", format!("{}9,64{}", "5,1 [".repeat(32), "]".repeat(32)));
    let ran = folder.gx(&["check", "d", "--dictionary", "dict"]);
    assert_eq!(
        ran.text(),
        "accepted: a description of 33 entries in 1 block, 32 once unfolded\n"
    );
}

#[test]
fn names_that_there_are_not() {
    let folder = laboratory("dictionary-names");
    folder.put("d", "1,7\n5,1 [9,4]");
    for (args, words) in [
        (
            &["check", "d"][..],
            "d: refused 4: entry 3: its kind is 9, which names a description, and no dictionary is given (line 2)\n",
        ),
        (
            &["check", "d", "--dictionary", "dict", "--names", "names"],
            "d: refused 13: entry 3: it names description 4, and the dictionary has 3 descriptions (line 2)\n",
        ),
        (
            &["compare", "d", "none"],
            "d: refused 13: entry 3: it names description 4, and no dictionary is given (line 2)\n",
        ),
    ] {
        let ran = folder.gx(args);
        assert!(ran.text().starts_with(words), "{}", ran.text());
        assert!(ran.text().contains("> entry 3, owner 2: named 4\n"));
        assert_eq!(ran.status, 2);
    }
    folder.put("d", "9,65");
    let ran = folder.gx(&["write", "d"]);
    assert_eq!((ran.status, ran.out.len()), (2, 0));
    let words = "gx: d: refused 13: entry 1: it names description 65, and a dictionary has at most 64 (line 1)\n";
    assert!(ran.err.starts_with(words), "{}", ran.err);
    folder.put("s", "specimen: 9,1");
    let ran = folder.gx(&["check", "s", "--dictionary", "dict", "--names", "names"]);
    assert!(ran
        .text()
        .starts_with("s: refused 4: entry 1: its kind is 9, and a specimen has kinds 1 and 7"));
}

#[test]
fn answers_with_dictionaries_are_the_library_s() {
    let mut chance = Chance::from_seed(42);
    let folder = Folder::new("dictionary-answers");
    for _ in 0..40 {
        let dict = drawn(&mut chance);
        let parts = dictionary::decode(&dict);
        let [c, d] = [(); 2].map(|()| encode(&naming(&mut chance, parts.len())));
        let s = encode(&ours(&specimen(&mut chance)));
        let (Ok(plain_c), Ok(plain_d)) = (library::unfold(&dict, &c), library::unfold(&dict, &d))
        else {
            continue;
        };
        folder.put("c", &c).put("d", &d).put("s", &s);
        folder.put("dict", desk_dictionary(&parts));
        folder.put("plain-c", &plain_c).put("plain-d", &plain_d);
        let under = Under {
            pairs: &[],
            dictionary: &dict,
        };
        let args = ["unfold", "d", "--dictionary", "dict", "--to", "blocks"];
        assert_eq!(folder.gx(&args).out, plain_d);
        let mut out = vec![0; plain_c.len() + plain_d.len()];
        let due = match under.compare(&c, &d, &mut out).unwrap() {
            Comparison::Contained => "{\"answer\":\"contained\"".into(),
            Comparison::NotContained { entry, .. } => {
                format!("{{\"answer\":\"not contained\",\"entry\":{entry},")
            }
        };
        let ran = folder.gx(&["compare", "c", "d", "--dictionary", "dict", "--json"]);
        assert!(ran.text().starts_with(&due), "{}", ran.text());
        // What is told is what is told of the plain ones.
        let plain = folder.gx(&["compare", "plain-c", "plain-d", "--json"]);
        let told = |text: String| {
            text.split_once("\"owners\":")
                .map(|(_, told)| told.to_string())
        };
        assert_eq!(told(ran.text()), told(plain.text()));
        let due = match under.fit(&s, &d).unwrap() {
            Fit::Yes => "{\"answer\":\"yes\"",
            Fit::No => "{\"answer\":\"no\"",
        };
        let ran = folder.gx(&["fit", "s", "d", "--dictionary", "dict", "--json"]);
        assert!(ran.text().starts_with(due), "{}", ran.text());
        let plain = folder.gx(&["fit", "s", "plain-d", "--json"]);
        assert_eq!((ran.status, ran.text()), (plain.status, plain.text()));
        let count = usize::from(under.normal_form(&c, &mut out).unwrap());
        let args = ["normal", "c", "--dictionary", "dict", "--to", "blocks"];
        assert_eq!(folder.gx(&args).out, out[..512 * count.div_ceil(63).max(1)]);
        // Named descriptions stay classes, which are put in where they are read.
        let asked = folder.gx(&["owl", "c", "d", "--dictionary", "dict", "-o", "q.ofn"]);
        assert_eq!(asked.status, 0, "{}", asked.err);
        for (class, plain) in [("Supplier", "plain-c"), ("Service", "plain-d")] {
            let read = folder.gx(&["from-owl", "q.ofn", "--class", class, "--to", "blocks"]);
            let due = folder.gx(&["owl", plain, plain, "-o", "p.ofn"]);
            assert_eq!(due.status, 0);
            let due = folder.gx(&["from-owl", "p.ofn", "--class", class, "--to", "blocks"]);
            assert_eq!((read.status, read.out), (0, due.out), "{}", read.err);
        }
    }
}

#[test]
fn each_entry_has_its_origin() {
    let mut chance = Chance::from_seed(43);
    let mut put_in = 0;
    for _ in 0..200 {
        let bytes = drawn(&mut chance);
        let dict = Dictionary {
            parts: dictionary::decode(&bytes),
            bytes,
            ..Dictionary::default()
        };
        let sent = naming(&mut chance, dict.parts.len());
        let Ok(plain) = library::unfold(&dict.bytes, &encode(&sent)) else {
            continue;
        };
        let plain = decode(&plain);
        let origins = dict.origins(&sent, &plain);
        assert_eq!(origins.len(), plain.len());
        for (origin, plain) in origins.iter().zip(&plain) {
            // From the entry as it was sent, name by name, to the entry itself.
            let mut e = sent[origin.sent - 1];
            for &(Named(number), entry) in &origin.within {
                assert_eq!((e.kind, e.name), (9, number));
                e = dict.parts[usize::from(number) - 1].entries[entry - 1];
                put_in += 1;
            }
            assert_eq!(
                (e.kind, e.name, e.number),
                (plain.kind, plain.name, plain.number)
            );
        }
        let sents: Vec<usize> = origins.iter().map(|origin| origin.sent).collect();
        assert!(sents.is_sorted());
    }
    assert!(put_in > 200);
}

#[test]
fn a_no_tells_where_an_entry_comes_from() {
    let folder = laboratory("dictionary-no");
    folder
        .put(
            "c",
            "named anything\nat least 1 sample\nevery sample [ named good sample ]\n",
        )
        .put(
            "d",
            "every sample [\n    named good sample\n    every core [ at most 1 layer ]\n]\n",
        )
        .put("e", "lacks property 9\nevery sample [ named good sample ]")
        .put(
            "less",
            "every sample [ at least 1 core ]; at least 1 sample; lacks property 9",
        )
        .put("s", "specimen\ngroup of 1 sample [ group of 1 core ]");
    let with = ["--names", "names", "--dictionary", "dict"];
    let gx = |args: &[&str]| folder.gx(&[args, &with].concat());
    let ran = gx(&["compare", "c", "d"]);
    let due = "not contained\n\nEntry 7 of the service's description (line 3; entry 4 as sent) fails:\n    of every core of every sample, at most 1 layer\n\
               The supplier's description says there:\n    of every core of every sample, at most 2 layers - its entry 6 (line 3; entry 2 of description 1 \"sealed core\", \
               named by entry 3 of description 2 \"good sample\", named by entry 4 as sent)\n\nThe entry in the service's description, unfolded:\n";
    assert_eq!(ran.status, 1);
    assert!(ran.text().starts_with(due), "{}", ran.text());
    let ran = gx(&["compare", "less", "e", "--json"]);
    let due = "{\"answer\":\"not contained\",\"entry\":5,\"line\":2,\"sent\":3,\"named\":[{\"description\":2,\"entry\":3},{\"description\":1,\"entry\":1}],\"owners\":[2,4],";
    assert!(ran.text().starts_with(due), "{}", ran.text());
    let ran = gx(&["fit", "s", "e"]);
    let due = "no: the specimen does not meet entry 5 of the description (entry 1 of description 1 \"sealed core\", named by entry 3 of description 2 \"good sample\", \
               named by entry 3 as sent): every core of every sample has property sealed\n";
    assert!(ran.status == 1 && ran.text().starts_with(due));
    let ran = gx(&["unfold", "e", "--numbers"]);
    let due = "#1 lacks property 9\n#2 every link 1 \"sample\" [\n    #3 at least 1 link 2 \"core\"\n    #4 every link 2 \"core\" [\n        #5 has property 7 \"sealed\"\n        \
               #6 at most 2 link 3 \"layer\"\n    ]\n]\n";
    assert_eq!((ran.status, ran.text().as_str()), (0, due));
    let ran = gx(&["unfold", "e", "--json"]);
    assert!(ran.text().starts_with(
        "{\"answer\":\"unfolded\",\"sort\":\"description\",\"entries\":[{\"entry\":1,\"kind\":2,"
    ));
    let ran = gx(&["unfold", "c", "e"]);
    let due = "c: 4 entries, 6 once unfolded: 3,1,1; 5,1 [3,2,1; 5,2 [1,7; 4,3,2]]\ne: 3 entries, 6 once unfolded: 2,9; 5,1 [3,2,1; 5,2 [1,7; 4,3,2]]\n";
    assert_eq!((ran.status, ran.text().as_str()), (0, due));
}

#[test]
fn pairs_and_a_dictionary() {
    let folder = laboratory("dictionary-pairs");
    folder
        .put("list", "sealed excludes property 9")
        .put("c", "every core [ named sealed core ]")
        .put("d", "every core [ lacks property 9 ]")
        .put("s", "specimen\nhas sealed; has property 9");
    let args = [
        "--names",
        "names",
        "--pairs",
        "list",
        "--dictionary",
        "dict",
    ];
    let gx = |with: &[&str]| folder.gx(&[with, &args].concat());
    assert_eq!(gx(&["compare", "c", "d"]).status, 0);
    assert_eq!(
        gx(&["check", "c"]).text(),
        "accepted: a description of 2 entries in 1 block, 3 once unfolded\n"
    );
    let ran = gx(&["check", "c", "--json"]);
    let due = "{\"answer\":\"accepted\",\"sort\":\"description\",\"entries\":2,\"blocks\":1,\"unfolded\":3}\n";
    assert_eq!(ran.text(), due);
    let ran = gx(&["check", "s"]);
    assert!(ran.text().starts_with("s: refused 12: entry 2: it gives the top item property 9, and entry 1 gives property sealed"), "{}", ran.text());
    // A wrong list comes before a wrong dictionary.
    folder.put("dict", "[9,1]").put("list", "7,7");
    assert!(gx(&["compare", "c", "d"])
        .text()
        .starts_with("list: refused 11: pair 1"));
    // Bytes without a zero byte, where it is said that they are a list.
    folder
        .put("list", b"\x07\x01\x08\x01")
        .put("s", "specimen: 1,263; 1,264");
    let ran = folder.gx(&["check", "s", "--pairs", "list"]);
    assert!(
        ran.text().starts_with("s: refused 12: entry 2"),
        "{}",
        ran.text()
    );
    let ran = folder.gx(&["show", "list", "--sort", "pairs", "--to", "desk"]);
    assert_eq!(ran.text(), "pairs: 263,264\n");
}

#[test]
fn usage_of_dictionaries() {
    let folder = laboratory("dictionary-usage");
    folder.put("d", "9,2");
    for args in [
        &["compare", "d", "-", "--dictionary", "-"][..],
        &["unfold", "d", "--pairs", "dict"],
        &["from-owl", "d", "--dictionary", "dict"],
        &["from-owl", "d", "--sort", "dictionary"],
        &["normal", "d", "--pairs", "-", "--dictionary", "-"],
    ] {
        assert_eq!(folder.gx(args).status, 64, "{args:?}");
    }
    let ran = folder.gx_with(
        &["unfold", "d", "--dictionary", "-", "--to", "desk"],
        b"[]; [1,7]",
    );
    assert_eq!((ran.status, ran.text().as_str()), (0, "1,7\n"));
    // A dictionary of length 0 is none.
    folder.put("empty", "").put("plain", "1,7");
    let ran = folder.gx(&["unfold", "plain", "--dictionary", "empty", "--to", "desk"]);
    assert_eq!((ran.status, ran.text().as_str()), (0, "1,7\n"));
    let ran = folder.gx(&["show", "empty", "--sort", "dictionary"]);
    assert_eq!((ran.status, ran.text().as_str()), (0, "dictionary\n"));
    let ran = folder.gx_with(&["write"], b"dictionary");
    assert_eq!((ran.status, ran.out.len()), (0, 0));
    let ran = folder.gx(&["unfold", "d", "--dictionary", "empty"]);
    assert!(
        ran.err
            .contains("it names description 2, and the dictionary has 0 descriptions"),
        "{}",
        ran.err
    );
    let ran = folder.gx(&["unfold", "d", "--dictionary", "none"]);
    assert!(
        ran.err.starts_with("gx: none: cannot be read"),
        "{}",
        ran.err
    );
    // Folders pass over dictionaries.
    let folder = Folder::new("dictionary-folder");
    folder
        .put("a.txt", "9,1")
        .put("b.dictionary", "dictionary: [1,7]");
    let inside = folder.path().display().to_string();
    let ran = folder.gx(&["unfold", &inside, "--dictionary", "b.dictionary"]);
    assert_eq!(ran.text(), "a.txt: 1 entry, 1 once unfolded: 1,7\n");
}
