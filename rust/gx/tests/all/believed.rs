//! Nothing is shown that a reader could take for something else: words that clash, nothing to do, signs that turn text around, and
//! names of files that are lines.

use gx::blocks;
use gx::entry::Sort;
use gx::names::Names;
use gx::text::{self, Numbers};

use crate::support::Folder;

fn two(name: &str) -> Folder {
    let folder = Folder::new(name);
    folder
        .put("e1.txt", "has property 7 \"sealed\"")
        .put("e2.txt", "// the service\nhas property 7 \"frozen\"")
        .put("same.txt", "has property 8 \"sealed\"");
    folder
}

/// Both places are shown, with their lines.
const TWO_WORDS: &str = "\
e2.txt: mistake: line 2, column 16: property 7 is called \"frozen\" here, and \"sealed\" elsewhere (e1.txt:1:16)
  has property 7 \"frozen\"
                 ^
e1.txt:1:16: property 7 is called \"sealed\" there
  has property 7 \"sealed\"
                 ^
  a names file that has property 7 settles it (--names FILE)
";

#[test]
fn two_words_for_one_number_are_a_mistake() {
    let folder = two("two-words");
    let ran = folder.gx(&["compare", "e1.txt", "e2.txt", "--html", "page"]);
    assert_eq!((ran.status, ran.text().as_str()), (2, TWO_WORDS));
    let page = String::from_utf8(folder.get("page")).unwrap();
    assert!(page.contains("Refused</h1>") && page.contains("e1.txt:1:16"));
    let ran = folder.gx(&["compare", "e1.txt", "e2.txt", "--json"]);
    let begin = "{\"answer\":\"mistake\",\"of\":\"e2.txt\",\"line\":2,\"column\":16,";
    assert!(ran.text().starts_with(begin), "{}", ran.text());
    let known =
        "\"known\":{\"file\":\"e1.txt\",\"line\":1,\"column\":16,\"number\":7,\"word\":\"sealed\"}";
    assert!(ran.text().contains(known), "{}", ran.text());
    let ran = folder.gx(&["catalogue", "e1.txt", "e2.txt", "e1.txt"]);
    let lines: Vec<String> = ran.text().lines().map(String::from).collect();
    assert!(lines[0].starts_with("e2.txt: mistake: line 2, column 16: "));
    assert_eq!((ran.status, lines[1].as_str()), (2, "e1.txt: contained"));
    folder.put("s.txt", "specimen\nhas property 7 \"sealed\"");
    assert_eq!(folder.gx(&["fit", "s.txt", "e2.txt"]).status, 2);
    assert_eq!(folder.gx(&["owl", "e1.txt", "e2.txt"]).status, 2);
}

#[test]
fn one_word_for_two_numbers_is_a_mistake() {
    let folder = two("one-word");
    let ran = folder.gx(&["compare", "e1.txt", "same.txt"]);
    let due = "property 8 is called \"sealed\" here, and so is property 7 elsewhere (e1.txt:1:16)";
    assert!(ran.text().contains(due), "{}", ran.text());
    assert_eq!(ran.status, 2);
    // The same word may be that of a property, a link and a description.
    folder.put("link.txt", "at least 1 link 8 \"sealed\"");
    assert_eq!(folder.gx(&["compare", "e1.txt", "link.txt"]).status, 1);
}

#[test]
fn the_words_of_lists_and_dictionaries_clash_too() {
    let folder = two("background-words");
    folder
        .put(
            "soil.pairs",
            "pairs\nproperty 7 \"sand\" excludes property 8 \"clay\"",
        )
        .put(
            "clay.txt",
            "has property 7 \"clay\"; has property 8 \"sand\"",
        )
        .put(
            "d.dictionary",
            "dictionary\ndescription 1 \"core\" [has property 7 \"frozen\"]",
        );
    for args in [
        &["compare", "clay.txt", "clay.txt", "--pairs", "soil.pairs"][..],
        &["check", "clay.txt", "--pairs", "soil.pairs"],
        &["normal", "clay.txt", "--pairs", "soil.pairs"],
        &[
            "compare",
            "e1.txt",
            "e1.txt",
            "--dictionary",
            "d.dictionary",
        ],
        &["show", "e1.txt", "--dictionary", "d.dictionary"],
    ] {
        let ran = folder.gx(args);
        let told = format!("{}{}", ran.text(), ran.err);
        assert_eq!(ran.status, 2, "{args:?} {told}");
        assert!(
            told.contains("is called \"") && told.contains("elsewhere ("),
            "{told}"
        );
    }
    let ran = folder.gx(&[
        "check",
        "e1.txt",
        "--pairs",
        "soil.pairs",
        "--dictionary",
        "d.dictionary",
    ]);
    assert_eq!(ran.status, 2, "{}", ran.text());
}

#[test]
fn the_names_file_settles_words_and_the_answer_says_so() {
    let folder = two("settled-words");
    folder.put("names", "property 7 \"sealed\"");
    let names = ["--names", "names"];
    let ran = folder.gx(&[
        "compare", "e1.txt", "e2.txt", names[0], names[1], "--html", "page",
    ]);
    let note = "e2.txt:2:16 calls property 7 \"frozen\"; the names file calls it \"sealed\", and that word is shown";
    assert!(
        ran.text().ends_with(&format!("\n{note}\n")),
        "{}",
        ran.text()
    );
    assert_eq!(ran.status, 0);
    let page = String::from_utf8(folder.get("page")).unwrap();
    assert!(page.contains("calls property 7 &quot;frozen&quot;; the names file"));
    let ran = folder.gx(&["compare", "e1.txt", "e2.txt", names[0], names[1], "--json"]);
    let settled = "\"settled\":[{\"of\":\"property\",\"sent\":{\"file\":\"e2.txt\",\"line\":2,\"column\":16,\"number\":7,\"word\":\"frozen\"}";
    assert!(ran.text().contains(settled), "{}", ran.text());
    let ran = folder.gx(&["show", "e2.txt", names[0], names[1]]);
    assert_eq!(ran.text(), "has property 7 \"sealed\"\n");
    assert!(ran.err.contains(note), "{}", ran.err);
    let ran = folder.gx(&[
        "catalogue",
        "e1.txt",
        "e2.txt",
        "e1.txt",
        names[0],
        names[1],
    ]);
    assert_eq!(
        ran.text(),
        format!("e2.txt: contained ({note})\ne1.txt: contained\n")
    );
    // A word alone that means two things says nothing.
    folder
        .put("names", "property 7 \"sealed\"\nproperty 8 \"frozen\"")
        .put("alone.txt", "has property 7 \"frozen\"\nlacks frozen");
    let ran = folder.gx(&["check", "alone.txt", names[0], names[1]]);
    assert!(ran
        .text()
        .contains("calls property 8 so, and this text property 7"));
    assert_eq!(ran.status, 2);
}

#[test]
fn nothing_to_do_is_no_yes() {
    let folder = Folder::new("nothing-to-do");
    for name in ["empty", "beside", "deep/below", "deep/a b"] {
        std::fs::create_dir_all(folder.path().join(name)).unwrap();
    }
    folder
        .put("d.txt", "1,7")
        .put("beside/words.names", "link 1 \"sample\"")
        .put("beside/.hidden", "1,7")
        .put("deep/below/x.txt", "1,7")
        .put("deep/a b/x.txt", "1,8");
    for args in [
        &["check", "empty"][..],
        &["normal", "empty"],
        &["compare", "empty", "d.txt"],
        &["compare", "d.txt", "empty"],
        &["fit", "empty", "d.txt"],
        &["catalogue", "d.txt", "empty"],
    ] {
        let ran = folder.gx(args);
        let due = "gx: empty: no input in this folder\n";
        assert_eq!(
            (ran.status, ran.out.len(), ran.err.as_str()),
            (2, 0, due),
            "{args:?}"
        );
    }
    let ran = folder.gx(&["check", "beside", "deep", "d.txt"]);
    let due = "\
gx: beside: no input in this folder; passed over: 1 file of names, pairs, descriptions or settings
gx: deep: no input in this folder; passed over: 2 folders
";
    assert_eq!((ran.status, ran.err.as_str()), (2, due));
    assert!(ran.text().starts_with("d.txt: accepted"));
    let ran = folder.gx(&["check", "empty", "--json"]);
    assert!(ran
        .text()
        .starts_with("{\"answer\":\"no input\",\"of\":\"empty\","));
    assert_eq!(ran.status, 2);
}

#[test]
fn folders_in_folders_are_told_or_read() {
    let folder = Folder::new("recursive");
    std::fs::create_dir_all(folder.path().join("deep/below")).unwrap();
    folder
        .put("d.txt", "1,7")
        .put("deep/x.txt", "1,7")
        .put("deep/below/x.txt", "1,8");
    let ran = folder.gx(&["compare", "deep", "d.txt"]);
    let told = "gx: deep/below: a folder, which is passed over; --recursive takes its files too\n";
    assert_eq!((ran.status, ran.err.as_str()), (0, told));
    for command in ["compare", "catalogue"] {
        let mut args = [command, "deep", "d.txt", "--recursive", "--json"];
        if command == "catalogue" {
            args.swap(1, 2);
        }
        let ran = folder.gx(&args);
        let files: Vec<String> = ran.text().lines().map(|line| line[..25].into()).collect();
        assert_eq!(files.len(), 2, "{}", ran.text());
        assert!(
            files[0].starts_with("{\"file\":\"below/x.txt\","),
            "{files:?}"
        );
        assert_eq!((ran.status, ran.err.as_str()), (1, ""));
    }
    let ran = folder.gx(&["write", "deep", "--recursive", "--out", "blocks"]);
    assert_eq!(ran.status, 0);
    assert_eq!(folder.get("blocks/below/x.txt.blocks").len(), 512);
}

#[test]
fn a_file_s_name_forges_no_line() {
    let folder = Folder::new("forged");
    std::fs::create_dir_all(folder.path().join("in")).unwrap();
    folder
        .put("in/a\nb.txt: contained\u{1b}[2J", "1,7")
        .put("in/c\u{202e}txt.d", "1,7")
        .put("in/plain ü.txt", "hass")
        .put("d.txt", "1,7");
    let ran = folder.gx(&["compare", "in", "d.txt"]);
    let text = ran.text();
    let lines: Vec<&str> = text.lines().collect();
    assert_eq!(
        &lines[..2],
        [
            "\"a\\nb.txt: contained\\033[2J\": contained",
            "\"c\\342\\200\\256txt.d\": contained"
        ]
    );
    assert!(
        lines[2].starts_with("plain ü.txt: mistake: line 1, column 1: "),
        "{text}"
    );
    let ran = folder.gx(&[
        "compare",
        "in/a\nb.txt: contained\u{1b}[2J",
        "in/c\u{202e}txt.d",
        "--html",
        "page",
        "--pairs",
        "none\u{1b}",
    ]);
    assert!(
        ran.err.starts_with("gx: \"none\\033\": cannot be read: "),
        "{}",
        ran.err
    );
    let ran = folder.gx(&[
        "compare",
        "in/a\nb.txt: contained\u{1b}[2J",
        "in/c\u{202e}txt.d",
        "--html",
        "page",
    ]);
    assert_eq!(ran.status, 0);
    let page = String::from_utf8(folder.get("page")).unwrap();
    assert!(!page.contains('\u{1b}') && !page.contains('\u{202e}'));
    assert!(page.contains("<bdi>&quot;a\\nb.txt: contained\\033[2J&quot;</bdi>"));
    let ran = folder.gx(&["compare", "in", "d.txt", "--json"]);
    assert!(
        ran.text().contains("{\"file\":\"c\\u202etxt.d\","),
        "{}",
        ran.text()
    );
    // A line of a text that is quoted clears no screen either.
    folder.put("d.txt", "1,7 // \u{1b}[2J\nhass // \u{1b}[2J");
    let ran = folder.gx(&["check", "d.txt"]);
    assert!(!ran.text().contains('\u{1b}') && ran.text().contains("hass // \u{fffd}[2J"));
}

#[test]
fn words_stand_apart_on_pages() {
    let folder = Folder::new("apart");
    folder
        .put("c.txt", "every link 1 \"עפר\" [has property 7 \"<b>\"]")
        .put(
            "d.txt",
            "every link 1 \"עפר\" [at most 2 link 3; has property 8 \"حمض\"]",
        );
    let ran = folder.gx(&[
        "compare", "c.txt", "d.txt", "--html", "page", "--svg", "drawing",
    ]);
    assert_eq!(ran.status, 1);
    let page = String::from_utf8(folder.get("page")).unwrap();
    for part in [
        "every <bdi>עפר</bdi>",
        "has property <bdi>&lt;b&gt;</bdi>",
        "property <bdi>حمض</bdi>",
    ] {
        assert!(page.contains(part), "{part}");
    }
    let drawing = String::from_utf8(folder.get("drawing")).unwrap();
    assert!(!drawing.contains("bdi") && !drawing.contains('\u{2068}'));
}

#[test]
fn only_a_group_or_a_heading_makes_a_specimen() {
    let folder = Folder::new("many-properties");
    let many: String = (1..=1009).map(|n| format!("has property {n}\n")).collect();
    folder
        .put("many.txt", &many)
        .put("headed.txt", format!("specimen\n{many}"));
    let ran = folder.gx(&["check", "many.txt"]);
    assert!(ran
        .text()
        .contains("refused 1: the input has 17 blocks, and a description has at most 16"));
    assert_eq!(ran.status, 2);
    let ran = folder.gx(&["check", "headed.txt"]);
    assert_eq!(
        ran.text(),
        "accepted: a specimen of 1,009 entries in 17 blocks\n"
    );
    let ran = folder.gx(&["write", "headed.txt", "--out", "s.blocks"]);
    assert_eq!(ran.status, 0);
    assert_eq!(folder.gx(&["check", "s.blocks"]).status, 2);
    let ran = folder.gx(&["show", "s.blocks", "--sort", "specimen"]);
    assert_eq!(
        (ran.status, ran.text()),
        (
            0,
            text::text(
                Sort::Specimen,
                &blocks::decode(&folder.get("s.blocks")),
                &Names::default(),
                Numbers::WhereNeeded
            )
        )
    );
}
