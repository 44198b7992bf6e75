//! Pages and drawings, byte for byte as they were looked at. `GX_GOLDEN=write cargo test golden` writes them anew; look at them
//! in a browser before they are kept.

use std::path::Path;

use crate::support::{repository, without_given, Folder};

const NAMES: &str = "link 1 \"sample\" \"samples\"\nlink 2 \"core\" \"cores\"\nlink 32768 \"field\" \"fields\"\nproperty 7 \"sealed\"\nproperty 8 \"<wet & 'cold'>\"\n";

pub fn is_golden(name: &str, bytes: &[u8]) {
    let path = Path::new(env!("CARGO_MANIFEST_DIR"))
        .join("tests/golden")
        .join(name);
    let text = without_given(&String::from_utf8_lossy(bytes));
    let bytes = text.as_bytes();
    if std::env::var_os("GX_GOLDEN").is_some_and(|value| value == "write") {
        std::fs::write(&path, bytes).unwrap();
    }
    let golden = std::fs::read(&path).unwrap_or_default();
    let (golden, bytes) = (
        String::from_utf8_lossy(&golden),
        String::from_utf8_lossy(bytes),
    );
    let line = (1..)
        .zip(golden.lines().zip(bytes.lines()))
        .find(|(_, (due, is))| due != is);
    assert!(golden == bytes, "{name} is not as it was: {line:?}");
}

/// The page and the drawing of two texts.
fn both(name: &str, c: &str, d: &str) {
    both_under(name, "pairs", c, d);
}

/// The same under a list, which has no pairs where it is only its heading.
fn both_under(name: &str, pairs: &str, c: &str, d: &str) {
    both_with(name, pairs, "dictionary", c, d);
}

/// The same with a dictionary, which has no descriptions where it is only its heading.
fn both_with(name: &str, pairs: &str, dictionary: &str, c: &str, d: &str) {
    let folder = Folder::new(&format!("golden-{name}"));
    folder
        .put("names", NAMES)
        .put("laboratory.pairs", pairs)
        .put("laboratory.dictionary", dictionary)
        .put("supplier.txt", c)
        .put("service.txt", d);
    let args = [
        "compare",
        "supplier.txt",
        "service.txt",
        "--names",
        "names",
        "--pairs",
        "laboratory.pairs",
        "--dictionary",
        "laboratory.dictionary",
        "--html",
        "page",
        "--svg",
        "drawing",
    ];
    let ran = folder.gx(&args);
    assert!(ran.status < 2, "{}{}", ran.text(), ran.err);
    is_golden(&format!("{name}.html"), &folder.get("page"));
    is_golden(&format!("{name}.svg"), &folder.get("drawing"));
    let again = folder.gx(&args);
    assert_eq!(ran, again);
    is_golden(&format!("{name}.html"), &folder.get("page"));
}

#[test]
fn the_sample_page_of_the_readme() {
    let read = |name: &str| std::fs::read_to_string(repository(name)).unwrap();
    let folder = Folder::new("golden-readme");
    folder
        .put("supplier.txt", read("examples/supplier.txt"))
        .put("service.txt", read("examples/service.txt"))
        .put("names", read("examples/laboratory.names"));
    let ran = folder.gx(&[
        "compare",
        "supplier.txt",
        "service.txt",
        "--names",
        "names",
        "--html",
        "page.html",
    ]);
    assert_eq!(ran.status, 1);
    is_golden("readme.html", &folder.get("page.html"));
    is_golden("readme.txt", &ran.out);
}

#[test]
fn a_property_too_many() {
    both(
        "lacks",
        "every sample [has sealed; has property 9]; at least 3 sample",
        "every sample [lacks property 8]",
    );
}

#[test]
fn a_property_too_few() {
    both(
        "has",
        "at least 2 core; every core [at least 1 sample]",
        "every core [every sample [has sealed]]",
    );
}

#[test]
fn an_item_too_few() {
    both(
        "at-least",
        "at least 1 sample; at most 5 sample",
        "at least 65535 sample",
    );
}

#[test]
fn more_than_a_link_leads_to() {
    both(
        "one-item",
        "at least 2 sample; every sample [at least 1 field; at most 3 field]",
        "every sample [at most 1 field; at least 2 field]",
    );
}

#[test]
fn named_descriptions() {
    let dictionary = "description 1 \"cold <core>\" [has property 8; at most 2 sample]\n\
                      description 2 [named 1; at least 1 core; every core [named 1]]\n";
    both_with(
        "named",
        "pairs",
        dictionary,
        "has sealed; lacks property 9; at least 2 sample; every sample [named 1; every core [named 1]]",
        "lacks property 9\nevery sample [\n    named 2\n]",
    );
}

#[test]
fn properties_that_exclude_each_other() {
    let pairs = "sealed excludes property 8; property 9 \"loam\" excludes sealed";
    let c = "at least 2 sample; every sample [has sealed]";
    both_under(
        "excluding",
        pairs,
        c,
        "every sample [lacks property 9; has property 8]",
    );
    both_under("excluding-yes", pairs, c, "every sample [lacks property 8]");
}

#[test]
fn nothing_fits() {
    both("nothing", "description", "every sample [nothing fits]");
}

#[test]
fn contained() {
    both(
        "contained",
        "has sealed; at most 0 core",
        "every core [nothing fits]; at most 3 core; every sample []",
    );
}

#[test]
fn refused() {
    let folder = Folder::new("golden-refused");
    folder.put("supplier.txt", "1,7").put("service.blocks", "");
    let ran = folder.gx(&[
        "compare",
        "supplier.txt",
        "service.blocks",
        "--html",
        "page",
    ]);
    assert_eq!(ran.status, 2);
    is_golden("refused.html", &folder.get("page"));
}

#[test]
fn a_large_page_folds_its_places() {
    let folder = Folder::new("golden-large");
    let c: String = (1..=1008).map(|n| format!("has property {n}\n")).collect();
    let d: String = (2..=1009).map(|n| format!("has property {n}\n")).collect();
    folder.put("c", c).put("d", d);
    let ran = folder.gx(&["compare", "c", "d", "--html", "page"]);
    assert_eq!(ran.status, 1);
    let page = String::from_utf8(folder.get("page")).unwrap();
    assert!(page.contains("entries of this place, 1 to 50</summary>"));
    assert_eq!(page.matches("class=\"e fails\"").count(), 2);
    let folded = page.matches("<details").count() - page.matches("<details open").count();
    assert!(folded >= 40, "{folded} places are folded");
    // A specimen with many groups of one place folds too.
    let c: String = (1..=1008)
        .map(|n| format!("at least 1 link {n}\n"))
        .collect();
    folder.put("c", c).put("d", "at most 0 link 77");
    let ran = folder.gx(&["compare", "c", "d", "--html", "page", "--svg", "drawing"]);
    assert_eq!(ran.status, 1);
    let page = String::from_utf8(folder.get("page")).unwrap();
    assert!(page.contains("<summary>50 groups, 1 item by link 1 to 1 item by link 50</summary>"));
    let drawing = String::from_utf8(folder.get("drawing")).unwrap();
    assert!(drawing.contains("1,004 groups more here, not drawn"));
    let ran = folder.gx(&["compare", "c", "d", "--whole", "--svg", "drawing"]);
    assert_eq!(ran.status, 1);
    let drawing = String::from_utf8(folder.get("drawing")).unwrap();
    assert_eq!(drawing.matches("<g>").count(), 1009);
}

#[test]
fn the_way_to_the_marked_entry_is_open() {
    let folder = Folder::new("golden-open");
    let section = |n: u16| {
        format!(
            "every link {n} [ every link 1 [ at most {} link 2; 1,7 ] ]\n",
            n % 7
        )
    };
    let c: String = (100..160).map(section).collect();
    let d = c.replacen("at most 4 link 2", "at most 3 link 2", 1);
    folder.put("c", c).put("d", d);
    assert_eq!(
        folder.gx(&["compare", "c", "d", "--html", "page"]).status,
        1
    );
    let page = String::from_utf8(folder.get("page")).unwrap();
    let at = page.find("<mark>").unwrap();
    let before = &page[page.find("id=\"service\"").unwrap()..at];
    let row = before.rfind("<li id=\"service-").unwrap();
    let entry: usize = before[row + 16..]
        .split('"')
        .next()
        .unwrap()
        .parse()
        .unwrap();
    for (side, owner) in [
        ("service", entry - 1),
        ("service", entry - 2),
        ("supplier", entry - 1),
    ] {
        let open = format!("<li id=\"{side}-{owner}\"><details open>");
        assert!(page.contains(&open), "{open}");
    }
    let open = page.matches("<details open>").count();
    assert_eq!(
        open,
        2 + 2 + 3,
        "the ways in both descriptions and in the specimen"
    );
}

#[test]
fn pages_load_nothing_and_name_no_folder() {
    for file in
        std::fs::read_dir(Path::new(env!("CARGO_MANIFEST_DIR")).join("tests/golden")).unwrap()
    {
        let page = std::fs::read_to_string(file.unwrap().path()).unwrap();
        for outside in [
            "src=", "@import", "url(", "<script", "<link", "/tmp", "/home",
        ] {
            assert!(!page.contains(outside), "{outside}");
        }
        let addresses = page.matches("http").count();
        assert_eq!(
            addresses,
            page.matches("xmlns=\"http://www.w3.org/2000/svg\"").count()
        );
    }
}

#[test]
fn a_long_way_folds_in_the_middle() {
    let folder = Folder::new("golden-deep");
    let deep = |inner: &str| "every link 1 [".repeat(31) + inner + &"]".repeat(31);
    let c: String = (0..31)
        .map(|depth| {
            "every link 1 [".repeat(depth) + "at least 1 link 1" + &"]".repeat(depth) + "\n"
        })
        .collect();
    folder.put("c", c).put("d", deep("has property 7"));
    let args = ["compare", "c", "d", "--html", "page", "--svg", "drawing"];
    assert_eq!(folder.gx(&args).status, 1);
    let drawing = String::from_utf8(folder.get("drawing")).unwrap();
    assert!(
        drawing.contains("25 more on this way, not drawn"),
        "{drawing}"
    );
    assert_eq!(drawing.matches("<g>").count(), 1 + 3 + 1 + 3);
    assert!(drawing.contains("✕ fails here"));
    let page = String::from_utf8(folder.get("page")).unwrap();
    let told = "every item by link 1 reached by link 1 › link 1 › link 1 › 25 more › link 1 › link 1 › link 1 has property 7";
    assert!(page.contains(told));
    let ran = folder.gx(&[&args[..], &["--whole"]].concat());
    assert_eq!(ran.status, 1);
    let drawing = String::from_utf8(folder.get("drawing")).unwrap();
    assert_eq!(drawing.matches("<g>").count(), 32);
}

#[test]
fn a_very_long_word_is_cut() {
    let folder = Folder::new("golden-long-word");
    let word = "wort".repeat(1250);
    folder
        .put("c", format!("has property 7 \"{word}\""))
        .put("d", format!("lacks property 7 \"{word}\""));
    let args = ["compare", "c", "d", "--html", "page", "--svg", "drawing"];
    assert_eq!(folder.gx(&args).status, 1);
    let drawing = String::from_utf8(folder.get("drawing")).unwrap();
    assert!(!drawing.contains(&word) && drawing.contains("wort…"));
    let width = drawing
        .split("width=\"")
        .nth(1)
        .unwrap()
        .split('"')
        .next()
        .unwrap();
    assert!(width.parse::<f64>().unwrap() < 800.0, "{width}");
    let page = String::from_utf8(folder.get("page")).unwrap();
    assert!(page.contains(&format!("<bdi class=\"long\">{word}</bdi>")));
}

#[test]
fn what_is_folded_is_told_on_paper() {
    let folder = Folder::new("golden-paper");
    folder.put("c", "1,7").put("d", "1,8");
    assert_eq!(
        folder.gx(&["compare", "c", "d", "--html", "page"]).status,
        1
    );
    let page = String::from_utf8(folder.get("page")).unwrap();
    let paper = page.split_once("@media print{").unwrap().1;
    let folded = "details:not([open])>summary .w::after,.run:not([open])>summary::after{content:\" \\00B7 folded\"";
    assert!(paper.contains(folded));
    assert!(paper.contains(".draw svg{max-height:225mm"));
}
