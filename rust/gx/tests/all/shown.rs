//! Pages of one file: a field sheet as a form for paper, other descriptions as lists, and what else is shown as its text.

use reference::encode;
use reference::notation::entries;

use crate::support::Folder;

/// The page of a file, which is printed as text beside it.
fn page(folder: &Folder, file: &str, more: &[&str]) -> String {
    let ran = folder.gx(&[&["show", file, "--html", "page"], more].concat());
    assert_eq!((ran.status, ran.err.as_str()), (0, ""), "{file}");
    assert!(!ran.out.is_empty());
    String::from_utf8(folder.get("page")).unwrap()
}

#[test]
fn a_field_sheet_as_a_form() {
    let folder = Folder::new("shown-form");
    folder
        .put(
            "names",
            "link 1 \"sample\" \"samples\"\nproperty 7 \"<dry>\"",
        )
        .put("d", "3,1,1; 5,1 [1,7; 4,3,99]");
    let form = page(&folder, "d", &["--names", "names"]);
    assert!(form.contains("<title>Field sheet: d</title>"));
    for blank in ["Supplier", "Field", "Date", "Signed"] {
        assert!(form.contains(&format!("<span>{blank}</span>")), "{blank}");
    }
    assert!(form.contains("has property <bdi>&lt;dry&gt;</bdi>"));
    assert!(!form.contains("<script"));
    // The same with the option; what is no sheet is refused with it, and has a page of another kind without.
    assert_eq!(page(&folder, "d", &["--names", "names", "--sheet"]), form);
    folder.put("d", "3,1,100; 2,7");
    let plain = page(&folder, "d", &[]);
    assert!(plain.contains("<title>d</title>") && !plain.contains("Signed"));
    assert!(plain.contains("A description of 2 entries."));
    let ran = folder.gx(&["show", "d", "--sheet", "--html", "page"]);
    assert_eq!((ran.status, ran.out.len()), (2, 0));
    assert!(ran.err.contains("refused 19"), "{}", ran.err);
    let refused = String::from_utf8(folder.get("page")).unwrap();
    assert!(refused.contains("<title>Refused</title>"));
}

/// On paper nothing can be opened, so no line of a form is folded.
#[test]
fn a_long_form_has_each_line() {
    let folder = Folder::new("shown-long");
    let many: Vec<String> = (1..=500).map(|n| format!("3,{n},1")).collect();
    folder.put("d", format!("5,1 [{}]; 5,2 [1,7]", many.join("; ")));
    let form = page(&folder, "d", &[]);
    assert!(!form.contains("class=\"run\""));
    assert_eq!(form.matches("<details open>").count(), 2);
    assert_eq!(form.matches("<details>").count(), 0);
    assert!(form.contains("at least 1 item by link 500<"));
}

#[test]
fn what_is_no_plain_description() {
    let folder = Folder::new("shown-text");
    for (name, text, what) in [
        ("s", "specimen\ngroup of 2 link 1", "A specimen of 1 entry."),
        (
            "n",
            "named 1; has property 7",
            "A description of 2 entries.",
        ),
        ("p", "pairs: 7,8", "a list of 1 pair."),
        ("y", "dictionary: [1,7]", "a dictionary of 1 description."),
        ("v", "services: [1,7]; []", "a list of 2 services."),
        (
            "r",
            "record of 2 items\nitem 1 link 3 item 2",
            "a record of 2 items, 1 entry in 1 block.",
        ),
    ] {
        folder.put(name, text);
        let page = page(&folder, name, &[]);
        assert!(page.contains(&format!("<p>{what}</p>")), "{what}: {page}");
        assert!(page.contains("<pre>"), "{name}");
    }
}

/// Of several files each has a page in the folder, and an index leads to them.
#[test]
fn several_files() {
    let folder = Folder::new("shown-several");
    folder
        .put("a", encode(&entries("1,7")))
        .put("b", encode(&entries("2,7")));
    let ran = folder.gx(&["show", "a", "b", "--html", "pages"]);
    assert_eq!(ran.status, 0, "{}", ran.err);
    for (name, what) in [("a", "Field sheet"), ("b", "A description of 1 entry.")] {
        let page = String::from_utf8(folder.get(&format!("pages/{name}.html"))).unwrap();
        assert!(page.contains(what), "{name}");
    }
}
