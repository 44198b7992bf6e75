//! Folders of files: a line for each, and one bad file stops none of the others.

use crate::support::Folder;

fn desk(name: &str) -> Folder {
    let folder = Folder::new(name);
    for name in ["suppliers", "services"] {
        std::fs::create_dir(folder.path().join(name)).unwrap();
    }
    folder
        .put("suppliers/a.txt", "1,7; 3,1,1")
        .put("suppliers/b.txt", "hass property 7")
        .put("suppliers/c.blocks", "")
        .put("suppliers/d.txt", "1,7; 4,1,0")
        .put("suppliers/.hidden", "1,7")
        .put("suppliers/words.names", "link 1 \"sample\"")
        .put("services/one.txt", "1,7")
        .put("services/two.txt", "4,1,0");
    folder
}

#[test]
fn a_line_for_each_file() {
    let folder = desk("lines");
    let ran = folder.gx(&["check", "suppliers"]);
    let due = "\
a.txt: accepted: a description of 2 entries in 1 block
b.txt: mistake: line 1, column 1: expected an entry (has, lacks, at least, at most, every, nothing fits, named, group, or kind,name,number), found 'hass'; did you mean 'has'?
c.blocks: refused 1: the input is empty: it has 0 bytes, and the least is one block of 512
d.txt: accepted: a description of 2 entries in 1 block
";
    assert_eq!(
        (ran.status, ran.text().as_str(), ran.err.as_str()),
        (2, due, "")
    );
    let ran = folder.gx(&[
        "normal",
        "suppliers/a.txt",
        "suppliers/none.txt",
        "suppliers/d.txt",
    ]);
    assert_eq!(ran.status, 2);
    assert!(
        ran.text().starts_with(
            "a.txt: 2 entries, 2 in normal form: 1,7; 3,1,1\nnone.txt: cannot be read: "
        ),
        "{}",
        ran.text()
    );
    assert!(ran
        .text()
        .ends_with("d.txt: 2 entries, 2 in normal form: 1,7; 4,1,0\n"));
}

#[test]
fn a_line_for_each_pair() {
    let folder = desk("pair-lines");
    let ran = folder.gx(&[
        "compare",
        "suppliers",
        "services/two.txt",
        "--html",
        "pages",
    ]);
    let lines: Vec<String> = ran.text().lines().map(String::from).collect();
    assert_eq!(
        lines[0],
        "a.txt: not contained, entry 1: of the top item, at most 0 items by link 1"
    );
    assert_eq!(
        (lines.len(), lines[3].as_str(), ran.status),
        (4, "d.txt: contained", 2)
    );
    let page = |name: &str| String::from_utf8(folder.get(&format!("pages/{name}.html"))).unwrap();
    assert!(page("a.txt").contains("Not contained</h1>"));
    assert!(page("c.blocks").contains("Refused</h1>"));
    assert!(page("d.txt").contains("> Contained</h1>"));
    let ran = folder.gx(&["compare", "suppliers/d.txt", "services"]);
    assert_eq!(
        (ran.status, ran.text().as_str()),
        (0, "one.txt: contained\ntwo.txt: contained\n")
    );
    let ran = folder.gx(&["compare", "services", "services", "--json"]);
    let lines: Vec<String> = ran.text().lines().map(String::from).collect();
    assert_eq!(
        lines[0],
        "{\"file\":\"one.txt and one.txt\",\"answer\":\"contained\",\"earning\":[1]}"
    );
    assert_eq!((lines.len(), ran.status), (4, 1));
}

#[test]
fn the_file_of_a_mistake_is_named() {
    let folder = desk("mistaken-side");
    let ran = folder.gx(&["compare", "suppliers/b.txt", "services"]);
    let begin = "one.txt: b.txt: mistake: line 1, column 1: ";
    assert!(ran.text().starts_with(begin), "{}", ran.text());
    let ran = folder.gx(&["compare", "suppliers", "services"]);
    let told = "\nb.txt and two.txt: b.txt: mistake: line 1, column 1: ";
    assert!(ran.text().contains(told), "{}", ran.text());
    let ran = folder.gx(&["compare", "suppliers/b.txt", "services", "--json"]);
    let begin = "{\"file\":\"one.txt\",\"answer\":\"mistake\",\"of\":\"b.txt\",\"line\":1,";
    assert!(ran.text().starts_with(begin), "{}", ran.text());
}

#[test]
fn an_answer_names_no_folder() {
    let folder = desk("no-folder");
    folder.put("services/c.blocks", "");
    for args in [
        &["check", "suppliers/c.blocks"][..],
        &["compare", "suppliers/c.blocks", "services/one.txt"],
    ] {
        let ran = folder.gx(args);
        assert!(ran.text().starts_with("c.blocks: refused 1: "), "{args:?}");
    }
    // Only the folder tells these apart.
    let ran = folder.gx(&["compare", "suppliers/c.blocks", "services/c.blocks"]);
    assert!(ran.text().starts_with("suppliers/c.blocks: refused 1: "));
}

#[test]
fn files_for_each_file() {
    let folder = desk("files");
    let ran = folder.gx(&["write", "suppliers", "--out", "blocks"]);
    assert_eq!(ran.status, 2);
    let ran = folder.gx(&["show", "blocks", "--out", "texts", "--to", "desk"]);
    assert_eq!(
        (ran.status, ran.text().as_str()),
        (0, "a.txt.blocks: 1,7; 3,1,1\nd.txt.blocks: 1,7; 4,1,0\n")
    );
    assert_eq!(folder.get("texts/a.txt.blocks.txt"), b"1,7; 3,1,1\n");
    let ran = folder.gx(&[
        "show",
        "suppliers/a.txt",
        "./suppliers/a.txt",
        "--out",
        "twice",
    ]);
    assert_eq!((ran.status, ran.out.len()), (64, 0));
    assert!(
        ran.err.contains("two inputs are called a.txt"),
        "{}",
        ran.err
    );
}
