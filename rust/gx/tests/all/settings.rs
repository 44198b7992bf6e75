//! A laboratory's settings, and that each answer says under what it is given.

use std::process::Command;

use crate::support::Folder;

const NAMES: &str = "property 7 \"clay\"\nproperty 8 \"sand\"";

/// A laboratory with a list under which clay samples lack sand, and a folder in it.
fn laboratory(name: &str) -> Folder {
    let folder = Folder::new(name);
    std::fs::create_dir_all(folder.path().join("desk/one")).unwrap();
    folder
        .put(
            "laboratory.gx",
            "// ours\nnames lab.names\npairs \"soil; new.pairs\"\n\ndictionary lab.dictionary\n",
        )
        .put("lab.names", NAMES)
        .put("soil; new.pairs", "clay excludes sand")
        .put(
            "lab.dictionary",
            "dictionary\ndescription 1 \"clay core\" [has clay]",
        )
        .put("desk/one/c.txt", "named clay core")
        .put("desk/one/d.txt", "lacks sand");
    folder
}

/// Runs the program in the innermost folder.
fn gx(folder: &Folder, args: &[&str], lab: Option<&str>) -> (i32, String, String) {
    let mut command = Command::new(env!("CARGO_BIN_EXE_gx"));
    command
        .args(args)
        .current_dir(folder.path().join("desk/one"));
    if let Some(lab) = lab {
        command.env("GX_LAB", lab);
    }
    let ran = command.output().unwrap();
    let text = |bytes| String::from_utf8(bytes).unwrap();
    (
        ran.status.code().unwrap(),
        text(ran.stdout),
        text(ran.stderr),
    )
}

#[test]
fn are_found_above_and_told() {
    let folder = laboratory("lab-found");
    let (status, out, err) = gx(
        &folder,
        &["compare", "c.txt", "d.txt", "--html", "page"],
        None,
    );
    assert_eq!((status, err.as_str()), (0, ""), "{out}");
    let given = out.lines().last().unwrap();
    let hash = gx::sha256::digest(NAMES.as_bytes());
    assert!(
        given.starts_with(&format!(
            "given: names file lab.names (SHA-256 {hash}), list of pairs soil; new.pairs (SHA-256 "
        )),
        "{given}"
    );
    assert!(given.contains(", by laboratory.gx; gx "), "{given}");
    assert!(
        given.contains(", library ") && given.contains(" by "),
        "{given}"
    );
    let page = String::from_utf8(folder.get("desk/one/page")).unwrap();
    assert!(
        page.contains(&hash)
            && page.contains("<p class=\"given\">Given: <bdi>names file lab.names")
    );
    let (status, out, _) = gx(&folder, &["compare", "c.txt", "d.txt", "--json"], None);
    assert!(
        out.contains(&format!(
            "\"names\":{{\"file\":\"lab.names\",\"sha256\":\"{hash}\"}},\"pairs\":{{"
        )),
        "{out}"
    );
    assert!(out.contains("\"settings\":{\"file\":\"laboratory.gx\",") && status == 0);
    // Commands that take no list and no dictionary are given the names alone.
    let (status, out, _) = gx(&folder, &["unfold", "c.txt", "--json"], None);
    assert!(
        out.contains("\"pairs\":null,\"dictionary\":{") && status == 0,
        "{out}"
    );
}

#[test]
fn can_be_ruled_out_or_replaced() {
    let folder = laboratory("lab-replaced");
    let (status, out, _) = gx(&folder, &["compare", "c.txt", "d.txt", "--no-lab"], None);
    assert_eq!(status, 2, "no word is known: {out}");
    folder
        .put("none.pairs", "pairs")
        .put("other.gx", "names lab.names\ndictionary lab.dictionary");
    let args = ["compare", "c.txt", "d.txt", "--pairs", "../../none.pairs"];
    let (status, out, _) = gx(&folder, &args, None);
    assert_eq!(status, 1);
    assert!(out.contains("list of pairs none.pairs (SHA-256 "), "{out}");
    let (status, out, _) = gx(
        &folder,
        &["compare", "c.txt", "d.txt"],
        Some("../../other.gx"),
    );
    assert_eq!(status, 1);
    assert!(
        out.contains(", no list of pairs, dictionary lab.dictionary "),
        "{out}"
    );
    let (status, _, err) = gx(&folder, &["compare", "c.txt", "d.txt"], Some("none.gx"));
    assert_eq!(
        (status, err.as_str()),
        (
            2,
            "gx: none.gx: cannot be read: no such file or directory\n"
        )
    );
}

#[test]
fn mistakes_in_them_are_told() {
    for (text, line, expected) in [
        (
            "name lab.names",
            "laboratory.gx:1:1: ",
            "'names', 'pairs' or 'dictionary'",
        ),
        (
            "names lab.names\nnames lab.names",
            "laboratory.gx:2:1: ",
            "each setting once",
        ),
        ("names\n", "laboratory.gx:1:6: ", "a file"),
        ("names a; b", "laboratory.gx:1:8: ", "stands in quotes"),
    ] {
        let folder = laboratory("lab-mistakes");
        folder.put("laboratory.gx", text);
        let (status, out, err) = gx(&folder, &["check", "d.txt"], None);
        assert_eq!((status, out.as_str()), (2, ""), "{text}");
        assert!(err.contains(line) && err.contains(expected), "{err}");
    }
    let folder = laboratory("lab-output");
    let (status, _, err) = gx(
        &folder,
        &["write", "c.txt", "--out", "../../laboratory.gx"],
        None,
    );
    assert!(status == 64 && err.contains("would replace"), "{err}");
}

#[test]
fn each_answer_says_under_what_it_is_given() {
    let folder = Folder::new("given");
    folder
        .put("d.txt", "1,7")
        .put("s.txt", "specimen\n1,7")
        .put("bad", "");
    for args in [
        &["check", "d.txt"][..],
        &["check", "bad"],
        &["fit", "s.txt", "d.txt"],
        &["compare", "d.txt", "d.txt"],
    ] {
        let ran = folder.gx(args);
        let whole = ran.whole();
        let last = whole.lines().last().unwrap();
        assert!(
            last.starts_with("given: no names file, no list of pairs, no dictionary; gx "),
            "{last}"
        );
    }
    for args in [
        &["show", "d.txt"][..],
        &["catalogue", "d.txt", "d.txt"],
        &["check", "bad"],
    ] {
        let ran = folder.gx(&[args, &["--json"]].concat());
        for line in ran.whole().lines() {
            assert!(
                line.contains(",\"given\":{\"gx\":\"") && line.ends_with("}}"),
                "{line}"
            );
        }
    }
    // Data says nothing but itself.
    assert_eq!(folder.gx(&["show", "d.txt"]).whole(), "has property 7\n");
}

#[test]
fn the_sums_are_those_of_sha256sum() {
    let folder = Folder::new("sums");
    for length in [0, 1, 55, 56, 63, 64, 65, 119, 120, 1000, 8192] {
        let bytes: Vec<u8> = (0..length).map(|at| (at * 7 % 251) as u8).collect();
        folder.put("bytes", &bytes);
        let ran = Command::new("sha256sum")
            .arg(folder.path().join("bytes"))
            .output()
            .unwrap();
        let due = String::from_utf8(ran.stdout).unwrap();
        assert_eq!(
            gx::sha256::digest(&bytes),
            due.split_whitespace().next().unwrap()
        );
    }
}
