//! No file is lost: an output is no input, and is written whole or not at all.

use std::os::unix::fs::{symlink, PermissionsExt};
use std::process::Command;

use crate::support::Folder;

#[test]
fn an_output_is_no_input() {
    let folder = Folder::new("output-input");
    let text = "has property 7 \"sealed\"\n";
    folder
        .put("x.txt", text)
        .put("y.txt", text)
        .put("n.names", "property 7 \"sealed\"");
    symlink("x.txt", folder.path().join("link.txt")).unwrap();
    std::fs::hard_link(folder.path().join("x.txt"), folder.path().join("hard.txt")).unwrap();
    for args in [
        &["write", "x.txt", "--out", "x.txt"][..],
        &["write", "x.txt", "--out", "./x.txt"],
        &["write", "x.txt", "--out", "link.txt"],
        &["write", "hard.txt", "--out", "x.txt"],
        &["write", "x.txt", "--names", "n.names", "--out", "n.names"],
        &["compare", "x.txt", "y.txt", "--html", "x.txt"],
        &["compare", "x.txt", "y.txt", "--svg", "y.txt"],
        &["compare", "x.txt", "y.txt", "--specimen", "link.txt"],
        &["compare", "x.txt", "y.txt", "--html", "a", "--svg", "a"],
    ] {
        let ran = folder.gx(args);
        assert_eq!((ran.status, ran.out.len()), (64, 0), "{args:?} {}", ran.err);
        assert!(ran.err.starts_with("gx: --"), "{}", ran.err);
    }
    let ran = folder.gx(&["write", "x.txt", "--out", "link.txt"]);
    assert_eq!(
        ran.err,
        "gx: --out would replace link.txt, which is x.txt and is read\n"
    );
    for name in ["x.txt", "y.txt", "hard.txt"] {
        assert_eq!(folder.get(name), text.as_bytes());
    }
    // Standard input may be a file too.
    let script = "\"$0\" write - --out x.txt < x.txt; test $? = 64";
    let ran = Command::new("bash")
        .args(["-c", script, env!("CARGO_BIN_EXE_gx")])
        .current_dir(folder.path())
        .status();
    assert!(ran.unwrap().success());
    assert_eq!(folder.get("x.txt"), text.as_bytes());
}

#[test]
fn an_output_in_a_folder_is_no_input() {
    let folder = Folder::new("output-folder");
    std::fs::create_dir_all(folder.path().join("d")).unwrap();
    folder
        .put("d/a", "1,7")
        .put("d/a.txt", "1,8")
        .put("d/a.html", "1,9");
    let ran = folder.gx(&["show", "d", "--out", "d"]);
    assert_eq!(ran.err, "gx: --out would replace d/a.txt, which is read\n");
    assert_eq!((ran.status, ran.out.len()), (64, 0));
    let ran = folder.gx(&["compare", "d", "d/a", "--html", "d"]);
    assert_eq!(ran.status, 64);
    assert_eq!(folder.get("d/a.txt"), b"1,8");
    assert_eq!(folder.get("d/a.html"), b"1,9");
}

/// Runs the program where no file may grow beyond this many KiB, as on a full disk.
fn with_room(folder: &Folder, room: usize, args: &[&str]) -> (i32, String) {
    let script = format!("trap '' XFSZ; ulimit -f {room}; exec \"$0\" \"$@\"");
    let ran = Command::new("bash")
        .args(["-c", &script, env!("CARGO_BIN_EXE_gx")])
        .args(args)
        .current_dir(folder.path())
        .output()
        .unwrap();
    (
        ran.status.code().unwrap(),
        String::from_utf8(ran.stderr).unwrap(),
    )
}

#[test]
fn on_a_full_disk_the_old_file_stands_whole() {
    let folder = Folder::new("full-disk");
    folder
        .put("c", "1,7")
        .put("d", "1,8")
        .put("page", "old")
        .put("out", "old");
    let (status, told) = with_room(&folder, 1, &["compare", "c", "d", "--html", "page"]);
    assert_eq!(
        (status, told.as_str()),
        (2, "gx: page: cannot be written: file too large\n")
    );
    assert_eq!(folder.get("page"), b"old");
    let long: String = (1..=200).map(|n| format!("1,{n}\n")).collect();
    folder.put("long", long);
    let (status, _) = with_room(&folder, 1, &["write", "long", "--out", "out"]);
    assert_eq!((status, folder.get("out")), (2, b"old".to_vec()));
    let beside = std::fs::read_dir(folder.path()).unwrap();
    let beside = beside.filter(|file| {
        let name = file.as_ref().unwrap().file_name();
        name.to_string_lossy().starts_with(".gx")
    });
    assert_eq!(beside.count(), 0, "nothing is left beside it");
    let (status, _) = with_room(&folder, 100, &["compare", "c", "d", "--html", "page"]);
    assert_eq!(status, 1);
    assert!(folder.get("page").starts_with(b"<!DOCTYPE html>"));
}

#[test]
fn on_a_full_disk_the_desk_stands_whole() {
    let folder = Folder::new("full-desk");
    folder.gx(&["desk", "d", "add", "1,7"]);
    let before = folder.get("d");
    for (step, due) in [(&["add", "1,8"][..], "d~"), (&["show"], "page")] {
        let step = [&["desk", "d"], step, &["--html", "page"]].concat();
        let due = format!("gx: {due}: cannot be written: file too large\n");
        assert_eq!(with_room(&folder, 1, &step), (2, due));
        assert_eq!(folder.get("d"), before);
        for none in ["d~", "d.lock", "page"] {
            assert!(!folder.path().join(none).exists(), "{none}");
        }
    }
}

#[test]
fn links_modes_and_devices_stay() {
    let folder = Folder::new("stay");
    folder.put("c", "1,7").put("target", "old");
    symlink("target", folder.path().join("link")).unwrap();
    let target = folder.path().join("target");
    std::fs::set_permissions(&target, PermissionsExt::from_mode(0o640)).unwrap();
    assert_eq!(folder.gx(&["write", "c", "--out", "link"]).status, 0);
    assert!(folder.path().join("link").is_symlink());
    assert_eq!(folder.get("target").len(), 512);
    assert_eq!(
        std::fs::metadata(&target).unwrap().permissions().mode() & 0o777,
        0o640
    );
    assert_eq!(folder.gx(&["write", "c", "--out", "/dev/null"]).status, 0);
    assert_eq!(
        folder
            .gx(&[
                "write",
                "/dev/null",
                "--sort",
                "pairs",
                "--from",
                "blocks",
                "--out",
                "/dev/null"
            ])
            .status,
        0
    );
    let ran = folder.gx(&["write", "c", "--out", "none/c"]);
    assert_eq!(
        (ran.status, ran.err.as_str()),
        (
            2,
            "gx: none/c: cannot be written: no such file or directory\n"
        )
    );
}
