//! The drafting desk: steps from the command line and from standard input, the file before, and what is refused.

use std::io::{Read, Write};
use std::process::{Child, Command, Stdio};

use crate::support::{Folder, Ran};

fn is(ran: &Ran, status: i32, out: &str) {
    assert_eq!(
        (ran.status, ran.text().as_str(), ran.err.as_str()),
        (status, out, "")
    );
}

#[test]
fn step_by_step() {
    let folder = Folder::new("desk-steps");
    folder.put("names", "link 1 \"sample\"\nproperty 7 \"sealed\"\n");
    let step = |words: &[&str]| folder.gx(&[&["desk", "d", "--names", "names"], words].concat());
    is(
        &step(&["add", "every", "sample"]),
        0,
        "1 entry on the desk\n",
    );
    is(
        &step(&["add in 1 has sealed"]),
        0,
        "2 entries on the desk\n",
    );
    is(&step(&["stand", "3"]), 0, "2 entries on the desk\n");
    is(&step(&["add", "2,8"]), 0, "3 entries on the desk\n");
    let due = "#1 every link 1 \"sample\" [\n    #2 has property 7 \"sealed\"\n]\n#3 lacks property 8\n// stand 3: 2 entries\n";
    is(&step(&["show"]), 0, due);
    is(&step(&["write", "--to", "desk"]), 0, "5,1 [1,7]; 2,8\n");
    is(&step(&["write", "--to", "blocks", "-o", "out"]), 0, "");
    is(
        &folder.gx(&["show", "out", "--to", "desk"]),
        0,
        "5,1 [1,7]; 2,8\n",
    );
    is(&step(&["back", "3"]), 0, "2 entries on the desk\n");
    is(&step(&["drop", "3"]), 0, "2 entries on the desk\n");
    let ran = step(&["back", "3"]);
    assert_eq!(
        ran.err,
        "gx: d: refused 18: the desk has no stand 3; it has none\n"
    );
    is(&step(&["take-off"]), 0, "1 entry on the desk\n");
    let ran = step(&["show", "--json"]);
    let due = "{\"answer\":\"drafted\",\"entries\":[{\"entry\":1,\"kind\":5,\"owner\":0,\"link\":1,\"word\":\"sample\"}],\"stands\":[]}\n";
    is(&ran, 0, due);
    is(
        &step(&["add", "6", "--json"]),
        0,
        "{\"answer\":\"drafted\",\"entries\":2}\n",
    );
    is(&step(&["add", "6", "-q"]), 0, "");
}

#[test]
fn line_by_line() {
    let folder = Folder::new("desk-lines");
    let lines = b"add 1,7\n\nadd 1,0\ntake-of\ntake-off\ntake-off\nshow\n";
    let ran = folder.gx_with(&["desk", "d"], lines);
    assert_eq!(ran.status, 2);
    assert_eq!(
        ran.text(),
        "1 entry on the desk\n0 entries on the desk\ndescription\n"
    );
    let due = "\
gx: d: refused 4: entry 2: its name is 0, and kind 1 has 1 to 65,535
gx: expected add, take-off, stand, back, drop, show, write, found 'take-of'; did you mean 'take-off'?
gx: d: refused 17: the desk holds no entry that could be taken off
";
    assert_eq!(ran.err, due);
}

/// The desk before a step is beside the file; a file that is no desk tells which has it; two do not work at one.
#[test]
fn the_file() {
    let folder = Folder::new("desk-file");
    folder.gx(&["desk", "d", "add", "1,7"]);
    let before = folder.get("d");
    folder.gx(&["desk", "d", "add", "1,8"]);
    assert_eq!(folder.get("d~"), before);
    assert_eq!(folder.get("d").len(), goltximen::DESK_BYTES);
    folder.put("d", &before[..100]);
    let ran = folder.gx(&["desk", "d", "show"]);
    let due =
        "gx: d: refused 20: the file holds no desk that steps could give; d~ has the one before\n";
    assert_eq!((ran.status, ran.err.as_str()), (2, due));
    assert_eq!(folder.get("d"), &before[..100]);
    assert!(!folder.path().join("d.lock").exists());
}

/// While one run works at a desk no other does; the system frees its lock when it is killed, and the file is no hindrance.
#[test]
fn one_at_a_time() {
    let folder = Folder::new("desk-lock");
    let mut first = begun(&folder, &["desk", "d"]);
    let mut steps = first.stdin.take().unwrap();
    steps.write_all(b"add 1,7\n").unwrap();
    let mut told = [0; 20];
    first
        .stdout
        .as_mut()
        .unwrap()
        .read_exact(&mut told)
        .unwrap();
    assert_eq!(&told, b"1 entry on the desk\n");
    let ran = folder.gx(&["desk", "d", "add", "1,8"]);
    let due = "gx: d: cannot be read: somebody works at this desk, and has d.lock\n";
    assert_eq!((ran.status, ran.err.as_str()), (2, due));
    first.kill().unwrap();
    first.wait().unwrap();
    assert!(folder.path().join("d.lock").exists());
    let due = "2 entries on the desk\n";
    is(&folder.gx(&["desk", "d", "add", "1,8"]), 0, due);
    assert!(!folder.path().join("d.lock").exists());
}

/// Where nobody reads on, the work stops, its steps so far are kept, and others may work at the desk.
#[test]
fn nobody_reads_on() {
    let folder = Folder::new("desk-unread");
    folder.gx(&["desk", "d", "add", "1,7"]);
    let mut left = begun(&folder, &["desk", "d"]);
    drop(left.stdout.take());
    let mut steps = left.stdin.take().unwrap();
    steps.write_all(b"add 1,8\nadd 1,9\n").unwrap();
    drop(steps);
    assert_eq!(left.wait().unwrap().code(), Some(141));
    assert!(!folder.path().join("d.lock").exists());
    let mut shown = begun(&folder, &["desk", "d", "show"]);
    drop(shown.stdout.take());
    assert!(matches!(shown.wait().unwrap().code(), Some(0 | 141)));
    let due = "1,7; 1,8; 1,9\n";
    is(&folder.gx(&["desk", "d", "write", "--to", "desk"]), 0, due);
}

/// The program at work in the folder.
fn begun(folder: &Folder, args: &[&str]) -> Child {
    Command::new(env!("CARGO_BIN_EXE_gx"))
        .args(args)
        .current_dir(folder.path())
        .stdin(Stdio::piped())
        .stdout(Stdio::piped())
        .stderr(Stdio::piped())
        .spawn()
        .unwrap()
}

/// Many steps that are there at once are stored once; the desk before the last of them is beside, and what is told keeps its order.
#[test]
fn many_steps() {
    let folder = Folder::new("desk-many");
    let steps: String = (1..=1008).map(|name| format!("add 1,{name}\n")).collect();
    let ran = folder.gx_with(&["desk", "d"], (steps + "add 1,7\nshow").as_bytes());
    assert_eq!((ran.status, ran.text().lines().count()), (2, 1008 + 1008));
    assert!(ran
        .text()
        .contains("\n1,008 entries on the desk\n#1 has property 1\n"));
    let mut desk = goltximen::Desk::new();
    for name in 1..=1007_u16 {
        let [low, high] = name.to_le_bytes();
        desk.add([1, 0, 0, 0, low, high, 0, 0]).unwrap();
    }
    assert_eq!(folder.get("d~"), desk.bytes());
    // A line that is no text stops none of the others.
    let ran = folder.gx_with(&["desk", "e"], b"add 1,7\nadd \xff\nadd 1,8\n");
    let due = "gx: standard input: a line is no text in UTF-8\n";
    assert_eq!((ran.status, ran.err.as_str()), (2, due));
    assert_eq!(ran.text(), "1 entry on the desk\n2 entries on the desk\n");
}

/// A remark after any step, and on a line of its own.
#[test]
fn remarks() {
    let folder = Folder::new("desk-remarks");
    let lines = "// a draft\nadd has property 7 \"a//b \\\" c\" // sealed\nstand 1 // \"\ntake-off// none\nback 1 // again\nshow // it\n";
    let due = "\
1 entry on the desk
1 entry on the desk
0 entries on the desk
1 entry on the desk
#1 has property 7
// stand 1: 1 entry
";
    is(&folder.gx_with(&["desk", "d"], lines.as_bytes()), 0, due);
    is(
        &folder.gx(&["desk", "d", "drop", "1", "// over"]),
        0,
        "1 entry on the desk\n",
    );
}

/// What is written is for programs too, also beside a file; and so is what is wrong with a step.
#[test]
fn for_programs() {
    let folder = Folder::new("desk-programs");
    let due = "\
{\"answer\":\"drafted\",\"entries\":1}
{\"answer\":\"mistake\",\"of\":\"d\",\"words\":\"stand takes a number from 1 to 65,535, and 'x' is given\"}
{\"answer\":\"drafted\",\"sort\":\"description\",\"entries\":[{\"entry\":1,\"kind\":1,\"owner\":0,\"property\":7,\"word\":null}]}
";
    let ran = folder.gx_with(
        &["desk", "d", "--json", "-o", "out"],
        b"add 1,7\nstand x\nwrite\n",
    );
    is(&ran, 2, due);
    assert_eq!(folder.get("out"), b"has property 7\n");
    let written = due.lines().next_back().unwrap().to_string() + "\n";
    is(&folder.gx(&["desk", "d", "write", "--json"]), 0, &written);
}

/// No output replaces a file of the desk, whether that is there or not.
#[test]
fn its_own_files() {
    let folder = Folder::new("desk-own");
    for (out, due) in [
        ("d", "which is the desk"),
        ("./d~", "which has the desk before"),
        ("d.lock", "which keeps others from the desk"),
    ] {
        for option in ["-o", "--html"] {
            let ran = folder.gx(&["desk", "d", "write", option, out]);
            assert_eq!((ran.status, ran.out.len()), (64, 0));
            assert!(
                ran.err.ends_with(&format!(" would replace {out}, {due}\n")),
                "{}",
                ran.err
            );
        }
    }
    is(
        &folder.gx(&["desk", "d", "add", "1,7", "--html", "add"]),
        0,
        "1 entry on the desk\n",
    );
    let ran = folder.gx(&["desk", "d", "write", "-o", "d"]);
    assert_eq!(ran.err, "gx: --out would replace d, which is read\n");
}

/// At most four stands, and 1,008 entries.
#[test]
fn limits() {
    let folder = Folder::new("desk-limits");
    let lines: String = (1..=5).map(|stand| format!("stand {stand}\n")).collect();
    let ran = folder.gx_with(&["desk", "d"], lines.as_bytes());
    assert_eq!(ran.err, "gx: d: refused 18: the desk has four stands: it has 1, 2, 3 and 4; gx desk FILE drop N drops one\n");
    let ran = folder.gx(&["desk", "d", "stand", "0"]);
    assert_eq!(ran.err, "gx: d: refused 18: stands have numbers from 1\n");
    let mut desk = goltximen::Desk::new();
    for _ in 0..1008 {
        desk.add([1, 0, 0, 0, 7, 0, 0, 0]).unwrap();
    }
    let ran = folder
        .put("d", desk.bytes())
        .gx(&["desk", "d", "add", "1,7"]);
    assert_eq!(
        ran.err,
        "gx: d: refused 16: the desk holds 1,008 entries, and takes no more\n"
    );
    for (step, due) in [
        (
            &["add", "1,7;", "1,8"][..],
            "gx: add takes one entry, and 2 are given\n",
        ),
        (
            &["back", "x"],
            "gx: back takes a number from 1 to 65,535, and 'x' is given\n",
        ),
        (
            &["take-off", "2"],
            "gx: take-off takes nothing after it, and '2' is given\n",
        ),
    ] {
        let ran = folder.gx(&[&["desk", "d"], step].concat());
        assert_eq!((ran.status, ran.err.as_str()), (2, due));
    }
    assert_eq!(folder.gx(&["desk"]).status, 64);
}

/// The page has the draft, the services that contain it and what each stand keeps; of a file that is no desk it says so.
#[test]
fn on_a_page() {
    let folder = Folder::new("desk-page");
    std::fs::create_dir(folder.path().join("services")).unwrap();
    folder
        .put("services/a.txt", "1,7")
        .put("services/b.txt", "1,9")
        .put("services/wrong.txt", "1,0");
    let with = ["desk", "d", "--against", "services", "--html", "page"];
    let ran = folder.gx_with(&with, b"add 1,7\nstand 4\nadd 1,8\n");
    // A service that is refused is told, and stops none of the others.
    assert!(
        ran.err.starts_with("gx: services/wrong.txt: refused 4: "),
        "{}",
        ran.err
    );
    assert_eq!(
        (ran.status, ran.text().matches("a.txt: contained").count()),
        (2, 3)
    );
    let page = String::from_utf8(folder.get("page")).unwrap();
    for due in [
        "<h1 id=\"answer\">2 entries on the desk</h1>",
        "with stand 4 to return to.",
        "<h2>1 of 2 services contains it</h2>",
        "<td><bdi>b.txt</bdi></td><td>does not contain it</td>",
        "<li id=\"draft-2\">",
        "<h2 id=\"stand-4\">",
        "<li id=\"stand-4-1\">",
    ] {
        assert!(page.contains(due), "{due}");
    }
    assert!(!page.contains("<li id=\"stand-4-2\">"));
    folder.put("d", &folder.get("d")[..100]);
    let ran = folder.gx(&["desk", "d", "show", "--html", "page"]);
    assert_eq!(ran.status, 2);
    assert!(String::from_utf8(folder.get("page"))
        .unwrap()
        .contains("Refused</h1>"));
    assert_eq!(folder.gx(&["desk", "-", "show"]).status, 64);
}

#[test]
fn against_a_folder() {
    let folder = Folder::new("desk-against");
    std::fs::create_dir(folder.path().join("services")).unwrap();
    folder
        .put("services/a.txt", "1,7")
        .put("services/b.txt", "2,8");
    let ran = folder.gx(&["desk", "d", "add", "1,7", "--against", "services"]);
    is(
        &ran,
        0,
        "1 entry on the desk\n    a.txt: contained\n    b.txt: not contained\n",
    );
    let ran = folder.gx(&["desk", "d", "show", "--against", "services"]);
    let due = "#1 has property 7\n// a.txt: contained\n// b.txt: not contained\n";
    is(&ran, 0, due);
    let ran = folder.gx(&["desk", "d", "show", "--against", "services", "--json"]);
    let due = "{\"answer\":\"drafted\",\"entries\":[{\"entry\":1,\"kind\":1,\"owner\":0,\"property\":7,\"word\":null}],\"stands\":[],\"contained_in\":[\"a.txt\"]}\n";
    is(&ran, 0, due);
    folder
        .put("f", "dictionary\ndescription 1 [has property 7]\n")
        .put("services/c.txt", "named 1");
    let with = ["desk", "d", "--dictionary", "f", "--against", "services"];
    let ran = folder.gx(&[&with[..], &["take-off"]].concat());
    assert!(
        ran.text().contains("    c.txt: not contained\n"),
        "{}",
        ran.text()
    );
    let ran = folder.gx(&[&with[..], &["add", "named", "1"]].concat());
    let due = "gx: d: refused 4: entry 1: its kind is 9, which names a description, and a desk takes none\n";
    let plain = folder.gx(&["desk", "d", "add", "named", "1"]);
    assert_eq!((plain.status, plain.err.as_str()), (2, due));
    let due = "gx: d: refused 4: entry 1: its kind is 9, which names a description, and a desk takes none; --dictionary is for the services of --against\n";
    assert_eq!((ran.status, ran.err.as_str()), (2, due));
    std::fs::remove_file(folder.path().join("services/c.txt")).unwrap();
    folder.gx(&["desk", "d", "add", "1,7"]);
    folder.put("p", "pairs: 7,8");
    let ran = folder.gx(&[
        "desk",
        "d",
        "stand",
        "1",
        "--against",
        "services",
        "--pairs",
        "p",
        "--json",
    ]);
    is(
        &ran,
        0,
        "{\"answer\":\"drafted\",\"entries\":1,\"contained_in\":[\"a.txt\",\"b.txt\"]}\n",
    );
}
