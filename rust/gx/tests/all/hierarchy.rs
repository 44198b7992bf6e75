//! Services from general to special: files, folders and lists, good and bad, what programs get, and the drawing.

use std::process::Command;

use differential::chance::Chance;
use differential::derived::{missed, weaker};
use gx::library::{self, Compared};
use reference::notation::blocks;
use reference::{encode, Entry};

use crate::support::{description, repository, Folder, Ran};

/// A diamond with a double at the bottom, and one that stands alone.
pub fn desk(name: &str) -> Folder {
    let folder = Folder::new(name);
    std::fs::create_dir(folder.path().join("services")).unwrap();
    folder
        .put("services/any.txt", "3,1,1")
        .put("services/both.txt", "3,1,2; 1,7; 1,8")
        .put("services/left.txt", "3,1,1; 1,7")
        .put("services/other.blocks", blocks("1,9"))
        .put("services/right.txt", "3,1,1; 1,8")
        .put("services/same.txt", "1,8; 1,7; 3,1,2; 3,1,0")
        .put("services/words.names", "link 1 \"sample\"");
    folder
}

const TREE: &str = "\
6 services in 5 classes

any.txt
    left.txt
        both.txt = same.txt (also below right.txt)
    right.txt
other.blocks
";

pub fn is(ran: &Ran, status: i32, out: &str) {
    assert_eq!(
        (ran.status, ran.text().as_str(), ran.err.as_str()),
        (status, out, "")
    );
}

#[test]
fn general_above_special() {
    let folder = desk("hierarchy-tree");
    is(&folder.gx(&["hierarchy", "services"]), 0, TREE);
    let ran = folder.gx(&["hierarchy", "services/both.txt", "services/left.txt"]);
    is(
        &ran,
        0,
        "2 services in 2 classes\n\nleft.txt\n    both.txt\n",
    );
    let ran = folder.gx(&["hierarchy", "services/any.txt"]);
    is(&ran, 0, "1 service in 1 class\n\nany.txt\n");
    let ran = folder.gx(&["hierarchy", "services", "-o", "tree"]);
    assert_eq!((ran.status, ran.out.len()), (0, 0));
    assert_eq!(String::from_utf8(folder.get("tree")).unwrap(), TREE);
    let ran = folder.gx(&["hierarchy", "services", "-q"]);
    is(&ran, 0, "");
}

#[test]
fn one_file_with_a_list() {
    let folder = Folder::new("hierarchy-list");
    folder.put("list", [blocks("1,7"), blocks(""), blocks("1,7")].concat());
    let due = "3 services in 2 classes\n\nlist service 2\n    list service 1 = list service 3\n";
    is(&folder.gx(&["hierarchy", "list"]), 0, due);
    let ran = folder.gx_with(&["hierarchy"], &folder.get("list"));
    is(&ran, 0, &due.replace("list", "standard input"));
}

#[test]
fn for_programs() {
    let folder = desk("hierarchy-json");
    let ran = folder.gx(&[
        "hierarchy",
        "services/left.txt",
        "services/any.txt",
        "--json",
    ]);
    let due = "{\"answer\":\"hierarchy\",\"classes\":2,\"ranked\":[\
         {\"service\":1,\"file\":\"left.txt\",\"class\":1,\"contained\":[1,2],\"superiors\":[2]},\
         {\"service\":2,\"file\":\"any.txt\",\"class\":2,\"contained\":[2],\"superiors\":[]}]}\n";
    is(&ran, 0, due);
}

/// Pairs bring classes together; names are unfolded first.
#[test]
fn pairs_and_a_dictionary() {
    let folder = Folder::new("hierarchy-background");
    folder
        .put("lab.pairs", "pairs: 7,8")
        .put("lab.dictionary", "dictionary: [1,7]")
        .put("clay.txt", "1,7")
        .put("dry.txt", "2,8")
        .put("named.txt", "9,1; 2,8");
    let with = |more: &[&str]| {
        let services = ["hierarchy", "clay.txt", "dry.txt", "named.txt"];
        folder.gx(&[&services[..], more].concat())
    };
    is(
        &with(&["--dictionary", "lab.dictionary"]),
        0,
        "3 services in 3 classes\n\nclay.txt\n    named.txt (also below dry.txt)\ndry.txt\n",
    );
    is(
        &with(&["--dictionary", "lab.dictionary", "--pairs", "lab.pairs"]),
        0,
        "3 services in 2 classes\n\ndry.txt\n    clay.txt = named.txt\n",
    );
    let ran = with(&[]);
    assert_eq!(ran.status, 2);
    assert!(
        ran.text().starts_with("named.txt: refused 13: entry 1: "),
        "{}",
        ran.text()
    );
}

/// Where one is refused, all that are refused are told, and nothing is ranked; an older page says so.
#[test]
fn bad_services() {
    let folder = desk("hierarchy-bad");
    let mut wrong = blocks("1,7");
    wrong[510] ^= 1;
    folder
        .put("services/bad-1.txt", "hass property 7")
        .put("services/bad-2.blocks", wrong);
    let ran = folder.gx(&["hierarchy", "services", "none.txt", "--html", "page"]);
    let text = ran.text();
    let lines: Vec<&str> = text.lines().collect();
    assert_eq!((ran.status, lines.len()), (2, 3));
    assert!(lines[0].starts_with("bad-1.txt: mistake: line 1, column 1: expected an entry"));
    assert!(lines[1].starts_with("bad-2.blocks: refused 2: the first check of block 1 is wrong"));
    assert!(lines[2].starts_with("none.txt: cannot be read: "));
    assert_eq!(
        ran.err,
        "gx: no hierarchy: what is missing could stand between two others\n"
    );
    let page = String::from_utf8(folder.get("page")).unwrap();
    assert!(page.contains("Refused"));
    std::fs::create_dir(folder.path().join("empty")).unwrap();
    let ran = folder.gx(&["hierarchy", "empty"]);
    assert_eq!((ran.status, ran.out.len()), (2, 0));
}

/// 64 are ranked, and more are refused, as files and as a list.
#[test]
fn many_services() {
    let folder = Folder::new("hierarchy-many");
    std::fs::create_dir(folder.path().join("services")).unwrap();
    let mut list = Vec::new();
    for number in 0..64 {
        let text = format!("3,1,{number}");
        list.extend(blocks(&text));
        folder.put(&format!("services/{number:02}.txt"), text);
    }
    let ran = folder.gx(&["hierarchy", "services"]);
    let text = ran.text();
    let lines: Vec<&str> = text.lines().collect();
    assert_eq!((ran.status, lines.len()), (0, 66));
    assert_eq!(lines[65], format!("{}63.txt", "    ".repeat(63)));
    folder.put("services/64.txt", "1,7");
    let ran = folder.gx(&["hierarchy", "services"]);
    let due = "the services: refused 8: they are 65 services, and the most is 64\n";
    is(&ran, 2, due);
    let ran = folder.gx(&["hierarchy", "services", "--json"]);
    let due = "{\"answer\":\"refused\",\"refusal\":8,\"input\":2,\"place\":0,";
    assert!(ran.text().starts_with(due), "{}", ran.text());
    list.extend(blocks("1,7"));
    let ran = folder.put("list", &list).gx(&["hierarchy", "list"]);
    is(
        &ran,
        2,
        "list: refused 8: the list has 65 services, and the most is 64\n",
    );
}

/// Services drawn of one another.
fn family(chance: &mut Chance, count: usize) -> Vec<Vec<Entry>> {
    let mut all = vec![description(chance)];
    while all.len() < count {
        let of = all[chance.below(all.len())].clone();
        all.push(match chance.below(4) {
            0 => of,
            1 => missed(chance, &of),
            2 => description(chance),
            _ => weaker(chance, &of),
        });
    }
    all
}

/// Each cell of the table is the comparison of its two.
#[test]
fn as_comparisons() {
    let folder = Folder::new("hierarchy-compared");
    for seed in 0..8 {
        let all = family(&mut Chance::from_seed(seed), 7);
        let files: Vec<String> = (0..all.len()).map(|number| number.to_string()).collect();
        for (file, entries) in files.iter().zip(&all) {
            folder.put(file, encode(entries));
        }
        let names: Vec<&str> = files.iter().map(String::as_str).collect();
        let ran = folder.gx(&[&["hierarchy", "--csv"], &names[..]].concat());
        let text = ran.text();
        for (line, c) in text.lines().skip(1).zip(&all) {
            let cells: Vec<&str> = line.split(',').skip(3).collect();
            for (cell, d) in cells.into_iter().zip(&all) {
                let compared = library::compare(Default::default(), &encode(c), &encode(d));
                let due = compared == Ok(Compared::Contained);
                assert_eq!(cell == "1", due, "seed {seed}: {line}");
            }
        }
    }
}

/// A number of an attribute of a line of a drawing.
fn number(line: &str, name: &str) -> f64 {
    let (_, rest) = line.split_once(&format!(" {name}=\"")).unwrap();
    rest.split_once('"').unwrap().0.parse().unwrap()
}

/// The boxes of a drawing: left, top, right, bottom.
fn boxes(drawing: &str) -> Vec<[f64; 4]> {
    let rects = drawing.lines().filter(|line| line.starts_with("<rect"));
    let corners = |line: &str| {
        let [x, y] = ["x", "y"].map(|name| number(line, name));
        let [width, height] = ["width", "height"].map(|name| number(line, name));
        [x, y, x + width, y + height]
    };
    rects.map(corners).collect()
}

/// The lines of a drawing, as their points.
fn ways(drawing: &str) -> Vec<Vec<(f64, f64)>> {
    let paths = drawing.lines().filter_map(|line| line.split_once(" d=\"M"));
    let points = |(_, rest): (&str, &str)| {
        let way = rest.split_once('"').unwrap().0;
        let mut points: Vec<(f64, f64)> = Vec::new();
        for step in way.replace('L', " L").replace('V', " V").split(" L") {
            let (point, ups) = step.split_once(" V").map_or((step, ""), |(p, v)| (p, v));
            let (x, y) = point.trim().split_once(' ').unwrap();
            let x = x.parse().unwrap();
            points.push((x, y.trim().parse().unwrap()));
            for up in ups.split(" V").filter(|up| !up.trim().is_empty()) {
                points.push((x, up.trim().parse().unwrap()));
            }
        }
        points
    };
    paths.map(points).collect()
}

/// Whether a part of a line is inside a box, by many points of it.
fn runs_behind(from: (f64, f64), to: (f64, f64), [left, top, right, bottom]: [f64; 4]) -> bool {
    (1..200).any(|step| {
        let share = f64::from(step) / 200.0;
        let x = from.0 + (to.0 - from.0) * share;
        let y = from.1 + (to.1 - from.1) * share;
        x > left && x < right && y > top && y < bottom
    })
}

/// No two boxes overlap, and no line runs behind a box but that to which it leads, at its middle.
#[test]
fn the_drawing() {
    let folder = Folder::new("hierarchy-drawn");
    for (seed, count) in [(1, 6), (2, 12), (3, 30), (4, 64), (5, 64), (6, 40)] {
        let all = family(&mut Chance::from_seed(seed), count);
        let list: Vec<u8> = all.iter().flat_map(|entries| encode(entries)).collect();
        let ran = folder.put("list", list).gx(&[
            "hierarchy",
            "list",
            "--svg",
            "drawing",
            "--html",
            "page",
        ]);
        assert_eq!((ran.status, ran.err.as_str()), (0, ""));
        let drawing = String::from_utf8(folder.get("drawing")).unwrap();
        let boxes = boxes(&drawing);
        assert!(drawing.contains("<title>") && !boxes.is_empty());
        for (at, one) in boxes.iter().enumerate() {
            for other in &boxes[..at] {
                let apart = one[0] >= other[2]
                    || other[0] >= one[2]
                    || one[1] >= other[3]
                    || other[1] >= one[3];
                assert!(apart, "seed {seed}: {one:?} {other:?}");
            }
        }
        for way in ways(&drawing) {
            let end = way[way.len() - 1];
            for part in way.windows(2) {
                for &of in &boxes {
                    // The last step leads up into the box at whose middle it ends.
                    let middle = (of[0] + of[2]) / 2.0;
                    let aim = (middle - end.0).abs() < 1.0 && of[1] == end.1;
                    let behind = runs_behind(part[0], part[1], of);
                    assert!(aim || !behind, "seed {seed}: {way:?} {of:?}");
                }
            }
        }
        let page = String::from_utf8(folder.get("page")).unwrap();
        for link in page.match_indices("href=\"#") {
            let id = page[link.0 + 7..].split_once('"').unwrap().0;
            assert!(page.contains(&format!("id=\"{id}\"")), "{id}");
        }
        let opened = page.matches("<ul>").count() + page.matches("<li>").count();
        let closed = page.matches("</ul>").count() + page.matches("</li>").count();
        assert_eq!(opened, closed);
        // From some classes on the tree comes first.
        let sections = page.matches("id=\"class-").count();
        let first = page.find("id=\"tree\"") < page.find("id=\"drawing\"");
        assert_eq!(first, sections > 40);
    }
}

#[test]
fn nothing_that_is_read_is_replaced() {
    let folder = desk("hierarchy-lost");
    for args in [
        &["hierarchy", "services", "-o", "services/any.txt"][..],
        &["hierarchy", "services", "--html", "services/any.txt"],
        &["hierarchy", "services", "--svg", "x", "--html", "x"],
        &[
            "hierarchy",
            "services/any.txt",
            "services/left.txt",
            "services/both.txt",
            "--svg",
            "x",
            "-o",
            "x",
        ],
    ] {
        let ran = folder.gx(args);
        assert_eq!((ran.status, ran.out.len()), (64, 0), "{args:?}");
    }
    assert_eq!(folder.get("services/any.txt"), b"3,1,1");
}

#[test]
fn the_services_of_the_examples() {
    let path = |name: &str| repository(name).display().to_string();
    let (supplier, services) = (path("examples/supplier.blocks"), path("examples/services"));
    let ran = Folder::new("hierarchy-examples").gx(&["hierarchy", &supplier, &services]);
    let due = "\
4 services in 4 classes

few-cores.blocks
    supplier.blocks (also below with-core.blocks)
sealed.blocks
with-core.blocks
";
    is(&ran, 0, due);
}

/// Files of one name are told apart by as much of the way to them as is needed, and files of other names by their names.
#[test]
fn of_one_name() {
    let folder = Folder::new("hierarchy-alike");
    for at in ["old/a", "new/a", "old/b"] {
        std::fs::create_dir_all(folder.path().join(at)).unwrap();
    }
    folder
        .put("c", "1,7")
        .put("old/a/any.txt", "1,7")
        .put("new/a/any.txt", "1,7")
        .put("old/b/other.txt", "1,8");
    let files = ["old/a", "new/a", "old/b"];
    let ran = folder.gx(&[&["hierarchy"], &files[..]].concat());
    let due = "3 services in 2 classes\n\nold/a/any.txt = new/a/any.txt\nother.txt\n";
    is(&ran, 0, due);
    let ran = folder.gx(&[&["doubles"], &files[..]].concat());
    let due = "3 descriptions, 2 meanings\n\nold/a/any.txt = new/a/any.txt\nno double: other.txt\n";
    is(&ran, 0, due);
    let ran = folder.gx(&[&["catalogue", "c"], &files[..], &["--html", "out"]].concat());
    let due = "old/a/any.txt: contained\nnew/a/any.txt: contained\nother.txt: not contained\n";
    is(&ran, 1, due);
    assert!(folder.path().join("out/new/a/any.txt.html").exists());
    // Where the ways that are given do not tell them apart, those of the system do.
    let script = "cd new && mkdir -p a/b && cp a/any.txt a/b && exec \"$0\" hierarchy a/any.txt ../old/a/any.txt ../new/a/b/any.txt";
    let within = |script: &str| {
        let ran = Command::new("bash")
            .args(["-c", script, env!("CARGO_BIN_EXE_gx")])
            .current_dir(folder.path())
            .output();
        String::from_utf8(ran.unwrap().stdout).unwrap()
    };
    let due = "\na/any.txt = old/a/any.txt = a/b/any.txt\n";
    assert!(within(script).contains(due), "{}", within(script));
    let script = "cd new && exec \"$0\" hierarchy a/any.txt ../a/any.txt";
    std::fs::create_dir_all(folder.path().join("a")).unwrap();
    folder.put("a/any.txt", "1,7");
    let due = "\nnew/a/any.txt = hierarchy-alike/a/any.txt\n";
    assert!(within(script).contains(due), "{}", within(script));
}
