//! The narrowest description that contains two.

use differential::chance::Chance;
use differential::derived::{missed, weaker};
use gx::library::{self, Compared};
use reference::encode;

use crate::support::{description, Folder, Ran};

fn is(ran: &Ran, status: i32, out: &str) {
    assert_eq!(
        (ran.status, ran.text().as_str(), ran.err.as_str()),
        (status, out, "")
    );
}

#[test]
fn what_both_say() {
    let folder = Folder::new("narrowest-both");
    folder
        .put("a", "3,1,2; 5,1 [1,7; 1,9; 4,2,3]; 1,5")
        .put("b", "3,1,4; 5,1 [1,7; 2,8; 4,2,6]");
    let due = "\
at least 2 link 1
every link 1 [
    has property 7
    at most 6 link 2
]
";
    is(&folder.gx(&["narrowest", "a", "b"]), 0, due);
    is(&folder.gx(&["narrowest", "b", "a"]), 0, due);
    let ran = folder.gx(&[
        "narrowest",
        "a",
        "b",
        "-o",
        "out",
        "--to",
        "desk",
        "--html",
        "page",
    ]);
    is(&ran, 0, "");
    let out = String::from_utf8(folder.get("out")).unwrap();
    assert_eq!(out, "3,1,2; 5,1 [1,7; 4,2,6]\n");
    let page = String::from_utf8(folder.get("page")).unwrap();
    // 'has property 9' and 'has property 5' of the first, 'lacks property 8' of the second; and the closer bounds.
    assert_eq!(page.matches("<bdi>b</bdi> does not say it<").count(), 2);
    assert_eq!(page.matches("<bdi>a</bdi> does not say it<").count(), 1);
    assert!(page.contains("<bdi>b</bdi> does not say it, but at most 6 items by link 2<"));
    assert!(page.contains("<bdi>a</bdi> does not say it, but at least 2 items by link 1<"));
    assert!(page.contains("from <a href=\"#first-3\">3</a> and <a href=\"#second-3\">3</a>"));
    // An 'every' leads to those of the same place.
    assert!(page.contains("from <a href=\"#first-2\">2</a> and <a href=\"#second-2\">2</a>"));
}

/// On a page of many entries each of the result has what it comes from, and the places of what is given up are open.
#[test]
fn a_page_of_many_entries() {
    let folder = Folder::new("narrowest-many");
    let side = |gone: u16| {
        let place = |link: u16| {
            let has: Vec<String> = (1..=40)
                .map(|name| format!("1,{}", 100 * link + name))
                .collect();
            format!("5,{link} [{}]", has.join("; "))
        };
        let places: Vec<String> = (1..=10).map(place).collect();
        format!("{}; 5,{gone} [1,7]", places.join("; "))
    };
    folder.put("a", side(1)).put("b", side(20));
    let ran = folder.gx(&["narrowest", "a", "b", "--html", "page"]);
    assert_eq!(ran.status, 0, "{}", ran.err);
    let page = String::from_utf8(folder.get("page")).unwrap();
    assert_eq!(page.matches(">from <a href=\"#first-").count(), 410);
    assert!(page.contains("<li id=\"first-411\"><details open>"));
    assert!(page.contains("<bdi>b</bdi> does not say it<"));
    assert!(page.contains("<li id=\"second-411\"><details>"));
    assert!(page.contains("<bdi>a</bdi> says nothing there<"));
}

#[test]
fn too_much_together() {
    let folder = Folder::new("narrowest-much");
    let many = |entries: u16| {
        let all: Vec<String> = (1..=entries).map(|name| format!("1,{name}")).collect();
        all.join("; ")
    };
    folder.put("a", many(504)).put("b", many(505));
    let ran = folder.gx(&["narrowest", "a", "b"]);
    let due = "gx: b: refused 1: both descriptions together have more than 16 blocks\n";
    assert_eq!((ran.status, ran.err.as_str()), (2, due));
}

/// Where nothing fits an input the result is the other, which is told above it; for programs by its number.
#[test]
fn what_is_impossible() {
    let folder = Folder::new("narrowest-impossible");
    folder.put("a", "1,7; 2,7").put("b", "1,8; 1,8");
    let due = "// nothing fits a: the result is the normal form of b\nhas property 8\n";
    is(&folder.gx(&["narrowest", "a", "b"]), 0, due);
    let due = "// nothing fits a and a, nor the result\nnothing fits\n";
    is(&folder.gx(&["narrowest", "a", "a"]), 0, due);
    let ran = folder.gx(&["narrowest", "b", "a", "--json"]);
    assert!(ran
        .text()
        .starts_with("{\"answer\":\"narrowest\",\"impossible\":[2],"));
    // Written as data it has no remark.
    let ran = folder.gx(&["narrowest", "a", "b", "--to", "desk"]);
    is(&ran, 0, "1,8\n");
}

/// Each of the two is contained in it, and the reference writes the same.
#[test]
fn as_the_reference() {
    let folder = Folder::new("narrowest-drawn");
    let mut chance = Chance::from_seed(17);
    let contained =
        |c: &[u8], d: &[u8]| library::compare(Default::default(), c, d) == Ok(Compared::Contained);
    for _ in 0..25 {
        let a = description(&mut chance);
        let b = match chance.below(3) {
            0 => description(&mut chance),
            1 => missed(&mut chance, &a),
            _ => weaker(&mut chance, &a),
        };
        let (a, b) = (encode(&a), encode(&b));
        folder.put("a", &a).put("b", &b);
        let mut out = vec![0; a.len() + b.len()];
        let due = reference::narrowest(&[], &[], &a, &b, &mut out);
        let ran = folder.gx(&["narrowest", "a", "b", "--to", "blocks", "-o", "out"]);
        assert_eq!(ran.status == 0, due.is_ok());
        let Ok(entries) = due else { continue };
        out.truncate(512 * entries.div_ceil(63).max(1));
        assert_eq!(folder.get("out"), out);
        assert!(contained(&a, &out) && contained(&b, &out));
    }
}
