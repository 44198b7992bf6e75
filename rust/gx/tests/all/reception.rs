//! Reception's page: the catalogue as a table, with a page for each service.

use crate::support::Folder;

fn desk(name: &str) -> Folder {
    let folder = Folder::new(name);
    std::fs::create_dir_all(folder.path().join("services")).unwrap();
    folder
        .put("c.txt", "1,7; 3,1,1")
        .put("services/a b.txt", "1,7")
        .put("services/no.txt", "1,7; 4,1,0")
        .put("services/bad.txt", "hass property 7");
    folder
}

#[test]
fn a_table_leads_to_each_page() {
    let folder = desk("reception-table");
    let ran = folder.gx(&["catalogue", "c.txt", "services", "--html", "pages"]);
    assert_eq!(ran.status, 2);
    let lines: Vec<String> = ran.text().lines().map(String::from).collect();
    assert_eq!(
        (lines[0].as_str(), lines[2].as_str()),
        ("a b.txt: contained", "no.txt: not contained")
    );
    let index = String::from_utf8(folder.get("pages/index.html")).unwrap();
    for part in [
        "<h1 id=\"answer\">1 contained, 1 not, 1 without an answer</h1>",
        "<tr class=\"yes\"><td aria-hidden=\"true\">✓</td><td><a href=\"./a%20b.txt.html\"><bdi>a b.txt</bdi></a></td><td>contained</td></tr>",
        "<tr class=\"no\"><td aria-hidden=\"true\">✕</td><td><a href=\"./no.txt.html\">",
        "<tr class=\"bad\">",
        "of <bdi>c.txt</bdi>",
        "<p class=\"given\">",
    ] {
        assert!(index.contains(part), "{part}");
    }
    for (name, part) in [
        ("a b.txt", "> Contained</h1>"),
        ("no.txt", "Not contained</h1>"),
        ("bad.txt", "Refused</h1>"),
    ] {
        let page = String::from_utf8(folder.get(&format!("pages/{name}.html"))).unwrap();
        assert!(page.contains(part), "{name}");
    }
    // Pages of a folder have an index too.
    let ran = folder.gx(&["compare", "c.txt", "services", "--html", "compared"]);
    assert_eq!(ran.status, 2);
    let index = String::from_utf8(folder.get("compared/index.html")).unwrap();
    assert!(index.contains("1 contained, 1 not, 1 without an answer</h1>"));
    assert!(
        index.contains("not contained, entry 2: of the top item, at most 0 items by link 1</td>")
    );
}

#[test]
fn compare_and_catalogue_say_one_thing_in_one_manner() {
    let folder = desk("reception-manner");
    let catalogue = folder.gx(&["catalogue", "c.txt", "services", "--why"]);
    let compare = folder.gx(&["compare", "c.txt", "services"]);
    assert_eq!(catalogue, compare);
    let catalogue = folder.gx(&["catalogue", "c.txt", "services", "--why", "--json"]);
    let compare = folder.gx(&["compare", "c.txt", "services", "--json"]);
    assert_eq!(catalogue, compare);
    // Without the reasons the lines begin alike.
    let plain = folder.gx(&["catalogue", "c.txt", "services"]);
    for (line, told) in plain.text().lines().zip(compare.text().lines()) {
        let answer = line.split_once(": ").unwrap().1.split(':').next().unwrap();
        assert!(
            told.contains(&format!("\"answer\":\"{answer}\"")),
            "{line} {told}"
        );
    }
}

#[test]
fn only_what_is_asked_for_is_told() {
    let folder = desk("reception-only");
    std::fs::remove_file(folder.path().join("services/bad.txt")).unwrap();
    let ran = folder.gx(&["catalogue", "c.txt", "services", "--only", "contained"]);
    assert_eq!(
        (ran.status, ran.text().as_str()),
        (1, "a b.txt: contained\n")
    );
    let ran = folder.gx(&["catalogue", "c.txt", "services", "--any"]);
    assert_eq!((ran.status, ran.text().lines().count()), (0, 2));
    let ran = folder.gx(&[
        "catalogue",
        "c.txt",
        "services/no.txt",
        "services/no.txt",
        "--any",
    ]);
    assert_eq!(ran.status, 1);
    folder.put("services/bad.txt", "hass");
    let ran = folder.gx(&[
        "catalogue",
        "c.txt",
        "services",
        "--any",
        "--only",
        "contained",
    ]);
    assert_eq!(
        (ran.status, ran.text().lines().count()),
        (2, 2),
        "what is wrong is told: {}",
        ran.text()
    );
    let ran = folder.gx(&["catalogue", "c.txt", "services", "--quiet"]);
    assert_eq!((ran.status, ran.out.len(), ran.err.as_str()), (2, 0, ""));
}

#[test]
fn a_list_of_services_has_pages_too() {
    let folder = desk("reception-list");
    for name in ["a b", "no"] {
        let file = format!("services/{name}.txt");
        let out = format!("{name}.blocks");
        assert_eq!(folder.gx(&["write", &file, "-o", &out]).status, 0);
    }
    folder.put(
        "list",
        [folder.get("a b.blocks"), folder.get("no.blocks")].concat(),
    );
    let ran = folder.gx(&["catalogue", "c.txt", "list", "--html", "pages", "--why"]);
    let due = "list service 1: contained\nlist service 2: not contained, entry 2: of the top item, at most 0 items by link 1\n";
    assert_eq!((ran.status, ran.text().as_str()), (1, due));
    let index = String::from_utf8(folder.get("pages/index.html")).unwrap();
    assert!(index.contains("href=\"./list%20service%202.html\""));
    assert!(folder.get("pages/list service 2.html").len() > 1000);
    // A page would replace what is read.
    folder.put("pages/index.txt", "1,7");
    std::fs::rename(
        folder.path().join("pages/index.txt"),
        folder.path().join("pages/x.html"),
    )
    .unwrap();
    folder.put("x", "1,7");
    let ran = folder.gx(&["catalogue", "pages/x.html", "x", "--html", "pages"]);
    assert_eq!((ran.status, ran.out.len()), (64, 0), "{}", ran.err);
}

#[test]
fn fit_tells_which_item_fails() {
    let folder = Folder::new("fit-item");
    folder
        .put("names", "link 1 \"sample\" \"samples\"\nlink 2 \"core\" \"cores\"\nproperty 7 \"sealed\"")
        .put("s", "specimen\ngroup of 2 sample [\n    has sealed\n    group of 1 core [ has sealed ]\n]\ngroup of 3 sample [\n    has sealed\n    group of 4 core [\n        has property 9\n    ]\n]\n")
        .put("d", "every sample [\n    has sealed\n    every core [\n        has sealed\n    ]\n]\n")
        .put("most", "every sample [ at most 3 core ]")
        .put("top", "at least 6 sample");
    let args = ["fit", "s", "d", "--names", "names", "--html", "page"];
    let ran = folder.gx(&args);
    let due = "no: the specimen does not meet entry 4 of the description: every core of every sample has property sealed

    asked by entry 4 (line 4)
    the item that fails: entry 7 of the specimen (line 8)
    3 samples, each of which has 4 cores, each of which lacks property sealed
";
    assert_eq!((ran.status, ran.text().as_str()), (1, due));
    let page = String::from_utf8(folder.get("page")).unwrap();
    for part in [
        "Does not fit</h1>",
        "<small>its entry 7, line 8, of <bdi>s</bdi></small>",
        "<li id=\"description-4\">",
        "<h2 id=\"specimen\">",
        "✕ fails here",
    ] {
        assert!(page.contains(part), "{part}");
    }
    assert_eq!(page.matches("<mark>").count(), 1);
    let ran = folder.gx(&["fit", "s", "d", "--names", "names", "--json"]);
    let due = "{\"answer\":\"no\",\"entry\":4,\"line\":4,\"asks\":\"every core of every sample has property sealed\",\
        \"item\":7,\"item_line\":8,\"path\":[5,7],\"shows\":\"";
    assert!(ran.text().starts_with(due), "{}", ran.text());
    for (d, due) in [
        ("most", "the item that fails: entry 7 of the specimen (line 8)\n    3 samples, each of which has 4 cores, not at most 3\n"),
        ("top", "the item that fails: the top item\n    the top item has 5 samples, not at least 6\n"),
    ] {
        let ran = folder.gx(&["fit", "s", d, "--names", "names"]);
        assert!(ran.text().ends_with(due), "{}", ran.text());
    }
    folder.put("yes", "every sample [ has sealed ]");
    let ran = folder.gx(&["fit", "s", "yes", "--names", "names", "--html", "page"]);
    assert_eq!(ran.status, 0);
    assert!(String::from_utf8(folder.get("page"))
        .unwrap()
        .contains("</span> Fits</h1>"));
}
