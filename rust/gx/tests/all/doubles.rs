//! Descriptions that mean the same: by their normal forms, and each pair of them as comparisons say.

use differential::chance::Chance;
use differential::derived::{reordered, weaker};
use gx::library::{self, Compared};
use reference::encode;

use crate::support::{description, repository, Folder, Ran};

fn is(ran: &Ran, status: i32, out: &str) {
    assert_eq!(
        (ran.status, ran.text().as_str(), ran.err.as_str()),
        (status, out, "")
    );
}

const EXAMPLES: &str = "\
8 descriptions, 4 meanings

clay-and-sand.txt = no-samples.txt
clay-without-sand.txt = clay.txt
cores-again.txt = cores-named.txt = cores.txt
no double: three-cores.txt
";

#[test]
fn the_doubles_of_the_examples() {
    let path = |name: &str| {
        repository(&format!("examples/doubles{name}"))
            .display()
            .to_string()
    };
    let folder = Folder::new("doubles-examples");
    let with = |pairs: bool, more: &[&str]| {
        let [services, names, list, dictionary] = [
            "",
            "/words.names",
            "/services.pairs",
            "/services.dictionary",
        ]
        .map(path);
        let mut args = vec![
            "doubles",
            &services,
            "--names",
            &names,
            "--dictionary",
            &dictionary,
        ];
        if pairs {
            args.extend(["--pairs", &list]);
        }
        args.extend(more);
        folder.gx(&args)
    };
    is(&with(true, &[]), 0, EXAMPLES);
    is(&with(true, &["-q"]), 0, "");
    let ran = with(true, &["-o", "found"]);
    assert_eq!((ran.status, ran.out.len()), (0, 0));
    assert_eq!(String::from_utf8(folder.get("found")).unwrap(), EXAMPLES);
    let ran = with(true, &["--json"]);
    let due = "{\"answer\":\"doubles\",\"meanings\":[[\"clay-and-sand.txt\",\"no-samples.txt\"],[\"clay-without-sand.txt\",\
         \"clay.txt\"],[\"cores-again.txt\",\"cores-named.txt\",\"cores.txt\"],[\"three-cores.txt\"]]}\n";
    is(&ran, 0, due);
    // Without the list four of them have no double.
    let ran = with(false, &[]);
    assert!(ran.text().starts_with(
        "8 descriptions, 6 meanings\n\ncores-again.txt = cores-named.txt = cores.txt\nno double: "
    ));
}

#[test]
fn on_a_page() {
    let folder = Folder::new("doubles-page");
    folder
        .put("a.txt", "1,7; 3,1,2")
        .put("b.txt", "3,1,2; 3,1,1; 1,7")
        .put("c.txt", "1,8");
    let ran = folder.gx(&["doubles", "a.txt", "b.txt", "c.txt", "--html", "page.html"]);
    is(
        &ran,
        0,
        "3 descriptions, 2 meanings\n\na.txt = b.txt\nno double: c.txt\n",
    );
    let page = String::from_utf8(folder.get("page.html")).unwrap();
    for due in [
        "<h1 id=\"answer\">1 meaning has doubles</h1>",
        "<h2><bdi>a.txt</bdi> = <bdi>b.txt</bdi></h2>",
        "has property 7\nat least 2 link 1\n",
        "<h2><bdi>c.txt</bdi></h2>",
    ] {
        assert!(page.contains(due), "{due}");
    }
    let ran = folder.gx(&["doubles", "a.txt", "--html", "a.txt"]);
    assert_eq!((ran.status, ran.out.len()), (64, 0));
}

/// Lists of services are taken apart, also inside folders; what is refused is told, and stops none of the others.
#[test]
fn lists_and_what_is_refused() {
    let folder = Folder::new("doubles-lists");
    std::fs::create_dir(folder.path().join("all")).unwrap();
    folder
        .put("all/list.services", "services: [1,7]; []; [1,7; 1,7]")
        .put("all/one.txt", "3,1,0")
        .put("all/wrong.txt", "1,0");
    let ran = folder.gx(&["doubles", "all"]);
    let text = ran.text();
    let (first, rest) = text.split_once('\n').unwrap();
    assert!(
        first.starts_with("wrong.txt: refused 4: entry 1: "),
        "{first}"
    );
    let due = "4 descriptions, 2 meanings\n\nlist.services service 1 = list.services service 3\nlist.services service 2 = one.txt\n";
    assert_eq!((ran.status, rest), (2, due));
    let ran = folder.gx(&["doubles", "all/wrong.txt"]);
    assert_eq!((ran.status, ran.text().lines().count()), (2, 1));
    // A catalogue and a hierarchy take the list apart too.
    let ran = folder.gx(&[
        "catalogue",
        "all/one.txt",
        "all/list.services",
        "all/one.txt",
    ]);
    let due = "list.services service 1: not contained\nlist.services service 2: contained\nlist.services service 3: not contained\none.txt: contained\n";
    is(&ran, 1, due);
}

/// Two are on one line exactly if each is contained in the other.
#[test]
fn as_comparisons() {
    let folder = Folder::new("doubles-compared");
    for seed in 0..6 {
        let chance = &mut Chance::from_seed(seed);
        let mut all = vec![description(chance)];
        while all.len() < 8 {
            let of = all[chance.below(all.len())].clone();
            all.push(match chance.below(3) {
                0 => reordered(chance, &of),
                1 => weaker(chance, &of),
                _ => description(chance),
            });
        }
        let files: Vec<String> = (0..all.len()).map(|number| format!("f{number}")).collect();
        for (file, entries) in files.iter().zip(&all) {
            folder.put(file, encode(entries));
        }
        let names: Vec<&str> = files.iter().map(String::as_str).collect();
        let ran = folder.gx(&[&["doubles"], &names[..]].concat());
        let text = ran.text();
        let line_of = |file: &str| {
            let line = text.lines().skip(2).find(|line| {
                !line.starts_with("no double") && line.split(" = ").any(|name| name == file)
            });
            line.map_or_else(|| file.to_string(), str::to_string)
        };
        let within = |c: &[reference::Entry], d: &[reference::Entry]| {
            library::compare(Default::default(), &encode(c), &encode(d)) == Ok(Compared::Contained)
        };
        for (one, c) in files.iter().zip(&all) {
            for (other, d) in files.iter().zip(&all) {
                let same = within(c, d) && within(d, c);
                assert_eq!(line_of(one) == line_of(other), same, "seed {seed}: {text}");
            }
        }
    }
}
