//! Every answer that is printed is the library's.

use differential::chance::Chance;
use differential::derived::{missed, weaker};
use differential::draw;
use goltximen::{Comparison, Fit, Under};
use gx::background::Background;
use gx::blocks::{encode, BLOCK};
use gx::entry::Sort;
use gx::explain::{compared, Explained, Failure};
use gx::input::Input;
use gx::library;
use gx::names::Names;
use gx::pairs::List;
use gx::words::Words;
use gx::{page, svg};

use crate::support::{description, ours, specimen, Folder};

/// A drawn pair of descriptions, of which about half are contained.
fn pair(chance: &mut Chance) -> (Vec<reference::Entry>, Vec<reference::Entry>) {
    let c = description(chance);
    let d = weaker(chance, &c);
    match chance.below(3) {
        0 => (c, d),
        1 => {
            let missed = missed(chance, &d);
            (c, missed)
        }
        _ => {
            let other = description(chance);
            (c, other)
        }
    }
}

/// The library's own answer, asked here.
fn asked(c: &[u8], d: &[u8]) -> Option<(usize, Vec<u8>)> {
    let mut out = vec![0; c.len() + d.len()];
    match goltximen::compare(c, d, &mut out).unwrap() {
        Comparison::Contained => None,
        Comparison::NotContained { entry, entries } => {
            out.truncate(BLOCK * usize::from(entries).div_ceil(63).max(1));
            Some((entry.into(), out))
        }
    }
}

#[test]
fn compare_prints_the_library_s_entry_and_specimen() {
    let mut chance = Chance::from_seed(11);
    let folder = Folder::new("compare-answers");
    for _ in 0..40 {
        let (c, d) = pair(&mut chance);
        let (c, d) = (encode(&ours(&c)), encode(&ours(&d)));
        folder.put("c", &c).put("d", &d).put("specimen", "");
        let ran = folder.gx(&["compare", "c", "d", "--json", "--specimen", "specimen"]);
        match asked(&c, &d) {
            None => {
                let begin = "{\"answer\":\"contained\",\"earning\":[";
                assert!(
                    ran.status == 0 && ran.text().starts_with(begin),
                    "{}",
                    ran.text()
                );
            }
            Some((entry, specimen)) => {
                let begin = format!("{{\"answer\":\"not contained\",\"entry\":{entry},");
                assert!(ran.text().starts_with(&begin), "{}", ran.text());
                assert_eq!((ran.status, folder.get("specimen")), (1, specimen));
            }
        }
    }
}

#[test]
fn fit_and_check_and_normal_print_the_library_s_answers() {
    let mut chance = Chance::from_seed(12);
    let folder = Folder::new("other-answers");
    for _ in 0..30 {
        let s = encode(&ours(&specimen(&mut chance)));
        let entries = ours(&description(&mut chance));
        let d = encode(&entries);
        folder.put("s", &s).put("d", &d);
        let fit = folder.gx(&["fit", "s", "d", "--json"]);
        let yes = goltximen::fit(&s, &d).unwrap() == Fit::Yes;
        let begin = if yes {
            "{\"answer\":\"yes\"}"
        } else {
            "{\"answer\":\"no\",\"entry\":"
        };
        assert!(fit.text().starts_with(begin), "{}", fit.text());
        assert!(
            !fit.text().contains("\"entry\":null"),
            "a no names an entry"
        );
        assert_eq!(fit.status, i32::from(!yes));
        let mut normal = vec![0; d.len()];
        let count = goltximen::normal_form(&d, &mut normal).unwrap();
        normal.truncate(BLOCK * usize::from(count).div_ceil(63).max(1));
        let ran = folder.gx(&["normal", "d", "--to", "blocks"]);
        assert_eq!((ran.status, ran.out), (0, normal));
        let ran = folder.gx(&["check", "d", "--json"]);
        assert!(ran
            .text()
            .contains(&format!("\"entries\":{},", entries.len())));
    }
}

#[test]
fn damaged_inputs_get_the_library_s_refusal() {
    let mut chance = Chance::from_seed(13);
    let folder = Folder::new("damaged-answers");
    for _ in 0..60 {
        let entries = description(&mut chance);
        let sort = differential::damage::Sort::Description;
        let bytes = differential::damage::damaged(&mut chance, sort, &entries);
        folder.put("d", &bytes);
        let args = [
            "check",
            "d",
            "--json",
            "--sort",
            "description",
            "--from",
            "blocks",
        ];
        let ran = folder.gx(&args);
        match goltximen::read_description(&bytes) {
            Ok(_) => assert_eq!(ran.status, 0),
            Err(refusal) => {
                let (number, place) = (refusal.reason.number(), refusal.place);
                let begin = format!(
                    "{{\"answer\":\"refused\",\"refusal\":{number},\"input\":1,\"place\":{place},"
                );
                assert!(ran.text().starts_with(&begin), "{} {refusal}", ran.text());
                assert_eq!(ran.status, 2);
            }
        }
    }
}

#[test]
fn damaged_pairs_get_the_library_s_refusal() {
    let mut chance = Chance::from_seed(15);
    let folder = Folder::new("damaged-pairs");
    let sort = differential::damage::Sort::Description;
    let mut drawn = || {
        let entries = description(&mut chance);
        match chance.once_in(2) {
            true => differential::damage::damaged(&mut chance, sort, &entries),
            false => encode(&ours(&entries)),
        }
    };
    for _ in 0..40 {
        let (c, d) = (drawn(), drawn());
        folder.put("c", &c).put("d", &d);
        let ran = folder.gx(&["compare", "c", "d", "--json", "--from", "blocks"]);
        let mut out = vec![0; c.len() + d.len()];
        match goltximen::compare(&c, &d, &mut out) {
            Ok(Comparison::Contained) => assert_eq!(ran.status, 0),
            Ok(Comparison::NotContained { .. }) => assert_eq!(ran.status, 1),
            Err(refusal) => {
                let (number, input, place) =
                    (refusal.reason.number(), refusal.input, refusal.place);
                let begin = format!(
                    "{{\"answer\":\"refused\",\"refusal\":{number},\"input\":{input},\"place\":{place},"
                );
                assert!(ran.text().starts_with(&begin), "{} {refusal}", ran.text());
                assert_eq!(ran.status, 2);
            }
        }
    }
}

fn input(entries: &[reference::Entry]) -> Input {
    let entries = ours(entries);
    Input {
        title: "drawn".into(),
        sort: Sort::Description,
        bytes: encode(&entries),
        sent: entries.len(),
        stored: None,
        entries,
        names: Names::default(),
        positions: Vec::new(),
        origins: Vec::new(),
    }
}

/// The page and the drawing of a no have the answer, the entry and the mark, whatever is drawn.
fn is_explained(c: &Input, d: &Input) {
    let names = Names::default();
    let words = Words::new(&names);
    let explained = compared(&Background::default(), c, d).unwrap();
    let page = page::page(page::Sheet {
        explained: &explained,
        list: &List::default(),
        supplier: c,
        service: d,
        names: &names,
        whole: false,
        all: None,
        given: &Default::default(),
    });
    let page = page.unwrap();
    let Explained::NotContained(failure) = &explained else {
        assert!(page.contains("</span> Contained</h1>") && !page.contains("<mark>"));
        return;
    };
    assert_eq!(
        Some(failure.entry),
        asked(&c.bytes, &d.bytes).map(|(entry, _)| entry)
    );
    assert_eq!(page.matches("<mark>").count(), 1);
    assert!(page.contains("</span> Not contained</h1>"));
    assert!(page.contains(&format!("id=\"service-{}\"", failure.entry)));
    let drawing = svg::drawing(failure, words, false);
    assert_eq!(drawing.matches("✕ fails here").count(), 1);
    assert!(page.contains(&svg::inside(failure, words, false)));
    the_mark_is_true(failure, d);
}

/// The specimen's marked place is where the entry fails: the library says so of the entry alone.
fn the_mark_is_true(failure: &Failure, d: &Input) {
    assert!(failure.specimen.path.len() >= failure.way.len());
    let alone: Vec<_> = failure.owners.iter().chain([&failure.entry]).collect();
    let alone: Vec<_> = (0..)
        .zip(alone)
        .map(|(owner, &number)| gx::entry::Entry {
            owner,
            ..d.entries[number - 1]
        })
        .collect();
    let specimen = encode(&failure.specimen.entries);
    assert_eq!(
        library::fits(Under::default(), &specimen, &encode(&alone)),
        Ok(false)
    );
}

#[test]
fn each_drawn_no_is_explained() {
    let mut chance = Chance::from_seed(14);
    for _ in 0..300 {
        let (c, d) = pair(&mut chance);
        is_explained(&input(&c), &input(&d));
    }
    for _ in 0..4 {
        let shape = draw::full_shape(&mut chance);
        let c = draw::description(&mut chance, &shape);
        let d = missed(&mut chance, &c);
        is_explained(&input(&c), &input(&d));
    }
}
