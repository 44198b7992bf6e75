//! Sample texts at the limit of 1,008 entries: `large supplier`, `large service` and `large names` print them, `large flat` a
//! description whose entries all stand at the top. `make page` makes a page of the first two.

/// The sections; each has 48 entries.
const SECTIONS: u16 = 21;
/// The section in which the supplier allows more than the service.
const WIDER: u16 = 13;

fn main() {
    let text = match std::env::args().nth(1).as_deref() {
        Some("supplier") => description(6),
        Some("service") => description(3),
        Some("names") => names(),
        Some("flat") => (1..=1008).map(|n| format!("has property {n}\n")).collect(),
        _ => "large takes supplier, service, names or flat\n".into(),
    };
    print!("{text}");
}

/// A description in which one section has at most so many grains.
fn description(grains: u16) -> String {
    (1..=SECTIONS)
        .map(|section| one_section(section, grains))
        .collect()
}

fn one_section(section: u16, grains: u16) -> String {
    let most = if section == WIDER { grains } else { 5 };
    let has = |first: u16, last: u16| listed("has", first, last);
    let lines = [
        format!("every link {} [\n", 100 + section),
        has(1, 6),
        format!(
            "at least {} link 2\nat most 9 link 2\nevery link 2 [\n",
            section % 3 + 1
        ),
        has(11, 16),
        "at least 1 link 3\nat most 4 link 3\nevery link 3 [\n".into(),
        has(21, 28),
        listed("lacks", 31, 38),
        format!("at least 2 link 4\nat most {most} link 4\nevery link 4 [\n"),
        has(41, 50),
        "]\n]\n]\n]\n".into(),
    ];
    lines.concat()
}

fn listed(word: &str, first: u16, last: u16) -> String {
    (first..=last)
        .map(|property| format!("{word} property {property}\n"))
        .collect()
}

fn names() -> String {
    let mut out = String::from(
        "link 2 \"core\" \"cores\"\nlink 3 \"layer\" \"layers\"\nlink 4 \"grain\" \"grains\"\n",
    );
    for section in 1..=SECTIONS {
        let number = 100 + section;
        out.push_str(&format!(
            "link {number} \"sample of site {section}\" \"samples of site {section}\"\n"
        ));
    }
    for (first, last, word) in [
        (1, 6, "label"),
        (11, 16, "seal"),
        (21, 28, "test"),
        (31, 38, "stain"),
        (41, 50, "mark"),
    ] {
        for property in first..=last {
            let letter = char::from(b'A' + (property - first) as u8);
            out.push_str(&format!("property {property} \"{word} {letter}\"\n"));
        }
    }
    out
}
