//! The same questions asked of OWL reasoners, where they are installed: Konclude reads what `gx owl` writes, FaCT++ the same class
//! expressions in its own notation.

use std::process::{Command, Stdio};
use std::time::{Duration, Instant};

use differential::chance::Chance;
use differential::derived::{missed, weaker};
use differential::draw::{self, Names as Drawn, Shape};
use differential::excluding::{self, with_implied_lacks};
use differential::naming::{laid, named, Dictionary};
use gx::library::{compare, Compared, Under};
use gx::names::Names;
use gx::owl::{in_fact, question};
use gx::pairs;
use reference::notation::entry;
use reference::{encode, Entry};

use crate::support::{ours, Folder};

/// How many pairs are asked.
const PAIRS: u64 = 200;
/// How long a reasoner may take for one.
const PATIENCE: Duration = Duration::from_secs(3);
/// How often it is asked.
const TRIES: usize = 2;
/// How long it may take for all. One that does not end has said nothing, and what it has not said is no difference.
const LIMIT: Duration = Duration::from_secs(60);

/// Words with signs that a reasoner has to read past.
const WORDS: &str = "link 1 \"sample\" \"samples\"\nlink 32768 \"field (of 'clay')\"\nlink 65535 \"a \\\"core\\\"\"\n\
                     property 1 \"<wet & cold>\"\nproperty 32768 \"sealed: Ü\"\n";

/// What is asked: whether the one description is contained in the other under a list of properties that exclude each other and with
/// a dictionary.
struct Asked {
    c: Vec<u8>,
    d: Vec<u8>,
    pairs: Vec<u8>,
    dictionary: Vec<u8>,
}

/// A reasoner may make as many items as a number says, and does not end with 65,535 of them.
const MOST_ITEMS: u16 = 9;

/// The entries with no larger number than that.
fn countable(mut entries: Vec<Entry>) -> Vec<Entry> {
    for e in &mut entries {
        e.number = e.number.min(MOST_ITEMS);
    }
    entries
}

/// A small pair with small numbers. Half of the lists are empty, and so are two thirds of the dictionaries.
fn drawn(seed: u64) -> Asked {
    let mut chance = Chance::from_seed(seed);
    let shape = Shape {
        entries: 4 + chance.below(8),
        numbers: 3,
        conflicts: chance.one_of([0, 10, 40]),
        names: chance.one_of([Drawn::Low, Drawn::Middle, Drawn::High]),
        ..draw::SMALL
    };
    let c = draw::description(&mut chance, &shape);
    let d = match chance.below(3) {
        0 => weaker(&mut chance, &c),
        1 => {
            let weaker = weaker(&mut chance, &c);
            missed(&mut chance, &weaker)
        }
        _ => draw::description(
            &mut chance,
            &Shape {
                entries: 3,
                ..shape
            },
        ),
    };
    let pairs = match chance.once_in(2) {
        true => excluding::drawn(&mut chance, &[&c[..], &d].concat()),
        false => Vec::new(),
    };
    let d = with_implied_lacks(&mut chance, &pairs, &d);
    let (c, d, dictionary) = match chance.once_in(3) {
        true => with_names(&mut chance, &shape, &c, &d),
        false => (c, d, Vec::new()),
    };
    Asked {
        c: encode(&countable(c)),
        d: encode(&countable(d)),
        pairs,
        dictionary,
    }
}

/// Both with the same named entry beside what they say, at the top or by a link, so that what is contained stays so; sometimes the
/// second has another one. The descriptions of the dictionary may name earlier ones.
fn with_names(
    chance: &mut Chance,
    shape: &Shape,
    c: &[Entry],
    d: &[Entry],
) -> (Vec<Entry>, Vec<Entry>, Vec<u8>) {
    let drawn = Dictionary::of_drawn(chance, shape, 3, 3).descriptions;
    let dictionary = laid(&drawn.into_iter().map(countable).collect::<Vec<_>>());
    let mut name = || 1 + chance.up_to(2);
    let (one, other) = (name(), name());
    let by_link = chance.once_in(2).then_some(shape.names.name(1));
    let other = if chance.once_in(4) { other } else { one };
    (
        beside(c, one, by_link),
        beside(d, other, by_link),
        dictionary,
    )
}

/// The description with a named entry after its own.
fn beside(entries: &[Entry], name: u16, by_link: Option<u16>) -> Vec<Entry> {
    let mut entries = entries.to_vec();
    let mut owner = 0;
    if let Some(link) = by_link {
        entries.push(entry(5, 0, link, 0));
        owner = entries.len() as u16;
    }
    entries.push(named(owner, name));
    entries
}

impl Asked {
    /// The question as `gx owl` writes it.
    fn in_owl(&self, folder: &Folder) -> String {
        folder
            .put("c.blocks", &self.c)
            .put("d.blocks", &self.d)
            .put("list.pairs", &self.pairs)
            .put("named.dictionary", &self.dictionary)
            .put("words.names", WORDS);
        let ran = folder.gx(&[
            "owl",
            "c.blocks",
            "d.blocks",
            "--pairs",
            "list.pairs",
            "--dictionary",
            "named.dictionary",
            "--names",
            "words.names",
        ]);
        assert_eq!((ran.status, ran.err.as_str()), (0, ""));
        ran.text()
    }

    /// The library's answer.
    fn is_contained(&self) -> bool {
        let under = Under {
            pairs: &self.pairs,
            dictionary: &self.dictionary,
        };
        compare(under, &self.c, &self.d).unwrap() == Compared::Contained
    }
}

/// What a program prints, if it ends in time. Konclude now and then does not end, so it is asked again.
fn printed(program: &str, args: &[&str], folder: &Folder) -> Option<String> {
    (0..TRIES).find_map(|_| printed_once(program, args, folder))
}

fn printed_once(program: &str, args: &[&str], folder: &Folder) -> Option<String> {
    let out = std::fs::File::create(folder.path().join("printed")).ok()?;
    let mut child = Command::new(program)
        .args(args)
        .current_dir(folder.path())
        .stdin(Stdio::null())
        .stdout(out)
        .stderr(Stdio::null())
        .spawn()
        .ok()?;
    let begin = Instant::now();
    while child.try_wait().ok()?.is_none() {
        if begin.elapsed() > PATIENCE {
            child.kill().ok()?;
            child.wait().ok()?;
            println!("{program} did not end in {PATIENCE:?}");
            return None;
        }
        std::thread::sleep(Duration::from_millis(2));
    }
    Some(String::from_utf8_lossy(&folder.get("printed")).into_owned())
}

/// Whether the program stands in one of the folders where programs are looked for.
fn installed(program: &str) -> bool {
    let path = std::env::var_os("PATH").unwrap_or_default();
    let found = std::env::split_paths(&path).any(|folder| folder.join(program).is_file());
    if !found {
        println!("{program} is not installed: not asked (apt-get install konclude fact++)");
    }
    found
}

/// Asks of all pairs, and wants the reasoner's answers to be the library's. A pair that it does not answer in time is passed over;
/// one that answers less than half of them is not asked rightly.
fn agree(program: &str, ask: impl Fn(&Folder, &str) -> Option<bool>) {
    if !installed(program) {
        return;
    }
    let folder = Folder::new(program);
    let begin = Instant::now();
    let (mut asked, mut answered) = (0, 0);
    for seed in 0..PAIRS {
        if begin.elapsed() > LIMIT {
            break;
        }
        let pair = drawn(seed);
        let text = pair.in_owl(&folder);
        asked += 1;
        if let Some(theirs) = ask(&folder, &text) {
            assert_eq!(
                theirs,
                pair.is_contained(),
                "{program}, pair {seed}:\n{text}"
            );
            answered += 1;
        }
    }
    println!("{program} agrees on {answered} of {asked} pairs");
    assert!(2 * answered > asked);
}

#[test]
fn pairs_of_each_sort_are_asked() {
    let folder = Folder::new("reasoners");
    let [mut contained, mut listed, mut functional, mut naming] = [0; 4];
    for seed in 0..PAIRS {
        let pair = drawn(seed);
        let text = pair.in_owl(&folder);
        contained += u64::from(pair.is_contained());
        listed += u64::from(text.contains("DisjointClasses("));
        functional += u64::from(text.contains("FunctionalObjectProperty("));
        naming += u64::from(!pair.dictionary.is_empty());
    }
    println!("of {PAIRS} pairs {contained} are contained, {listed} under a list, {functional} with single links, {naming} with names");
    assert!(contained > 40 && contained < PAIRS - 40);
    assert!(listed > 40 && functional > 40 && naming > 40);
}

#[test]
fn konclude_agrees() {
    agree("Konclude", |folder, text| {
        folder.put("question.ofn", text);
        let class = "urn:goltximen#SupplierOnly";
        let args = [
            "satisfiability",
            "-w",
            "2",
            "-i",
            "question.ofn",
            "-x",
            class,
        ];
        let said = printed("Konclude", &args, folder)?;
        match (
            said.contains("is not satisfiable"),
            said.contains("is satisfiable"),
        ) {
            (true, false) => Some(true),
            (false, true) => Some(false),
            _ => None,
        }
    });
}

#[test]
fn fact_agrees() {
    agree("FaCT++", |folder, text| {
        folder.put("question.lisp", in_fact(text));
        let conf = "[LeveLogger]\nfile = /dev/null\nallowedLevel = 0\n[Tuning]\n[Query]\nTBox = question.lisp\nTarget = Supplier\nTarget2 = Service\n";
        folder.put("question.conf", conf);
        let said = printed("FaCT++", &["question.conf"], folder)?;
        match (
            said.contains("subsumption does holds"),
            said.contains("does NOT holds"),
        ) {
            (true, false) => Some(true),
            (false, true) => Some(false),
            _ => None,
        }
    });
}

/// The command lines of the help, by a shell.
#[test]
fn the_command_lines_of_the_help() {
    let folder = Folder::new("reasoners-help");
    let bin = std::path::Path::new(env!("CARGO_BIN_EXE_gx"));
    let path = std::env::var("PATH").unwrap_or_default();
    let path = format!("{}:{path}", bin.parent().unwrap().display());
    let help = folder.gx(&["owl", "--help"]).text();
    let lines: Vec<&str> = help
        .lines()
        .filter_map(|line| line.strip_prefix("    "))
        .collect();
    let from = |begin: &str| {
        lines
            .iter()
            .position(|line| line.starts_with(begin))
            .unwrap()
    };
    std::fs::create_dir(folder.path().join("services")).unwrap();
    folder
        .put("supplier.txt", "1,7; 3,1,2")
        .put("services/a.txt", "1,7")
        .put("services/b.txt", "1,8");
    for (service, contained) in [("services/a.txt", true), ("services/b.txt", false)] {
        folder.put("service.txt", folder.get(service));
        for (program, first, says) in [
            (
                "Konclude",
                "gx owl supplier.txt service.txt -o",
                ["is not satisfiable", "is satisfiable"],
            ),
            (
                "FaCT++",
                "gx owl supplier.txt service.txt --fact",
                ["does holds", "does NOT holds"],
            ),
        ] {
            let all = &lines[from(first)..];
            let last = all
                .iter()
                .position(|line| line.starts_with(program))
                .unwrap();
            if !installed(program) {
                continue;
            }
            let made = Command::new("sh")
                .arg("-c")
                .arg(all[..last].join("\n"))
                .current_dir(folder.path())
                .env("PATH", &path)
                .status();
            assert!(made.unwrap().success());
            let words: Vec<&str> = all[last]
                .split(' ')
                .map(|word| word.trim_matches('\''))
                .collect();
            if let Some(said) = printed(program, &words[1..], &folder) {
                assert!(
                    said.contains(says[usize::from(!contained)]),
                    "{program}: {said}"
                );
            }
        }
    }
}

#[test]
fn the_notation_of_fact() {
    let entries = |desk| ours(&reference::notation::entries(desk));
    let text = question(
        &pairs::decode(&[7, 0, 8, 0]),
        &entries("1,7; 5,32768 [4,2,0]"),
        &entries("3,32768,2"),
        &Names::default(),
    );
    let lisp = in_fact(&text);
    let declared = "(defprimconcept property_7)\n(defprimconcept property_8)\n(defprimrole link_2)\n(defprimrole link_32768)\n\
                    (functional link_32768)\n(disjoint property_7 property_8)\n(equal_c Supplier\n";
    assert!(lisp.starts_with(declared), "{lisp}");
}
