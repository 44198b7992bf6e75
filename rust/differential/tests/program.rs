//! The program, run as a user runs it: what it writes for an input is what the reference gives, byte for byte, and it ends well.
//!
//! `make target/bin/goltximen` builds it; where it is not built, a line says so and nothing is tested.

use std::io::Write;
use std::path::{Path, PathBuf};
use std::process::{Command, Stdio};

use differential::chance::Chance;
use differential::damage::{damaged, Sort};
use differential::vectors::{all, Call};
use differential::{derived, draw, MOST_DESCRIPTION};
use reference::notation::{blocks, entry};
use reference::{encode, run_program, Entry};

/// The program, if it is built.
fn program() -> Option<PathBuf> {
    let path = PathBuf::from(concat!(
        env!("CARGO_MANIFEST_DIR"),
        "/../../target/bin/goltximen"
    ));
    if !path.exists() {
        println!("{} is not built: not tested", path.display());
        return None;
    }
    Some(path)
}

/// What the program writes for this input, which comes by a pipe in two parts. It may end before it has read all.
fn written(program: &Path, input: &[u8]) -> Vec<u8> {
    let mut child = Command::new(program)
        .stdin(Stdio::piped())
        .stdout(Stdio::piped())
        .spawn()
        .unwrap_or_else(|error| panic!("{}: {error}", program.display()));
    let pipe = child.stdin.take();
    let output = std::thread::scope(|scope| {
        scope.spawn(move || {
            let (front, rest) = input.split_at(input.len() / 3);
            if let Some(mut pipe) = pipe {
                // A pipe that the program has closed is no fault.
                let _ = pipe.write_all(front).and_then(|()| pipe.write_all(rest));
            }
        });
        child.wait_with_output()
    });
    let output = output.unwrap_or_else(|error| panic!("{error}"));
    assert_eq!(output.status.code(), Some(0));
    output.stdout
}

/// The program writes what the reference gives; that text.
fn same(program: &Path, input: &[u8]) -> String {
    let expected = run_program(input);
    let text = written(program, input);
    let shown = String::from_utf8_lossy(&text);
    assert!(text == expected.as_bytes(), "{shown}\nnot\n{expected}");
    expected
}

/// Two descriptions, one after the other.
fn joined(c: &[Entry], d: &[Entry]) -> Vec<u8> {
    [encode(c), encode(d)].concat()
}

/// As many properties as a description has room for, from this one on.
fn properties(first: u16) -> Vec<Entry> {
    (first..)
        .take(MOST_DESCRIPTION)
        .map(|name| entry(1, 0, name, 0))
        .collect()
}

/// A full description of links that have three items at least, each with a property of its own.
fn links() -> Vec<Entry> {
    let mut entries = Vec::new();
    for link in (1..).take(MOST_DESCRIPTION / 3) {
        entries.push(entry(3, 0, link, 3));
        entries.push(entry(5, 0, link, 0));
        let every = u16::try_from(entries.len()).unwrap_or(0);
        entries.push(entry(1, every, u16::MAX - link, 0));
    }
    entries
}

#[test]
fn the_five_forms() {
    let Some(program) = program() else { return };
    for (c, d, text) in [
        ("1,7", "1,7", "contained\n"),
        (
            "5,1 [3,2,1]",
            "5,1 [3,2,1; 4,2,1]",
            "not contained 3\ngroup 1 owner 0 link 1 count 1\ngroup 2 owner 1 link 2 count 2\n",
        ),
        (
            "1,7",
            "2,8",
            "not contained 1\nhas 1 owner 0 property 7\nhas 2 owner 0 property 8\n",
        ),
        (
            "",
            "4,32767,65535",
            "not contained 1\ngroup 1 owner 0 link 32767 count 65536\n",
        ),
        (
            "",
            "4,65535,0",
            "not contained 1\ngroup 1 owner 0 link 65535 count 1\n",
        ),
        ("", "4,65535,65535", "contained\n"),
        ("3,32768,2", "6", "contained\n"),
        ("", "6", "not contained 1\n"),
        ("1,7", "8,7", "refused 4 input 2 place 1\n"),
        // The program passes a dictionary of length 0.
        ("1,7", "9,7", "refused 13 input 2 place 1\n"),
        ("9,1,1", "9,7", "refused 4 input 1 place 1\n"),
    ] {
        let input = [blocks(c), blocks(d)].concat();
        assert_eq!(same(&program, &input), text);
    }
}

#[test]
fn short_inputs() {
    let Some(program) = program() else { return };
    let one = blocks("1,7");
    let two = [&one[..], &one[..]].concat();
    for length in [0, 1, 100, 511, 513, 612, 1023] {
        let text = same(&program, &two[..length]);
        assert_eq!(text, "refused 1 input 1 place 0\n");
    }
    // A valid C alone, of one block and of sixteen.
    for c in [one, encode(&properties(1))] {
        assert_eq!(same(&program, &c), "refused 1 input 2 place 0\n");
    }
}

#[test]
fn sixteen_blocks_each() {
    let Some(program) = program() else { return };
    let (low, high) = (properties(1), properties(60_000 - 1_008));
    for (c, d, lines) in [
        (&low, &low, 1),
        // Each property of C, and none of D's.
        (&low, &high, 1 + 1_008),
        // A group of three items by each link, with its property.
        (&links(), &low, 1 + 672),
        (&links(), &links(), 1),
    ] {
        let input = joined(c, d);
        assert_eq!(input.len(), 16_384);
        assert_eq!(same(&program, &input).lines().count(), lines);
    }
}

#[test]
fn longer_inputs() {
    let Some(program) = program() else { return };
    let low = properties(1);
    let contained = joined(&low, &low);
    let chance = &mut Chance::from_seed(5);
    for length in [16_385, 16_386, 16_896, 20_000, 40_000, 100_000] {
        let mut input = contained.clone();
        input.extend(chance.noise(length - input.len()));
        assert_eq!(same(&program, &input), "refused 1 input 2 place 0\n");
        input.rotate_right(7);
        same(&program, &input);
        same(&program, &vec![0; length]);
    }
    // Block 33 has number 1, and is not whole in what is read: C is all of it.
    let one = &contained[..512];
    let later = &contained[512..1_024];
    let mut input = one.to_vec();
    (1..32).for_each(|_| input.extend(later));
    input.extend(one);
    assert_eq!(same(&program, &input), "refused 1 input 1 place 0\n");
}

/// The comparisons of the vectors, which the proved cases are among.
#[test]
fn the_vectors() {
    let Some(program) = program() else { return };
    for vector in all() {
        if matches!(vector.call, Call::Compare) {
            same(&program, &[&vector.first[..], &vector.second[..]].concat());
        }
    }
}

#[test]
fn drawn_pairs() {
    let Some(program) = program() else { return };
    let chance = &mut Chance::from_seed(11);
    for round in 0..120 {
        let shape = if round % 10 == 0 {
            draw::full_shape(chance)
        } else {
            draw::shape(chance)
        };
        let c = draw::description(chance, &shape);
        let other = draw::description(chance, &shape);
        let weaker = derived::weaker(chance, &c);
        let missed = derived::missed(chance, &weaker);
        for d in [&other, &weaker, &missed] {
            same(&program, &joined(&c, d));
        }
        let bad = damaged(chance, Sort::Description, &c);
        let good = encode(&other);
        same(&program, &[&bad[..], &good[..]].concat());
        same(&program, &[&good[..], &bad[..]].concat());
    }
}
