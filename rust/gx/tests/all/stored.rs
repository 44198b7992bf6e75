//! The stored form: there and back, told by its ending or by --from, and what is refused in it.

use differential::chance::Chance;
use reference::encode;

use crate::support::{description, Folder, Ran};

fn is(ran: &Ran, status: i32, out: &str) {
    assert_eq!(
        (ran.status, ran.text().as_str(), ran.err.as_str()),
        (status, out, "")
    );
}

#[test]
fn there_and_back() {
    let folder = Folder::new("stored-both");
    folder.put("d.txt", "5,1 [1,7; 3,2,1]; 2,8");
    let ran = folder.gx(&["write", "d.txt", "--to", "stored", "-o", "d.stored"]);
    assert_eq!((ran.status, ran.out.len()), (0, 0));
    assert_eq!(folder.get("d.stored").len(), 512);
    is(
        &folder.gx(&["show", "d.stored", "--to", "desk"]),
        0,
        "5,1 [1,7; 3,2,1]; 2,8\n",
    );
    // By another name it may be said, and is told by its bytes.
    folder.put("other", folder.get("d.stored"));
    is(
        &folder.gx(&["show", "other", "--to", "desk"]),
        0,
        "5,1 [1,7; 3,2,1]; 2,8\n",
    );
    is(
        &folder.gx(&["show", "--from", "stored", "other", "--to", "desk"]),
        0,
        "5,1 [1,7; 3,2,1]; 2,8\n",
    );
    assert_eq!(folder.gx(&["compare", "d.stored", "d.txt"]).status, 0);
    let ran = folder.gx(&["normal", "d.stored", "--to", "stored"]);
    assert_eq!((ran.status, ran.out.len()), (0, 512));
}

/// What is checked is told by the blocks that were read, and what is written by those that were written.
#[test]
fn counted() {
    let folder = Folder::new("stored-counted");
    let full: Vec<String> = (1..=1008).map(|name| format!("1,{name}")).collect();
    folder.put("d.txt", full.join("; "));
    folder.gx(&["write", "d.txt", "--to", "stored", "-o", "d.stored"]);
    folder.gx(&["write", "d.txt", "-o", "d.blocks"]);
    let ran = folder.gx(&["check", "d.txt", "d.blocks", "d.stored"]);
    let due = "\
d.txt: accepted: a description of 1,008 entries in 16 blocks
d.blocks: accepted: a description of 1,008 entries in 16 blocks
d.stored: accepted: a description of 1,008 entries in 12 blocks in the stored form
";
    is(&ran, 0, due);
    let ran = folder.gx(&["check", "d.stored", "--json"]);
    let due = "{\"answer\":\"accepted\",\"sort\":\"description\",\"entries\":1008,\"blocks\":12,\"form\":\"stored\"}\n";
    is(&ran, 0, due);
    let ran = folder.gx(&["write", "d.txt", "d.blocks", "--to", "stored", "-o", "out"]);
    let due = "\
d.txt: a description of 1,008 entries in 12 blocks in the stored form
d.blocks: a description of 1,008 entries in 12 blocks in the stored form
";
    is(&ran, 0, due);
    let ran = folder.gx(&["write", "d.stored", "d.txt", "-o", "out"]);
    let due = "\
d.stored: a description of 1,008 entries in 16 blocks
d.txt: a description of 1,008 entries in 16 blocks
";
    is(&ran, 0, due);
}

/// Drawn ones: as the reference stores them, and the same blocks where entries stand in walking order.
#[test]
fn as_the_reference() {
    let folder = Folder::new("stored-drawn");
    let mut chance = Chance::from_seed(3);
    for _ in 0..40 {
        let d = encode(&description(&mut chance));
        folder.put("d", &d);
        let mut out = vec![0; 12 * 512];
        let entries = reference::to_stored(&d, &mut out).unwrap();
        out.truncate(512 * entries.div_ceil(84).max(1));
        let ran = folder.gx(&["show", "d", "--to", "stored"]);
        assert_eq!((ran.status, &ran.out), (0, &out));
        let mut back = vec![0; d.len()];
        reference::from_stored(&out, &mut back).unwrap();
        let ran = folder
            .put("s.stored", &out)
            .gx(&["show", "s.stored", "--to", "blocks"]);
        assert_eq!((ran.status, &ran.out), (0, &back));
        let ran = folder.put("w", &back).gx(&["show", "w", "--to", "stored"]);
        assert_eq!((ran.status, &ran.out), (0, &out));
    }
}

/// One block with these entries, kind, depth, name, number, and right checks.
fn block(entries: &[[u8; 4]]) -> Vec<u8> {
    let mut block = vec![1, 0, entries.len() as u8, 0];
    for [kind, depth, name, number] in entries {
        block.extend([*kind, *depth, *name, 0, *number, 0]);
    }
    block.resize(508, 0);
    let words = |block: &[u8]| -> Vec<u16> {
        let words = block.chunks(2);
        words
            .map(|word| u16::from_le_bytes([word[0], word[1]]))
            .collect()
    };
    let numbered = (1u16..).zip(words(&block));
    let second = numbered.fold(0u16, |sum, (number, word)| {
        sum.wrapping_add(number.wrapping_mul(word))
    });
    block.extend(second.to_le_bytes());
    let first = words(&block).into_iter().fold(0u16, u16::wrapping_add);
    block.extend(first.to_le_bytes());
    block
}

/// What is accepted in both forms says the same in both, and blocks that are said to be blocks are no stored form.
#[test]
fn told_by_its_bytes() {
    let folder = Folder::new("stored-told");
    for (entries, due) in [
        (&[][..], "description:\n"),
        (&[[6, 0, 0, 0]], "6\n"),
        (&[[1, 0, 7, 0]], "1,7\n"),
        (
            &[[5, 0, 1, 0], [3, 1, 1, 0], [1, 0, 7, 0], [4, 0, 2, 9]],
            "5,1 [3,1,0]; 1,7; 4,2,9\n",
        ),
    ] {
        let ran = folder
            .put("d", block(entries))
            .gx(&["show", "d", "--to", "desk"]);
        is(&ran, 0, due);
    }
    let ran = folder.gx(&["show", "d", "--from", "blocks"]);
    assert_eq!(ran.status, 2, "{}", ran.err);
    assert!(ran.err.contains("refused 4"), "{}", ran.err);
    // What is refused in both is told as blocks, unless it is said to be stored.
    let bytes = block(&[[5, 0, 1, 0], [1, 2, 7, 0]]);
    let ran = folder.put("d", bytes).gx(&["check", "d"]);
    assert!(
        ran.text().starts_with("d: refused 4: entry 1:"),
        "{}",
        ran.text()
    );
    let ran = folder.gx(&["check", "d", "--from", "stored"]);
    assert!(
        ran.text().starts_with("d: refused 15: entry 2:"),
        "{}",
        ran.text()
    );
}

#[test]
fn refused() {
    let folder = Folder::new("stored-refused");
    for (bytes, due) in [
        (block(&[[5, 0, 1, 0], [1, 1, 7, 0], [1, 2, 7, 0]]), "refused 15: entry 3: it stands 2 deep, and needs an 'every' 1 deep before it; the nearest before it that is less deep is entry 2, of kind 1, 1 deep"),
        (block(&[[1, 1, 7, 0]]), "refused 15: entry 1: it stands 1 deep, and needs an 'every' 0 deep before it; no entry before it is less deep"),
        (block(&[[1, 0, 0, 0]]), "refused 4: entry 1: its name is 0, and kind 1 has 1 to 65,535"),
        (block(&[[9, 0, 1, 0]]), "refused 4: entry 1: its kind is 9, and a description has kinds 1 to 6"),
        (Vec::new(), "refused 1: the input is empty: it has 0 bytes, and the least is one block of 512"),
        (vec![0; 513], "refused 1: the input has 513 bytes, which is no multiple of 512: 1 whole block, and 1 byte more"),
        (vec![0; 13 * 512], "refused 1: the input has 13 blocks, and the stored form has at most 12"),
        (vec![0; 512], "refused 3: block 1: its number says 0"),
    ] {
        let ran = folder.put("d.stored", bytes).gx(&["check", "d.stored"]);
        let text = ran.text();
        assert_eq!(ran.status, 2);
        assert_eq!(text.lines().next().unwrap(), format!("d.stored: {due}"));
        if due.contains("entry 3:") {
            assert!(text.contains("> entry 3, depth   2:         has property 7\n"), "{text}");
            folder.put("names", "property 7 \"sealed\"");
            let ran = folder.gx(&["check", "d.stored", "--names", "names"]);
            assert!(ran.text().contains("> entry 3, depth   2:         has property 7 \"sealed\"\n"));
        }
    }
    let ran = folder
        .put("d.stored", "has property 7")
        .gx(&["check", "d.stored"]);
    assert!(ran
        .text()
        .contains("; it looks like a text, which --from text reads\n"));
}

#[test]
fn what_has_no_stored_form() {
    let folder = Folder::new("stored-none");
    folder.put("s", "specimen\n1,7").put("n", "9,1");
    let ran = folder.gx(&["show", "s", "--to", "stored"]);
    assert_eq!((ran.status, ran.out.len()), (2, 0));
    assert!(
        ran.err.contains("only descriptions have a stored form"),
        "{}",
        ran.err
    );
    let ran = folder.gx(&["write", "n", "--to", "stored"]);
    assert_eq!((ran.status, ran.out.len()), (2, 0));
    assert!(ran.err.contains("gx unfold puts them in"), "{}", ran.err);
    assert_eq!(folder.gx(&["write", "n", "--to", "text"]).status, 64);
}
