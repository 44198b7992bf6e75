//! The shorter stored form: drawn descriptions both ways, and sweeps over counts, depths, bytes and exchanges.

use super::*;
use goltximen::stored_bytes;

/// A stored entry: kind, depth, name and number.
type Row = (u8, u8, u16, u16);

/// The rows as blocks of 84.
fn blocks_of(rows: &[Row]) -> Vec<u8> {
    let mut bytes = vec![0; stored_bytes(rows.len())];
    for (b, block) in bytes.chunks_mut(BLOCK).enumerate() {
        let these = &rows[84 * b..rows.len().min(84 * b + 84)];
        block[0] = b as u8 + 1;
        block[2] = these.len() as u8;
        for (cell, (kind, depth, name, number)) in block[4..].chunks_mut(6).zip(these) {
            (cell[0], cell[1]) = (*kind, *depth);
            cell[2..4].copy_from_slice(&name.to_le_bytes());
            cell[4..6].copy_from_slice(&number.to_le_bytes());
        }
        seal(block);
    }
    bytes
}

/// The number, input and place of a refusal, or the entries written into an output with room for any.
fn from(s: &[u8]) -> Result<usize, (u8, u16, u16)> {
    agreed(agree::from_stored(
        &mut Chance::from_seed(41),
        s,
        length_of(1008),
    ));
    let answer = goltximen::from_stored(s, &mut vec![0; length_of(1008)]);
    answer.map_err(|refusal| (refusal.reason.number(), refusal.input, refusal.place))
}

#[test]
fn both_ways() {
    let run = made(300, Rounds::stores);
    for call in ["to stored", "from stored"] {
        assert!(run.tally.count(call, "count") > 600, "{call}");
        assert!(run.tally.count(call, "refused 7 input 0") > 300, "{call}");
    }
}

#[test]
fn wrong_ones() {
    let run = made(600, Rounds::wrong_stores);
    for number in [1, 2, 3, 4, 5, 6] {
        let answer = format!("refused {number} input 1");
        assert!(run.tally.count("to stored", &answer) > 5, "{answer}");
    }
    // 6 is left for depth 33 under an 'every' of depth 32: `each_depth` has it.
    for number in [1, 2, 3, 4, 15] {
        let answer = format!("refused {number} input 1");
        assert!(run.tally.count("from stored", &answer) > 5, "{answer}");
    }
    assert!(run.tally.count("from stored", "count") > 50);
}

#[test]
fn each_count() {
    for count in [0, 1, 63, 64, 83, 84, 85, 126, 168, 169, 1007, 1008] {
        let d = encode(&mixed(count));
        for length in [
            0,
            stored_bytes(count) - 1,
            stored_bytes(count),
            stored_bytes(count) + 9,
        ] {
            agreed(agree::to_stored(&mut Chance::from_seed(7), &d, length));
        }
        let rows = vec![(1, 0, 7, 0); count];
        assert_eq!(from(&blocks_of(&rows)), Ok(count));
    }
    let rows = vec![(1, 0, 7, 0); 1009];
    assert_eq!(from(&blocks_of(&rows)), Err((1, 1, 0)));
}

/// Chains of 'every', each owned by the one before: depth 32 passes, and what it owns does not.
#[test]
fn each_depth() {
    for depth in [31, 32, 33, 34, 40] {
        let rows: Vec<Row> = (0..=depth).map(|d| (5, d, 1, 0)).collect();
        let due = if depth <= 32 {
            Ok(usize::from(depth) + 1)
        } else {
            Err((6, 1, 34))
        };
        assert_eq!(from(&blocks_of(&rows)), due, "{depth}");
    }
}

#[test]
fn walking_order() {
    let every = (5, 0, 1, 0);
    for (rows, due) in [
        (vec![(1, 1, 7, 0)], Err((15, 1, 1))),
        (vec![(1, 0, 7, 0), (1, 1, 7, 0)], Err((15, 1, 2))),
        (vec![every, (1, 2, 7, 0)], Err((15, 1, 2))),
        (vec![every, (1, 1, 7, 0), (1, 1, 8, 0), (1, 0, 9, 0)], Ok(4)),
        (vec![every, (1, 0, 7, 0), (1, 1, 8, 0)], Err((15, 1, 3))),
        (
            vec![every, (5, 1, 2, 0), (1, 0, 7, 0), (1, 2, 8, 0)],
            Err((15, 1, 4)),
        ),
        (vec![(1, 255, 7, 0)], Err((15, 1, 1))),
        (vec![(1, 255, 0, 0)], Err((4, 1, 1))),
        (vec![(9, 0, 1, 0)], Err((4, 1, 1))),
        (vec![(8, 0, 1, 0)], Err((4, 1, 1))),
        (vec![(5, 0, 1, 1)], Err((4, 1, 1))),
    ] {
        assert_eq!(from(&blocks_of(&rows)), due, "{rows:?}");
    }
}

/// Each byte of two blocks of which the last is not full, changed and sealed again.
#[test]
fn each_byte() {
    let mut rows: Vec<Row> = vec![(5, 0, 1, 0)];
    rows.extend((0..100).map(|n| (1 + 2 * (n % 2) as u8, 1 - (n / 60) as u8, 1 + n, n % 2)));
    let right = blocks_of(&rows);
    assert_eq!(from(&right), Ok(101));
    for at in 0..right.len() {
        for by in [1, 4, 128] {
            let mut s = right.clone();
            s[at] ^= by;
            from(&s).ok();
            let block = at / BLOCK * BLOCK;
            seal(&mut s[block..block + BLOCK]);
            from(&s).ok();
        }
    }
}

/// Two entries exchanged are told exactly where distance times difference of the word sums is no multiple of 65,536.
#[test]
fn exchanges() {
    for distance in [1usize, 2, 3, 4, 16, 64, 83] {
        for difference in [1usize, 2, 1024, 4096, 16384, 32768] {
            let mut rows: Vec<Row> = vec![(3, 0, 7, 0); 84];
            rows[distance].3 = difference as u16;
            let mut s = blocks_of(&rows);
            for byte in 0..6 {
                s.swap(4 + byte, 4 + 6 * distance + byte);
            }
            let told = !(distance * difference).is_multiple_of(65_536);
            let due = if told { Err((2, 1, 1)) } else { Ok(84) };
            assert_eq!(from(&s), due, "{distance} {difference}");
        }
    }
}
