//! What the program prints.

use reference::{encode, run_program};

use crate::notation::{blocks, entry};

/// The program on C and D one after the other.
fn printed(c: &str, d: &str) -> String {
    run_program(&[blocks(c), blocks(d)].concat())
}

#[test]
fn the_second_example() {
    let expected = "not contained 3\n\
                    group 1 owner 0 link 1 count 1\n\
                    group 2 owner 1 link 2 count 2\n";
    assert_eq!(printed("5,1 [3,2,1]", "5,1 [3,2,1; 4,2,1]"), expected);
}

#[test]
fn the_other_lines() {
    assert_eq!(printed("", ""), "contained\n");
    assert_eq!(printed("", "6"), "not contained 1\n");
    let expected = "not contained 1\nhas 1 owner 0 property 7\nhas 2 owner 0 property 8\n";
    assert_eq!(printed("1,7", "2,8"), expected);
    let expected = "not contained 1\ngroup 1 owner 0 link 1 count 65536\n";
    assert_eq!(printed("", "4,1,65535"), expected);
    let expected =
        "not contained 2\ngroup 1 owner 0 link 65535 count 1\nhas 2 owner 1 property 65535\n";
    assert_eq!(printed("", "5,65535 [2,65535]"), expected);
}

#[test]
fn refusals() {
    assert_eq!(run_program(&[]), "refused 1 input 1 place 0\n");
    assert_eq!(run_program(&[1, 0]), "refused 1 input 1 place 0\n");
    // No later block with number 1: D has length 0.
    assert_eq!(run_program(&blocks("")), "refused 1 input 2 place 0\n");
    assert_eq!(
        run_program(&encode(&[entry(1, 0, 1, 0); 200])),
        "refused 1 input 2 place 0\n"
    );
    // Input 1 comes first.
    assert_eq!(run_program(&blocks("8")), "refused 4 input 1 place 1\n");
    assert_eq!(printed("1,1; 8", "8"), "refused 4 input 1 place 2\n");
    assert_eq!(printed("1,1", "1,1; 1,1; 8"), "refused 4 input 2 place 3\n");
}

#[test]
fn where_c_ends() {
    let (c, d) = (
        encode(&[entry(1, 0, 1, 0); 130]),
        encode(&[entry(1, 0, 1, 0); 70]),
    );
    assert_eq!(run_program(&[c.clone(), d.clone()].concat()), "contained\n");
    // A third block with number 1 belongs to D.
    let full = encode(&[entry(1, 0, 1, 0); 63]);
    let three = [blocks("1,1"), full, blocks("1,1")].concat();
    assert_eq!(run_program(&three), "refused 3 input 2 place 2\n");
    // A part of a block is no whole block.
    let part = [blocks("1,1"), blocks("1,1")[..511].to_vec()].concat();
    assert_eq!(run_program(&part), "refused 1 input 1 place 0\n");
    let part = [c, d, vec![1]].concat();
    assert_eq!(run_program(&part), "refused 1 input 2 place 0\n");
    // The number alone decides, not the check.
    let mut wrong = [blocks("1,1"), blocks("1,1")].concat();
    wrong[1022] ^= 1;
    assert_eq!(run_program(&wrong), "refused 2 input 2 place 1\n");
    // The first block is not looked at.
    let mut wrong = [blocks("1,1"), blocks("1,1")].concat();
    wrong[0] = 2;
    assert_eq!(run_program(&wrong), "refused 2 input 1 place 1\n");
    // Both bytes of the number count.
    let full = encode(&[entry(1, 0, 1, 0); 63]);
    let mut wrong = [full, blocks("1,1")].concat();
    wrong[513] = 1;
    assert_eq!(run_program(&wrong), "refused 2 input 1 place 2\n");
}

#[test]
fn at_most_16385_bytes() {
    let full = encode(&[entry(1, 0, 1, 0); 1008]);
    let both = [full.clone(), full.clone()].concat();
    assert_eq!(both.len(), 16384);
    assert_eq!(run_program(&both), "contained\n");
    let over = [both.clone(), vec![0]].concat();
    assert_eq!(run_program(&over), "refused 1 input 2 place 0\n");
    let far_over = [both, full.clone(), full].concat();
    assert_eq!(run_program(&far_over), "refused 1 input 2 place 0\n");
    let long_c = encode(&[entry(1, 0, 1, 0); 1009]);
    let with_d = [long_c, blocks("")].concat();
    assert_eq!(run_program(&with_d), "refused 1 input 1 place 0\n");
}
