//! Each row of the table of refusals with its place, and the order where two rows apply, for both variants.

use independent::answer::{packed, refuse};
use independent::block::{write_check, BLOCK};
use independent::calls::{Gateway, Plain, JUDGING_WORK, MINING_WORK};
use independent::fast::Fast;
use independent::tree::Tree;

const SIDES: [&dyn Gateway; 2] = [&Plain, &Fast];

/// A block that begins with these bytes and has the right check.
fn block(front: &[u8]) -> Vec<u8> {
    let mut block = vec![0; BLOCK];
    block[..front.len()].copy_from_slice(front);
    write_check(&mut block);
    block
}

/// A block changed at one place, its check made right again.
fn changed(mut block: Vec<u8>, place: usize, byte: u8) -> Vec<u8> {
    block[place] = byte;
    write_check(&mut block);
    block
}

fn refused(number: u8, place: usize) -> u64 {
    packed(refuse(number, place))
}

fn mining(side: &dyn Gateway, log: &[u8]) -> u64 {
    side.mine(log, &mut [0; BLOCK], &mut vec![0; MINING_WORK])
}

#[test]
fn reading() {
    let sound = block(&[2, 2, 5, 31, 0]);
    for side in SIDES {
        assert_eq!(side.read(&sound, 1), 4);
        assert_eq!(side.read(&sound, 4), 5);
        assert_eq!(side.read(&sound[..511], 1), refused(1, 0));
        assert_eq!(side.read(&sound, 0), refused(5, 508));
        assert_eq!(side.read(&sound, 507), 508);
        assert_eq!(side.read(&sound, 508), refused(5, 508));
        assert_eq!(side.read(&sound, usize::MAX), refused(5, 508));
        assert_eq!(side.read(&block(&[1, 64]), 1), refused(5, 1));
        assert_eq!(side.read(&changed(block(&[]), 507, 1), 507), refused(5, 507));
        assert_eq!(side.read(&block(&[1, 3, 0, 32, 40]), 1), refused(6, 3));
        assert_eq!(side.read(&[255; BLOCK], 9), refused(5, 9), "the check is not looked at");
    }
}

#[test]
fn mining_rows() {
    let sound = block(&[1, 2, 0, 1]);
    let work = || vec![0; MINING_WORK];
    for side in SIDES {
        for length in [0, 1, 511, 513, 8_704] {
            assert_eq!(mining(side, &vec![0; length]), refused(1, 0));
        }
        assert_eq!(side.mine(&sound, &mut [0; 511], &mut work()), refused(2, 0));
        assert_eq!(side.mine(&sound, &mut [0; BLOCK], &mut work()[1..]), refused(3, 0));
        let second = |bad: Vec<u8>| mining(side, &[sound.clone(), bad].concat());
        let mut wrong_check = sound.clone();
        wrong_check[511] = 1;
        assert_eq!(second(wrong_check), refused(4, 512));
        assert_eq!(second(block(&[1, 64])), refused(5, 513));
        assert_eq!(second(block(&[2, 0, 2, 1, 32])), refused(6, 516));
        assert_eq!(second(block(&[1, 1, 0, 0, 0, 7, 7])), refused(5, 517));
        assert_eq!(second(changed(block(&[]), 507, 1)), refused(5, 1019));
        assert_eq!(mining(side, &[0; 1024]), refused(7, 0));
        assert_eq!(mining(side, &[vec![0; BLOCK], sound.clone()].concat()), 3);
    }
}

#[test]
fn a_record_with_no_byte_left_for_its_length() {
    // 7 records of 64 bytes and one of 59 end with byte 507; the count says nine.
    let mut front = vec![9];
    for length in [63, 63, 63, 63, 63, 63, 63, 58] {
        front.push(length);
        front.extend(vec![1; length as usize]);
    }
    assert_eq!(front.len(), 508);
    for side in SIDES {
        assert_eq!(mining(side, &block(&front)), refused(5, 508));
        front[0] = 8;
        assert_eq!(mining(side, &block(&front)), 3);
        front[0] = 9;
    }
}

#[test]
fn adding() {
    let sound = block(&[1, 2, 0, 1]);
    for side in SIDES {
        let added = |block: &[u8], episode: &[u8]| {
            let mut lent = block.to_vec();
            let answer = side.add(&mut lent, episode);
            assert!(answer < 1 << 32 || lent == block, "a refusal writes nothing");
            answer
        };
        assert_eq!(added(&sound, &[31]), 2);
        assert_eq!(added(&sound[1..], &[31]), refused(1, 0));
        let mut wrong_check = sound.clone();
        wrong_check[510] = 1;
        assert_eq!(added(&wrong_check, &[32]), refused(4, 0));
        assert_eq!(added(&block(&[1, 99]), &[32]), refused(5, 1));
        assert_eq!(added(&block(&[1, 1, 99]), &[32]), refused(6, 2));
        assert_eq!(added(&block(&[0, 1]), &[32]), refused(5, 1));
        assert_eq!(added(&sound, &[40; 64]), refused(10, 0));
        assert_eq!(added(&sound, &[3, 2, 32, 33]), refused(11, 2));
        assert_eq!(added(&block(&[255]), &[]), refused(12, 0));
        assert_eq!(added(&block(&[255]), &[32]), refused(11, 0));
        assert_eq!(added(&block(&[254]), &[]), 255);
    }
}

#[test]
fn checking() {
    let leaf = Tree::Activity(30).block();
    for side in SIDES {
        assert_eq!(side.check(&leaf), 1);
        assert_eq!(side.check(&leaf[..511]), refused(8, 0));
        let mut wrong_check = leaf;
        wrong_check[508] ^= 1;
        assert_eq!(side.check(&wrong_check), refused(8, 0));
        let unsound: [&[u8]; 15] = [
            &[],
            &[0, 0, 1, 0],
            &[7, 2, 3, 0, 1, 0, 1, 0, 1, 0, 1, 0],
            &[1, 1, 1, 0],
            &[1, 0, 2, 0],
            &[1, 0, 1, 1],
            &[1, 0, 1, 0, 1, 0, 1, 0],
            &[1, 0, 1, 0, 0, 0, 0, 1],
            &[2, 31, 1, 0],
            &[2, 32, 1, 0],
            &[3, 1, 2, 0, 1, 0, 1, 0],
            &[3, 0, 1, 0],
            &[3, 3, 3, 0, 1, 0, 1, 0, 1, 0, 1, 0],
            &[3, 2, 4, 0, 1, 0, 1, 0, 1, 0, 1, 0],
            &[3, 2, 3, 0, 2, 5, 1, 0, 2, 5, 1, 0],
        ];
        for front in unsound {
            assert_eq!(side.check(&block(front)), refused(9, 0), "{front:?}");
        }
        assert_eq!(side.check(&block(&[3, 2, 3, 0, 1, 0, 1, 0, 1, 0, 1, 0])), 3, "silent leaves may repeat");
    }
}

#[test]
fn judging() {
    let leaf = Tree::Activity(3).block();
    for side in SIDES {
        let judged = |tree: &[u8], episode: &[u8], work: usize| side.judge(tree, episode, &mut vec![1; work]);
        assert_eq!(judged(&leaf, &[3], JUDGING_WORK), 1);
        assert_eq!(judged(&leaf, &[4], JUDGING_WORK), 0, "a code no leaf has is a misfit");
        assert_eq!(judged(&leaf[..511], &[3], 0), refused(8, 0));
        let mut wrong_check = leaf;
        wrong_check[508] ^= 1;
        assert_eq!(judged(&wrong_check, &[3], JUDGING_WORK - 1), refused(3, 0));
        assert_eq!(judged(&wrong_check, &[32; 64], JUDGING_WORK), refused(8, 0));
        assert_eq!(judged(&[0; BLOCK], &[32; 64], JUDGING_WORK), refused(9, 0));
        assert_eq!(judged(&leaf, &[32; 64], JUDGING_WORK), refused(10, 0));
        assert_eq!(judged(&leaf, &[3, 31, 32], JUDGING_WORK), refused(11, 2));
    }
}

#[test]
fn work_is_zero_up_to_its_due_and_untouched_behind() {
    let log = block(&[1, 2, 0, 1]);
    let tree = Tree::flower(&[0, 1].into()).block();
    for side in SIDES {
        let mut out = vec![7; BLOCK + 9];
        let mut work = vec![7; MINING_WORK + 9];
        assert_eq!(side.mine(&log, &mut out, &mut work), 3);
        assert_eq!(out[BLOCK..], [7; 9]);
        assert_eq!(work, [vec![0; MINING_WORK], vec![7; 9]].concat());
        let mut work = vec![7; JUDGING_WORK + 9];
        assert_eq!(side.judge(&tree, &[0, 1, 1], &mut work), 1);
        assert_eq!(work, [vec![0; JUDGING_WORK], vec![7; 9]].concat());
    }
}
