//! Checks of blocks.

use yarugota_leaves::{block_seal, block_sealed};
use yarugota_model::{seal, sealed, BLOCK};
use yarugota_support::{Random, Trace};

/// Block numbers of a data base, and others that only the sum must bear.
const NUMBERS: [u32; 8] = [0, 1, 2, 4_095, 4_096, 0x7FFF_FFFF, 0x8000_0000, u32::MAX];

/// Compares both leaves with the model on these bytes.
fn compare(block: &[u8], number: u32) {
    assert_eq!(
        block_sealed(block, number),
        u32::from(sealed(block, number))
    );
    let mut expected = block.to_vec();
    let is_block = seal(&mut expected, number);
    let (answer, after) = block_seal(block, number);
    assert_eq!(answer, u32::from(is_block));
    assert_eq!(after, expected);
    assert_eq!(block_sealed(&after, number), u32::from(is_block));
}

#[test]
fn plain_blocks() {
    for fill in [0, 1, 0x7F, 0x80, 0xFF] {
        for number in NUMBERS {
            compare(&[fill; BLOCK], number);
        }
    }
    // "A formatted empty block 1 ends 00 00 00 01."
    let (answer, block) = block_seal(&[0; BLOCK], 1);
    assert_eq!(answer, 1);
    assert_eq!(block[508..], [0, 0, 0, 1]);
}

#[test]
fn random_blocks() {
    for seed in 0..20_000 {
        let _trace = Trace::new(seed);
        let mut random = Random::new(seed);
        let mut block = random.bytes(BLOCK);
        let number = if random.once_in(2) {
            *random.pick(&NUMBERS)
        } else {
            random.word()
        };
        compare(&block, number);
        seal(&mut block, number);
        compare(&block, number);
        compare(&block, number.wrapping_add(1));
    }
}

/// A sealed block with one bit changed is not sealed.
#[test]
fn every_bit_counts() {
    let mut random = Random::new(1);
    let mut block = random.bytes(BLOCK);
    seal(&mut block, 7);
    for bit in 0..BLOCK * 8 {
        block[bit / 8] ^= 1 << (bit % 8);
        assert_eq!(block_sealed(&block, 7), 0, "bit {bit}");
        compare(&block, 7);
        block[bit / 8] ^= 1 << (bit % 8);
    }
    assert_eq!(block_sealed(&block, 7), 1);
}

/// Two words change places: the sum does not see it, and neither should the
/// leaf.
#[test]
fn the_order_of_words_does_not_count() {
    let mut random = Random::new(2);
    let mut block = random.bytes(BLOCK);
    seal(&mut block, 9);
    let first: Vec<u8> = block[..4].to_vec();
    block.copy_within(504..508, 0);
    block[504..508].copy_from_slice(&first);
    assert_eq!(block_sealed(&block, 9), 1);
}

#[test]
fn wrong_lengths() {
    let mut random = Random::new(3);
    for length in [
        0, 1, 3, 4, 508, 510, 511, 513, 514, 516, 1_023, 1_024, 2_048,
    ] {
        for number in NUMBERS {
            compare(&random.bytes(length), number);
            compare(&vec![0; length], number);
        }
    }
}
