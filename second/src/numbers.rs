//! Numbers for random sheets, in all their spellings.

use crate::chance::Chance;

const NOTABLE: [u64; 13] = [
    0,
    10,
    65,
    127,
    255,
    256,
    32_767,
    46_341,
    65_535,
    65_536,
    1_073_741_824,
    2_147_483_646,
    2_147_483_647,
];

/// Mostly a small number, as it is usually written.
pub fn spelled(chance: &mut Chance) -> String {
    let number = match chance.one_in(5) {
        true => chance.pick(&NOTABLE),
        false => chance.below(10) as u64,
    };
    spell(chance, number)
}

/// One of the spellings of this number.
fn spell(chance: &mut Chance, number: u64) -> String {
    let zeros = "0".repeat(chance.pick(&[0, 0, 0, 0, 0, 1, 30]));
    match chance.below(12) {
        0 => format!("0x{zeros}{number:x}"),
        1 => format!("0x{zeros}{number:X}"),
        2 => format!("0b{zeros}{number:b}"),
        3 => format!("{zeros}{number}"),
        _ => number.to_string(),
    }
}

/// A number close to the largest, or far past it.
pub fn large(chance: &mut Chance) -> String {
    let near = 2_147_483_640 + chance.below(16) as u64;
    let more = chance.pick(&["", "", "", "0", "1", "000000000000000000000000"]);
    spell(chance, near) + more
}

/// What comes close to being a number in hex or binary.
pub fn odd(chance: &mut Chance) -> String {
    chance
        .pick(&[
            "0x", "0b", "0X1f", "0B1", "0xg", "0b2", "0b12", "00x1", "1x1", "0x_1", "0b_1", "0x1g",
            "0b1b1", "0x1x1", "0x1.5", "0x1 .5", "0xx1", "0bb1", "0b0x1", "0x0b1", "x1", "b1",
        ])
        .to_string()
}

const NOTABLE_FLOATS: [&str; 14] = [
    "0.",
    "0.0",
    "1.",
    "1.0",
    "12.0",
    "0.1",
    "0.2",
    "0.3",
    "2147483648.",
    "9007199254740.99",
    "999999999999999.",
    "0.00000000000001",
    "1.00000000000001",
    "00000.500000000",
];

/// A float, mostly a short one.
pub fn float(chance: &mut Chance) -> String {
    match chance.below(4) {
        0 => chance.pick(&NOTABLE_FLOATS).to_string(),
        1 => digits(chance, 15),
        _ => format!("{}.{}", chance.below(20), chance.below(100)),
    }
}

/// That many digits at random, with a point somewhere behind the first.
fn digits(chance: &mut Chance, count: usize) -> String {
    let mut digits: String = (0..count)
        .map(|_| char::from(b'0' + chance.below(10) as u8))
        .collect();
    digits.insert(chance.between(1, count), '.');
    digits
}

/// A float with as many digits as it may have, or nearly.
pub fn long_float(chance: &mut Chance) -> String {
    let count = chance.between(13, 17);
    let zeros = chance.pick(&["", "", "0", "000"]);
    match chance.below(3) {
        0 => format!("{zeros}{}", digits(chance, count)),
        1 => format!("{}{zeros}", digits(chance, count)),
        _ => digits(chance, count),
    }
}

/// What comes close to being a float.
pub fn odd_float(chance: &mut Chance) -> String {
    chance
        .pick(&[
            ".5",
            "1.5.2",
            "1..5",
            "1.x",
            "1.5x",
            "1. 5",
            "1 .5",
            "0x1.5",
            "0b1.1",
            "0x.5",
            "1.5e3",
            "1.e3",
            "1e3",
            "1._",
            "1./2.",
            "00.",
            "2147483648.",
            "2147483648",
            "x.5",
            "1.if",
        ])
        .to_string()
}
