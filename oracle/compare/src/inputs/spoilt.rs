//! Inputs that mostly don't fit.

use crate::rng::Rng;

/// Bytes and bits of lines in any order.
pub fn noise(rng: &mut Rng) -> Vec<u8> {
    const BITS: [&[u8]; 12] = [
        b"plan ",
        b"dur ",
        b"fix ",
        b"go\n",
        b"put ",
        b"cut ",
        b"show\n",
        b"crit\n",
        b"\n",
        b" ",
        b"0",
        b"18446744073709551615",
    ];
    let mut input = Vec::new();
    for _ in 0..rng.below(60) {
        if rng.once_in(4) {
            input.push(rng.below(256) as u8);
        } else {
            input.extend_from_slice(BITS[rng.below(BITS.len())]);
        }
    }
    input
}

/// One to four changes at places picked at random.
pub fn spoil(rng: &mut Rng, mut input: Vec<u8>) -> Vec<u8> {
    for _ in 0..=rng.below(4) {
        change(rng, &mut input);
    }
    input
}

fn change(rng: &mut Rng, input: &mut Vec<u8>) {
    const NUMBERS: [&[u8]; 7] = [
        b"4294967295",
        b"4294967296",
        b"18446744073709551615",
        b"18446744073709551616",
        b"00",
        b"-1",
        b"1099511627777",
    ];
    if input.is_empty() {
        return;
    }
    let place = rng.below(input.len());
    match rng.below(8) {
        0 => input[place] = rng.below(256) as u8,
        1 => {
            input.remove(place);
        }
        2 => input.insert(place, b" \n0917"[rng.below(6)]),
        3 => input.truncate(place),
        4 => {
            let number = NUMBERS[rng.below(NUMBERS.len())];
            input.splice(place..place + 1, number.iter().copied());
        }
        5 => double_line(rng, input),
        6 => {
            input.pop();
        }
        _ => input.extend_from_within(place..),
    }
}

/// A line stands once more, somewhere.
fn double_line(rng: &mut Rng, input: &mut Vec<u8>) {
    let mut lines: Vec<Vec<u8>> = input
        .split_inclusive(|&byte| byte == b'\n')
        .map(<[u8]>::to_vec)
        .collect();
    let line = lines[rng.below(lines.len())].clone();
    lines.insert(rng.below(lines.len() + 1), line);
    *input = lines.concat();
}
