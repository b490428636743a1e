//! SHA-256 (FIPS 180-4), small and plain.

const PRIMES: [u64; 64] = [
    2, 3, 5, 7, 11, 13, 17, 19, 23, 29, 31, 37, 41, 43, 47, 53, 59, 61, 67, 71, 73, 79, 83, 89, 97,
    101, 103, 107, 109, 113, 127, 131, 137, 139, 149, 151, 157, 163, 167, 173, 179, 181, 191, 193,
    197, 199, 211, 223, 227, 229, 233, 239, 241, 251, 257, 263, 269, 271, 277, 281, 283, 293, 307,
    311,
];

/// The digest in lower-case hexadecimal.
pub fn sha256(message: &[u8]) -> String {
    let constants = PRIMES.map(|prime| root_fraction(prime, 3));
    let mut state: [u32; 8] = std::array::from_fn(|word| root_fraction(PRIMES[word], 2));
    for block in padded(message).chunks(64) {
        let mixed = compress(&state, &constants, &schedule(block));
        state = std::array::from_fn(|word| state[word].wrapping_add(mixed[word]));
    }
    state.iter().map(|word| format!("{word:08x}")).collect()
}

/// The first 32 bits of the fraction of a square or cube root.
fn root_fraction(prime: u64, power: u32) -> u32 {
    // The greatest r with (r / 2^32)^power at most the prime, by halving.
    let (mut low, mut high) = (0_u128, 1_u128 << 37);
    while high - low > 1 {
        let middle = (low + high) / 2;
        if at_most(middle, power, prime) {
            low = middle;
        } else {
            high = middle;
        }
    }
    low as u32
}

fn at_most(root: u128, power: u32, prime: u64) -> bool {
    root.pow(power) <= u128::from(prime) << (32 * power)
}

fn padded(message: &[u8]) -> Vec<u8> {
    let mut bytes = message.to_vec();
    bytes.push(0x80);
    while bytes.len() % 64 != 56 {
        bytes.push(0);
    }
    bytes.extend((message.len() as u64 * 8).to_be_bytes());
    bytes
}

fn schedule(block: &[u8]) -> [u32; 64] {
    let mut words = [0; 64];
    for (word, bytes) in words.iter_mut().zip(block.chunks(4)) {
        *word = u32::from_be_bytes(bytes.try_into().expect("four bytes"));
    }
    for place in 16..64 {
        let (near, far) = (words[place - 2], words[place - 15]);
        let near = near.rotate_right(17) ^ near.rotate_right(19) ^ (near >> 10);
        let far = far.rotate_right(7) ^ far.rotate_right(18) ^ (far >> 3);
        let sum = near.wrapping_add(words[place - 7]).wrapping_add(far);
        words[place] = sum.wrapping_add(words[place - 16]);
    }
    words
}

fn compress(state: &[u32; 8], constants: &[u32; 64], words: &[u32; 64]) -> [u32; 8] {
    let [mut a, mut b, mut c, mut d, mut e, mut f, mut g, mut h] = *state;
    for round in 0..64 {
        let turned = e.rotate_right(6) ^ e.rotate_right(11) ^ e.rotate_right(25);
        let chosen = (e & f) ^ (!e & g);
        let key = constants[round].wrapping_add(words[round]);
        let first = h
            .wrapping_add(turned)
            .wrapping_add(chosen)
            .wrapping_add(key);
        let turned = a.rotate_right(2) ^ a.rotate_right(13) ^ a.rotate_right(22);
        let majority = (a & b) ^ (a & c) ^ (b & c);
        (h, g, f, e) = (g, f, e, d.wrapping_add(first));
        (d, c, b, a) = (c, b, a, first.wrapping_add(turned).wrapping_add(majority));
    }
    [a, b, c, d, e, f, g, h]
}

#[test]
fn known_digests() {
    let empty = "e3b0c44298fc1c149afbf4c8996fb92427ae41e4649b934ca495991b7852b855";
    let abc = "ba7816bf8f01cfea414140de5dae2223b00361a396177a9cb410ff61f20015ad";
    let million = "cdc76e5c9914fb9281a1c7e284d73e67f1809a48a497200e046d39ccc7112cd0";
    assert_eq!(sha256(b""), empty);
    assert_eq!(sha256(b"abc"), abc);
    assert_eq!(sha256(&[b'a'; 1_000_000]), million);
}
