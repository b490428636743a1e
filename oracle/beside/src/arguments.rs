//! Numbers on the command line.

/// Each number in its turn, or what stands for it if it is not given.
pub fn numbers<const COUNT: usize>(defaults: [u64; COUNT]) -> [u64; COUNT] {
    let mut words = std::env::args().skip(1);
    defaults.map(|default| match words.next() {
        Some(word) => word.parse().expect("a number"),
        None => default,
    })
}
