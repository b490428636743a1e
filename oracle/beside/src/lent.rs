//! Words that are lent to the library, with guards around them that it must not touch.

use notekarip::Block;

/// Words on either side of what is lent.
const GUARD: usize = 8;

/// A word of any width, from a number.
pub trait Word: Copy + PartialEq {
    fn of(number: u64) -> Self;
}

impl Word for u16 {
    fn of(number: u64) -> u16 {
        number as u16
    }
}

impl Word for u32 {
    fn of(number: u64) -> u32 {
        number as u32
    }
}

impl Word for u64 {
    fn of(number: u64) -> u64 {
        number
    }
}

impl Word for i64 {
    fn of(number: u64) -> i64 {
        number as i64
    }
}

impl Word for Block {
    fn of(number: u64) -> Block {
        let word = number as u32;
        Block {
            owner: word,
            first: !word,
            last: word,
            length: !word,
        }
    }
}

#[derive(Clone)]
pub struct Lent<T> {
    all: Vec<T>,
    /// As all was when last marked.
    marked: Vec<T>,
    length: usize,
}

impl<T: Word> Lent<T> {
    /// So many places of zero and some more of anything.
    pub fn zeroed(zeros: usize, more: usize) -> Lent<T> {
        let mut lent = Lent {
            all: Vec::new(),
            marked: Vec::new(),
            length: 0,
        };
        lent.room(zeros + more);
        lent.slice_mut()[..zeros].fill(T::of(0));
        lent
    }

    /// That many places, each with something that no answer is likely to be.
    pub fn room(&mut self, length: usize) {
        self.length = length;
        let all = length + 2 * GUARD;
        self.all.clear();
        self.all
            .extend((0..all as u64).map(|place| T::of(odd(place))));
        self.marked.resize(all, T::of(0));
    }

    pub fn slice(&self) -> &[T] {
        &self.all[GUARD..][..self.length]
    }

    pub fn slice_mut(&mut self) -> &mut [T] {
        &mut self.all[GUARD..][..self.length]
    }

    /// All places, which are N.
    pub fn array_mut<const N: usize>(&mut self) -> &mut [T; N] {
        self.slice_mut().try_into().expect("as many places")
    }

    /// Lends only the first `length` places, until it is called again with more.
    pub fn shorten(&mut self, length: usize) {
        self.length = length.min(self.all.len() - 2 * GUARD);
    }

    /// From here on changes count.
    pub fn mark(&mut self) {
        self.marked.copy_from_slice(&self.all);
    }

    /// Whether all but the first `most` lent places are as they were when marked.
    pub fn kept_beyond(&self, most: usize) -> bool {
        let end = GUARD + most.min(self.length);
        self.all[..GUARD] == self.marked[..GUARD] && self.all[end..] == self.marked[end..]
    }
}

fn odd(place: u64) -> u64 {
    (place + 1).wrapping_mul(0xA5C3_96E1_D2B4_8779)
}

#[cfg(test)]
mod tests {
    use super::*;

    #[test]
    fn a_new_one_is_zero_where_it_must_be() {
        let lent: Lent<u16> = Lent::zeroed(3, 2);
        assert_eq!(lent.slice()[..3], [0; 3]);
        assert!(lent.slice()[3..].iter().all(|&word| word != 0));
    }

    #[test]
    fn changes_beyond_the_answer_are_noticed() {
        let mut lent: Lent<u32> = Lent::zeroed(3, 0);
        lent.mark();
        lent.slice_mut()[1] = 7;
        assert!(lent.kept_beyond(2));
        assert!(!lent.kept_beyond(1));
    }

    #[test]
    fn changes_of_words_that_are_not_lent_are_noticed() {
        for place in [GUARD - 1, GUARD + 3] {
            let mut lent: Lent<u64> = Lent::zeroed(4, 0);
            lent.shorten(3);
            lent.mark();
            lent.all[place] += 1;
            assert!(!lent.kept_beyond(usize::MAX));
        }
    }

    #[test]
    fn shortened_and_restored_it_is_the_same() {
        let mut lent: Lent<u64> = Lent::zeroed(4, 2);
        let before = lent.slice().to_vec();
        lent.shorten(1);
        assert_eq!(lent.slice(), [0]);
        lent.shorten(usize::MAX);
        assert_eq!(lent.slice(), before);
    }
}
