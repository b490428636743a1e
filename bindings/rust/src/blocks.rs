//! The critical blocks.

use crate::answer::Block;
use crate::calls;
use crate::refusal::Refusal;
use crate::sizes::{ENTRIES, TOLD};
use crate::store::Store;

impl Store {
    /// The critical blocks of these owners, in their order; none while cyclic.
    ///
    /// ```
    /// use notekarip::{Block, Load, Owner, Store};
    ///
    /// let mut store = Store::new();
    /// let durations = [1, 1, 5, 7];
    /// store.load(&Load { jobs: 4, owners: 1, durations: &durations, ..Load::default() })?;
    /// store.put(Owner(0), &[2, 3])?;
    /// let block = Block { owner: 0, first: 0, last: 1, length: 2 };
    /// assert_eq!(store.blocks(&[0])?, [block]);
    /// # Ok::<(), notekarip::Refusal>(())
    /// ```
    pub fn blocks(&self, owners: &[u32]) -> Result<Vec<Block>, Refusal> {
        // Enough unless an owner is asked for more than once.
        let mut blocks = vec![Block::default(); ENTRIES];
        loop {
            match self.blocks_into(owners, &mut blocks) {
                Err(Refusal::Room) if blocks.len() < ENTRIES * owners.len() => {
                    blocks.resize(2 * blocks.len(), Block::default());
                }
                Err(refusal) => return Err(refusal),
                Ok(count) => {
                    blocks.truncate(count);
                    return Ok(blocks);
                }
            }
        }
    }

    /// The same into a lent list with a place for each block; answers how many.
    pub fn blocks_into(&self, owners: &[u32], out: &mut [Block]) -> Result<usize, Refusal> {
        let mut told = [0; TOLD];
        let code = calls::blocks(
            &self.base,
            &self.spans,
            &self.edges,
            &self.routes,
            &self.times,
            owners,
            out,
            &mut told,
        );
        Refusal::check(code)?;
        Ok(told[0] as usize)
    }
}
