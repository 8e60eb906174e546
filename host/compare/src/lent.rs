//! What is lent to a run: a buffer from the middle of a larger one, so that a write outside of it is seen; and pages that
//! a run left when it was broken off.

use oracle::PAGE_BYTES;

/// How many items stand on each side of a lent buffer, at least.
const EDGE: usize = 64;

pub struct Lent<T> {
    whole: Vec<T>,
    start: usize,
    len: usize,
    edge: T,
}

impl<T: Copy + PartialEq> Lent<T> {
    /// Items between edges; a shift moves their start, so that bytes are lent at every alignment.
    pub fn new(items: &[T], shift: usize, edge: T) -> Lent<T> {
        let start = EDGE + shift;
        let mut whole = vec![edge; start];
        whole.extend_from_slice(items);
        whole.resize(whole.len() + EDGE, edge);
        Lent {
            whole,
            start,
            len: items.len(),
            edge,
        }
    }

    pub fn items(&mut self) -> &mut [T] {
        &mut self.whole[self.start..self.start + self.len]
    }

    /// The items as they were left, and whether the edges still stand.
    pub fn taken_back(self) -> (Vec<T>, bool) {
        let end = self.start + self.len;
        let mut edges = self.whole[..self.start].iter().chain(&self.whole[end..]);
        let kept = edges.all(|item| *item == self.edge);
        (self.whole[self.start..end].to_vec(), kept)
    }
}

/// Pages of which some are taken from another run.
pub fn mixture(old: &[u8], new: &[u8], done: impl Fn(usize) -> bool) -> Vec<u8> {
    let mut mixed = old.to_vec();
    for (index, page) in mixed.chunks_mut(PAGE_BYTES).enumerate() {
        if done(index) {
            page.copy_from_slice(&new[index * PAGE_BYTES..][..PAGE_BYTES]);
        }
    }
    mixed
}
