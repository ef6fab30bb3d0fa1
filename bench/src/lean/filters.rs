//! The filters of a node. Their words are all compared, from the last to the first, with no branch between: at which of them a
//! search would end is what a processor cannot foresee.

use crate::plain::filter::{Filters as Table, Rest, Word, word_of};
use crate::plain::head::FlowKey;
use crate::plain::line::{Keys, Protocol};
use crate::plain::place::at;

#[derive(Default)]
pub struct Filters(Table);

impl Filters {
    pub fn add(&mut self, prio: u16, protocol: Protocol, keys: &Keys, place: u16) {
        self.0.add(prio, protocol, keys, place);
    }

    /// The place of the class that the filters name.
    #[inline(always)]
    pub fn place_of(&self, key: &FlowKey) -> Option<u16> {
        let word = word_of(key.sport, key.dport, key.proto, key.family);
        let first = first_of(&self.0.words, word);
        if first == self.0.words.len() {
            return None;
        }
        let rest = at(&self.0.rest, first);
        if has_no_address(rest) {
            return Some(rest.place);
        }
        self.place_from(first, word, key)
    }

    /// The same, of the filters from this one on, where addresses are asked.
    #[cold]
    #[inline(never)]
    fn place_from(&self, first: usize, word: u64, key: &FlowKey) -> Option<u16> {
        let all = self.0.words.iter().zip(&self.0.rest).skip(first);
        let mut agreeing = all.filter(|(filter, rest)| agrees(filter, word) && (has_no_address(rest) || rest.has(key)));
        agreeing.next().map(|(_, rest)| rest.place)
    }
}

/// The first filter with this word, or how many there are.
#[inline(always)]
fn first_of(words: &[Word], word: u64) -> usize {
    let mut first = words.len();
    for (index, filter) in words.iter().enumerate().rev() {
        first = if agrees(filter, word) { index } else { first };
    }
    first
}

#[inline(always)]
fn agrees(filter: &Word, word: u64) -> bool {
    (word ^ filter.value) & filter.mask == 0
}

#[inline(always)]
fn has_no_address(rest: &Rest) -> bool {
    rest.src.is_none() && rest.dst.is_none()
}
