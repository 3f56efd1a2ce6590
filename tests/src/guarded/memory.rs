//! Memory to lend, with guards before and after it.

use crate::reference::Refusal;
use std::fmt::Debug;

const MARGIN: usize = 24;
const GUARD_BYTE: u8 = 0xA7;
const GUARD_WORD: usize = usize::MAX - 0x5A;

/// A copy of some content between two margins.
pub struct Guarded<T> {
    cells: Vec<T>,
    lent: Vec<T>,
}

impl<T: Copy + PartialEq + Debug> Guarded<T> {
    pub fn new(content: &[T], guard: T) -> Self {
        let margin = [guard; MARGIN];
        let cells = [&margin[..], content, &margin[..]].concat();
        Guarded {
            lent: cells.clone(),
            cells,
        }
    }

    pub fn content(&self) -> &[T] {
        &self.cells[MARGIN..self.cells.len() - MARGIN]
    }

    pub fn content_mut(&mut self) -> &mut [T] {
        let end = self.cells.len() - MARGIN;
        &mut self.cells[MARGIN..end]
    }

    /// The first `written` elements; everything else must be as it was lent.
    pub fn front(&self, written: usize) -> &[T] {
        let (before, after) = (MARGIN, MARGIN + written);
        assert!(after + MARGIN <= self.cells.len(), "more told than lent");
        assert_eq!(self.cells[..before], self.lent[..before], "before");
        assert_eq!(self.cells[after..], self.lent[after..], "after");
        &self.cells[before..after]
    }

    /// Nothing at all may have changed.
    pub fn untouched(&self) {
        self.front(0);
    }
}

/// Bytes to be read only.
pub fn bytes(content: &[u8]) -> Guarded<u8> {
    Guarded::new(content, GUARD_BYTE)
}

/// A buffer to be written, filled with bytes that no answer has.
pub fn buffer(length: usize) -> Guarded<u8> {
    let filler: Vec<u8> = (0..length).map(|i| 0x80 | (i * 7 + 3) as u8).collect();
    Guarded::new(&filler, GUARD_BYTE)
}

/// The words of an answer.
pub struct Answer<const N: usize>(Guarded<usize>);

impl<const N: usize> Answer<N> {
    pub fn new() -> Self {
        Answer(Guarded::new(&[GUARD_WORD; N], GUARD_WORD))
    }

    pub fn lend(&mut self) -> &mut [usize; N] {
        let words = self.0.content_mut();
        words.try_into().expect("the answer has N words")
    }

    /// The words, every one of which must be written.
    pub fn words(&self) -> &[usize] {
        let words = self.0.front(N);
        assert!(!words.contains(&GUARD_WORD), "a word was left unwritten");
        words
    }

    /// What follows the number 0 and the place, or the refusal. Words that tell nothing must
    /// be 0.
    pub fn result(&self) -> Result<&[usize], Refusal> {
        let words = self.words();
        let (number, place, rest) = (words[0], words[1], &words[2..]);
        if number == 0 {
            assert_eq!(place, 0, "a place without a refusal");
            return Ok(rest);
        }
        assert!(rest.iter().all(|&word| word == 0), "a refusal tells more");
        Err(Refusal { number, place })
    }
}

/// A word that is 0 or 1.
pub fn flag(word: usize) -> bool {
    assert!(word < 2, "neither 0 nor 1: {word}");
    word == 1
}
