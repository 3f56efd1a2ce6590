//! A walk over the boards that pass a list, as an iterator.

use crate::{Passing, Place, Refusal, add_test, run, take};

/// The boards that pass a sheet's list, in dictionary order, each with what it is beside the specification. It can be
/// resumed from its place, and a test may be added at any time: the rest of the walk is then the later boards that pass
/// the longer list. The thread needs [`STACK`](crate::STACK) bytes of stack.
///
/// ```
/// use ranthelo::{Comparison, Walk};
///
/// let sheet = ranthelo::text::assemble(b"SIZE 1 1 3\n RULE 0 0 0 0\n FAULT 0 0 1 0\n FAULT 0 0 2 0")?;
/// let mut walk = Walk::new(&sheet)?;
/// assert_eq!(walk.next().map(|one| one.comparison), Some(Comparison::Conforms));
/// let place = walk.place().clone();
/// assert_eq!(walk.by_ref().map(|one| one.board).collect::<Vec<_>>(), [[1], [2]]);
///
/// let mut again = Walk::from(&sheet, place)?;
/// again.add_test(&[0])?;
/// assert_eq!(again.next(), None);
/// # Ok::<(), Box<dyn std::error::Error>>(())
/// ```
#[derive(Clone, Debug, PartialEq, Eq)]
#[must_use]
pub struct Walk {
    sheet: Vec<u8>,
    place: Place,
}

impl Walk {
    /// A walk from the start.
    pub fn new(sheet: &[u8]) -> Result<Self, Refusal> {
        Walk::from(sheet, Place::Start)
    }

    /// A walk that goes on from a place. A board that is none of the sheet's is refused with 13 or 14.
    pub fn from(sheet: &[u8], place: Place) -> Result<Self, Refusal> {
        match &place {
            Place::Board(board) => run(sheet, board, &[]).map(|_| ()),
            _ => crate::read(sheet).map(|_| ()),
        }?;
        let sheet = sheet.to_vec();
        Ok(Walk { sheet, place })
    }

    /// Where it is: its start, the last board taken, or its end.
    #[must_use]
    pub fn place(&self) -> &Place {
        &self.place
    }

    /// The sheet, with the tests that were added.
    #[must_use]
    pub fn sheet(&self) -> &[u8] {
        &self.sheet
    }

    /// Adds a test, the last of the list; refused as [`add_test`] refuses it.
    pub fn add_test(&mut self, presses: &[u8]) -> Result<(), Refusal> {
        self.sheet = add_test(&self.sheet, presses)?;
        Ok(())
    }
}

impl Iterator for Walk {
    type Item = Passing;

    fn next(&mut self) -> Option<Passing> {
        let passing = take(&self.sheet, &self.place).ok().flatten();
        self.place = match &passing {
            Some(one) => Place::Board(one.board.clone()),
            None => Place::End,
        };
        passing
    }
}
