//! Judge in plain Rust: an unproved version of the library's engine.
//!
//! A cube says for each suspect which transitions are meant. An attempt at refuting hands out
//! cubes in which no mutant survives; the search asks one for one prefix after another, in
//! dictionary order. Which suspect is settled next, which test is looked at and how wide a cube
//! is proposed is steering: what it proposes is checked.

mod checks;
mod cubes;
mod cursors;
mod marks;
mod notes;
mod proposals;
mod quick;
mod search;
mod store;
mod tables;
mod thorough;

use crate::plain;
use marks::Marks;
use notes::Notes;
use quick::Quick;
use ranthelo_tests::enumeration::Survivor;
use ranthelo_tests::reference::Refusal;
use search::{search, Searched};
use store::Store;
use tables::Tables;
use thorough::Thorough;

/// After so much effort the quick attempt gives up.
const QUICK: u32 = 512;

/// A verdict, and the number of nodes that it took.
pub struct Judgement {
    pub survivor: Option<Survivor>,
    pub nodes: u32,
}

/// The judgement by the quick attempt, or by the thorough one where it gives up.
pub fn judge(sheet: &[u8]) -> Result<Judgement, Refusal> {
    judge_within(sheet, QUICK)
}

/// The judgement by the thorough attempt alone.
pub fn judge_thoroughly(sheet: &[u8]) -> Result<Judgement, Refusal> {
    judge_within(sheet, 0)
}

fn judge_within(sheet: &[u8], limit: u32) -> Result<Judgement, Refusal> {
    let sheet = plain::load(sheet)?;
    let mut tables = Tables::new(&sheet);
    let mut notes = Notes::new(limit);
    let mut searched = search(&mut Quick::new(&tables, &mut notes));
    if let Searched::GaveUp = searched {
        notes.forget_witness();
        tables.find_swaps();
        let mut store = Store::new();
        let mut marks = Marks::new();
        let mut thorough = Thorough::new(&tables, &mut notes, &mut store, &mut marks);
        searched = search(&mut thorough);
    }
    let survivor = match searched {
        Searched::First(survivor) => Some(survivor),
        Searched::Nothing | Searched::GaveUp => None,
    };
    let nodes = notes.nodes;
    Ok(Judgement { survivor, nodes })
}
