//! What the comparisons have in common: how a difference between the rival and the product is found, told
//! and brought down to fewer events.

use std::fmt::Debug;

use crate::board::Board;
use crate::library;
use crate::step::fresh;

/// What the two say where they differ.
pub type Agreement = Result<(), String>;

/// What lent bytes hold before a call, so that a byte that was written or left shows.
pub const FILLING: u8 = 0xA5;

/// How many bytes behind a lent part are watched.
pub const BEHIND: usize = 2;

pub fn same<T: PartialEq + Debug>(what: &str, rival: T, product: T) -> Agreement {
    if rival == product {
        Ok(())
    } else {
        Err(format!("{what}: rival {rival:?}, product {product:?}"))
    }
}

/// Every field of every place, also of those beyond the size.
pub fn same_board(when: &str, rival: &Board, product: &library::Board) -> Agreement {
    let wanted = library::encode(rival);
    if wanted == *product {
        return Ok(());
    }
    let different: Vec<String> = library::fields(&wanted)
        .iter()
        .zip(&library::fields(product))
        .filter(|(rival, product)| rival != product)
        .map(|(rival, product)| format!("{}: rival {}, product {}", rival.0, rival.1, product.1))
        .collect();
    Err(format!("board {when}: {}", different.join("; ")))
}

pub fn board_text(board: &Board) -> String {
    if *board == fresh(board.size as usize).1 {
        return format!("fresh board of size {}", board.size);
    }
    let fields: Vec<String> = library::fields(&library::encode(board))
        .iter()
        .map(|(name, value)| format!("{name}={value}"))
        .collect();
    format!("board {}", fields.join(" "))
}

/// As in the cases: kind,place,value and the fourth byte where it is not 0.
pub fn event_text(event: &[u8]) -> String {
    match *event {
        [kind, place, value, 0] => format!("{kind},{place},{value}"),
        [kind, place, value, fourth] => format!("{kind},{place},{value},{fourth}"),
        _ => format!("{} bytes{event:?}", event.len()).replace(' ', ""),
    }
}

/// Leaves out events, many at a time and then few, as long as some difference stays. The question says how
/// many of the events it takes to see one.
pub fn fewer<T: Clone>(events: &[T], needed: impl Fn(&[T]) -> Option<usize>) -> Vec<T> {
    let mut kept = events.to_vec();
    let mut piece = kept.len() / 2;
    while piece > 0 {
        let mut at = 0;
        while at < kept.len() {
            let mut tried = kept.clone();
            tried.drain(at..(at + piece).min(kept.len()));
            match needed(&tried) {
                Some(count) => {
                    tried.truncate(count);
                    kept = tried;
                }
                None => at += piece,
            }
        }
        piece /= 2;
    }
    kept
}
