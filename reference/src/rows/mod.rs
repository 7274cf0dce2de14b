//! Seeded cases with what the clear version says of each, one JSON object per line.
mod conversion;
mod json;
mod limits;
mod lists;
mod order;
mod pairs;
mod sheets;

use crate::gen::rng::Rng;
use json::Json;

pub use limits::limits;
pub use order::{aimed, Order, Size, ANY, SMALL};
pub use sheets::sheet_to_read;

/// The kinds of rows take turns: row n is of kind n modulo 6.
pub const KINDS: [&str; 6] = ["drawing", "sheet", "write", "pair", "list", "desk"];

/// The row of this number, without a line end. It depends on nothing but the order and the number.
pub fn row(order: &Order, number: u64) -> String {
    let mut r = Rng::of_case(order.seed, number);
    // The refusals aimed at take turns within each kind.
    let turn = number as usize / KINDS.len();
    let row = match KINDS[number as usize % KINDS.len()] {
        "drawing" => conversion::drawing_row(&mut r, order, turn),
        "sheet" => sheets::sheet_row(&mut r, order, turn),
        "write" => sheets::write_row(&mut r, order, turn),
        "pair" => pairs::pair_row(&mut r),
        "list" => lists::list_row(&mut r, order, turn),
        _ => conversion::desk_row(&mut r, order, turn),
    };
    row.json()
}
