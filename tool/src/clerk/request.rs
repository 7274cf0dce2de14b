//! Requests of docs/PIPE.md, as bytes.
use crate::input::ITEM;

/// What the proved program can be asked for. Items of more than 1,024 bytes are cut there, which changes no answer.
#[derive(Clone, Copy, Debug)]
pub enum Request<'a> {
    Hello,
    Read { sheet: &'a [u8] },
    Convert { sheet: &'a [u8], limit: u64 },
    Check { sheet: &'a [u8], list: &'a [u8] },
    Write { coordinates: &'a [i64], ends: &'a [u8] },
    Faces { rows: &'a [u8], taken: u64, turned: u64 },
    Desk { sheet: &'a [u8] },
}

impl Request<'_> {
    pub fn bytes(&self) -> Vec<u8> {
        match *self {
            Request::Hello => packed(0, 0, &[], &[]),
            Request::Read { sheet } => packed(1, 0, sheet, &[]),
            Request::Convert { sheet, limit } => packed(2, limit, sheet, &[]),
            Request::Check { sheet, list } => packed(3, 0, sheet, list),
            Request::Write { coordinates, ends } => {
                let words: Vec<u8> = coordinates.iter().flat_map(|number| number.to_be_bytes()).collect();
                packed(4, 0, &words, ends)
            }
            Request::Faces { rows, taken, turned } => {
                packed(5, 0, rows, &[taken.to_be_bytes(), turned.to_be_bytes()].concat())
            }
            Request::Desk { sheet } => packed(6, 0, sheet, &[]),
        }
    }
}

fn packed(kind: u8, limit: u64, first: &[u8], second: &[u8]) -> Vec<u8> {
    let cut = |item: &'_ [u8]| item.len().min(ITEM);
    let mut bytes = vec![kind];
    bytes.extend(limit.to_be_bytes());
    bytes.extend((cut(first) as u16).to_be_bytes());
    bytes.extend((cut(second) as u16).to_be_bytes());
    bytes.extend(&first[..cut(first)]);
    bytes.extend(&second[..cut(second)]);
    bytes
}

#[cfg(test)]
mod tests {
    use super::*;

    #[test]
    fn a_request_has_a_head_of_13_bytes() {
        let request = Request::Convert { sheet: &[9; 3], limit: 0x0102 }.bytes();
        assert_eq!(request, [2, 0, 0, 0, 0, 0, 0, 1, 2, 0, 3, 0, 0, 9, 9, 9]);
        assert_eq!(Request::Hello.bytes().len(), 13);
    }

    #[test]
    fn a_long_item_is_cut() {
        let request = Request::Check { sheet: &[7; 5_000], list: &[8; 2] }.bytes();
        assert_eq!((request.len(), &request[9..13]), (13 + 1_024 + 2, &[4, 0, 0, 2][..]));
    }

    #[test]
    fn coordinates_are_words() {
        let request = Request::Write { coordinates: &[-1, 2], ends: &[5] }.bytes();
        assert_eq!(request[13..], [255, 255, 255, 255, 255, 255, 255, 255, 0, 0, 0, 0, 0, 0, 0, 2, 5]);
    }
}
