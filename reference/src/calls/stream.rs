//! The form of a stream of calls. A call is the function's number in a byte, its arguments in order, and the number that it returns in
//! eight bytes. A list that is read is its length in two bytes and its entries. A list that is written is its length in two bytes, a byte
//! from which its contents before the call follow, and, behind their count in two bytes, the entries that it begins with afterwards:
//! later ones are as they were. All numbers have their low byte first.

/// What lists are made of.
pub trait Entry: Copy + PartialEq {
    /// The entry all of whose bytes are this one.
    fn filled(byte: u8) -> Self;
    fn put(self, bytes: &mut Vec<u8>);
}

impl Entry for u8 {
    fn filled(byte: u8) -> u8 {
        byte
    }

    fn put(self, bytes: &mut Vec<u8>) {
        bytes.push(self);
    }
}

impl Entry for u64 {
    fn filled(byte: u8) -> u64 {
        u64::from_le_bytes([byte; 8])
    }

    fn put(self, bytes: &mut Vec<u8>) {
        bytes.extend(self.to_le_bytes());
    }
}

impl Entry for i64 {
    fn filled(byte: u8) -> i64 {
        u64::filled(byte) as i64
    }

    fn put(self, bytes: &mut Vec<u8>) {
        (self as u64).put(bytes);
    }
}

/// A list that is written, with its contents before the call.
pub struct Room<T> {
    seed: u8,
    pub now: Vec<T>,
}

impl<T: Entry> Room<T> {
    pub fn new(length: usize, seed: u8) -> Room<T> {
        Room { seed, now: (0..length).map(|k| Room::before(seed, k)).collect() }
    }

    /// Entry k before the call: no two next to each other are the same.
    fn before(seed: u8, k: usize) -> T {
        T::filled(seed.wrapping_add((37 * k) as u8))
    }

    /// Writes entries to the start, as far as there is room.
    pub fn write(&mut self, entries: &[T]) {
        for (entry, place) in entries.iter().zip(&mut self.now) {
            *place = *entry;
        }
    }
}

#[derive(Default)]
pub struct Stream {
    pub bytes: Vec<u8>,
}

impl Stream {
    pub fn call(&mut self, function: u8) {
        self.bytes.push(function);
    }

    pub fn number(&mut self, number: u64) {
        number.put(&mut self.bytes);
    }

    fn length(&mut self, length: usize) {
        self.bytes.extend((length as u16).to_le_bytes());
    }

    pub fn list<T: Entry>(&mut self, entries: &[T]) {
        self.length(entries.len());
        entries.iter().for_each(|entry| entry.put(&mut self.bytes));
    }

    pub fn room<T: Entry>(&mut self, room: &Room<T>) {
        let changed = (0..room.now.len()).rev().find(|k| room.now[*k] != Room::before(room.seed, *k));
        self.length(room.now.len());
        self.bytes.push(room.seed);
        self.list(&room.now[..changed.map_or(0, |k| k + 1)]);
    }
}
