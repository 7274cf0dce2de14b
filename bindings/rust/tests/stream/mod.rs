//! The stream that `reference calls` writes; reference/src/calls/stream.rs has its form.

/// What lists are made of, from bytes whose first is the lowest.
pub trait Entry: Copy + PartialEq {
    const WIDTH: usize;
    fn of(bytes: &[u8]) -> Self;
}

impl Entry for u8 {
    const WIDTH: usize = 1;

    fn of(bytes: &[u8]) -> u8 {
        bytes[0]
    }
}

impl Entry for u64 {
    const WIDTH: usize = 8;

    fn of(bytes: &[u8]) -> u64 {
        u64::from_le_bytes(bytes.try_into().expect("eight bytes"))
    }
}

impl Entry for i64 {
    const WIDTH: usize = 8;

    fn of(bytes: &[u8]) -> i64 {
        u64::of(bytes) as i64
    }
}

pub struct Stream<'a>(pub &'a [u8]);

impl Stream<'_> {
    pub fn one<T: Entry>(&mut self) -> T {
        let (bytes, rest) = self.0.split_at_checked(T::WIDTH).expect("the stream ends within a call");
        self.0 = rest;
        T::of(bytes)
    }

    fn length(&mut self) -> usize {
        usize::from(self.one::<u8>()) + 256 * usize::from(self.one::<u8>())
    }

    /// A list that is read.
    pub fn list<T: Entry>(&mut self) -> Vec<T> {
        (0..self.length()).map(|_| self.one()).collect()
    }

    /// A list that is written.
    pub fn room<T: Entry>(&mut self) -> Room<T> {
        let length = self.length();
        let seed: u8 = self.one();
        let entry = |k: usize| T::of(&[seed.wrapping_add((37 * k) as u8); 8][..T::WIDTH]);
        let before: Vec<T> = (0..length).map(entry).collect();
        let mut after = before.clone();
        for (place, entry) in self.list().into_iter().enumerate() {
            after[place] = entry;
        }
        Room { before, after }
    }
}

/// A list that is written: what it holds before the call and after it.
pub struct Room<T> {
    before: Vec<T>,
    after: Vec<T>,
}

impl<T: Entry> Room<T> {
    pub fn length(&self) -> usize {
        self.before.len()
    }

    /// Whether the call wrote these entries to its start, as far as it reaches, and nothing else.
    pub fn got(&self, entries: &[T]) -> bool {
        let kept = self.before.iter().skip(entries.len());
        entries.iter().chain(kept).take(self.length()).eq(&self.after)
    }
}
