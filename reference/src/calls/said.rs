//! What an answer says, in words: its number, its place, and the values that come with it.
use crate::convert::Answer;
use crate::numbers::Refusal;

pub fn refused(refusal: Refusal) -> Vec<u64> {
    vec![refusal.number as u64, refusal.place as u64]
}

pub fn written(length: Result<usize, Refusal>) -> Vec<u64> {
    length.map_or_else(refused, |length| vec![0, 0, length as u64])
}

pub fn said(answer: &Answer, solid_room: &[u64]) -> Vec<u64> {
    match *answer {
        Answer::Refused(refusal) => refused(refusal),
        Answer::Ended { number, loops, candidates, work } => [number, work, loops, candidates].map(u64::from).to_vec(),
        Answer::Report { loops, candidates, work, solids } => {
            let mut said = [0, 0, loops, candidates, work, solids].map(u64::from).to_vec();
            said.extend((solids == 1).then(|| solid_room[2]));
            said
        }
    }
}
