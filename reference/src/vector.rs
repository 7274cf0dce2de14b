//! Vectors of three whole numbers, and rings of anything: i128 in the clear version, i64 in the fast one.
use std::ops::{Add, Mul, Sub};

pub trait Whole: Copy + Add<Output = Self> + Sub<Output = Self> + Mul<Output = Self> {}
impl<T: Copy + Add<Output = T> + Sub<Output = T> + Mul<Output = T>> Whole for T {}

#[inline]
pub fn add<T: Whole>(a: [T; 3], b: [T; 3]) -> [T; 3] {
    [a[0] + b[0], a[1] + b[1], a[2] + b[2]]
}

#[inline]
pub fn sub<T: Whole>(a: [T; 3], b: [T; 3]) -> [T; 3] {
    [a[0] - b[0], a[1] - b[1], a[2] - b[2]]
}

#[inline]
pub fn scale<T: Whole>(k: T, a: [T; 3]) -> [T; 3] {
    [k * a[0], k * a[1], k * a[2]]
}

#[inline]
pub fn dot<T: Whole>(a: [T; 3], b: [T; 3]) -> T {
    a[0] * b[0] + a[1] * b[1] + a[2] * b[2]
}

#[inline]
pub fn cross<T: Whole>(a: [T; 3], b: [T; 3]) -> [T; 3] {
    [a[1] * b[2] - a[2] * b[1], a[2] * b[0] - a[0] * b[2], a[0] * b[1] - a[1] * b[0]]
}

/// The determinant of three rows.
pub fn det<T: Whole>(a: [T; 3], b: [T; 3], c: [T; 3]) -> T {
    dot(a, cross(b, c))
}

/// Each entry of a ring with the one after it, the last with the first.
pub fn sides<T: Copy>(ring: &[T]) -> impl Iterator<Item = (T, T)> + '_ {
    ring.iter().enumerate().map(|(k, a)| (*a, ring[(k + 1) % ring.len()]))
}
