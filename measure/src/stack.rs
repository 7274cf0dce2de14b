//! How many bytes of stack a call takes: what lies below the caller is filled with one word, and the lowest that is another word
//! afterwards is as far as the call went.
use std::arch::asm;

const FILL: u64 = 0x5AFE_57AC_5AFE_57AC;
/// More than any call here takes.
const ROOM: usize = 1 << 20;
/// What the compiler may use below the stack pointer without moving it.
const KEPT: usize = 256;

#[inline(never)]
pub fn bytes(call: impl FnOnce() -> u64) -> usize {
    let top: usize;
    unsafe { asm!("mov {}, rsp", out(reg) top) };
    let words = |from: usize, to: usize| (from..to).step_by(8).map(|at| at as *mut u64);
    for word in words(top - ROOM, top - KEPT) {
        unsafe { word.write_volatile(FILL) };
    }
    call();
    let other = |word: &*mut u64| unsafe { word.read_volatile() } != FILL;
    words(top - ROOM, top).find(other).map_or(0, |word| top - word as usize)
}
