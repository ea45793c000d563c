//! The shelf's acts, ours alone, on a shelf whose entries are the lines of the text: first fit and the lookup of a version that none of them admits,
//! and the add of the last entry.

use crate::peers::{Lent, Peer, CARGO};
use maluwesi::ffi;
use std::cell::UnsafeCell;
use std::sync::atomic::{AtomicUsize, Ordering};

const SHELF_LEN: usize = 37_890;
const ENTRY_LEN: usize = 20;
const VERSION: &str = "9.9.9";
static SHELF: Lent<u8, SHELF_LEN> = Lent(UnsafeCell::new([0; SHELF_LEN]));
/// Where the text stands whose lines are on the shelf.
static ON_SHELF: AtomicUsize = AtomicUsize::new(0);

pub const FITTERS: [Peer; 1] = [Peer { name: "maluwesi", act: fits_first }];
pub const SEEKERS: [Peer; 1] = [Peer { name: "maluwesi", act: looks_up }];
pub const ADDERS: [Peer; 1] = [Peer { name: "maluwesi", act: adds }];

fn add(text: &str, code: usize) -> u64 {
    // SAFETY: the text is a slice with its length; the shelf is a static's, which nothing else uses while the call runs.
    unsafe { ffi::maluwesi_shelf_add(SHELF.0.get().cast(), SHELF_LEN, code as u16, CARGO, text.as_ptr(), text.len()) }
}

/// The first act on a text fills the shelf.
fn fill(text: &str) {
    let place = text.as_ptr() as usize;
    if ON_SHELF.swap(place, Ordering::Relaxed) != place {
        // SAFETY: the shelf is a static's, which nothing else uses while the call runs.
        assert_eq!(unsafe { ffi::maluwesi_shelf_clear(SHELF.0.get().cast(), SHELF_LEN) }, 0);
        text.lines().enumerate().for_each(|(code, line)| assert_eq!(add(line, code), 0));
    }
}

type Call = unsafe extern "C" fn(*const u8, usize, *const u8, usize, *mut u8, *mut u16) -> u64;

fn ask(call: Call, text: &str) -> Option<u64> {
    fill(text);
    let (mut found, mut code) = (0, 0);
    // SAFETY: the version is a slice with its length; the shelf is a static's, which nothing else uses while the call runs; the answers are locals.
    let refusal =
        unsafe { call(SHELF.0.get().cast(), SHELF_LEN, VERSION.as_ptr(), VERSION.len(), &mut found, &mut code) };
    (refusal == 0).then_some(u64::from(found))
}

fn fits_first(text: &str) -> Option<u64> {
    ask(ffi::maluwesi_shelf_first_fit, text)
}

fn looks_up(text: &str) -> Option<u64> {
    ask(ffi::maluwesi_shelf_lookup, text)
}

/// The count is one less before, and the last line's place is written again.
fn adds(text: &str) -> Option<u64> {
    fill(text);
    // SAFETY: one thread runs the acts, and no call runs now.
    let shelf: &mut [u8; SHELF_LEN] = unsafe { &mut *SHELF.0.get() };
    let last = usize::from(u16::from_le_bytes([shelf[0], shelf[1]])) - 1;
    shelf[..2].copy_from_slice(&(last as u16).to_le_bytes());
    (add(&text[text.len() - ENTRY_LEN..], last) == 0).then_some(0)
}
