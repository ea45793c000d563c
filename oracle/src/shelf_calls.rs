//! The shelf's functions of bindings/c/maluwesi.h, over slices. What they fill is set to a number that no call
//! leaves, so that a call which leaves it alone is seen.

use maluwesi::ffi;

pub fn clear(shelf: &mut [u8]) -> u64 {
    unsafe { ffi::maluwesi_shelf_clear(shelf.as_mut_ptr(), shelf.len()) }
}

pub fn add(shelf: &mut [u8], code: u16, mode: u8, text: &[u8]) -> u64 {
    unsafe { ffi::maluwesi_shelf_add(shelf.as_mut_ptr(), shelf.len(), code, mode, text.as_ptr(), text.len()) }
}

pub fn remove(shelf: &mut [u8], code: u16) -> u64 {
    unsafe { ffi::maluwesi_shelf_remove(shelf.as_mut_ptr(), shelf.len(), code) }
}

pub fn find(shelf: &[u8], code: u16) -> (u64, usize, usize) {
    let (mut place, mut length) = (0x5A5A, 0x5A5A_5A5A);
    let number = unsafe { ffi::maluwesi_shelf_find(shelf.as_ptr(), shelf.len(), code, &mut place, &mut length) };
    (number, place, length)
}

pub fn first_fit(shelf: &[u8], version: &[u8]) -> (u64, u8, u16) {
    let (mut found, mut code) = (0x5A, 0x5A5A);
    let number = unsafe {
        ffi::maluwesi_shelf_first_fit(
            shelf.as_ptr(),
            shelf.len(),
            version.as_ptr(),
            version.len(),
            &mut found,
            &mut code,
        )
    };
    (number, found, code)
}

pub fn lookup(shelf: &[u8], version: &[u8]) -> (u64, u8, u16) {
    let (mut found, mut code) = (0x5A, 0x5A5A);
    let number = unsafe {
        ffi::maluwesi_shelf_lookup(shelf.as_ptr(), shelf.len(), version.as_ptr(), version.len(), &mut found, &mut code)
    };
    (number, found, code)
}
