//! The calls where the library is linked. This is the only file with `unsafe`, for
//! one reason everywhere: each pointer and length come from one live slice; they are
//! not null even at length 0, and a written slice overlaps nothing. The library
//! keeps no pointer after it returns.

#![allow(unsafe_code)]

mod over_c {
    extern "C" {
        pub fn vans_run(
            code: *const u8,
            code_len: usize,
            heap: *mut u8,
            heap_len: usize,
            regs: *mut u8,
            regs_len: usize,
            budget: u32,
        ) -> u64;
        pub fn vans_read(
            packet: *const u8,
            packet_len: usize,
            numbers: *mut u8,
            numbers_len: usize,
        ) -> u64;
        pub fn vans_check(packet: *const u8, packet_len: usize) -> u64;
        pub fn vans_erase(
            packet: *const u8,
            packet_len: usize,
            code: *mut u8,
            code_len: usize,
        ) -> u64;
        pub fn vans_desk(
            packet: *const u8,
            packet_len: usize,
            code: *mut u8,
            code_len: usize,
            heap: *mut u8,
            heap_len: usize,
            blocks: *const u8,
            blocks_len: usize,
            regs: *mut u8,
            regs_len: usize,
            budget: u32,
        ) -> u64;
    }
}

pub fn vans_run(code: &[u8], heap: &mut [u8], regs: &mut [u8], budget: u32) -> u64 {
    // SAFETY: the slices are lent as the head of this file says.
    unsafe {
        over_c::vans_run(
            code.as_ptr(),
            code.len(),
            heap.as_mut_ptr(),
            heap.len(),
            regs.as_mut_ptr(),
            regs.len(),
            budget,
        )
    }
}

pub fn vans_read(packet: &[u8], numbers: &mut [u8]) -> u64 {
    // SAFETY: the slices are lent as the head of this file says.
    unsafe { over_c::vans_read(packet.as_ptr(), packet.len(), numbers.as_mut_ptr(), numbers.len()) }
}

pub fn vans_check(packet: &[u8]) -> u64 {
    // SAFETY: the slice is lent as the head of this file says.
    unsafe { over_c::vans_check(packet.as_ptr(), packet.len()) }
}

pub fn vans_erase(packet: &[u8], code: &mut [u8]) -> u64 {
    // SAFETY: the slices are lent as the head of this file says.
    unsafe { over_c::vans_erase(packet.as_ptr(), packet.len(), code.as_mut_ptr(), code.len()) }
}

pub fn vans_desk(
    packet: &[u8],
    code: &mut [u8],
    heap: &mut [u8],
    blocks: &[u8],
    regs: &mut [u8],
    budget: u32,
) -> u64 {
    // SAFETY: the slices are lent as the head of this file says.
    unsafe {
        over_c::vans_desk(
            packet.as_ptr(),
            packet.len(),
            code.as_mut_ptr(),
            code.len(),
            heap.as_mut_ptr(),
            heap.len(),
            blocks.as_ptr(),
            blocks.len(),
            regs.as_mut_ptr(),
            regs.len(),
            budget,
        )
    }
}
