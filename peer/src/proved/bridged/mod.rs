//! The calls where the library cannot be linked: each is a request to a process
//! that has the library and runs under the kit's emulator (`bridge/bridge.c`).

mod process;
mod request;

use process::Process;
use request::Request;
use std::cell::RefCell;

/// Numbered as in bridge.c.
#[derive(Clone, Copy, Debug)]
enum Call {
    Run,
    Read,
    Check,
    Erase,
    Desk,
}

thread_local! {
    static PROCESS: RefCell<Process> = RefCell::new(Process::start());
}

pub fn vans_run(code: &[u8], heap: &mut [u8], regs: &mut [u8], budget: u32) -> u64 {
    call(Call::Run, budget, &[code], &mut [heap, regs])
}

pub fn vans_read(packet: &[u8], numbers: &mut [u8]) -> u64 {
    call(Call::Read, 0, &[packet], &mut [numbers])
}

pub fn vans_check(packet: &[u8]) -> u64 {
    call(Call::Check, 0, &[packet], &mut [])
}

pub fn vans_erase(packet: &[u8], code: &mut [u8]) -> u64 {
    call(Call::Erase, 0, &[packet], &mut [code])
}

pub fn vans_desk(
    packet: &[u8],
    code: &mut [u8],
    heap: &mut [u8],
    blocks: &[u8],
    regs: &mut [u8],
    budget: u32,
) -> u64 {
    call(Call::Desk, budget, &[packet, blocks], &mut [code, heap, regs])
}

/// Panics where the call writes a byte that is not its to write: the slices here
/// cannot show it.
fn call(call: Call, budget: u32, read: &[&[u8]], written: &mut [&mut [u8]]) -> u64 {
    let lent: Vec<&[u8]> = written.iter().map(|buffer| &**buffer).collect();
    let request = Request::new(call as u32, budget, read, &lent);
    let reply = PROCESS.with_borrow_mut(|process| process.reply(&request.bytes));
    if let Some(place) = request.spoiled(&reply) {
        let (places, may_write) = (&request.buffers, request.written());
        panic!("the proved call {call:?} wrote at {place}, outside {may_write:?}\n its buffers: {places:?}\n those only to be read: {read:02x?}");
    }
    for (buffer, place) in written.iter_mut().zip(request.written()) {
        buffer.copy_from_slice(&reply[place.clone()]);
    }
    request::answer(&reply)
}
