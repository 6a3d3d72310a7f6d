//! The proved library's calls. The library is for x86-64: there it is linked.
//! Elsewhere it runs under the kit's emulator, in a process of its own.

#[cfg(not(target_arch = "x86_64"))]
mod bridged;
#[cfg(target_arch = "x86_64")]
mod linked;

#[cfg(not(target_arch = "x86_64"))]
pub use bridged::*;
#[cfg(target_arch = "x86_64")]
pub use linked::*;

/// Whether the calls are made on the processor itself, so that their times mean something.
pub const LINKED: bool = cfg!(target_arch = "x86_64");
