//! Times, addresses, searches and token entries: one safe function for each call, nothing added.
//!
//! SAFETY, for all of them: as in `calls`.

use crate::sys;

/// Seconds and nanoseconds, any two words.
pub type Time = [u64; 2];

/// An address as the calls take it, well-formed or not.
#[derive(Debug, Clone, Copy, PartialEq, Eq)]
pub struct Address {
    pub kind: u8,
    pub bytes: [u8; 16],
    pub port: u16,
}

/// Words of a place in a table, bytes of a token entry, words of an address in a list.
pub const PLACE_WORDS: usize = 310;
pub const ENTRY_BYTES: usize = 48;
pub const ADDRESS_WORDS: usize = 3;

pub fn time_add(clock: Time, step: Time, out: &mut Time) -> u8 {
    unsafe { sys::pump_time_add(clock[0], clock[1], step[0], step[1], out) }
}

/// 0 or 1, like the next two.
pub fn time_before(a: Time, b: Time) -> u8 {
    unsafe { sys::pump_time_before(a[0], a[1], b[0], b[1]) }
}

pub fn time_past(time: Time, timeout: u32, now: Time) -> u8 {
    unsafe { sys::pump_time_past(time[0], time[1], timeout, now[0], now[1]) }
}

pub fn time_due(time: Time, now: Time) -> u8 {
    unsafe { sys::pump_time_due(time[0], time[1], now[0], now[1]) }
}

pub fn time_since(now: Time, then: Time) -> Time {
    let mut out = [0xA5A5; 2];
    unsafe { sys::pump_time_since(now[0], now[1], then[0], then[1], &mut out) };
    out
}

pub fn find_by_address(table: &[u64], address: &Address, place: &mut [u64; 1]) -> u8 {
    let Address { kind, bytes, port } = address;
    unsafe { sys::pump_find_by_address(table.as_ptr(), table.len(), *kind, bytes, *port, place) }
}

pub fn find_by_id(table: &[u64], client_id: u64, place: &mut [u64; 1]) -> u8 {
    unsafe { sys::pump_find_by_id(table.as_ptr(), table.len(), client_id, place) }
}

pub fn find_free(table: &[u64], place: &mut [u64; 1]) -> u8 {
    unsafe { sys::pump_find_free(table.as_ptr(), table.len(), place) }
}

pub fn count_used(table: &[u64], count: &mut [u64; 1]) -> u8 {
    unsafe { sys::pump_count_used(table.as_ptr(), table.len(), count) }
}

pub fn address(address: &Address, out: &mut [u64; 3]) -> u8 {
    unsafe { sys::pump_address(address.kind, &address.bytes, address.port, out) }
}

pub fn any_ours(list: &[u64], ours: &[u64]) -> u8 {
    unsafe { sys::pump_any_ours(list.as_ptr(), list.len(), ours.as_ptr(), ours.len()) }
}

pub fn find_or_add_entry(table: &mut [u8], time: Time, address: &Address, mac: &[u8; 16]) -> u8 {
    unsafe {
        sys::pump_find_or_add_entry(
            table.as_mut_ptr(),
            table.len(),
            time[0],
            time[1],
            address.kind,
            &address.bytes,
            address.port,
            mac,
        )
    }
}
