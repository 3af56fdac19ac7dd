//! The functions of the static library, as `clients/c/clio.h` declares them.
use std::ffi::c_void;

#[repr(C)]
#[derive(Clone, Copy)]
pub struct ClientAt {
    pub at: *mut c_void,
}

#[repr(C)]
#[derive(Default)]
pub struct Polled {
    pub what: u32,
    pub len: usize,
}

#[repr(C)]
#[derive(Default)]
pub struct Ended {
    pub call: u32,
    pub what: u32,
    pub value: u64,
    pub len: u32,
}

unsafe extern "C" {
    pub fn clio_create(client: u16, pid: u16, first_id: u64, out: *mut ClientAt) -> u32;
    pub fn clio_free(c: ClientAt);
    pub fn clio_alloc(c: ClientAt, pages: u32, perm: u8, call: *mut u32) -> u32;
    pub fn clio_free_pages(c: ClientAt, addr: u32, pages: u32, call: *mut u32) -> u32;
    pub fn clio_read(c: ClientAt, addr: u32, len: u32, call: *mut u32) -> u32;
    pub fn clio_write(c: ClientAt, addr: u32, bytes: *const u8, len: usize, call: *mut u32) -> u32;
    pub fn clio_atomic(c: ClientAt, addr: u32, op: u8, a: u64, b: u64, call: *mut u32) -> u32;
    pub fn clio_offload(c: ClientAt, object: u8, op: u8, bytes: *const u8, len: usize, room: u32, call: *mut u32) -> u32;
    pub fn clio_fence(c: ClientAt, call: *mut u32) -> u32;
    pub fn clio_poll(c: ClientAt, now: u64, out: *mut u8, room: usize, told: *mut Polled);
    pub fn clio_hear(c: ClientAt, frame: *const u8, len: usize) -> u32;
    pub fn clio_done(c: ClientAt, out: *mut u8, room: usize, ended: *mut Ended) -> bool;
    pub fn clio_is_full(c: ClientAt) -> bool;
    pub fn clio_is_empty(c: ClientAt) -> bool;
}
