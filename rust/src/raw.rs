//! What `lamwiest.h` declares, as far as this crate calls it. It tells there what each of these does.

use std::ffi::{c_char, c_void};
use std::marker::PhantomData;

/// The handle of a table. It is neither `Send` nor `Sync`.
#[repr(C)]
pub struct Table {
    at: *mut c_void,
    arrays: u64,
    stays_on_its_thread: PhantomData<*mut ()>,
}

impl Table {
    /// A handle that has no table.
    pub const NONE: Table = Table {
        at: std::ptr::null_mut(),
        arrays: 0,
        stays_on_its_thread: PhantomData,
    };
}

#[repr(C)]
#[derive(Clone, Copy, Debug, Default, PartialEq, Eq)]
pub struct Fault {
    pub status: u32,
    pub item: u64,
    pub value: u64,
}

#[repr(C)]
#[derive(Clone, Copy, Debug)]
pub struct Limits {
    pub size: u32,
    pub version: u32,
    pub host: u64,
    pub device: u64,
    pub regions: u64,
    pub tickets: u64,
    pub counter_max: u64,
    pub queue_cap: u64,
    pub trace_cap: u64,
    pub full: u64,
    pub devices: u64,
}

#[repr(C)]
#[derive(Clone, Copy, Debug)]
pub struct Item {
    pub clause: u32,
    pub start: u64,
    pub len: u64,
    pub pointer: u64,
}

#[repr(C)]
#[derive(Clone, Copy, Debug)]
pub struct Async {
    pub number: i64,
}

#[repr(C)]
#[derive(Clone, Copy, Debug, Default)]
pub struct Event {
    pub kind: u32,
    pub option: u32,
    pub device: u64,
    pub queue: u64,
    pub region: u64,
    pub lease: u64,
    pub block: u64,
    pub start: u64,
    pub len: u64,
    pub count: u64,
    pub stored: u64,
}

#[repr(C)]
#[derive(Clone, Copy, Debug, Default)]
pub struct LeftOver {
    pub tickets: u64,
    pub regions: u64,
}

pub const ENTERED: u32 = 1;
pub const ENTERED_DATA: u32 = 3;
pub const EXITED_DATA: u32 = 4;
pub const UPDATED: u32 = 5;
pub const WAITED: u32 = 6;

pub const VERSION: u32 = 2005;
pub const DONE: u32 = 0;
pub const MEMORY: u32 = 1;
pub const NO_TICKETS: u32 = 3;
pub const TRACE_FULL: u32 = 6;
pub const BAD_LENGTH: u32 = 34;
pub const FAULT_TEXT_SIZE: usize = 66;
pub const NO_QUEUE_GIVEN: u64 = u64::MAX;

#[link(name = "lamwiest")]
extern "C" {
    pub fn lw_status_name(status: u32) -> *const c_char;
    pub fn lw_fault_text(told: &Fault, buffer: *mut c_char, size: usize, len: *mut u64) -> *const c_char;
    pub fn lw_table_new(table: &mut Table, limits: &Limits, fault: &mut Fault) -> u32;
    pub fn lw_table_reset(table: &mut Table, fault: &mut Fault) -> u32;
    pub fn lw_table_end(table: &mut Table);
    pub fn lw_table_copy(from: &mut Table, to: &mut Table, fault: &mut Fault) -> u32;
    pub fn lw_table_same(one: &mut Table, other: &mut Table, same: &mut u64, fault: &mut Fault) -> u32;
    pub fn lw_rebase(table: &mut Table, folded: &mut u64, fault: &mut Fault) -> u32;
    pub fn lw_array(table: &mut Table, len: u64, start: &mut u64, fault: &mut Fault) -> u32;
    pub fn lw_enter(
        table: &mut Table,
        device: u64,
        items: *const Item,
        count: usize,
        region: &mut u64,
        fault: &mut Fault,
    ) -> u32;
    pub fn lw_exit(table: &mut Table, region: u64, fault: &mut Fault) -> u32;
    pub fn lw_enter_data(
        table: &mut Table,
        device: u64,
        items: *const Item,
        count: usize,
        asynchronous: Async,
        fault: &mut Fault,
    ) -> u32;
    pub fn lw_exit_data(
        table: &mut Table,
        device: u64,
        items: *const Item,
        count: usize,
        finalize: u32,
        asynchronous: Async,
        fault: &mut Fault,
    ) -> u32;
    pub fn lw_update(
        table: &mut Table,
        device: u64,
        items: *const Item,
        count: usize,
        if_present: u32,
        asynchronous: Async,
        fault: &mut Fault,
    ) -> u32;
    pub fn lw_wait(table: &mut Table, device: u64, queue: u64, made: &mut u64, fault: &mut Fault) -> u32;
    pub fn lw_judge(
        table: &mut Table,
        asked: &Event,
        items: *const Item,
        count: usize,
        fault: &mut Fault,
    ) -> u32;
    pub fn lw_do(
        table: &mut Table,
        asked: &Event,
        items: *const Item,
        count: usize,
        number: &mut u64,
        fault: &mut Fault,
    ) -> u32;
    pub fn lw_host_write(table: &mut Table, start: u64, bytes: *const c_void, len: usize, fault: &mut Fault) -> u32;
    pub fn lw_host_read(table: &mut Table, start: u64, bytes: *mut c_void, len: usize, fault: &mut Fault) -> u32;
    pub fn lw_device_read(
        table: &mut Table,
        device: u64,
        start: u64,
        bytes: *mut c_void,
        len: usize,
        fault: &mut Fault,
    ) -> u32;
    pub fn lw_lend(
        table: &mut Table,
        region: u64,
        start: u64,
        len: u64,
        lease: &mut u64,
        fault: &mut Fault,
    ) -> u32;
    pub fn lw_lease_bytes(
        table: &mut Table,
        lease: u64,
        bytes: &mut *mut c_void,
        len: &mut u64,
        fault: &mut Fault,
    ) -> u32;
    pub fn lw_gather(table: &mut Table, lease: u64, fault: &mut Fault) -> u32;
    pub fn lw_limits_of(table: &mut Table, limits: &mut Limits) -> u32;
    pub fn lw_left(table: &mut Table, left: &mut LeftOver) -> u32;
    pub fn lw_event(table: &mut Table, place: u64, event: &mut Event) -> u32;
    pub fn lw_report(table: &mut Table, buffer: *mut c_char, size: usize, len: &mut u64, fault: &mut Fault) -> u32;
    pub fn lw_script(
        limits: &Limits,
        script: *const c_char,
        length: usize,
        buffer: *mut c_char,
        size: usize,
        len: &mut u64,
        fault: &mut Fault,
    ) -> u32;
}
