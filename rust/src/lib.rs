//! Lamwiest, the data environment of an OpenACC 3.3 runtime, in safe Rust over the library for C.
//!
//! A [`Table`] is host memory and the memories of devices, with what is mapped between them. A [`Region`] borrows its
//! table, so no table ends and no region is exited too early; it has the [`Calls`] of its table, for those within it. A
//! call that is refused returns [`Refused`], and changes nothing, unless [`Region::run`] or [`Region::exit`] tells so.
//!
//! ```no_run
//! use lamwiest::{Clause, Limits, Table};
//!
//! let mut table = Table::new(Limits::default())?;
//! let a = table.array::<f64>(4)?;
//! table.write(a, &[1.0, 2.0, 3.0, 4.0])?;
//! let mut region = table.region(0, &[a.item(Clause::Copy)])?;
//! region.run(a, |a| a.reverse())?;
//! region.exit()?;
//! assert_eq!(table.read(a)?, [4.0, 3.0, 2.0, 1.0]);
//! # Ok::<(), lamwiest::Refused>(())
//! ```

use std::error::Error;
use std::ffi::{c_char, CStr};
use std::fmt;
use std::marker::PhantomData;
use std::mem::{self, align_of, size_of};
use std::ops::{Deref, DerefMut};
use std::{ptr, slice};

mod raw;

/// The limits of a table, as `lw_limits` has them. Each that is 0 is as it is by default.
#[derive(Clone, Copy, Debug, Default)]
pub struct Limits {
    /// The size of host memory in bytes: a multiple of 16 up to 67,108,864; by default 65,536.
    pub host: u64,
    /// The size of each device's memory, as that of the host.
    pub device: u64,
    /// How many data regions may be open at a time: up to 65,536; by default 64.
    pub regions: u64,
    /// How many events there may be in all: up to 2^40; by default 2^40.
    pub tickets: u64,
    /// The greatest value of a counter: up to 4,294,967,295, as by default.
    pub counter_max: u64,
    /// How many transfers may wait in one queue: up to 4,096; by default 256.
    pub queue_cap: u64,
    /// How many events the stored trace may have until [`Calls::rebase`]: up to 16,777,216; by default 262,144.
    pub trace_cap: u64,
    /// How many devices there are: up to 4; by default 1.
    pub devices: u64,
}

impl Limits {
    fn raw(self) -> raw::Limits {
        raw::Limits {
            size: size_of::<raw::Limits>() as u32,
            version: raw::VERSION,
            host: self.host,
            device: self.device,
            regions: self.regions,
            tickets: self.tickets,
            counter_max: self.counter_max,
            queue_cap: self.queue_cap,
            trace_cap: self.trace_cap,
            full: 0,
            devices: self.devices,
        }
    }
}

/// A call was refused, and changed nothing; or a script ended at a fault. [`Region::run`] and [`Region::exit`] may have
/// brought a block back first.
#[derive(Clone, Copy, Debug, PartialEq, Eq)]
pub struct Refused {
    /// The status of `lamwiest.h`.
    pub status: u32,
    /// The place of the item that is refused, or what is wrong with a script's line, from 1 to 9; 0 where the refusal
    /// names none.
    pub item: u64,
    /// The other number of the refusal; 0 where it has none.
    pub value: u64,
}

impl Refused {
    /// The name of the refusal, as `DeviceFull`.
    pub fn name(&self) -> &'static str {
        // SAFETY: the name is static, and ends with a zero.
        unsafe { CStr::from_ptr(raw::lw_status_name(self.status)) }.to_str().unwrap_or("")
    }
}

impl From<raw::Fault> for Refused {
    fn from(fault: raw::Fault) -> Refused {
        Refused { status: fault.status, item: fault.item, value: fault.value }
    }
}

impl fmt::Display for Refused {
    fn fmt(&self, f: &mut fmt::Formatter<'_>) -> fmt::Result {
        let told = raw::Fault { status: self.status, item: self.item, value: self.value };
        let mut text = [0 as c_char; raw::FAULT_TEXT_SIZE];
        // SAFETY: the buffer is as long as is told, and the text in it ends with a zero.
        let text = unsafe {
            raw::lw_fault_text(&told, text.as_mut_ptr(), text.len(), ptr::null_mut());
            CStr::from_ptr(text.as_ptr())
        };
        f.write_str(&text.to_string_lossy())
    }
}

impl Error for Refused {}

/// Makes a call that answers a number into the first place, and a refusal into the second. A call that answers no
/// number leaves a 0 there.
fn made(call: impl FnOnce(&mut u64, &mut raw::Fault) -> u32) -> Result<u64, Refused> {
    let (mut number, mut fault) = (0, raw::Fault::default());
    if call(&mut number, &mut fault) == raw::DONE {
        Ok(number)
    } else {
        Err(fault.into())
    }
}

/// Runs a script on a new table, as `accrun` does, and returns what it prints. Where a line is at fault, the
/// [`Refused`] has its number, and the text is what the lines before it print. Where the script was not run, the text
/// is empty.
pub fn run_script(limits: Limits, script: &str) -> (String, Result<(), Refused>) {
    let (mut text, mut len, mut fault) = (vec![0; 4_096], 0, raw::Fault::default());
    loop {
        let (at, size) = (text.as_mut_ptr(), text.len());
        // SAFETY: both arrays are passed with their own lengths.
        let status = unsafe {
            let (script, length) = (script.as_ptr().cast(), script.len());
            raw::lw_script(&limits.raw(), script, length, at.cast(), size, &mut len, &mut fault)
        };
        if status != raw::BAD_LENGTH {
            break;
        }
        text.resize(fault.value as usize, 0);
        len = 0;
    }
    text.truncate(len as usize);
    let ended = if fault.status == raw::DONE { Ok(()) } else { Err(fault.into()) };
    (String::from_utf8_lossy(&text).into_owned(), ended)
}

/// What may stand in an array.
///
/// # Safety
///
/// The type has no padding, and any bytes are one of its values.
pub unsafe trait Element: Copy + Default {}

macro_rules! elements {
    ($($name:ty)*) => { $(unsafe impl Element for $name {})* };
}
elements!(u8 u16 u32 u64 usize i8 i16 i32 i64 isize f32 f64);

/// So many elements in host memory, from a host address on.
#[derive(Debug)]
pub struct Span<E> {
    start: u64,
    count: usize,
    of: PhantomData<E>,
}

impl<E> Clone for Span<E> {
    fn clone(&self) -> Self {
        *self
    }
}

impl<E> Copy for Span<E> {}

impl<E: Element> Span<E> {
    /// The elements from a host address on. A section that is not in host memory is refused where it is used.
    pub fn at(start: u64, count: usize) -> Span<E> {
        Span { start, count, of: PhantomData }
    }

    /// The host address of the first element.
    pub fn start(&self) -> u64 {
        self.start
    }

    /// How many bytes they are.
    pub fn len(&self) -> u64 {
        self.count.saturating_mul(size_of::<E>()) as u64
    }

    /// Whether there is none.
    pub fn is_empty(&self) -> bool {
        self.count == 0
    }

    /// The elements `[first:count]` of these. Behind the last host address they are refused as those of [`Span::at`].
    pub fn part(&self, first: usize, count: usize) -> Span<E> {
        let before = first.saturating_mul(size_of::<E>()) as u64;
        Span::at(self.start.saturating_add(before), count)
    }

    /// The item of a data clause that names these.
    pub fn item(&self, clause: Clause) -> Item {
        self.item_with(clause, 0)
    }

    /// The same, with the host address of the pointer to them, which is attached on entry and detached on exit.
    pub fn item_with(&self, clause: Clause, pointer: u64) -> Item {
        Item(raw::Item { clause: clause as u32, start: self.start, len: self.len(), pointer })
    }
}

/// The clauses (OpenACC 3.3, sections 2.6 and 2.7), each with the directives that have it. Another is `BadClause`.
#[derive(Clone, Copy, Debug, PartialEq, Eq)]
#[repr(u32)]
pub enum Clause {
    /// Of regions.
    Copy = 1,
    /// Of regions and of `enter data`.
    Copyin = 2,
    /// Of regions and of `exit data`.
    Copyout = 3,
    /// Of regions.
    CopyoutZero = 4,
    /// Of regions and of `enter data`.
    Create = 5,
    /// Of regions and of `enter data`.
    CreateZero = 6,
    /// Of regions.
    NoCreate = 7,
    /// Of regions.
    Present = 8,
    /// Of regions and of `enter data`: of a pointer's own eight bytes.
    Attach = 9,
    /// Of `exit data`.
    Delete = 10,
    /// Of `exit data`: of a pointer's own eight bytes.
    Detach = 11,
    /// Of `update`: to the host.
    ToSelf = 12,
    /// Of `update`: to the device.
    ToDevice = 13,
}

/// One item of a data clause.
#[derive(Clone, Copy, Debug)]
#[repr(transparent)]
pub struct Item(raw::Item);

/// The `async` clause (section 2.16).
#[derive(Clone, Copy, Debug, PartialEq, Eq)]
pub enum Async {
    /// There is none: copies are made at once.
    Sync,
    /// Without an argument: they wait in queue 0.
    NoValue,
    /// They wait in the queue of this number, from 0 to 15.
    Queue(u32),
}

impl Async {
    fn raw(self) -> raw::Async {
        let number = match self {
            Async::Sync => -2,
            Async::NoValue => -1,
            Async::Queue(number) => i64::from(number),
        };
        raw::Async { number }
    }

    /// The queue in which copies wait, if they do.
    fn queue(self) -> Option<u32> {
        match self {
            Async::Sync => None,
            Async::NoValue => Some(0),
            Async::Queue(number) => Some(number),
        }
    }
}

/// A directive that has no region's number, to be judged or carried out.
#[derive(Clone, Copy, Debug, PartialEq, Eq)]
pub enum Directive {
    /// The start of a data construct (section 2.6.5).
    Data,
    /// `enter data` (section 2.6.6).
    EnterData(Async),
    /// `exit data` (section 2.6.6).
    ExitData {
        /// With the `finalize` clause.
        finalize: bool,
        /// Its `async` clause.
        asynchronous: Async,
    },
    /// `update`.
    Update {
        /// With the `if_present` clause.
        if_present: bool,
        /// Its `async` clause.
        asynchronous: Async,
    },
    /// `wait` for a queue, or for all of them.
    Wait(Option<u32>),
}

impl Directive {
    /// The directive on a device, as an event of the trace names it.
    fn raw(self, device: u64) -> raw::Event {
        let (kind, option, queue) = match self {
            Directive::Data => (raw::ENTERED, false, None),
            Directive::EnterData(asynchronous) => (raw::ENTERED_DATA, false, asynchronous.queue()),
            Directive::ExitData { finalize, asynchronous } => (raw::EXITED_DATA, finalize, asynchronous.queue()),
            Directive::Update { if_present, asynchronous } => (raw::UPDATED, if_present, asynchronous.queue()),
            Directive::Wait(queue) => (raw::WAITED, false, queue),
        };
        let queue = queue.map_or(raw::NO_QUEUE_GIVEN, u64::from);
        raw::Event { kind, option: u32::from(option), device, queue, ..raw::Event::default() }
    }
}

fn raw_items(items: &[Item]) -> *const raw::Item {
    items.as_ptr().cast()
}

/// Host memory and the memories of devices, with what is mapped between them. It ends when it is dropped.
///
/// Its calls are those of [`Calls`], and these.
pub struct Table(Calls<[(); 0]>);

impl Table {
    /// A handle that has no table.
    const NONE: Table = Table(Calls(raw::Table::NONE, []));

    /// A new table, on which nothing is mapped.
    pub fn new(limits: Limits) -> Result<Table, Refused> {
        let mut table = Table::NONE;
        // SAFETY: as `Calls` tells.
        made(|_, fault| unsafe { raw::lw_table_new(&mut table.0 .0, &limits.raw(), fault) })?;
        Ok(table)
    }

    /// Begins anew, with the limits that it has. Spans of before have no addresses then.
    pub fn reset(&mut self) -> Result<(), Refused> {
        // SAFETY: as `Calls` tells.
        made(|_, fault| unsafe { raw::lw_table_reset(&mut self.0 .0, fault) })?;
        Ok(())
    }
}

impl Deref for Table {
    type Target = Calls;

    fn deref(&self) -> &Calls {
        &self.0
    }
}

impl DerefMut for Table {
    fn deref_mut(&mut self) -> &mut Calls {
        &mut self.0
    }
}

/// The calls of a [`Table`], and of a [`Region`] within it. A region gives no one its table, so that it does not end or
/// begin anew too early:
///
/// ```compile_fail,E0599
/// # let mut table = lamwiest::Table::new(lamwiest::Limits::default())?;
/// table.region(0, &[])?.reset()?;
/// # Ok::<(), lamwiest::Refused>(())
/// ```
///
/// The type is unsized, so no other table takes its place either:
///
/// ```compile_fail,E0277
/// # let mut table = lamwiest::Table::new(lamwiest::Limits::default())?;
/// # let mut other = lamwiest::Table::new(lamwiest::Limits::default())?;
/// std::mem::swap(&mut *table.region(0, &[])?, &mut *other);
/// # Ok::<(), lamwiest::Refused>(())
/// ```
///
/// Each call is safe: the handle is the table's own and is borrowed for the call alone, and arrays are passed with
/// their own lengths. All else that can be wrong is a [`Refused`].
pub struct Calls<S: ?Sized = [()]>(raw::Table, S);

impl Calls {
    /// A copy, with the trace, which goes its own way from then on. A region that is open in it has no [`Region`]: it
    /// stays open until the copy ends or begins anew. It is `Lent` while a block is lent that [`Region::run`] did not
    /// bring back. Else it is `Memory`, where there is none for it.
    pub fn try_clone(&mut self) -> Result<Table, Refused> {
        let mut copy = Table::NONE;
        // SAFETY: as `Calls` tells.
        made(|_, fault| unsafe { raw::lw_table_copy(&mut self.0, &mut copy.0 .0, fault) })?;
        Ok(copy)
    }

    /// Whether another table has the same limits, and the same in all memories and on record. Their traces may differ.
    /// It is `Memory` where there is none for a copy of both.
    pub fn is_same_as(&mut self, other: &mut Calls) -> Result<bool, Refused> {
        // SAFETY: as `Calls` tells.
        let same = made(|same, fault| unsafe { raw::lw_table_same(&mut self.0, &mut other.0, same, fault) })?;
        Ok(same != 0)
    }

    /// Host addresses for an array.
    pub fn array<E: Element>(&mut self, count: usize) -> Result<Span<E>, Refused> {
        let len = Span::<E>::at(0, count).len();
        // SAFETY: as `Calls` tells.
        let start = made(|start, fault| unsafe { raw::lw_array(&mut self.0, len, start, fault) })?;
        Ok(Span::at(start, count))
    }

    /// The host writes elements, as many as these are, from the first on.
    pub fn write<E: Element>(&mut self, to: Span<E>, elements: &[E]) -> Result<(), Refused> {
        let (bytes, len) = (elements.as_ptr().cast(), mem::size_of_val(elements));
        // SAFETY: as `Calls` tells.
        made(|_, fault| unsafe { raw::lw_host_write(&mut self.0, to.start, bytes, len, fault) })?;
        Ok(())
    }

    /// The limits that it has.
    fn limits(&mut self) -> raw::Limits {
        let mut limits = Limits::default().raw();
        // SAFETY: as `Calls` tells.
        unsafe { raw::lw_limits_of(&mut self.0, &mut limits) };
        limits
    }

    /// What the second of two events is refused for, where there are no tickets or is no room in the trace for both.
    fn check_two_events(&mut self) -> Result<(), Refused> {
        let mut left = raw::LeftOver::default();
        // SAFETY: as `Calls` tells.
        unsafe { raw::lw_left(&mut self.0, &mut left) };
        if left.tickets < 2 {
            return Err(Refused { status: raw::NO_TICKETS, item: 0, value: 0 });
        }
        let most = self.limits().trace_cap;
        // SAFETY: as `Calls` tells. There is room for two while the last place but one has no event.
        if most < 2 || unsafe { raw::lw_event(&mut self.0, most - 2, &mut raw::Event::default()) } == raw::DONE {
            return Err(Refused { status: raw::TRACE_FULL, item: 0, value: most });
        }
        Ok(())
    }

    /// Elements to read so many into. More than host memory has are as many as make the read refused.
    fn elements<E: Element>(&mut self, count: usize) -> Result<Vec<E>, Refused> {
        let most = (self.limits().host as usize).checked_div(size_of::<E>());
        let count = most.map_or(count, |most| count.min(most + 1));
        let mut elements = Vec::new();
        if elements.try_reserve_exact(count).is_err() {
            return Err(Refused { status: raw::MEMORY, item: 0, value: 0 });
        }
        elements.resize(count, E::default());
        Ok(elements)
    }

    /// What the host has. It is `Memory` where there is none for it.
    pub fn read<E: Element>(&mut self, from: Span<E>) -> Result<Vec<E>, Refused> {
        let mut elements = self.elements::<E>(from.count)?;
        let (bytes, len) = (elements.as_mut_ptr().cast(), mem::size_of_val(&elements[..]));
        // SAFETY: as `Calls` tells.
        made(|_, fault| unsafe { raw::lw_host_read(&mut self.0, from.start, bytes, len, fault) })?;
        Ok(elements)
    }

    /// What a device has of them. It is `Absent` where they are not mapped, or lent, and `Memory` as [`Calls::read`].
    pub fn read_device<E: Element>(&mut self, device: u64, from: Span<E>) -> Result<Vec<E>, Refused> {
        let mut elements = self.elements::<E>(from.count)?;
        let (bytes, len) = (elements.as_mut_ptr().cast(), mem::size_of_val(&elements[..]));
        // SAFETY: as `Calls` tells.
        made(|_, fault| unsafe { raw::lw_device_read(&mut self.0, device, from.start, bytes, len, fault) })?;
        Ok(elements)
    }

    /// Carries out `enter data` (section 2.6.6).
    pub fn enter_data(&mut self, device: u64, items: &[Item], asynchronous: Async) -> Result<(), Refused> {
        let (first, count) = (raw_items(items), items.len());
        // SAFETY: as `Calls` tells.
        made(|_, fault| unsafe {
            raw::lw_enter_data(&mut self.0, device, first, count, asynchronous.raw(), fault)
        })?;
        Ok(())
    }

    /// Carries out `exit data` (section 2.6.6).
    pub fn exit_data(
        &mut self,
        device: u64,
        items: &[Item],
        finalize: bool,
        asynchronous: Async,
    ) -> Result<(), Refused> {
        let (first, count, finalize) = (raw_items(items), items.len(), u32::from(finalize));
        // SAFETY: as `Calls` tells.
        made(|_, fault| unsafe {
            raw::lw_exit_data(&mut self.0, device, first, count, finalize, asynchronous.raw(), fault)
        })?;
        Ok(())
    }

    /// Carries out `update`.
    pub fn update(
        &mut self,
        device: u64,
        items: &[Item],
        if_present: bool,
        asynchronous: Async,
    ) -> Result<(), Refused> {
        let (first, count, if_present) = (raw_items(items), items.len(), u32::from(if_present));
        // SAFETY: as `Calls` tells.
        made(|_, fault| unsafe {
            raw::lw_update(&mut self.0, device, first, count, if_present, asynchronous.raw(), fault)
        })?;
        Ok(())
    }

    /// Makes all copies of a queue of a device, or those of all its queues, and returns how many they were.
    pub fn wait(&mut self, device: u64, queue: Option<u32>) -> Result<u64, Refused> {
        let queue = queue.map_or(raw::NO_QUEUE_GIVEN, u64::from);
        // SAFETY: as `Calls` tells.
        made(|count, fault| unsafe { raw::lw_wait(&mut self.0, device, queue, count, fault) })
    }

    /// Judges a directive, and does not carry it out: it is refused for what its call would be. A wait has no items.
    pub fn judge(&mut self, device: u64, directive: Directive, items: &[Item]) -> Result<(), Refused> {
        let (asked, first, count) = (directive.raw(device), raw_items(items), items.len());
        // SAFETY: as `Calls` tells.
        made(|_, fault| unsafe { raw::lw_judge(&mut self.0, &asked, first, count, fault) })?;
        Ok(())
    }

    /// Carries out a directive. It returns the number of a region that is entered, how many copies a wait made, and of
    /// others 1. Such a region stays open until the table ends or begins anew. [`Calls::region`] enters one that is
    /// exited.
    pub fn carry_out(&mut self, device: u64, directive: Directive, items: &[Item]) -> Result<u64, Refused> {
        let (asked, first, count) = (directive.raw(device), raw_items(items), items.len());
        // SAFETY: as `Calls` tells.
        made(|number, fault| unsafe { raw::lw_do(&mut self.0, &asked, first, count, number, fault) })
    }

    /// Makes room in the trace again, and returns how many events it had.
    pub fn rebase(&mut self) -> Result<u64, Refused> {
        // SAFETY: as `Calls` tells.
        made(|folded, fault| unsafe { raw::lw_rebase(&mut self.0, folded, fault) })
    }

    /// The report that `accrun` prints.
    pub fn report(&mut self) -> Result<String, Refused> {
        let mut len = 0;
        // SAFETY: no byte is written where there is no room. The call tells how long the text is.
        unsafe { raw::lw_report(&mut self.0, ptr::null_mut(), 0, &mut len, &mut raw::Fault::default()) };
        let mut text = vec![0; len as usize + 1];
        let (at, size) = (text.as_mut_ptr(), text.len());
        // SAFETY: as `Calls` tells.
        made(|len, fault| unsafe { raw::lw_report(&mut self.0, at.cast(), size, len, fault) })?;
        text.truncate(len as usize);
        Ok(String::from_utf8_lossy(&text).into_owned())
    }

    /// Enters a data region (section 2.6.5). It is exited when it is dropped.
    pub fn region(&mut self, device: u64, items: &[Item]) -> Result<Region<'_>, Refused> {
        let (first, count) = (raw_items(items), items.len());
        // SAFETY: as `Calls` tells.
        let number = made(|number, fault| unsafe {
            raw::lw_enter(&mut self.0, device, first, count, number, fault)
        })?;
        Ok(Region { table: self, number, lease: None })
    }
}

impl Drop for Table {
    fn drop(&mut self) {
        // SAFETY: as `Calls` tells.
        unsafe { raw::lw_table_end(&mut self.0 .0) };
    }
}

/// Runs a kernel on so many elements at an address, which need not be aligned.
///
/// # Safety
///
/// The bytes of so many elements lie there, and nothing else reaches them meanwhile.
unsafe fn run_on<E: Element, T>(at: *mut E, count: usize, kernel: impl FnOnce(&mut [E]) -> T) -> T {
    if at as usize % align_of::<E>() == 0 {
        return kernel(slice::from_raw_parts_mut(at, count));
    }
    let mut elements = vec![E::default(); count];
    let (bytes, len) = (at.cast::<u8>(), mem::size_of_val(&elements[..]));
    ptr::copy_nonoverlapping(bytes, elements.as_mut_ptr().cast(), len);
    let answer = kernel(&mut elements);
    ptr::copy_nonoverlapping(elements.as_ptr().cast(), bytes, len);
    answer
}

/// An open data region. Calls within it are made on it as on its table; so an inner `Region` ends before it.
pub struct Region<'table> {
    table: &'table mut Calls,
    number: u64,
    lease: Option<u64>,
}

impl Region<'_> {
    /// Runs a kernel on the device's elements of a section (section 2.5), and returns what it returns. It reaches them
    /// where they lie, or in a copy where they are not aligned as elements are. Their block is lent and brought back,
    /// which are two events. Without tickets or room in the trace for both the kernel does not run: it is refused for
    /// what the second would be.
    ///
    /// Behind the kernel it can be `Memory` alone. Then what the kernel wrote is kept, and what it returned is not. The
    /// block stays lent, as after a kernel that panics. The next `run` or the exit brings it back first.
    pub fn run<E: Element, T>(
        &mut self,
        section: Span<E>,
        kernel: impl FnOnce(&mut [E]) -> T,
    ) -> Result<T, Refused> {
        self.bring_back()?;
        self.table.check_two_events()?;
        let table = &mut self.table.0;
        let mut bytes = ptr::null_mut();
        // SAFETY: as `Calls` tells.
        let lease = made(|lease, fault| unsafe {
            raw::lw_lend(table, self.number, section.start, section.len(), lease, fault)
        })?;
        self.lease = Some(lease);
        // SAFETY: as `Calls` tells.
        made(|len, fault| unsafe { raw::lw_lease_bytes(table, lease, &mut bytes, len, fault) })?;
        // SAFETY: at the address lie the bytes of so many elements. The region is borrowed, so no call is made until
        // the kernel returns, and no one else reaches them.
        let answer = unsafe { run_on(bytes.cast(), section.count, kernel) };
        self.bring_back()?;
        Ok(answer)
    }

    /// Brings the block back that a kernel was lent, if it is out. Where that is refused it stays lent.
    fn bring_back(&mut self) -> Result<(), Refused> {
        if let Some(lease) = self.lease {
            // SAFETY: as `Calls` tells.
            made(|_, fault| unsafe { raw::lw_gather(&mut self.table.0, lease, fault) })?;
            self.lease = None;
        }
        Ok(())
    }

    /// The end of the construct; a block that stays lent is brought back first. To drop the region is the same, without
    /// a word where that is refused. Then it stays open until the table ends or begins anew.
    pub fn exit(mut self) -> Result<(), Refused> {
        let exited = self.try_exit();
        mem::forget(self);
        exited
    }

    fn try_exit(&mut self) -> Result<(), Refused> {
        self.bring_back()?;
        // SAFETY: as `Calls` tells.
        made(|_, fault| unsafe { raw::lw_exit(&mut self.table.0, self.number, fault) })?;
        Ok(())
    }
}

impl Deref for Region<'_> {
    type Target = Calls;

    fn deref(&self) -> &Calls {
        self.table
    }
}

impl DerefMut for Region<'_> {
    fn deref_mut(&mut self) -> &mut Calls {
        self.table
    }
}

impl Drop for Region<'_> {
    fn drop(&mut self) {
        let _ = self.try_exit();
    }
}
