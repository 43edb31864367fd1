//! The declarations of `include/cbs.h`, and the one type that owns a handle. All that is unsafe in this crate stands here.
//!
//! What the header asks of a program is kept so: an open handle is owned by one [`Handle`], which is not `Clone`; it is not
//! `Sync`, and no call comes back into the program, so that it is in one call at a time, also by `&`; it goes to another thread
//! as any value does, ordered by whatever sends it there; references are never null, and out parameters are locals of their own.

use crate::live::{Figures, Spread};
use std::cell::UnsafeCell;
use std::ffi::c_void;
use std::fmt;
use std::ptr;

/// `struct cbs_handle`.
#[repr(C)]
struct Raw {
    full: bool,
    at: *mut c_void,
}

/// A handle that is not open, or that this value alone owns. The library may write to it also by a call that only reads.
#[repr(transparent)]
pub(crate) struct Handle(UnsafeCell<Raw>);

impl Handle {
    /// Returns a handle that is not open.
    fn shut() -> Handle {
        Handle(UnsafeCell::new(Raw {
            full: false,
            at: ptr::null_mut(),
        }))
    }

    /// Frees what it holds. It is not open then.
    pub(crate) fn free(&mut self) {
        // SAFETY: the handle is not open, or is owned by this value, which is in no other call.
        unsafe { cbs_free(self.0.get()) }
    }
}

// SAFETY: the library proves of what a handle owns, a house or a client, that it may go to another thread.
unsafe impl Send for Handle {}

impl Drop for Handle {
    fn drop(&mut self) {
        self.free();
    }
}

impl fmt::Debug for Handle {
    fn fmt(&self, f: &mut fmt::Formatter<'_>) -> fmt::Result {
        f.write_str("Handle")
    }
}

/// `struct cbs_server`.
#[repr(C)]
#[derive(Clone, Copy, Debug, PartialEq, Eq)]
pub(crate) struct Server {
    pub(crate) budget: u64,
    pub(crate) period: u64,
    pub(crate) mode: u32,
}

/// The kinds of [`Unit`] and of [`Next`], and the results of a poll: each under its name of the
/// header, without `CBS_`.
pub(crate) mod kind {
    pub(crate) const RUN_IDLE: u32 = 0;
    pub(crate) const RUN_CLOCK_END: u32 = 1;
    pub(crate) const RUN_UNIT: u32 = 2;
    pub(crate) const RUN_DONE: u32 = 3;

    pub(crate) const POLL_NOTHING: u32 = 0;
    pub(crate) const POLL_TOOK: u32 = 1;
    pub(crate) const POLL_CLOSED: u32 = 2;
    pub(crate) const POLL_FULL: u32 = 3;
    pub(crate) const POLL_NO_MEMORY: u32 = 4;

    pub(crate) const NEXT_UNIT: u32 = 0;
    pub(crate) const NEXT_SLEEP: u32 = 1;
    pub(crate) const NEXT_LISTEN: u32 = 2;
    pub(crate) const NEXT_WAIT: u32 = 3;
    pub(crate) const NEXT_OVER: u32 = 4;
    pub(crate) const NEXT_CLOCK_END: u32 = 5;
    pub(crate) const NEXT_NO_MEMORY: u32 = 6;
}

/// `struct cbs_unit`.
#[repr(C)]
#[derive(Clone, Copy, Debug, Default)]
pub(crate) struct Unit {
    pub(crate) kind: u32,
    pub(crate) server: u16,
    pub(crate) seq: u64,
    pub(crate) token: u64,
}

/// `struct cbs_turn`.
#[repr(C)]
#[derive(Clone, Copy, Default)]
pub(crate) struct Turn {
    pub(crate) took: u64,
    pub(crate) advanced: u64,
    pub(crate) ran: Unit,
    pub(crate) out_of_memory: bool,
    pub(crate) over: bool,
}

/// `struct cbs_view`.
#[repr(C)]
#[derive(Clone, Copy, Debug, Default)]
pub(crate) struct View {
    pub(crate) budget: u64,
    pub(crate) deadline_low: u64,
    pub(crate) deadline_high: u64,
    pub(crate) accepted: u64,
    pub(crate) finished: u64,
    pub(crate) throttled: bool,
    pub(crate) closed: bool,
}

/// `struct cbs_next`.
#[repr(C)]
#[derive(Clone, Copy, Default)]
pub(crate) struct Next {
    pub(crate) kind: u32,
    pub(crate) taken: u32,
    pub(crate) until: u64,
    pub(crate) unit: Unit,
}

/// `struct cbs_pacer`: plain data, what `cbs_pace` wrote.
#[repr(C)]
pub(crate) struct Pacer {
    own: [u64; 76],
}

/// `struct cbs_counts`.
#[repr(C)]
#[derive(Clone, Copy, Default)]
pub(crate) struct Counts {
    pub(crate) units: u64,
    pub(crate) overruns: u64,
    pub(crate) longest: u64,
    pub(crate) charged: u64,
    pub(crate) behind: u64,
    pub(crate) most_behind: u64,
}

/// The first two numbers of the version of the library that these declarations fit: `cbs_version() / 100`.
const FITS: u32 = 1;

extern "C" {
    fn cbs_version() -> u32;
    fn cbs_open(
        servers: *const Server,
        n: usize,
        backlog: u64,
        ring: u64,
        house: *mut Raw,
        clients: *mut Raw,
        clients_n: usize,
    ) -> u32;
    fn cbs_free(handle: *mut Raw);
    fn cbs_admit(servers: *const Server, n: usize) -> u32;
    fn cbs_greatest_budget(servers: *const Server, n: usize, period: u64, out: *mut u64) -> u32;
    fn cbs_status_text(status: u32, out: *mut u8, n: usize) -> usize;
    fn cbs_turn(house: *mut Raw, out: *mut Turn) -> u32;
    fn cbs_poll(house: *mut Raw, server: u16, kind: *mut u32) -> u32;
    fn cbs_run(house: *mut Raw, out: *mut Unit) -> u32;
    fn cbs_advance(house: *mut Raw, ticks: u64) -> u32;
    fn cbs_charge(house: *mut Raw, server: u16, ticks: u64) -> u32;
    fn cbs_finish(house: *mut Raw, server: u16) -> u32;
    fn cbs_tape_open(house: *mut Raw, bytes: u32) -> u32;
    fn cbs_tape_take(house: *mut Raw, out: *mut u8, n: usize, length: *mut usize) -> u32;
    fn cbs_tape_lost(house: *mut Raw, lost: *mut bool) -> u32;
    fn cbs_tape_close(house: *mut Raw) -> u32;
    fn cbs_charges(house: *mut Raw, server: u16, total: *mut u64, most: *mut u64) -> u32;
    fn cbs_now(house: *mut Raw, out: *mut u64) -> u32;
    fn cbs_idle_span(house: *mut Raw, out: *mut u64) -> u32;
    fn cbs_view(house: *mut Raw, server: u16, out: *mut View) -> u32;
    fn cbs_promised(house: *mut Raw, server: u16, low: *mut u64, high: *mut u64) -> u32;
    fn cbs_pace(house: *mut Raw, tick: u64, carry: bool, time: u64, pacer: *mut Pacer) -> u32;
    fn cbs_next(house: *mut Raw, pacer: *mut Pacer, time: u64, next: *mut Next) -> u32;
    fn cbs_next_measured(
        house: *mut Raw,
        pacer: *mut Pacer,
        time: u64,
        took: u64,
        next: *mut Next,
    ) -> u32;
    fn cbs_done(house: *mut Raw, pacer: *mut Pacer, time: u64) -> u32;
    fn cbs_done_measured(house: *mut Raw, pacer: *mut Pacer, time: u64, took: u64) -> u32;
    fn cbs_counts(pacer: *const Pacer, counts: *mut Counts);
    #[cfg(test)]
    fn cbs_pacer_size() -> usize;
    fn cbs_spread_add(spread: *mut Spread, number: u64);
    fn cbs_spread_mean(spread: *const Spread) -> u64;
    fn cbs_spread_at_most(spread: *const Spread, per_mille: u64) -> u64;
    fn cbs_figures_accepted(
        figures: *mut Figures,
        came: *mut u64,
        n: usize,
        accepted: u64,
        time: u64,
    );
    fn cbs_figures_ended(
        figures: *mut Figures,
        came: *const u64,
        n: usize,
        unit: *const Unit,
        time: u64,
        charged: u64,
        lateness: u64,
    );
    fn cbs_figures_share(figures: *const Figures) -> u64;
    fn cbs_lateness(server: *const Server, view: *const View, clock: u64, charged: u64) -> u64;
    fn cbs_send(client: *mut Raw, token: u64, units: u32, seq: *mut u64) -> u32;
    fn cbs_end(client: *mut Raw) -> u32;
    fn cbs_waiting(client: *mut Raw, out: *mut u64) -> u32;
}

/// A status that is not 0.
#[derive(Clone, Copy, Debug, PartialEq, Eq)]
pub(crate) struct Status(pub(crate) u32);

#[inline]
fn answered<T>(status: u32, value: T) -> Result<T, Status> {
    match status {
        0 => Ok(value),
        refused => Err(Status(refused)),
    }
}

// SAFETY of the calls below: each handle is not open or owned by the `Handle` that is borrowed, which is in no other call, since
// it is not `Sync` and no call runs code of the program; slices give a pointer that is not null, and their length; each out
// parameter is a local of its own; a pacer is what `cbs_pace` wrote, and is borrowed alone; figures are plain data, which any
// bytes are.

/// Ends the program if the library that was linked is not of the version that this crate was written for.
fn must_fit() {
    let version = unsafe { cbs_version() };
    assert_eq!(
        version / 100,
        FITS,
        "cbs: libcbs.a is of another version than this crate"
    );
}

pub(crate) fn open(
    servers: &[Server],
    backlog: u64,
    ring: u64,
) -> Result<(Handle, Vec<Handle>), Status> {
    must_fit();
    let house = Handle::shut();
    let mut clients: Vec<Handle> = servers.iter().map(|_| Handle::shut()).collect();
    let status = unsafe {
        cbs_open(
            servers.as_ptr(),
            servers.len(),
            backlog,
            ring,
            house.0.get(),
            clients.as_mut_ptr().cast(), // a `Handle` is a `Raw` in memory
            clients.len(),
        )
    };
    answered(status, (house, clients))
}

pub(crate) fn admit(servers: &[Server]) -> Result<(), Status> {
    must_fit();
    let status = unsafe { cbs_admit(servers.as_ptr(), servers.len()) };
    answered(status, ())
}

pub(crate) fn greatest_budget(servers: &[Server], period: u64) -> Result<u64, Status> {
    must_fit();
    let mut budget = 0;
    let status =
        unsafe { cbs_greatest_budget(servers.as_ptr(), servers.len(), period, &mut budget) };
    answered(status, budget)
}

pub(crate) fn status_text(status: u32) -> String {
    let mut text = [0; 256];
    let length = unsafe { cbs_status_text(status, text.as_mut_ptr(), text.len()) };
    String::from_utf8_lossy(&text[..length.min(text.len() - 1)]).into_owned() // a zero byte ends it
}

#[inline]
pub(crate) fn turn(house: &mut Handle) -> Result<Turn, Status> {
    let mut turn = Turn::default();
    let status = unsafe { cbs_turn(house.0.get(), &mut turn) };
    answered(status, turn)
}

#[inline]
pub(crate) fn poll(house: &mut Handle, server: u16) -> Result<u32, Status> {
    let mut kind = 0;
    let status = unsafe { cbs_poll(house.0.get(), server, &mut kind) };
    answered(status, kind)
}

#[inline]
pub(crate) fn run(house: &mut Handle) -> Result<Unit, Status> {
    let mut unit = Unit::default();
    let status = unsafe { cbs_run(house.0.get(), &mut unit) };
    answered(status, unit)
}

#[inline]
pub(crate) fn advance(house: &mut Handle, ticks: u64) -> Result<(), Status> {
    answered(unsafe { cbs_advance(house.0.get(), ticks) }, ())
}

#[inline]
pub(crate) fn charge(house: &mut Handle, server: u16, ticks: u64) -> Result<(), Status> {
    answered(unsafe { cbs_charge(house.0.get(), server, ticks) }, ())
}

#[inline]
pub(crate) fn finish(house: &mut Handle, server: u16) -> Result<(), Status> {
    answered(unsafe { cbs_finish(house.0.get(), server) }, ())
}

/// The byte that ends a tape which has each step.
pub(crate) const TAPE_END: u8 = 4;

pub(crate) fn tape_open(house: &mut Handle, bytes: u32) -> Result<(), Status> {
    answered(unsafe { cbs_tape_open(house.0.get(), bytes) }, ())
}

pub(crate) fn tape_take(house: &mut Handle, out: &mut [u8]) -> Result<usize, Status> {
    let mut length = 0;
    let status = unsafe { cbs_tape_take(house.0.get(), out.as_mut_ptr(), out.len(), &mut length) };
    answered(status, length)
}

pub(crate) fn tape_lost(house: &Handle) -> Result<bool, Status> {
    let mut lost = false;
    let status = unsafe { cbs_tape_lost(house.0.get(), &mut lost) };
    answered(status, lost)
}

pub(crate) fn tape_close(house: &mut Handle) -> Result<(), Status> {
    answered(unsafe { cbs_tape_close(house.0.get()) }, ())
}

#[inline]
pub(crate) fn charges(house: &Handle, server: u16) -> Result<(u64, u64), Status> {
    let (mut total, mut most) = (0, 0);
    let status = unsafe { cbs_charges(house.0.get(), server, &mut total, &mut most) };
    answered(status, (total, most))
}

#[inline]
pub(crate) fn now(house: &Handle) -> Result<u64, Status> {
    let mut now = 0;
    let status = unsafe { cbs_now(house.0.get(), &mut now) };
    answered(status, now)
}

#[inline]
pub(crate) fn idle_span(house: &Handle) -> Result<u64, Status> {
    let mut span = 0;
    let status = unsafe { cbs_idle_span(house.0.get(), &mut span) };
    answered(status, span)
}

#[inline]
pub(crate) fn view(house: &Handle, server: u16) -> Result<View, Status> {
    let mut view = View::default();
    let status = unsafe { cbs_view(house.0.get(), server, &mut view) };
    answered(status, view)
}

#[inline]
pub(crate) fn promised(house: &Handle, server: u16) -> Result<(u64, u64), Status> {
    let (mut low, mut high) = (0, 0);
    let status = unsafe { cbs_promised(house.0.get(), server, &mut low, &mut high) };
    answered(status, (low, high))
}

pub(crate) fn pace(house: &Handle, tick: u64, carry: bool, time: u64) -> Result<Pacer, Status> {
    let mut pacer = Pacer { own: [0; 76] };
    let status = unsafe { cbs_pace(house.0.get(), tick, carry, time, &mut pacer) };
    answered(status, pacer)
}

/// Asks what is next. The unit before is charged what it `took`, or else the time since the last
/// reading.
#[inline]
pub(crate) fn next(
    house: &mut Handle,
    pacer: &mut Pacer,
    time: u64,
    took: Option<u64>,
) -> Result<Next, Status> {
    let mut next = Next::default();
    let house = house.0.get();
    let status = match took {
        None => unsafe { cbs_next(house, pacer, time, &mut next) },
        Some(took) => unsafe { cbs_next_measured(house, pacer, time, took, &mut next) },
    };
    answered(status, next)
}

/// Ends the unit before, and charges it as [`next`] does.
#[inline]
pub(crate) fn done(
    house: &mut Handle,
    pacer: &mut Pacer,
    time: u64,
    took: Option<u64>,
) -> Result<(), Status> {
    let house = house.0.get();
    let status = match took {
        None => unsafe { cbs_done(house, pacer, time) },
        Some(took) => unsafe { cbs_done_measured(house, pacer, time, took) },
    };
    answered(status, ())
}

#[inline]
pub(crate) fn counts(pacer: &Pacer) -> Counts {
    let mut counts = Counts::default();
    unsafe { cbs_counts(pacer, &mut counts) };
    counts
}

#[inline]
pub(crate) fn spread_add(spread: &mut Spread, number: u64) {
    unsafe { cbs_spread_add(spread, number) }
}

#[inline]
pub(crate) fn spread_mean(spread: &Spread) -> u64 {
    unsafe { cbs_spread_mean(spread) }
}

#[inline]
pub(crate) fn spread_at_most(spread: &Spread, per_mille: u64) -> u64 {
    unsafe { cbs_spread_at_most(spread, per_mille) }
}

#[inline]
pub(crate) fn figures_accepted(figures: &mut Figures, came: &mut [u64], accepted: u64, time: u64) {
    unsafe { cbs_figures_accepted(figures, came.as_mut_ptr(), came.len(), accepted, time) }
}

#[inline]
pub(crate) fn figures_ended(
    figures: &mut Figures,
    came: &[u64],
    unit: &Unit,
    time: u64,
    charged: u64,
    lateness: u64,
) {
    let (at, n) = (came.as_ptr(), came.len());
    unsafe { cbs_figures_ended(figures, at, n, unit, time, charged, lateness) }
}

#[inline]
pub(crate) fn figures_share(figures: &Figures) -> u64 {
    unsafe { cbs_figures_share(figures) }
}

#[inline]
pub(crate) fn lateness(server: &Server, view: &View, clock: u64, charged: u64) -> u64 {
    unsafe { cbs_lateness(server, view, clock, charged) }
}

#[inline]
pub(crate) fn send(client: &mut Handle, token: u64, units: u32) -> Result<u64, Status> {
    let mut seq = 0;
    let status = unsafe { cbs_send(client.0.get(), token, units, &mut seq) };
    answered(status, seq)
}

#[inline]
pub(crate) fn end(client: &mut Handle) -> Result<(), Status> {
    answered(unsafe { cbs_end(client.0.get()) }, ())
}

#[inline]
pub(crate) fn waiting(client: &Handle) -> Result<u64, Status> {
    let mut waiting = 0;
    let status = unsafe { cbs_waiting(client.0.get(), &mut waiting) };
    answered(status, waiting)
}

#[cfg(test)]
mod tests {
    use super::*;
    use std::mem::size_of;

    #[test]
    fn the_library_has_the_version_of_the_crate() {
        let [major, minor, patch] = [
            env!("CARGO_PKG_VERSION_MAJOR"),
            env!("CARGO_PKG_VERSION_MINOR"),
            env!("CARGO_PKG_VERSION_PATCH"),
        ]
        .map(|number| number.parse::<u32>().unwrap());
        assert_eq!(FITS, major * 100 + minor);
        assert_eq!(unsafe { cbs_version() }, FITS * 100 + patch);
    }

    // As in the header: bindings/c/tests/layouts.c has the same numbers.
    #[test]
    fn structs_are_as_long_as_in_c() {
        assert_eq!(size_of::<Handle>(), 16);
        assert_eq!(size_of::<Server>(), 24);
        assert_eq!(size_of::<Unit>(), 24);
        assert_eq!(size_of::<Turn>(), 48);
        assert_eq!(size_of::<View>(), 48);
        assert_eq!(size_of::<Next>(), 40);
        assert_eq!(size_of::<Counts>(), 48);
        assert_eq!(size_of::<Pacer>(), 608);
        assert_eq!(size_of::<Spread>(), 552);
        assert_eq!(size_of::<Figures>(), 1136);
        assert_eq!(unsafe { cbs_pacer_size() }, size_of::<Pacer>());
    }
}
