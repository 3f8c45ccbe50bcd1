//! The keyboard for Rust 1.82 or later, over `libkbd48.a`. It needs no crate: put this file into your own as
//! `mod kbd48;`, and link with `-L DIST -l static=kbd48`. The calls are those of `kbd48.h`, which has their units and
//! ranges.
#![allow(dead_code)]

use std::cell::UnsafeCell;
use std::ffi::c_void;
use std::{fmt, ptr};

/// How many bytes a saved keyboard has.
pub const SAVED: usize = 3077;

/// How many bytes a saved queue has.
pub const SAVED_KEYS: usize = 1629;

/// Why a call did nothing, or why a run ended early.
#[derive(Clone, Copy, Debug, PartialEq, Eq)]
pub enum Error {
    NoMemory,
    /// The text breaks the rule of this number at this entry of a layout, or line of a HEX text.
    BadText { position: u32, number: u32 },
    TooLong,
    NoSuchPlace,
    NoSuchPort,
    /// There is no room: for a write, for a fifth edge, or for a press in a queue.
    Full,
    /// The keyboard's processor is at a byte that begins no instruction.
    Stuck,
    Early,
    Over,
    NoSuchCell,
    /// More was said than is kept.
    Lost,
    /// No key has the name, or the layout has none of it.
    NoSuchKey,
    /// Noise turns round the bits 1 to 9 of a frame.
    NoSuchBit,
    /// A saved keyboard has `SAVED` bytes, a saved queue `SAVED_KEYS`.
    BadSize,
    /// The bytes don't begin as those of a saved keyboard, or a saved queue.
    NotSaved,
    OtherVersion,
    /// A number in the bytes is out of range.
    BadState,
}

impl fmt::Display for Error {
    fn fmt(&self, to: &mut fmt::Formatter) -> fmt::Result {
        write!(to, "{self:?}")
    }
}

impl std::error::Error for Error {}

/// The controller's registers.
#[repr(C)]
#[derive(Clone, Copy, Debug, Default, PartialEq, Eq)]
pub struct Registers {
    pub status: u8,
    pub output: u8,
    pub command_byte: u8,
    pub output_port: u8,
}

/// The keyboard's processor, an 8049. `counts` is 0 if the timer is off, 1 for machine cycles, 2 for falls of T1.
#[repr(C)]
#[derive(Clone, Copy, Debug, Default, PartialEq, Eq)]
pub struct Processor {
    pub counter: u16,
    pub byte: u8,
    pub a: u8,
    pub carry: bool,
    pub half_carry: bool,
    pub f0: bool,
    pub f1: bool,
    pub register_bank: bool,
    pub memory_bank: bool,
    pub stack: u8,
    pub t: u8,
    pub prescaler: u8,
    pub counts: u8,
    pub timer_flag: bool,
    pub external_on: bool,
    pub timer_on: bool,
    pub request: bool,
    pub service: bool,
    pub p1: u8,
    pub p2: u8,
    pub bus: u8,
}

/// What was said, with its cycle. The kinds are those of `kbd48.h`.
#[repr(C)]
#[derive(Clone, Copy, Debug, Default, PartialEq, Eq)]
pub struct Item {
    pub cycle: u64,
    pub kind: u8,
    pub value: u16,
}

/// How a run ended: how many cycles passed, and whether the interrupt line rose in its last step.
#[derive(Clone, Copy, Debug, PartialEq, Eq)]
pub struct Ran {
    pub passed: u64,
    pub rose: bool,
}

/// How a run with the queue ended: how many cycles passed, how often the interrupt line rose, and whether that ended it.
#[derive(Clone, Copy, Debug, PartialEq, Eq)]
pub struct KeysRan {
    pub passed: u64,
    pub rises: u64,
    pub rose: bool,
}

#[repr(C)]
#[derive(Clone, Copy)]
struct Pushed {
    stamp: u64,
    place: u8,
    down: bool,
}

/// The edges that wait in a keyboard's queue, and the keys that are down after them.
#[repr(C)]
#[derive(Clone, Copy)]
pub struct Keys {
    ready: u64,
    edges: [Pushed; 160],
    down: [bool; 96],
    count: u8,
}

const NO_KEYS: Keys =
    Keys { ready: 0, edges: [Pushed { stamp: 0, place: 0, down: false }; 160], down: [false; 96], count: 0 };

/// Help for two BIOSes. What the guest sees with it isn't the machine's. `parameter` is whether the controller awaits a
/// parameter at port 60h, and `last` the last byte that the keyboard was given, or 0. Keep one for each keyboard, and all
/// four beside a save.
#[repr(C)]
#[derive(Clone, Copy, Debug, Default, PartialEq, Eq)]
pub struct Help {
    pub seabios: bool,
    pub bochs: bool,
    pub parameter: bool,
    pub last: u8,
}

impl Help {
    /// With `seabios` the byte after F0 is replaced by EF; with `bochs` the self-test after FF takes the guest no time.
    pub fn new(seabios: bool, bochs: bool) -> Help {
        Help { seabios, bochs, ..Help::default() }
    }

    /// The byte to write in place of the guest's. Call it before each write for the guest.
    pub fn write(&mut self, port: u8, byte: u8) -> u8 {
        unsafe { kbd48_help_write(self, port, byte) }
    }

    /// Whether to run the keyboard on, watched, until the line rises. Call it after the guest has read this byte from port 60h.
    pub fn read(&mut self, byte: u8) -> bool {
        unsafe { kbd48_help_read(self, byte) }
    }
}

#[repr(C)]
struct Handle {
    at: *mut c_void,
}

#[repr(C)]
#[derive(Default)]
struct Fault {
    position: u32,
    number: u32,
}

#[repr(C)]
#[derive(Default)]
struct Spot {
    counter: u16,
    byte: u8,
}

type Open = unsafe extern "C" fn(*const u8, usize, *mut Handle, *mut Fault) -> i32;

unsafe extern "C" {
    fn kbd48_version() -> i32;
    fn kbd48_open_layout(text: *const u8, length: usize, handle: *mut Handle, fault: *mut Fault) -> i32;
    fn kbd48_open_hex(text: *const u8, length: usize, handle: *mut Handle, fault: *mut Fault) -> i32;
    fn kbd48_open_ready_layout(text: *const u8, length: usize, handle: *mut Handle, fault: *mut Fault) -> i32;
    fn kbd48_open_ready_hex(text: *const u8, length: usize, handle: *mut Handle, fault: *mut Fault) -> i32;
    fn kbd48_open_sample(handle: *mut Handle) -> i32;
    fn kbd48_open_ready_sample(handle: *mut Handle) -> i32;
    fn kbd48_layout_key(text: *const u8, length: usize, name: *const u8, name_length: usize, place: *mut u8) -> i32;
    fn kbd48_sample_key(name: *const u8, length: usize, place: *mut u8) -> i32;
    fn kbd48_queue_key(queue: *mut Keys, cycle: u64, place: u8, down: bool) -> i32;
    fn kbd48_release_all(queue: *mut Keys, cycle: u64) -> i32;
    fn kbd48_help_write(help: *mut Help, port: u8, byte: u8) -> u8;
    fn kbd48_help_read(help: *mut Help, byte: u8) -> bool;
    fn kbd48_queued(queue: *mut Keys, count: *mut u8) -> i32;
    fn kbd48_save_keys(queue: *mut Keys, buffer: *mut u8, length: usize) -> i32;
    fn kbd48_load_keys(queue: *mut Keys, bytes: *const u8, length: usize) -> i32;
    fn kbd48_run_keys(handle: *mut Handle, queue: *mut Keys, cycles: u64, watched: bool, passed: *mut u64, spot: *mut Spot) -> i32;
    fn kbd48_power_on(handle: *mut Handle, fill: u8) -> i32;
    fn kbd48_copy(from: *mut Handle, to: *mut Handle) -> i32;
    fn kbd48_save(handle: *mut Handle, buffer: *mut u8, length: usize) -> i32;
    fn kbd48_load(handle: *mut Handle, bytes: *const u8, length: usize) -> i32;
    fn kbd48_close(handle: *mut Handle) -> i32;
    fn kbd48_key(handle: *mut Handle, place: u8, down: bool) -> i32;
    fn kbd48_run(handle: *mut Handle, cycles: u64, watched: bool, passed: *mut u64, spot: *mut Spot) -> i32;
    fn kbd48_run_to(handle: *mut Handle, mask: u8, at: u16, cycles: u64, steps: u64, met: *mut u8,
        passed: *mut u64, spot: *mut Spot) -> i32;
    fn kbd48_write(handle: *mut Handle, port: u8, byte: u8) -> i32;
    fn kbd48_read60(handle: *mut Handle, byte: *mut u8) -> i32;
    fn kbd48_status(handle: *mut Handle, byte: *mut u8) -> i32;
    fn kbd48_bios(handle: *mut Handle, on: bool) -> i32;
    fn kbd48_flip(handle: *mut Handle, bit: u8) -> i32;
    fn kbd48_take(handle: *mut Handle, word: *mut u16) -> i32;
    fn kbd48_next(handle: *mut Handle, item: *mut Item) -> i32;
    fn kbd48_look(handle: *mut Handle, registers: *mut Registers) -> i32;
    fn kbd48_interrupt(handle: *mut Handle, up: *mut bool) -> i32;
    fn kbd48_lost(handle: *mut Handle, lost: *mut u64) -> i32;
    fn kbd48_rises(handle: *mut Handle, rises: *mut u64) -> i32;
    fn kbd48_lights(handle: *mut Handle, lights: *mut u8) -> i32;
    fn kbd48_wires(handle: *mut Handle, clock: *mut bool, data: *mut bool) -> i32;
    fn kbd48_waiting(handle: *mut Handle, edges: *mut u8, words: *mut u8) -> i32;
    fn kbd48_column(handle: *mut Handle, number: u8, rows: *mut u8) -> i32;
    fn kbd48_pulls(handle: *mut Handle, keyboard: *mut u8, controller: *mut u8) -> i32;
    fn kbd48_cycle(handle: *mut Handle, cycle: *mut u64) -> i32;
    fn kbd48_inside(handle: *mut Handle, shown: *mut Processor) -> i32;
    fn kbd48_cell(handle: *mut Handle, number: u8, byte: *mut u8) -> i32;
}

/// The statuses of `c/kbd48.h`, by their numbers.
#[allow(dead_code)]
mod status {
    pub const DONE: i32 = 0;
    pub const NOT_OPEN: i32 = 1;
    pub const NO_MEMORY: i32 = 2;
    pub const BAD_TEXT: i32 = 3;
    pub const TOO_LONG: i32 = 4;
    pub const NO_SUCH_PLACE: i32 = 5;
    pub const NO_SUCH_PORT: i32 = 6;
    pub const FULL: i32 = 7;
    pub const STUCK: i32 = 8;
    pub const EARLY: i32 = 9;
    pub const OVER: i32 = 10;
    pub const NO_WORD: i32 = 11;
    pub const ROSE: i32 = 12;
    pub const NO_SUCH_CELL: i32 = 13;
    pub const NOTHING_SAID: i32 = 14;
    pub const LOST: i32 = 15;
    pub const REPEATED: i32 = 16;
    pub const KEY_DUE: i32 = 17;
    pub const NO_SUCH_KEY: i32 = 18;
    pub const NO_SUCH_BIT: i32 = 19;
    pub const BAD_SIZE: i32 = 20;
    pub const NOT_SAVED: i32 = 21;
    pub const OTHER_VERSION: i32 = 22;
    pub const BAD_STATE: i32 = 23;
}

/// An answer by its status. Statuses that a call takes for an answer never come here.
fn judged(status: i32, fault: Fault) -> Result<(), Error> {
    Err(match status {
        status::DONE => return Ok(()),
        status::NO_MEMORY => Error::NoMemory,
        status::BAD_TEXT => Error::BadText { position: fault.position, number: fault.number },
        status::TOO_LONG => Error::TooLong,
        status::NO_SUCH_PLACE => Error::NoSuchPlace,
        status::NO_SUCH_PORT => Error::NoSuchPort,
        status::FULL => Error::Full,
        status::STUCK => Error::Stuck,
        status::EARLY => Error::Early,
        status::OVER => Error::Over,
        status::NO_SUCH_CELL => Error::NoSuchCell,
        status::LOST => Error::Lost,
        status::NO_SUCH_KEY => Error::NoSuchKey,
        status::NO_SUCH_BIT => Error::NoSuchBit,
        status::BAD_SIZE => Error::BadSize,
        status::NOT_SAVED => Error::NotSaved,
        status::OTHER_VERSION => Error::OtherVersion,
        status::BAD_STATE => Error::BadState,
        other => unreachable!("status {other} of an open keyboard"),
    })
}

fn done(status: i32) -> Result<(), Error> {
    judged(status, Fault::default())
}

/// A keyboard. A look goes through its handle too, so it is no `Sync`.
pub struct Keyboard {
    handle: UnsafeCell<Handle>,
    keys: UnsafeCell<Keys>,
}

// One call at a time has it, and it owns all that it leads to.
unsafe impl Send for Keyboard {}

impl Drop for Keyboard {
    fn drop(&mut self) {
        unsafe { kbd48_close(self.handle.get()) };
    }
}

/// 10,000 times the first part of the library's version, 100 times the second, and the third.
pub fn version() -> i32 {
    unsafe { kbd48_version() }
}

impl Keyboard {
    pub fn of_layout(text: &[u8]) -> Result<Keyboard, Error> {
        Keyboard::opened(kbd48_open_layout, text)
    }

    pub fn of_hex(text: &[u8]) -> Result<Keyboard, Error> {
        Keyboard::opened(kbd48_open_hex, text)
    }

    /// The same, with the power-on test over: its AA is in the controller's output buffer.
    pub fn ready_of_layout(text: &[u8]) -> Result<Keyboard, Error> {
        Keyboard::opened(kbd48_open_ready_layout, text)
    }

    pub fn ready_of_hex(text: &[u8]) -> Result<Keyboard, Error> {
        Keyboard::opened(kbd48_open_ready_hex, text)
    }

    /// A keyboard of the sample layout.
    pub fn of_sample() -> Result<Keyboard, Error> {
        Keyboard::opened_sample(kbd48_open_sample)
    }

    /// The same, with the power-on test over.
    pub fn ready_of_sample() -> Result<Keyboard, Error> {
        Keyboard::opened_sample(kbd48_open_ready_sample)
    }

    /// The place of a key by its name, in a layout's text.
    pub fn place_of(layout: &[u8], name: &str) -> Result<u8, Error> {
        let mut place = 0;
        let status =
            unsafe { kbd48_layout_key(layout.as_ptr(), layout.len(), name.as_ptr(), name.len(), &mut place) };
        done(status).map(|()| place)
    }

    /// The place of a key by its name in the sample layout.
    pub fn sample_place_of(name: &str) -> Result<u8, Error> {
        let mut place = 0;
        done(unsafe { kbd48_sample_key(name.as_ptr(), name.len(), &mut place) }).map(|()| place)
    }

    /// A key by the queue of this keyboard, which hands each edge over when it can be seen. A key that is so already changes
    /// nothing.
    pub fn queue_key(&mut self, place: u8, down: bool) -> Result<(), Error> {
        match unsafe { kbd48_queue_key(self.keys.get(), self.cycle(), place, down) } {
            status::REPEATED => Ok(()),
            status => done(status),
        }
    }

    /// Each key that is down goes up, after all edges that wait.
    pub fn release_all(&mut self) {
        unsafe { kbd48_release_all(self.keys.get(), self.cycle()) };
    }

    /// How many edges wait in the queue.
    pub fn queued(&self) -> u8 {
        let mut count = 0;
        unsafe { kbd48_queued(self.keys.get(), &mut count) };
        count
    }

    /// The queue, to be kept beside what is kept of the keyboard: an empty one takes all keys for up.
    pub fn queue(&self) -> Keys {
        unsafe { *self.keys.get() }
    }

    /// Puts a queue that was kept in the place of this keyboard's.
    pub fn set_queue(&mut self, keys: Keys) {
        *self.keys.get_mut() = keys;
    }

    /// The queue as bytes, to be stored beside those of `save`.
    pub fn save_queue(&self) -> [u8; SAVED_KEYS] {
        let mut bytes = [0; SAVED_KEYS];
        unsafe { kbd48_save_keys(self.keys.get(), bytes.as_mut_ptr(), SAVED_KEYS) };
        bytes
    }

    /// Puts the queue that these bytes mean in the place of this keyboard's. If they mean none, it stays.
    pub fn load_queue(&mut self, bytes: &[u8]) -> Result<(), Error> {
        done(unsafe { kbd48_load_keys(self.keys.get(), bytes.as_ptr(), bytes.len()) })
    }

    /// Runs as `run` does, and hands over each edge of the queue when it is due.
    pub fn run_keys(&mut self, cycles: u64, watched: bool) -> Result<KeysRan, Error> {
        let mut ran = KeysRan { passed: 0, rises: 0, rose: false };
        loop {
            let (mut passed, mut spot) = (0, Spot::default());
            let left = cycles.saturating_sub(ran.passed);
            let status =
                unsafe { kbd48_run_keys(self.handle.get(), self.keys.get(), left, watched, &mut passed, &mut spot) };
            ran.passed += passed;
            ran.rises += self.rises();
            match status {
                status::ROSE => return Ok(KeysRan { rose: true, ..ran }),
                status::KEY_DUE => {}
                _ => return done(status).map(|()| ran),
            }
        }
    }

    /// A keyboard of its own in the same state.
    pub fn copied(&self) -> Result<Keyboard, Error> {
        let copy = Keyboard::none();
        unsafe { *copy.keys.get() = *self.keys.get() };
        done(unsafe { kbd48_copy(self.handle.get(), copy.handle.get()) }).map(|()| copy)
    }

    /// The state as bytes, without the edges in the queue, which `save_queue` has.
    pub fn save(&self) -> [u8; SAVED] {
        let mut bytes = [0; SAVED];
        unsafe { kbd48_save(self.handle.get(), bytes.as_mut_ptr(), SAVED) };
        bytes
    }

    /// The keyboard in the state that these bytes mean, with no edge in its queue.
    pub fn of_saved(bytes: &[u8]) -> Result<Keyboard, Error> {
        let keyboard = Keyboard::none();
        done(unsafe { kbd48_load(keyboard.handle.get(), bytes.as_ptr(), bytes.len()) }).map(|()| keyboard)
    }

    /// Off and on again, with this byte in data memory, the accumulator and the timer at power-on. The queue begins anew.
    pub fn power_on(&mut self, fill: u8) -> Result<(), Error> {
        done(unsafe { kbd48_power_on(self.handle.get(), fill) })?;
        unsafe { *self.keys.get() = NO_KEYS };
        Ok(())
    }

    pub fn key(&mut self, place: u8, down: bool) -> Result<(), Error> {
        done(unsafe { kbd48_key(self.handle.get(), place, down) })
    }

    pub fn run(&mut self, cycles: u64, watched: bool) -> Result<Ran, Error> {
        let (mut passed, mut spot) = (0, Spot::default());
        match unsafe { kbd48_run(self.handle.get(), cycles, watched, &mut passed, &mut spot) } {
            status::ROSE => Ok(Ran { passed, rose: true }),
            status => done(status).map(|()| Ran { passed, rose: false }),
        }
    }

    /// Runs until a step comes to what the mask asks for (1 a rise of the line, 2 something said, 4 a wire that changed, 8
    /// the place `at` of the program), or to one of the limits. Answers how many cycles passed, and which of them it was.
    pub fn run_to(&mut self, mask: u8, at: u16, cycles: u64, steps: u64) -> Result<(u64, u8), Error> {
        let (mut met, mut passed, mut spot) = (0, 0, Spot::default());
        let handle = self.handle.get();
        done(unsafe { kbd48_run_to(handle, mask, at, cycles, steps, &mut met, &mut passed, &mut spot) })
            .map(|()| (passed, met))
    }

    pub fn write(&mut self, port: u8, byte: u8) -> Result<(), Error> {
        done(unsafe { kbd48_write(self.handle.get(), port, byte) })
    }

    pub fn read60(&mut self) -> Result<u8, Error> {
        let mut byte = 0;
        done(unsafe { kbd48_read60(self.handle.get(), &mut byte) }).map(|()| byte)
    }

    /// The host reads the status, in one step; `registers` shows it without one.
    pub fn status(&mut self) -> Result<u8, Error> {
        let mut byte = 0;
        done(unsafe { kbd48_status(self.handle.get(), &mut byte) }).map(|()| byte)
    }

    pub fn bios(&mut self, on: bool) -> Result<(), Error> {
        done(unsafe { kbd48_bios(self.handle.get(), on) })
    }

    /// Noise turns round a bit of the next frame that the keyboard begins: a data bit, 1 to 8, or the parity, 9.
    pub fn flip(&mut self, bit: u8) -> Result<(), Error> {
        done(unsafe { kbd48_flip(self.handle.get(), bit) })
    }

    /// The next word of the buffer of INT 09h, if there is one.
    pub fn take(&mut self) -> Result<Option<u16>, Error> {
        let mut word = 0;
        match unsafe { kbd48_take(self.handle.get(), &mut word) } {
            status::NO_WORD => Ok(None),
            status => done(status).map(|()| Some(word)),
        }
    }

    /// What was said next, if anything was.
    pub fn next_said(&mut self) -> Result<Option<Item>, Error> {
        let mut item = Item::default();
        match unsafe { kbd48_next(self.handle.get(), &mut item) } {
            status::NOTHING_SAID => Ok(None),
            status => done(status).map(|()| Some(item)),
        }
    }

    pub fn registers(&self) -> Registers {
        self.look(kbd48_look)
    }

    pub fn interrupt(&self) -> bool {
        self.look(kbd48_interrupt)
    }

    /// How many items were lost and not reported yet.
    pub fn lost(&self) -> u64 {
        self.look(kbd48_lost)
    }

    pub fn rises(&self) -> u64 {
        self.look(kbd48_rises)
    }

    pub fn lights(&self) -> u8 {
        self.look(kbd48_lights)
    }

    /// The levels of the clock and of data, true for high.
    pub fn wires(&self) -> (bool, bool) {
        self.look_at_two(kbd48_wires)
    }

    /// How many edges wait for a step, and how many words in the buffer of INT 09h.
    pub fn waiting(&self) -> (u8, u8) {
        self.look_at_two(kbd48_waiting)
    }

    /// The keys of a column, 0 to 11: bit k is row k, 0 for down.
    pub fn column(&self, number: u8) -> Result<u8, Error> {
        let mut rows = 0;
        done(unsafe { kbd48_column(self.handle.get(), number, &mut rows) }).map(|()| rows)
    }

    /// The wires that the keyboard pulls, and those that the controller pulls: 1 the clock, 2 data.
    pub fn pulls(&self) -> (u8, u8) {
        self.look_at_two(kbd48_pulls)
    }

    pub fn cycle(&self) -> u64 {
        self.look(kbd48_cycle)
    }

    pub fn processor(&self) -> Processor {
        self.look(kbd48_inside)
    }

    /// A byte of the processor's data memory, 0 to 127.
    pub fn cell(&self, number: u8) -> Result<u8, Error> {
        let mut byte = 0;
        done(unsafe { kbd48_cell(self.handle.get(), number, &mut byte) }).map(|()| byte)
    }

    fn none() -> Keyboard {
        Keyboard { handle: UnsafeCell::new(Handle { at: ptr::null_mut() }), keys: UnsafeCell::new(NO_KEYS) }
    }

    fn opened_sample(open: unsafe extern "C" fn(*mut Handle) -> i32) -> Result<Keyboard, Error> {
        let keyboard = Keyboard::none();
        done(unsafe { open(keyboard.handle.get()) }).map(|()| keyboard)
    }

    fn opened(open: Open, text: &[u8]) -> Result<Keyboard, Error> {
        let (keyboard, mut fault) = (Keyboard::none(), Fault::default());
        let status = unsafe { open(text.as_ptr(), text.len(), keyboard.handle.get(), &mut fault) };
        judged(status, fault).map(|()| keyboard)
    }

    /// A look that shows two values.
    fn look_at_two<T: Default>(&self, call: unsafe extern "C" fn(*mut Handle, *mut T, *mut T) -> i32) -> (T, T) {
        let mut shown = (T::default(), T::default());
        let status = unsafe { call(self.handle.get(), &mut shown.0, &mut shown.1) };
        debug_assert_eq!(status, 0);
        shown
    }

    /// A look at an open keyboard, which is always done.
    fn look<T: Default>(&self, call: unsafe extern "C" fn(*mut Handle, *mut T) -> i32) -> T {
        let mut shown = T::default();
        let status = unsafe { call(self.handle.get(), &mut shown) };
        debug_assert_eq!(status, 0);
        shown
    }
}
