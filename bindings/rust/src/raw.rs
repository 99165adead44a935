//! The library as C sees it: `include/raspcream.h`.
use core::ffi::c_void;

pub const MAX_FIELDS: usize = 96;

#[repr(C)]
#[derive(Clone, Copy)]
pub struct Span {
    at: *const u8,
    len: usize,
}

impl Span {
    /// The bytes.
    ///
    /// # Safety
    ///
    /// They stand as long as `'c`: no call on the handle ends them.
    pub unsafe fn bytes<'c>(self) -> &'c [u8] {
        if self.len == 0 {
            &[]
        } else {
            // SAFETY: the library told where they are, and the caller says how long they stand.
            unsafe { core::slice::from_raw_parts(self.at, self.len) }
        }
    }
}

#[repr(C)]
#[derive(Clone, Copy)]
pub struct Field {
    pub name: Span,
    pub value: Span,
}

#[repr(C)]
#[derive(Clone, Copy)]
pub struct Numbers {
    pub can: u32,
    pub waiting: u32,
    pub buffered: u64,
    pub write_room: u64,
    pub held: u64,
    pub read_room: u64,
    pub deadline: u64,
}

#[repr(C)]
pub struct Event {
    pub kind: u32,
    pub reason: u32,
    pub number: u64,
    pub bytes: Span,
    pub method: Span,
    pub target: Span,
    pub minor: u32,
    pub body: u32,
    pub state: Numbers,
    pub count: usize,
    pub fields: [Field; MAX_FIELDS],
}

/// Settings. Times are milliseconds, and sizes bytes.
#[repr(C)]
#[derive(Clone, Copy, Debug)]
pub struct Config {
    /// How long the next request may take to come; 0: the connection closes after each answer.
    pub keep_alive: u64,

    /// How long the first head may take to come; 0: no limit.
    pub request_timeout: u64,

    /// How long a connection that closes may take to be written out; 0: no limit.
    pub disconnect_timeout: u64,

    /// How much may wait to be written before pieces of a body have to wait.
    pub write_buffer: usize,

    /// How much of the input may be held: 8192 at least.
    pub hold_size: usize,

    /// Whether a peer that sends no more is still answered.
    pub half_closed: bool,

    pub(crate) client: bool,
}

impl Default for Config {
    fn default() -> Config {
        Config {
            keep_alive: 5000,
            request_timeout: 5000,
            disconnect_timeout: 0,
            write_buffer: 32768,
            hold_size: 131_072,
            half_closed: true,
            client: false,
        }
    }
}

pub const ABI: u32 = 1;

extern "C" {
    pub fn raspcream_abi() -> u32;
    pub fn raspcream_open(config: *const Config, out: *mut *mut c_void) -> u32;
    pub fn raspcream_call(at: *mut c_void, op: u32, number: u64, data: *const u8, len: usize, out: *mut Event) -> u32;
    pub fn raspcream_drop(at: *mut c_void);
    pub fn free(at: *mut c_void);
}
