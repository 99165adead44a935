//! What both sides share.
use crate::event::{Body, Broken, End, Error, Fault, Headers, Piece, State};
use crate::raw;
use alloc::vec::Vec;
use core::{ffi::c_void, marker::PhantomData, mem::MaybeUninit, ptr};

pub const READ: u32 = 0;
pub const EOF: u32 = 1;
pub const NEXT: u32 = 2;
pub const PULL: u32 = 3;
pub const DROP_BODY: u32 = 4;
pub const CONTINUE: u32 = 5;
pub const HEAD: u32 = 6;
pub const CHUNK: u32 = 7;
pub const END: u32 = 8;
pub const FAIL: u32 = 9;
pub const FRONT: u32 = 10;
pub const ADVANCE: u32 = 11;
pub const TICK: u32 = 12;
pub const DRAIN: u32 = 13;
pub const ACCEPT: u32 = 14;
pub const FRAME: u32 = 15;
pub const SEND: u32 = 16;
pub const STATE: u32 = 17;
pub const HELD: u32 = 18;
pub const AHEAD: u32 = 19;

pub struct Handle {
    at: *mut c_void,
    event: MaybeUninit<raw::Event>,
    packed: Vec<u8>,
    _not_sync: PhantomData<*const ()>,
}

// SAFETY: nothing of a connection belongs to a thread.
unsafe impl Send for Handle {}

impl Drop for Handle {
    fn drop(&mut self) {
        // SAFETY: `raspcream_open` gave it, and this is its only end. Its place is a block of the C heap.
        unsafe {
            raw::raspcream_drop(self.at);
            raw::free(self.at);
        }
    }
}

impl Handle {
    pub fn new(config: &raw::Config, client: bool) -> Result<Handle, Error> {
        // SAFETY: it takes nothing.
        assert_eq!(unsafe { raw::raspcream_abi() }, raw::ABI, "a library of another version");
        let config = raw::Config { client, ..*config };
        let mut at = ptr::null_mut();
        // SAFETY: both places are there.
        match unsafe { raw::raspcream_open(&config, &mut at) } {
            0 => Ok(Handle {
                at,
                event: MaybeUninit::zeroed(),
                packed: Vec::new(),
                _not_sync: PhantomData,
            }),
            1 => Err(Error::NoMemory),
            _ => Err(Error::Invalid),
        }
    }

    /// What is told borrows the handle, so that no other call comes before it is gone.
    pub fn call(&mut self, op: u32, number: u64, data: &[u8]) -> Result<&raw::Event, Error> {
        // SAFETY: the handle is live, and `&mut self` lets no other call in. A slice without a byte has a place that isn't
        // null.
        let code = unsafe { raw::raspcream_call(self.at, op, number, data.as_ptr(), data.len(), self.event.as_mut_ptr()) };
        match code {
            // SAFETY: it was all zeros, which is an event, before the call wrote to it.
            0 => Ok(unsafe { &*self.event.as_ptr() }),
            1 => Err(Error::NoMemory),
            2 => Err(Error::Misplaced),
            _ => Err(Error::Invalid),
        }
    }

    pub fn done(&mut self, op: u32) -> Result<(), Error> {
        self.call(op, 0, &[]).map(|_| ())
    }

    /// A call with packed pairs.
    pub fn call_packed(
        &mut self,
        op: u32,
        number: u64,
        first: Option<(&[u8], &[u8])>,
        lines: &[(&[u8], &[u8])],
    ) -> Result<(), Error> {
        let mut packed = core::mem::take(&mut self.packed);
        packed.clear();
        for (name, value) in first.iter().chain(lines) {
            pack(&mut packed, name, value)?;
        }
        // `packed` is no field meanwhile, so that the call may take the handle whole.
        let answer = self.call(op, number, &packed).map(|_| ());
        self.packed = packed;
        answer
    }

    pub fn pull(&mut self) -> Result<Piece<'_>, Error> {
        let event = self.call(PULL, 0, &[])?;
        Ok(match event.kind {
            // SAFETY: the piece stands until the next call.
            6 => Piece::Bytes(unsafe { event.bytes.bytes() }),
            7 => Piece::Trailers(headers(event)),
            8 => Piece::End,
            9 if event.reason == 2 => Piece::Broken(Broken::Incomplete),
            9 => Piece::Broken(Broken::Corrupted),
            _ => Piece::Pending,
        })
    }

    pub fn span(&mut self, op: u32, number: u64) -> Result<&[u8], Error> {
        // SAFETY: the bytes stand until the next call.
        self.call(op, number, &[]).map(|event| unsafe { event.bytes.bytes() })
    }

    pub fn state(&mut self) -> Result<State, Error> {
        let event = self.call(STATE, 0, &[])?;
        let numbers = &event.state;
        Ok(State {
            closing: End::of(event.reason),
            buffered: numbers.buffered,
            write_room: numbers.write_room,
            held: numbers.held,
            read_room: numbers.read_room,
            deadline: Some(numbers.deadline).filter(|moment| *moment != u64::MAX),
            waiting: numbers.waiting,
            is_reusable: numbers.can & 8192 != 0,
        })
    }
}

fn pack(packed: &mut Vec<u8>, name: &[u8], value: &[u8]) -> Result<(), Error> {
    let size = |text: &[u8]| u32::try_from(text.len()).map_err(|_| Error::Invalid);
    let (name_size, value_size) = (size(name)?, size(value)?);
    let needed = name.len().checked_add(value.len()).and_then(|sum| sum.checked_add(8));
    let needed = needed.ok_or(Error::NoMemory)?;
    // What follows then takes no memory, of which the lack would end the program.
    packed.try_reserve(needed).map_err(|_| Error::NoMemory)?;
    packed.extend_from_slice(&name_size.to_le_bytes());
    packed.extend_from_slice(&value_size.to_le_bytes());
    packed.extend_from_slice(name);
    packed.extend_from_slice(value);
    Ok(())
}

pub fn headers(event: &raw::Event) -> Headers<'_> {
    Headers {
        fields: &event.fields[..event.count.min(raw::MAX_FIELDS)],
    }
}

pub fn body(event: &raw::Event) -> Body {
    match event.body {
        0 => Body::None,
        1 => Body::Length(event.number),
        2 => Body::Chunked,
        _ => Body::Raw,
    }
}

pub fn fault(event: &raw::Event) -> Fault {
    if event.reason == 2 {
        Fault::TooLarge
    } else {
        Fault::Malformed
    }
}

pub fn end(event: &raw::Event) -> End {
    End::of(event.reason).unwrap_or(End::Asked)
}

/// The calls of both sides.
macro_rules! both {
    ($side:ident) => {
        impl $side {
            /// Bytes were read. It says how many there was room for, from the first on: hand in the others later.
            pub fn read(&mut self, data: &[u8]) -> Result<usize, Error> {
                self.0.call(handle::READ, 0, data).map(|event| event.number as usize)
            }

            /// The peer sends no more.
            pub fn eof(&mut self) -> Result<(), Error> {
                self.0.done(handle::EOF)
            }

            /// More of the body. Of a message without one, `Misplaced`.
            pub fn pull(&mut self) -> Result<Piece<'_>, Error> {
                self.0.pull()
            }

            /// The rest of the body isn't wanted.
            pub fn drop_body(&mut self) -> Result<(), Error> {
                self.0.done(handle::DROP_BODY)
            }

            /// A piece of the body that is sent: it is copied.
            pub fn chunk(&mut self, data: &[u8]) -> Result<(), Error> {
                self.0.call(handle::CHUNK, 0, data).map(|_| ())
            }

            /// That body is whole. Of a message without one, or with one of 0 bytes, `Misplaced`.
            pub fn end(&mut self) -> Result<(), Error> {
                self.0.done(handle::END)
            }

            /// That body failed: the connection closes.
            pub fn fail(&mut self) -> Result<(), Error> {
                self.0.done(handle::FAIL)
            }

            /// The bytes to write next, where they lie; none where none waits.
            pub fn front(&mut self) -> Result<&[u8], Error> {
                self.0.span(handle::FRONT, 0)
            }

            /// So many of them were written.
            pub fn advance(&mut self, count: usize) -> Result<(), Error> {
                self.0.call(handle::ADVANCE, count as u64, &[]).map(|_| ())
            }

            /// The bytes that came and were not passed, from place `start` on, as many as lie together.
            pub fn held(&mut self, start: usize) -> Result<&[u8], Error> {
                self.0.span(handle::HELD, start as u64)
            }

            /// The numbers of the connection.
            pub fn state(&mut self) -> Result<State, Error> {
                self.0.state()
            }
        }
    };
}
pub(crate) use both;
