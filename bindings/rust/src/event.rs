//! What a connection hands out, and is told.
use crate::raw;

/// Why a call failed: nothing of the connection has changed.
#[derive(Clone, Copy, Debug, PartialEq, Eq)]
pub enum Error {
    /// Memory ran out. The call may be made again.
    NoMemory,

    /// The call may not come now.
    Misplaced,

    /// An argument is wrong.
    Invalid,
}

impl core::fmt::Display for Error {
    fn fmt(&self, f: &mut core::fmt::Formatter<'_>) -> core::fmt::Result {
        f.write_str(match self {
            Error::NoMemory => "memory ran out",
            Error::Misplaced => "the call may not come now",
            Error::Invalid => "an argument is wrong",
        })
    }
}

impl core::error::Error for Error {}

/// How a body that comes ends.
#[derive(Clone, Copy, Debug, PartialEq, Eq)]
pub enum Body {
    /// There is none: nothing is to be pulled.
    None,

    /// After so many bytes.
    Length(u64),

    /// By its chunks.
    Chunked,

    /// With the connection.
    Raw,
}

/// How long a body that is sent is.
#[derive(Clone, Copy, Debug, PartialEq, Eq)]
pub enum Size {
    /// There is none, and no length is written.
    None,

    /// So many bytes.
    Bytes(u64),

    /// As many as come: in chunks, or up to the connection's end.
    Stream,
}

impl Size {
    /// As the library takes it, of which two lengths are no lengths.
    pub(crate) fn number(self) -> Result<u64, Error> {
        match self {
            Size::Stream => Ok(u64::MAX),
            Size::None => Ok(u64::MAX - 1),
            Size::Bytes(count) if count < u64::MAX - 1 => Ok(count),
            Size::Bytes(_) => Err(Error::Invalid),
        }
    }
}

/// What becomes of the connection behind a message.
#[derive(Clone, Copy, Debug, PartialEq, Eq)]
pub enum Keep {
    /// What its version says.
    Default = 0,

    /// It closes.
    Close = 1,

    /// It goes on.
    Alive = 2,

    /// It changes to another protocol.
    Upgrade = 3,
}

/// The lines of a head: names are in lower case, and lines of one name stand together.
#[derive(Clone, Copy)]
pub struct Headers<'c> {
    pub(crate) fields: &'c [raw::Field],
}

impl<'c> Headers<'c> {
    /// Each line.
    pub fn iter(self) -> impl ExactSizeIterator<Item = (&'c str, &'c [u8])> {
        self.fields.iter().map(|field| {
            // SAFETY: the spans stand as long as the connection is borrowed.
            let (name, value) = unsafe { (field.name.bytes(), field.value.bytes()) };
            (core::str::from_utf8(name).unwrap_or_default(), value)
        })
    }

    /// The first value of this name, which is in lower case.
    pub fn get(self, name: &str) -> Option<&'c [u8]> {
        self.iter().find(|line| line.0 == name).map(|line| line.1)
    }

    /// How many lines there are.
    pub fn len(self) -> usize {
        self.fields.len()
    }

    /// Whether there is none.
    pub fn is_empty(self) -> bool {
        self.fields.is_empty()
    }
}

impl core::fmt::Debug for Headers<'_> {
    fn fmt(&self, f: &mut core::fmt::Formatter<'_>) -> core::fmt::Result {
        f.debug_map().entries(self.iter()).finish()
    }
}

/// A request's head.
#[derive(Clone, Copy, Debug)]
pub struct Request<'c> {
    /// Its method.
    pub method: &'c str,

    /// Its target, as it was sent.
    pub target: &'c [u8],

    /// Of HTTP/1.0 it is 0, of HTTP/1.1 it is 1.
    pub minor: u8,

    /// How its body ends.
    pub body: Body,

    /// Its lines.
    pub headers: Headers<'c>,
}

/// An answer's head.
#[derive(Clone, Copy, Debug)]
pub struct Answer<'c> {
    /// Its status. 100 to 199, but 101, is no answer yet.
    pub status: u16,

    /// The words behind it.
    pub reason: &'c [u8],

    /// Of HTTP/1.0 it is 0, of HTTP/1.1 it is 1.
    pub minor: u8,

    /// How its body ends.
    pub body: Body,

    /// Its lines.
    pub headers: Headers<'c>,
}

/// What comes where a head is asked for.
#[derive(Clone, Copy, Debug)]
pub enum Next<T> {
    /// A head.
    Head(T),

    /// It is refused. A server's side has answered it.
    Fault(Fault),

    /// There is no whole one before more bytes are read.
    Pending,

    /// The connection has ended.
    Closed(End),
}

/// Why a head is refused.
#[derive(Clone, Copy, Debug, PartialEq, Eq)]
pub enum Fault {
    /// It is none.
    Malformed,

    /// It is larger than may be held.
    TooLarge,
}

/// What comes next of a body.
#[derive(Clone, Copy, Debug)]
pub enum Piece<'c> {
    /// A piece.
    Bytes(&'c [u8]),

    /// The lines behind its chunks.
    Trailers(Headers<'c>),

    /// Its end.
    End,

    /// It is broken, and the connection closes.
    Broken(Broken),

    /// Nothing before more bytes are read.
    Pending,
}

/// What is wrong with a body.
#[derive(Clone, Copy, Debug, PartialEq, Eq)]
pub enum Broken {
    /// Its chunks.
    Corrupted,

    /// The input has ended inside it.
    Incomplete,
}

/// Why a connection ends.
#[derive(Clone, Copy, Debug, PartialEq, Eq)]
#[non_exhaustive]
pub enum End {
    /// A head is refused.
    Malformed,
    /// A head is larger than may be held.
    TooLarge,
    /// The first head didn't come in time.
    SlowRequest,
    /// No further request came in time.
    KeepAlive,
    /// A rule of WebSocket was broken.
    Protocol,
    /// A body that was sent failed.
    BodyFailed,
    /// An answer's body lacks bytes of its length.
    BodyShort,
    /// A side asked for it, or nothing may follow the last message.
    Asked,
    /// A body that came is broken.
    BrokenBody,
    /// The answer is whole, and the body of its request wasn't read.
    UnreadBody,
    /// It was drained.
    Drained,
    /// The peer sends no more, and the settings don't allow that.
    HalfClosed,
    /// The peer sends no more, and there is nothing left to do.
    InputEnded,
    /// Bytes came that no request asked for.
    Unasked,
}

impl End {
    pub(crate) fn of(number: u32) -> Option<End> {
        Some(match number {
            1 => End::Malformed,
            2 => End::TooLarge,
            3 => End::SlowRequest,
            4 => End::KeepAlive,
            5 => End::Protocol,
            6 => End::BodyFailed,
            7 => End::BodyShort,
            8 => End::Asked,
            9 => End::BrokenBody,
            10 => End::UnreadBody,
            11 => End::Drained,
            12 => End::HalfClosed,
            13 => End::InputEnded,
            14 => End::Unasked,
            _ => return None,
        })
    }
}

/// What a moment brings.
#[derive(Clone, Copy, Debug, PartialEq, Eq)]
pub enum Expiry {
    /// Nothing.
    None,

    /// A time has run out, and the connection closes.
    Expired(End),

    /// The peer took too long to read what was to be written: the socket is to be closed.
    Abandoned,
}

/// What a frame is (RFC 6455, section 5).
#[derive(Clone, Copy, Debug, PartialEq, Eq)]
pub enum Opcode {
    /// The last part of a message in fragments.
    Last = 0,
    /// A text.
    Text = 1,
    /// Bytes.
    Binary = 2,
    /// A Close.
    Close = 8,
    /// A Ping.
    Ping = 9,
    /// A Pong.
    Pong = 10,
    /// A part between the first and the last one.
    Continue = 16,
    /// The first part of a text.
    FirstText = 17,
    /// The first part of bytes.
    FirstBinary = 18,
}

impl Opcode {
    pub(crate) fn of(number: u32) -> Opcode {
        match number {
            1 => Opcode::Text,
            2 => Opcode::Binary,
            8 => Opcode::Close,
            9 => Opcode::Ping,
            10 => Opcode::Pong,
            16 => Opcode::Continue,
            17 => Opcode::FirstText,
            18 => Opcode::FirstBinary,
            _ => Opcode::Last,
        }
    }
}

/// A frame of a WebSocket.
#[derive(Clone, Copy, Debug)]
pub struct Frame<'c> {
    /// What it is.
    pub opcode: Opcode,

    /// The code of a Close, 0 for none.
    pub code: u16,

    /// Its payload, without a mask; of a Close the reason.
    pub payload: &'c [u8],
}

/// The numbers of a connection.
#[derive(Clone, Copy, Debug)]
pub struct State {
    /// Why it is to end, where it is.
    pub closing: Option<End>,

    /// How many bytes wait to be written.
    pub buffered: u64,

    /// While it is above 0 another piece of a body may be handed in.
    pub write_room: u64,

    /// How many bytes of the input are held.
    pub held: u64,

    /// How many more may be: a read takes no more.
    pub read_room: u64,

    /// The moment at which a time runs out: tell the time then.
    pub deadline: Option<u64>,

    /// How many requests of a client wait for their answers; of a server 0.
    pub waiting: u32,

    /// Whether another request may be asked once all that was is done.
    pub is_reusable: bool,
}
