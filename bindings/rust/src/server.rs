//! A server's side.
use crate::event::{Error, Expiry, Frame, Keep, Next, Opcode, Piece, Request, Size, State};
use crate::handle::{self, both, Handle};
use crate::raw::Config;

/// A server's side of a connection.
pub struct Server(Handle);

both!(Server);

impl Server {
    /// A connection to which nothing has come. `Invalid`: none has such settings.
    pub fn new(config: &Config) -> Result<Server, Error> {
        Handle::new(config, false).map(Server)
    }

    /// The time, in milliseconds after the start of 1970. Tell it before the first answer, which is dated by it.
    pub fn tick(&mut self, moment: u64) -> Result<Expiry, Error> {
        let event = self.0.call(handle::TICK, moment, &[])?;
        Ok(match event.kind {
            11 => Expiry::Expired(handle::end(event)),
            12 => Expiry::Abandoned,
            _ => Expiry::None,
        })
    }

    /// The next request. Where the connection closes, all is to be written first.
    pub fn next_request(&mut self) -> Result<Next<Request<'_>>, Error> {
        let event = self.0.call(handle::NEXT, 0, &[])?;
        Ok(match event.kind {
            2 => Next::Head(Request {
                // SAFETY: the head stands until the next one.
                method: core::str::from_utf8(unsafe { event.method.bytes() }).unwrap_or_default(),
                target: unsafe { event.target.bytes() },
                minor: event.minor as u8,
                body: handle::body(event),
                headers: handle::headers(event),
            }),
            3 => Next::Fault(handle::fault(event)),
            5 => Next::Closed(handle::end(event)),
            _ => Next::Pending,
        })
    }

    /// How many heads stand ahead of the one that was handed out last, 16 at most; none behind a request with a body. Each is read
    /// for it, which may want memory.
    pub fn ahead(&mut self) -> Result<usize, Error> {
        self.0.call(handle::AHEAD, 0, &[]).map(|event| event.number as usize)
    }

    /// Tells the client of the open request to go on with its body. `Misplaced`: it doesn't wait for that.
    pub fn send_continue(&mut self) -> Result<(), Error> {
        self.0.done(handle::CONTINUE)
    }

    /// Answers the open request. The lengths, `connection` and `date` are written by the library.
    pub fn answer(&mut self, status: u16, lines: &[(&[u8], &[u8])], size: Size, keep: Keep) -> Result<(), Error> {
        if status > 999 {
            return Err(Error::Invalid);
        }
        let op = handle::HEAD | (u32::from(status) | (keep as u32) << 10) << 8;
        self.0.call_packed(op, size.number()?, None, lines)
    }

    /// No further request is answered.
    pub fn drain(&mut self) -> Result<(), Error> {
        self.0.done(handle::DRAIN)
    }

    /// Upgrades the open request to WebSocket, of whose frames none may have a payload of more than `limit` bytes. False where
    /// it fails a check: it is still to be answered.
    pub fn accept(&mut self, limit: usize) -> Result<bool, Error> {
        self.0.call(handle::ACCEPT, limit as u64, &[]).map(|event| event.kind == 0)
    }

    /// The next frame, or the number of the rule that is broken, as the header names them.
    pub fn frame(&mut self) -> Result<Result<Option<Frame<'_>>, u32>, Error> {
        let event = self.0.call(handle::FRAME, 0, &[])?;
        Ok(match event.kind {
            13 => Ok(Some(Frame {
                opcode: Opcode::of(event.minor),
                code: event.number as u16,
                // SAFETY: the payload stands until the next frame.
                payload: unsafe { event.bytes.bytes() },
            })),
            14 => Err(event.reason),
            _ => Ok(None),
        })
    }

    /// Sends a frame, or tells the number of the rule that it would break.
    pub fn send(&mut self, opcode: Opcode, code: u16, payload: &[u8]) -> Result<Result<(), u32>, Error> {
        let event = self.0.call(handle::SEND | (opcode as u32) << 8, u64::from(code), payload)?;
        Ok(if event.kind == 14 { Err(event.reason) } else { Ok(()) })
    }
}
