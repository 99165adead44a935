//! A client's side.
use crate::event::{Answer, Error, Keep, Next, Piece, Size, State};
use crate::handle::{self, both, Handle};
use crate::raw::Config;

/// A client's side of a connection.
pub struct Client(Handle);

both!(Client);

impl Client {
    /// A connection to which nothing has happened. `Invalid`: none has such settings.
    pub fn new(config: &Config) -> Result<Client, Error> {
        Handle::new(config, true).map(Client)
    }

    /// The time, in milliseconds after the start of 1970: requests are dated by it.
    pub fn tick(&mut self, moment: u64) -> Result<(), Error> {
        self.0.call(handle::TICK, moment, &[]).map(|_| ())
    }

    /// Asks a request of HTTP/1.1. The lengths, `connection` and `date` are written by the library.
    pub fn ask(&mut self, method: &str, target: &[u8], lines: &[(&[u8], &[u8])], size: Size, keep: Keep) -> Result<(), Error> {
        let op = handle::HEAD | ((keep as u32) << 10) << 8;
        self.0
            .call_packed(op, size.number()?, Some((method.as_bytes(), target)), lines)
    }

    /// The next answer.
    pub fn next_answer(&mut self) -> Result<Next<Answer<'_>>, Error> {
        let event = self.0.call(handle::NEXT, 0, &[])?;
        Ok(match event.kind {
            2 => Next::Head(Answer {
                status: event.reason as u16,
                // SAFETY: the head stands until the next one.
                reason: unsafe { event.method.bytes() },
                minor: event.minor as u8,
                body: handle::body(event),
                headers: handle::headers(event),
            }),
            3 => Next::Fault(handle::fault(event)),
            5 => Next::Closed(handle::end(event)),
            _ => Next::Pending,
        })
    }
}
