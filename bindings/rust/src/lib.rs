//! One side of an HTTP/1.1 connection, and WebSocket, without input or output: [`Server`] and [`Client`].
//!
//! Whoever owns the socket hands in what was read, writes out what [`Server::front`] gives, and tells the time. What a call
//! hands out borrows the connection, so it is gone at the next call. After an error the connection is as it was.
//!
//! ```compile_fail,E0499
//! # let mut server = raspcream::Server::new(&raspcream::Config::default())?;
//! let head = server.next_request()?;
//! server.read(b"more")?; // the head's bytes may move
//! println!("{head:?}");
//! # Ok::<(), raspcream::Error>(())
//! ```
//!
//! A connection may go from thread to thread (`Send`), and isn't shared: each call takes it whole.
//!
//! ```
//! fn is_send<T: Send>() {}
//! is_send::<raspcream::Server>();
//! ```
//!
//! ```compile_fail,E0277
//! fn is_sync<T: Sync>() {}
//! is_sync::<raspcream::Server>();
//! ```
//!
//! ```
//! use raspcream::{Body, Config, Keep, Next, Server, Size};
//!
//! let mut server = Server::new(&Config::default())?;
//! server.tick(1_700_000_000_000)?;
//! server.read(b"GET /hello HTTP/1.1\r\nhost: a\r\n\r\n")?;
//! if let Next::Head(request) = server.next_request()? {
//!     assert_eq!((request.method, request.target), ("GET", &b"/hello"[..]));
//!     assert_eq!(request.body, Body::None);
//! }
//! server.answer(200, &[(b"content-type", b"text/plain")], Size::Bytes(2), Keep::Default)?;
//! server.chunk(b"hi")?;
//! server.end()?;
//! let count = server.front()?.len();
//! server.advance(count)?;
//! # Ok::<(), raspcream::Error>(())
//! ```
#![no_std]
#![warn(missing_docs)]

extern crate alloc;

mod client;
mod event;
mod handle;
mod raw;
mod server;

pub use client::Client;
pub use event::{
    Answer, Body, Broken, End, Error, Expiry, Fault, Frame, Headers, Keep, Next, Opcode, Piece, Request, Size, State,
};
pub use raw::Config;
pub use server::Server;
