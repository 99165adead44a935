//! What is refused: each leaves the connection as it was.
use raspcream::{Client, Config, Error, Keep, Server, Size};
use std::alloc::{GlobalAlloc, Layout, System};
use std::sync::atomic::{AtomicUsize, Ordering};

/// A heap of Rust's that refuses blocks of so many bytes and more.
struct Heap;
static LARGEST: AtomicUsize = AtomicUsize::new(usize::MAX);

// SAFETY: it is the system's, where it gives anything.
unsafe impl GlobalAlloc for Heap {
    unsafe fn alloc(&self, layout: Layout) -> *mut u8 {
        if layout.size() >= LARGEST.load(Ordering::Relaxed) {
            return std::ptr::null_mut();
        }
        unsafe { System.alloc(layout) }
    }
    unsafe fn dealloc(&self, at: *mut u8, layout: Layout) {
        unsafe { System.dealloc(at, layout) }
    }
}

#[global_allocator]
static HEAP: Heap = Heap;

fn asked() -> Server {
    let mut server = Server::new(&Config::default()).unwrap();
    server.tick(1_700_000_000_000).unwrap();
    server.read(b"GET / HTTP/1.1\r\nhost: a\r\n\r\n").unwrap();
    server.next_request().unwrap();
    server
}

#[test]
fn memory_runs_out_where_lines_are_packed() {
    let (mut server, value) = (asked(), vec![b'a'; 1 << 20]);
    LARGEST.store(1 << 20, Ordering::Relaxed);
    let answer = server.answer(200, &[(b"x", &value)], Size::Bytes(0), Keep::Default);
    LARGEST.store(usize::MAX, Ordering::Relaxed);
    assert_eq!(answer, Err(Error::NoMemory));
    server.answer(200, &[(b"x", b"y")], Size::Bytes(0), Keep::Default).unwrap();
    let text = String::from_utf8(server.front().unwrap().to_vec()).unwrap();
    assert!(text.starts_with("HTTP/1.1 200 OK\r\ncontent-length: 0\r\nx: y\r\n"), "{text}");
}

#[test]
fn no_other_length_is_sent_than_the_given_one() {
    for size in [u64::MAX, u64::MAX - 1] {
        let mut client = Client::new(&Config::default()).unwrap();
        let lines: [(&[u8], &[u8]); 1] = [(b"host", b"a")];
        assert_eq!(
            client.ask("POST", b"/", &lines, Size::Bytes(size), Keep::Default),
            Err(Error::Invalid)
        );
        assert_eq!(
            asked().answer(200, &[], Size::Bytes(size), Keep::Default),
            Err(Error::Invalid)
        );
    }
}

#[test]
fn what_no_head_may_have() {
    let mut server = asked();
    for (name, value) in [(&b"x y"[..], &b"a"[..]), (b"", b"a"), (b"x", b"a\r\nb: c"), (b"x", b"\0")] {
        assert_eq!(
            server.answer(200, &[(name, value)], Size::None, Keep::Default),
            Err(Error::Invalid)
        );
    }
    for status in [0, 99, 1000, 1224, u16::MAX] {
        assert_eq!(server.answer(status, &[], Size::None, Keep::Default), Err(Error::Invalid));
    }
    assert_eq!(server.pull().err(), Some(Error::Misplaced));
    assert_eq!(server.advance(1).err(), Some(Error::Invalid));
    server.answer(204, &[], Size::None, Keep::Default).unwrap();
}
