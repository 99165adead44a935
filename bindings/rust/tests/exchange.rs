//! Exchanges, through the crate's public calls.
use raspcream::{Body, Broken, Client, Config, End, Error, Fault, Keep, Next, Opcode, Piece, Server, Size};

fn server() -> Server {
    let mut server = Server::new(&Config::default()).unwrap();
    server.tick(1_700_000_000_000).unwrap();
    server
}

fn written(server: &mut Server) -> Vec<u8> {
    let mut all = Vec::new();
    loop {
        let bytes = server.front().unwrap().to_vec();
        if bytes.is_empty() {
            return all;
        }
        server.advance(bytes.len()).unwrap();
        all.extend(bytes);
    }
}

#[test]
fn a_request_is_answered() {
    let mut server = server();
    let text = b"POST /p HTTP/1.1\r\nHost: a\r\nContent-Length: 5\r\n\r\nhello";
    assert_eq!(server.read(text), Ok(text.len()));
    match server.next_request().unwrap() {
        Next::Head(request) => {
            assert_eq!((request.method, request.target, request.minor), ("POST", &b"/p"[..], 1));
            assert_eq!(request.body, Body::Length(5));
            assert_eq!(request.headers.get("host"), Some(&b"a"[..]));
            assert_eq!(request.headers.len(), 2);
        }
        other => panic!("{other:?}"),
    }
    assert!(matches!(server.pull(), Ok(Piece::Bytes(b"hello"))));
    assert!(matches!(server.pull(), Ok(Piece::End)));
    server.answer(200, &[], Size::Bytes(2), Keep::Default).unwrap();
    server.chunk(b"hi").unwrap();
    server.end().unwrap();
    let text = written(&mut server);
    assert_eq!(
        text,
        b"HTTP/1.1 200 OK\r\ncontent-length: 2\r\ndate: Tue, 14 Nov 2023 22:13:20 GMT\r\n\r\nhi"
    );
}

#[test]
fn chunks_and_trailers_come_byte_by_byte() {
    let mut server = server();
    let mut body = Vec::new();
    let mut sum = None;
    let mut is_open = false;
    for byte in b"POST / HTTP/1.1\r\nTransfer-Encoding: chunked\r\n\r\n3\r\nabc\r\n0\r\nX-Sum: 3\r\n\r\n" {
        server.read(&[*byte]).unwrap();
        is_open = is_open || matches!(server.next_request(), Ok(Next::Head(request)) if request.body == Body::Chunked);
        if is_open {
            match server.pull() {
                Ok(Piece::Bytes(bytes)) => body.extend_from_slice(bytes),
                Ok(Piece::Trailers(lines)) => sum = lines.get("x-sum").map(<[u8]>::to_vec),
                Ok(Piece::Pending) => {}
                other => panic!("{other:?}"),
            }
        }
    }
    assert!(matches!(server.pull(), Ok(Piece::End)));
    assert_eq!((body, sum), (b"abc".to_vec(), Some(b"3".to_vec())));
}

#[test]
fn wrong_calls_change_nothing() {
    let mut server = server();
    assert_eq!(server.answer(200, &[], Size::None, Keep::Default), Err(Error::Misplaced));
    assert_eq!(server.advance(1), Err(Error::Invalid));
    server.read(b"GET / HTTP/1.1\r\nHost: a\r\n\r\n").unwrap();
    assert!(matches!(server.next_request(), Ok(Next::Head(_))));
    assert_eq!(
        server.answer(200, &[(b"x", b"a\r\nb: c")], Size::None, Keep::Default),
        Err(Error::Invalid)
    );
    assert_eq!(server.answer(1000, &[], Size::None, Keep::Default), Err(Error::Invalid));
    assert!(matches!(server.pull(), Err(Error::Misplaced)));
    server.answer(204, &[], Size::None, Keep::Default).unwrap();
}

#[test]
fn a_malformed_head_is_answered_by_the_library() {
    let mut server = server();
    server.read(b"GET / HTTP/1.1\r\nbad line\r\n\r\n").unwrap();
    assert!(matches!(server.next_request(), Ok(Next::Fault(Fault::Malformed))));
    assert!(written(&mut server).starts_with(b"HTTP/1.1 400 "));
    assert!(matches!(server.next_request(), Ok(Next::Closed(End::Malformed))));
}

#[test]
fn a_body_may_end_too_early() {
    let mut server = server();
    server
        .read(b"POST / HTTP/1.1\r\nHost: a\r\nContent-Length: 9\r\n\r\nabc")
        .unwrap();
    assert!(matches!(server.next_request(), Ok(Next::Head(_))));
    assert!(matches!(server.pull(), Ok(Piece::Bytes(b"abc"))));
    server.eof().unwrap();
    assert!(matches!(server.pull(), Ok(Piece::Broken(Broken::Incomplete))));
}

#[test]
fn what_is_behind_an_upgrade_is_held() {
    let mut server = server();
    server.read(b"CONNECT a:1 HTTP/1.1\r\nHost: a:1\r\n\r\nleft over").unwrap();
    assert!(matches!(server.next_request(), Ok(Next::Head(request)) if request.body == Body::Raw));
    assert_eq!(server.held(0), Ok(&b"left over"[..]));
    assert_eq!(server.held(5), Ok(&b"over"[..]));
    assert_eq!(server.held(100), Ok(&b""[..]));
    assert_eq!(server.state().unwrap().held, 9);
}

#[test]
fn heads_ahead_are_counted() {
    let mut server = server();
    assert_eq!(server.ahead(), Ok(0));
    server
        .read(b"GET /1 HTTP/1.1\r\nHost: a\r\n\r\nGET /2 HTTP/1.1\r\nHost: a\r\n\r\nGET /3 HTTP/1.1\r\nHost: a\r\n\r\nPOST")
        .unwrap();
    assert!(matches!(server.next_request(), Ok(Next::Head(_))));
    assert_eq!(server.ahead(), Ok(2));
    assert_eq!(server.state().unwrap().waiting, 0);
}

#[test]
fn a_websocket_echoes() {
    let mut server = server();
    server
        .read(b"GET / HTTP/1.1\r\nHost: a\r\nUpgrade: websocket\r\nConnection: Upgrade\r\nSec-WebSocket-Key: dGhlIHNhbXBsZSBub25jZQ==\r\nSec-WebSocket-Version: 13\r\n\r\n")
        .unwrap();
    assert!(matches!(server.next_request(), Ok(Next::Head(_))));
    assert_eq!(server.accept(1000), Ok(true));
    let text = String::from_utf8(written(&mut server)).unwrap();
    assert!(text.starts_with("HTTP/1.1 101 ") && text.contains("s3pPLMBiTxaQ9kYGzzhZRbK+xOo="));
    // RFC 6455, section 5.7
    server.read(b"\x81\x85\x37\xfa\x21\x3d\x7f\x9f\x4d\x51\x58").unwrap();
    match server.frame().unwrap() {
        Ok(Some(frame)) => assert_eq!((frame.opcode, frame.payload), (Opcode::Text, &b"Hello"[..])),
        other => panic!("{other:?}"),
    }
    assert_eq!(server.send(Opcode::Text, 0, b"Hello"), Ok(Ok(())));
    assert_eq!(written(&mut server), b"\x81\x05Hello");
}

#[test]
fn a_client_asks() {
    let mut client = Client::new(&Config::default()).unwrap();
    client
        .ask("GET", b"/x", &[(b"host", b"a")], Size::None, Keep::Default)
        .unwrap();
    assert!(client.front().unwrap().starts_with(b"GET /x HTTP/1.1\r\n"));
    let count = client.front().unwrap().len();
    client.advance(count).unwrap();
    client.read(b"HTTP/1.1 404 Nowhere\r\nContent-Length: 2\r\n\r\nno").unwrap();
    match client.next_answer().unwrap() {
        Next::Head(answer) => {
            assert_eq!(
                (answer.status, answer.reason, answer.body),
                (404, &b"Nowhere"[..], Body::Length(2))
            );
        }
        other => panic!("{other:?}"),
    }
    assert!(matches!(client.pull(), Ok(Piece::Bytes(b"no"))));
    assert!(matches!(client.pull(), Ok(Piece::End)));
    assert!(client.state().unwrap().is_reusable);
}

#[test]
fn a_connection_goes_from_thread_to_thread() {
    let mut server = server();
    let count = std::thread::spawn(move || server.read(b"GET").unwrap()).join().unwrap();
    assert_eq!(count, 3);
}
