//! hyper 0.14 over the same requests: embed_hyper WORK FILE DEPTH COUNT. It parses and answers, and pulls a body. Reads and
//! writes go to memory, and nothing else runs.
use hyper::body::HttpBody;
use hyper::{server::conn::Http, service::service_fn, Body, Request, Response};
use std::sync::atomic::{AtomicUsize, Ordering};
use std::task::{Context, Poll};
use std::{convert::Infallible, future::Future, io, pin::Pin};
use tokio::io::{AsyncRead, AsyncWrite, ReadBuf};

static SUM: AtomicUsize = AtomicUsize::new(0);

/// The same text comes so many times.
struct Peer {
    text: Vec<u8>,
    at: usize,
    left: usize,
}

impl AsyncRead for Peer {
    fn poll_read(mut self: Pin<&mut Self>, _: &mut Context<'_>, to: &mut ReadBuf<'_>) -> Poll<io::Result<()>> {
        if self.left > 0 {
            let count = to.remaining().min(self.text.len() - self.at);
            to.put_slice(&self.text[self.at..self.at + count]);
            self.at += count;
            if self.at == self.text.len() {
                self.at = 0;
                self.left -= 1;
            }
        }
        Poll::Ready(Ok(()))
    }
}

impl AsyncWrite for Peer {
    fn poll_write(self: Pin<&mut Self>, _: &mut Context<'_>, bytes: &[u8]) -> Poll<io::Result<usize>> {
        SUM.fetch_add(bytes.len(), Ordering::Relaxed);
        Poll::Ready(Ok(bytes.len()))
    }

    fn poll_flush(self: Pin<&mut Self>, _: &mut Context<'_>) -> Poll<io::Result<()>> {
        Poll::Ready(Ok(()))
    }

    fn poll_shutdown(self: Pin<&mut Self>, _: &mut Context<'_>) -> Poll<io::Result<()>> {
        Poll::Ready(Ok(()))
    }
}

async fn answer(request: Request<Body>) -> Result<Response<Body>, Infallible> {
    let (head, mut body) = request.into_parts();
    let mut size = head.method.as_str().len() + head.uri.path().len();
    for (name, value) in &head.headers {
        size += name.as_str().len() + value.len();
    }
    while let Some(Ok(piece)) = body.data().await {
        size += piece.len();
    }
    SUM.fetch_add(size, Ordering::Relaxed);
    Ok(Response::new(Body::empty()))
}

fn main() {
    let words: Vec<String> = std::env::args().collect();
    let (depth, count): (usize, usize) = (words[3].parse().unwrap(), words[4].parse().unwrap());
    let text = std::fs::read(&words[2]).unwrap().repeat(depth);
    let peer = Peer { text, at: 0, left: count / depth };
    let mut connection = Http::new().http1_only(true).serve_connection(peer, service_fn(answer));
    let waker = futures_util::task::noop_waker();
    let mut turns = 0;
    while Pin::new(&mut connection).poll(&mut Context::from_waker(&waker)).is_pending() {
        turns += 1;
        assert!(turns < 100 * count, "it goes on without an end");
    }
    println!("{}", SUM.load(Ordering::Relaxed));
}
