//! A server with a thread for each connection: `cargo run --example serve -- 8080`.
use raspcream::{Body, Config, Error, Keep, Next, Piece, Server, Size};
use std::io::{Read, Write};
use std::net::{TcpListener, TcpStream};
use std::time::{SystemTime, UNIX_EPOCH};

fn now() -> u64 {
    SystemTime::now()
        .duration_since(UNIX_EPOCH)
        .map_or(0, |since| since.as_millis() as u64)
}

fn write_out(server: &mut Server, socket: &mut TcpStream) -> std::io::Result<()> {
    loop {
        let bytes = server.front().map_err(std::io::Error::other)?;
        if bytes.is_empty() {
            return Ok(());
        }
        let count = socket.write(bytes)?;
        server.advance(count).map_err(std::io::Error::other)?;
    }
}

fn read_more(server: &mut Server, socket: &mut TcpStream) -> std::io::Result<()> {
    let mut room = [0; 8192];
    let count = socket.read(&mut room)?;
    server.tick(now()).map_err(std::io::Error::other)?;
    match count {
        0 => server.eof().map_err(std::io::Error::other),
        _ => server.read(&room[..count]).map(|_| ()).map_err(std::io::Error::other),
    }
}

/// Reads the body, and says how many bytes it has.
fn body_size(server: &mut Server, socket: &mut TcpStream) -> std::io::Result<usize> {
    let mut size = 0;
    loop {
        match server.pull().map_err(std::io::Error::other)? {
            Piece::Bytes(bytes) => size += bytes.len(),
            Piece::Trailers(_) => {}
            Piece::End => return Ok(size),
            Piece::Broken(_) => return Err(std::io::ErrorKind::InvalidData.into()),
            Piece::Pending => {
                write_out(server, socket)?;
                read_more(server, socket)?;
            }
        }
    }
}

fn answer(server: &mut Server, text: &str) -> Result<(), Error> {
    server.answer(
        200,
        &[(b"content-type", b"text/plain")],
        Size::Bytes(text.len() as u64),
        Keep::Default,
    )?;
    server.chunk(text.as_bytes())?;
    server.end()
}

fn serve(mut socket: TcpStream) -> std::io::Result<()> {
    let mut server = Server::new(&Config::default()).map_err(std::io::Error::other)?;
    server.tick(now()).map_err(std::io::Error::other)?;
    loop {
        write_out(&mut server, &mut socket)?;
        let (mut text, has_body) = match server.next_request().map_err(std::io::Error::other)? {
            Next::Head(request) => {
                let target = String::from_utf8_lossy(request.target);
                (format!("{} {target}", request.method), request.body != Body::None)
            }
            Next::Fault(_) => continue,
            Next::Closed(_) => return Ok(()),
            Next::Pending => {
                read_more(&mut server, &mut socket)?;
                continue;
            }
        };
        if has_body {
            // The client may wait for it.
            let _ = server.send_continue();
            text.push_str(&format!(" {}", body_size(&mut server, &mut socket)?));
        }
        text.push('\n');
        answer(&mut server, &text).map_err(std::io::Error::other)?;
    }
}

fn main() -> std::io::Result<()> {
    let port = std::env::args().nth(1).and_then(|word| word.parse().ok()).unwrap_or(8080);
    for socket in TcpListener::bind(("127.0.0.1", port))?.incoming() {
        let socket = socket?;
        std::thread::spawn(move || serve(socket));
    }
    Ok(())
}
