//! A client and a server that are driven against each other in memory: `cargo run --example both`.
use raspcream::{Client, Config, Error, Keep, Next, Piece, Server, Size};

/// Hands what one side has to write to the other.
fn hand(from: impl FnOnce() -> Result<Vec<u8>, Error>, to: impl FnOnce(&[u8]) -> Result<usize, Error>) -> Result<(), Error> {
    let bytes = from()?;
    to(&bytes)?;
    Ok(())
}

fn taken(client: &mut Client) -> Result<Vec<u8>, Error> {
    let bytes = client.front()?.to_vec();
    client.advance(bytes.len())?;
    Ok(bytes)
}

fn given(server: &mut Server) -> Result<Vec<u8>, Error> {
    let bytes = server.front()?.to_vec();
    server.advance(bytes.len())?;
    Ok(bytes)
}

fn main() -> Result<(), Error> {
    let mut server = Server::new(&Config::default())?;
    let mut client = Client::new(&Config::default())?;
    server.tick(1_700_000_000_000)?;
    client.ask("POST", b"/a?b", &[(b"host", b"x")], Size::Bytes(5), Keep::Default)?;
    client.chunk(b"hello")?;
    client.end()?;
    hand(|| taken(&mut client), |bytes| server.read(bytes))?;
    if let Next::Head(request) = server.next_request()? {
        println!(
            "{} {} {:?}",
            request.method,
            String::from_utf8_lossy(request.target),
            request.headers.get("host")
        );
    }
    while let Piece::Bytes(bytes) = server.pull()? {
        println!("{}", String::from_utf8_lossy(bytes));
    }
    server.answer(201, &[(b"content-type", b"text/plain")], Size::Stream, Keep::Default)?;
    server.chunk(b"made")?;
    server.end()?;
    hand(|| given(&mut server), |bytes| client.read(bytes))?;
    if let Next::Head(answer) = client.next_answer()? {
        println!("{}", answer.status);
    }
    while let Piece::Bytes(bytes) = client.pull()? {
        println!("{}", String::from_utf8_lossy(bytes));
    }
    Ok(())
}
