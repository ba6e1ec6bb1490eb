//! A client of pathd in one file, without a library: it registers the worked segment of
//! docs/PROTOCOL.md, made now, and looks it up.
//!
//!     rustc clients/rust/client.rs -o /tmp/client && /tmp/client 127.0.0.1:30252
//!
//! At a server with the core AS 1-ff00:0:110 and an empty store it prints
//!
//! ```text
//! registered at place 0: 1 inserted, 0 updated, 0 kept
//! found 96 bytes of segments
//! ```
use std::io::{Error, ErrorKind, Read, Result, Write};
use std::net::TcpStream;
use std::time::{Duration, SystemTime};

/// Sends a request, and returns the body of its reply. A refusal is an error.
fn ask(server: &mut TcpStream, kind: u8, body: &[u8]) -> Result<Vec<u8>> {
    let mut frame = (1 + body.len() as u32).to_be_bytes().to_vec();
    frame.push(kind);
    frame.extend_from_slice(body);
    server.write_all(&frame)?;
    let (mut length, mut replied) = ([0; 4], [0]);
    server.read_exact(&mut length)?;
    server.read_exact(&mut replied)?;
    let mut reply = vec![0; u32::from_be_bytes(length).saturating_sub(1) as usize];
    server.read_exact(&mut reply)?;
    match replied[0] {
        0xff => Err(fault(format!("refused: {reply:02x?}"))),
        other if other == kind | 0x80 => Ok(reply),
        other => Err(fault(format!("a reply of kind {other:02x}"))),
    }
}

fn fault(text: String) -> Error {
    Error::new(ErrorKind::InvalidData, text)
}

/// The bytes that hexadecimal digits are.
fn bytes(digits: &str) -> Vec<u8> {
    let pairs = digits.as_bytes().chunks(2);
    pairs
        .map(|pair| u8::from_str_radix(std::str::from_utf8(pair).unwrap(), 16).unwrap())
        .collect()
}

/// The number that big-endian bytes are.
fn number(bytes: &[u8]) -> u64 {
    bytes.iter().fold(0, |above, byte| above << 8 | u64::from(*byte))
}

/// The seconds since 1970 as a varint of protobuf, which has five bytes until the year 3058.
fn now() -> Vec<u8> {
    let clock = SystemTime::now().duration_since(SystemTime::UNIX_EPOCH);
    let seconds = clock.expect("the clock is before 1970").as_secs();
    let part = |number: u32| (seconds >> (7 * number) & 0x7f) as u8;
    vec![0x80 | part(0), 0x80 | part(1), 0x80 | part(2), 0x80 | part(3), part(4)]
}

/// A SegmentsRegistrationRequest with the worked segment as a down segment.
fn registration() -> Vec<u8> {
    let before = bytes("0a5e0802125a0a580a0808");
    let after = bytes(concat!(
        "100712290a270a251223089082808080e07f109182808080e07f1a0e0a0c1001183f220601020304050628",
        "c00b12210a1f0a1d121b089182808080e07f1a0e0a0c0802183f22060a0b0c0d0e0f28c00b",
    ));
    [before, now(), after].concat()
}

fn main() -> Result<()> {
    let address = std::env::args().nth(1).unwrap_or("127.0.0.1:30252".into());
    let mut server = TcpStream::connect(address)?;
    server.set_read_timeout(Some(Duration::from_secs(30)))?;
    let reply = ask(&mut server, 0x01, &registration())?;
    println!(
        "registered at place {}: {} inserted, {} updated, {} kept",
        number(&reply[..8]), number(&reply[8..12]), number(&reply[12..16]), number(&reply[16..20]),
    );
    // From 1-ff00:0:110 to 1-ff00:0:111.
    let sides = bytes("089082808080e07f109182808080e07f");
    let found = ask(&mut server, 0x02, &sides)?;
    println!("found {} bytes of segments", found.len());
    Ok(())
}
