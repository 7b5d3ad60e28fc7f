//! Messages between two sockets of one process, and nothing else: one call sends a message, and one takes it.

use std::io::{self, Error, ErrorKind, Read, Write};
use std::net::{TcpListener, TcpStream, UdpSocket};

/// A message of a run has some ten bytes.
const MESSAGE: [u8; 9] = [7; 9];
const ROOM: usize = 1028;

/// So many messages over UDP, there and back in turn.
pub fn udp(messages: u64) -> io::Result<()> {
    let ends = [UdpSocket::bind(("127.0.0.1", 0))?, UdpSocket::bind(("127.0.0.1", 0))?];
    let addresses = [ends[0].local_addr()?, ends[1].local_addr()?];
    let mut room = [0; ROOM];
    for number in 0..messages {
        let (from, to) = ((number % 2) as usize, (1 - number % 2) as usize);
        ends[from].send_to(&MESSAGE, addresses[to])?;
        let (size, sender) = ends[to].recv_from(&mut room)?;
        if size != MESSAGE.len() || sender != addresses[from] {
            return Err(Error::new(ErrorKind::InvalidData, "another datagram came"));
        }
    }
    Ok(())
}

/// So many messages over one connection, there and back in turn, each behind its length in four bytes.
pub fn tcp(messages: u64) -> io::Result<()> {
    let listener = TcpListener::bind(("127.0.0.1", 0))?;
    let there = TcpStream::connect(listener.local_addr()?)?;
    let mut ends = [there, listener.accept()?.0];
    for end in &ends {
        end.set_nodelay(true)?;
    }
    let mut frame = (MESSAGE.len() as u32).to_le_bytes().to_vec();
    frame.extend_from_slice(&MESSAGE);
    let mut room = [0; ROOM];
    for number in 0..messages {
        let (from, to) = ((number % 2) as usize, (1 - number % 2) as usize);
        ends[from].write_all(&frame)?;
        let mut size = 0;
        while size < frame.len() {
            match ends[to].read(&mut room[size..])? {
                0 => return Err(ErrorKind::UnexpectedEof.into()),
                more => size += more,
            }
        }
    }
    Ok(())
}
