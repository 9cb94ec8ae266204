//! UDP on loopback, without waiting.

use std::io;
use std::net::{Ipv4Addr, SocketAddr, UdpSocket};

/// Longer than any datagram of this program, so that none is cut.
pub const BUFFER_BYTES: usize = 2048;

/// A socket on a free port of 127.0.0.1, with its address.
pub fn loopback() -> io::Result<(UdpSocket, SocketAddr)> {
    let socket = UdpSocket::bind((Ipv4Addr::LOCALHOST, 0))?;
    socket.set_nonblocking(true)?;
    let address = socket.local_addr()?;
    Ok((socket, address))
}

/// The next datagram that is there, if one is: its length and its sender.
pub fn receive(socket: &UdpSocket, buffer: &mut [u8]) -> io::Result<Option<(usize, SocketAddr)>> {
    match socket.recv_from(buffer) {
        Ok(received) => Ok(Some(received)),
        Err(error) if error.kind() == io::ErrorKind::WouldBlock => Ok(None),
        Err(error) => Err(error),
    }
}
