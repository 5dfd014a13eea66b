//! The connection of a cabinet: whole PDUs over TCP on loopback.

use std::fs;
use std::io::{self, ErrorKind, Read, Write};
use std::net::{Ipv4Addr, Shutdown, SocketAddr, TcpListener, TcpStream};
use std::os::unix::process::parent_id;
use std::path::Path;
use std::time::Duration;
use support::wire::{self, Arrived};

const PATIENCE: Duration = Duration::from_millis(2);
const WRITE_LIMIT: Duration = Duration::from_secs(2);

/// An open connection.
pub struct Link {
    stream: TcpStream,
    arrived: Arrived,
}

impl Link {
    fn new(stream: TcpStream) -> io::Result<Self> {
        stream.set_nonblocking(false)?;
        stream.set_nodelay(true)?;
        stream.set_read_timeout(Some(PATIENCE))?;
        stream.set_write_timeout(Some(WRITE_LIMIT))?;
        Ok(Link { stream, arrived: Arrived::default() })
    }

    /// Sends messages in one PDU.
    pub fn send(&mut self, lsr: u32, messages: &[Vec<u8>]) -> io::Result<()> {
        self.stream.write_all(&wire::pdu(lsr, messages))
    }

    /// The next whole PDU, if one has arrived.
    pub fn receive(&mut self) -> io::Result<Option<Vec<u8>>> {
        if let Some(pdu) = self.arrived.next_pdu() {
            return Ok(Some(pdu.to_vec()));
        }
        let mut bytes = [0; 4096];
        match self.stream.read(&mut bytes) {
            Ok(0) => Err(ErrorKind::ConnectionReset.into()),
            Ok(length) => {
                self.arrived.add(&bytes[..length]);
                Ok(self.arrived.next_pdu().map(<[u8]>::to_vec))
            }
            Err(error) if matches!(error.kind(), ErrorKind::WouldBlock | ErrorKind::TimedOut) => Ok(None),
            Err(error) => Err(error),
        }
    }

    /// Cuts the connection in both directions.
    pub fn cut(&self) {
        // A connection that the other end has closed already is as good as cut.
        let _ = self.stream.shutdown(Shutdown::Both);
    }
}

/// How a cabinet comes to a connection: one of the two listens, the other connects.
pub enum Way {
    Listen(TcpListener),
    Connect,
}

impl Way {
    /// Listens on a port that the system chooses, and writes it to a file for the other cabinet.
    pub fn listen(port_file: &Path) -> io::Result<Self> {
        let listener =
            TcpListener::bind((own_loopback(), 0)).or_else(|_| TcpListener::bind((Ipv4Addr::LOCALHOST, 0)))?;
        listener.set_nonblocking(true)?;
        let unfinished = port_file.with_extension("new");
        fs::write(&unfinished, listener.local_addr()?.to_string())?;
        fs::rename(&unfinished, port_file)?;
        Ok(Way::Listen(listener))
    }

    /// A new connection, if there is one to be had now.
    pub fn connection(&self, port_file: &Path) -> Option<Link> {
        let stream = match self {
            Way::Listen(listener) => latest(listener)?,
            Way::Connect => {
                let address: SocketAddr = fs::read_to_string(port_file).ok()?.parse().ok()?;
                TcpStream::connect(address).ok()?
            }
        };
        Link::new(stream).ok()
    }
}

/// A loopback address of this pair alone, by its supervisor: the port of a cabinet that was killed may soon be another
/// pair's, and its peer tries it once more before it knows the new one.
fn own_loopback() -> Ipv4Addr {
    let [_, b, c, d] = parent_id().to_be_bytes();
    Ipv4Addr::new(127, b, c, d)
}

/// The newest of the connections that wait; older ones have been given up by the other end.
fn latest(listener: &TcpListener) -> Option<TcpStream> {
    let waiting = std::iter::from_fn(|| listener.accept().ok());
    waiting.take(100).last().map(|(stream, _)| stream)
}
