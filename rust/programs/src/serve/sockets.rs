//! Sockets: bound here, or handed in by systemd.

use std::io::{self, IoSlice, IoSliceMut};
use std::net::{IpAddr, SocketAddr, TcpListener, UdpSocket};
use std::os::unix::io::{AsRawFd, RawFd};

use listenfd::ListenFd;
use nix::libc;
use nix::sys::socket::{
    recvmsg, sendmsg, setsockopt, sockopt, ControlMessage, ControlMessageOwned, MsgFlags, SockaddrIn, SockaddrIn6, SockaddrStorage,
};
use socket2::{Domain, Protocol, Socket, Type};

use super::log;

/// How many connections wait to be taken.
const BACKLOG: i32 = 128;

/// A socket of datagrams.
pub enum Datagrams {
    /// At one address.
    Bound(UdpSocket),
    /// At all addresses: each datagram says which one it came to, and its reply comes from there.
    All(UdpSocket),
}

/// From where a reply comes.
#[derive(Clone, Copy)]
pub enum Way {
    Any,
    V4(libc::in_pktinfo),
    V6(libc::in6_pktinfo),
}

fn address_of(from: &SockaddrStorage) -> Option<SocketAddr> {
    let v4 = from.as_sockaddr_in().map(|it| SocketAddr::new(IpAddr::V4(it.ip().into()), it.port()));
    v4.or_else(|| from.as_sockaddr_in6().map(|it| SocketAddr::new(IpAddr::V6(it.ip()), it.port())))
}

impl Datagrams {
    fn new(socket: UdpSocket) -> io::Result<Self> {
        socket.set_nonblocking(true)?;
        let address = socket.local_addr()?;
        if !address.ip().is_unspecified() {
            return Ok(Datagrams::Bound(socket));
        }
        match address {
            SocketAddr::V4(_) => setsockopt(socket.as_raw_fd(), sockopt::Ipv4PacketInfo, &true)?,
            SocketAddr::V6(_) => setsockopt(socket.as_raw_fd(), sockopt::Ipv6RecvPacketInfo, &true)?,
        }
        Ok(Datagrams::All(socket))
    }

    pub fn fd(&self) -> RawFd {
        let (Datagrams::Bound(socket) | Datagrams::All(socket)) = self;
        socket.as_raw_fd()
    }

    pub fn receive(&self, octets: &mut [u8]) -> io::Result<(usize, SocketAddr, Way)> {
        let socket = match self {
            Datagrams::Bound(socket) => return socket.recv_from(octets).map(|(len, from)| (len, from, Way::Any)),
            Datagrams::All(socket) => socket,
        };
        let mut room = nix::cmsg_space!(libc::in6_pktinfo);
        let mut parts = [IoSliceMut::new(octets)];
        let it = recvmsg::<SockaddrStorage>(socket.as_raw_fd(), &mut parts, Some(&mut room), MsgFlags::empty())?;
        // The way back is any: only the address is said.
        let way = it.cmsgs().find_map(|it| match it {
            ControlMessageOwned::Ipv4PacketInfo(info) => Some(Way::V4(libc::in_pktinfo { ipi_ifindex: 0, ..info })),
            ControlMessageOwned::Ipv6PacketInfo(info) => Some(Way::V6(libc::in6_pktinfo { ipi6_ifindex: 0, ..info })),
            _ => None,
        });
        let from = it.address.as_ref().and_then(address_of).ok_or(io::ErrorKind::InvalidData)?;
        Ok((it.bytes, from, way.unwrap_or(Way::Any)))
    }

    pub fn send(&self, octets: &[u8], to: SocketAddr, way: Way) {
        // What is not sent is lost, as datagrams are.
        let _ = match self {
            Datagrams::Bound(socket) => socket.send_to(octets, to).map(drop),
            Datagrams::All(socket) => send_by(socket.as_raw_fd(), octets, to, way).map_err(io::Error::from),
        };
    }
}

fn send_by(fd: RawFd, octets: &[u8], to: SocketAddr, way: Way) -> nix::Result<()> {
    let parts = [IoSlice::new(octets)];
    let control = match &way {
        Way::Any => None,
        Way::V4(info) => Some(ControlMessage::Ipv4PacketInfo(info)),
        Way::V6(info) => Some(ControlMessage::Ipv6PacketInfo(info)),
    };
    let control = control.as_slice_or_empty();
    match to {
        SocketAddr::V4(to) => sendmsg(fd, &parts, control, MsgFlags::empty(), Some(&SockaddrIn::from(to))),
        SocketAddr::V6(to) => sendmsg(fd, &parts, control, MsgFlags::empty(), Some(&SockaddrIn6::from(to))),
    }
    .map(drop)
}

/// An option as a slice.
trait AsSlice<T> {
    fn as_slice_or_empty(&self) -> &[T];
}

impl<T> AsSlice<T> for Option<T> {
    fn as_slice_or_empty(&self) -> &[T] {
        self.as_ref().map_or(&[], std::slice::from_ref)
    }
}

/// All that requests come by: sockets of datagrams for each slot, and listeners.
pub struct Sockets {
    pub slots: Vec<Vec<Datagrams>>,
    pub listeners: Vec<TcpListener>,
}

/// Ends the start: a socket cannot be had.
fn unbound(address: SocketAddr, what: &str, error: &io::Error) {
    log::failure(format!("{address} by {what}"), error).write();
}

fn socket(address: SocketAddr, kind: Type, protocol: Protocol, is_shared: bool) -> io::Result<Socket> {
    let socket = Socket::new(Domain::for_address(address), kind, Some(protocol))?;
    socket.set_nonblocking(true)?;
    if address.is_ipv6() {
        socket.set_only_v6(true)?;
    }
    if kind == Type::STREAM {
        socket.set_reuse_address(true)?;
    }
    if is_shared {
        setsockopt(socket.as_raw_fd(), sockopt::ReusePort, &true)?;
    }
    socket.bind(&address.into())?;
    Ok(socket)
}

fn datagrams(address: SocketAddr, is_shared: bool) -> io::Result<Datagrams> {
    Datagrams::new(socket(address, Type::DGRAM, Protocol::UDP, is_shared)?.into())
}

fn listener(address: SocketAddr, is_shared: bool) -> io::Result<TcpListener> {
    let socket = socket(address, Type::STREAM, Protocol::TCP, is_shared)?;
    socket.listen(BACKLOG)?;
    Ok(socket.into())
}

/// Binds sockets at addresses. Several of one address share it, as those of other processes do where they are to; else an address that
/// somebody has is refused.
pub fn bind(addresses: &[SocketAddr], slots: usize, is_shared: bool) -> Option<Sockets> {
    let mut sockets = Sockets { slots: (0..slots).map(|_| Vec::new()).collect(), listeners: Vec::new() };
    for address in addresses {
        let free = if is_shared { Ok(()) } else { datagrams(*address, false).map(drop) };
        let bound: io::Result<Vec<_>> = free.and_then(|()| (0..slots).map(|_| datagrams(*address, is_shared || slots > 1)).collect());
        match (bound, listener(*address, is_shared)) {
            (Ok(bound), Ok(listener)) => {
                sockets.slots.iter_mut().zip(bound).for_each(|(slot, it)| slot.push(it));
                sockets.listeners.push(listener);
            }
            (Err(error), _) => return unbound_none(*address, "UDP", &error),
            (_, Err(error)) => return unbound_none(*address, "TCP", &error),
        }
    }
    Some(sockets)
}

fn unbound_none(address: SocketAddr, what: &str, error: &io::Error) -> Option<Sockets> {
    unbound(address, what, error);
    None
}

/// The sockets that were handed in (sd_listen_fds(3)), if any were: those of datagrams go to the slots in turns.
pub fn handed_in(slots: usize) -> io::Result<Option<Sockets>> {
    let mut handed = ListenFd::from_env();
    if handed.len() == 0 {
        return Ok(None);
    }
    let mut sockets = Sockets { slots: (0..slots).map(|_| Vec::new()).collect(), listeners: Vec::new() };
    let mut count = 0;
    for at in 0..handed.len() {
        if let Ok(Some(listener)) = handed.take_tcp_listener(at) {
            listener.set_nonblocking(true)?;
            sockets.listeners.push(listener);
        } else if let Some(socket) = handed.take_udp_socket(at)? {
            sockets.slots[count % slots].push(Datagrams::new(socket)?);
            count += 1;
        }
    }
    Ok(Some(sockets))
}
