//! Captures of packets, as tcpdump -w writes them: DNS messages from port 53, by UDP and by TCP.

use std::collections::BTreeMap;

use super::forms::FormError;

const PORT: u16 = 53;
const UDP: u8 = 17;
const TCP: u8 = 6;

/// How numbers stand: by the first four octets of the file.
fn is_little(octets: &[u8]) -> Option<bool> {
    match octets.get(..4)? {
        [0xd4, 0xc3, 0xb2, 0xa1] | [0x4d, 0x3c, 0xb2, 0xa1] => Some(true),
        [0xa1, 0xb2, 0xc3, 0xd4] | [0xa1, 0xb2, 0x3c, 0x4d] => Some(false),
        _ => None,
    }
}

/// Whether octets begin as a capture does.
pub fn is_pcap(octets: &[u8]) -> bool {
    is_little(octets).is_some()
}

fn number32(octets: &[u8], at: usize, is_little: bool) -> Option<u32> {
    let four = <[u8; 4]>::try_from(octets.get(at..at + 4)?).ok()?;
    Some(if is_little { u32::from_le_bytes(four) } else { u32::from_be_bytes(four) })
}

fn number16(octets: &[u8], at: usize) -> Option<u16> {
    Some(u16::from_be_bytes(octets.get(at..at + 2)?.try_into().ok()?))
}

/// The packet of IP within a frame of a link type (LINKTYPE_ of pcap).
fn packet_of(frame: &[u8], link: u32) -> Option<&[u8]> {
    match link {
        0 => frame.get(4..),
        1 => {
            let mut at = 12;
            while matches!(number16(frame, at)?, 0x8100 | 0x88a8) {
                at += 4;
            }
            frame.get(at + 2..)
        }
        12 | 101 | 228 | 229 => Some(frame),
        113 => frame.get(16..),
        276 => frame.get(20..),
        _ => None,
    }
}

/// The protocol and its octets within a packet; none of a fragment behind the first.
fn payload_of(packet: &[u8]) -> Option<(u8, &[u8])> {
    match packet.first()? >> 4 {
        4 => {
            let (header, whole) = (usize::from(packet[0] & 15) * 4, usize::from(number16(packet, 2)?));
            let is_first = number16(packet, 6)? & 0x1fff == 0;
            let end = if whole < header { packet.len() } else { whole.min(packet.len()) };
            is_first.then(|| ())?;
            Some((*packet.get(9)?, packet.get(header..end)?))
        }
        6 => {
            let end = (40 + usize::from(number16(packet, 4)?)).min(packet.len());
            Some((*packet.get(6)?, packet.get(40..end)?))
        }
        _ => None,
    }
}

/// Streams of TCP by the client's port, in pieces by where they stand. Addresses are left out: of two streams at one port the pieces of
/// the later one stand elsewhere.
type Streams = BTreeMap<u16, BTreeMap<u32, Vec<u8>>>;

/// Keeps what comes from a server by TCP.
fn keep(streams: &mut Streams, segment: &[u8]) -> Option<()> {
    let (from, to) = (number16(segment, 0)?, number16(segment, 2)?);
    let sequence = number32(segment, 4, false)?;
    let data = segment.get(usize::from(segment.get(12)? >> 4) * 4..)?;
    if from == PORT && !data.is_empty() {
        streams.entry(to).or_default().entry(sequence).or_insert_with(|| data.to_vec());
    }
    Some(())
}

/// The messages of a stream, up to a piece that is missing.
fn messages_of(pieces: &BTreeMap<u32, Vec<u8>>) -> Vec<Vec<u8>> {
    let (mut messages, mut held, mut next) = (Vec::new(), Vec::new(), None);
    for (sequence, piece) in pieces {
        if next.map_or(false, |it| it != *sequence) {
            held.clear();
        }
        next = Some(sequence.wrapping_add(piece.len() as u32));
        held.extend_from_slice(piece);
        while let Some(len) = number16(&held, 0).map(usize::from).filter(|it| held.len() >= 2 + it) {
            messages.push(held[2..2 + len].to_vec());
            held.drain(..2 + len);
        }
    }
    messages
}

/// The messages of a capture that came from port 53.
pub fn messages(octets: &[u8]) -> Result<Vec<Vec<u8>>, FormError> {
    let is_little = is_little(octets).ok_or(FormError::Unknown)?;
    let link = number32(octets, 20, is_little).ok_or(FormError::Unknown)? & 0x0fff_ffff;
    let (mut at, mut messages, mut streams) = (24, Vec::new(), Streams::new());
    for packet in 1.. {
        if at >= octets.len() {
            break;
        }
        let cut = FormError::Pcap { packet, reason: "the file ends within it" };
        let len = number32(octets, at + 8, is_little).ok_or_else(|| cut.clone())? as usize;
        let frame = octets.get(at + 16..).and_then(|it| it.get(..len)).ok_or(cut)?;
        at += 16 + len;
        match packet_of(frame, link).and_then(payload_of) {
            Some((UDP, datagram)) if number16(datagram, 0) == Some(PORT) => messages.extend(datagram.get(8..).map(<[u8]>::to_vec)),
            Some((TCP, segment)) => keep(&mut streams, segment).unwrap_or(()),
            None if packet_of(frame, link).is_none() => {
                return Err(FormError::Pcap { packet, reason: "its link type is unknown: Ethernet, raw IP and Linux' cooked are known" });
            }
            _ => {}
        }
    }
    messages.extend(streams.values().flat_map(messages_of));
    Ok(messages)
}

#[cfg(test)]
mod tests {
    use super::*;

    fn frame(protocol: u8, payload: &[u8]) -> Vec<u8> {
        let len = (20 + payload.len()) as u16;
        let mut packet = vec![0x45, 0];
        packet.extend_from_slice(&len.to_be_bytes());
        packet.extend_from_slice(&[0, 0, 0, 0, 64, protocol, 0, 0, 192, 0, 2, 1, 192, 0, 2, 2]);
        packet.extend_from_slice(payload);
        packet
    }

    fn capture(frames: &[Vec<u8>]) -> Vec<u8> {
        let mut octets = [&[0xd4, 0xc3, 0xb2, 0xa1][..], &[0; 16], &101u32.to_le_bytes()].concat();
        for it in frames {
            octets.extend_from_slice(&[0; 8]);
            octets.extend_from_slice(&(it.len() as u32).to_le_bytes());
            octets.extend_from_slice(&(it.len() as u32).to_le_bytes());
            octets.extend_from_slice(it);
        }
        octets
    }

    #[test]
    fn messages_come_from_port_53() {
        let udp = |from: u8, data: &[u8]| frame(UDP, &[&[0, from, 0x99, 0x99, 0, 0, 0, 0], data].concat());
        let tcp = |sequence: u32, data: &[u8]| {
            frame(TCP, &[&[0, 53, 0x77, 0x77][..], &sequence.to_be_bytes(), &[0, 0, 0, 0, 0x50, 0x18, 0, 0, 0, 0, 0, 0], data].concat())
        };
        let octets = capture(&[udp(53, b"one"), udp(54, b"two"), tcp(7, b"ee\0\x01f"), tcp(2, b"\0\x05thr")]);
        assert_eq!(messages(&octets), Ok(vec![b"one".to_vec(), b"three".to_vec(), b"f".to_vec()]));
        for len in 24..octets.len() {
            let _ = messages(&octets[..len]);
        }
        assert_eq!(messages(b"\xa1\xb2\xc3\xd4"), Err(FormError::Unknown));
    }
}
