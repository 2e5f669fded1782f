//! What is read of dnstap's frames, by the numbers of the schema that https://dnstap.info publishes. Other fields are passed over.

use prost::Message as _;
use zermuita::Name;

use super::event::{Event, Origin};
use crate::out;

/// The kinds of messages that are taken.
const RESOLVER_RESPONSE: i32 = 4;
const CLIENT_RESPONSE: i32 = 6;
const FORWARDER_RESPONSE: i32 = 8;
/// How many octets a message has at most.
const MOST_OCTETS: usize = 65_535;
/// The latest moment that is believed, so that sums with it stay numbers.
const LATEST: u64 = 1 << 40;

#[derive(Clone, PartialEq, prost::Message)]
struct Dnstap {
    #[prost(message, optional, tag = "14")]
    message: Option<Message>,
    #[prost(int32, required, tag = "15")]
    kind: i32,
}

#[derive(Clone, PartialEq, prost::Message)]
struct Message {
    #[prost(int32, required, tag = "1")]
    kind: i32,
    #[prost(uint64, optional, tag = "8")]
    query_time_sec: Option<u64>,
    #[prost(bytes = "vec", optional, tag = "11")]
    query_zone: Option<Vec<u8>>,
    #[prost(uint64, optional, tag = "12")]
    response_time_sec: Option<u64>,
    #[prost(bytes = "vec", optional, tag = "14")]
    response_message: Option<Vec<u8>>,
}

/// A frame cannot be read.
#[derive(Clone, Copy, Debug, PartialEq, Eq)]
pub struct Unreadable;

/// The event of a frame; none if the frame is of another kind.
pub fn event_of(frame: &[u8]) -> Result<Option<Event>, Unreadable> {
    let message = match Dnstap::decode(frame).map_err(|_| Unreadable)?.message {
        Some(message) => message,
        None => return Ok(None),
    };
    let origin = match message.kind {
        RESOLVER_RESPONSE | FORWARDER_RESPONSE => Origin::Server,
        CLIENT_RESPONSE => Origin::Client,
        _ => return Ok(None),
    };
    let moment = message.response_time_sec.or(message.query_time_sec).unwrap_or_else(out::now).min(LATEST);
    let zone = message.query_zone.and_then(|it| Name::from_wire(&it).ok());
    let octets = message.response_message.filter(|it| it.len() <= MOST_OCTETS);
    Ok(octets.map(|it| Event { origin, moment, zone, octets: it.into(), due: 0, tries: 0 }))
}

#[cfg(test)]
mod tests {
    use super::*;

    fn frame(kind: i32, octets: &[u8]) -> Vec<u8> {
        let message = Message {
            kind,
            query_time_sec: Some(6),
            query_zone: Some(b"\x04test\0".to_vec()),
            response_time_sec: None,
            response_message: Some(octets.to_vec()),
        };
        Dnstap { message: Some(message), kind: 1 }.encode_to_vec()
    }

    #[test]
    fn responses_are_taken() {
        let event = event_of(&frame(RESOLVER_RESPONSE, b"octets")).unwrap().unwrap();
        assert_eq!((event.origin, event.moment, &*event.octets), (Origin::Server, 6, &b"octets"[..]));
        assert_eq!(event.zone, Some("test".parse().unwrap()));
        assert_eq!(event_of(&frame(CLIENT_RESPONSE, b"")).unwrap().map(|it| it.origin), Some(Origin::Client));
        assert!(event_of(&frame(5, b"octets")).unwrap().is_none());
        assert_eq!(event_of(b"\xff").err(), Some(Unreadable));
    }
}
