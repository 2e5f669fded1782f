//! Frame Streams, the frames in which dnstap is sent and stored: https://farsightsec.github.io/fstrm.

use std::io::{self, Read, Write};

/// How many octets a frame has at most, and one of control.
const MOST_OCTETS: usize = 262_144;
const MOST_OF_CONTROL: usize = 512;
/// The field of a control frame that names what is in the data frames, and what that is here.
const CONTENT_TYPE: u32 = 1;
const CONTENT: &[u8] = b"protobuf:dnstap.Dnstap";

/// The kinds of control frames, by their numbers.
const ACCEPT: u32 = 1;
const START: u32 = 2;
const STOP: u32 = 3;
const READY: u32 = 4;
const FINISH: u32 = 5;

/// Why a stream cannot be read.
#[derive(Debug, thiserror::Error)]
pub enum FrameError {
    #[error("{0}")]
    Io(#[from] io::Error),
    #[error("not a stream of dnstap's frames")]
    Stream,
}

fn number(stream: &mut impl Read) -> io::Result<u32> {
    let mut octets = [0; 4];
    stream.read_exact(&mut octets)?;
    Ok(u32::from_be_bytes(octets))
}

fn octets(stream: &mut impl Read, len: u32, most: usize) -> Result<Vec<u8>, FrameError> {
    let len = usize::try_from(len).ok().filter(|it| *it <= most).ok_or(FrameError::Stream)?;
    let mut octets = vec![0; len];
    stream.read_exact(&mut octets)?;
    Ok(octets)
}

/// A control frame: its kind, and the contents that it names.
struct Control {
    kind: u32,
    contents: Vec<Vec<u8>>,
}

impl Control {
    /// Reads a control frame behind the four octets that mark it.
    fn read(stream: &mut impl Read) -> Result<Self, FrameError> {
        let len = number(stream)?;
        let octets = octets(stream, len, MOST_OF_CONTROL)?;
        let mut rest = &*octets;
        let kind = number(&mut rest).map_err(|_| FrameError::Stream)?;
        let mut contents = Vec::new();
        while !rest.is_empty() {
            let field = number(&mut rest).map_err(|_| FrameError::Stream)?;
            let len = number(&mut rest).map_err(|_| FrameError::Stream)? as usize;
            if field != CONTENT_TYPE || len > rest.len() {
                return Err(FrameError::Stream);
            }
            let (content, behind) = rest.split_at(len);
            contents.push(content.to_vec());
            rest = behind;
        }
        Ok(Control { kind, contents })
    }

    /// Reads a control frame of a kind that has the content, or names none.
    fn expect(stream: &mut impl Read, kind: u32) -> Result<(), FrameError> {
        let is_marked = number(stream)? == 0;
        let control = Control::read(stream)?;
        let has_content = control.contents.is_empty() || control.contents.iter().any(|it| it == CONTENT);
        if is_marked && control.kind == kind && has_content {
            Ok(())
        } else {
            Err(FrameError::Stream)
        }
    }
}

fn write_control(stream: &mut impl Write, kind: u32, content: &[u8]) -> io::Result<()> {
    let mut frame = kind.to_be_bytes().to_vec();
    if !content.is_empty() {
        frame.extend_from_slice(&CONTENT_TYPE.to_be_bytes());
        frame.extend_from_slice(&(content.len() as u32).to_be_bytes());
        frame.extend_from_slice(content);
    }
    let head = [[0; 4], (frame.len() as u32).to_be_bytes()].concat();
    stream.write_all(&[head, frame].concat())
}

/// Data frames, up to the one that says that no more will come.
pub struct Frames<S> {
    stream: S,
}

impl<S: Read> Frames<S> {
    /// Those of a file.
    pub fn of_file(mut stream: S) -> Result<Self, FrameError> {
        Control::expect(&mut stream, START)?;
        Ok(Frames { stream })
    }

    /// The next frame; none behind the last one.
    pub fn next(&mut self) -> Result<Option<Vec<u8>>, FrameError> {
        loop {
            let len = number(&mut self.stream)?;
            if len > 0 {
                return octets(&mut self.stream, len, MOST_OCTETS).map(Some);
            }
            if Control::read(&mut self.stream)?.kind == STOP {
                return Ok(None);
            }
        }
    }
}

impl<S: Read + Write> Frames<S> {
    /// Those of a connection, once both sides have said what they send.
    pub fn of_connection(mut stream: S) -> Result<Self, FrameError> {
        Control::expect(&mut stream, READY)?;
        write_control(&mut stream, ACCEPT, CONTENT)?;
        Frames::of_file(stream)
    }

    /// Says that all was read.
    pub fn finish(mut self) -> io::Result<()> {
        write_control(&mut self.stream, FINISH, &[])
    }
}

#[cfg(test)]
mod tests {
    use super::*;

    fn stream() -> Vec<u8> {
        let mut octets = Vec::new();
        write_control(&mut octets, START, CONTENT).unwrap();
        octets.extend_from_slice(b"\0\0\0\x02hi\0\0\0\x01!");
        write_control(&mut octets, STOP, &[]).unwrap();
        octets
    }

    #[test]
    fn frames_of_a_file_are_read() {
        let octets = stream();
        let mut frames = Frames::of_file(&*octets).unwrap();
        assert_eq!(frames.next().unwrap().as_deref(), Some(&b"hi"[..]));
        assert_eq!(frames.next().unwrap().as_deref(), Some(&b"!"[..]));
        assert!(frames.next().unwrap().is_none());
    }

    #[test]
    fn no_octets_panic() {
        let octets = stream();
        for len in 0..octets.len() {
            let read = Frames::of_file(&octets[..len]).and_then(|mut it| {
                while it.next()?.is_some() {}
                Ok(())
            });
            assert!(read.is_err(), "{len}");
        }
        assert!(Frames::of_file(&b"; a zone file"[..]).is_err());
        let mut other = Vec::new();
        write_control(&mut other, START, b"protobuf:other").unwrap();
        assert!(Frames::of_file(&*other).is_err());
    }
}
