//! Streams of dnstap, of a file or of resolvers that connect to a unix socket.

use std::fs::File;
use std::io::{self, BufReader, Read, Write};
use std::os::unix::fs::{FileTypeExt, PermissionsExt};
use std::os::unix::net::{UnixListener, UnixStream};
use std::path::Path;
use std::sync::atomic::{AtomicU64, AtomicUsize, Ordering};
use std::sync::Arc;
use std::time::Duration;

use super::dnstap::event_of;
use super::event::Queue;
use super::frames::{FrameError, Frames};

/// How many resolvers may be connected at a time.
const MOST_CONNECTIONS: usize = 64;

/// What threads that read streams share: the queue, and what they count beside what is handed on.
pub struct Streams {
    pub queue: Queue,
    pub frames: AtomicU64,
    pub unreadable: AtomicU64,
    pub connections: AtomicU64,
    open: AtomicUsize,
}

/// A connection that is read through a buffer.
struct Buffered(BufReader<UnixStream>);

impl Read for Buffered {
    fn read(&mut self, octets: &mut [u8]) -> io::Result<usize> {
        self.0.read(octets)
    }
}

impl Write for Buffered {
    fn write(&mut self, octets: &[u8]) -> io::Result<usize> {
        self.0.get_mut().write(octets)
    }

    fn flush(&mut self) -> io::Result<()> {
        self.0.get_mut().flush()
    }
}

impl Streams {
    pub fn new(queue: Queue) -> Self {
        let zero = || AtomicU64::new(0);
        Streams { queue, frames: zero(), unreadable: zero(), connections: zero(), open: AtomicUsize::new(0) }
    }

    fn take<S: Read>(&self, frames: &mut Frames<S>) -> Result<(), FrameError> {
        while let Some(frame) = frames.next()? {
            self.frames.fetch_add(1, Ordering::Relaxed);
            match event_of(&frame) {
                Ok(Some(event)) => self.queue.put(event),
                Ok(None) => {}
                Err(_) => {
                    self.unreadable.fetch_add(1, Ordering::Relaxed);
                }
            }
        }
        Ok(())
    }

    /// Reads a file in a thread of its own, and ends the queue behind its last frame.
    pub fn read_file(self: &Arc<Self>, path: &Path) -> Result<(), FrameError> {
        let mut frames = Frames::of_file(BufReader::new(File::open(path)?))?;
        let streams = self.clone();
        std::thread::Builder::new().name("frames".to_owned()).spawn(move || {
            if let Err(error) = streams.take(&mut frames) {
                tracing::warn!("the frames end early: {error}");
            }
            streams.queue.end();
        })?;
        Ok(())
    }

    fn serve(&self, stream: UnixStream) -> Result<(), FrameError> {
        let mut frames = Frames::of_connection(Buffered(BufReader::with_capacity(65_536, stream)))?;
        self.take(&mut frames)?;
        Ok(frames.finish()?)
    }

    fn accept(self: &Arc<Self>, stream: UnixStream) -> io::Result<()> {
        if self.open.load(Ordering::Relaxed) >= MOST_CONNECTIONS {
            return Ok(());
        }
        let streams = self.clone();
        self.open.fetch_add(1, Ordering::Relaxed);
        self.connections.fetch_add(1, Ordering::Relaxed);
        let spawned = std::thread::Builder::new().name("resolver".to_owned()).spawn(move || {
            if let Err(error) = streams.serve(stream) {
                tracing::debug!("a resolver's stream ends early: {error}");
            }
            streams.open.fetch_sub(1, Ordering::Relaxed);
        });
        if spawned.is_err() {
            self.open.fetch_sub(1, Ordering::Relaxed);
        }
        spawned.map(drop)
    }

    /// Listens at a unix socket, which is made anew with a mode, in a thread of its own; each resolver that connects is read in one.
    pub fn listen(self: &Arc<Self>, path: &Path, mode: u32) -> io::Result<()> {
        // That of an earlier run.
        if std::fs::symlink_metadata(path).map_or(false, |it| it.file_type().is_socket()) {
            std::fs::remove_file(path)?;
        }
        let listener = UnixListener::bind(path)?;
        std::fs::set_permissions(path, std::fs::Permissions::from_mode(mode))?;
        let streams = self.clone();
        std::thread::Builder::new().name("socket".to_owned()).spawn(move || loop {
            let accepted = listener.accept().and_then(|it| streams.accept(it.0));
            if accepted.is_err() {
                // Out of descriptors: not a loop at full speed.
                std::thread::sleep(Duration::from_millis(100));
            }
        })?;
        Ok(())
    }
}
