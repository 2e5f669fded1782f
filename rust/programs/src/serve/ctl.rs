//! Commands by a socket in the zone's folder: whoever may write to it controls the zone's keys.

use std::io::{self, Read, Write};
use std::os::unix::ffi::{OsStrExt, OsStringExt};
use std::os::unix::fs::PermissionsExt;
use std::os::unix::net::{UnixListener, UnixStream};
use std::path::{Path, PathBuf};
use std::sync::Arc;
use std::time::Duration;

use tokio::io::{AsyncReadExt, AsyncWriteExt};
use tokio::sync::{oneshot, Notify};
use tokio::time::timeout;

use super::keeper::{Order, Said};
use super::log;
use super::queue::Queue;
use crate::out::Failure;

/// How many octets a line has at most, with its line feed.
const ROOM: usize = 2047;
const SECOND: Duration = Duration::from_secs(1);

fn path(folder: &Path) -> PathBuf {
    folder.join("ctl")
}

/// A socket for commands, for the user of the server alone.
pub fn bind(folder: &Path) -> io::Result<UnixListener> {
    let (path, next) = (path(folder), folder.join("ctl.new"));
    let _ = std::fs::remove_file(&next);
    let listener = UnixListener::bind(&next)?;
    std::fs::set_permissions(&next, std::fs::Permissions::from_mode(0o600))?;
    std::fs::rename(&next, path)?;
    listener.set_nonblocking(true)?;
    Ok(listener)
}

/// Reads a line within a second.
async fn read_line(stream: &mut tokio::net::UnixStream) -> Option<Vec<u8>> {
    let mut line = Vec::with_capacity(ROOM);
    loop {
        let mut part = [0; ROOM];
        let len = stream.read(&mut part[..ROOM - line.len()]).await.ok().filter(|len| *len > 0)?;
        line.extend_from_slice(&part[..len]);
        if let Some(end) = line.iter().position(|it| *it == b'\n') {
            line.truncate(end);
            return Some(line);
        }
        if line.len() == ROOM {
            return None;
        }
    }
}

async fn answer(mut stream: tokio::net::UnixStream, orders: &Queue<Order>, stop: &Notify) {
    let line = match timeout(SECOND, read_line(&mut stream)).await {
        Ok(Some(line)) => line,
        _ => return log::failure("command", "no line came within a second, or it is too long").write(),
    };
    let (reply, said) = oneshot::channel();
    orders.push(Order::Line(line, reply));
    if let Ok(Said { octets, is_stop }) = said.await {
        let _ = timeout(SECOND, stream.write_all(&octets)).await;
        if is_stop {
            stop.notify_one();
        }
    }
}

/// Takes commands, for ever.
pub async fn take(listener: UnixListener, orders: Arc<Queue<Order>>, stop: Arc<Notify>) {
    let listener = match tokio::net::UnixListener::from_std(listener) {
        Ok(listener) => listener,
        Err(error) => return log::failure("ctl", error).write(),
    };
    loop {
        match listener.accept().await {
            Ok((stream, _)) => {
                let (orders, stop) = (orders.clone(), stop.clone());
                tokio::spawn(async move { answer(stream, &orders, &stop).await });
            }
            Err(_) => tokio::time::sleep(Duration::from_millis(50)).await,
        }
    }
}

/// Sends a line to the server of a folder: whether it was done, and what is said. An error where no server answers.
pub fn tell(folder: &Path, line: &[u8]) -> io::Result<(bool, Vec<u8>)> {
    let mut stream = UnixStream::connect(path(folder))?;
    stream.write_all(&[line, b"\n"].concat())?;
    let mut said = Vec::new();
    stream.read_to_end(&mut said)?;
    match said.first() {
        Some(sign) => Ok((*sign == b'+', said.split_off(1))),
        None => Err(io::Error::new(io::ErrorKind::UnexpectedEof, "the server says nothing")),
    }
}

/// A command's words as a line. A file is told from here, not from where the server was started.
fn line_of(words: &[std::ffi::OsString]) -> Vec<u8> {
    let mut words = words.to_vec();
    if let [command, file] = &mut words[..] {
        if command == "reload" {
            if let Ok(path) = std::fs::canonicalize(&*file) {
                *file = path.into_os_string();
            }
        }
    }
    words.into_iter().map(|it| it.into_vec()).collect::<Vec<_>>().join(&b' ')
}

/// Sends a command to a server that runs, and prints what it says.
pub fn run(folder: &Path, words: &[std::ffi::OsString]) -> Result<u8, Failure> {
    let line = line_of(words);
    if line.len() >= ROOM || line.contains(&b'\n') {
        let first = words[0].as_bytes();
        let first = String::from_utf8_lossy(first);
        return Err(Failure::Other(format!("{first}: a command has no line feed, and {} octets at most", ROOM - 1)));
    }
    let told = tell(folder, &line);
    let (is_done, said) =
        told.map_err(|error| Failure::Other(format!("no server answers in {}: {error}", folder.display())))?;
    io::stdout().write_all(&said)?;
    Ok(if is_done { 0 } else { 1 })
}
