//! Where a server is.

use std::fmt;
use std::net::{IpAddr, SocketAddr};
use std::str::FromStr;

/// A server by its address or its name, and a port: `HOST`, `HOST:PORT`, `[ADDRESS]` or `[ADDRESS]:PORT`. An IPv6 address outside of
/// brackets has no port behind it. The port is 53 where none is given.
#[derive(Clone, Debug, PartialEq, Eq, Hash)]
pub struct Server {
    text: String,
    host: String,
    port: u16,
}

/// A text is no server.
#[derive(Clone, Debug, PartialEq, Eq, thiserror::Error)]
#[error("{0:?} is no server: an address or a name, and a port behind a colon, as 192.0.2.53, [2001:db8::53]:5353 or ns.example")]
pub struct ServerError(String);

const PORT: u16 = 53;

/// Cuts a text into host and port.
fn cut(text: &str) -> Option<(&str, &str)> {
    if let Some(rest) = text.strip_prefix('[') {
        let (host, behind) = rest.split_once(']')?;
        return match behind.strip_prefix(':') {
            Some(port) => Some((host, port)),
            None => behind.is_empty().then(|| (host, "53")),
        };
    }
    match text.split_once(':') {
        Some((host, port)) if !port.contains(':') => Some((host, port)),
        _ => Some((text, "53")),
    }
}

impl FromStr for Server {
    type Err = ServerError;

    fn from_str(text: &str) -> Result<Self, ServerError> {
        let wrong = || ServerError(text.to_owned());
        let (host, port) = cut(text).filter(|it| !it.0.is_empty()).ok_or_else(wrong)?;
        let port = port.parse().map_err(|_| wrong())?;
        let is_address = host.parse::<IpAddr>().is_ok();
        let is_name = host.bytes().all(|it| it.is_ascii_alphanumeric() || b"-._".contains(&it));
        if !is_address && !is_name {
            return Err(wrong());
        }
        Ok(Server { text: text.to_owned(), host: host.to_owned(), port })
    }
}

impl From<IpAddr> for Server {
    fn from(address: IpAddr) -> Self {
        let host = address.to_string();
        Server { text: host.clone(), host, port: PORT }
    }
}

impl fmt::Display for Server {
    fn fmt(&self, f: &mut fmt::Formatter<'_>) -> fmt::Result {
        f.write_str(&self.text)
    }
}

impl Server {
    /// The same server at another port, unless its text names one.
    #[must_use]
    pub fn at_port(mut self, port: u16) -> Self {
        if self.port == PORT {
            self.port = port;
        }
        self
    }

    /// The address, if it is given by that.
    #[must_use]
    pub fn address(&self) -> Option<SocketAddr> {
        self.host.parse::<IpAddr>().ok().map(|it| SocketAddr::new(it, self.port))
    }

    /// The addresses; those of a name come from the system's resolver.
    ///
    /// # Errors
    ///
    /// If the system's resolver has none.
    pub async fn addresses(&self) -> std::io::Result<Vec<SocketAddr>> {
        match self.host.parse::<IpAddr>() {
            Ok(address) => Ok(vec![SocketAddr::new(address, self.port)]),
            Err(_) => Ok(tokio::net::lookup_host((self.host.as_str(), self.port)).await?.collect()),
        }
    }
}

#[cfg(test)]
mod tests {
    use super::*;

    #[test]
    fn servers_are_read() {
        for (text, cut) in [
            ("192.0.2.1", Some(("192.0.2.1", 53))),
            ("192.0.2.1:54", Some(("192.0.2.1", 54))),
            ("::1", Some(("::1", 53))),
            ("[::1]:54", Some(("::1", 54))),
            ("[::1]", Some(("::1", 53))),
            ("ns.example:1", Some(("ns.example", 1))),
            ("[::1]x", None),
            ("[::1", None),
            ("a:b", None),
            ("a b", None),
            (":53", None),
            ("", None),
        ] {
            let read = text.parse::<Server>().ok();
            assert_eq!(read.map(|it| (it.host, it.port)), cut.map(|it| (it.0.to_owned(), it.1)), "{text}");
        }
    }
}
