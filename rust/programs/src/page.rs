//! A page of numbers for Prometheus.

use std::fmt::Write;
use std::net::SocketAddr;
use std::sync::Arc;
use std::time::Duration;

use serde::{Deserialize, Serialize};
use tokio::io::{AsyncReadExt, AsyncWriteExt};
use tokio::net::{TcpListener, TcpStream};

use crate::out::Failure;

/// The page, as a configuration has it: where it is served, if it is.
#[derive(Clone, Debug, Default, PartialEq, Eq, Serialize, Deserialize)]
#[serde(default, deny_unknown_fields, rename_all = "kebab-case")]
pub struct MetricsPage {
    pub listen: Option<SocketAddr>,
}

/// Whether a number only grows.
#[derive(Clone, Copy, Debug, PartialEq, Eq)]
pub enum Kind {
    Counter,
    Gauge,
}

/// A number with its name, and its label where it has one, as `state="secure"`.
#[derive(Clone, Debug)]
pub struct Sample<'a> {
    pub name: &'a str,
    pub label: &'a str,
    pub kind: Kind,
    pub value: u64,
}

impl<'a> Sample<'a> {
    /// A number that only grows.
    pub fn counter(name: &'a str, label: &'a str, value: u64) -> Self {
        Sample { name, label, kind: Kind::Counter, value }
    }
}

/// The page: numbers of one name stand together.
pub fn text<'a>(prefix: &str, samples: impl Iterator<Item = Sample<'a>>) -> String {
    let (mut page, mut last) = (String::new(), "");
    for it in samples {
        if it.name != last {
            let kind = if it.kind == Kind::Counter { "counter" } else { "gauge" };
            let _ = writeln!(page, "# TYPE {prefix}_{} {kind}", it.name);
            last = it.name;
        }
        let label = if it.label.is_empty() { String::new() } else { format!("{{{}}}", it.label) };
        let _ = writeln!(page, "{prefix}_{}{label} {}", it.name, it.value);
    }
    page
}

async fn answer(mut stream: TcpStream, page: String) -> std::io::Result<()> {
    let mut request = [0; 2048];
    let len = stream.read(&mut request).await?;
    let is_page = request[..len].starts_with(b"GET /metrics ");
    let (status, body) = if is_page { ("200 OK", page) } else { ("404 Not Found", "GET /metrics\n".to_owned()) };
    let head = format!(
        "HTTP/1.1 {status}\r\nContent-Type: text/plain; version=0.0.4\r\nContent-Length: {}\r\nConnection: close\r\n\r\n",
        body.len()
    );
    stream.write_all((head + &body).as_bytes()).await?;
    stream.shutdown().await
}

/// Answers requests, for ever.
async fn answer_all(listener: TcpListener, page: Arc<impl Fn() -> String + Send + Sync + 'static>) {
    loop {
        match listener.accept().await {
            Ok((stream, _)) => {
                let page = page.clone();
                tokio::spawn(async move {
                    let _ = tokio::time::timeout(Duration::from_secs(5), answer(stream, page())).await;
                });
            }
            Err(_) => tokio::time::sleep(Duration::from_millis(100)).await,
        }
    }
}

impl MetricsPage {
    /// Serves the page, which is made anew for each request.
    pub async fn serve(&self, page: impl Fn() -> String + Send + Sync + 'static) -> Result<(), Failure> {
        if let Some(address) = self.listen {
            let unopened = |error| Failure::Socket { place: address.to_string(), error, advice: "change `listen` of `metrics`" };
            let listener = TcpListener::bind(address).await.map_err(unopened)?;
            tokio::spawn(answer_all(listener, Arc::new(page)));
        }
        Ok(())
    }
}
