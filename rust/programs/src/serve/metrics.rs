//! The page for Prometheus.

use std::sync::atomic::{AtomicU64, Ordering};

use super::shared::Shared;
use crate::page::{self, Sample};

/// The page of what was counted since the start.
pub fn page(shared: &Shared) -> String {
    let (sum, read) = (shared.sum(), |it: &AtomicU64| it.load(Ordering::Relaxed));
    let codes: Vec<_> = sum.given().map(|(code, count)| (format!("rcode=\"{code}\""), count)).collect();
    let front = [("requests_total", "transport=\"udp\"", sum.udp), ("requests_total", "transport=\"tcp\"", sum.tcp)];
    let rest = [
        ("truncated_total", "", sum.truncated),
        ("cookies_total", "", sum.with_cookie),
        ("over_rate_total", "answer=\"tcp\"", read(&shared.limits.said_tcp)),
        ("over_rate_total", "answer=\"dropped\"", read(&shared.limits.dropped)),
        ("connections_closed_total", "", read(&shared.refused)),
        ("signatures_total", "from=\"made\"", read(&shared.signatures.made)),
        ("signatures_total", "from=\"kept\"", read(&shared.signatures.found)),
        ("responses_kept_total", "", read(&shared.responses.found)),
        ("replacements_total", "", read(&shared.reloads)),
    ];
    let responses = codes.iter().map(|(label, count)| ("responses_total", label.as_str(), *count));
    let samples = front.into_iter().chain(responses).chain(rest);
    page::text("zermuita_serve", samples.map(|(name, label, count)| Sample::counter(name, label, count)))
}
