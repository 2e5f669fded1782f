//! Counts.

use std::sync::atomic::{AtomicU64, Ordering};

use crate::page::{self, Sample};

macro_rules! counts {
    ($($name:ident $metric:literal $label:literal),* $(,)?) => {
        /// What is counted.
        #[derive(Clone, Copy, Debug)]
        pub enum Count {
            $($name,)*
        }

        const METRICS: &[(&str, &str)] = &[$(($metric, $label)),*];
    };
}

counts! {
    Udp "questions_total" "transport=\"udp\"",
    Tcp "questions_total" "transport=\"tcp\"",
    Tls "questions_total" "transport=\"tls\"",
    Secure "answers_total" "state=\"secure\"",
    Insecure "answers_total" "state=\"insecure\"",
    Bogus "answers_total" "state=\"bogus\"",
    Failed "answers_total" "state=\"failed\"",
    Refused "answers_total" "state=\"refused\"",
    Unread "dropped_total" "reason=\"unreadable\"",
    Busy "dropped_total" "reason=\"busy\"",
    Kept "cache_hits_total" "cache=\"answers\"",
    Missed "cache_misses_total" "cache=\"answers\"",
    MessageKept "cache_hits_total" "cache=\"messages\"",
    Denied "cache_hits_total" "cache=\"denials\"",
    Asked "upstream_questions_total" "",
    Unanswered "upstream_failures_total" "",
    Replaced "upstream_replaced_total" "",
    Calls "library_calls_total" "",
    Reloads "reloads_total" "",
}

/// Counts from the start on.
#[derive(Debug)]
pub struct Metrics([AtomicU64; METRICS.len()]);

impl Metrics {
    pub fn new() -> Self {
        Metrics(std::array::from_fn(|_| AtomicU64::new(0)))
    }

    pub fn add(&self, count: Count, more: u64) {
        self.0[count as usize].fetch_add(more, Ordering::Relaxed);
    }

    /// The page for Prometheus.
    pub fn page(&self) -> String {
        let counts = METRICS.iter().zip(&self.0);
        page::text("zermuita_forward", counts.map(|((name, label), count)| Sample::counter(name, label, count.load(Ordering::Relaxed))))
    }
}
