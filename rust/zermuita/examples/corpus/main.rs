//! Says of each case of the corpus of denial that stands in a line of the input what the crate says: a line of JSON with the case's
//! id, a result, which it is, and why. With the word `ring` signatures are checked by ring. `corpus/run rust` calls this.

mod said;

use std::io::{BufRead, Write};

use zermuita::Signatures;

fn tell(signatures: &impl Signatures) -> Result<(), Box<dyn std::error::Error>> {
    let (major, minor, patch) = zermuita::library_version();
    let mut out = std::io::stdout().lock();
    writeln!(out, "zermuita {major}.{minor}.{patch}")?;
    for line in std::io::stdin().lock().lines() {
        let case: serde_json::Value = serde_json::from_str(&line?)?;
        let said = said::said(&case, signatures).ok_or("a line is no case of the corpus")?;
        writeln!(out, "{}", serde_json::json!([case["id"], said.result, said.which, said.why]))?;
    }
    Ok(())
}

fn main() -> Result<(), Box<dyn std::error::Error>> {
    match std::env::args().nth(1).as_deref() {
        #[cfg(feature = "ring")]
        Some("ring") => tell(&said::Of(zermuita::crypto::Ring)),
        #[cfg(feature = "openssl")]
        None => tell(&said::Of(zermuita::crypto::OpenSsl)),
        _ => Err("usage: corpus [ring]: cases in lines of the input, where the crate has that feature".into()),
    }
}
