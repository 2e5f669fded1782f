//! The corpus of denial through the crate: what is said of each case is what the library says of it through Python, as corpus/said
//! keeps it, by each backend.

#[path = "../examples/corpus/said.rs"]
mod said;

use said::{said, Of};
use serde_json::Value;
use zermuita::Signatures;

fn read(path: &str) -> Value {
    let path = format!("{}/../../corpus/{path}", env!("CARGO_MANIFEST_DIR"));
    serde_json::from_str(&std::fs::read_to_string(&path).unwrap_or_else(|error| panic!("{path}: {error}"))).unwrap()
}

fn groups() -> impl Iterator<Item = Value> {
    let folder = format!("{}/../../corpus/cases", env!("CARGO_MANIFEST_DIR"));
    let mut names: Vec<_> = std::fs::read_dir(folder).unwrap().map(|it| it.unwrap().file_name().into_string().unwrap()).collect();
    names.sort();
    names.into_iter().map(|it| read(&format!("cases/{it}")))
}

fn is_as_kept(signatures: &impl Signatures) {
    let kept = read("said/zermuita.json");
    let (mut asked, mut otherwise) = (0, Vec::new());
    for group in groups() {
        for case in group["cases"].as_array().unwrap() {
            let id = case["id"].as_str().unwrap();
            let told = said(case, signatures).unwrap_or_else(|| panic!("{id} is no case"));
            let before = &kept["said"][id];
            // The sentence of a refusal that is kept ends in its extended error.
            let is_same = before[0] == told.result && before[1] == *told.which && before[2].as_str().unwrap().starts_with(&told.why);
            asked += 1;
            if !is_same {
                otherwise.push(format!("{id}: {told:?}, kept {before}"));
            }
        }
    }
    assert!(asked > 3000, "{asked} cases");
    assert!(otherwise.is_empty(), "{} of {asked} otherwise:\n{}", otherwise.len(), otherwise.join("\n"));
}

#[cfg(feature = "openssl")]
#[test]
fn corpus_by_openssl() {
    is_as_kept(&Of(zermuita::crypto::OpenSsl));
}

#[cfg(feature = "ring")]
#[test]
fn corpus_by_ring() {
    is_as_kept(&Of(zermuita::crypto::Ring));
}
