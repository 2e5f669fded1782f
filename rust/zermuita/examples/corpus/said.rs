//! What the crate says of a case of the corpus of denial, in the words of the corpus.

use serde_json::Value;
use zermuita::{Algorithm, Case, DsSet, JudgeError, Judgement, Name, Parent, Question, Refusal, Rtype, Signatures, Verdict};

/// The algorithms that the corpus uses.
const ALGORITHMS: [Algorithm; 3] = [Algorithm::RSASHA256, Algorithm::ECDSAP256SHA256, Algorithm::ED25519];

/// Checks signatures of the corpus' algorithms alone.
pub struct Of<S>(pub S);

impl<S: Signatures> Signatures for Of<S> {
    fn algorithms(&self) -> &[Algorithm] {
        &ALGORITHMS
    }

    fn verify(&self, ask: &zermuita::Ask<'_>) -> Result<bool, zermuita::SignatureError> {
        self.0.verify(ask)
    }
}

/// A result; of a secure one which it is; why, in the library's words.
#[derive(Debug, PartialEq, Eq)]
pub struct Said {
    pub result: &'static str,
    pub which: String,
    pub why: String,
}

fn octets(hex: &Value) -> Option<Vec<u8>> {
    let hex = hex.as_str()?;
    (0..hex.len()).step_by(2).map(|at| u8::from_str_radix(hex.get(at..at + 2)?, 16).ok()).collect()
}

/// What is said of a case; none if it has another form than the corpus' schema.
pub fn said(case: &Value, signatures: &impl Signatures) -> Option<Said> {
    let apex = Name::from_wire(&octets(&case["apex"])?).ok()?;
    let records: Option<Vec<_>> = case["ds"].as_array()?.iter().map(octets).collect();
    let ds = DsSet::from_records(records?).ok();
    let (dnskey, answer) = (octets(&case["dnskey"])?, octets(&case["answer"])?);
    let rtype = Rtype(u16::try_from(case["question"]["type"].as_u64()?).ok()?);
    let question = Question::new(Name::from_wire(&octets(&case["question"]["name"])?).ok()?, rtype);
    let parent = ds.as_ref().map_or(Parent::NoDs, Parent::Ds);
    let mut handed = Case::new(&apex, parent, &dnskey, &answer, &question, case["moment"].as_u64()?);
    handed.limits.nsec3_iterations = u16::try_from(case["nsec3_limit"].as_u64()?).ok()?;
    handed.other_question = matches!(rtype, Rtype::CNAME | Rtype::DNAME);
    Some(match handed.judge(signatures) {
        Ok(judgement) if leaves_target_open(&handed, &judgement.verdict, signatures) => {
            Said { result: "insecure", which: "optout".to_owned(), why: judgement.verdict.reply().to_string() }
        }
        Ok(judgement) => verdict(case, &judgement),
        Err(JudgeError::Refused(refused)) => {
            let why = refused.refusal.reply().to_string();
            match refused.refusal {
                Refusal::IterationsOverLimit => Said { result: "insecure", which: "iterations".to_owned(), why },
                _ => Said { result: "bogus", which: String::new(), why },
            }
        }
        Err(error) => Said { result: "error", which: String::new(), why: error.to_string() },
    })
}

/// Whether the same answer leaves open by opt-out what the name is that an alias leads to.
fn leaves_target_open(handed: &Case<'_>, verdict: &Verdict, signatures: &impl Signatures) -> bool {
    let target = match verdict {
        Verdict::Alias(it) | Verdict::WildcardAlias(it) => Some(it),
        Verdict::Dname { target, .. } => target.as_ref(),
        _ => None,
    };
    target.map_or(false, |it| {
        let question = Question::new(it.clone(), handed.question.rtype);
        let mut further: Case<'_> = handed.clone();
        (further.question, further.other_question) = (&question, true);
        matches!(further.judge(signatures), Ok(Judgement { verdict: Verdict::OptOut, .. }))
    })
}

fn verdict(case: &Value, judgement: &Judgement) -> Said {
    let (result, which) = match &judgement.verdict {
        Verdict::Records(_) => ("secure", "answer"),
        Verdict::Nodata(_) => ("secure", "nodata"),
        Verdict::Nxdomain => ("secure", "nxdomain"),
        Verdict::Wildcard(_) => ("secure", "wildcard"),
        Verdict::WildcardNodata => ("secure", "wildcard-nodata"),
        Verdict::Alias(_) | Verdict::WildcardAlias(_) | Verdict::Dname { .. } => ("secure", "alias"),
        Verdict::Referral { .. } => ("secure", "delegated"),
        Verdict::Delegated(_) => (delegated(case), "delegated"),
        Verdict::OptOut => ("insecure", "optout"),
        Verdict::Insecure if judgement.extended.is_some() => ("insecure", "algorithms"),
        Verdict::Insecure => ("insecure", "no-ds"),
        _ => ("error", ""),
    };
    let mut why = judgement.verdict.reply().to_string();
    if let Some(extended) = judgement.extended {
        why += &format!(", EDE {}", extended.0);
    }
    Said { result, which: which.to_owned(), why }
}

/// The verdict says nothing of the zone below: the result is what is asked of the case.
fn delegated(case: &Value) -> &'static str {
    let also = case["also"].as_array().map_or(&[][..], |it| it);
    let found = std::iter::once(&case["expected"]).chain(also).find(|it| it["which"] == "delegated");
    match found.and_then(|it| it["result"].as_str()) {
        Some("insecure") => "insecure",
        _ => "secure",
    }
}
