//! What a resolver said to its client.

use zermuita::message::{flags, Rcode};
use zermuita::Question;

use super::counts::Reason;
use super::judge::Finding;
use super::seen::Seen;

/// What an answer claims of itself.
#[derive(Clone, Copy, Debug, PartialEq, Eq)]
pub enum Claim {
    Secure,
    Insecure,
    Bogus,
    /// Neither secure nor bogus, of a client that asked for no proof.
    Untold,
}

/// What a resolver said.
#[derive(Clone, Debug)]
pub struct Told {
    pub question: Question,
    pub claim: Claim,
    pub rcode: Rcode,
    /// Whether there are records of the type.
    pub has_records: bool,
    /// Whether the client set the bit DO (RFC 3225).
    pub wants_proof: bool,
    /// Whether it gives an alias, and says nothing of what that leads to.
    pub is_alias_alone: bool,
    pub extended: Vec<u16>,
}

/// Whether all that a resolver says of its SERVFAIL is of the network or of policy (RFC 8914, 4).
fn is_other_fault(extended: &[u16]) -> bool {
    !extended.is_empty() && extended.iter().all(|it| matches!(it, 14..=18 | 20 | 22 | 23))
}

impl Told {
    /// Reads what was said.
    ///
    /// # Errors
    ///
    /// If it says nothing of a proof: why.
    pub fn read(client: &Seen<'_>) -> Result<Self, Reason> {
        let rcode = client.rcode();
        let is_code = matches!(rcode, Rcode::NOERROR | Rcode::NXDOMAIN | Rcode::SERVFAIL);
        if !is_code || client.class != 1 || !client.has(flags::QR) || client.message.opcode() != 0 {
            return Err(Reason::Code);
        }
        if client.has(flags::CD) {
            return Err(Reason::CheckingDisabled);
        }
        if client.has(flags::TC) {
            return Err(Reason::CutOff);
        }
        let extended = client.extended_errors();
        if rcode == Rcode::SERVFAIL && is_other_fault(&extended) {
            return Err(Reason::OtherFault);
        }
        let wants_proof = client.edns().map_or(false, |it| it.ttl & 0x8000 != 0);
        let claim = match () {
            () if rcode == Rcode::SERVFAIL => Claim::Bogus,
            () if client.has(flags::AD) => Claim::Secure,
            () if wants_proof => Claim::Insecure,
            () => Claim::Untold,
        };
        Ok(Told {
            question: client.question.clone(),
            claim,
            rcode,
            has_records: client.has_answer(None, client.question.rtype),
            wants_proof,
            is_alias_alone: client.is_alias_alone(),
            extended,
        })
    }

    pub fn is_servfail(&self) -> bool {
        self.rcode == Rcode::SERVFAIL
    }

    /// Whether a verdict says the same; of secure answers which they are, too, as far as a client sees it.
    pub fn agrees(&self, verdict: &Ruling) -> bool {
        match self.claim {
            Claim::Untold => verdict.claim != Claim::Bogus,
            Claim::Secure if verdict.claim == Claim::Secure => {
                let is_missing = verdict.finding == Finding::Nxdomain;
                let has_records = matches!(verdict.finding, Finding::Records(_) | Finding::Wildcard(_));
                // Beside NXNAME a client that sets DO and not CO gets NOERROR (RFC 9824, 5.1).
                let is_code = (self.rcode == Rcode::NXDOMAIN) == is_missing || is_missing && verdict.has_nxname;
                self.is_alias_alone || is_code && self.has_records == has_records
            }
            claim => claim == verdict.claim,
        }
    }
}

/// What the judge says of it.
#[derive(Clone, Debug)]
pub struct Ruling {
    pub claim: Claim,
    pub finding: Finding,
    pub reply: String,
    pub extended: u16,
    /// Whether the answer has a record which says that the name does not exist.
    pub has_nxname: bool,
}

impl Ruling {
    pub fn of(finding: Finding, reply: String, extended: u16, has_nxname: bool) -> Self {
        let claim = match finding {
            Finding::Bogus | Finding::BogusKeys => Claim::Bogus,
            Finding::OptOut => Claim::Insecure,
            _ => Claim::Secure,
        };
        Ruling { claim, finding, reply, extended, has_nxname }
    }

    /// Of a zone that is not signed.
    pub fn insecure() -> Self {
        let reply = "the zone is insecure: its parent proves that it has no DS record".to_owned();
        Ruling { claim: Claim::Insecure, finding: Finding::Delegated, reply, extended: 0, has_nxname: false }
    }
}

#[cfg(test)]
mod tests {
    use super::*;

    #[test]
    fn noerror_beside_nxname_is_nxdomain() {
        let told = |rcode| Told {
            question: Question::new("a.test".parse().unwrap(), zermuita::Rtype::A),
            claim: Claim::Secure,
            rcode,
            has_records: false,
            wants_proof: true,
            is_alias_alone: false,
            extended: Vec::new(),
        };
        for (finding, rcode, has_nxname, agrees) in [
            (Finding::Nxdomain, Rcode::NOERROR, true, true),
            (Finding::Nxdomain, Rcode::NOERROR, false, false),
            (Finding::Nxdomain, Rcode::NXDOMAIN, true, true),
            (Finding::Nodata, Rcode::NXDOMAIN, true, false),
        ] {
            let ruling = Ruling::of(finding, String::new(), 0, has_nxname);
            assert_eq!(told(rcode).agrees(&ruling), agrees, "{ruling:?}");
        }
    }

    #[test]
    fn faults_of_the_network_are_others() {
        for (extended, is_other) in [(&[][..], false), (&[22], true), (&[22, 6], false), (&[15, 23], true), (&[300], false)] {
            assert_eq!(is_other_fault(extended), is_other, "{extended:?}");
        }
    }
}
