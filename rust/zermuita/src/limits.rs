//! Limits of a judgement and of a walk.
#![forbid(unsafe_code)]

/// How much a call may take on; what is left at its default has the library's own limit.
#[derive(Clone, Copy, Debug, PartialEq, Eq)]
#[non_exhaustive]
pub struct Limits {
    /// How many iterations of a name's hash are allowed (RFC 9276, 3.2): 100.
    pub nsec3_iterations: u16,
    /// How many signatures are checked at most. 0: 16 of a case, 256 of a walk.
    pub signatures: u32,
    /// How many delegations a walk goes down for a name at most. 0: 32.
    pub cuts: u16,
    /// How many aliases a walk follows at most. 0: 16.
    pub aliases: u16,
    /// Beside so many messages a walk wants no more. 0: 128.
    pub messages: u16,
    /// How much work all calls of a walk may be, in the units of `zermuita_resolve(3)`. 0: 6,000,000.
    pub work: u64,
}

impl Default for Limits {
    fn default() -> Self {
        Limits { nsec3_iterations: 100, signatures: 0, cuts: 0, aliases: 0, messages: 0, work: 0 }
    }
}
