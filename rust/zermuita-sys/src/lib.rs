//! Bindings of libzermuita: the structures, the numbers and the functions of `zermuita.h` and `zermuita_zone.h`.
//!
//! The headers say what each is for. Their inline functions are not here: the crate `zermuita`, which is safe, has what they do.
//! No function takes a null pointer, not even for no octets: [`Octets::of`] gives a pointer that is not null.

#![no_std]
#![allow(non_camel_case_types)]

use core::ffi::c_void;

/// Octets that the library reads.
#[repr(C)]
#[derive(Clone, Copy, Debug)]
pub struct Octets {
    pub data: *const u8,
    pub len: usize,
}

impl Octets {
    /// The octets of a slice, for as long as it is borrowed. The pointer is never null.
    #[must_use]
    pub const fn of(octets: &[u8]) -> Self {
        Octets { data: octets.as_ptr(), len: octets.len() }
    }
}

/// `struct zermuita_case`: what is judged.
#[repr(C)]
#[derive(Clone, Copy, Debug)]
pub struct zermuita_case {
    pub size: usize,
    pub apex: Octets,
    pub ds: Octets,
    pub dnskey: Octets,
    pub answer: Octets,
    pub name: Octets,
    pub checked: Octets,
    pub now: u64,
    pub rtype: u16,
    pub rclass: u16,
    pub max_nsec3_iterations: u16,
    pub one_moment: u32,
    pub as_received: u32,
    pub algorithms: Octets,
    pub max_signatures: u32,
    pub other_question: u32,
    pub no_ds: u32,
    pub places: u32,
}

/// `struct zermuita_evidence`: what a walk from a trust anchor down is handed.
#[repr(C)]
#[derive(Clone, Copy, Debug)]
pub struct zermuita_evidence {
    pub size: usize,
    pub anchor: Octets,
    pub ds: Octets,
    pub name: Octets,
    pub messages: Octets,
    pub checked: Octets,
    pub algorithms: Octets,
    pub now: u64,
    pub rtype: u16,
    pub max_nsec3_iterations: u16,
    pub max_cuts: u16,
    pub max_aliases: u16,
    pub one_moment: u16,
    pub max_messages: u16,
    pub max_signatures: u32,
    pub max_work: u64,
}

/// `struct zermuita_report`: what is said beside a reply.
#[repr(C)]
#[derive(Clone, Copy, Debug)]
pub struct zermuita_report {
    pub size: usize,
    pub len: usize,
    pub until: u64,
    pub verifications: u64,
    pub hashes: u64,
    pub ttl: u32,
    pub ede: u16,
    pub delegates: u16,
}

/// How many octets the library may read of a case or of evidence.
pub const ZERMUITA_CASE_ROOM: usize = 256;
/// How many octets the library may write of a report.
pub const ZERMUITA_REPORT_ROOM: usize = 128;
/// How many octets the library may read of a master file's structure.
pub const ZERMUITA_MASTER_ROOM: usize = 128;
/// How many octets the library may read of a request.
pub const ZERMUITA_REQUEST_ROOM: usize = 128;

pub const ZERMUITA_RECORDS: u32 = 0;
pub const ZERMUITA_NODATA: u32 = 1;
pub const ZERMUITA_NXDOMAIN: u32 = 2;
pub const ZERMUITA_WILDCARD: u32 = 3;
pub const ZERMUITA_WILDCARD_NODATA: u32 = 4;
pub const ZERMUITA_DELEGATED: u32 = 5;
pub const ZERMUITA_OPTOUT: u32 = 6;
pub const ZERMUITA_INSECURE: u32 = 7;
pub const ZERMUITA_ALIAS: u32 = 8;
pub const ZERMUITA_WILDCARD_ALIAS: u32 = 9;
pub const ZERMUITA_DNAME: u32 = 10;
pub const ZERMUITA_REFERRAL: u32 = 11;
pub const ZERMUITA_QUESTION_NOT_ALLOWED: u32 = 16;
pub const ZERMUITA_BAD_DNSKEY_MESSAGE: u32 = 17;
pub const ZERMUITA_BAD_ANSWER_MESSAGE: u32 = 18;
pub const ZERMUITA_QUESTION_MISMATCH: u32 = 19;
pub const ZERMUITA_EQUAL_TAGS: u32 = 20;
pub const ZERMUITA_NO_TRUSTED_KEY: u32 = 21;
pub const ZERMUITA_MIXED_NSEC3_PARAMETERS: u32 = 22;
pub const ZERMUITA_ITERATIONS_OVER_LIMIT: u32 = 23;
pub const ZERMUITA_HASH_FAILED: u32 = 24;
pub const ZERMUITA_NOT_PROVEN: u32 = 25;
pub const ZERMUITA_OUT_OF_MEMORY: u32 = 26;
pub const ZERMUITA_MIXED_VERSIONS: u32 = 27;
pub const ZERMUITA_MESSAGE_TOO_LONG: u32 = 28;
pub const ZERMUITA_TOO_MANY_SIGNATURES: u32 = 29;
pub const ZERMUITA_NOTHING_TOLD: u32 = 30;
pub const ZERMUITA_OUTSIDE: u32 = 31;
pub const ZERMUITA_ASK: u32 = 32;
pub const ZERMUITA_WANT: u32 = 33;
pub const ZERMUITA_BUFFER_TOO_SMALL: u32 = 34;
pub const ZERMUITA_BAD_APEX: u32 = 35;
pub const ZERMUITA_BAD_DS_SET: u32 = 36;
pub const ZERMUITA_BAD_NAME: u32 = 37;
pub const ZERMUITA_BAD_SIGNATURES: u32 = 38;
pub const ZERMUITA_BAD_CASE: u32 = 39;
pub const ZERMUITA_BAD_MESSAGES: u32 = 40;
pub const ZERMUITA_TOO_MANY_CUTS: u32 = 48;
pub const ZERMUITA_TOO_MANY_ALIASES: u32 = 49;
pub const ZERMUITA_TOO_MANY_MESSAGES: u32 = 50;
pub const ZERMUITA_INCOMPLETE_DENIAL: u32 = 51;
pub const ZERMUITA_TOO_MUCH_WORK: u32 = 52;

pub const ZERMUITA_DELEGATES_UNKNOWN: u16 = 0;
pub const ZERMUITA_DELEGATES_YES: u16 = 1;
pub const ZERMUITA_DELEGATES_NO: u16 = 2;

pub const ZERMUITA_ZONE_DONE: u32 = 64;
pub const ZERMUITA_ZONE_UNTOLD: u32 = 65;
pub const ZERMUITA_ZONE_REFUSED: u32 = 66;
pub const ZERMUITA_ZONE_RESPONSE: u32 = 67;
pub const ZERMUITA_ZONE_NO_RESPONSE: u32 = 68;
pub const ZERMUITA_ZONE_SIGN: u32 = 69;
pub const ZERMUITA_ZONE_OUT_OF_MEMORY: u32 = 70;
pub const ZERMUITA_ZONE_BUFFER_TOO_SMALL: u32 = 71;
pub const ZERMUITA_ZONE_BAD_SIGNATURES: u32 = 72;
pub const ZERMUITA_ZONE_BAD_CALL: u32 = 73;
pub const ZERMUITA_ZONE_NOT_OPEN: u32 = 74;
pub const ZERMUITA_ZONE_IS_OPEN: u32 = 75;
pub const ZERMUITA_ZONE_TOO_SOON: u32 = 76;
pub const ZERMUITA_ZONE_EXPIRED: u32 = 77;

pub const ZERMUITA_KSK_ROLL: u32 = 1;
pub const ZERMUITA_KSK_DOUBLE_DS_ROLL: u32 = 2;
pub const ZERMUITA_ZSK_ROLL: u32 = 3;
pub const ZERMUITA_ZSK_DOUBLE_SIGNATURE_ROLL: u32 = 4;
pub const ZERMUITA_CSK_ROLL: u32 = 5;
pub const ZERMUITA_ALGORITHM_ROLL: u32 = 6;

pub const ZERMUITA_NO_ROLL: u32 = 0;
pub const ZERMUITA_PROPAGATION_1: u32 = 1;
pub const ZERMUITA_EXPIRY_1: u32 = 2;
pub const ZERMUITA_PROPAGATION_2: u32 = 3;
pub const ZERMUITA_EXPIRY_2: u32 = 4;
pub const ZERMUITA_ROLLED: u32 = 5;

/// `struct zermuita_zone`: a zone, open or closed. Its members are the library's.
#[repr(C)]
#[derive(Debug)]
pub struct zermuita_zone {
    pub held: *mut c_void,
    pub is_open: u32,
}

impl zermuita_zone {
    /// The value of a zone that is closed.
    pub const CLOSED: Self = zermuita_zone { held: core::ptr::null_mut(), is_open: 0 };
}

/// `struct zermuita_zone_report`: what is said beside a zone's reply.
#[repr(C)]
#[derive(Clone, Copy, Debug)]
pub struct zermuita_zone_report {
    pub size: usize,
    pub len: usize,
    pub line: usize,
    pub whole: usize,
    pub settled: usize,
}

/// `struct zermuita_master`: a master file, and what is wanted of it.
#[repr(C)]
#[derive(Clone, Copy, Debug)]
pub struct zermuita_master {
    pub size: usize,
    pub text: Octets,
    pub origin: Octets,
    pub chain: Octets,
    pub apex: Octets,
}

/// `struct zermuita_due`: what is due of a roll.
#[repr(C)]
#[derive(Clone, Copy, Debug)]
pub struct zermuita_due {
    pub size: usize,
    pub len: usize,
    pub from: u64,
    pub ttl: u32,
    pub phase: u32,
}

/// `struct zermuita_facts`: what the lines of a zone say about it.
#[repr(C)]
#[derive(Clone, Copy, Debug)]
pub struct zermuita_facts {
    pub size: usize,
    pub len: usize,
    pub last: u64,
    pub answers_from: u64,
    pub ttl: u32,
    pub life: u32,
}

/// `struct zermuita_request`: a request to a served zone.
#[repr(C)]
#[derive(Clone, Copy, Debug)]
pub struct zermuita_request {
    pub size: usize,
    pub request: Octets,
    pub made: Octets,
    pub now: u64,
    pub backdate: u32,
    pub stream: u32,
    pub limit: u16,
    pub udp_size: u16,
}

extern "C" {
    pub fn zermuita_judge_case(handed: *const zermuita_case, out: *mut u8, out_len: usize, report: *mut zermuita_report) -> u32;
    pub fn zermuita_resolve_evidence(
        handed: *const zermuita_evidence,
        out: *mut u8,
        out_len: usize,
        report: *mut zermuita_report,
    ) -> u32;
    pub fn zermuita_reply_text(reply: u32, text: *mut Octets);
    pub fn zermuita_is_verdict(reply: u32) -> u32;
    pub fn zermuita_is_refusal(reply: u32) -> u32;
    pub fn zermuita_version() -> u32;

    pub fn zermuita_zone_lines_of(
        master: *const zermuita_master,
        out: *mut u8,
        out_len: usize,
        report: *mut zermuita_zone_report,
    ) -> u32;
    pub fn zermuita_zone_open(
        zone: *mut zermuita_zone,
        journal: *const u8,
        journal_len: usize,
        out: *mut u8,
        out_len: usize,
        report: *mut zermuita_zone_report,
    ) -> u32;
    pub fn zermuita_zone_apply(
        zone: *mut zermuita_zone,
        line: *const u8,
        line_len: usize,
        out: *mut u8,
        out_len: usize,
        report: *mut zermuita_zone_report,
    ) -> u32;
    pub fn zermuita_zone_forget(zone: *mut zermuita_zone) -> u32;
    pub fn zermuita_zone_close(zone: *mut zermuita_zone) -> u32;
    pub fn zermuita_zone_due(zone: *mut zermuita_zone, roll: u32, out: *mut u8, out_len: usize, due: *mut zermuita_due) -> u32;
    pub fn zermuita_zone_records(
        zone: *mut zermuita_zone,
        rtype: u16,
        out: *mut u8,
        out_len: usize,
        report: *mut zermuita_zone_report,
    ) -> u32;
    pub fn zermuita_zone_facts(zone: *mut zermuita_zone, out: *mut u8, out_len: usize, facts: *mut zermuita_facts) -> u32;
    pub fn zermuita_zone_respond_to(
        zone: *mut zermuita_zone,
        request: *const zermuita_request,
        out: *mut u8,
        out_len: usize,
        report: *mut zermuita_zone_report,
    ) -> u32;
}
