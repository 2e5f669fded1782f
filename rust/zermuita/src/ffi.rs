//! The calls of libzermuita. All that is unsafe is in this module.
#![allow(unsafe_code)]

use std::marker::PhantomData;

use zermuita_sys::{self as sys, Octets};

/// How many octets the first buffer of a call has: most outputs fit.
const FIRST_ROOM: usize = 4096;

/// What the library replied, and its output.
pub(crate) struct Replied {
    pub(crate) reply: u32,
    pub(crate) report: sys::zermuita_report,
    out: Vec<u8>,
}

impl Replied {
    /// The output.
    pub(crate) fn octets(&self) -> &[u8] {
        &self.out[..self.report.len.min(self.out.len())]
    }
}

/// A case in octets.
pub(crate) struct CaseOctets<'a> {
    pub(crate) apex: &'a [u8],
    /// None: the parent proved that there is no DS record.
    pub(crate) ds: Option<&'a [u8]>,
    pub(crate) dnskey: &'a [u8],
    pub(crate) answer: &'a [u8],
    pub(crate) name: &'a [u8],
    pub(crate) checked: &'a [u8],
    pub(crate) algorithms: &'a [u8],
    pub(crate) now: u64,
    pub(crate) rtype: u16,
    pub(crate) max_nsec3_iterations: u16,
    pub(crate) max_signatures: u32,
    pub(crate) one_moment: bool,
    pub(crate) as_received: bool,
    pub(crate) other_question: bool,
    pub(crate) places: bool,
}

/// Evidence of a walk in octets.
pub(crate) struct EvidenceOctets<'a> {
    pub(crate) anchor: &'a [u8],
    pub(crate) ds: &'a [u8],
    pub(crate) name: &'a [u8],
    pub(crate) messages: &'a [u8],
    pub(crate) checked: &'a [u8],
    pub(crate) algorithms: &'a [u8],
    pub(crate) now: u64,
    pub(crate) rtype: u16,
    pub(crate) max_nsec3_iterations: u16,
    pub(crate) max_cuts: u16,
    pub(crate) max_aliases: u16,
    pub(crate) one_moment: bool,
    pub(crate) max_messages: u16,
    pub(crate) max_signatures: u32,
    pub(crate) max_work: u64,
}

/// A structure with zeros behind it, up to what the library may read of it. `ROOM` octets of zeros are more than it reads behind.
#[repr(C)]
struct Room<T, const ROOM: usize> {
    held: T,
    zeros: [u8; ROOM],
}

impl<T, const ROOM: usize> Room<T, ROOM> {
    fn new(held: T) -> Self {
        Room { held, zeros: [0; ROOM] }
    }

    /// A pointer to the structure that may be read beyond it, up to the end of the zeros.
    fn as_ptr(&self) -> *const T {
        (self as *const Self).cast()
    }

    fn as_mut_ptr(&mut self) -> *mut T {
        (self as *mut Self).cast()
    }
}

/// Calls with a buffer, and once more with a larger one where that is too small.
fn replied(mut call: impl FnMut(&mut [u8], &mut Room<sys::zermuita_report, { sys::ZERMUITA_REPORT_ROOM }>) -> u32) -> Replied {
    let mut out = vec![0; FIRST_ROOM];
    loop {
        let report = sys::zermuita_report {
            size: std::mem::size_of::<sys::zermuita_report>(),
            len: 0,
            until: 0,
            verifications: 0,
            hashes: 0,
            ttl: 0,
            ede: 0,
            delegates: 0,
        };
        let mut report = Room::new(report);
        let reply = call(&mut out, &mut report);
        if reply != sys::ZERMUITA_BUFFER_TOO_SMALL || report.held.len <= out.len() {
            return Replied { reply, report: report.held, out };
        }
        out = vec![0; report.held.len];
    }
}

/// Calls `zermuita_judge_case`.
pub(crate) fn judge(case: &CaseOctets<'_>) -> Replied {
    let handed = Room::<_, { sys::ZERMUITA_CASE_ROOM }>::new(sys::zermuita_case {
        size: std::mem::size_of::<sys::zermuita_case>(),
        apex: Octets::of(case.apex),
        ds: Octets::of(case.ds.unwrap_or(&[])),
        dnskey: Octets::of(case.dnskey),
        answer: Octets::of(case.answer),
        name: Octets::of(case.name),
        checked: Octets::of(case.checked),
        now: case.now,
        rtype: case.rtype,
        rclass: 1,
        max_nsec3_iterations: case.max_nsec3_iterations,
        one_moment: case.one_moment.into(),
        as_received: case.as_received.into(),
        algorithms: Octets::of(case.algorithms),
        max_signatures: case.max_signatures,
        other_question: case.other_question.into(),
        no_ds: case.ds.is_none().into(),
        places: case.places.into(),
    });
    replied(|out, report| {
        // SAFETY: `handed` has room of 256 octets and more, zeros behind what is set, and no null pointer; its octets are borrowed until
        // the call returns and nobody writes them. `out` is written up to its length, `report` within its room of 128 octets and more;
        // both are borrowed here alone, so nothing that is read overlaps them.
        unsafe { sys::zermuita_judge_case(handed.as_ptr(), out.as_mut_ptr(), out.len(), report.as_mut_ptr()) }
    })
}

/// Calls `zermuita_resolve_evidence`.
pub(crate) fn resolve(evidence: &EvidenceOctets<'_>) -> Replied {
    let handed = Room::<_, { sys::ZERMUITA_CASE_ROOM }>::new(sys::zermuita_evidence {
        size: std::mem::size_of::<sys::zermuita_evidence>(),
        anchor: Octets::of(evidence.anchor),
        ds: Octets::of(evidence.ds),
        name: Octets::of(evidence.name),
        messages: Octets::of(evidence.messages),
        checked: Octets::of(evidence.checked),
        algorithms: Octets::of(evidence.algorithms),
        now: evidence.now,
        rtype: evidence.rtype,
        max_nsec3_iterations: evidence.max_nsec3_iterations,
        max_cuts: evidence.max_cuts,
        max_aliases: evidence.max_aliases,
        one_moment: evidence.one_moment.into(),
        max_messages: evidence.max_messages,
        max_signatures: evidence.max_signatures,
        max_work: evidence.max_work,
    });
    replied(|out, report| {
        // SAFETY: as in `judge`.
        unsafe { sys::zermuita_resolve_evidence(handed.as_ptr(), out.as_mut_ptr(), out.len(), report.as_mut_ptr()) }
    })
}

/// The name and the sentence of a reply.
pub(crate) fn reply_text(reply: u32) -> &'static str {
    let mut text = Octets::of(&[]);
    // SAFETY: the pointer is to a structure that is borrowed here alone. The library sets it to octets that are constants of its own,
    // which stay as long as the program runs, as the header says.
    let octets: &'static [u8] = unsafe {
        sys::zermuita_reply_text(reply, &mut text);
        std::slice::from_raw_parts(text.data, text.len)
    };
    let end = octets.iter().position(|it| *it == 0).unwrap_or(octets.len());
    std::str::from_utf8(&octets[..end]).unwrap_or("")
}

/// Whether a reply is a verdict.
#[cfg(test)]
pub(crate) fn is_verdict(reply: u32) -> bool {
    // SAFETY: the function takes a number and reads nothing else.
    unsafe { sys::zermuita_is_verdict(reply) == 1 }
}

/// Whether a reply says why there is no verdict.
#[cfg(test)]
pub(crate) fn is_refusal(reply: u32) -> bool {
    // SAFETY: as above.
    unsafe { sys::zermuita_is_refusal(reply) == 1 }
}

/// The version of the library that runs.
pub(crate) fn version() -> u32 {
    // SAFETY: the function takes nothing.
    unsafe { sys::zermuita_version() }
}

/// A reply of a zone, with its report and its output.
pub(crate) struct ZoneReplied {
    pub(crate) reply: u32,
    pub(crate) report: sys::zermuita_zone_report,
    out: Vec<u8>,
}

impl ZoneReplied {
    pub(crate) fn octets(&self) -> &[u8] {
        &self.out[..self.report.len.min(self.out.len())]
    }

    pub(crate) fn into_octets(mut self) -> Vec<u8> {
        self.out.truncate(self.report.len);
        self.out
    }
}

/// What a zone's call writes its report to.
type ZoneReport = Room<sys::zermuita_zone_report, { sys::ZERMUITA_REPORT_ROOM }>;

fn zone_report() -> ZoneReport {
    let size = std::mem::size_of::<sys::zermuita_zone_report>();
    Room::new(sys::zermuita_zone_report { size, len: 0, line: 0, whole: 0, settled: 0 })
}

/// Calls with a buffer, and once more with a larger one where that is too small, if nothing was changed by the first call.
fn zone_replied(mut call: impl FnMut(&mut [u8], &mut ZoneReport) -> u32) -> ZoneReplied {
    let mut out = vec![0; FIRST_ROOM];
    loop {
        let mut report = zone_report();
        let reply = call(&mut out, &mut report);
        if reply != sys::ZERMUITA_ZONE_BUFFER_TOO_SMALL || report.held.len <= out.len() {
            return ZoneReplied { reply, report: report.held, out };
        }
        out = vec![0; report.held.len];
    }
}

/// How many octets the buffer of a zone has at first: all but large answers fit.
const ZONE_ROOM: usize = 65_536;

/// A zone of the library, which is closed when it is dropped. It stays with the thread that made it: it is neither `Send` nor `Sync`.
pub(crate) struct ZoneHandle {
    zone: sys::zermuita_zone,
    /// What calls write to: one buffer for all, since some are many in a second.
    room: Vec<u8>,
    stays: PhantomData<*mut ()>,
}

/// A request in octets.
pub(crate) struct RequestOctets<'a> {
    pub(crate) request: &'a [u8],
    pub(crate) made: &'a [u8],
    pub(crate) now: u64,
    pub(crate) backdate: u32,
    pub(crate) stream: bool,
    pub(crate) limit: u16,
    pub(crate) udp_size: u16,
}

impl ZoneHandle {
    pub(crate) fn closed() -> Self {
        ZoneHandle { zone: sys::zermuita_zone::CLOSED, room: vec![0; ZONE_ROOM], stays: PhantomData }
    }

    /// The reply of a call, with what it wrote to the buffer.
    fn replied(&self, reply: u32, report: &ZoneReport) -> ZoneReplied {
        let report = report.held;
        ZoneReplied { reply, report, out: self.room[..report.len.min(self.room.len())].to_vec() }
    }

    /// Opens it. The call of the library says all, whether there is room for what it tells or not; so that it needs no second call the
    /// room is large.
    pub(crate) fn open(&mut self, journal: &[u8]) -> ZoneReplied {
        let mut report = zone_report();
        // SAFETY: the zone is closed or open, is borrowed here alone, and was opened by this thread if it is open, since it is not `Send`.
        // `journal` is borrowed until the call returns; pointers of slices are not null. The buffer and `report` are borrowed here alone.
        let reply = unsafe {
            sys::zermuita_zone_open(
                &mut self.zone,
                journal.as_ptr(),
                journal.len(),
                self.room.as_mut_ptr(),
                self.room.len(),
                report.as_mut_ptr(),
            )
        };
        self.replied(reply, &report)
    }

    /// Applies a line. It is accepted whether there is room for what it tells or not, so this is called once.
    pub(crate) fn apply(&mut self, line: &[u8]) -> ZoneReplied {
        let mut report = zone_report();
        // SAFETY: as in `open`.
        let reply = unsafe {
            sys::zermuita_zone_apply(
                &mut self.zone,
                line.as_ptr(),
                line.len(),
                self.room.as_mut_ptr(),
                self.room.len(),
                report.as_mut_ptr(),
            )
        };
        self.replied(reply, &report)
    }

    pub(crate) fn forget(&mut self) -> u32 {
        // SAFETY: the zone is borrowed here alone, by its thread.
        unsafe { sys::zermuita_zone_forget(&mut self.zone) }
    }

    pub(crate) fn due(&mut self, roll: u32) -> (u32, sys::zermuita_due, Vec<u8>) {
        let mut out = vec![0; FIRST_ROOM];
        loop {
            let size = std::mem::size_of::<sys::zermuita_due>();
            let due = sys::zermuita_due { size, len: 0, from: 0, ttl: 0, phase: 0 };
            let mut due = Room::<_, { sys::ZERMUITA_REPORT_ROOM }>::new(due);
            // SAFETY: as in `open`.
            let reply = unsafe { sys::zermuita_zone_due(&mut self.zone, roll, out.as_mut_ptr(), out.len(), due.as_mut_ptr()) };
            if reply != sys::ZERMUITA_ZONE_BUFFER_TOO_SMALL || due.held.len <= out.len() {
                out.truncate(due.held.len);
                return (reply, due.held, out);
            }
            out = vec![0; due.held.len];
        }
    }

    pub(crate) fn facts(&mut self) -> (u32, sys::zermuita_facts, Vec<u8>) {
        let mut out = vec![0; FIRST_ROOM];
        loop {
            let size = std::mem::size_of::<sys::zermuita_facts>();
            let facts = sys::zermuita_facts { size, len: 0, last: 0, answers_from: 0, ttl: 0, life: 0 };
            let mut facts = Room::<_, { sys::ZERMUITA_REPORT_ROOM }>::new(facts);
            // SAFETY: as in `open`.
            let reply = unsafe { sys::zermuita_zone_facts(&mut self.zone, out.as_mut_ptr(), out.len(), facts.as_mut_ptr()) };
            if reply != sys::ZERMUITA_ZONE_BUFFER_TOO_SMALL || facts.held.len <= out.len() {
                out.truncate(facts.held.len);
                return (reply, facts.held, out);
            }
            out = vec![0; facts.held.len];
        }
    }

    pub(crate) fn records(&mut self, rtype: u16) -> ZoneReplied {
        let zone = &mut self.zone;
        zone_replied(|out, report| {
            // SAFETY: as in `open`.
            unsafe { sys::zermuita_zone_records(zone, rtype, out.as_mut_ptr(), out.len(), report.as_mut_ptr()) }
        })
    }

    pub(crate) fn respond(&mut self, request: &RequestOctets<'_>) -> ZoneReplied {
        let handed = Room::<_, { sys::ZERMUITA_REQUEST_ROOM }>::new(sys::zermuita_request {
            size: std::mem::size_of::<sys::zermuita_request>(),
            request: Octets::of(request.request),
            made: Octets::of(request.made),
            now: request.now,
            backdate: request.backdate,
            stream: request.stream.into(),
            limit: request.limit,
            udp_size: request.udp_size,
        });
        loop {
            let mut report = zone_report();
            // SAFETY: as in `open`; the request has room of 128 octets and more with zeros behind it, and its octets are borrowed until
            // the call returns.
            let reply = unsafe {
                let (out, len) = (self.room.as_mut_ptr(), self.room.len());
                sys::zermuita_zone_respond_to(&mut self.zone, handed.as_ptr(), out, len, report.as_mut_ptr())
            };
            if reply != sys::ZERMUITA_ZONE_BUFFER_TOO_SMALL || report.held.len <= self.room.len() {
                return self.replied(reply, &report);
            }
            self.room = vec![0; report.held.len];
        }
    }
}

impl Drop for ZoneHandle {
    fn drop(&mut self) {
        // SAFETY: the zone is borrowed here alone, by its thread; one that is closed stays so.
        unsafe { sys::zermuita_zone_close(&mut self.zone) };
    }
}

/// Calls `zermuita_zone_lines_of`.
pub(crate) fn lines_of(text: &[u8], origin: &[u8], chain: &[u8], apex: &[u8]) -> ZoneReplied {
    let master = Room::<_, { sys::ZERMUITA_MASTER_ROOM }>::new(sys::zermuita_master {
        size: std::mem::size_of::<sys::zermuita_master>(),
        text: Octets::of(text),
        origin: Octets::of(origin),
        chain: Octets::of(chain),
        apex: Octets::of(apex),
    });
    zone_replied(|out, report| {
        // SAFETY: the master file has room of 128 octets and more with zeros behind it; its octets are borrowed until the call returns.
        unsafe { sys::zermuita_zone_lines_of(master.as_ptr(), out.as_mut_ptr(), out.len(), report.as_mut_ptr()) }
    })
}
