//! Each call of the library through the crate, in little, so that it can run under valgrind.

use zermuita::message::Message;
use zermuita::{
    Algorithm, Applied, Ask, Case, Checked, Delegates, DsSet, JudgeError, Name, Parent, Phase, Question, Refusal, Request, Response, Roll,
    Rtype, SetType, SignError, SignatureError, Signatures, Signer, Verdict, Zone, ZoneError,
};

/// Says that all signatures pass, or that none does, or that none can be checked.
enum Says {
    Pass,
    Fail,
    Error,
}

impl Signatures for Says {
    fn algorithms(&self) -> &[Algorithm] {
        &[]
    }

    fn verify(&self, _ask: &Ask<'_>) -> Result<bool, SignatureError> {
        match self {
            Says::Pass => Ok(true),
            Says::Fail => Ok(false),
            Says::Error => Err(SignatureError::new("no device")),
        }
    }
}

struct Files {
    apex: Name,
    ds: DsSet,
    dnskey: Vec<u8>,
    answer: Vec<u8>,
}

fn files() -> Files {
    let read = |file: &str| std::fs::read(format!("{}/../../examples/c/nsec.test/{file}", env!("CARGO_MANIFEST_DIR"))).unwrap();
    Files {
        apex: "nsec.test".parse().unwrap(),
        ds: DsSet::from_octets(&read("ds")).unwrap(),
        dnskey: read("dnskey"),
        answer: read("answer"),
    }
}

impl Files {
    fn case<'a>(&'a self, question: &'a Question) -> Case<'a> {
        Case::new(&self.apex, Parent::Ds(&self.ds), &self.dnskey, &self.answer, question, 1_790_000_000)
    }
}

fn question(name: &str, rtype: Rtype) -> Question {
    Question::new(name.parse().unwrap(), rtype)
}

fn refusal(error: JudgeError) -> Option<Refusal> {
    match error {
        JudgeError::Refused(refused) => Some(refused.refusal),
        _ => None,
    }
}

#[test]
fn verdicts_and_refusals() {
    let (files, a) = (files(), question("A.nsec.test", Rtype::A));
    let mut case = files.case(&a);
    case.places = true;
    let mut checked = Checked::new();
    let judgement = case.judge_with(&Says::Pass, &mut checked).unwrap();
    assert_eq!(judgement.places, [0, 1]);
    assert!(matches!(&judgement.verdict, Verdict::Records(it) if it.iter().count() == 2));
    assert_eq!((checked.count(), checked.iter().all(|it| it.1)), (2, true));
    assert_eq!(refusal(case.judge(&Says::Fail).unwrap_err()), Some(Refusal::NoTrustedKey));
    assert_eq!(case.judge(&Says::Error), Err(JudgeError::Signature(SignatureError::new("no device"))));

    let other = question("b.nsec.test", Rtype::A);
    let error = files.case(&other).judge(&Says::Pass).unwrap_err();
    assert_eq!(error.to_string(), "ZERMUITA_QUESTION_MISMATCH: a message answers another question");
    let outside = question("a.test", Rtype::A);
    assert_eq!(refusal(files.case(&outside).judge(&Says::Pass).unwrap_err()), Some(Refusal::QuestionNotAllowed));
}

#[test]
fn a_zone_without_ds_is_insecure() {
    let (files, a) = (files(), question("a.nsec.test", Rtype::A));
    let mut case = files.case(&a);
    case.parent = Parent::NoDs;
    case.places = true;
    let judgement = case.judge(&Says::Fail).unwrap();
    assert_eq!((&judgement.verdict, judgement.extended, judgement.ttl), (&Verdict::Insecure, None, 0));
    assert_ne!(judgement.verdict, Verdict::Nodata(Delegates::Unknown));
}

/// The answer with so many addresses in the place of its own, under the same signature.
fn with_addresses(answer: &[u8], count: u16) -> Vec<u8> {
    let message = Message::read(answer).unwrap();
    let rrsig = message.records().find(|it| it.rtype == Rtype::RRSIG).unwrap();
    let end = message.records().next().unwrap().at - 12;
    let mut octets = [&answer[..6], &(count + 1).to_be_bytes(), &[0; 4], &answer[12..end]].concat();
    let mut put = |rtype: Rtype, data: &[u8]| {
        octets.extend_from_slice(&[0xc0, 12]);
        octets.extend_from_slice(&rtype.0.to_be_bytes());
        octets.extend_from_slice(&[0, 1, 0, 0, 14, 16]);
        octets.extend_from_slice(&(data.len() as u16).to_be_bytes());
        octets.extend_from_slice(data);
    };
    put(Rtype::RRSIG, rrsig.data);
    (0..count).for_each(|it| put(Rtype::A, &[192, 0, (it >> 8) as u8, it as u8]));
    octets
}

#[test]
fn long_outputs_have_room() {
    // Both what is asked for and the records have more octets than the first buffer.
    let (files, a) = (files(), question("a.nsec.test", Rtype::A));
    let mut case = files.case(&a);
    let long = with_addresses(&files.answer, 1000);
    case.answer = &long;
    match case.judge(&Says::Pass).unwrap().verdict {
        Verdict::Records(records) => assert_eq!(records.iter().count(), 1000),
        other => panic!("{other}"),
    }
    let lines: String = (0..1000).map(|it| format!("host{it} 3600 IN A 192.0.2.1\n")).collect();
    let journal = Zone::lines_of((MASTER.to_owned() + &lines).as_bytes(), "", "nsec 0 604800", "").unwrap();
    assert!(journal.len() > 10_000);
}

const MASTER: &str = "\
$ORIGIN example.
@ 3600 IN SOA ns host 1 3600 900 86400 300
@ 3600 IN NS ns
ns 3600 IN A 192.0.2.1
www 3600 IN A 192.0.2.2
";

/// Makes signatures of zeros.
struct Zeros(usize);

impl Signer for Zeros {
    fn sign(&mut self, dnskey: &[u8], octets: &[u8]) -> Result<Vec<u8>, SignError> {
        assert!(dnskey.len() > 4 && octets.len() > 18);
        self.0 += 1;
        Ok(vec![0; 64])
    }
}

struct Broken;

impl Signer for Broken {
    fn sign(&mut self, dnskey: &[u8], _octets: &[u8]) -> Result<Vec<u8>, SignError> {
        Err(SignError::new(Algorithm(dnskey[3]), "no key"))
    }
}

fn request(question: &Question) -> Vec<u8> {
    zermuita::message::query(7, 0, question, 1232)
}

#[test]
fn a_zone_is_served() {
    let journal = Zone::lines_of(MASTER.as_bytes(), "", "nsec 0 604800", "example").unwrap();
    let mut zone = Zone::open(&journal).unwrap();
    assert_eq!((zone.whole(), zone.settled()), (journal.len(), journal.len()));
    let octets = request(&question("www.example", Rtype::A));
    let request = Request { octets: &octets, now: 1_790_000_000, backdate: 3600, is_stream: false, limit: 1232 };
    let response = zone.respond(&request, &mut Zeros(0)).unwrap();
    assert!(matches!(&response, Response::Octets(it) if it.len() > 12 && it[..2] == [0, 7]));
    let nothing = Request { octets: b"x", ..request };
    assert_eq!(zone.respond(&nothing, &mut Broken), Ok(Response::None));
    assert_eq!(zone.records(SetType::Ds).unwrap().iter().count(), 0);
    let due = zone.due(Roll::Csk).unwrap();
    assert_eq!((due.phase, due.from, due.actions.len()), (Phase::None, None, 0));
    assert!(matches!(zone.apply(b"no line"), Err(ZoneError::Refused { .. })));
    zone.forget().unwrap();
}

#[test]
fn what_cannot_be_read_is_refused_with_its_line() {
    let error = Zone::lines_of(b"$ORIGIN example.\n@ 3600 IN SOA\n", "", "nsec 0 604800", "").unwrap_err();
    assert_eq!(error.line, 2);
    assert!(!error.reason.is_empty());
    let mut journal = Zone::lines_of(MASTER.as_bytes(), "", "nsec 0 604800", "").unwrap();
    let lines = journal.iter().filter(|it| **it == b'\n').count();
    journal.extend_from_slice(b"nothing\n");
    match Zone::open(&journal) {
        Err(ZoneError::Refused { line, reason }) => assert_eq!((line, reason.is_empty()), (lines + 1, false)),
        other => panic!("{other:?}"),
    }
    assert_eq!(Roll::ALL.iter().map(|it| it.to_string().parse()).collect::<Vec<_>>(), Roll::ALL.iter().map(|it| Ok(*it)).collect::<Vec<_>>());
    let _ = Applied::Untold;
}
