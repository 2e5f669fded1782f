//! The way as one object of JSON.

use std::io::{self, Write};

use serde_json::{json, Map, Value};
use zermuita::{End, Outcome, RecordData, Reply, Rtype, Secure, Wanted};

use super::text::judgement;
use super::{Said, Traced};
use crate::text;
use crate::way::{signatures_of, HashState, Hashed, Judged, Way, Zone};

fn records(rtype: Rtype, data: &RecordData) -> Value {
    data.iter().map(|it| text::data(rtype, it)).collect()
}

fn question(wanted: &Wanted) -> Map<String, Value> {
    let (zone, name, rtype) = (wanted.zone.to_string(), wanted.question.name.to_string(), wanted.question.rtype.to_string());
    object([("zone", zone.into()), ("name", name.into()), ("type", rtype.into())])
}

fn object<const N: usize>(members: [(&str, Value); N]) -> Map<String, Value> {
    members.into_iter().map(|(name, value)| (name.to_owned(), value)).collect()
}

fn hashed(it: &Hashed) -> Value {
    let state = match it.state {
        HashState::Matched => "matched",
        HashState::Covered => "covered",
        HashState::CoveredByOptOut => "covered-by-opt-out",
        HashState::Neither => "neither",
    };
    let record = it.record.map(|it| text::base32hex(&it));
    json!({"name": it.name.to_string(), "hash": text::base32hex(&it.hash), "state": state, "record": record})
}

/// The library's reply, and the extended error beside it.
fn reply(judged: &Judged) -> (Option<Reply>, Option<u16>) {
    match &judged.judgement {
        Ok(it) => (Some(it.verdict.reply()), it.extended.map(|it| it.0)),
        Err(zermuita::JudgeError::Refused(it)) => (Some(it.refusal.reply()), it.extended.map(|it| it.0)),
        Err(_) => (None, None),
    }
}

fn judged(it: &Judged) -> Value {
    let (reply, ede) = reply(it);
    let mut told = object([
        ("name", it.question.name.to_string().into()),
        ("type", it.question.rtype.to_string().into()),
        ("reply", reply.map(|it| it.to_string()).into()),
        ("says", judgement(it).into()),
    ]);
    if let Some(ede) = ede {
        told.insert("ede".to_owned(), ede.into());
    }
    told.insert("because".to_owned(), it.reasons.because.clone().into());
    told.insert("hashes".to_owned(), it.reasons.hashes.iter().map(hashed).collect());
    told.into()
}

fn signatures(way: &Way<'_>, at: usize) -> Value {
    let told = signatures_of(way, at).map(|it| {
        json!({
            "owner": it.owner.to_string(),
            "covered": it.rrsig.covered.to_string(),
            "tag": it.rrsig.tag,
            "algorithm": it.rrsig.algorithm,
            "signer": it.rrsig.signer.to_string(),
            "inception": text::moment(it.rrsig.inception.into()),
            "expiration": text::moment(it.rrsig.expiration.into()),
            "state": it.state.word(),
        })
    });
    told.collect()
}

fn milliseconds(duration: std::time::Duration) -> Value {
    ((duration.as_secs_f64() * 1_000_000.0).round() / 1000.0).into()
}

fn message(traced: &Traced, way: &Way<'_>, at: usize, is_whole: bool) -> Value {
    let step = &way.steps[at];
    let mut told = question(step.wanted);
    if let Some(source) = traced.sources.get(step.wanted) {
        told.extend(object([("from", source.server.clone().into()), ("tcp", source.is_by_tcp().into())]));
        if let Some(it) = &source.course {
            told.extend(object([
                ("sent", it.sent.into()),
                ("timeouts", it.timeouts.into()),
                ("milliseconds", milliseconds(it.elapsed)),
            ]));
        }
    }
    told.insert("octets".to_owned(), step.message.len().into());
    if let Some(why_not) = way.why_not_judged(at) {
        told.insert("not_judged".to_owned(), why_not.into());
    }
    told.insert("judgements".to_owned(), step.judged.iter().map(judged).collect());
    told.insert("signatures".to_owned(), signatures(way, at));
    if is_whole {
        told.insert("message".to_owned(), text::hex(step.message).into());
    }
    told.into()
}

fn zone(way: &Way<'_>, it: &Zone) -> Value {
    let ds = it.keys.set.iter().map(|ds| {
        json!({
            "tag": ds.tag,
            "algorithm": ds.algorithm,
            "digest_type": ds.digest_type,
            "digest": text::hex(&ds.digest),
            "state": it.keys.state_of(ds).word(),
        })
    });
    let keys = it.keys.keys.iter().map(|key| {
        let named_by: Vec<_> = it.keys.set.iter().filter(|ds| ds.names(&it.name, key)).map(|it| it.text()).collect();
        json!({"tag": key.tag, "flags": key.flags, "algorithm": key.algorithm, "named_by": named_by})
    });
    json!({
        "zone": it.name.to_string(),
        "above": it.above.map(|at| way.zones[at].name.to_string()),
        "ds": ds.collect::<Value>(),
        "keys": keys.collect::<Value>(),
    })
}

/// What is said behind the aliases.
fn rest(end: &End, rtype: Rtype) -> Map<String, Value> {
    match &end.outcome {
        Outcome::Secure { zone, says: Secure::Records(data) | Secure::Wildcard(data) } => {
            object([("zone", zone.to_string().into()), ("records", records(rtype, data))])
        }
        Outcome::Secure { zone, .. } | Outcome::OptOut { zone } => object([("zone", zone.to_string().into())]),
        Outcome::Insecure { delegation } => object([("delegation", delegation.to_string().into())]),
        Outcome::Refused { answer: Some(it), .. } | Outcome::NothingTold { answer: it } => object([("refused", question(it).into())]),
        _ => Map::new(),
    }
}

fn report(end: &End) -> Map<String, Value> {
    let mut told = Map::new();
    if let Some(extended) = end.extended {
        told.insert("ede".to_owned(), extended.0.into());
        told.extend(extended.name().map(|it| ("ede_name".to_owned(), it.into())));
    }
    if end.until > 0 {
        told.extend(object([("ttl", end.ttl.into()), ("until", end.until.into())]));
    }
    told
}

/// Prints the object.
pub fn tell(traced: &Traced, way: &Way<'_>, has_messages: bool) -> io::Result<()> {
    let asked = traced.walk.question();
    let mut told = object([
        ("name", asked.name.to_string().into()),
        ("type", asked.rtype.to_string().into()),
        ("moment", traced.walk.now().into()),
        ("said", traced.end.as_ref().map_or(Said::NotShown, Said::of).word().into()),
    ]);
    if let Some(end) = &traced.end {
        told.insert("reply".to_owned(), end.reply.to_string().into());
        told.insert("aliases".to_owned(), end.aliases.iter().map(|it| it.to_string()).collect());
        told.extend(rest(end, asked.rtype));
        told.extend(report(end));
    } else {
        told.extend(object([("reply", "ZERMUITA_WANT: messages are wanted".into()), ("aliases", json!([]))]));
    }
    let counts = traced.walk.counts();
    told.extend(object([
        ("signatures", counts.signatures.into()),
        ("calls", counts.calls.into()),
        ("zones", way.zones.iter().map(|it| zone(way, it)).collect()),
        ("asked", (0..way.steps.len()).map(|at| message(traced, way, at, has_messages)).collect()),
    ]));
    if !traced.set_aside.is_empty() {
        let aside = traced.set_aside.iter().map(|(wanted, source, end)| {
            let mut it = question(wanted);
            it.extend(object([("from", source.server.clone().into()), ("reply", end.reply.to_string().into())]));
            Value::from(it)
        });
        told.insert("set_aside".to_owned(), aside.collect());
    }
    let mut out = io::stdout().lock();
    serde_json::to_writer(&mut out, &Value::from(told))?;
    writeln!(out)?;
    out.flush()
}
