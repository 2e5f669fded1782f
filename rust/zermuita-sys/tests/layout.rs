//! Sizes, offsets and numbers are those of the headers, as the C compiler has them.

use std::collections::BTreeMap;
use std::process::Command;

use zermuita_sys::*;

/// Of each expression of C that is asked for, its number here.
type Numbers = BTreeMap<String, u64>;

macro_rules! layout {
    ($numbers:ident, $name:ident { $($field:ident),* $(,)? }) => {{
        $numbers.insert(format!("sizeof(struct {})", stringify!($name)), std::mem::size_of::<$name>() as u64);
        $numbers.insert(format!("_Alignof(struct {})", stringify!($name)), std::mem::align_of::<$name>() as u64);
        let held = std::mem::MaybeUninit::<$name>::uninit();
        let base = held.as_ptr();
        $(
            // SAFETY: only the place of the field is taken, and nothing is read.
            let at = unsafe { std::ptr::addr_of!((*base).$field) } as usize - base as usize;
            $numbers.insert(format!("offsetof(struct {}, {})", stringify!($name), stringify!($field)), at as u64);
            // SAFETY: as above; the size is that of the type of the place.
            let size = unsafe { size_of_place(std::ptr::addr_of!((*base).$field)) };
            $numbers.insert(format!("sizeof(((struct {}*)0)->{})", stringify!($name), stringify!($field)), size as u64);
        )*
    }};
}

/// # Safety
///
/// Nothing is read: any pointer will do.
unsafe fn size_of_place<T>(_place: *const T) -> usize {
    std::mem::size_of::<T>()
}

macro_rules! constants {
    ($numbers:ident: $($name:ident),* $(,)?) => {
        $($numbers.insert(stringify!($name).to_owned(), $name as u64);)*
    };
}

fn layouts(numbers: &mut Numbers) {
    layout!(numbers, zermuita_case {
        size, apex, ds, dnskey, answer, name, checked, now, rtype, rclass, max_nsec3_iterations, one_moment, as_received,
        algorithms, max_signatures, other_question, no_ds, places,
    });
    layout!(numbers, zermuita_evidence {
        size, anchor, ds, name, messages, checked, algorithms, now, rtype, max_nsec3_iterations, max_cuts, max_aliases,
        one_moment, max_messages, max_signatures, max_work,
    });
    layout!(numbers, zermuita_report { size, len, until, verifications, hashes, ttl, ede, delegates });
    layout!(numbers, zermuita_zone { held, is_open });
    layout!(numbers, zermuita_zone_report { size, len, line, whole, settled });
    layout!(numbers, zermuita_master { size, text, origin, chain, apex });
    layout!(numbers, zermuita_due { size, len, from, ttl, phase });
    layout!(numbers, zermuita_facts { size, len, last, answers_from, ttl, life });
    layout!(numbers, zermuita_request { size, request, made, now, backdate, stream, limit, udp_size });
    numbers.insert("sizeof(struct zermuita_octets)".to_owned(), std::mem::size_of::<Octets>() as u64);
    numbers.insert("offsetof(struct zermuita_octets, len)".to_owned(), 8);
}

fn numbers() -> Numbers {
    let mut numbers = Numbers::new();
    layouts(&mut numbers);
    constants!(numbers:
        ZERMUITA_CASE_ROOM, ZERMUITA_REPORT_ROOM, ZERMUITA_MASTER_ROOM, ZERMUITA_REQUEST_ROOM,
        ZERMUITA_RECORDS, ZERMUITA_NODATA, ZERMUITA_NXDOMAIN, ZERMUITA_WILDCARD, ZERMUITA_WILDCARD_NODATA, ZERMUITA_DELEGATED,
        ZERMUITA_OPTOUT, ZERMUITA_INSECURE, ZERMUITA_ALIAS, ZERMUITA_WILDCARD_ALIAS, ZERMUITA_DNAME, ZERMUITA_REFERRAL,
        ZERMUITA_QUESTION_NOT_ALLOWED, ZERMUITA_BAD_DNSKEY_MESSAGE, ZERMUITA_BAD_ANSWER_MESSAGE, ZERMUITA_QUESTION_MISMATCH,
        ZERMUITA_EQUAL_TAGS, ZERMUITA_NO_TRUSTED_KEY, ZERMUITA_MIXED_NSEC3_PARAMETERS, ZERMUITA_ITERATIONS_OVER_LIMIT,
        ZERMUITA_HASH_FAILED, ZERMUITA_NOT_PROVEN, ZERMUITA_OUT_OF_MEMORY, ZERMUITA_MIXED_VERSIONS, ZERMUITA_MESSAGE_TOO_LONG,
        ZERMUITA_TOO_MANY_SIGNATURES, ZERMUITA_NOTHING_TOLD, ZERMUITA_OUTSIDE, ZERMUITA_ASK, ZERMUITA_WANT,
        ZERMUITA_BUFFER_TOO_SMALL, ZERMUITA_BAD_APEX, ZERMUITA_BAD_DS_SET, ZERMUITA_BAD_NAME, ZERMUITA_BAD_SIGNATURES,
        ZERMUITA_BAD_CASE, ZERMUITA_BAD_MESSAGES, ZERMUITA_TOO_MANY_CUTS, ZERMUITA_TOO_MANY_ALIASES, ZERMUITA_TOO_MANY_MESSAGES,
        ZERMUITA_INCOMPLETE_DENIAL, ZERMUITA_TOO_MUCH_WORK, ZERMUITA_DELEGATES_UNKNOWN, ZERMUITA_DELEGATES_YES, ZERMUITA_DELEGATES_NO,
        ZERMUITA_ZONE_DONE, ZERMUITA_ZONE_UNTOLD, ZERMUITA_ZONE_REFUSED, ZERMUITA_ZONE_RESPONSE, ZERMUITA_ZONE_NO_RESPONSE,
        ZERMUITA_ZONE_SIGN, ZERMUITA_ZONE_OUT_OF_MEMORY, ZERMUITA_ZONE_BUFFER_TOO_SMALL, ZERMUITA_ZONE_BAD_SIGNATURES,
        ZERMUITA_ZONE_BAD_CALL, ZERMUITA_ZONE_NOT_OPEN, ZERMUITA_ZONE_IS_OPEN, ZERMUITA_ZONE_TOO_SOON, ZERMUITA_ZONE_EXPIRED,
        ZERMUITA_KSK_ROLL, ZERMUITA_KSK_DOUBLE_DS_ROLL, ZERMUITA_ZSK_ROLL, ZERMUITA_ZSK_DOUBLE_SIGNATURE_ROLL, ZERMUITA_CSK_ROLL, ZERMUITA_ALGORITHM_ROLL, ZERMUITA_NO_ROLL,
        ZERMUITA_PROPAGATION_1, ZERMUITA_EXPIRY_1, ZERMUITA_PROPAGATION_2, ZERMUITA_EXPIRY_2, ZERMUITA_ROLLED,
    );
    numbers
}

#[test]
fn layout_is_that_of_the_headers() {
    let numbers = numbers();
    let folder = std::env::temp_dir().join(format!("zermuita-layout-{}", std::process::id()));
    std::fs::create_dir_all(&folder).unwrap();
    let lines: String = numbers.keys().map(|it| format!("    printf(\"%llu\\n\", (unsigned long long)({it}));\n")).collect();
    let program = format!(
        "#include <stddef.h>\n#include <stdio.h>\n#include <zermuita.h>\n#include <zermuita_zone.h>\n\
         static struct zermuita_zone closed = ZERMUITA_ZONE_CLOSED;\n\
         int main(void) {{\n    if (closed.held != NULL || closed.is_open != 0) return 1;\n{lines}    return 0;\n}}\n"
    );
    std::fs::write(folder.join("layout.c"), program).unwrap();
    let mut cc = Command::new(std::env::var("CC").unwrap_or_else(|_| "cc".to_owned()));
    for include in env!("ZERMUITA_INCLUDES").split(':').filter(|it| !it.is_empty()) {
        cc.arg("-I").arg(include);
    }
    // The header's inline functions name functions of the library, which this program does not call.
    cc.args(["-O2", "-c", "-o"]).arg(folder.join("layout.o")).arg(folder.join("layout.c"));
    assert!(cc.status().unwrap().success());
    let mut link = Command::new("cc");
    link.arg("-o").arg(folder.join("layout")).arg(folder.join("layout.o")).arg("-Wl,--unresolved-symbols=ignore-all");
    assert!(link.status().unwrap().success());
    let printed = Command::new(folder.join("layout")).output().unwrap();
    assert!(printed.status.success());
    let printed = String::from_utf8(printed.stdout).unwrap();
    let seen: Vec<u64> = printed.lines().map(|it| it.parse().unwrap()).collect();
    assert_eq!(seen.len(), numbers.len());
    for ((expression, number), seen) in numbers.iter().zip(seen) {
        assert_eq!(*number, seen, "{expression}");
    }
    std::fs::remove_dir_all(folder).unwrap();
}

#[test]
fn version_is_that_of_the_crate() {
    // SAFETY: the function takes nothing.
    let version = unsafe { zermuita_version() };
    let named = format!("{}.{}.{}", version >> 16, version >> 8 & 255, version & 255);
    assert_eq!(named, env!("CARGO_PKG_VERSION"));
}
