"""Names, DS records, trust anchors, queries and the trust in replies: lines for backend_words.c, and what it is to print."""

from __future__ import annotations

import functools
import pathlib

from answers import part, wire

DONE, BAD_NAME, BAD_RECORD, BAD_DIGEST, BAD_ZONE_KEY, NO_ANCHOR, REVOKED, NOT_READ = range(8)
LONG = ".".join(["a" * 63] * 3)
# Text, wire form and text again, as BIND, ldns, Knot and dnspython read and write it (RFC 1035, 5.1; RFC 4343, 2.1).
NAMES = [
    ("example", "076578616d706c6500", "example."),
    (".", "00", "."),
    ("a.b.", "0161016200", "a.b."),
    (r"a\046b", "03612e6200", r"a\.b."),
    (r"a\ b", "0361206200", r"a\ b."),
    ("a b", "0361206200", r"a\ b."),
    (r"\(", "012800", "(."),
    (r"\;", "013b00", ";."),
    (r"\"", "012200", '".'),
    (r"\@", "014000", "@."),
    (r"\000", "010000", r"\000."),
    (r"\127", "017f00", r"\127."),
    (r"\255", "01ff00", r"\255."),
    (r"\*", "012a00", "*."),
    ("_a", "025f6100", "_a."),
    ("A.B.c", "01410142016300", "A.B.c."),
    (r"\a", "016100", "a."),
    (r"\..", "012e00", r"\.."),
    (r"a\.", "02612e00", r"a\.."),
    (r"\\", "015c00", r"\\."),
    (r"\0000", "02003000", r"\0000."),
    (r"a.\000\000.b", "0161020000016200", r"a.\000\000.b."),
    ("a" * 63, "3f" + "61" * 63 + "00", "a" * 63 + "."),
    (f"{LONG}.{'b' * 61}", ("3f" + "61" * 63) * 3 + "3d" + "62" * 61 + "00", f"{LONG}.{'b' * 61}."),
    (r"\001" * 63, "3f" + "01" * 63 + "00", r"\001" * 63 + "."),
]
BAD_NAMES = ["a..b", ".a", "..", r"\256.x", r"\2", r"\25", r"\2a5", r"a\300", "a\\", "a" * 64, f"{LONG}.{'b' * 62}", r"\001" * 64, LONG + "." + "a." * 32]
# Names, keys, and DS records of SHA-256 that BIND, ldns and dnspython make of them; of RFC 6605, 6, and RFC 8080, 6.
P256 = "0101030d1a88c88615d437fbb8bf9e1942a1929f28562706ae6c2bd399e7b1bfb6d1e9e75b92b4aa42917ae1c61b701ef035c3fe7be3009cbafe5a2f71316c902dcf0d00"
P384 = (
    "0101030ec4a61a36159d18e7c9fa73eb2fcfdaae4c1fd8463730327e484aca8af0554ae9b5c3f7a0b17bd2003b4d261c9e9b94423a9810e8af17d43452124adb61"
    "0f8e07ebfcfee5f8e4d07063cae9eb917a1a5babf08fe695536017a5bfa93237ee6e34"
)
KEYS = [
    ("076578616d706c65036e657400", P384, 4, "2a13 0e04 72d7b62976ce06438e9c0bf319013cf801f09ecc84b8d7e9495f27e305c6a9b0563a9b5f4d288405c3008a946df983d6"),
    ("076578616d706c65036e657400", P256, 2, "d960 0d02 b4c8c1fe2e7477127b27115656ad6256f424625bf5c1e2770ce6d6e37df61d17"),
    (
        "076578616d706c6500",
        "0100030d82781142d089f3a819d9c947caa510524dcf16e31aaad0d9f3d6dd6a0b29fd257f578d02ea58ed8c5276a5dcd23b646599e6333b6f429be6055fd4df17428322",
        2, "a3fc 0d02 9bf37d2391d07a70cec39f5fb6789c134d8b6e297c6db34a0118e7299b16a803",
    ),
    (
        "00", "0100030d73a49780df27b808c91197fd324bd18ccaaa27788d6b2d3f41019b8be6f20daf1d420bd458f321f0ac0711d812312d127b49b979f9d9e1a2bb912efba44a20ba",
        2, "ea34 0d02 647ff9a023cf0f61236c12c9cf252179618cb92fa312ccd4d9667fd8cc0b76ff",
    ),
]
# The keys of the root and their DS records, as IANA has them.
ROOT_2017 = (
    "AwEAAaz/tAm8yTn4Mfeh5eyI96WSVexTBAvkMgJzkKTOiW1vkIbzxeF3+/4RgWOq7HrxRixHlFlExOLAJr5emLvN7SWXgnLh4+B5xQlNVz8Og8kvArMtNROxVQuCaSnIDdD5LKyW"
    "bRd2n9WGe2R8PzgCmr3EgVLrjyBxWezF0jLHwVN8efS3rCj/EWgvIWgb9tarpVUDK/b58Da+sqqls3eNbuv7pr+eoZG+SrDK6nWeL3c6H5Apxz7LjVc1uTIdsIXxuOLYA4/ilBmS"
    "VIzuDWfdRUfhHdY6+cn8HFRm+2hM8AnXGXws9555KrUB5qihylGa8subX2Nn6UwNR1AkUTV74bU="
)
DS_2017 = "20326 8 2 E06D44B80B8F1D39A95C0B0D7C65D08458E880409BBC683457104237C7F8EC8D"
DS_2024 = "38696 8 2 683D2D0ACB8C9B712A1948B27F741219298D0A450D612C483AF444A4C0FB2B16"


def ds(text: str) -> str:
    """A DS record as a case has it, by its text."""
    tag, algorithm, kind, digest = text.split()
    return part(int(tag).to_bytes(2, "big") + bytes([int(algorithm), int(kind)]) + bytes.fromhex(digest)).hex()


def state(number: int, key: str = ROOT_2017, flags: int = 257) -> str:
    """A line of a file that unbound maintains."""
    words = "START ADDPEND VALID MISSING REVOKED REMOVED".split()
    word = words[number] if number < len(words) else "UNKNOWN"
    comment = f";{{id = 20326 (ksk), size = 2048b}} ;;state={number} [ {word} ] ;;count=0 ;;lastchange=1459820836 ;;Tue Apr  5 01:47:16 2016"
    return f".\t172800\tIN\tDNSKEY\t{flags} 3 8 {key} {comment}\n"


HEAD = "; autotrust trust anchor file\n;;id: . 1\n;;last_queried: 1484315304 ;;Fri Jan 13 14:48:24 2017\n;;query_failed: 0\n"
# Of a file what is said of it, in which line, and the DS set of the root if it is taken.
FILES = [
    (f". IN DS {DS_2017}\n. IN DS {DS_2024}\n", DONE, 0, ds(DS_2017) + ds(DS_2024)),
    (f". IN DNSKEY 257 3 8 {ROOT_2017}\n", DONE, 0, ds(DS_2017)),
    (f". 86400 IN DNSKEY 257 3 8 {ROOT_2017} ; a comment\n. IN DS {DS_2017}\n", DONE, 0, ds(DS_2017)),
    (HEAD + state(2), DONE, 0, ds(DS_2017)),
    (HEAD + state(3), DONE, 0, ds(DS_2017)),
    *((HEAD + state(it), NO_ANCHOR, 0, "") for it in (0, 1, 4, 5, 6, 9)),
    (HEAD + state(1) + f". IN DS {DS_2024}\n", DONE, 0, ds(DS_2024)),
    (HEAD + state(2, flags=385), NO_ANCHOR, 0, ""),
    (";;REVOKED\n; The zone has all keys revoked, and is\n" + HEAD + state(2), REVOKED, 0, ""),
    (f"$TTL 3600\n$ORIGIN .\n. ( IN DS 20326 8 2 ; the first\n E06D44B80B8F1D39A95C0B0D7C65D084 ; half\n\t58E880409BBC683457104237C7F8EC8D )\n", DONE, 0, ds(DS_2017)),
    (f"; none\n\n\r\n.\tds\t{DS_2017.lower()}", DONE, 0, ds(DS_2017)),
    (f". IN 3600 DS {DS_2017}\n. IN DS 1 8 250 00\n", DONE, 0, ds(DS_2017)),
    ("", NO_ANCHOR, 0, ""),
    ("; none\n", NO_ANCHOR, 0, ""),
    (". IN DS 1 8 250 00\n", NO_ANCHOR, 0, ""),
    (f". IN DS {DS_2017}\n. CH DS {DS_2017}\n", BAD_RECORD, 2, ""),
    (". IN A 192.0.2.1\n", BAD_RECORD, 1, ""),
    (". IN DS\n", BAD_RECORD, 1, ""),
    (". IN\n", BAD_RECORD, 1, ""),
    ("\n$ORIGIN example.\n", BAD_RECORD, 2, ""),
    (". IN DS 65536 8 2 00\n", BAD_RECORD, 1, ""),
    (". IN DS -1 8 2 00\n", BAD_RECORD, 1, ""),
    (f". IN DS {DS_2017[:-1]}\n", BAD_DIGEST, 1, ""),
    (f". IN DS {DS_2017[:-2]}\n", BAD_DIGEST, 1, ""),
    (f". IN DS {DS_2017}00\n", BAD_DIGEST, 1, ""),
    (f". IN DS {DS_2017[:-1]}G\n", BAD_DIGEST, 1, ""),
    (". IN DS 20326 8 2\n", BAD_DIGEST, 1, ""),
    (f"a..b IN DS {DS_2017}\n", BAD_NAME, 1, ""),
    (f"{'a' * 1100} IN DS {DS_2017}\n", BAD_NAME, 1, ""),
    (f". IN DNSKEY 257 3 8 {ROOT_2017[:-1]}\n", BAD_ZONE_KEY, 1, ""),
    (f". IN DNSKEY 257 3 8 {ROOT_2017[:-2]}=!\n", BAD_ZONE_KEY, 1, ""),
    (f". IN DNSKEY 257 3 8 ={ROOT_2017[1:]}\n", BAD_ZONE_KEY, 1, ""),
    (". IN DNSKEY 257 3 8\n", BAD_ZONE_KEY, 1, ""),
    (f". IN DNSKEY 1 3 8 {ROOT_2017}\n", BAD_ZONE_KEY, 1, ""),
    (f". IN DNSKEY 257 2 8 {ROOT_2017}\n", BAD_ZONE_KEY, 1, ""),
    (f". IN DNSKEY 257 3 8 {'A' * 4000}\n", BAD_ZONE_KEY, 1, ""),
    (f". IN DS ( {DS_2017}\n", BAD_RECORD, 1, ""),
    (f". IN DS ( ( {DS_2017} ) )\n", BAD_RECORD, 1, ""),
    (f". IN DS {DS_2017} )\n", BAD_RECORD, 1, ""),
    (f". IN DS {DS_2017}\0\n", BAD_RECORD, 1, ""),
    (f". IN DS {DS_2017}{' ' * 9000}\n", BAD_RECORD, 1, ""),
    (";" * 1000001, NOT_READ, 0, ""),
]


def words(room: pathlib.Path) -> list[tuple[str, str]]:
    """Lines, and what is printed of each."""
    found = [(f"name {text}", f"{DONE} {octets} {again}") for text, octets, again in NAMES]
    found += [(f"name {text}", str(BAD_NAME)) for text in BAD_NAMES]
    found += [(f"ds {text}", f"{DONE} {ds(text)}") for text in (DS_2017, DS_2024.lower(), "1 5 1 " + "ab" * 20, "65535 255 4 " + "cd" * 48)]
    bad = [("", BAD_RECORD), ("1 8", BAD_RECORD), ("1 8 3 " + "00" * 32, BAD_DIGEST), ("1 8 2 00", BAD_DIGEST), ("1 256 2 00", BAD_RECORD)]
    found += [(f"ds {text}", f"{error} ") for text, error in bad]
    for zone, key, kind, data in KEYS:
        octets = part(bytes.fromhex(data.replace(" ", ""))).hex()
        upper = bytes.fromhex(zone).upper().hex()
        found += [(f"key {it} {key} {kind}", f"{DONE} {octets}") for it in (zone, upper)]
    found += [(f"key 00 {P256} 1", f"{BAD_DIGEST} "), (f"key 05 {P256} 2", f"{BAD_NAME} "), (f"key - {P256} 2", f"{BAD_NAME} ")]
    found += [(f"key 00 0001{P256[4:]} 2", f"{BAD_ZONE_KEY} "), ("key 00 0101030d 2", f"{BAD_ZONE_KEY} ")]
    wanted = wire("www.example.com").hex()
    found += [("query www.example.com 28 4660", f"1234000000010000000000 01 {wanted} 001c 0001 00 0029 04d0 00008000 0000".replace(" ", ""))]
    found += [("security", "".join(str(trust(it)) for it in range(64)))]
    return found


def trust(reply: int) -> int:
    """RFC 4035, 4.3, by the groups of include/zermuita.h and docs/use/CALLING.md."""
    if reply in (0, 1, 2, 3, 4, 8, 9, 10):
        return 3
    return 2 if reply in (6, 7) else 1 if reply in (21, 22, 25) else 0


@functools.cache
def rows(room: pathlib.Path) -> list[tuple[str, str]]:
    """All lines. Each file that is taken is read by a program of its own, or else the sets of several would be one: those of other zones
    come last, in one file."""
    found = words(room)
    anchors = room / "anchors"
    anchors.mkdir(exist_ok=True)
    taken = ""
    for at, (text, error, line, whole) in enumerate(FILES):
        path = anchors / f"{at}"
        path.write_text(text)
        found.append((f"anchors {path}", f"{error} {line}"))
        if error == DONE:
            # The records of all files so far, each once, in the order of their first.
            taken += "".join(it for it in records(whole) if it not in taken)
        found.append(("of . 1", f"00 {taken}" if taken else ""))
    found.append((f"anchors {anchors}/none", f"{NOT_READ} 0"))
    path = anchors / "zones"
    path.write_text(f"Example. IN DS {DS_2017}\nwww.example. IN DS {DS_2024}\nexample. IN DS {DS_2024}\n")
    found.append((f"anchors {path}", f"{DONE} 0"))
    zone, www = wire("Example").hex(), wire("www.example").hex()
    both = ds(DS_2017) + ds(DS_2024)
    found += [
        ("of example 1", f"{zone} {both}"),
        ("of a.EXAMPLE 1", f"{zone} {both}"),
        ("of www.example 1", f"{www} {ds(DS_2024)}"),
        ("of b.a.www.example 1", f"{www} {ds(DS_2024)}"),
        ("of www.example 43", f"{zone} {both}"),
        ("of example 43", f"00 {taken}"),
        ("of other 1", f"00 {taken}"),
        ("of . 43", ""),
    ]
    return found


def records(whole: str) -> list[str]:
    """The records of a DS set, in hexadecimal digits with their lengths."""
    found, rest = [], bytes.fromhex(whole)
    while rest:
        end = 2 + int.from_bytes(rest[:2], "big")
        found.append(rest[:end].hex())
        rest = rest[end:]
    return found


def text(room: pathlib.Path) -> str:
    return "".join(f"{line}\n" for line, _ in rows(room))


def printed(room: pathlib.Path) -> str:
    return "".join(f"{said}\n" for _, said in rows(room))
