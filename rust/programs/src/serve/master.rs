//! Master files (RFC 1035, 5), each with those that it includes, as one text: the library reads no `$INCLUDE`. Behind an included file
//! origin and owner are those in front of it, and a missing TTL is that of the last `$TTL` or record, of whichever file.

use std::ffi::OsStr;
use std::io::{self, Read};
use std::os::unix::ffi::OsStrExt;
use std::os::unix::fs::OpenOptionsExt;
use std::path::{Path, PathBuf};

use zermuita::MasterError;

/// How deep files include others, and how many are included.
const DEPTH: usize = 10;
const FILES: usize = 1000;
/// How many words of an entry say whether it includes a file, with one more.
const WORDS: usize = 4;

/// The octets of a regular file. What is none, as a pipe, is refused: opening or reading it might never end.
fn read_file(path: &Path) -> io::Result<Vec<u8>> {
    let mut file = std::fs::OpenOptions::new().read(true).custom_flags(nix::libc::O_NONBLOCK).open(path)?;
    let kind = file.metadata()?.file_type();
    if !kind.is_file() {
        let why = if kind.is_dir() { nix::libc::EISDIR } else { nix::libc::EINVAL };
        return Err(io::Error::from_raw_os_error(why));
    }
    let mut octets = Vec::new();
    file.read_to_end(&mut octets)?;
    Ok(octets)
}

/// An error of the system as it has it, without its number.
fn why(error: &io::Error) -> String {
    let text = error.to_string();
    text.split(" (os error").next().unwrap_or("").to_owned()
}

/// A word, with its escapes as they are written.
#[derive(Debug, Default, PartialEq, Eq)]
struct Word {
    octets: Vec<u8>,
    is_quoted: bool,
}

impl Word {
    fn is_directive(&self, name: &str) -> bool {
        !self.is_quoted && self.octets.eq_ignore_ascii_case(name.as_bytes())
    }

    /// The octets that are meant.
    fn unescaped(&self) -> Vec<u8> {
        let (mut out, mut rest) = (Vec::new(), &self.octets[..]);
        while let Some((octet, behind)) = rest.split_first() {
            rest = behind;
            let digits = behind.get(..3).filter(|it| it.iter().all(u8::is_ascii_digit));
            let number = digits.and_then(|it| std::str::from_utf8(it).ok()?.parse::<u8>().ok());
            match (octet, number, behind) {
                (b'\\', Some(number), _) => {
                    out.push(number);
                    rest = &behind[3..];
                }
                (b'\\', None, [escaped, others @ ..]) => {
                    out.push(*escaped);
                    rest = others;
                }
                _ => out.push(*octet),
            }
        }
        out
    }

    /// The same as an absolute name, of one that stands below an origin.
    fn absolute(&self, origin: Option<&[u8]>) -> Option<Vec<u8>> {
        match &self.octets[..] {
            b"@" => origin.map(<[u8]>::to_vec),
            name if is_absolute(name) => Some(name.to_vec()),
            name => origin.map(|it| [name, b".", if it == b"." { &it[1..] } else { it }].concat()),
        }
    }
}

/// Whether a dot ends a name that is not escaped.
fn is_absolute(name: &[u8]) -> bool {
    let escapes = name.iter().rev().skip(1).take_while(|it| **it == b'\\').count();
    name.last() == Some(&b'.') && escapes % 2 == 0
}

/// The first entry of a text, over several lines where parentheses stand.
#[derive(Debug, Default)]
struct Entry {
    len: usize,
    /// A blank stands in front of it, so that the last owner is meant.
    is_indented: bool,
    /// A parenthesis or a quote does not end.
    is_open: bool,
    /// Its first words.
    words: Vec<Word>,
}

/// Reads an entry octet by octet.
#[derive(Default)]
struct Reader {
    word: Option<Word>,
    words: Vec<Word>,
    is_in_parentheses: bool,
    is_quoted: bool,
    is_escaped: bool,
    is_comment: bool,
}

impl Reader {
    fn end_word(&mut self) {
        if let Some(word) = self.word.take().filter(|_| self.words.len() < WORDS) {
            self.words.push(word);
        }
    }

    fn push(&mut self, octet: u8) {
        self.word.get_or_insert_with(Word::default).octets.push(octet);
    }

    /// Reads an octet, and says whether it ends the entry. A quote or an escape at the end of a line ends it too: it is a fault.
    fn read(&mut self, octet: u8) -> bool {
        match octet {
            b'\n' => {
                self.is_comment = false;
                self.end_word();
                return !self.is_in_parentheses || self.is_quoted || self.is_escaped;
            }
            _ if self.is_comment => {}
            _ if self.is_escaped => {
                self.is_escaped = false;
                self.push(octet);
            }
            b'\\' => {
                self.is_escaped = true;
                self.push(octet);
            }
            b'"' => {
                self.end_word();
                self.is_quoted = !self.is_quoted;
                self.word = self.is_quoted.then(|| Word { octets: Vec::new(), is_quoted: true });
            }
            _ if self.is_quoted => self.push(octet),
            b' ' | b'\t' | b'\r' => self.end_word(),
            b';' => {
                self.end_word();
                self.is_comment = true;
            }
            b'(' | b')' => {
                self.end_word();
                self.is_in_parentheses = octet == b'(';
            }
            _ => self.push(octet),
        }
        false
    }
}

impl Entry {
    fn first(text: &[u8]) -> Self {
        let mut reader = Reader::default();
        let end = text.iter().position(|it| reader.read(*it));
        reader.end_word();
        let is_open = reader.is_in_parentheses || reader.is_quoted || reader.is_escaped;
        let is_indented = matches!(text.first(), Some(b' ' | b'\t' | b'\r'));
        Entry { len: end.map_or(text.len(), |it| it + 1), is_indented, is_open, words: reader.words }
    }

    /// The words behind that of a directive.
    fn directive(&self, name: &str) -> Option<&[Word]> {
        let (first, others) = self.words.split_first()?;
        (!self.is_indented && first.is_directive(name)).then_some(others)
    }

    /// The word of the owner, if the entry is a record that has one.
    fn owner(&self) -> Option<&Word> {
        self.words.first().filter(|it| !self.is_indented && (it.is_quoted || !it.octets.starts_with(b"$")))
    }
}

/// What holds at a place of a file.
#[derive(Clone, Default)]
struct Context {
    depth: usize,
    origin: Option<Vec<u8>>,
    owner: Option<Vec<u8>>,
    /// An included file is in front, and no owner since: the next one that is left out is this file's.
    is_behind: bool,
}

/// A line of a file.
#[derive(Clone, Copy)]
struct Place {
    file: usize,
    line: usize,
}

/// The text of a master file.
#[derive(Default)]
pub struct Master {
    pub text: Vec<u8>,
    /// Where each line is from.
    places: Vec<Place>,
    files: Vec<PathBuf>,
}

impl Master {
    /// Reads a file, and those that it includes. An error names the file, and the line if it is of one.
    pub fn read(path: &Path, origin: &str) -> Result<Self, String> {
        let mut master = Master::default();
        let word = Word { octets: origin.as_bytes().to_vec(), is_quoted: false };
        let origin = if origin.is_empty() { None } else { word.absolute(Some(b".")) };
        let octets = read_file(path).map_err(|error| format!("{}: {}\n", path.display(), why(&error)))?;
        master.put_file(path.to_owned(), &octets, Context { origin, ..Context::default() })?;
        Ok(master)
    }

    /// What the library says of the text.
    pub fn fault(&self, error: &MasterError) -> String {
        match error.line.checked_sub(1).and_then(|it| self.places.get(it)) {
            Some(place) => self.of_line(*place, &error.reason),
            None => format!("{}: {}\n", self.files[0].display(), error.reason),
        }
    }

    fn of_line(&self, place: Place, why: impl std::fmt::Display) -> String {
        format!("{}: line {}: {why}\n", self.files[place.file].display(), place.line)
    }

    /// Puts octets of whole lines behind the text, of which the first one is from a place.
    fn put(&mut self, octets: &[u8], mut place: Place) {
        self.text.extend_from_slice(octets);
        if !octets.ends_with(b"\n") {
            self.text.push(b'\n');
        }
        for _ in octets.split_inclusive(|it| *it == b'\n') {
            self.places.push(place);
            place.line += 1;
        }
    }

    fn put_file(&mut self, path: PathBuf, mut rest: &[u8], mut context: Context) -> Result<(), String> {
        let mut place = Place { file: self.files.len(), line: 1 };
        self.files.push(path);
        while !rest.is_empty() {
            let entry = Entry::first(rest);
            let (octets, behind) = rest.split_at(entry.len);
            if entry.is_open && context.depth > 0 {
                return Err(self.of_line(place, "a quoted text or a parenthesis does not end in this file"));
            }
            match entry.directive("$INCLUDE") {
                Some(words) => self.include(words, place, &mut context)?,
                None => self.put_entry(&entry, octets, place, &mut context)?,
            }
            place.line += octets.iter().filter(|it| **it == b'\n').count();
            rest = behind;
        }
        Ok(())
    }

    /// Puts an entry as it is; behind an included file with its owner, if that is left out.
    fn put_entry(&mut self, entry: &Entry, octets: &[u8], place: Place, context: &mut Context) -> Result<(), String> {
        if let Some([name, ..]) = entry.directive("$ORIGIN") {
            context.origin = name.absolute(context.origin.as_deref());
        } else if let Some(owner) = entry.owner() {
            context.owner = owner.absolute(context.origin.as_deref());
            context.is_behind = false;
        } else if context.is_behind && entry.is_indented && !entry.words.is_empty() {
            let owner = context.owner.as_ref().ok_or_else(|| self.of_line(place, "no owner of this file to repeat"))?;
            self.text.extend_from_slice(owner);
            context.is_behind = false;
        }
        self.put(octets, place);
        Ok(())
    }

    /// Puts what an included file has, and the origin of the including one behind it.
    fn include(&mut self, words: &[Word], place: Place, context: &mut Context) -> Result<(), String> {
        let (file, of_file) = match words {
            [file] => (file, context.origin.clone()),
            [file, origin] if !origin.is_quoted => (file, origin.absolute(context.origin.as_deref())),
            _ => return Err(self.of_line(place, "not a file, and an origin or none: `$INCLUDE hosts.zone`")),
        };
        let (origin, own) = match (of_file, &context.origin) {
            (Some(origin), Some(own)) => (origin, own),
            _ => return Err(self.of_line(place, "an included file without an origin: `$ORIGIN example.`")),
        };
        if context.depth == DEPTH || self.files.len() > FILES {
            return Err(self.of_line(place, format!("files are included {DEPTH} deep at most, and {FILES} in all")));
        }
        let folder = self.files[place.file].parent().unwrap_or_else(|| Path::new(""));
        let path = folder.join(OsStr::from_bytes(&file.unescaped()));
        let octets = read_file(&path).map_err(|error| self.of_line(place, format!("{}: {}", path.display(), why(&error))))?;
        let [front, behind] = [&origin, own].map(|it| [b"$ORIGIN ", &it[..], b"\n"].concat());
        self.put(&front, place);
        let inner = Context { depth: context.depth + 1, origin: Some(origin), ..context.clone() };
        self.put_file(path, &octets, inner)?;
        self.put(&behind, place);
        context.is_behind = true;
        Ok(())
    }
}

#[cfg(test)]
mod tests {
    use super::*;
    use zermuita::Zone;

    /// A folder of its own, that goes with the test.
    struct Room(PathBuf);

    impl Room {
        fn new(name: &str, files: &[(&str, &str)]) -> Self {
            let room = Room(std::env::temp_dir().join(format!("master-{}-{name}", std::process::id())));
            for (name, text) in files {
                let path = room.0.join(name);
                std::fs::create_dir_all(path.parent().unwrap()).unwrap();
                std::fs::write(path, text).unwrap();
            }
            room
        }

        fn read(&self, name: &str, origin: &str) -> Result<Master, String> {
            Master::read(&self.0.join(name), origin)
        }

        /// What is wrong, with names of files below the folder.
        fn wrong(&self, name: &str) -> String {
            let told = |it: Master| Zone::lines_of(&it.text, "", "", "").map_err(|error| it.fault(&error));
            self.read(name, "example").and_then(told).unwrap_err().replace(&format!("{}/", self.0.display()), "")
        }
    }

    impl Drop for Room {
        fn drop(&mut self) {
            let _ = std::fs::remove_dir_all(&self.0);
        }
    }

    /// The owners, TTLs, types and data that the library reads.
    fn lines(text: &[u8], origin: &str) -> String {
        String::from_utf8(Zone::lines_of(text, origin, "", "").unwrap()).unwrap()
    }

    const SOA: &str = "@ 3600 SOA ns host 1 2 3 4 5\n";

    #[test]
    fn included_files_are_read_as_if_they_stood_there() {
        let zone = format!("$ORIGIN example.\n$TTL 60\n{SOA}www A 192.0.2.1\n$INCLUDE \"sub/a\\032b\" ; a comment\n  AAAA 2001:db8::1\n$include sub/c deep\nns A 192.0.2.2\n");
        let room = Room::new("whole", &[
            ("zone", &zone),
            ("sub/a b", "  TXT \"of www\"\nmail MX ( 10\n x )\n$ORIGIN other.example.\n$TTL 7\ny A 192.0.2.3"),
            ("sub/c", "@ A 192.0.2.4\n$INCLUDE d\n TXT again\n"),
            ("sub/d", "z.example. A 192.0.2.5\n"),
        ]);
        // The same, written as one.
        let one = "$ORIGIN example.\n@ 3600 SOA ns host 1 2 3 4 5\nwww 60 A 192.0.2.1\nwww 60 TXT \"of www\"\nmail 60 MX 10 x\n\
             y.other 7 A 192.0.2.3\nwww 7 AAAA 2001:db8::1\ndeep 7 A 192.0.2.4\nz 7 A 192.0.2.5\ndeep 7 TXT again\nns 7 A 192.0.2.2\n";
        let master = room.read("zone", "").unwrap();
        assert_eq!(lines(&master.text, ""), lines(one.as_bytes(), ""));
    }

    #[test]
    fn what_includes_nothing_stays_as_it_is() {
        let text = format!("{SOA}x TXT ( \"$INCLUDE\n\" )\n $INCLUDE a\n; $INCLUDE b\ny ( A\n$INCLUDE c )\n");
        let room = Room::new("plain", &[("zone", &text)]);
        assert_eq!(room.read("zone", "example").unwrap().text, text.as_bytes());
    }

    #[test]
    fn what_is_wrong_is_named_with_its_file_and_line() {
        let zone = |behind: &str| format!("{SOA}\n{behind}");
        let room = Room::new("wrong", &[
            ("missing", &zone("$INCLUDE none")),
            ("inner", &zone("$INCLUDE sub/one\n")),
            ("sub/one", "a 1 A 192.0.2.1\n$INCLUDE two"),
            ("sub/two", "\nb ( A\n 192.0.2.256 )\n"),
            ("behind", &zone("$INCLUDE sub/good\nc 1 A x\n")),
            ("sub/good", "a 1 A 192.0.2.1\n"),
            ("open", &zone("$INCLUDE sub/open\n")),
            ("sub/open", "a 1 A ( 192.0.2.1\n"),
            ("round", &zone("$INCLUDE round\n")),
            ("words", &zone("$INCLUDE a b c\n")),
            ("none", &zone("$INCLUDE\n")),
            ("folder", &zone("$INCLUDE sub\n")),
            ("owner", "$INCLUDE sub/good\n 1 A 192.0.2.1\n"),
            ("no-soa", "$INCLUDE sub/good\n"),
        ]);
        for (name, why) in [
            ("missing", "missing: line 3: none: No such file or directory\n"),
            ("inner", "sub/two: line 2: not the data of an A record"),
            ("behind", "behind: line 4: not the data of an A record"),
            ("open", "sub/open: line 1: a quoted text or a parenthesis"),
            ("round", "round: line 3: files are included 10 deep"),
            ("words", "words: line 3: not a file, and an origin"),
            ("none", "none: line 3: not a file, and an origin"),
            ("folder", "folder: line 3: sub: Is a directory\n"),
            ("owner", "owner: line 2: no owner of this file"),
            ("no-soa", "no-soa: no SOA record"),
        ] {
            let said = room.wrong(name);
            assert!(said.starts_with(why), "{said}");
        }
        let said = room.read("inner", "").err().unwrap();
        assert!(said.ends_with("inner: line 3: an included file without an origin: `$ORIGIN example.`\n"), "{said}");
    }

    #[test]
    fn words_have_escapes() {
        let unescaped = |it: &str| Word { octets: it.as_bytes().to_vec(), is_quoted: false }.unescaped();
        assert_eq!(unescaped(r"a\032b\.c\\"), b"a b.c\\");
        assert_eq!(unescaped(r"\+12\12"), b"+1212");
        assert!(is_absolute(b"a.") && is_absolute(br"a\\.") && !is_absolute(br"a\.") && !is_absolute(b"a") && !is_absolute(b""));
    }
}
