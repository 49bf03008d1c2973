//! From a chart's text to its draft, the tree of its statements, in one pass. The tree has its
//! names in the text.

use std::fmt;
use std::io;

/// The greatest number of bytes of a text.
pub const TEXT_LIMIT: usize = 1_048_576;

/// The greatest number of bytes of a name.
const NAME_LIMIT: usize = 64;

/// Why no canonical text was printed. Places are byte places, from 0.
pub enum Fault {
    TooLong,
    BadByte(usize),
    OpenNote(usize),
    OpenText(usize),
    LongName(usize),
    Unsupported(usize, String),
    Expected(usize, &'static str),
    Device,
}

impl From<io::Error> for Fault {
    fn from(_: io::Error) -> Fault {
        Fault::Device
    }
}

impl fmt::Display for Fault {
    fn fmt(&self, f: &mut fmt::Formatter) -> fmt::Result {
        match self {
            Fault::TooLong => write!(f, "lexical fault 1: text longer than 1048576 bytes"),
            Fault::BadByte(at) => write!(f, "lexical fault 2 at {at}: byte that begins no token"),
            Fault::OpenNote(at) => write!(f, "lexical fault 3 at {at}: note without end"),
            Fault::OpenText(at) => write!(f, "lexical fault 4 at {at}: text without end"),
            Fault::LongName(at) => write!(f, "lexical fault 5 at {at}: name longer than 64 bytes"),
            Fault::Unsupported(at, word) => {
                write!(f, "grammar fault 2 at {at}: {word} is not supported")
            }
            Fault::Expected(at, what) => write!(f, "grammar fault 3 at {at}: expected {what}"),
            Fault::Device => write!(f, "device fault"),
        }
    }
}

// ---- Tokens

#[derive(Clone, Copy, PartialEq, Eq)]
enum Kind {
    Msc,
    EndMsc,
    Inst,
    Instance,
    EndInstance,
    In,
    From,
    Out,
    To,
    Concurrent,
    EndConcurrent,
    Comment,
    /// A reserved word that no chart has.
    Refused,
    Name,
    Text,
    Semicolon,
    Comma,
    Colon,
    LeftParen,
    RightParen,
}

#[derive(Clone, Copy)]
struct Token {
    kind: Kind,
    start: usize,
    end: usize,
}

/// What a byte begins.
#[derive(Clone, Copy, PartialEq, Eq)]
enum Class {
    Blank,
    /// A letter, a digit or an underscore.
    Run,
    Slash,
    Quote,
    Mark(Kind),
    None,
}

/// The class of each byte.
const CLASSES: [Class; 256] = {
    let mut classes = [Class::None; 256];
    let mut byte = 0;
    while byte < 256 {
        classes[byte] = match byte as u8 {
            b' ' | b'\t' | b'\r' | b'\n' => Class::Blank,
            b'a'..=b'z' | b'A'..=b'Z' | b'0'..=b'9' | b'_' => Class::Run,
            b'/' => Class::Slash,
            b'\'' => Class::Quote,
            b';' => Class::Mark(Kind::Semicolon),
            b',' => Class::Mark(Kind::Comma),
            b':' => Class::Mark(Kind::Colon),
            b'(' => Class::Mark(Kind::LeftParen),
            b')' => Class::Mark(Kind::RightParen),
            _ => Class::None,
        };
        byte += 1;
    }
    classes
};

fn class(byte: u8) -> Class {
    CLASSES[byte as usize]
}

/// The reserved words of each length, with their kinds.
fn words(length: usize) -> &'static [(&'static [u8], Kind)] {
    match length {
        2 => &[(b"in", Kind::In), (b"to", Kind::To)],
        3 => &[
            (b"out", Kind::Out),
            (b"msc", Kind::Msc),
            (b"env", Kind::Refused),
            (b"set", Kind::Refused),
        ],
        4 => &[
            (b"from", Kind::From),
            (b"inst", Kind::Inst),
            (b"stop", Kind::Refused),
        ],
        5 => &[(b"reset", Kind::Refused)],
        6 => &[
            (b"endmsc", Kind::EndMsc),
            (b"action", Kind::Refused),
            (b"create", Kind::Refused),
        ],
        7 => &[(b"comment", Kind::Comment), (b"timeout", Kind::Refused)],
        8 => &[(b"instance", Kind::Instance)],
        9 => &[(b"condition", Kind::Refused)],
        10 => &[(b"concurrent", Kind::Concurrent)],
        11 => &[(b"endinstance", Kind::EndInstance)],
        13 => &[(b"endconcurrent", Kind::EndConcurrent)],
        _ => &[],
    }
}

/// The reserved word that a run of letters, digits and underscores spells, in capital or small
/// letters.
fn word(run: &[u8]) -> Option<Kind> {
    let first = run[0] | 0x20;
    let found = words(run.len())
        .iter()
        .find(|(spelling, _)| spelling[0] == first && run.eq_ignore_ascii_case(spelling));
    found.map(|(_, kind)| *kind)
}

/// The length of the note at the front of a text that begins with `/*`.
fn note_length(text: &[u8]) -> Option<usize> {
    let body = &text[2..];
    let end = body.windows(2).position(|pair| pair == b"*/")?;
    Some(end + 4)
}

/// The length of the text between apostrophes at the front of a text that begins with one.
fn quoted_length(text: &[u8]) -> Option<usize> {
    let mut at = 1;
    loop {
        at += text[at..].iter().position(|byte| *byte == b'\'')? + 1;
        if text.get(at) != Some(&b'\'') {
            return Some(at);
        }
        at += 1;
    }
}

/// The kind and the length of the word or name at the front of a text.
fn run(text: &[u8], place: usize) -> Result<(Kind, usize), Fault> {
    let length = text
        .iter()
        .position(|byte| class(*byte) != Class::Run)
        .unwrap_or(text.len());
    match word(&text[..length]) {
        Some(kind) => Ok((kind, length)),
        None if length <= NAME_LIMIT => Ok((Kind::Name, length)),
        None => Err(Fault::LongName(place)),
    }
}

/// The next token at or behind a place, if there is one.
fn token(text: &[u8], place: usize) -> Result<Option<Token>, Fault> {
    let mut start = place;
    while let Some(&byte) = text.get(start) {
        let rest = &text[start..];
        let (kind, length) = match class(byte) {
            Class::Blank => {
                start += 1;
                continue;
            }
            Class::Slash if rest.starts_with(b"/*") => {
                start += note_length(rest).ok_or(Fault::OpenNote(start))?;
                continue;
            }
            Class::Run => run(rest, start)?,
            Class::Mark(kind) => (kind, 1),
            Class::Quote => (
                Kind::Text,
                quoted_length(rest).ok_or(Fault::OpenText(start))?,
            ),
            Class::Slash | Class::None => return Err(Fault::BadByte(start)),
        };
        let end = start + length;
        return Ok(Some(Token { kind, start, end }));
    }
    Ok(None)
}

// ---- The tree

pub type Name<'a> = &'a [u8];

pub struct Draft<'a> {
    pub name: Name<'a>,
    pub header: Vec<Decl<'a>>,
    pub sections: Vec<Section<'a>>,
}

pub struct Decl<'a> {
    pub name: Name<'a>,
    /// None, one or two names.
    pub kind: Vec<Name<'a>>,
}

pub struct Section<'a> {
    pub decl: Decl<'a>,
    pub items: Vec<Item<'a>>,
}

pub enum Item<'a> {
    Single(Signal<'a>),
    Coregion(Vec<Signal<'a>>),
}

pub struct Signal<'a> {
    pub way: Way,
    pub name: Name<'a>,
    pub number: Option<Name<'a>>,
    pub parameters: Vec<Name<'a>>,
    pub address: Name<'a>,
}

#[derive(Clone, Copy, PartialEq, Eq, Hash)]
pub enum Way {
    Output,
    Input,
}

impl Way {
    pub fn other(self) -> Way {
        match self {
            Way::Output => Way::Input,
            Way::Input => Way::Output,
        }
    }
}

// ---- Parsing

/// A text, and its next token that is not read.
struct Parser<'a> {
    text: &'a [u8],
    next: Option<Token>,
}

impl<'a> Parser<'a> {
    /// The first lexical fault behind the next token, or else the fault of that token, or of the
    /// end of the text, where `what` was expected.
    fn unexpected(&self, what: &'static str) -> Fault {
        let Some(next) = self.next else {
            return Fault::Expected(self.text.len(), what);
        };
        let mut at = next.end;
        loop {
            match token(self.text, at) {
                Ok(Some(token)) => at = token.end,
                Ok(None) => break,
                Err(fault) => return fault,
            }
        }
        if next.kind == Kind::Refused {
            let word = &self.text[next.start..next.end];
            let word = String::from_utf8_lossy(word).to_ascii_lowercase();
            return Fault::Unsupported(next.start, word);
        }
        Fault::Expected(next.start, what)
    }

    /// Reads a token of this kind, if one stands here, and answers it.
    fn take_token(&mut self, kind: Kind) -> Result<Option<Token>, Fault> {
        match self.next {
            Some(next) if next.kind == kind => {
                self.next = token(self.text, next.end)?;
                Ok(Some(next))
            }
            _ => Ok(None),
        }
    }

    /// Reads a token of this kind, if one stands here.
    fn take(&mut self, kind: Kind) -> Result<bool, Fault> {
        Ok(self.take_token(kind)?.is_some())
    }

    fn expect(&mut self, kind: Kind, what: &'static str) -> Result<(), Fault> {
        if self.take(kind)? {
            Ok(())
        } else {
            Err(self.unexpected(what))
        }
    }

    /// Reads a name, if one stands here.
    fn take_name(&mut self) -> Result<Option<Name<'a>>, Fault> {
        let name = self.take_token(Kind::Name)?;
        Ok(name.map(|token| &self.text[token.start..token.end]))
    }

    fn name(&mut self) -> Result<Name<'a>, Fault> {
        self.take_name()?.ok_or_else(|| self.unexpected("a name"))
    }

    /// The end of a statement.
    fn end(&mut self) -> Result<(), Fault> {
        if self.take(Kind::Comment)? {
            self.expect(Kind::Text, "a text")?;
        }
        self.expect(Kind::Semicolon, "the end of the statement")
    }

    fn decl(&mut self) -> Result<Decl<'a>, Fault> {
        let name = self.name()?;
        let mut kind = Vec::new();
        if self.take(Kind::Colon)? {
            kind.push(self.name()?);
            kind.extend(self.take_name()?);
        }
        Ok(Decl { name, kind })
    }

    /// The parameters behind an opening parenthesis, and the closing one.
    fn parameters(&mut self) -> Result<Vec<Name<'a>>, Fault> {
        let mut parameters = Vec::new();
        if let Some(name) = self.take_name()? {
            parameters.push(name);
            while self.take(Kind::Comma)? {
                parameters.push(self.name()?);
            }
        }
        self.expect(Kind::RightParen, "a parameter list")?;
        Ok(parameters)
    }

    /// An event, if one stands here.
    fn signal(&mut self) -> Result<Option<Signal<'a>>, Fault> {
        let way = if self.take(Kind::Out)? {
            Way::Output
        } else if self.take(Kind::In)? {
            Way::Input
        } else {
            return Ok(None);
        };
        let name = self.name()?;
        let number = if self.take(Kind::Comma)? {
            Some(self.name()?)
        } else {
            None
        };
        let parameters = if self.take(Kind::LeftParen)? {
            self.parameters()?
        } else {
            Vec::new()
        };
        match way {
            Way::Output => self.expect(Kind::To, "to")?,
            Way::Input => self.expect(Kind::From, "from")?,
        }
        let address = self.name()?;
        self.end()?;
        Ok(Some(Signal {
            way,
            name,
            number,
            parameters,
            address,
        }))
    }

    /// What follows `concurrent`, to the end of the coregion.
    fn coregion(&mut self) -> Result<Vec<Signal<'a>>, Fault> {
        self.end()?;
        let mut signals = Vec::new();
        while let Some(signal) = self.signal()? {
            signals.push(signal);
        }
        self.expect(Kind::EndConcurrent, "an event")?;
        self.end()?;
        Ok(signals)
    }

    /// What follows `instance`, to the end of the section.
    fn section(&mut self) -> Result<Section<'a>, Fault> {
        let decl = self.decl()?;
        self.end()?;
        let mut items = Vec::new();
        loop {
            if let Some(signal) = self.signal()? {
                items.push(Item::Single(signal));
            } else if self.take(Kind::Concurrent)? {
                items.push(Item::Coregion(self.coregion()?));
            } else {
                break;
            }
        }
        self.expect(Kind::EndInstance, "an item")?;
        self.end()?;
        Ok(Section { decl, items })
    }

    /// The names of all `inst` statements.
    fn header(&mut self) -> Result<Vec<Decl<'a>>, Fault> {
        let mut header = Vec::new();
        while self.take(Kind::Inst)? {
            header.push(self.decl()?);
            while self.take(Kind::Comma)? {
                header.push(self.decl()?);
            }
            self.end()?;
        }
        Ok(header)
    }

    fn draft(&mut self) -> Result<Draft<'a>, Fault> {
        self.expect(Kind::Msc, "msc")?;
        let name = self.name()?;
        self.end()?;
        let header = self.header()?;
        let mut sections = Vec::new();
        while self.take(Kind::Instance)? {
            sections.push(self.section()?);
        }
        self.expect(Kind::EndMsc, "a section")?;
        self.end()?;
        if self.next.is_some() {
            return Err(self.unexpected("the end of the text"));
        }
        Ok(Draft {
            name,
            header,
            sections,
        })
    }
}

pub fn parse(text: &[u8]) -> Result<Draft<'_>, Fault> {
    if text.len() > TEXT_LIMIT {
        return Err(Fault::TooLong);
    }
    let next = token(text, 0)?;
    Parser { text, next }.draft()
}
