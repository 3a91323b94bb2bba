//! From bytes to a packet, or one refusal.

use super::{Outcome, SessionId};

const MOST_HEAD: usize = 8192;
const MOST_FIELDS: usize = 64;
const MOST_PATH: usize = 128;
const MOST_VALUE: usize = 4096;

const PROTOCOL: SessionId = SessionId {
    site: 0x7df0354d249b430f,
    serial: 0x820d3d2a9bef4931,
};

#[derive(Clone, Copy, Debug)]
pub struct Range {
    pub first: u64,
    pub last: u64,
    pub total: u64,
}

#[derive(Clone, Copy, Debug)]
pub enum Action {
    Create { shared: bool },
    Ping,
    Fragment { id: SessionId, range: Range, line: usize },
    Close { id: SessionId },
    Cancel { id: SessionId },
}

#[derive(Debug)]
pub struct Packet<'a> {
    pub path: &'a [u8],
    pub action: Action,
    pub head_size: usize,
    pub content_length: u64,
    pub body: &'a [u8],
}

/// A known field: the offset of its line, and its value.
#[derive(Clone, Copy)]
struct Field<'a> {
    line: usize,
    value: &'a [u8],
}

#[derive(Default)]
struct Fields<'a> {
    content_length: Option<Field<'a>>,
    packet_type: Option<Field<'a>>,
    session_id: Option<Field<'a>>,
    content_range: Option<Field<'a>>,
    content_encoding: Option<Field<'a>>,
    supported_protocols: Option<Field<'a>>,
}

impl<'a> Fields<'a> {
    fn known(&mut self, name: &[u8]) -> Option<&mut Option<Field<'a>>> {
        if name.eq_ignore_ascii_case(b"Content-Length") {
            Some(&mut self.content_length)
        } else if name.eq_ignore_ascii_case(b"BITS-Packet-Type") {
            Some(&mut self.packet_type)
        } else if name.eq_ignore_ascii_case(b"BITS-Session-Id") {
            Some(&mut self.session_id)
        } else if name.eq_ignore_ascii_case(b"Content-Range") {
            Some(&mut self.content_range)
        } else if name.eq_ignore_ascii_case(b"Content-Encoding") {
            Some(&mut self.content_encoding)
        } else if name.eq_ignore_ascii_case(b"BITS-Supported-Protocols") {
            Some(&mut self.supported_protocols)
        } else {
            None
        }
    }
}

struct Head<'a> {
    path: &'a [u8],
    fields: Fields<'a>,
    size: usize,
}

fn is_blank(b: u8) -> bool {
    b == b' ' || b == b'\t'
}

fn is_token_byte(b: u8) -> bool {
    match b {
        0..=31 | 127..=255 => false,
        b'(' | b')' | b'<' | b'>' | b'@' | b',' | b';' | b':' | b'\\' | b'"' | b'/' | b'[' | b']' | b'?' | b'='
        | b'{' | b'}' | b' ' => false,
        _ => true,
    }
}

fn is_value_byte(b: u8) -> bool {
    matches!(b, b'\t' | 0x20..=0x7e | 0x80..=0xff)
}

fn is_path(path: &[u8]) -> bool {
    path.first() == Some(&b'/') && path.len() <= MOST_PATH && path.iter().all(|b| matches!(b, 0x21..=0x7e))
}

fn trim(mut s: &[u8]) -> &[u8] {
    while let [b, rest @ ..] = s && is_blank(*b) {
        s = rest;
    }
    while let [rest @ .., b] = s && is_blank(*b) {
        s = rest;
    }
    s
}

fn position(s: &[u8], mark: &[u8]) -> Option<usize> {
    s.windows(mark.len()).position(|w| w == mark)
}

fn read_path(line: &[u8]) -> Option<&[u8]> {
    let path = line.strip_prefix(b"BITS_POST ")?.strip_suffix(b" HTTP/1.1")?;
    is_path(path).then_some(path)
}

/// Name and value of a field's line.
fn read_field(line: &[u8]) -> Option<(&[u8], &[u8])> {
    let colon = line.iter().position(|b| *b == b':')?;
    let name = &line[..colon];
    let value = trim(&line[colon + 1..]);
    let good = !name.is_empty()
        && name.iter().all(|b| is_token_byte(*b))
        && value.len() <= MOST_VALUE
        && value.iter().all(|b| is_value_byte(*b));
    good.then_some((name, value))
}

fn read_head(input: &[u8]) -> Result<Head<'_>, Outcome> {
    let within = &input[..input.len().min(MOST_HEAD)];
    let Some(end) = position(within, b"\r\n\r\n") else {
        return Err(if input.len() < MOST_HEAD {
            Outcome::UnfinishedHead
        } else {
            Outcome::BadHead { line: 0 }
        });
    };
    let text = &input[..end];
    let mut line_end = position(text, b"\r\n").unwrap_or(end);
    let path = read_path(&text[..line_end]).ok_or(Outcome::BadHead { line: 0 })?;
    let mut fields = Fields::default();
    let mut repeated = None;
    let mut count = 0;
    while line_end < end {
        let at = line_end + 2;
        line_end = position(&text[at..], b"\r\n").map_or(end, |n| at + n);
        count += 1;
        if count > MOST_FIELDS {
            return Err(Outcome::BadHead { line: at });
        }
        let (name, value) = read_field(&text[at..line_end]).ok_or(Outcome::BadHead { line: at })?;
        match fields.known(name) {
            Some(field @ None) => *field = Some(Field { line: at, value }),
            Some(Some(_)) => {
                repeated.get_or_insert(at);
            }
            None => {}
        }
    }
    match repeated {
        Some(line) => Err(Outcome::RepeatedField { line }),
        None => Ok(Head { path, fields, size: end + 4 }),
    }
}

/// 1 to 19 decimal digits.
fn read_number(s: &[u8]) -> Option<u64> {
    if s.is_empty() || s.len() > 19 || !s.iter().all(u8::is_ascii_digit) {
        return None;
    }
    Some(s.iter().fold(0, |n, b| n * 10 + u64::from(b - b'0')))
}

fn read_id(s: &[u8]) -> Option<SessionId> {
    let digits = s.strip_prefix(b"{")?.strip_suffix(b"}")?;
    if digits.len() != 36 {
        return None;
    }
    let mut value: u128 = 0;
    for (i, b) in digits.iter().enumerate() {
        if matches!(i, 8 | 13 | 18 | 23) {
            if *b != b'-' {
                return None;
            }
        } else {
            value = value << 4 | u128::from((*b as char).to_digit(16)?);
        }
    }
    Some(SessionId {
        site: (value >> 64) as u64,
        serial: value as u64,
    })
}

fn read_range(s: &[u8]) -> Option<Range> {
    let (unit, rest) = s.split_at_checked(5)?;
    if !unit.eq_ignore_ascii_case(b"bytes") || !rest.first().is_some_and(|b| is_blank(*b)) {
        return None;
    }
    let numbers = trim(rest);
    let hyphen = numbers.iter().position(|b| *b == b'-')?;
    let slash = numbers.iter().position(|b| *b == b'/')?;
    if slash < hyphen {
        return None;
    }
    Some(Range {
        first: read_number(&numbers[..hyphen])?,
        last: read_number(&numbers[hyphen + 1..slash])?,
        total: read_number(&numbers[slash + 1..])?,
    })
}

/// Whether our protocol is among those listed.
fn read_protocols(s: &[u8]) -> Option<bool> {
    let is_between = |b: &u8| is_blank(*b) || *b == b',';
    if s.is_empty() || s.first().is_some_and(is_between) || s.last().is_some_and(is_between) {
        return None;
    }
    let mut shared = false;
    for id in s.split(is_between).filter(|id| !id.is_empty()) {
        shared |= read_id(id)? == PROTOCOL;
    }
    Some(shared)
}

/// Reads a field that must stand.
fn judged<'a, T>(field: Option<Field<'a>>, read: impl Fn(&'a [u8]) -> Option<T>) -> Result<T, Outcome> {
    let field = field.ok_or(Outcome::BadPacket { line: 0 })?;
    read(field.value).ok_or(Outcome::BadPacket { line: field.line })
}

enum Kind {
    Create,
    Ping,
    Fragment,
    Close,
    Cancel,
}

fn read_kind(value: &[u8]) -> Option<Kind> {
    if value.eq_ignore_ascii_case(b"CREATE-SESSION") {
        Some(Kind::Create)
    } else if value.eq_ignore_ascii_case(b"PING") {
        Some(Kind::Ping)
    } else if value.eq_ignore_ascii_case(b"FRAGMENT") {
        Some(Kind::Fragment)
    } else if value.eq_ignore_ascii_case(b"CLOSE-SESSION") {
        Some(Kind::Close)
    } else if value.eq_ignore_ascii_case(b"CANCEL-SESSION") {
        Some(Kind::Cancel)
    } else {
        None
    }
}

fn judge(fields: &Fields) -> Result<(u64, Action), Outcome> {
    let is_fragment = fields.packet_type.is_some_and(|f| f.value.eq_ignore_ascii_case(b"FRAGMENT"));
    let content_length = judged(fields.content_length, |value| {
        read_number(value).filter(|n| *n == 0 || is_fragment)
    })?;
    let action = match judged(fields.packet_type, read_kind)? {
        Kind::Create => Action::Create {
            shared: judged(fields.supported_protocols, read_protocols)?,
        },
        Kind::Ping => Action::Ping,
        Kind::Fragment => {
            let id = judged(fields.session_id, read_id)?;
            let range = judged(fields.content_range, read_range)?;
            let line = fields.content_range.map_or(0, |f| f.line);
            if let Some(field) = fields.content_encoding && !field.value.eq_ignore_ascii_case(b"identity") {
                return Err(Outcome::BadPacket { line: field.line });
            }
            Action::Fragment { id, range, line }
        }
        Kind::Close => Action::Close {
            id: judged(fields.session_id, read_id)?,
        },
        Kind::Cancel => Action::Cancel {
            id: judged(fields.session_id, read_id)?,
        },
    };
    Ok((content_length, action))
}

pub fn read_packet(input: &[u8]) -> Result<Packet<'_>, Outcome> {
    let head = read_head(input)?;
    let (content_length, action) = judge(&head.fields)?;
    let behind = &input[head.size..];
    let present = behind.len().min(usize::try_from(content_length).unwrap_or(usize::MAX));
    Ok(Packet {
        path: head.path,
        action,
        head_size: head.size,
        content_length,
        body: &behind[..present],
    })
}
