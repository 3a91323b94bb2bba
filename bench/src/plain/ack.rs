//! The bytes of an acknowledgement.

use super::{Outcome, SessionId};

/// What an acknowledgement tells beyond its outcome.
#[derive(Default)]
pub struct Told<'a> {
    pub created: bool,
    pub id: Option<SessionId>,
    pub received: Option<u64>,
    pub reply_address: &'a [u8],
}

struct Writer<'a> {
    page: &'a mut [u8],
    length: usize,
}

impl Writer<'_> {
    fn put(&mut self, bytes: &[u8]) {
        self.page[self.length..self.length + bytes.len()].copy_from_slice(bytes);
        self.length += bytes.len();
    }

    fn put_decimal(&mut self, mut n: u64) {
        let mut digits = [0; 20];
        let mut first = digits.len();
        loop {
            first -= 1;
            digits[first] = b'0' + (n % 10) as u8;
            n /= 10;
            if n == 0 {
                break;
            }
        }
        self.put(&digits[first..]);
    }

    /// The last digits of a number, in capitals.
    fn put_hex(&mut self, n: u64, digits: u32) {
        for place in (0..digits).rev() {
            self.put(&[b"0123456789ABCDEF"[(n >> (4 * place) & 15) as usize]]);
        }
    }

    fn put_id(&mut self, id: SessionId) {
        self.put(b"{");
        self.put_hex(id.site >> 32, 8);
        self.put(b"-");
        self.put_hex(id.site >> 16, 4);
        self.put(b"-");
        self.put_hex(id.site, 4);
        self.put(b"-");
        self.put_hex(id.serial >> 48, 4);
        self.put(b"-");
        self.put_hex(id.serial, 12);
        self.put(b"}");
    }
}

/// Status with phrase, and the code of a refusal; nothing where there is no acknowledgement.
fn answer(outcome: Outcome) -> Option<(&'static [u8], Option<u32>)> {
    Some(match outcome {
        Outcome::Done => (b"200 OK", None),
        Outcome::ShortPage | Outcome::UnfinishedHead | Outcome::CutBody | Outcome::BadSetting => return None,
        Outcome::BadHead { .. }
        | Outcome::RepeatedField { .. }
        | Outcome::BadPacket { .. }
        | Outcome::NoSharedProtocol
        | Outcome::FolderDestination
        | Outcome::Incomplete
        | Outcome::WrongRange { .. }
        | Outcome::BadReplyAddress => (b"400 Bad Request", Some(0x80070057)),
        Outcome::UploadsOff => (b"501 Not Implemented", Some(0x80070005)),
        Outcome::NoSession => (b"500 Internal Server Error", Some(0x8020001F)),
        Outcome::AtApprover => (b"503 Service Unavailable", Some(0xA0000003)),
        Outcome::TooLarge => (b"500 Internal Server Error", Some(0x80200020)),
        Outcome::Gap => (b"416 Requested range not satisfiable", Some(0)),
        Outcome::DestinationStands => (b"403 Forbidden", Some(0x80070005)),
        Outcome::TooManySessions => (b"503 Service Unavailable", Some(0xA0000001)),
        Outcome::SerialsSpent => (b"503 Service Unavailable", Some(0xA0000002)),
        Outcome::StoreFull => (b"500 Internal Server Error", Some(0x80070112)),
        Outcome::Rejected { code } => (b"500 Internal Server Error", Some(code)),
        Outcome::StoreRefused => (b"500 Internal Server Error", Some(0x8000FFFF)),
    })
}

/// Writes the acknowledgement to the front of the page; its length.
pub fn acknowledge(page: &mut [u8], outcome: Outcome, told: &Told) -> usize {
    let Some((status, code)) = answer(outcome) else {
        return 0;
    };
    let mut out = Writer { page, length: 0 };
    out.put(b"HTTP/1.1 ");
    out.put(status);
    out.put(b"\r\nBITS-Packet-Type: Ack\r\nContent-Length: 0\r\n");
    if told.created {
        out.put(b"BITS-Protocol: {7df0354d-249b-430f-820d-3d2a9bef4931}\r\n");
    }
    if let Some(id) = told.id {
        out.put(b"BITS-Session-Id: ");
        out.put_id(id);
        out.put(b"\r\n");
    }
    if told.created {
        out.put(b"Accept-Encoding: identity\r\n");
    }
    if let Some(received) = told.received {
        out.put(b"BITS-Received-Content-Range: ");
        out.put_decimal(received);
        out.put(b"\r\n");
    }
    if !told.reply_address.is_empty() {
        out.put(b"BITS-Reply-URL: ");
        out.put(told.reply_address);
        out.put(b"\r\n");
    }
    if let Some(code) = code {
        out.put(b"BITS-Error: 0x");
        out.put_hex(u64::from(code), 8);
        out.put(b"\r\nBITS-Error-Context: 0x");
        out.put(if matches!(outcome, Outcome::Rejected { .. }) { b"7" } else { b"5" });
        out.put(b"\r\n");
    }
    out.put(b"\r\n");
    out.length
}
