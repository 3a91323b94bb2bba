//! Prepared messages, one behind the other, the first of them a creation.

use std::ops::Range;

pub const PATH: &str = "/scripts/maths/paper-1/0019.zip";
pub const ID_LENGTH: usize = 38;

const OURS: &str = "{7df0354d-249b-430f-820d-3d2a9bef4931}";

/// A place for a session's id, filled in while the messages are sent.
const NO_ID: &str = "{00000000-0000-0000-0000-000000000000}";

/// How an upload ends.
#[derive(Clone, Copy)]
pub enum Ending {
    Close,
    Cancel,
}

#[derive(Clone)]
pub struct Script {
    pub input: Vec<u8>,
    pub lengths: Vec<usize>,
    /// where the session's id stands in every message but the first
    pub id_at: usize,
    /// where the bodies stand in the input
    pub bodies: Vec<Range<usize>>,
}

/// Byte `i` of the bundle that is sent.
fn byte_at(i: usize) -> u8 {
    (i.wrapping_mul(2654435761) >> 16) as u8
}

fn bytes(range: Range<usize>) -> Vec<u8> {
    range.map(byte_at).collect()
}

/// The head of a message as a laptop would write it: its id first, so that it has one place in all of them.
fn head(path: &str, fields: &str, length: usize) -> String {
    format!(
        "BITS_POST {path} HTTP/1.1\r\n\
         BITS-Session-Id: {NO_ID}\r\n\
         Cache-Control: no-cache\r\n\
         Connection: Keep-Alive\r\n\
         Pragma: no-cache\r\n\
         Accept: */*\r\n\
         User-Agent: Microsoft BITS/7.8\r\n\
         {fields}\
         Content-Length: {length}\r\n\
         Host: intake.hall.example\r\n\r\n"
    )
}

impl Script {
    fn new() -> Script {
        Script {
            input: Vec::new(),
            lengths: Vec::new(),
            id_at: format!("BITS_POST {PATH} HTTP/1.1\r\nBITS-Session-Id: ").len(),
            bodies: Vec::new(),
        }
    }

    /// An upload of `count` fragments of `body` bytes.
    pub fn upload(body: usize, count: usize, ending: Ending) -> Script {
        let mut script = Script::new();
        let total = body * count;
        script.create(PATH, OURS);
        for first in (0..total).step_by(body) {
            script.fragment(first, first + body - 1, total);
        }
        match ending {
            Ending::Close => script.put("BITS-Packet-Type: Close-Session\r\n"),
            Ending::Cancel => script.put("BITS-Packet-Type: Cancel-Session\r\n"),
        }
        script
    }

    /// Messages that meet most of the refusals, and good ones between them.
    pub fn refusals() -> Script {
        const CLOSE: &str = "BITS-Packet-Type: close-session\r\n";
        const CANCEL: &str = "BITS-Packet-Type: CANCEL-SESSION\r\n";
        let mut script = Script::new();
        script.create(PATH, OURS);
        script.put("BITS-Packet-Type: Ping\r\n");
        script.put_text(&head(PATH, "BITS-Packet-Type: Ping\r\n", 0).replace("\r\n\r\n", "\r\n"));
        script.put_text(&head(PATH, "BITS-Packet-Type: Ping\r\n", 0).replace("BITS_POST", "BITS_POXT"));
        script.put("BITS-Packet-Type: Ping\r\nno colon here\r\n");
        script.put("BITS-Packet-Type: Ping\r\nX: a\r\n folded\r\n");
        script.put("BITS-Packet-Type: Ping\r\nContent-Length: 0\r\n");
        script.put(&format!("BITS-Packet-Type: Ping\r\n{}", "X: y\r\n".repeat(56)));
        script.put(&format!("BITS-Packet-Type: Ping\r\n{}", "X: y\r\n".repeat(57)));
        script.put(&format!("BITS-Packet-Type: Ping\r\nX: {}\r\n", "y".repeat(4096)));
        script.put(&format!("BITS-Packet-Type: Ping\r\nX: {}\r\n", "y".repeat(4097)));
        script.put(&format!("BITS-Packet-Type: Ping\r\n{}", format!("X: {}\r\n", "y".repeat(4000)).repeat(2)));
        script.put_text(&format!("BITS_POST {}", "y".repeat(8182)));
        script.put("BITS-Packet-Type: Pong\r\n");
        script.put("");
        script.put_text(&head(PATH, "BITS-Packet-Type: Ping\r\n", 3));
        script.create(PATH, "{7df0354d-249b-430f-820d-3d2a9bef4932}");
        script.create(PATH, &format!("{OURS},, \t{}", OURS.to_uppercase()));
        script.create(PATH, &format!("{OURS}{OURS}"));
        script.create("/scripts/maths/paper-1/0019.zip/", OURS);
        script.put(CLOSE);
        script.fragment(0, 32768, 40000);
        script.fragment(0, 9, 2 << 20);
        script.fragment(1, 9, 20);
        script.fragment_with("Content-Encoding: gzip\r\n", 0, 9, 20);
        script.fragment_with("Content-Encoding: IDENTITY\r\n", 0, 9, 20);
        script.put("BITS-Packet-Type: Fragment\r\nContent-Range: bytes 10-9/20\r\n");
        script.put("BITS-Packet-Type: Fragment\r\nContent-Range: bytes 10-19/20 \r\n");
        script.put("BITS-Packet-Type: Fragment\r\nContent-Range: bytes10-19/20\r\n");
        script.put("BITS-Packet-Type: Fragment\r\nContent-Range: bytes 10- 19/20\r\n");
        script.put("BITS-Packet-Type: Fragment\r\n");
        script.fragment(10, 19, 21);
        script.fragment(12, 19, 20);
        script.cut(10, 19, 20, 0);
        script.cut(10, 19, 20, 4);
        script.put(CLOSE);
        script.fragment(5, 19, 20);
        script.fragment(0, 4, 20);
        script.put(CLOSE);
        script.put(CLOSE);
        script.put(CANCEL);
        for _ in 0..17 {
            script.create(PATH, OURS);
        }
        script
    }

    /// Uploads behind one another into a small store, the first of them with the id of the messages.
    pub fn too_much() -> Script {
        let mut script = Script::new();
        script.create(PATH, OURS);
        script.fragment(0, 2999, 7000);
        script.fragment(3000, 6999, 7000);
        script.fragment(3000, 4095, 7000);
        script.fragment(4096, 4096, 7000);
        script.put("BITS-Packet-Type: Close-Session\r\n");
        script.put("BITS-Packet-Type: Cancel-Session\r\n");
        script
    }

    /// An upload in which, in message after message, one byte of the head is another.
    pub fn mutated(count: usize) -> Script {
        let mut script = Script::new();
        let mut state = 0x9e3779b97f4a7c15u64;
        let mut random = |below: usize| {
            state ^= state << 13;
            state ^= state >> 7;
            state ^= state << 17;
            (state % below as u64) as usize
        };
        script.create(PATH, OURS);
        for i in 0..count {
            let start = script.input.len();
            match random(5) {
                0 => script.create(PATH, OURS),
                1 => script.put("BITS-Packet-Type: Ping\r\n"),
                2 => script.put("BITS-Packet-Type: Close-Session\r\n"),
                _ => script.fragment(i % 40, i % 40 + random(9), 1000),
            }
            let at = start + random(script.input.len() - start);
            script.input[at] = [b'\r', b'\n', b' ', b':', b'0', b'9', b'-', b'\t', 0, 0x80][random(10)];
        }
        script
    }

    fn create(&mut self, path: &str, protocols: &str) {
        let fields = format!("BITS-Supported-Protocols: {protocols}\r\nBITS-Packet-Type: Create-Session\r\n");
        self.put_message(&head(path, &fields, 0), &[]);
    }

    fn fragment(&mut self, first: usize, last: usize, total: usize) {
        self.fragment_with("", first, last, total);
    }

    fn fragment_with(&mut self, more: &str, first: usize, last: usize, total: usize) {
        let fields = format!("BITS-Packet-Type: Fragment\r\n{more}Content-Range: bytes {first}-{last}/{total}\r\n");
        self.put_message(&head(PATH, &fields, last + 1 - first), &bytes(first..last + 1));
    }

    /// A fragment of which only `present` bytes come.
    fn cut(&mut self, first: usize, last: usize, total: usize, present: usize) {
        let fields = format!("BITS-Packet-Type: Fragment\r\nContent-Range: bytes {first}-{last}/{total}\r\n");
        self.put_message(&head(PATH, &fields, last + 1 - first), &bytes(first..first + present));
    }

    fn put(&mut self, fields: &str) {
        self.put_message(&head(PATH, fields, 0), &[]);
    }

    fn put_text(&mut self, text: &str) {
        self.put_message(text, &[]);
    }

    fn put_message(&mut self, head: &str, body: &[u8]) {
        self.input.extend_from_slice(head.as_bytes());
        if !body.is_empty() {
            self.bodies.push(self.input.len()..self.input.len() + body.len());
        }
        self.input.extend_from_slice(body);
        self.lengths.push(head.len() + body.len());
    }

    pub fn body_bytes(&self) -> usize {
        self.bodies.iter().map(Range::len).sum()
    }
}
