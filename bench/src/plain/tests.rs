//! Every number, and the bytes of some acknowledgements.

use crate::{Intake, PageStore, Reply, Settings, Store, Verdict, VolumeStore};

const SETTINGS: Settings = Settings {
    site: 1,
    first_serial: 1,
    maximum: 40_000,
    uploads: true,
    overwriting: true,
    approver: false,
};

const CREATE: &str = "BITS-Packet-Type: create-session\r\n\
                      BITS-Supported-Protocols: {7DF0354D-249B-430F-820D-3D2A9BEF4931}\r\nContent-Length: 0\r\n";
const CLOSE: &str = "BITS-Packet-Type: Close-Session\r\n\
                     BITS-Session-Id: {00000000-0000-0001-0000-000000000001}\r\nContent-Length: 0\r\n";
const CANCEL: &str = "BITS-Packet-Type: Cancel-Session\r\n\
                      BITS-Session-Id: {00000000-0000-0001-0000-000000000001}\r\nContent-Length: 0\r\n";

/// An intake with a page for its acknowledgements.
struct Room<S> {
    intake: Intake<S>,
    page: [u8; 1024],
}

fn pages(count: usize, settings: Settings) -> Room<PageStore> {
    let store = PageStore::new(vec![0; 4096 * count]).unwrap();
    Room { intake: Intake::new(store, settings).unwrap(), page: [0; 1024] }
}

fn volume(capacity: usize, volume: usize, settings: Settings) -> Room<VolumeStore> {
    let store = VolumeStore::new(vec![0; 16 * capacity + volume], capacity, 0).unwrap();
    Room { intake: Intake::new(store, settings).unwrap(), page: [0; 1024] }
}

impl<S: Store> Room<S> {
    fn send(&mut self, message: &[u8]) -> Reply {
        self.intake.message(message, &mut self.page)
    }

    fn number(&mut self, message: &[u8]) -> u8 {
        self.send(message).outcome.number()
    }

    fn fields(&mut self, fields: &str) -> u8 {
        self.number(format!("BITS_POST /a HTTP/1.1\r\n{fields}\r\n").as_bytes())
    }

    fn fragment(&mut self, first: u64, last: u64, total: u64, body: &[u8]) -> u8 {
        self.number(&fragment(first, last, total, body))
    }

    fn ack(&self, reply: &Reply) -> &str {
        std::str::from_utf8(&self.page[..reply.length]).unwrap()
    }
}

fn fragment(first: u64, last: u64, total: u64, body: &[u8]) -> Vec<u8> {
    let length = (last + 1).saturating_sub(first);
    let head = format!(
        "BITS_POST /a HTTP/1.1\r\nBITS-Packet-Type: Fragment\r\n\
         BITS-Session-Id: {{00000000-0000-0001-0000-000000000001}}\r\n\
         Content-Range: bytes {first}-{last}/{total}\r\nContent-Length: {length}\r\n\r\n"
    );
    [head.as_bytes(), body].concat()
}

#[test]
fn short_page() {
    let mut room = pages(1, SETTINGS);
    let reply = room.intake.message(b"", &mut [0; 1023]);
    assert_eq!((reply.outcome.number(), reply.used, reply.length), (1, 0, 0));
}

#[test]
fn heads() {
    let mut room = pages(1, SETTINGS);
    assert_eq!(room.number(b"BITS_POST /a HTTP/1.1\r\nContent-Length: 0\r\n"), 2);
    assert_eq!(room.number(&[b'x'; 8191]), 2);
    assert_eq!(room.number(&[b'x'; 8192]), 3);
    assert_eq!(room.number(b"\r\n\r\n"), 3);
    assert_eq!(room.number(b"GET /a HTTP/1.1\r\n\r\n"), 3);
    let reply = room.send(b"BITS_POST /a HTTP/1.1\r\nA: b\r\nb\r\n\r\n");
    assert_eq!((reply.outcome.number(), reply.outcome.place()), (3, 29));
    assert_eq!(room.fields("Bad Name: x\r\n"), 3);
    assert_eq!(room.fields("X: a\r\r\n"), 3);
    assert_eq!(room.fields("x: y\r\nCONTENT-LENGTH: 0\r\ncontent-length: 0\r\n"), 4);
    assert_eq!(room.fields("BITS-Packet-Type: Ping\r\n"), 5);
    assert_eq!(room.fields("BITS-Packet-Type: Ping\r\nContent-Length: 1\r\n"), 5);
    assert_eq!(room.fields("BITS-Packet-Type: Ping\r\nContent-Length: 00000000000000000000\r\n"), 5);
    assert_eq!(room.fields("BITS-Packet-Type: Ping\r\nContent-Length: \t 0000000000000000000 \r\n"), 0);
    assert_eq!(room.fields(&("A: b\r\n".repeat(62) + "BITS-Packet-Type: Ping\r\nContent-Length: 0\r\n")), 0);
    assert_eq!(room.fields(&("A: b\r\n".repeat(63) + "BITS-Packet-Type: Ping\r\nContent-Length: 0\r\n")), 3);
}

#[test]
fn creations() {
    assert_eq!(pages(1, Settings { uploads: false, ..SETTINGS }).fields(CREATE), 6);
    let mut room = pages(1, SETTINGS);
    assert_eq!(room.fields(&CREATE.replace("7DF0", "7DF1")), 7);
    let folder = format!("BITS_POST /a/ HTTP/1.1\r\n{CREATE}\r\n");
    assert_eq!(room.number(folder.as_bytes()), 8);
    for _ in 0..16 {
        assert_eq!(room.fields(CREATE), 0);
    }
    assert_eq!(room.fields(CREATE), 16);
    assert_eq!(room.fields(CANCEL), 0);
    assert_eq!(room.fields(CREATE), 0);
    assert_eq!(pages(1, Settings { first_serial: u64::MAX, ..SETTINGS }).fields(CREATE), 17);
    let store = PageStore::new(vec![0; 4096]).unwrap();
    assert!(Intake::new(store, Settings { maximum: 0, ..SETTINGS }).is_none());
}

#[test]
fn fragments() {
    let mut room = pages(10, SETTINGS);
    assert_eq!(room.fragment(0, 1, 4, b"ab"), 9);
    assert_eq!(room.fields(CREATE), 0);
    assert_eq!(room.fragment(0, 32768, 40_000, &[0; 32769]), 13);
    assert_eq!(room.fragment(0, 1, 40_001, b"ab"), 13);
    assert_eq!(room.fragment(0, 4, 4, b"abcde"), 12);
    assert_eq!(room.fragment(1, 2, 4, b"ab"), 14);
    assert_eq!(room.fragment(0, 2, 5, b"a"), 19);
    assert_eq!(room.fragment(0, 1, 4, b"ab"), 12);
    assert_eq!(room.fields(CLOSE), 11);
    let reply = room.send(&fragment(0, 2, 5, b"xbc"));
    assert_eq!(
        room.ack(&reply),
        "HTTP/1.1 200 OK\r\nBITS-Packet-Type: Ack\r\nContent-Length: 0\r\n\
         BITS-Session-Id: {00000000-0000-0001-0000-000000000001}\r\nBITS-Received-Content-Range: 3\r\n\r\n"
    );
    let reply = room.send(&fragment(4, 4, 5, b"e"));
    assert_eq!(
        room.ack(&reply),
        "HTTP/1.1 416 Requested range not satisfiable\r\nBITS-Packet-Type: Ack\r\nContent-Length: 0\r\n\
         BITS-Received-Content-Range: 3\r\nBITS-Error: 0x00000000\r\nBITS-Error-Context: 0x5\r\n\r\n"
    );
    assert_eq!(room.fragment(1, 4, 5, b"bcde"), 0);
    assert_eq!(room.fields(CLOSE), 0);
    assert_eq!(room.intake.store().read(b"/a"), Some(b"abcde".to_vec()));
    assert_eq!(room.fields(CLOSE), 9);
}

#[test]
fn full_stores() {
    let mut room = pages(1, SETTINGS);
    assert_eq!(room.fields(CREATE), 0);
    assert_eq!(room.fragment(0, 4096, 4097, &[0; 4097]), 18);
    assert_eq!(room.fragment(0, 4095, 4096, &[0; 4096]), 0);
    assert_eq!(room.fields(CLOSE), 0);
    let mut room = volume(4, 21, SETTINGS);
    assert_eq!(room.fields(CREATE), 0);
    assert_eq!(room.fragment(0, 4, 5, b"abcde"), 18);
    assert_eq!(room.fragment(0, 3, 4, b"abcd"), 0);
    assert_eq!(room.fields(CLOSE), 18);
    let mut room = volume(4, 22, Settings { overwriting: false, ..SETTINGS });
    assert_eq!(room.fields(CREATE), 0);
    assert_eq!(room.fragment(0, 3, 4, b"abcd"), 0);
    assert_eq!(room.fields(CLOSE), 0);
    assert_eq!(room.intake.store().read(b"/a"), Some(b"abcd".to_vec()));
    assert_eq!(room.fields(CREATE), 15);
}

#[test]
fn approver() {
    let mut room = pages(1, Settings { approver: true, ..SETTINGS });
    assert_eq!(room.fields(CREATE), 0);
    let reply = room.send(&fragment(0, 0, 1, b"a"));
    assert_eq!((reply.outcome.number(), reply.length, reply.notice), (0, 0, Some(1)));
    assert_eq!(room.fragment(0, 0, 1, b"a"), 10);
    assert_eq!(room.fields(CLOSE), 10);
    let reply = room.intake.answer(1, Verdict::No(0x80004005), &mut room.page);
    assert_eq!(
        room.ack(&reply),
        "HTTP/1.1 500 Internal Server Error\r\nBITS-Packet-Type: Ack\r\nContent-Length: 0\r\n\
         BITS-Received-Content-Range: 1\r\nBITS-Error: 0x80004005\r\nBITS-Error-Context: 0x7\r\n\r\n"
    );
    assert_eq!(room.intake.answer(1, Verdict::Yes(b"/r"), &mut room.page).outcome.number(), 9);
    assert_eq!(room.fragment(0, 0, 1, b"a"), 0);
    assert_eq!(room.intake.answer(1, Verdict::Yes(b" "), &mut room.page).outcome.number(), 21);
    assert_eq!(room.fragment(0, 0, 1, b"a"), 0);
    let reply = room.intake.answer(1, Verdict::Yes(b"/r"), &mut room.page);
    assert!(room.ack(&reply).ends_with("BITS-Received-Content-Range: 1\r\nBITS-Reply-URL: /r\r\n\r\n"));
    assert_eq!(room.fields(CLOSE), 0);
}

#[test]
fn ticks() {
    let mut room = pages(1, SETTINGS);
    assert_eq!(room.intake.tick(5), 0);
    assert_eq!(room.fields(CREATE), 0);
    assert_eq!(room.intake.tick(1_209_604), 0);
    assert_eq!(room.intake.tick(1_209_605), 1);
    assert_eq!(room.fields(CANCEL), 9);
}

#[test]
fn captured_from_curl() {
    let mut room = pages(1, SETTINGS);
    assert_eq!(room.number(include_bytes!("../../../captures/curl/ping.http")), 0);
    let reply = room.send(include_bytes!("../../../captures/curl/create.http"));
    assert_eq!(
        room.ack(&reply),
        "HTTP/1.1 200 OK\r\nBITS-Packet-Type: Ack\r\nContent-Length: 0\r\n\
         BITS-Protocol: {7df0354d-249b-430f-820d-3d2a9bef4931}\r\n\
         BITS-Session-Id: {00000000-0000-0001-0000-000000000001}\r\nAccept-Encoding: identity\r\n\r\n"
    );
    assert_eq!(room.number(include_bytes!("../../../captures/curl/fragment1.http")), 0);
    assert_eq!(room.number(include_bytes!("../../../captures/curl/fragment2.http")), 0);
    assert_eq!(room.number(include_bytes!("../../../captures/curl/close.http")), 0);
    assert_eq!(room.intake.store().read(b"/scripts/a.zip"), Some(b"hall 7, answer sheet".to_vec()));
    assert_eq!(room.number(include_bytes!("../../../captures/curl/cancel.http")), 9);
}
