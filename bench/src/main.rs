//! Times the proved intake, the plain one and a bare copy on the same prepared messages, after comparing what the
//! two intakes answer.

#[cfg(proved)]
mod proved;
mod script;

use plain::Settings;
use script::{Ending, ID_LENGTH, Script};
use std::hint::black_box;
use std::time::{Duration, Instant};

/// What each measured run should last, and how many are made; the best counts.
const SPAN: Duration = Duration::from_millis(250);
const ATTEMPTS: usize = 7;

const PAGE: usize = 4096;
const SLOTS: usize = 16;
const MOST: usize = 1 << 20;

const SETTINGS: Settings = Settings {
    site: 1,
    first_serial: 1,
    maximum: MOST as u64,
    uploads: true,
    overwriting: true,
    approver: false,
};

/// A store to be made.
#[derive(Clone, Copy)]
enum Kind {
    Pages { pages: usize },
    Volume { capacity: usize, volume: usize },
}

const PAGES: Kind = Kind::Pages { pages: 1024 };
const VOLUME: Kind = Kind::Volume { capacity: MOST, volume: 4 << 20 };

impl Kind {
    fn name(self) -> &'static str {
        match self {
            Kind::Pages { .. } => "pages",
            Kind::Volume { .. } => "volume",
        }
    }

    /// How many bytes the store's region has.
    fn region(self) -> usize {
        match self {
            Kind::Pages { pages } => pages * PAGE,
            Kind::Volume { capacity, volume } => SLOTS * capacity + volume,
        }
    }
}

/// Where the session's id stands in the acknowledgement of a creation.
fn told_at() -> usize {
    "HTTP/1.1 200 OK\r\nBITS-Packet-Type: Ack\r\nContent-Length: 0\r\n\
     BITS-Protocol: {7df0354d-249b-430f-820d-3d2a9bef4931}\r\nBITS-Session-Id: "
        .len()
}

/// Number, used bytes and acknowledgement of one call.
#[derive(Debug, PartialEq, Eq)]
struct Answer {
    number: u64,
    used: u64,
    ack: Vec<u8>,
}

/// Sends the messages `rounds` times; how many came to number 0.
fn send_plain<S: plain::Store>(
    store: S,
    settings: Settings,
    script: &mut Script,
    rounds: u64,
    mut told: impl FnMut(&plain::Reply, &[u8]),
) -> u64 {
    let mut intake = plain::Intake::new(store, settings).expect("good settings");
    let mut page = [0; 1024];
    let mut done = 0;
    for _ in 0..rounds {
        let mut at = 0;
        let mut id: Option<[u8; ID_LENGTH]> = None;
        for (i, length) in script.lengths.iter().enumerate() {
            let message = &mut script.input[at..at + length];
            if let Some(id) = &id
                && let Some(place) = message.get_mut(script.id_at..script.id_at + ID_LENGTH)
            {
                place.copy_from_slice(id);
            }
            let reply = intake.message(message, &mut page);
            if reply.outcome.number() == 0 {
                done += 1;
                if i == 0 {
                    id = page[told_at()..].first_chunk::<ID_LENGTH>().copied();
                }
            }
            told(&reply, &page);
            at += length;
        }
    }
    done
}

fn with_plain(
    kind: Kind,
    settings: Settings,
    script: &mut Script,
    rounds: u64,
    told: impl FnMut(&plain::Reply, &[u8]),
) -> u64 {
    let region = vec![0; kind.region()];
    match kind {
        Kind::Pages { .. } => {
            let store = plain::PageStore::new(region).expect("a good region");
            send_plain(store, settings, script, rounds, told)
        }
        Kind::Volume { capacity, .. } => {
            let store = plain::VolumeStore::new(region, capacity, 0).expect("a good region");
            send_plain(store, settings, script, rounds, told)
        }
    }
}

/// What the plain intake answers to each message.
fn plain_answers(kind: Kind, settings: Settings, script: &Script) -> Vec<Answer> {
    let mut answers = Vec::new();
    with_plain(kind, settings, &mut script.clone(), 1, |reply, page| {
        answers.push(Answer {
            number: reply.outcome.number().into(),
            used: reply.used as u64,
            ack: page[..reply.length].to_vec(),
        });
    });
    answers
}

/// Copies the bodies, one behind the other, into a region; how many copies were made.
fn run_copy(script: &Script, rounds: u64) -> u64 {
    let mut region = vec![0u8; MOST];
    let mut copies = 0;
    for _ in 0..rounds {
        let mut at = 0;
        for body in &script.bodies {
            let bytes = &script.input[body.clone()];
            region[at..at + bytes.len()].copy_from_slice(black_box(bytes));
            at += bytes.len();
            copies += 1;
        }
        black_box(&mut region);
    }
    copies
}

/// Compares, message by message, what the two intakes answer; how many messages came to each number.
fn compare(kind: Kind, settings: Settings, script: &Script) -> [usize; 24] {
    let plain = plain_answers(kind, settings, script);
    #[cfg(proved)]
    {
        let proved = proved::answers(kind, settings, &mut script.clone());
        assert_eq!(plain.len(), proved.len());
        for (i, (plain, proved)) in plain.iter().zip(&proved).enumerate() {
            assert!(plain == proved, "message {i}: plain {plain:?}, proved {proved:?}");
        }
    }
    let mut numbers = [0; 24];
    for answer in &plain {
        numbers[answer.number as usize] += 1;
    }
    numbers
}

/// Compares the answers to messages that meet refusals, in stores and settings of several kinds.
fn compare_refusals() {
    let mut numbers = [0; 24];
    let mut add = |kind, settings, script: &Script| {
        for (sum, n) in numbers.iter_mut().zip(compare(kind, settings, script)) {
            *sum += n;
        }
    };
    let scripts = [Script::refusals(), Script::too_much(), Script::mutated(4000)];
    let all = [
        SETTINGS,
        Settings { overwriting: false, ..SETTINGS },
        Settings { uploads: false, ..SETTINGS },
        Settings { first_serial: u64::MAX, ..SETTINGS },
        Settings { first_serial: u64::MAX - 1, maximum: 20, ..SETTINGS },
    ];
    let small = [Kind::Pages { pages: 1 }, Kind::Volume { capacity: 4096, volume: 66 }];
    for kind in [PAGES, VOLUME].into_iter().chain(small) {
        for settings in all {
            for script in &scripts {
                add(kind, settings, script);
            }
        }
    }
    let met = numbers.iter().enumerate().filter(|(_, count)| **count > 0);
    let list: Vec<String> = met.map(|(number, count)| format!("{count} of number {number}")).collect();
    println!("messages answered before timing: {}", list.join(", "));
}

/// Something that is timed.
struct Contender<'a> {
    who: &'static str,
    messages: usize,
    run: Box<dyn FnMut(u64) -> u64 + 'a>,
    rounds: u64,
    /// seconds of the best round
    best: f64,
}

impl<'a> Contender<'a> {
    fn new(who: &'static str, messages: usize, run: impl FnMut(u64) -> u64 + 'a) -> Contender<'a> {
        let mut contender = Contender { who, messages, run: Box::new(run), rounds: 1, best: f64::INFINITY };
        while contender.time(contender.rounds) < SPAN / 2 {
            contender.rounds *= 2;
        }
        contender
    }

    fn time(&mut self, rounds: u64) -> Duration {
        let start = Instant::now();
        let done = (self.run)(rounds);
        let taken = start.elapsed();
        assert_eq!(done, rounds * self.messages as u64, "a message was refused");
        taken
    }

    /// One run, without the time that making the store takes.
    fn attempt(&mut self) {
        let making = self.time(0);
        let whole = self.time(self.rounds);
        let round = whole.saturating_sub(making).as_secs_f64() / self.rounds as f64;
        self.best = self.best.min(round);
    }
}

fn measure(kind: Kind, body: usize, count: usize) {
    let script = Script::upload(body, count, Ending::Cancel);
    for script in [&script, &Script::upload(body, count, Ending::Close)] {
        let numbers = compare(kind, SETTINGS, script);
        assert_eq!(numbers[0], script.lengths.len(), "a message was refused");
    }
    let messages = script.lengths.len();
    let mut contenders = Vec::new();
    #[cfg(proved)]
    {
        let mut script = script.clone();
        let run = move |rounds| proved::run(kind, SETTINGS, &mut script, rounds);
        contenders.push(Contender::new("proved", messages, run));
    }
    let mut plain_script = script.clone();
    let run = move |rounds| with_plain(kind, SETTINGS, &mut plain_script, rounds, |_, _| {});
    contenders.push(Contender::new("plain", messages, run));
    contenders.push(Contender::new("copy", count, |rounds| run_copy(&script, rounds)));
    for _ in 0..ATTEMPTS {
        for contender in &mut contenders {
            contender.attempt();
        }
    }
    for Contender { who, messages, best, .. } in &contenders {
        let each = best / *messages as f64;
        let speed = script.body_bytes() as f64 / best / 1e6;
        println!("{:<7} {body:>6}  {who:<7} {:>12.0} {speed:>10.1} {:>9.0}", kind.name(), 1.0 / each, each * 1e9);
    }
}

fn main() {
    compare_refusals();
    println!("best of {ATTEMPTS} runs; an upload is a creation, fragments in order and a cancellation");
    println!("MB/s counts the bodies' bytes, in millions; copy is a bare copy of the bodies");
    println!("{:<7} {:>6}  {:<7} {:>12} {:>10} {:>9}", "store", "body", "who", "messages/s", "MB/s", "ns each");
    for kind in [PAGES, VOLUME] {
        for (body, count) in [(1, 1024), (1024, 1024), (32768, 32)] {
            measure(kind, body, count);
        }
    }
}
