//! The proved intake, by its static library.

use crate::script::Script;
use crate::{Answer, Kind, told_at};
use plain::Settings;

const PAGE: usize = 1024;

/// As in crates/intake_bench.
#[repr(C)]
struct Plan {
    region: usize,
    capacity: usize,
    site: u64,
    first_serial: u64,
    maximum: u64,
    uploads: bool,
    overwriting: bool,
    told_at: usize,
    id_at: usize,
    rounds: u64,
}

#[repr(C)]
#[derive(Clone, Copy, Default)]
struct Line {
    number: u64,
    used: usize,
    length: usize,
}

// A slice crosses as a pointer and a length. The allocator takes no bytes, so nothing is passed for it.
type Rounds = unsafe extern "C" fn(
    plan: *const Plan,
    input: *mut u8,
    input_length: usize,
    lengths: *const usize,
    lengths_length: usize,
    pages: *mut u8,
    pages_length: usize,
    lines: *mut Line,
    lines_length: usize,
) -> u64;

macro_rules! rounds {
    ($($name:ident),*) => {
        #[link(name = "intake_bench", kind = "static")]
        #[link(name = "libc_c", kind = "static")]
        unsafe extern "C" {
            $(fn $name(
                plan: *const Plan,
                input: *mut u8,
                input_length: usize,
                lengths: *const usize,
                lengths_length: usize,
                pages: *mut u8,
                pages_length: usize,
                lines: *mut Line,
                lines_length: usize,
            ) -> u64;)*
        }
    };
}

rounds!(intake_bench_pages, intake_bench_volume);

fn send(
    kind: Kind,
    settings: Settings,
    script: &mut Script,
    rounds: u64,
    pages: &mut [u8],
    lines: &mut [Line],
) -> u64 {
    let (run, capacity): (Rounds, usize) = match kind {
        Kind::Pages { .. } => (intake_bench_pages, 0),
        Kind::Volume { capacity, .. } => (intake_bench_volume, capacity),
    };
    let plan = Plan {
        region: kind.region(),
        capacity,
        site: settings.site,
        first_serial: settings.first_serial,
        maximum: settings.maximum,
        uploads: settings.uploads,
        overwriting: settings.overwriting,
        told_at: told_at(),
        id_at: script.id_at,
        rounds,
    };
    // The slices do not overlap, and each pointer goes with its own length.
    unsafe {
        run(
            &plan,
            script.input.as_mut_ptr(),
            script.input.len(),
            script.lengths.as_ptr(),
            script.lengths.len(),
            pages.as_mut_ptr(),
            pages.len(),
            lines.as_mut_ptr(),
            lines.len(),
        )
    }
}

/// Sends the messages `rounds` times to one new intake; how many came to number 0.
pub fn run(kind: Kind, settings: Settings, script: &mut Script, rounds: u64) -> u64 {
    send(kind, settings, script, rounds, &mut [0; PAGE], &mut [])
}

/// What each message of one round is answered with.
pub fn answers(kind: Kind, settings: Settings, script: &mut Script) -> Vec<Answer> {
    let count = script.lengths.len();
    let mut pages = vec![0; count * PAGE];
    let mut lines = vec![Line::default(); count];
    send(kind, settings, script, 1, &mut pages, &mut lines);
    let answer = |(line, page): (&Line, &[u8])| Answer {
        number: line.number,
        used: line.used as u64,
        ack: page[..line.length].to_vec(),
    };
    lines.iter().zip(pages.chunks(PAGE)).map(answer).collect()
}
