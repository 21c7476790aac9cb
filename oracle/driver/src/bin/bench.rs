//! Times the port beside the published crate, in one process, on the same columns; and beside the decoders of the C library, if that is linked.
//!
//!     bench [--values N] [--rounds N] [--growth]
//!
//! Columns: drop-frame labels (steps of one, three at nine minutes of ten), byte offsets of frames, and numbers of evenly mixed
//! widths (for the calls with deltas and for skipping the steps are). What each engine answers and leaves is compared with the column before
//! anything is timed. The rounds alternate, each engine first by turns, and the best of each is kept. --growth times each call on
//! labels from 1 thousand to 64 million values; the largest columns take 3 GB. Under an emulator the times are the
//! emulator's, and say nothing of a processor's.

use oracle_driver::cases::packed;
use oracle_driver::engine::{Engine, Outcome};
use oracle_driver::layout::{Elem, Layout, L0124, L1234, L1248};
use oracle_driver::plain::shortest;
use oracle_driver::port::Port;
use oracle_driver::published::Published;
use oracle_driver::random::Random;
use oracle_driver::request::Call;
use std::hint::black_box;
use std::time::Instant;

fn labels(n: usize) -> Vec<u64> {
    let mut label = 0_u64;
    (0..n)
        .map(|_| {
            let now = label;
            label += 1;
            if label % 1_800 == 0 && label % 18_000 != 0 {
                label += 2;
            }
            label %= 2_592_000;
            now
        })
        .collect()
}

fn offsets(n: usize) -> Vec<u64> {
    let mut r = Random::new(7, 0);
    let mut at = 0_u64;
    (0..n)
        .map(|_| {
            let now = at;
            at += 150_000 + r.below(60_000);
            now
        })
        .collect()
}

fn mixed<L: Layout>(n: usize, steps: bool) -> Vec<u64> {
    let mut r = Random::new(65_536, 0);
    let mut last = L::Elem::from_u64(0);
    (0..n)
        .map(|_| {
            let f = r.below(4) as usize;
            let v = loop {
                let bits = 8 * L::WIDTHS[f] as u32;
                let v = if bits == 0 { 0 } else { r.next() >> (64 - bits) };
                if shortest::<L>(v) == f {
                    break L::Elem::from_u64(v);
                }
            };
            last = if steps { last.add(v) } else { v };
            last.to_u64()
        })
        .collect()
}

fn call<L: Layout, N: Engine>(
    call: Call,
    start: L::Elem,
    values: &mut [L::Elem],
    tags: &mut [u8],
    data: &mut [u8],
    used: usize,
) -> (u64, u64) {
    let outcome = match call {
        Call::Encode => N::encode::<L>(None, black_box(values), tags, data),
        Call::EncodeDeltas => N::encode::<L>(Some(start), black_box(values), tags, data),
        Call::Decode => N::decode::<L>(None, black_box(tags), black_box(&data[..used]), values),
        Call::DecodeDeltas => N::decode::<L>(Some(start), black_box(tags), black_box(&data[..used]), values),
        Call::DataLen => N::data_len::<L>(black_box(tags)),
        _ => N::skip_deltas::<L>(black_box(tags), black_box(&data[..used])),
    };
    black_box((&values, &tags, &data));
    match outcome {
        Outcome::Done { count, sum } => (count, sum),
        other => panic!("{other:?}"),
    }
}

/// The decoder of the C library for this call, if it is linked and has one.
#[cfg(feature = "clibrary")]
fn c_decoder<L: Layout>(which: Call) -> Option<oracle_driver::clibrary::Decoder> {
    match which {
        Call::Decode => oracle_driver::clibrary::decoder::<L>(false),
        Call::DecodeDeltas => oracle_driver::clibrary::decoder::<L>(true),
        _ => None,
    }
}

#[cfg(not(feature = "clibrary"))]
fn c_decoder<L: Layout>(_which: Call) -> Option<fn(*const u8, *mut u32, u32) -> usize> {
    None
}

/// Nanoseconds a value, the best of each: the crate's, the port's, and the C library's where it has the call.
fn time<L: Layout>(which: Call, numbers: &[u64], rounds: usize) -> (f64, f64, Option<f64>) {
    let n = numbers.len();
    let start = L::Elem::from_u64(0);
    let encoding = matches!(which, Call::Encode | Call::EncodeDeltas);
    let decoding = matches!(which, Call::Decode | Call::DecodeDeltas);
    let how = if matches!(which, Call::EncodeDeltas | Call::DecodeDeltas | Call::SkipDeltas) { Call::EncodeDeltas } else { Call::Encode };
    let values: Vec<L::Elem> = numbers.iter().map(|&v| L::Elem::from_u64(v)).collect();
    let (tags, data) = packed::<L>(how, start, &values);
    let used = data.len();

    // Each engine has buffers of its own, and what it is to write is not there yet.
    let decoder = c_decoder::<L>(which);
    let engines = if decoder.is_some() { 3 } else { 2 };
    let mut sides = Vec::new();
    for side in 0..engines {
        let v = if decoding { vec![start; n] } else { values.clone() };
        let (t, d) = match (encoding, side) {
            (true, _) => (vec![0; tags.len()], vec![0; L::GROUP * n / 4]),
            (_, 2) => ([&tags[..], &data].concat(), Vec::new()),
            _ => (tags.clone(), data.clone()),
        };
        sides.push((v, t, d));
    }

    let mut best = [f64::MAX; 3];
    for round in 0..=rounds {
        for turn in 0..engines {
            let side = (round + turn) % engines;
            let (v, t, d) = &mut sides[side];
            let began = Instant::now();
            let answer = match (side, decoder) {
                (0, _) => call::<L, Published>(which, start, v, t, d, used),
                (2, Some(decode)) => {
                    let read = decode(black_box(t.as_ptr()), v.as_mut_ptr() as *mut u32, n as u32);
                    black_box(&v);
                    ((read - n / 4) as u64, 0)
                }
                _ => call::<L, Port>(which, start, v, t, d, used),
            };
            let took = began.elapsed().as_secs_f64();
            // The first round is not timed: what came of it must be the column.
            if round > 0 {
                best[side] = best[side].min(took);
                continue;
            }
            let sum = if which == Call::SkipDeltas { values.last().map_or(0, |v| v.to_u64()) } else { 0 };
            let there = side == 2 || *t == tags && d[..used] == data;
            assert!(answer == (used as u64, sum) && *v == values && there, "engine {side} has another column on {}", which.name());
        }
    }
    let [rust, port, c] = best.map(|b| b / n as f64 * 1e9);
    (rust, port, decoder.map(|_| c))
}

const TIMED: [Call; 6] = [Call::Encode, Call::EncodeDeltas, Call::Decode, Call::DecodeDeltas, Call::DataLen, Call::SkipDeltas];

fn table<L: Layout>(n: usize, rounds: usize) {
    for which in TIMED {
        let deltas = matches!(which, Call::EncodeDeltas | Call::DecodeDeltas | Call::SkipDeltas);
        let mut row = format!("| {} {} |", L::NAME, which.name());
        let mut beside = Vec::new();
        for column in [labels(n), offsets(n), mixed::<L>(n, deltas)] {
            let (rust, port, c) = time::<L>(which, &column, rounds);
            row += &format!(" {rust:.3} / {port:.3} = {:.2} |", port / rust);
            beside.extend(c.map(|c| format!("{c:.3}")));
        }
        if cfg!(feature = "clibrary") {
            row += &format!(" {} |", if beside.is_empty() { "-".into() } else { beside.join(", ") });
        }
        println!("{row}");
    }
}

const SIZES: [usize; 6] = [1_000, 10_000, 100_000, 1_000_000, 10_000_000, 64_000_000];

fn growth<L: Layout>(rounds: usize) {
    for which in TIMED {
        let mut row = format!("| {} {} |", L::NAME, which.name());
        for n in SIZES {
            // A short column's call is over in less than a microsecond: the best of many more.
            let rounds = if n > 1_000_000 { 4 } else { rounds * (1_000_000 / n) };
            let (rust, port, _) = time::<L>(which, &labels(n), rounds);
            row += &format!(" {rust:.3} / {port:.3} |");
        }
        println!("{row}");
    }
}

fn main() {
    let (mut n, mut rounds, mut grow) = (1_048_576_usize, 40_usize, false);
    let mut words = std::env::args().skip(1);
    while let Some(word) = words.next() {
        let mut number = || words.next().and_then(|w| w.parse::<usize>().ok()).unwrap_or_else(|| std::process::exit(2));
        match word.as_str() {
            "--values" => n = number() / 4 * 4,
            "--rounds" => rounds = number().max(2),
            "--growth" => grow = true,
            _ => {
                eprintln!("usage: bench [--values N] [--rounds N] [--growth]");
                std::process::exit(2)
            }
        }
    }
    if grow {
        println!("ns a value, the crate / the port, labels\n");
        println!("| values |{}\n|---{}|", SIZES.map(|n| format!(" {n} |")).concat(), "|---".repeat(SIZES.len()));
        growth::<L1234>(rounds);
        growth::<L0124>(rounds);
        return growth::<L1248>(rounds);
    }
    let c = cfg!(feature = "clibrary");
    println!("ns a value, the crate / the port = ratio; {n} values, best of {rounds} alternating rounds\n");
    println!("| call | labels | offsets | mixed widths |{}", if c { " the C library on the three |" } else { "" });
    println!("|---|---|---|---|{}", if c { "---|" } else { "" });
    table::<L1234>(n, rounds);
    table::<L0124>(n, rounds);
    table::<L1248>(n, rounds);
}
