//! Makes one call over and over, for counting instructions.
//!
//!     count ENGINE CALL CODER VALUES TIMES
//!
//! ENGINE is rust, or if linked port, or c: the C library's decoders. VALUES (a multiple of 4) numbers have widths drawn evenly
//! of the coder's four; for the calls with deltas and for skipping the steps have. The buffers
//! are made first, and only the calls differ between two values of TIMES, so the difference of
//! two counts is the calls' own: see oracle/instructions.

use oracle_driver::cases::packed;
use oracle_driver::engine::{Engine, Outcome};
use oracle_driver::layout::{Elem, Layout, L0124, L1234, L1248};
use oracle_driver::plain::shortest;
use oracle_driver::published::Published;
use oracle_driver::random::Random;
use oracle_driver::request::Call;
use std::hint::black_box;

fn mixed<L: Layout>(n: usize, steps: bool) -> Vec<L::Elem> {
    let mut r = Random::new(65_536, 0);
    let mut last = L::Elem::from_u64(0);
    (0..n)
        .map(|_| {
            let f = r.below(4) as usize;
            // Random bits, cut to the width, until the field is the wanted one.
            let v = loop {
                let bits = 8 * L::WIDTHS[f] as u32;
                let v = if bits == 0 { 0 } else { r.next() >> (64 - bits) };
                if shortest::<L>(v) == f {
                    break L::Elem::from_u64(v);
                }
            };
            last = if steps { last.add(v) } else { v };
            last
        })
        .collect()
}

fn count<L: Layout, N: Engine>(call: Call, n: usize, times: u64) -> u64 {
    let deltas = matches!(call, Call::EncodeDeltas | Call::DecodeDeltas | Call::SkipDeltas);
    let zero = L::Elem::from_u64(0);
    let start = if deltas { Some(zero) } else { None };
    let mut values = mixed::<L>(n, deltas);
    let how = if deltas { Call::EncodeDeltas } else { Call::Encode };
    let (mut tags, data) = packed::<L>(how, zero, &values);
    let mut room = vec![1_u8; L::GROUP * n / 4];
    let mut all: u64 = 0;
    for _ in 0..times {
        let outcome = match call {
            Call::Encode | Call::EncodeDeltas => {
                N::encode::<L>(black_box(start), black_box(&values), &mut tags, &mut room)
            }
            Call::Decode | Call::DecodeDeltas => {
                N::decode::<L>(black_box(start), black_box(&tags), black_box(&data), &mut values)
            }
            Call::DataLen => N::data_len::<L>(black_box(&tags)),
            Call::SkipDeltas => N::skip_deltas::<L>(black_box(&tags), black_box(&data)),
            Call::Tightness => {
                black_box(N::tightness::<L>(black_box(&tags), black_box(&data)));
                Outcome::Done { count: 0, sum: 0 }
            }
        };
        black_box((&values, &tags, &room));
        match outcome {
            Outcome::Done { count, sum } => all = black_box(all.wrapping_add(count ^ sum)),
            other => panic!("{other:?}"),
        }
    }
    all
}

fn with<N: Engine>(call: Call, coder: &str, n: usize, times: u64) -> u64 {
    match coder {
        "1234" => count::<L1234, N>(call, n, times),
        "0124" => count::<L0124, N>(call, n, times),
        "1248" => count::<L1248, N>(call, n, times),
        _ => usage(),
    }
}

#[cfg(feature = "clibrary")]
fn count_c<L: Layout>(call: Call, n: usize, times: u64) -> u64 {
    let (deltas, how) = match call {
        Call::Decode => (false, Call::Encode),
        Call::DecodeDeltas => (true, Call::EncodeDeltas),
        _ => usage(),
    };
    let Some(decode) = oracle_driver::clibrary::decoder::<L>(deltas) else { usage() };
    let mut values = mixed::<L>(n, deltas);
    let (tags, data) = packed::<L>(how, L::Elem::from_u64(0), &values);
    let joined = [tags, data].concat();
    let mut all: u64 = 0;
    for _ in 0..times {
        let read = decode(black_box(joined.as_ptr()), values.as_mut_ptr() as *mut u32, n as u32);
        black_box(&values);
        all = black_box(all.wrapping_add(read as u64));
    }
    all
}

fn usage() -> ! {
    eprintln!("usage: count rust|port|c CALL CODER VALUES TIMES");
    std::process::exit(2)
}

fn main() {
    let words: Vec<String> = std::env::args().skip(1).collect();
    let [engine, call, coder, n, times] = &words[..] else { usage() };
    let Some(call) = Call::ALL.into_iter().find(|c| c.name() == call) else { usage() };
    let (Ok(n), Ok(times)) = (n.parse::<usize>(), times.parse::<u64>()) else { usage() };
    if n % 4 != 0 {
        usage();
    }
    let bytes = match engine.as_str() {
        "rust" => with::<Published>(call, coder, n, times),
        #[cfg(feature = "port")]
        "port" => with::<oracle_driver::port::Port>(call, coder, n, times),
        #[cfg(feature = "clibrary")]
        "c" if coder == "1234" => count_c::<L1234>(call, n, times),
        #[cfg(feature = "clibrary")]
        "c" if coder == "0124" => count_c::<L0124>(call, n, times),
        _ => usage(),
    };
    println!("{bytes}");
}
