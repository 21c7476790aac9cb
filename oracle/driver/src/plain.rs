//! A plain model, written from document 01: one stored number after another, no stages.

use crate::engine::{Engine, Outcome, Tightness};
use crate::layout::{Elem, Layout};

pub const MOST_GROUPS: usize = 16_777_216;

/// The width of number `i` (0 to 3) of a group with this tag.
pub fn width<L: Layout>(tag: u8, i: usize) -> usize {
    L::WIDTHS[(tag as usize >> (2 * i)) & 3]
}

/// The sum of the four widths of each tag.
pub fn total<L: Layout>(tags: &[u8]) -> usize {
    tags.iter().map(|t| (0..4).map(|i| width::<L>(*t, i)).sum::<usize>()).sum()
}

/// The first field whose width holds the number.
pub fn shortest<L: Layout>(v: u64) -> usize {
    (0..4).find(|f| (v as u128) < 1u128 << (8 * L::WIDTHS[*f])).expect("the widest field holds every number")
}

fn number(bytes: &[u8]) -> u64 {
    bytes.iter().rev().fold(0, |n, b| n << 8 | *b as u64)
}

fn encode_refusal<L: Layout>(values: usize, tags: usize, data: usize) -> Option<u8> {
    let groups = values / 4;
    if values % 4 != 0 {
        Some(1)
    } else if groups > MOST_GROUPS {
        Some(2)
    } else if tags < groups {
        Some(3)
    } else if data < L::GROUP * groups {
        Some(4)
    } else {
        None
    }
}

fn decode_refusal<L: Layout>(values: usize, tags: &[u8], data: usize) -> Option<u8> {
    if values % 4 != 0 {
        Some(1)
    } else if values / 4 > MOST_GROUPS || tags.len() > MOST_GROUPS {
        Some(2)
    } else if tags.len() != values / 4 {
        Some(5)
    } else if total::<L>(tags) > data {
        Some(6)
    } else {
        None
    }
}

fn skip_refusal<L: Layout>(tags: &[u8], data: usize) -> Option<u8> {
    if tags.len() > MOST_GROUPS {
        Some(2)
    } else if total::<L>(tags) > data {
        Some(6)
    } else {
        None
    }
}

pub struct Plain;

impl Engine for Plain {
    const NAME: &'static str = "plain";

    fn encode<L: Layout>(
        start: Option<L::Elem>,
        values: &[L::Elem],
        tags: &mut [u8],
        data: &mut [u8],
    ) -> Outcome {
        if let Some(n) = encode_refusal::<L>(values.len(), tags.len(), data.len()) {
            return Outcome::Refused(n);
        }
        let mut before = start;
        let mut at = 0;
        for (g, group) in values.chunks(4).enumerate() {
            tags[g] = 0;
            for (i, v) in group.iter().enumerate() {
                let stored = match before {
                    Some(p) => v.sub(p).to_u64(),
                    None => v.to_u64(),
                };
                before = before.map(|_| *v);
                let field = shortest::<L>(stored);
                tags[g] |= (field as u8) << (2 * i);
                for k in 0..L::WIDTHS[field] {
                    data[at] = (stored >> (8 * k)) as u8;
                    at += 1;
                }
            }
        }
        Outcome::Done { count: at as u64, sum: 0 }
    }

    fn decode<L: Layout>(
        start: Option<L::Elem>,
        tags: &[u8],
        data: &[u8],
        values: &mut [L::Elem],
    ) -> Outcome {
        if let Some(n) = decode_refusal::<L>(values.len(), tags, data.len()) {
            return Outcome::Refused(n);
        }
        let mut before = start;
        let mut at = 0;
        for (k, v) in values.iter_mut().enumerate() {
            let w = width::<L>(tags[k / 4], k % 4);
            let stored = L::Elem::from_u64(number(&data[at..at + w]));
            at += w;
            *v = match before {
                Some(p) => p.add(stored),
                None => stored,
            };
            before = before.map(|_| *v);
        }
        Outcome::Done { count: at as u64, sum: 0 }
    }

    fn data_len<L: Layout>(tags: &[u8]) -> Outcome {
        if tags.len() > MOST_GROUPS {
            return Outcome::Refused(2);
        }
        Outcome::Done { count: total::<L>(tags) as u64, sum: 0 }
    }

    fn skip_deltas<L: Layout>(tags: &[u8], data: &[u8]) -> Outcome {
        if let Some(n) = skip_refusal::<L>(tags, data.len()) {
            return Outcome::Refused(n);
        }
        let mut sum = L::Elem::from_u64(0);
        let mut at = 0;
        for tag in tags {
            for i in 0..4 {
                let w = width::<L>(*tag, i);
                sum = sum.add(L::Elem::from_u64(number(&data[at..at + w])));
                at += w;
            }
        }
        Outcome::Done { count: at as u64, sum: sum.to_u64() }
    }

    fn tightness<L: Layout>(tags: &[u8], data: &[u8]) -> Option<Tightness> {
        if let Some(n) = skip_refusal::<L>(tags, data.len()) {
            return Some(Tightness::Refused(n));
        }
        let mut at = 0;
        for (g, tag) in tags.iter().enumerate() {
            for i in 0..4 {
                let w = width::<L>(*tag, i);
                if L::WIDTHS[shortest::<L>(number(&data[at..at + w]))] != w {
                    return Some(Tightness::Loose { group: g as u64, position: i as u8 });
                }
                at += w;
            }
        }
        Some(Tightness::Tight)
    }
}
