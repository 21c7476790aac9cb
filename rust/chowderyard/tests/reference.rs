//! Columns of random numbers against a second program that packs one number after another, as the packed form is written
//! down: 0 to 40 groups, the data exact and with bytes behind it, plain and by steps, tight and with widths at random.

use chowderyard::{Coder, Coder0124, Coder1234, Coder1248, Tightness};

/// A small generator of random numbers, the same in each run.
struct Random(u64);

impl Random {
    fn next(&mut self) -> u64 {
        self.0 = self.0.wrapping_add(0x9E37_79B9_7F4A_7C15);
        let mut z = self.0;
        z = (z ^ (z >> 30)).wrapping_mul(0xBF58_476D_1CE4_E5B9);
        z = (z ^ (z >> 27)).wrapping_mul(0x94D0_49BB_1331_11EB);
        z ^ (z >> 31)
    }

    fn below(&mut self, n: u64) -> u64 {
        self.next() % n
    }

    /// A number of at most `bytes` bytes, of any size with the same chance; often at the edge of a width.
    fn number(&mut self, bytes: u32) -> u64 {
        let bits = self.below(u64::from(8 * bytes) + 1) as u32;
        let most = if bits == 64 {
            u64::MAX
        } else {
            (1 << bits) - 1
        };
        let most_of_all = u64::MAX >> (64 - 8 * bytes);
        match self.below(4) {
            0 => most,
            1 => most.wrapping_add(1) & most_of_all,
            _ => self.next() & most,
        }
    }
}

/// One coder as it is written down: four widths.
struct Widths {
    widths: [usize; 4],
    /// The bytes of a number.
    bytes: u32,
}

impl Widths {
    fn mask(&self) -> u64 {
        u64::MAX >> (64 - 8 * self.bytes)
    }

    fn shortest(&self, v: u64) -> usize {
        (0..4)
            .find(|f| self.widths[*f] == 8 || v >> (8 * self.widths[*f]) == 0)
            .expect("the widest holds it")
    }

    /// Tags and data, where `field` picks the field of each number.
    fn pack(&self, numbers: &[u64], mut field: impl FnMut(u64) -> usize) -> (Vec<u8>, Vec<u8>) {
        let (mut tags, mut data) = (Vec::new(), Vec::new());
        for four in numbers.chunks(4) {
            let mut tag = 0;
            for (i, v) in four.iter().enumerate() {
                let f = field(*v);
                tag |= (f as u8) << (2 * i);
                data.extend(&v.to_le_bytes()[..self.widths[f]]);
            }
            tags.push(tag);
        }
        (tags, data)
    }

    fn steps(&self, start: u64, values: &[u64]) -> Vec<u64> {
        let before = std::iter::once(&start).chain(values);
        values
            .iter()
            .zip(before)
            .map(|(v, p)| v.wrapping_sub(*p) & self.mask())
            .collect()
    }
}

fn elems<C: Coder>(numbers: &[u64]) -> Vec<C::Elem> {
    numbers
        .iter()
        .map(|v| C::Elem::try_from(*v).ok().expect("it fits"))
        .collect()
}

fn compares<C: Coder>(widths: [usize; 4]) {
    let w = Widths {
        widths,
        bytes: std::mem::size_of::<C::Elem>() as u32,
    };
    let mut random = Random(20_260_101);
    for round in 0..2000 {
        let n = 4 * (round % 41);
        let values: Vec<u64> = (0..n).map(|_| random.number(w.bytes)).collect();
        let start = random.number(w.bytes);
        let deltas = round % 2 == 1;
        let stored = if deltas {
            w.steps(start, &values)
        } else {
            values.clone()
        };
        let (tags, data) = w.pack(&stored, |v| w.shortest(v));
        encodes::<C>(&values, deltas.then_some(start), &tags, &data);
        reads::<C>(
            &w,
            &mut random,
            &values,
            &stored,
            start,
            deltas,
            &tags,
            &data,
        );
        assert_eq!(C::new().tightness(&tags, &data), Ok(Tightness::Tight));

        // the same with widths at random
        let (tags, data) = w.pack(&stored, |v| w.shortest(v).max(random.below(4) as usize));
        reads::<C>(
            &w,
            &mut random,
            &values,
            &stored,
            start,
            deltas,
            &tags,
            &data,
        );
        let wide = (0..n)
            .find(|i| usize::from(tags[i / 4] >> (2 * (i % 4))) % 4 != w.shortest(stored[*i]));
        let found = match wide {
            None => Tightness::Tight,
            Some(i) => Tightness::Loose {
                group: i / 4,
                position: i % 4,
            },
        };
        assert_eq!(C::new().tightness(&tags, &data), Ok(found));
    }
}

fn encodes<C: Coder>(values: &[u64], start: Option<u64>, tags: &[u8], data: &[u8]) {
    let coder = C::new();
    let values = elems::<C>(values);
    let (groups, room) = C::max_compressed_bytes(values.len());
    let (mut made_tags, mut made_data) = (vec![0x5A; groups + 5], vec![0x5A; room + 5]);
    let written = match start {
        Some(start) => {
            let start = elems::<C>(&[start])[0];
            coder.encode_deltas(start, &values, &mut made_tags, &mut made_data)
        }
        None => coder.encode(&values, &mut made_tags, &mut made_data),
    };
    assert_eq!(written, Ok(data.len()));
    assert_eq!(&made_tags[..groups], tags);
    assert_eq!(&made_data[..data.len()], data);
    assert!(made_tags[groups..].iter().all(|b| *b == 0x5A));
    assert!(made_data[data.len()..].iter().all(|b| *b == 0x5A));
}

#[allow(clippy::too_many_arguments)]
fn reads<C: Coder>(
    w: &Widths,
    random: &mut Random,
    values: &[u64],
    stored: &[u64],
    start: u64,
    deltas: bool,
    tags: &[u8],
    data: &[u8],
) {
    let coder = C::new();
    let mut longer = data.to_vec();
    if random.below(2) == 1 {
        for _ in 0..random.below(41) {
            longer.push(random.next() as u8);
        }
    }
    let mut got = vec![C::Elem::default(); values.len()];
    let read = if deltas {
        coder.decode_deltas(elems::<C>(&[start])[0], tags, &longer, &mut got)
    } else {
        coder.decode(tags, &longer, &mut got)
    };
    assert_eq!(read, Ok(data.len()));
    assert_eq!(got, elems::<C>(values));
    assert_eq!(coder.data_len(tags), Ok(data.len()));
    let sum = stored.iter().fold(0u64, |a, v| a.wrapping_add(*v)) & w.mask();
    let sum = elems::<C>(&[sum])[0];
    assert_eq!(coder.skip_deltas(tags, &longer), Ok((data.len(), sum)));
}

#[test]
fn random_columns_1234() {
    compares::<Coder1234>([1, 2, 3, 4]);
}

#[test]
fn random_columns_0124() {
    compares::<Coder0124>([0, 1, 2, 4]);
}

#[test]
fn random_columns_1248() {
    compares::<Coder1248>([1, 2, 4, 8]);
}
