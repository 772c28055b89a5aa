//! Random path frames, written by the format alone, and damage to them.

use crate::random::Random;

pub const TOP: u32 = 0x7fff_ffff;
const ROW_TOP: i64 = 1 << 24;

/// Where the parts of a frame lie.
#[derive(Clone, Copy, Debug)]
pub struct Layout {
    pub samples: usize,
    pub rows: usize,
}

impl Layout {
    pub fn sample(&self, i: usize) -> usize {
        15 + 20 * i
    }

    pub fn gap(&self, i: usize) -> usize {
        self.sample(self.samples) + 12 * i
    }

    pub fn row(&self, k: usize) -> usize {
        self.gap(self.samples - 1) + 24 * k
    }

    pub fn bytes(&self) -> usize {
        self.row(self.rows)
    }
}

/// A path of more samples has no floors at first, since one above its cap would be all that a comparison sees.
const MANY: usize = 500;

/// How large a frame's numbers are.
#[derive(Clone, Copy)]
struct Scale {
    speed: u64,
    step: u64,
    offset: u64,
    /// Floors that stand above 0, of a hundred.
    floors: u64,
    spacing: u64,
    factor: u64,
    /// Rows and offsets that may well let nothing fit, of a hundred.
    narrow: u64,
}

fn scale(random: &Random, samples: usize) -> Scale {
    let speed = random.pick(&[3, 20, 20, 300, 5_000, 100_000, 10_000_000, u64::from(TOP)]);
    let step = match random.up_to(5) {
        0 => u64::from(TOP),
        1 => 1,
        2 => speed,
        _ => speed / 4 + 1,
    };
    let offset = match random.up_to(5) {
        0 => u64::from(TOP),
        1 => 0,
        _ => speed / 3 + 1,
    };
    Scale {
        speed,
        step,
        offset,
        floors: if samples > MANY { 0 } else { random.pick(&[0, 0, 0, 5, 20, 60]) },
        narrow: if samples > MANY { 0 } else { 6 },
        spacing: random.pick(&[1, 2, 10, 65_535]),
        factor: random.pick(&[1, 4, 1000, ROW_TOP as u64]),
    }
}

pub fn binary32(random: &Random) -> u32 {
    const SPECIAL: [u32; 22] = [
        0x0000_0000, 0x8000_0000, 0x0000_0001, 0x8000_0001, 0x007f_ffff, 0x0080_0000, 0x807f_ffff, 0x8080_0000, 0x3f80_0000,
        0xbf80_0000, 0x7f80_0000, 0xff80_0000, 0x7fc0_0000, 0xffc0_0000, 0x7f80_0001, 0x7f7f_ffff, 0xff7f_ffff, 0x4335_0000,
        0x4336_0000, 0x3dcc_cccd, 0x3e80_0000, 0x4040_0000,
    ];
    match random.up_to(9) {
        0 | 1 => random.pick(&SPECIAL),
        2 => random.bits(),
        // near 181.02, where the squared speed passes its top, and near 2^-8, where it passes 1
        3 => 0x4335_04f3_u32.wrapping_add(random.up_to(64) as u32).wrapping_sub(32),
        4 => 0x3b80_0000_u32.wrapping_add(random.up_to(64) as u32).wrapping_sub(32),
        // a normal number with an exponent near that of 1
        5..=8 => (random.up_to(40) as u32 + 107) << 23 | random.bits() & 0x7f_ffff,
        _ => random.bits() & 0x807f_ffff,
    }
}

/// A finite one, not below zero where it is a top speed.
fn legal_binary32(random: &Random, is_top_speed: bool) -> u32 {
    loop {
        let bits = binary32(random);
        let is_finite = bits >> 23 & 0xff != 0xff;
        if is_finite && (!is_top_speed || bits < 0x8000_0000 || bits == 0x8000_0000) {
            return bits;
        }
    }
}

struct Writer {
    bytes: Vec<u8>,
}

impl Writer {
    fn two(&mut self, number: u64) {
        self.bytes.extend((number as u16).to_be_bytes());
    }

    fn four(&mut self, number: u64) {
        self.bytes.extend((number as u32).to_be_bytes());
    }

    fn signed(&mut self, number: i64) {
        self.bytes.extend((number as i32).to_be_bytes());
    }
}

fn clause(random: &Random, scale: Scale) -> (u8, u64, u64) {
    match random.up_to(9) {
        0 => (0, 0, 0),
        1 | 2 => (1, u64::from(legal_binary32(random, true)), 0),
        3 | 4 => (2, u64::from(legal_binary32(random, true)), u64::from(legal_binary32(random, false))),
        _ => (3, random.up_to(scale.speed), 0),
    }
}

fn sample(out: &mut Writer, random: &Random, scale: Scale, is_inner: bool) {
    let (kind, first, second) = clause(random, scale);
    let cap = random.pick(&[7, 7, 7, 0, 1, 2, 3, 4, 5, 6]);
    let has_floor = random.percent(scale.floors);
    let class_floor = if has_floor { random.of_any_size(u64::from(cap) + 1).min(7) } else { 0 };
    out.bytes.extend([kind, cap, class_floor as u8, 0]);
    out.four(first);
    out.four(second);
    let has_floor = random.percent(scale.floors);
    out.four(if has_floor { random.of_any_size(scale.speed) } else { 0 });
    let offset = match random.up_to(9) {
        _ if !is_inner => 0,
        0..=2 if !random.percent(5 * scale.narrow) => random.of_any_size(scale.offset) as i64,
        0 => random.pick(&[i64::from(i32::MIN), -1, 0, 1, i64::from(i32::MAX)]),
        1 | 2 => -(random.of_any_size(scale.offset) as i64),
        _ => random.up_to(scale.offset) as i64,
    };
    out.signed(offset);
}

fn gap(out: &mut Writer, random: &Random, scale: Scale) {
    for _ in 0..2 {
        out.bytes.push(random.pick(&[0, 1, 1, 2, 2, 7, 7, random.up_to(7) as u8]));
    }
    out.two(0);
    for _ in 0..2 {
        let step = match random.up_to(9) {
            0 => u64::from(TOP),
            1 => 0,
            _ => random.up_to(scale.step),
        };
        out.four(step);
    }
}

fn row(out: &mut Writer, random: &Random, scale: Scale, gap: usize, spacing: u64) {
    let limit = scale.factor as i64;
    let (d, c) = loop {
        let d = random.between(-limit, limit);
        let c = match random.up_to(2) {
            0 => 0,
            _ => random.between(-limit, limit) / (1 + random.up_to(2 * spacing) as i64),
        };
        let e = d - 2 * spacing as i64 * c;
        if d != 0 && e != 0 && (d < 0) == (e < 0) && e.abs() <= ROW_TOP {
            break (d, c);
        }
    };
    let reach = (scale.speed as i64 * limit / (2 * spacing as i64 * 4) + 2).min(ROW_TOP / 2);
    let g = random.between(-reach, reach);
    let width = random.up_to(reach as u64) as i64;
    let lo = match random.percent(scale.narrow) {
        true => random.between(-reach, reach),
        // at standstill the torque is g
        false => g - random.up_to(width as u64) as i64,
    };
    let hi = lo + width;
    out.two(gap as u64);
    out.two(0);
    for number in [d, c, g, lo.max(-ROW_TOP), hi.min(ROW_TOP)] {
        out.signed(number);
    }
}

/// A frame of so many samples and rows that every question lets through.
pub fn frame(random: &Random, layout: Layout) -> Vec<u8> {
    let scale = scale(random, layout.samples);
    let spacing = 1 + random.up_to(scale.spacing - 1);
    let lateral = match random.up_to(3) {
        0 => 0,
        1 => u64::from(TOP),
        _ => random.of_any_size(u64::from(TOP)),
    };
    let mut out = Writer { bytes: Vec::with_capacity(layout.bytes()) };
    out.bytes.push(1);
    out.four(layout.bytes() as u64 - 5);
    out.two(layout.samples as u64);
    out.two(spacing);
    out.four(lateral);
    out.two(layout.rows as u64);
    for i in 0..layout.samples {
        sample(&mut out, random, scale, i > 0 && i < layout.samples - 1);
    }
    for _ in 1..layout.samples {
        gap(&mut out, random, scale);
    }
    let mut gaps: Vec<usize> = (0..layout.rows).map(|_| random.index(layout.samples - 1)).collect();
    gaps.sort_unstable();
    for at in gaps {
        row(&mut out, random, scale, at, spacing);
    }
    out.bytes
}

/// Mostly short; of two samples often.
pub fn short_layout(random: &Random) -> Layout {
    let samples = match random.up_to(19) {
        0..=4 => 2,
        5..=13 => 3 + random.index(6),
        14..=18 => 9 + random.index(30),
        _ => 40 + random.index(160),
    };
    let rows = match random.up_to(4) {
        0 | 1 => 0,
        2 => 1 + random.index(3),
        3 => random.index(samples + 1),
        _ => random.index(3 * samples),
    };
    Layout { samples, rows }
}

pub fn long_layout(random: &Random) -> Layout {
    Layout {
        samples: random.pick(&[4096, 4095, 4096, 1000 + random.index(3000)]),
        rows: random.pick(&[8192, 8191, 0, random.index(8192)]),
    }
}

fn put(frame: &mut [u8], at: usize, bytes: &[u8]) {
    if let Some(field) = frame.get_mut(at..at + bytes.len()) {
        field.copy_from_slice(bytes);
    }
}

fn mend_length(frame: &mut [u8]) {
    let length = frame.len().saturating_sub(5) as u32;
    put(frame, 1, &length.to_be_bytes());
}

const EXTREME: [u32; 16] = [
    0, 1, 2, 7, 8, 0x7fff_ffff, 0x8000_0000, 0xffff_ffff, 0x0100_0000, 0x0100_0001, 0xff00_0000, 0xfeff_ffff, 0x7f80_0000,
    0x8000_0001, 0x0001_0000, 0xffff_fffe,
];

fn extreme(random: &Random) -> u32 {
    match random.percent(80) {
        true => random.pick(&EXTREME),
        false => random.bits(),
    }
}

/// An extreme number in a field of the head.
fn damage_head(random: &Random, frame: &mut [u8]) {
    let four = extreme(random).to_be_bytes();
    let two = random.pick(&[0, 1, 2, 3, 4095, 4096, 4097, 8191, 8192, 8193, 0xffff, random.bits() as u16]).to_be_bytes();
    match random.up_to(7) {
        0 => put(frame, 0, &[random.pick(&[0, 2, 255])]),
        1 => put(frame, 1, &four),
        2 | 3 => put(frame, 5, &two),
        4 => put(frame, 7, &random.pick(&[[0, 0], two])),
        5 => put(frame, 9, &four),
        _ => put(frame, 13, &two),
    }
}

fn damage_sample(random: &Random, frame: &mut [u8], layout: Layout) {
    let i = random.pick(&[0, layout.samples - 1, random.index(layout.samples)]);
    let start = layout.sample(i);
    let byte = random.pick(&[0, 1, 2, 3, 4, 7, 8, 255]);
    let four = random.pick(&[extreme(random), binary32(random)]).to_be_bytes();
    match random.up_to(8) {
        field @ 0..=3 => put(frame, start + field as usize, &[byte]),
        field => put(frame, start + 4 * (1 + (field as usize & 3)), &four),
    }
}

fn damage_gap(random: &Random, frame: &mut [u8], layout: Layout) {
    let start = layout.gap(random.index(layout.samples - 1));
    match random.up_to(5) {
        field @ 0..=3 => put(frame, start + field as usize, &[random.pick(&[0, 1, 7, 8, 255])]),
        field => put(frame, start + 4 * (field as usize - 3), &extreme(random).to_be_bytes()),
    }
}

fn damage_row(random: &Random, frame: &mut [u8], layout: Layout) {
    if layout.rows == 0 {
        return damage_gap(random, frame, layout);
    }
    let start = layout.row(random.index(layout.rows));
    let last_gap = layout.samples as u16 - 2;
    match random.up_to(9) {
        0 | 1 => put(frame, start, &random.pick(&[0, last_gap, last_gap + 1, 0xffff, random.bits() as u16]).to_be_bytes()),
        2 => put(frame, start + 2 + random.index(2), &[random.pick(&[0, 1, 255])]),
        // d or c, so that e fails
        3 => put(frame, start + 8, &(random.between(-ROW_TOP, ROW_TOP) as i32).to_be_bytes()),
        4 => put(frame, start + 4, &(random.between(-2, 2) as i32).to_be_bytes()),
        field => put(frame, start + 4 * (field as usize - 4), &extreme(random).to_be_bytes()),
    }
}

/// Bytes taken from the end, put in or taken out somewhere, changed, or a record twice.
fn damage_bytes(random: &Random, frame: &mut Vec<u8>) {
    if frame.is_empty() {
        return frame.push(random.bits() as u8);
    }
    let at = random.index(frame.len());
    match random.up_to(6) {
        0 => frame.truncate(at),
        1 => frame.truncate(random.index(frame.len().min(20))),
        2 => frame.insert(at, random.bits() as u8),
        3 => drop(frame.remove(at)),
        4 => frame.extend((0..random.index(30)).map(|_| 0)),
        5 => frame[at] ^= 1 << random.up_to(7),
        _ => frame[at] = random.pick(&[0, 1, 0x7f, 0x80, 0xff, random.bits() as u8]),
    }
}

/// Damages a frame in one to three places; some of it leaves a frame that is accepted.
pub fn damage(random: &Random, frame: &mut Vec<u8>, layout: Layout) {
    for _ in 0..random.pick(&[1, 1, 1, 2, 3]) {
        match random.up_to(9) {
            0 => damage_head(random, frame),
            1 | 2 => damage_sample(random, frame, layout),
            3 | 4 => damage_gap(random, frame, layout),
            5..=7 => damage_row(random, frame, layout),
            _ => {
                damage_bytes(random, frame);
                if random.percent(60) {
                    mend_length(frame);
                }
            }
        }
    }
}
