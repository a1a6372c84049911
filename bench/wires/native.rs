//! The same work in plain Rust: rustc -O native.rs
use std::collections::VecDeque;
use std::hint::black_box;
use std::time::Instant;

struct Report {
    seq: u64,
    border: i128,
    failed: Vec<u32>,
    values: Vec<(u32, i128)>,
}

fn report(count: u32) -> Report {
    let values = (0..count)
        .map(|o| {
            let value = o as i128 * 1_000_003;
            (o + 1, if o % 2 == 0 { value } else { -value })
        })
        .collect();
    Report { seq: 1, border: -5, failed: Vec::new(), values }
}

fn groups(out: &mut Vec<u8>, mut rest: u128) {
    while rest >= 128 {
        out.push(128 | rest as u8);
        rest >>= 7;
    }
    out.push(rest as u8);
}

fn put_u32(out: &mut Vec<u8>, version: u8, value: u32) {
    if version == 1 {
        out.extend_from_slice(&value.to_be_bytes());
    } else {
        groups(out, value as u128);
    }
}

fn put_u64(out: &mut Vec<u8>, version: u8, value: u64) {
    if version == 1 {
        out.extend_from_slice(&value.to_be_bytes());
    } else {
        groups(out, value as u128);
    }
}

fn put_i128(out: &mut Vec<u8>, version: u8, value: i128) {
    if version == 1 {
        out.extend_from_slice(&value.to_be_bytes());
    } else {
        groups(out, ((value << 1) ^ (value >> 127)) as u128);
    }
}

fn encode(frame: &Report, version: u8, out: &mut Vec<u8>) {
    let start = out.len();
    out.extend_from_slice(&[0; 4]);
    out.push(2);
    put_u64(out, version, frame.seq);
    put_i128(out, version, frame.border);
    put_u32(out, version, frame.failed.len() as u32);
    let mut before = 0;
    for &o in &frame.failed {
        put_u32(out, version, if version == 1 { o } else { o - before });
        before = o;
    }
    put_u32(out, version, frame.values.len() as u32);
    let mut before = 0;
    for &(o, value) in &frame.values {
        put_u32(out, version, if version == 1 { o } else { o - before });
        put_i128(out, version, value);
        before = o;
    }
    let length = (out.len() - start - 4) as u32;
    out[start..start + 4].copy_from_slice(&length.to_be_bytes());
}

fn take<const N: usize>(bytes: &mut &[u8]) -> Option<[u8; N]> {
    let (front, rest) = bytes.split_first_chunk::<N>()?;
    *bytes = rest;
    Some(*front)
}

fn ungroup(bytes: &mut &[u8], limit: u128) -> Option<u128> {
    let (mut number, mut shift) = (0u128, 0);
    loop {
        let [byte] = take::<1>(bytes)?;
        let low = (byte & 127) as u128;
        if shift > 126 || (low << shift) >> shift != low {
            return None;
        }
        number |= low << shift;
        if byte < 128 {
            return (number <= limit && (byte != 0 || shift == 0)).then_some(number);
        }
        shift += 7;
    }
}

fn get_u32(bytes: &mut &[u8], version: u8) -> Option<u32> {
    if version == 1 {
        take(bytes).map(u32::from_be_bytes)
    } else {
        ungroup(bytes, u32::MAX as u128).map(|n| n as u32)
    }
}

fn get_u64(bytes: &mut &[u8], version: u8) -> Option<u64> {
    if version == 1 {
        take(bytes).map(u64::from_be_bytes)
    } else {
        ungroup(bytes, u64::MAX as u128).map(|n| n as u64)
    }
}

fn get_i128(bytes: &mut &[u8], version: u8) -> Option<i128> {
    if version == 1 {
        take(bytes).map(i128::from_be_bytes)
    } else {
        ungroup(bytes, u128::MAX).map(|n| (n >> 1) as i128 ^ -((n & 1) as i128))
    }
}

fn get_object(bytes: &mut &[u8], version: u8, before: u32) -> Option<u32> {
    let number = get_u32(bytes, version)?;
    let object = if version == 1 { number } else { before.checked_add(number)? };
    (object > before).then_some(object)
}

fn next(mut bytes: &[u8], version: u8) -> Option<Report> {
    let bytes = &mut bytes;
    let length = u32::from_be_bytes(take(bytes)?) as usize;
    *bytes = bytes.get(..length)?;
    if take::<1>(bytes)? != [2] {
        return None;
    }
    let seq = get_u64(bytes, version)?;
    let border = get_i128(bytes, version)?;
    let (mut failed, mut before) = (Vec::new(), 0);
    for _ in 0..get_u32(bytes, version)? {
        before = get_object(bytes, version, before)?;
        failed.push(before);
    }
    let (mut values, mut before) = (Vec::new(), 0);
    for _ in 0..get_u32(bytes, version)? {
        before = get_object(bytes, version, before)?;
        values.push((before, get_i128(bytes, version)?));
    }
    bytes.is_empty().then_some(Report { seq, border, failed, values })
}

const FRAMES: u32 = 3_349;
const ROOM: usize = 65_536;
const PIECE: usize = 65_536;

struct Wire {
    inbox: VecDeque<u8>,
    outbox: VecDeque<u8>,
    piece: usize,
    calls: u64,
    fails: Vec<u64>,
    taken: u64,
}

fn transfer(from: &mut VecDeque<u8>, to: &mut VecDeque<u8>, most: usize) -> usize {
    let count = most.min(from.len()).min(ROOM - to.len());
    let (front, back) = from.as_slices();
    let first = count.min(front.len());
    to.extend(&front[..first]);
    to.extend(&back[..count - first]);
    from.drain(..count);
    count
}

impl Wire {
    fn new(piece: usize) -> Wire {
        let (inbox, outbox) = (VecDeque::with_capacity(ROOM), VecDeque::with_capacity(ROOM));
        Wire { inbox, outbox, piece, calls: 0, fails: Vec::new(), taken: 0 }
    }

    fn is_refused(&mut self) -> bool {
        self.calls += 1;
        self.fails.contains(&self.calls)
    }

    fn give(&mut self, bytes: &[u8]) -> Option<usize> {
        if self.is_refused() || self.outbox.len() == ROOM {
            return None;
        }
        let count = bytes.len().min(self.piece).min(ROOM - self.outbox.len());
        self.outbox.extend(&bytes[..count]);
        Some(count)
    }

    fn take(&mut self, into: &mut [u8]) -> Option<usize> {
        if self.is_refused() || self.inbox.is_empty() {
            return None;
        }
        let count = into.len().min(self.piece).min(self.inbox.len());
        let (front, back) = self.inbox.as_slices();
        let first = count.min(front.len());
        into[..first].copy_from_slice(&front[..first]);
        into[first..count].copy_from_slice(&back[..count - first]);
        self.inbox.drain(..count);
        self.taken += count as u64;
        Some(count)
    }
}

#[derive(Default)]
struct OutBuffer {
    bytes: Vec<u8>,
    start: usize,
}

impl OutBuffer {
    fn add(&mut self, frame: &Report) {
        if self.start > 0 && self.start >= self.bytes.len() - self.start {
            self.bytes.drain(..self.start);
            self.start = 0;
        }
        encode(frame, 1, &mut self.bytes);
    }

    fn push(&mut self, wire: &mut Wire) {
        while self.start < self.bytes.len() {
            match wire.give(&self.bytes[self.start..]) {
                Some(count) => self.start += count,
                None => return,
            }
        }
        self.bytes.clear();
        self.start = 0;
    }
}

#[derive(Default)]
struct InBuffer {
    bytes: Vec<u8>,
    start: usize,
    end: usize,
}

impl InBuffer {
    fn pull(&mut self, wire: &mut Wire) {
        if self.bytes.len() - self.end < PIECE {
            if self.end - self.start <= self.start {
                self.bytes.copy_within(self.start..self.end, 0);
                self.end -= self.start;
                self.start = 0;
            }
            if self.bytes.len() - self.end < PIECE {
                self.bytes.resize(self.end + PIECE, 0);
            }
        }
        if let Some(count) = wire.take(&mut self.bytes[self.end..self.end + PIECE]) {
            self.end += count;
        }
    }

    fn frame(&mut self) -> Option<Report> {
        let bytes = &self.bytes[self.start..self.end];
        let length = u32::from_be_bytes(*bytes.first_chunk()?) as usize;
        if bytes.len() < 4 + length {
            return None;
        }
        let frame = next(bytes, 1).unwrap();
        self.start += 4 + length;
        if self.start == self.end {
            self.start = 0;
            self.end = 0;
        }
        Some(frame)
    }
}

fn measure(piece: usize) {
    let frame = report(1_000);
    let (mut output, mut input) = (OutBuffer::default(), InBuffer::default());
    let (mut near, mut far) = (Wire::new(piece), Wire::new(piece));
    let mut pipe = VecDeque::with_capacity(ROOM);
    let start = Instant::now();
    let mut whole = 0;
    for _ in 0..FRAMES {
        output.add(black_box(&frame));
        for _ in 0..1_000 {
            output.push(&mut near);
            transfer(&mut near.outbox, &mut pipe, piece);
            transfer(&mut pipe, &mut far.inbox, piece);
            input.pull(&mut far);
            if black_box(input.frame()).is_some() {
                whole += 1;
                break;
            }
        }
    }
    let time = start.elapsed().as_nanos();
    println!("pieces of {piece}: {whole} frames in {time} ns");
}

fn main() {
    measure(65_536);
    measure(64);
}
