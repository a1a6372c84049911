//! The same work in plain Rust: rustc -O native.rs
use std::hint::black_box;
use std::time::Instant;

struct Report {
    seq: u64,
    border: i128,
    failed: Vec<u32>,
    values: Vec<(u32, i128)>,
}

fn report(count: u32) -> Report {
    let values = (0..count)
        .map(|o| {
            let value = o as i128 * 1_000_003;
            (o + 1, if o % 2 == 0 { value } else { -value })
        })
        .collect();
    Report { seq: 1, border: -5, failed: Vec::new(), values }
}

fn groups(out: &mut Vec<u8>, mut rest: u128) {
    while rest >= 128 {
        out.push(128 | rest as u8);
        rest >>= 7;
    }
    out.push(rest as u8);
}

fn put_u32(out: &mut Vec<u8>, version: u8, value: u32) {
    if version == 1 {
        out.extend_from_slice(&value.to_be_bytes());
    } else {
        groups(out, value as u128);
    }
}

fn put_u64(out: &mut Vec<u8>, version: u8, value: u64) {
    if version == 1 {
        out.extend_from_slice(&value.to_be_bytes());
    } else {
        groups(out, value as u128);
    }
}

fn put_i128(out: &mut Vec<u8>, version: u8, value: i128) {
    if version == 1 {
        out.extend_from_slice(&value.to_be_bytes());
    } else {
        groups(out, ((value << 1) ^ (value >> 127)) as u128);
    }
}

fn encode(frame: &Report, version: u8, out: &mut Vec<u8>) {
    let start = out.len();
    out.extend_from_slice(&[0; 4]);
    out.push(2);
    put_u64(out, version, frame.seq);
    put_i128(out, version, frame.border);
    put_u32(out, version, frame.failed.len() as u32);
    let mut before = 0;
    for &o in &frame.failed {
        put_u32(out, version, if version == 1 { o } else { o - before });
        before = o;
    }
    put_u32(out, version, frame.values.len() as u32);
    let mut before = 0;
    for &(o, value) in &frame.values {
        put_u32(out, version, if version == 1 { o } else { o - before });
        put_i128(out, version, value);
        before = o;
    }
    let length = (out.len() - start - 4) as u32;
    out[start..start + 4].copy_from_slice(&length.to_be_bytes());
}

fn take<const N: usize>(bytes: &mut &[u8]) -> Option<[u8; N]> {
    let (front, rest) = bytes.split_first_chunk::<N>()?;
    *bytes = rest;
    Some(*front)
}

fn ungroup(bytes: &mut &[u8], limit: u128) -> Option<u128> {
    let (mut number, mut shift) = (0u128, 0);
    loop {
        let [byte] = take::<1>(bytes)?;
        let low = (byte & 127) as u128;
        if shift > 126 || (low << shift) >> shift != low {
            return None;
        }
        number |= low << shift;
        if byte < 128 {
            return (number <= limit && (byte != 0 || shift == 0)).then_some(number);
        }
        shift += 7;
    }
}

fn get_u32(bytes: &mut &[u8], version: u8) -> Option<u32> {
    if version == 1 {
        take(bytes).map(u32::from_be_bytes)
    } else {
        ungroup(bytes, u32::MAX as u128).map(|n| n as u32)
    }
}

fn get_u64(bytes: &mut &[u8], version: u8) -> Option<u64> {
    if version == 1 {
        take(bytes).map(u64::from_be_bytes)
    } else {
        ungroup(bytes, u64::MAX as u128).map(|n| n as u64)
    }
}

fn get_i128(bytes: &mut &[u8], version: u8) -> Option<i128> {
    if version == 1 {
        take(bytes).map(i128::from_be_bytes)
    } else {
        ungroup(bytes, u128::MAX).map(|n| (n >> 1) as i128 ^ -((n & 1) as i128))
    }
}

fn get_object(bytes: &mut &[u8], version: u8, before: u32) -> Option<u32> {
    let number = get_u32(bytes, version)?;
    let object = if version == 1 { number } else { before.checked_add(number)? };
    (object > before).then_some(object)
}

fn next(mut bytes: &[u8], version: u8) -> Option<Report> {
    let bytes = &mut bytes;
    let length = u32::from_be_bytes(take(bytes)?) as usize;
    *bytes = bytes.get(..length)?;
    if take::<1>(bytes)? != [2] {
        return None;
    }
    let seq = get_u64(bytes, version)?;
    let border = get_i128(bytes, version)?;
    let (mut failed, mut before) = (Vec::new(), 0);
    for _ in 0..get_u32(bytes, version)? {
        before = get_object(bytes, version, before)?;
        failed.push(before);
    }
    let (mut values, mut before) = (Vec::new(), 0);
    for _ in 0..get_u32(bytes, version)? {
        before = get_object(bytes, version, before)?;
        values.push((before, get_i128(bytes, version)?));
    }
    bytes.is_empty().then_some(Report { seq, border, failed, values })
}

fn measure(version: u8, count: u32, rounds: u32) {
    let frame = report(count);
    let mut out = Vec::new();
    let start = Instant::now();
    for _ in 0..rounds {
        out.clear();
        encode(black_box(&frame), version, &mut out);
        black_box(&out);
    }
    let written = start.elapsed().as_nanos();
    let start = Instant::now();
    for _ in 0..rounds {
        black_box(next(black_box(&out), version)).unwrap();
    }
    let read = start.elapsed().as_nanos();
    let bytes = out.len();
    println!("version {version}, {count} values, {bytes} bytes, {rounds} rounds: encode {written} ns, next {read} ns");
}

fn main() {
    measure(1, 1_000, 20_000);
    measure(1, 65_536, 300);
    measure(2, 1_000, 20_000);
    measure(2, 65_536, 300);
}
