// The same protocol in plain Rust, for run.py to compare with: `native replay WORDS` prints the text that `topk replay`
// prints. It proves nothing. One file, std only.
//
// How it is fast:
// * levels and factors are i64 where the input shows that they fit, else i128 (one generic engine;
//   a factor past 2^54 in the narrow engine makes the run start again in i128);
// * a raise touches one level and, where it passes the bound of its block of 64 objects, up to two
//   more numbers. Bounds are kept lazily: upper bounds for outsiders and lower bounds for members,
//   in a tree of fan-out 64. They are made exact only where `upper > lower`, and each rescan of a
//   block is paid for by a change that made it stale, so a raise costs O(log n) amortised;
// * sweeps visit only monitors with something to do (bit masks);
// * journal and trails hold 4-byte frame numbers into arenas; a raise is one byte in its trail.
use std::collections::VecDeque;
use std::fs::File;
use std::io::{Read, Write};
use std::ops::{Add, AddAssign, Neg, Sub};

const FILE_LIMIT: usize = 67_108_864;

// ---------------------------------------------------------------------------------------- faults

enum Fault {
    Usage,
    Read(String),
    Bad(String, u32, String),
    Great(u32, u32),
    Write,
}

impl Fault {
    fn code(&self) -> i32 {
        match self {
            Fault::Usage => 2,
            Fault::Read(_) => 3,
            Fault::Bad(..) => 4,
            Fault::Great(..) => 5,
            Fault::Write => 6,
        }
    }
    fn line(&self) -> String {
        match self {
            Fault::Usage => "topk: the words are not understood".into(),
            Fault::Read(f) => format!("topk: {f}: cannot be read"),
            Fault::Bad(f, 0, t) if f.is_empty() => format!("topk: settings: {t}"),
            Fault::Bad(f, 0, t) => format!("topk: {f}: {t}"),
            Fault::Bad(f, l, t) => format!("topk: {f}: line {l}: {t}"),
            Fault::Great(m, o) => {
                format!("topk: monitor {m}: object {o}: the changes pass the limit")
            }
            Fault::Write => "topk: the output cannot be written".into(),
        }
    }
}

fn bad<T>(file: &str, line: u32, text: &str) -> Result<T, Fault> {
    Err(Fault::Bad(file.into(), line, text.into()))
}

// ----------------------------------------------------------------------------------------- input

const PAD: usize = 32;

/// The bytes of a file, then a line feed where it lacks one, then PAD zero bytes. `len` is before both.
fn read_file(name: &str, buf: &mut Vec<u8>) -> Result<usize, Fault> {
    buf.clear();
    let f = File::open(name).map_err(|_| Fault::Read(name.into()))?;
    if f.take(FILE_LIMIT as u64 + 1).read_to_end(buf).is_err() {
        return Err(Fault::Read(name.into()));
    }
    if buf.len() > FILE_LIMIT {
        return bad(name, 0, "the file is too long");
    }
    let len = buf.len();
    if len > 0 && buf[len - 1] != b'\n' {
        // Only the fast path looks past `len`; the record reader below stops at it.
        buf.push(b'\n');
    }
    buf.extend_from_slice(&[0; PAD]);
    Ok(len)
}

fn bom(bytes: &[u8]) -> usize {
    if bytes.starts_with(&[0xef, 0xbb, 0xbf]) { 3 } else { 0 }
}

/// Records as the crate `csv` gives them: no headers, flexible, `"` quotes, any of \r, \n, \r\n ends.
struct Csv {
    pos: usize,
    out: Vec<u8>,
    ends: Vec<usize>,
}

impl Csv {
    fn new(pos: usize) -> Csv {
        Csv { pos, out: Vec::new(), ends: Vec::new() }
    }
    fn field(&self, i: usize) -> &[u8] {
        let from = if i == 0 { 0 } else { self.ends[i - 1] };
        &self.out[from..self.ends[i]]
    }
    fn next(&mut self, b: &[u8]) -> bool {
        self.out.clear();
        self.ends.clear();
        let mut p = self.pos;
        while p < b.len() && (b[p] == b'\n' || b[p] == b'\r') {
            p += 1;
        }
        if p >= b.len() {
            self.pos = p;
            return false;
        }
        let mut state = 0u8; // 0 start of field, 1 in field, 2 in quotes, 3 after a quote in quotes
        loop {
            if p >= b.len() {
                self.ends.push(self.out.len());
                break;
            }
            let c = b[p];
            p += 1;
            if state == 2 {
                if c == b'"' { state = 3 } else { self.out.push(c) }
            } else if state == 0 && c == b'"' {
                state = 2;
            } else if state == 3 && c == b'"' {
                self.out.push(c);
                state = 2;
            } else if c == b',' {
                self.ends.push(self.out.len());
                state = 0;
            } else if c == b'\n' || c == b'\r' {
                self.ends.push(self.out.len());
                break;
            } else {
                self.out.push(c);
                state = 1;
            }
        }
        self.pos = p;
        true
    }
}

#[derive(Clone, Copy, Default)]
struct Slot {
    w0: u64,
    w1: u64,
    len: u32,
    id: u32, // object number, 0 is empty
}

struct Catalog {
    text: Vec<u8>,
    ends: Vec<u32>,
    slots: Vec<Slot>,
    shift: u32,
}

const MIX: u64 = 0x9e37_79b9_7f4a_7c15;

#[inline(always)]
fn last(h: u64) -> u64 {
    (h ^ h >> 29).wrapping_mul(0xbf58_476d_1ce4_e5b9)
}

#[inline(always)]
fn mix(h: u64, w: u64) -> u64 {
    (h.rotate_left(23) ^ w).wrapping_mul(MIX)
}

/// Eight bytes of a buffer that ends with PAD zero bytes after its last line feed.
#[inline(always)]
fn word(b: &[u8], p: usize) -> u64 {
    debug_assert!(p + 8 <= b.len());
    // SAFETY: `Cut::make` stops at the first line feed at or after its start, and reads at most 12 bytes past it.
    unsafe { u64::from_le((b.as_ptr().add(p) as *const u64).read_unaligned()) }
}

/// A mark in the top bit of the first byte of `w` that equals `c`.
#[inline(always)]
fn find(w: u64, c: u8) -> u64 {
    let x = w ^ (0x0101_0101_0101_0101u64.wrapping_mul(c as u64));
    x.wrapping_sub(0x0101_0101_0101_0101) & !x & 0x8080_8080_8080_8080
}

impl Catalog {
    fn len(&self) -> usize {
        self.ends.len()
    }
    fn name(&self, o: usize) -> &[u8] {
        let from = if o == 0 { 0 } else { self.ends[o - 1] as usize };
        &self.text[from..self.ends[o] as usize]
    }
    fn key(name: &[u8]) -> (u64, u64, u64) {
        let (mut w0, mut w1, mut h) = (0, 0, 0);
        for (i, c) in name.chunks(8).enumerate() {
            let mut x = [0u8; 8];
            x[..c.len()].copy_from_slice(c);
            let w = u64::from_le_bytes(x);
            if i == 0 {
                w0 = w
            } else if i == 1 {
                w1 = w
            }
            h = mix(h, w);
        }
        (w0, w1, last(h))
    }
    #[inline(always)]
    fn look(&self, w0: u64, w1: u64, h: u64, name: &[u8]) -> u32 {
        let mask = self.slots.len() - 1;
        let mut i = (h >> self.shift) as usize;
        loop {
            let s = &self.slots[i];
            if s.id == 0 {
                return 0;
            }
            if s.w0 == w0
                && s.w1 == w1
                && s.len as usize == name.len()
                && (name.len() <= 16 || self.name(s.id as usize - 1) == name)
            {
                return s.id;
            }
            i = (i + 1) & mask;
        }
    }
    #[inline(always)]
    fn fetch(&self, h: u64) {
        prefetch(&self.slots[(h >> self.shift) as usize]);
    }
    fn find(&self, name: &[u8]) -> u32 {
        let (w0, w1, h) = Catalog::key(name);
        self.look(w0, w1, h, name)
    }
    fn read(file: &str, b: &[u8]) -> Result<Catalog, Fault> {
        let mut c = Catalog { text: vec![], ends: vec![], slots: vec![Slot::default(); 64], shift: 58 };
        let mut csv = Csv::new(bom(b));
        while csv.next(b) {
            let line = c.len() as u32 + 1;
            if c.len() == 65_536 {
                return bad(file, 0, "too many records");
            }
            if csv.ends.len() != 1 {
                return bad(file, line, "wrong number of fields");
            }
            let name = csv.field(0);
            if name.is_empty() || name.len() > 255 || name.iter().any(|&x| !(0x21..=0x7e).contains(&x)) {
                return bad(file, line, "bad name");
            }
            let (w0, w1, h) = Catalog::key(name);
            if c.look(w0, w1, h, name) != 0 {
                return bad(file, line, "repeated name");
            }
            c.text.extend_from_slice(name);
            c.ends.push(c.text.len() as u32);
            if c.len() * 3 > c.slots.len() {
                c.grow();
            } else {
                c.put(w0, w1, h, name.len() as u32, line);
            }
        }
        if c.len() == 0 {
            return bad(file, 0, "no object");
        }
        Ok(c)
    }
    fn put(&mut self, w0: u64, w1: u64, h: u64, len: u32, id: u32) {
        let mask = self.slots.len() - 1;
        let mut i = (h >> self.shift) as usize;
        while self.slots[i].id != 0 {
            i = (i + 1) & mask;
        }
        self.slots[i] = Slot { w0, w1, len, id };
    }
    fn grow(&mut self) {
        self.slots = vec![Slot::default(); self.slots.len() * 2];
        self.shift -= 1;
        for o in 0..self.len() {
            let (w0, w1, h) = Catalog::key(self.name(o));
            let len = self.name(o).len() as u32;
            self.put(w0, w1, h, len, o as u32 + 1);
        }
    }
    fn numbered(n: usize) -> Catalog {
        let mut c = Catalog { text: vec![], ends: vec![], slots: vec![Slot::default(); 2], shift: 63 };
        for i in 1..=n {
            c.text.extend_from_slice(format!("o{i}").as_bytes());
            c.ends.push(c.text.len() as u32);
        }
        c
    }
}

/// A record `name,number` of the plain kind, cut but not looked up.
#[derive(Clone, Copy, Default)]
struct Cut {
    w0: u64,
    w1: u64,
    h: u64,
    comma: usize,
    next: usize,
    by: i32,
}

impl Cut {
    /// False for any other kind, which is left to the record reader.
    #[inline(always)]
    fn make(b: &[u8], p: usize, len: usize, out: &mut Cut) -> bool {
        if b[p] == b'"' {
            return false;
        }
        let (mut w0, mut w1, mut h) = (0u64, 0u64, 0u64);
        let mut q = p;
        let mut turn = 0;
        loop {
            let w = word(b, q);
            let c = find(w, b',');
            let f = c | find(w, b'\n');
            if f == 0 {
                if turn == 0 {
                    w0 = w
                } else if turn == 1 {
                    w1 = w
                }
                h = mix(h, w);
                q += 8;
                turn += 1;
                continue;
            }
            let low = f & f.wrapping_neg();
            if c & low == 0 {
                return false; // the line ends before a comma
            }
            let at = (f.trailing_zeros() / 8) as usize;
            if at > 0 {
                let w = w & (!0u64 >> (64 - 8 * at));
                if turn == 0 {
                    w0 = w
                } else if turn == 1 {
                    w1 = w
                }
                h = mix(h, w);
            }
            q += at;
            break;
        }
        let comma = q;
        q += 1;
        let neg = (b[q] == b'-') as i32;
        q += neg as usize + (b[q] == b'+') as usize;
        let w = word(b, q);
        let f = find(w, b'\n');
        let v;
        let next;
        if f != 0 {
            // At most 7 digits: all at once.
            let mut at = (f.trailing_zeros() / 8) as usize;
            next = q + at + 1;
            if at > 0 && b[q + at - 1] == b'\r' {
                at -= 1;
            }
            if at == 0 {
                return false;
            }
            let x = w << (64 - 8 * at) | 0x3030_3030_3030_3030 >> (8 * at);
            const HIGH: u64 = 0xf0f0_f0f0_f0f0_f0f0;
            if (x & HIGH) | (x.wrapping_add(0x0606_0606_0606_0606) & HIGH) >> 4 != 0x3333_3333_3333_3333 {
                return false;
            }
            let x = (x & 0x0f0f_0f0f_0f0f_0f0f).wrapping_mul(2561) >> 8;
            let x = (x & 0x00ff_00ff_00ff_00ff).wrapping_mul(6_553_601) >> 16;
            v = (x & 0x0000_ffff_0000_ffff).wrapping_mul(42_949_672_960_001) >> 32;
        } else {
            let start = q;
            let mut x = 0u64;
            loop {
                let d = b[q].wrapping_sub(b'0');
                if d > 9 {
                    break;
                }
                x = x.wrapping_mul(10).wrapping_add(d as u64);
                q += 1;
            }
            if q == start || q - start > 18 || x > i32::MAX as u64 {
                return false;
            }
            next = match b[q] {
                b'\n' => q + 1,
                b'\r' if q < len && b[q + 1] == b'\n' => q + 2,
                _ => return false,
            };
            v = x;
        }
        *out = Cut { w0, w1, h: last(h), comma, next, by: (v as i32 ^ -neg) + neg };
        true
    }
}

#[inline(always)]
fn prefetch<X>(x: *const X) {
    #[cfg(target_arch = "x86_64")]
    unsafe {
        std::arch::x86_64::_mm_prefetch(x as *const i8, std::arch::x86_64::_MM_HINT_T0);
    }
    #[cfg(not(target_arch = "x86_64"))]
    let _ = x;
}

/// A change of at most 32 bits, in six bytes.
#[derive(Clone, Copy)]
#[repr(C, packed)]
struct Change {
    obj: u16, // from 0
    by: i32,
}

enum List {
    Narrow(Vec<Change>),
    Wide(Vec<(u16, i128)>),
}

struct Part {
    mon: u8, // from 0
    list: List,
}

impl Part {
    fn push(&mut self, obj: u16, v: i128) {
        if let (List::Narrow(l), Ok(by)) = (&mut self.list, i32::try_from(v)) {
            l.push(Change { obj, by });
            return;
        }
        if let List::Narrow(l) = &self.list {
            self.list = List::Wide(l.iter().map(|c| (c.obj, c.by as i128)).collect());
        }
        if let List::Wide(l) = &mut self.list {
            l.push((obj, v));
        }
    }
    fn narrow(&self) -> bool {
        matches!(self.list, List::Narrow(_))
    }
    /// One log. `b` is as `read_file` leaves it, with `len` its true length. Plain records are cut in
    /// batches, so that the slots of their names are fetched while the next ones are cut.
    fn read(file: &str, mon: u8, b: &[u8], len: usize, names: &Catalog) -> Result<Part, Fault> {
        const BATCH: usize = 16;
        let lines = (len / 4 + 1).min(1_000_000); // the shortest record has 4 bytes; untouched room costs nothing
        let mut part = Part { mon, list: List::Narrow(Vec::with_capacity(lines)) };
        let mut csv = Csv::new(0);
        let mut cuts = [Cut::default(); BATCH];
        let mut p = bom(&b[..len]);
        while p < len {
            let room = BATCH.min(1_000_000 - part.len());
            let mut n = 0;
            let mut q = p;
            while n < room && q < len && Cut::make(b, q, len, &mut cuts[n]) {
                names.fetch(cuts[n].h);
                q = cuts[n].next;
                n += 1;
            }
            let mut known = 0;
            for c in &cuts[..n] {
                let id = names.look(c.w0, c.w1, c.h, &b[p..c.comma]);
                if id == 0 {
                    break;
                }
                let obj = (id - 1) as u16;
                if let List::Narrow(l) = &mut part.list {
                    l.push(Change { obj, by: c.by });
                } else {
                    part.push(obj, c.by as i128);
                }
                p = c.next;
                known += 1;
            }
            if known == BATCH {
                continue;
            }
            // One record by the rules; where nothing is wrong with it, cutting goes on after it.
            csv.pos = p;
            if !csv.next(&b[..len]) {
                break;
            }
            p = csv.pos;
            let count = part.len() as u32 + 1;
            if count > 1_000_000 {
                return bad(file, 0, "too many records");
            }
            if csv.ends.len() != 2 {
                return bad(file, count, "wrong number of fields");
            }
            let id = names.find(csv.field(0));
            if id == 0 {
                return bad(file, count, "unknown object");
            }
            let t = csv.field(1);
            let d = if !t.is_empty() && (t[0] == b'+' || t[0] == b'-') { &t[1..] } else { t };
            let Some(v) = digits(d, 38) else {
                return bad(file, count, "bad number");
            };
            part.push((id - 1) as u16, if t[0] == b'-' { -(v as i128) } else { v as i128 });
        }
        if let List::Narrow(l) = &mut part.list {
            l.shrink_to_fit();
        }
        Ok(part)
    }
    fn len(&self) -> usize {
        match &self.list {
            List::Narrow(l) => l.len(),
            List::Wide(l) => l.len(),
        }
    }
}

/// 1 to `max` (at most 38) decimal digits.
fn digits(s: &[u8], max: usize) -> Option<u128> {
    if s.is_empty() || s.len() > max || !s.iter().all(u8::is_ascii_digit) {
        return None;
    }
    Some(s.iter().fold(0u128, |a, &c| a * 10 + (c - b'0') as u128))
}

#[derive(Clone, Copy)]
enum Event {
    Raise(u32, u32),
    Check(u32),
    Up(u32),
    Down(u32),
    Retune(u64, u128, u32),
}

fn read_order(file: &str, b: &[u8]) -> Result<Vec<Event>, Fault> {
    let mut list = vec![];
    let mut rest = b;
    let mut line = 0;
    while !rest.is_empty() {
        line += 1;
        let (mut l, after) = match rest.iter().position(|&c| c == b'\n') {
            Some(i) => (&rest[..i], &rest[i + 1..]),
            None => (rest, &rest[rest.len()..]),
        };
        if after.len() + l.len() < rest.len() && l.last() == Some(&b'\r') {
            l = &l[..l.len() - 1];
        }
        rest = after;
        if l.is_empty() {
            continue;
        }
        let small = |s: &[u8]| digits(s, 3).filter(|&v| v > 0 && s[0] != b'0').map(|v| v as u32);
        let w: Vec<&[u8]> = l.split(|&c| c == b' ').collect();
        let event = match (w[0], w.len()) {
            (b"raise", 3) => small(w[1]).and_then(|m| small(w[2]).map(|f| Event::Raise(m, f))),
            (b"check", 2) => small(w[1]).map(Event::Check),
            (b"up", 2) => small(w[1]).map(Event::Up),
            (b"down", 2) => small(w[1]).map(Event::Down),
            (b"retune", 3) => digits(w[1], 18)
                .and_then(|k| digits(w[2], 38).map(|e| Event::Retune(k as u64, e, line))),
            _ => None,
        };
        match event {
            Some(e) => list.push(e),
            None => return bad(file, line, "bad order"),
        }
    }
    Ok(list)
}

#[derive(Clone, Copy)]
struct Settings {
    k: usize,
    epsilon: u128,
    own: u32,
    objects: usize,
    monitors: usize,
}

fn settings(k: u64, epsilon: u128, own: u64, objects: u64, monitors: u64) -> Result<Settings, &'static str> {
    if objects == 0 || objects > 65_536 || monitors == 0 || monitors > 64 || objects * monitors > 1_048_576 {
        return Err("bad number of objects or monitors");
    }
    if k == 0 || k > 1_024 || k > objects {
        return Err("bad k");
    }
    if epsilon > 1 << 100 {
        return Err("bad epsilon");
    }
    if own > 1_000 {
        return Err("bad own weight");
    }
    Ok(Settings { k: k as usize, epsilon, own: own as u32, objects: objects as usize, monitors: monitors as usize })
}

// --------------------------------------------------------------------------------------- numbers

trait Num:
    Copy + Ord + Default + Add<Output = Self> + Sub<Output = Self> + Neg<Output = Self> + AddAssign + 'static
{
    const LEAST: Self;
    const MOST: Self;
    /// True where a factor past the limit opens a wide round, false where it means "use i128".
    const EXACT: bool;
    fn of(x: i128) -> Self;
    fn of_u32(x: u32) -> Self;
    fn flag(x: bool) -> Self;
    fn change(list: &List, i: usize) -> Option<(usize, Self)>;
    fn div(self, w: u32) -> (Self, Self);
    fn times(self, w: u32) -> Self;
    fn past(self) -> bool;
}

#[cfg(not(tiny))]
const NARROW: i64 = 1 << 54;
#[cfg(tiny)]
const NARROW: i64 = 40; // for a test of the restart in i128

impl Num for i64 {
    const LEAST: i64 = i64::MIN;
    const MOST: i64 = i64::MAX;
    const EXACT: bool = false;
    fn of(x: i128) -> i64 {
        x as i64
    }
    #[inline(always)]
    fn of_u32(x: u32) -> i64 {
        x as i64
    }
    #[inline(always)]
    fn flag(x: bool) -> i64 {
        x as i64
    }
    #[inline(always)]
    fn change(list: &List, i: usize) -> Option<(usize, i64)> {
        match list {
            List::Narrow(l) => l.get(i).map(|c| (c.obj as usize, c.by as i64)),
            List::Wide(l) => l.get(i).map(|c| (c.0 as usize, c.1 as i64)),
        }
    }
    #[inline(always)]
    fn div(self, w: u32) -> (i64, i64) {
        let q = self.div_euclid(w as i64);
        (q, self - q * w as i64)
    }
    #[inline(always)]
    fn times(self, w: u32) -> i64 {
        self.wrapping_mul(w as i64)
    }
    #[inline(always)]
    fn past(self) -> bool {
        self > NARROW || self < -NARROW
    }
}

impl Num for i128 {
    const LEAST: i128 = i128::MIN;
    const MOST: i128 = i128::MAX;
    const EXACT: bool = true;
    fn of(x: i128) -> i128 {
        x
    }
    #[inline(always)]
    fn of_u32(x: u32) -> i128 {
        x as i128
    }
    #[inline(always)]
    fn flag(x: bool) -> i128 {
        x as i128
    }
    #[inline(always)]
    fn change(list: &List, i: usize) -> Option<(usize, i128)> {
        match list {
            List::Narrow(l) => l.get(i).map(|c| (c.obj as usize, c.by as i128)),
            List::Wide(l) => l.get(i).map(|c| (c.0 as usize, c.1 as i128)),
        }
    }
    #[inline(always)]
    fn div(self, w: u32) -> (i128, i128) {
        if let Ok(x) = i64::try_from(self) {
            let q = x.div_euclid(w as i64);
            return (q as i128, (x - q * w as i64) as i128);
        }
        let q = self.div_euclid(w as i128);
        (q, self - q * w as i128)
    }
    #[inline(always)]
    fn times(self, w: u32) -> i128 {
        self.wrapping_mul(w as i128)
    }
    #[inline(always)]
    fn past(self) -> bool {
        self > 1 << 112 || self < -(1 << 112)
    }
}

// ------------------------------------------------------------------------------------ the bounds

/// The greatest leaf whose mask bit is 0, by lazy upper bounds in a tree of fan-out 64.
struct Top<T> {
    leaf: Vec<T>,
    mask: Vec<u64>,
    h1: Vec<T>,
    h2: Vec<T>,
    top: T,
}

impl<T: Num> Top<T> {
    fn new(n: usize) -> Top<T> {
        let blocks = n.div_ceil(64);
        let supers = blocks.div_ceil(64);
        let zero = T::default();
        let mut leaf = vec![zero; blocks * 64];
        let mut mask = vec![0u64; blocks];
        leaf[n..].fill(T::MOST);
        if n % 64 != 0 {
            mask[blocks - 1] = !0 << (n % 64);
        }
        let mut h1 = vec![zero; supers * 64];
        h1[blocks..].fill(T::LEAST);
        Top { leaf, mask, h1, h2: vec![zero; supers], top: zero }
    }
    #[inline(always)]
    fn has(&self, o: usize) -> bool {
        self.mask[o >> 6] >> (o & 63) & 1 == 1
    }
    #[inline(always)]
    fn lift(&mut self, o: usize, v: T) {
        let b = o >> 6;
        if v > self.h1[b] {
            self.h1[b] = v;
            if v > self.h2[b >> 6] {
                self.h2[b >> 6] = v;
                if v > self.top {
                    self.top = v;
                }
            }
        }
    }
    #[inline]
    fn scan(&self, b: usize) -> T {
        let l = &self.leaf[b * 64..b * 64 + 64];
        let mut out = !self.mask[b];
        if out == !0 {
            let mut best = l[0];
            for &x in l {
                best = if x > best { x } else { best };
            }
            return best;
        }
        let mut best = T::LEAST;
        while out != 0 {
            let x = l[out.trailing_zeros() as usize];
            best = if x > best { x } else { best };
            out &= out - 1;
        }
        best
    }
    fn best(l: &[T]) -> T {
        let mut best = l[0];
        for &x in l {
            best = if x > best { x } else { best };
        }
        best
    }
    /// Makes `top` exact; LEAST where every leaf is masked.
    fn exact(&mut self) -> T {
        loop {
            let t2 = Top::best(&self.h2);
            if t2 == T::LEAST {
                self.top = t2;
                return t2;
            }
            let s = self.h2.iter().position(|&x| x == t2).unwrap();
            let group = &self.h1[s * 64..s * 64 + 64];
            let t1 = Top::best(group);
            if t1 < t2 {
                self.h2[s] = t1;
                continue;
            }
            let b = s * 64 + group.iter().position(|&x| x == t1).unwrap();
            let e = self.scan(b);
            if e == t1 {
                self.top = e;
                return e;
            }
            self.h1[b] = e;
            self.h2[s] = Top::best(&self.h1[s * 64..s * 64 + 64]);
        }
    }
    /// The objects with mask bit 0 and a leaf above `x`, ascending.
    fn above(&self, x: T, out: &mut Vec<u16>) {
        for s in 0..self.h2.len() {
            if self.h2[s] <= x {
                continue;
            }
            let end = self.mask.len().min(s * 64 + 64);
            for b in s * 64..end {
                if self.h1[b] <= x {
                    continue;
                }
                let mut bits = !self.mask[b];
                while bits != 0 {
                    let i = b * 64 + bits.trailing_zeros() as usize;
                    if self.leaf[i] > x {
                        out.push(i as u16);
                    }
                    bits &= bits - 1;
                }
            }
        }
    }
    /// The greatest leaf with mask bit 0 outside `r`; `tmp` is scratch. LEAST where there is none.
    fn outside(&mut self, r: &[u16], tmp: &mut Vec<u16>) -> T {
        tmp.clear();
        for &o in r {
            let o = o as usize;
            if !self.has(o) {
                self.mask[o >> 6] |= 1 << (o & 63);
                tmp.push(o as u16);
            }
        }
        let e = self.exact();
        for &o in tmp.iter() {
            let o = o as usize;
            self.mask[o >> 6] &= !(1 << (o & 63));
            self.lift(o, self.leaf[o]);
        }
        e
    }
    fn switch(&mut self, old: &[u16], new: &[u16]) {
        for &o in old {
            self.mask[o as usize >> 6] &= !(1 << (o & 63));
        }
        for &o in new {
            self.mask[o as usize >> 6] |= 1 << (o & 63);
        }
    }
}

// ---------------------------------------------------------------------------------------- arenas

const REPORT: u32 = 0;
const COLLECT: u32 = 1;
const VALUES: u32 = 2;
const ASSIGN: u32 = 3;
const SETTLED: u32 = 4;
const STOP: u32 = 5;
const KIND: u32 = 29;

#[derive(Clone, Copy)]
struct Span {
    at: u32,
    len: u32,
}

impl Span {
    fn of<'a, X>(&self, pool: &'a [X]) -> &'a [X] {
        &pool[self.at as usize..self.at as usize + self.len as usize]
    }
}

#[derive(Clone, Copy)]
struct ReportF<T> {
    seq: u32,
    r: u32,
    failed: Span,
    border: T,
    vals: u64,
}
#[derive(Clone, Copy)]
struct CollectF {
    #[allow(dead_code)]
    round: u32,
    r: u32,
}
#[derive(Clone, Copy)]
struct ValuesF<T> {
    #[allow(dead_code)]
    round: u32,
    #[allow(dead_code)]
    seq: u32,
    border: T,
    vals: u64,
}
#[derive(Clone, Copy)]
struct AssignF {
    seq: u32,
    set: u32,
    r: u32,
    vals: u64,
}
#[derive(Clone, Copy)]
struct SettledF {
    seq_last: u32, // 2 * seq + last
    places: u32,
}

/// Every frame once; the journal and the trails hold its number.
struct Store<T> {
    objs: Vec<u16>, // objects from 0
    rsets: Vec<Span>,
    sets: Vec<Span>,
    vals: Vec<T>,
    places: Vec<u32>,
    reports: Vec<ReportF<T>>,
    collects: Vec<CollectF>,
    values: Vec<ValuesF<T>>,
    assigns: Vec<AssignF>,
    settled: Vec<SettledF>,
}

impl<T> Store<T> {
    fn list(&mut self, l: &[u16]) -> Span {
        let at = self.objs.len() as u32;
        self.objs.extend_from_slice(l);
        Span { at, len: l.len() as u32 }
    }
}

// --------------------------------------------------------------------------------------- monitor

const NONE: u32 = u32::MAX;

struct Mon<T> {
    hi: Top<T>, // levels; the mask bit is 1 for members
    fac: Vec<T>,
    l1: Vec<T>, // lower bounds of the members' levels
    l2: Vec<T>,
    lo: T,
    set: u32,
    seq: u32,
    reported: bool,
    told: bool,
    open: u32, // parts with changes left
    first: usize,
    parts: usize,
    trail: Vec<u8>,
    up: VecDeque<u32>,
    down: VecDeque<u32>,
}

impl<T: Num> Mon<T> {
    #[inline(always)]
    fn change(&mut self, o: usize, by: T) {
        let b = o >> 6;
        assert!(b < self.hi.mask.len());
        // SAFETY: leaf has 64 places per word of mask; h1 and l1 have at least as many places as mask.
        unsafe {
            let x = self.hi.leaf.get_unchecked_mut(o);
            let l = *x + by;
            *x = l;
            if *self.hi.mask.get_unchecked(b) >> (o & 63) & 1 == 1 {
                if l < *self.l1.get_unchecked(b) {
                    self.sink(b, l);
                }
            } else if l > *self.hi.h1.get_unchecked(b) {
                self.hi.lift(o, l);
            }
        }
    }
    fn sink(&mut self, b: usize, l: T) {
        self.l1[b] = l;
        if l < self.l2[b >> 6] {
            self.l2[b >> 6] = l;
            if l < self.lo {
                self.lo = l;
            }
        }
    }
    fn least(l: &[T]) -> T {
        let mut best = l[0];
        for &x in l {
            best = if x < best { x } else { best };
        }
        best
    }
    fn exact_lo(&mut self) -> T {
        loop {
            let t2 = Mon::least(&self.l2);
            if t2 == T::MOST {
                self.lo = t2;
                return t2;
            }
            let s = self.l2.iter().position(|&x| x == t2).unwrap();
            let group = &self.l1[s * 64..s * 64 + 64];
            let t1 = Mon::least(group);
            if t1 > t2 {
                self.l2[s] = t1;
                continue;
            }
            let b = s * 64 + group.iter().position(|&x| x == t1).unwrap();
            let mut bits = self.hi.mask[b];
            let mut e = T::MOST;
            while bits != 0 {
                let x = self.hi.leaf[b * 64 + bits.trailing_zeros() as usize];
                e = if x < e { x } else { e };
                bits &= bits - 1;
            }
            if e == t1 {
                self.lo = e;
                return e;
            }
            self.l1[b] = e;
            self.l2[s] = Mon::least(&self.l1[s * 64..s * 64 + 64]);
        }
    }
    /// Exact; both bounds are exact where the answer is true.
    #[inline]
    fn broken(&mut self) -> bool {
        if self.hi.top <= self.lo || self.hi.exact() <= self.lo {
            return false;
        }
        self.exact_lo() < self.hi.top
    }
    fn note(&mut self, tag: u8, id: u32) {
        let b = id.to_le_bytes();
        self.trail.extend_from_slice(&[tag, b[0], b[1], b[2], b[3]]);
    }
    fn assign(&mut self, f: AssignF, st: &Store<T>) {
        let new = st.sets[f.set as usize].of(&st.objs);
        if self.set != f.set {
            if self.set == NONE {
                self.hi.switch(&[], new);
            } else {
                let old = st.sets[self.set as usize].of(&st.objs);
                for &o in old {
                    self.l1[o as usize >> 6] = T::MOST;
                }
                self.hi.switch(old, new);
            }
            self.set = f.set;
        }
        if f.r != NONE {
            let r = st.rsets[f.r as usize].of(&st.objs);
            let v = &st.vals[f.vals as usize..f.vals as usize + r.len()];
            for (&o, &x) in r.iter().zip(v) {
                let o = o as usize;
                let l = self.hi.leaf[o] - self.fac[o] + x;
                self.hi.leaf[o] = l;
                self.fac[o] = x;
                if !self.hi.has(o) {
                    self.hi.lift(o, l);
                }
            }
        }
        for &o in new {
            self.l1[o as usize >> 6] = T::MOST;
        }
        for &o in new {
            let b = o as usize >> 6;
            let x = self.hi.leaf[o as usize];
            if x < self.l1[b] {
                self.l1[b] = x;
            }
        }
        self.lo = T::MOST;
        for (s, g) in self.l1.chunks_exact(64).enumerate() {
            let x = Mon::least(g);
            self.l2[s] = x;
            self.lo = self.lo.min(x);
        }
        self.seq = f.seq;
        self.reported = false;
        self.told = false;
    }
}

// ----------------------------------------------------------------------------------------- world

struct Round<T> {
    wide: bool,
    r: u32,
    number: u32,
    wait: u64,
    vals: Vec<u64>,
    border: Vec<T>,
    tune: Option<(usize, T)>,
}

struct Publication {
    last: bool,
    set: u32,
    tuned: u32, // number of retunes before it
    cut: usize,
}

#[derive(Clone, Copy, Default)]
struct Counts {
    n: [u64; 6], // by kind
}

const GOT: u16 = 0;
const SENT: u16 = 64;
const PUBLISHED: u16 = 128;
const TUNED: u16 = 129;

/// A part that is being raised.
struct Lane<'a> {
    list: &'a List,
    len: u32,
    pos: u32,
    code: u16, // its Raise as an event
    mon: u8,
    tag: u8, // its Raised in the trail
}

struct World<'a, T> {
    s: Settings,
    n: usize,
    m: usize,
    all: u64,
    lanes: Vec<Lane<'a>>,
    mons: Vec<Mon<T>>,
    st: Store<T>,
    up_mask: u64,
    down_mask: u64,
    dirty: u64,
    events: Vec<u16>,
    // the coordinator
    k: usize,
    eps: T,
    own: Top<T>,
    at: Vec<T>, // monitor by monitor
    set: u32,
    sent: Vec<u32>,
    answer: Vec<u8>, // 0 none, 1 Report, 2 Settled, 3 Settled with last
    answer_places: Vec<u32>,
    settled: usize,
    lasts: usize,
    round: Option<Round<T>>,
    rounds: u32,
    streak: u32,
    tunes: Vec<(usize, u128)>,
    pubs: Vec<Publication>,
    cuts: Vec<u32>,
    stopped: bool,
    journal_tag: Vec<u16>,
    journal_id: Vec<u32>,
    per: Vec<Counts>,
    short: u64,
    full: u64,
    wide: u64,
    stale: u64,
    bytes: u128,
    all_r: u32,
    overflow: bool,
    // scratch
    tmp: Vec<u16>,
    s1: Vec<T>,
    s2: Vec<T>,
    s3: Vec<T>,
    order: Vec<u32>,
    chosen: Vec<bool>,
}

impl<'a, T: Num> World<'a, T> {
    /// `parts` stand monitor by monitor.
    fn new(s: Settings, parts: &'a [Part]) -> World<'a, T> {
        let (n, m) = (s.objects, s.monitors);
        let total: usize = parts.iter().map(|p| p.len()).sum();
        let mut mons = Vec::with_capacity(m);
        for j in 0..m {
            let mine = || parts.iter().filter(|p| p.mon as usize == j);
            let hi: Top<T> = Top::new(n);
            let groups = hi.h1.len();
            mons.push(Mon {
                fac: vec![T::default(); n],
                l1: vec![T::MOST; groups],
                l2: vec![T::MOST; groups / 64],
                lo: T::MOST,
                hi,
                set: NONE,
                seq: 0,
                reported: false,
                told: false,
                open: mine().filter(|p| p.len() > 0).count() as u32,
                first: parts.iter().position(|p| p.mon as usize == j).unwrap(),
                parts: mine().count(),
                trail: Vec::with_capacity(mine().map(|p| p.len()).sum()),
                up: VecDeque::with_capacity(8),
                down: VecDeque::with_capacity(8),
            });
        }
        let lanes = parts
            .iter()
            .enumerate()
            .map(|(p, part)| {
                let f = p - mons[part.mon as usize].first;
                Lane {
                    list: &part.list,
                    len: part.len() as u32,
                    pos: 0,
                    code: (part.mon as u16) << 3 | f as u16,
                    mon: part.mon,
                    tag: f as u8 + 1,
                }
            })
            .collect();
        let first: Vec<u16> = (0..s.k as u32).map(|o| o as u16).collect();
        let mut st = Store {
            objs: vec![],
            rsets: vec![],
            sets: vec![],
            vals: vec![],
            places: vec![],
            reports: vec![],
            collects: vec![],
            values: vec![],
            assigns: vec![],
            settled: vec![],
        };
        let span = st.list(&first);
        st.sets.push(span);
        let mut own: Top<T> = Top::new(n);
        own.switch(&[], &first);
        let mut w = World {
            s,
            n,
            m,
            all: if m == 64 { !0 } else { (1 << m) - 1 },
            lanes,
            mons,
            st,
            up_mask: 0,
            down_mask: 0,
            dirty: 0,
            events: Vec::with_capacity(total),
            k: s.k,
            eps: T::of(s.epsilon as i128),
            own,
            at: vec![T::default(); n * m],
            set: 0,
            sent: vec![0; m],
            answer: vec![0; m],
            answer_places: vec![0; m],
            settled: 0,
            lasts: 0,
            round: None,
            rounds: 0,
            streak: 0,
            tunes: vec![],
            pubs: vec![],
            cuts: vec![],
            stopped: false,
            journal_tag: vec![],
            journal_id: vec![],
            per: vec![Counts::default(); m],
            short: 0,
            full: 0,
            wide: 0,
            stale: 0,
            bytes: 0,
            all_r: NONE,
            overflow: false,
            tmp: vec![],
            s1: vec![],
            s2: vec![],
            s3: vec![],
            order: vec![],
            chosen: vec![],
        };
        for j in 0..m {
            w.send_assign(j, NONE, 0);
        }
        w
    }

    // ---- the monitors' side

    fn event(&mut self, kind: u16, j: usize, f: usize) {
        self.events.push(kind << 9 | (j as u16) << 3 | f as u16);
    }
    /// The next change of lane p.
    #[inline(always)]
    fn raise(&mut self, p: usize) -> bool {
        let lane = &mut self.lanes[p];
        let Some((o, by)) = T::change(lane.list, lane.pos as usize) else {
            return false;
        };
        lane.pos += 1;
        let mon = &mut self.mons[lane.mon as usize];
        mon.open -= (lane.pos == lane.len) as u32;
        mon.trail.push(lane.tag);
        mon.change(o, by);
        self.events.push(lane.code);
        true
    }
    fn due(&mut self, j: usize) -> bool {
        let mon = &mut self.mons[j];
        mon.seq > 0 && !mon.reported && (mon.broken() || mon.open == 0 && !mon.told)
    }
    fn send_up(&mut self, j: usize, id: u32) {
        self.mons[j].note(0x20, id);
        self.mons[j].up.push_back(id);
        self.up_mask |= 1 << j;
    }
    /// The monitor must be broken, with exact bounds.
    fn report(&mut self, j: usize) {
        let mut tmp = std::mem::take(&mut self.tmp);
        let mon = &mut self.mons[j];
        let st = &mut self.st;
        tmp.clear();
        mon.hi.above(mon.lo, &mut tmp);
        let failed = st.list(&tmp);
        let at = st.objs.len();
        let set = st.sets[mon.set as usize];
        let (mut a, mut b) = (set.at as usize, failed.at as usize);
        let (a1, b1) = (a + set.len as usize, b + failed.len as usize);
        while a < a1 || b < b1 {
            let o = if b == b1 || a < a1 && st.objs[a] < st.objs[b] {
                a += 1;
                st.objs[a - 1]
            } else {
                b += 1;
                st.objs[b - 1]
            };
            st.objs.push(o);
        }
        let span = Span { at: at as u32, len: (st.objs.len() - at) as u32 };
        st.rsets.push(span);
        let vals = st.vals.len() as u64;
        for &o in span.of(&st.objs) {
            st.vals.push(mon.hi.leaf[o as usize] - mon.fac[o as usize]);
        }
        let e = mon.hi.outside(failed.of(&st.objs), &mut tmp);
        let border = if e == T::LEAST { mon.lo } else { e.min(mon.lo) };
        mon.reported = true;
        st.reports.push(ReportF { seq: mon.seq, r: st.rsets.len() as u32 - 1, failed, border, vals });
        let id = REPORT << KIND | (st.reports.len() as u32 - 1);
        self.tmp = tmp;
        self.send_up(j, id);
    }
    fn settle_answer(&mut self, j: usize) {
        let mon = &mut self.mons[j];
        let last = mon.open == 0;
        mon.told |= last;
        let places = self.st.places.len() as u32;
        self.st.places.extend(self.lanes[mon.first..mon.first + mon.parts].iter().map(|l| l.pos));
        self.st.settled.push(SettledF { seq_last: mon.seq * 2 + last as u32, places });
        let id = SETTLED << KIND | (self.st.settled.len() as u32 - 1);
        self.send_up(j, id);
    }
    fn check(&mut self, j: usize) -> bool {
        self.dirty &= !(1 << j);
        if !self.due(j) {
            return false;
        }
        if self.mons[j].broken() {
            self.report(j);
        } else {
            self.settle_answer(j);
        }
        self.event(1, j, 0);
        true
    }
    fn down(&mut self, j: usize) -> bool {
        let mon = &mut self.mons[j];
        let Some(id) = mon.down.pop_front() else {
            return false;
        };
        if mon.down.is_empty() {
            self.down_mask &= !(1 << j);
        }
        mon.note(0x10, id);
        let i = (id & ((1 << KIND) - 1)) as usize;
        match id >> KIND {
            ASSIGN => {
                let f = self.st.assigns[i];
                mon.assign(f, &self.st);
                if mon.broken() {
                    self.report(j);
                } else {
                    self.settle_answer(j);
                }
            }
            COLLECT => {
                let f = self.st.collects[i];
                let st = &mut self.st;
                let r = st.rsets[f.r as usize].of(&st.objs);
                let lo = mon.exact_lo();
                let border = if r.len() == self.n {
                    lo
                } else {
                    let e = mon.hi.outside(r, &mut self.tmp);
                    if e == T::LEAST { lo } else { e.min(lo) }
                };
                let vals = st.vals.len() as u64;
                st.vals.extend(r.iter().map(|&o| mon.hi.leaf[o as usize] - mon.fac[o as usize]));
                st.values.push(ValuesF { round: f.round, seq: mon.seq, border, vals });
                let id = VALUES << KIND | (st.values.len() as u32 - 1);
                self.send_up(j, id);
            }
            _ => {}
        }
        self.event(3, j, 0);
        true
    }

    // ---- the coordinator's side

    fn journal(&mut self, tag: u16, id: u32) {
        self.journal_tag.push(tag);
        self.journal_id.push(id);
    }
    fn count(&mut self, j: usize, kind: u32, bytes: usize) {
        self.per[j].n[kind as usize] += 1;
        self.bytes += bytes as u128;
    }
    fn send_down(&mut self, j: usize, id: u32, bytes: usize) {
        self.journal(SENT | j as u16, id);
        self.count(j, id >> KIND, bytes);
        self.mons[j].down.push_back(id);
        self.down_mask |= 1 << j;
    }
    fn clear_answer(&mut self, j: usize) {
        self.settled -= (self.answer[j] >= 2) as usize;
        self.lasts -= (self.answer[j] == 3) as usize;
        self.answer[j] = 0;
    }
    fn send_assign(&mut self, j: usize, r: u32, vals: u64) {
        self.sent[j] += 1;
        let c = if r == NONE { 0 } else { self.st.rsets[r as usize].len as usize };
        let k = self.st.sets[self.set as usize].len as usize;
        self.st.assigns.push(AssignF { seq: self.sent[j], set: self.set, r, vals });
        self.clear_answer(j);
        self.send_down(j, ASSIGN << KIND | (self.st.assigns.len() as u32 - 1), 21 + 4 * k + 20 * c);
    }
    fn own_border(&mut self, r: u32) -> T {
        let r = self.st.rsets[r as usize].of(&self.st.objs);
        let e = self.own.outside(r, &mut self.tmp);
        if e != T::LEAST {
            return e;
        }
        let set = self.st.sets[self.set as usize].of(&self.st.objs);
        let least = set.iter().map(|&o| self.own.leaf[o as usize]).min().unwrap();
        least + self.eps
    }
    fn open_round(&mut self, wide: bool, r: u32, ask: u64, tune: Option<(usize, T)>) {
        self.rounds += 1;
        let zero = T::default();
        self.round = Some(Round {
            wide,
            r,
            number: self.rounds,
            wait: ask,
            vals: vec![0; self.m],
            border: vec![zero; self.m],
            tune,
        });
        if ask == 0 {
            return;
        }
        self.st.collects.push(CollectF { round: self.rounds, r });
        let id = COLLECT << KIND | (self.st.collects.len() as u32 - 1);
        let bytes = 17 + 4 * self.st.rsets[r as usize].len as usize;
        for j in bits(ask) {
            self.send_down(j, id, bytes);
        }
    }
    fn open_wide(&mut self, tune: Option<(usize, T)>) {
        if self.all_r == NONE {
            let at = self.st.objs.len() as u32;
            self.st.objs.extend((0..self.n as u32).map(|o| o as u16));
            self.st.rsets.push(Span { at, len: self.n as u32 });
            self.all_r = self.st.rsets.len() as u32 - 1;
        }
        self.wide += 1;
        self.open_round(true, self.all_r, self.all, tune);
    }
    fn past(&mut self) {
        if T::EXACT {
            self.open_wide(None);
        } else {
            self.overflow = true;
        }
    }
    /// A fresh Report of monitor j while no round is open.
    fn resolve(&mut self, j: usize, rep: ReportF<T>) {
        let b0 = self.own_border(rep.r);
        let span = self.st.rsets[rep.r as usize];
        let len = span.len as usize;
        let base = j * self.n;
        let (mut least, mut most) = (T::MOST, T::LEAST);
        self.s1.clear();
        {
            let r = span.of(&self.st.objs);
            let v = &self.st.vals[rep.vals as usize..rep.vals as usize + len];
            let less = b0 + rep.border;
            for (&o, &x) in r.iter().zip(v) {
                let o = o as usize;
                let mut l = self.own.leaf[o] + x + self.at[base + o] - less;
                if self.own.has(o) {
                    l += self.eps;
                    least = if l < least { l } else { least };
                } else {
                    most = if l > most { l } else { most };
                }
                self.s1.push(l);
            }
        }
        if least < most {
            if self.streak == 8 {
                self.open_wide(None);
                return;
            }
            self.streak += 1;
            self.full += 1;
            self.open_round(false, rep.r, self.all & !(1 << j), None);
            let round = self.round.as_mut().unwrap();
            round.vals[j] = rep.vals;
            round.border[j] = rep.border;
            if round.wait == 0 {
                self.end_round();
            }
            return;
        }
        // A short round: two participants, so the reporter's share is what the own share leaves.
        let w0 = self.s.own;
        let at = self.st.vals.len();
        let mut past = false;
        self.s2.clear();
        for i in 0..len {
            let o = self.st.objs[span.at as usize + i] as usize;
            let l = self.s1[i];
            let (q, rest) = l.div(w0 + 1);
            let s0 = q.times(w0) + rest.min(T::of_u32(w0));
            let own = b0 - if self.own.has(o) { self.eps } else { T::default() } + s0;
            let f = rep.border - self.st.vals[rep.vals as usize + i] + (l - s0);
            past |= own.past() | f.past();
            self.s2.push(own);
            self.st.vals.push(f);
        }
        if past {
            self.st.vals.truncate(at);
            self.past();
            return;
        }
        for i in 0..len {
            let o = self.st.objs[span.at as usize + i] as usize;
            self.at[base + o] = self.st.vals[at + i];
            self.own.leaf[o] = self.s2[i];
            if !self.own.has(o) {
                self.own.lift(o, self.s2[i]);
            }
        }
        self.short += 1;
        self.send_assign(j, rep.r, at as u64);
    }
    /// The end of a round: every awaited answer is there.
    fn end_round(&mut self) {
        let round = self.round.take().unwrap();
        let (k, eps) = round.tune.unwrap_or((self.k, self.eps));
        let span = self.st.rsets[round.r as usize];
        let len = span.len as usize;
        let zero = T::default();
        let b0 = if round.wide { zero } else { self.own_border(round.r) };
        // Totals. The factors of an object sum to zero, so they need not be read.
        let tot = &mut self.s1;
        tot.clear();
        tot.resize(len, zero);
        let mut borders = b0;
        for j in 0..self.m {
            borders += round.border[j];
            let v = &self.st.vals[round.vals[j] as usize..round.vals[j] as usize + len];
            for (t, &x) in tot.iter_mut().zip(v) {
                *t += x;
            }
        }
        // The k that go first.
        let r = span.of(&self.st.objs);
        let chosen = &mut self.chosen;
        chosen.clear();
        chosen.resize(len, false);
        let order = &mut self.order;
        order.clear();
        order.extend(0..len as u32);
        if k < len {
            let own = &self.own;
            order.select_nth_unstable_by(k - 1, |&a, &b| {
                let (x, y) = (a as usize, b as usize);
                tot[y]
                    .cmp(&tot[x])
                    .then_with(|| own.has(r[y] as usize).cmp(&own.has(r[x] as usize)))
                    .then(x.cmp(&y))
            });
        }
        for &i in &order[..k] {
            chosen[i as usize] = true;
        }
        // Leeways and their shares: s1 becomes the quotients, s2 the rests, s3 the own factors.
        let w0 = self.s.own;
        let w = w0 + self.m as u32;
        self.s2.clear();
        self.s3.clear();
        let mut past = false;
        for i in 0..len {
            let extra = if chosen[i] { eps } else { zero };
            let (q, rest) = (tot[i] + extra - borders).div(w);
            let own = b0 - extra + q.times(w0) + rest.min(T::of_u32(w0));
            past |= own.past();
            tot[i] = q;
            self.s2.push(rest);
            self.s3.push(own);
        }
        let at = self.st.vals.len();
        self.st.vals.resize(at + len * self.m, zero);
        let (old, new) = self.st.vals.split_at_mut(at);
        for j in 0..self.m {
            let v = &old[round.vals[j] as usize..round.vals[j] as usize + len];
            let b = round.border[j];
            let before = T::of_u32(w0 + j as u32);
            let out = &mut new[j * len..(j + 1) * len];
            for (((x, &v), &q), &rest) in out.iter_mut().zip(v).zip(tot.iter()).zip(self.s2.iter()) {
                let f = b - v + q + T::flag(rest > before);
                past |= f.past();
                *x = f;
            }
        }
        if past && !(round.wide && T::EXACT) {
            self.st.vals.truncate(at);
            self.past();
            return;
        }
        for j in 0..self.m {
            let row = &mut self.at[j * self.n..(j + 1) * self.n];
            for (&o, &x) in r.iter().zip(&new[j * len..(j + 1) * len]) {
                row[o as usize] = x;
            }
        }
        // The members; an equal set keeps its number.
        let old = self.st.sets[self.set as usize];
        let from = self.st.objs.len();
        for i in 0..len {
            if chosen[i] {
                let o = self.st.objs[span.at as usize + i];
                self.st.objs.push(o);
            }
        }
        if old.of(&self.st.objs) == &self.st.objs[from..] {
            self.st.objs.truncate(from);
        } else {
            self.st.sets.push(Span { at: from as u32, len: k as u32 });
            self.set = self.st.sets.len() as u32 - 1;
            self.own.switch(old.of(&self.st.objs), &self.st.objs[from..]);
        }
        for (i, &o) in span.of(&self.st.objs).iter().enumerate() {
            let o = o as usize;
            self.own.leaf[o] = self.s3[i];
            if !self.own.has(o) {
                self.own.lift(o, self.s3[i]);
            }
        }
        self.k = k;
        self.eps = eps;
        for j in 0..self.m {
            self.send_assign(j, round.r, (at + j * len) as u64);
        }
    }
    /// Publishes a set where one is due.
    fn publish(&mut self) {
        if self.round.is_some() || self.settled < self.m {
            return;
        }
        self.streak = 0;
        let last = self.lasts == self.m;
        let tuned = self.tunes.len() as u32;
        let pair = |t: u32| if t == 0 { (self.s.k, self.s.epsilon) } else { self.tunes[t as usize - 1] };
        let same = |p: &Publication| {
            (p.set == self.set
                || self.st.sets[p.set as usize].of(&self.st.objs)
                    == self.st.sets[self.set as usize].of(&self.st.objs))
                && pair(p.tuned) == pair(tuned)
        };
        if !last && self.pubs.last().is_some_and(same) {
            return;
        }
        let cut = self.cuts.len();
        for j in 0..self.m {
            let p = self.answer_places[j] as usize;
            self.cuts.extend_from_slice(&self.st.places[p..p + self.mons[j].parts]);
        }
        self.journal(PUBLISHED, self.pubs.len() as u32);
        self.pubs.push(Publication { last, set: self.set, tuned, cut });
        if last {
            for j in 0..self.m {
                self.send_down(j, STOP << KIND, 5);
            }
            self.stopped = true;
        }
    }
    fn up(&mut self, j: usize) -> bool {
        let mon = &mut self.mons[j];
        let Some(id) = mon.up.pop_front() else {
            return false;
        };
        if mon.up.is_empty() {
            self.up_mask &= !(1 << j);
        }
        self.journal(GOT | j as u16, id);
        self.event(2, j, 0);
        let i = (id & ((1 << KIND) - 1)) as usize;
        match id >> KIND {
            REPORT => {
                let f = self.st.reports[i];
                let v = self.st.rsets[f.r as usize].len as usize;
                self.count(j, REPORT, 37 + 4 * f.failed.len as usize + 20 * v);
                if f.seq < self.sent[j] {
                    self.stale += 1;
                } else {
                    self.clear_answer(j);
                    self.answer[j] = 1;
                    if self.round.is_none() {
                        self.resolve(j, f);
                    }
                }
            }
            VALUES => {
                let f = self.st.values[i];
                let round = self.round.as_mut().unwrap();
                round.wait &= !(1 << j);
                round.vals[j] = f.vals;
                round.border[j] = if round.wide { T::default() } else { f.border };
                let len = self.st.rsets[round.r as usize].len as usize;
                debug_assert!(round.number == f.round);
                if round.wait == 0 {
                    self.end_round();
                }
                self.count(j, VALUES, 41 + 20 * len);
            }
            _ => {
                let f = self.st.settled[i];
                self.count(j, SETTLED, 18 + 4 * self.mons[j].parts);
                if f.seq_last >> 1 < self.sent[j] {
                    self.stale += 1;
                } else {
                    self.clear_answer(j);
                    self.answer[j] = 2 + (f.seq_last & 1) as u8;
                    self.answer_places[j] = f.places;
                    self.settled += 1;
                    self.lasts += (f.seq_last & 1) as usize;
                }
            }
        }
        self.publish();
        true
    }
    fn retune(&mut self, k: usize, epsilon: u128) -> bool {
        if self.stopped || self.round.is_some() {
            return false;
        }
        self.journal(TUNED, self.tunes.len() as u32);
        self.tunes.push((k, epsilon));
        self.open_wide(Some((k, T::of(epsilon as i128))));
        self.event(4, 0, 0);
        true
    }

    // ---- the drive

    fn settle(&mut self) {
        loop {
            let mut moved = false;
            for j in bits(self.dirty) {
                moved |= self.check(j);
            }
            let ups = self.up_mask;
            for j in bits(ups) {
                self.up(j);
            }
            let downs = self.down_mask;
            for j in bits(downs) {
                self.down(j);
            }
            if !moved && ups | downs == 0 || self.overflow {
                return;
            }
        }
    }
    /// False where the narrow engine has to give up.
    fn drive(&mut self, order: &[Event]) -> bool {
        let m = self.m as u32;
        for e in order {
            match *e {
                Event::Raise(j, f) if j <= m => {
                    let mon = &self.mons[j as usize - 1];
                    if f as usize <= mon.parts && self.raise(mon.first + f as usize - 1) {
                        self.dirty |= 1 << (j - 1);
                    }
                }
                Event::Check(j) if j <= m => {
                    self.check(j as usize - 1);
                }
                Event::Up(j) if j <= m => {
                    self.up(j as usize - 1);
                }
                Event::Down(j) if j <= m => {
                    self.down(j as usize - 1);
                }
                Event::Retune(k, eps, _) => {
                    self.retune(k as usize, eps);
                }
                _ => {}
            }
            if self.overflow {
                return false;
            }
        }
        self.settle();
        let mut list: Vec<u32> = (0..self.lanes.len() as u32).collect();
        list.retain(|&p| self.lanes[p as usize].pos < self.lanes[p as usize].len);
        while !list.is_empty() {
            if self.overflow {
                return false;
            }
            let mut kept = 0;
            for i in 0..list.len() {
                let p = list[i];
                self.raise(p as usize);
                let lane = &self.lanes[p as usize];
                let mon = &self.mons[lane.mon as usize];
                // The part's next change comes in the next pass: fetch its level meanwhile.
                if let Some((o, _)) = T::change(lane.list, lane.pos as usize) {
                    prefetch(mon.hi.leaf.as_ptr().wrapping_add(o));
                    list[kept] = p;
                    kept += 1;
                }
                if mon.hi.top > mon.lo || mon.open == 0 {
                    self.dirty = 1 << lane.mon;
                    self.settle();
                }
            }
            list.truncate(kept);
        }
        !self.overflow
    }

    // ---- the text

    fn line(&self, i: usize, names: &Catalog, out: &mut Vec<u8>) {
        let p = &self.pubs[i];
        out.extend_from_slice(if p.last { b"final " } else { b"set " });
        number(out, i as u64 + 1);
        if p.tuned > 0 {
            let (k, e) = self.tunes[p.tuned as usize - 1];
            out.extend_from_slice(format!(" k {k} epsilon {e}").as_bytes());
        }
        out.extend_from_slice(b" cut");
        let mut c = p.cut;
        for j in 0..self.m {
            out.push(b' ');
            number(out, j as u64 + 1);
            for f in 0..self.mons[j].parts {
                out.push(if f == 0 { b':' } else { b',' });
                number(out, self.cuts[c] as u64);
                c += 1;
            }
        }
        out.extend_from_slice(b" members");
        for &o in self.st.sets[p.set as usize].of(&self.st.objs) {
            out.push(b' ');
            out.extend_from_slice(names.name(o as usize));
        }
        out.push(b'\n');
    }
    fn counts(c: &Counts) -> String {
        let n = &c.n;
        format!(
            "assign {} report {} collect {} values {} settled {} stop {}\n",
            n[3], n[0], n[1], n[2], n[4], n[5]
        )
    }
    fn print(&self, names: &Catalog, summary: bool, sink: &mut impl Write) -> std::io::Result<()> {
        let mut out = Vec::with_capacity(1 << 17);
        if summary {
            out.extend_from_slice(format!("publications {}\n", self.pubs.len()).as_bytes());
            self.line(self.pubs.len() - 1, names, &mut out);
        } else {
            for i in 0..self.pubs.len() {
                self.line(i, names, &mut out);
                if out.len() > 100_000 {
                    sink.write_all(&out)?;
                    out.clear();
                }
            }
        }
        let mut all = Counts::default();
        for c in &self.per {
            for i in 0..6 {
                all.n[i] += c.n[i];
            }
        }
        out.extend_from_slice(format!("frames {}", Self::counts(&all)).as_bytes());
        out.extend_from_slice(
            format!(
                "rounds short {} full {} wide {} stale {}\nbytes {}\n",
                self.short, self.full, self.wide, self.stale, self.bytes
            )
            .as_bytes(),
        );
        if !summary {
            for (j, c) in self.per.iter().enumerate() {
                out.extend_from_slice(format!("monitor {} {}", j + 1, Self::counts(c)).as_bytes());
            }
        }
        sink.write_all(&out)?;
        sink.flush()
    }
    fn memory(&self) {
        let size = std::mem::size_of::<T>();
        let t: usize = self.mons.iter().map(|m| m.trail.capacity()).sum();
        let s = &self.st;
        eprintln!(
            "journal {} entries {} bytes; trails {} bytes; events {} bytes; frames: objs {} vals {} places {} \
             headers {}; cuts {}; sets {}; rounds {}",
            self.journal_id.len(),
            self.journal_id.len() * 6,
            t,
            self.events.len() * 2,
            s.objs.len() * 2,
            s.vals.len() * size,
            s.places.len() * 4,
            s.reports.len() * 48 + s.collects.len() * 8 + s.values.len() * 24 + s.assigns.len() * 24 + s.settled.len() * 8,
            self.cuts.len() * 4,
            s.sets.len(),
            self.rounds,
        );
    }
}

#[inline(always)]
fn bits(mut mask: u64) -> impl Iterator<Item = usize> {
    std::iter::from_fn(move || {
        if mask == 0 {
            return None;
        }
        let j = mask.trailing_zeros() as usize;
        mask &= mask - 1;
        Some(j)
    })
}

fn number(out: &mut Vec<u8>, mut x: u64) {
    let mut b = [0u8; 20];
    let mut i = 20;
    loop {
        i -= 1;
        b[i] = b'0' + (x % 10) as u8;
        x /= 10;
        if x == 0 {
            break;
        }
    }
    out.extend_from_slice(&b[i..]);
}

fn play<T: Num>(
    s: Settings,
    parts: &[Part],
    order: &[Event],
    names: &Catalog,
    summary: bool,
) -> Option<Result<(), Fault>> {
    let t0 = std::time::Instant::now();
    let mut w: World<T> = World::new(s, parts);
    let t1 = std::time::Instant::now();
    if !w.drive(order) {
        return None;
    }
    if std::env::var_os("TOPK_MEMORY").is_some() {
        w.memory();
        eprintln!("world made in {:?}, drive in {:?}", t1 - t0, t1.elapsed());
    }
    let mut out = std::io::stdout().lock();
    let answer = w.print(names, summary, &mut out).map_err(|_| Fault::Write);
    std::mem::forget(w); // the process ends next
    Some(answer)
}

fn job(s: Settings, parts: &[Part], order: &[Event], names: &Catalog, summary: bool) -> Result<(), Fault> {
    // i32 changes, at most 4,000,000 of them, keep every sum below 2^53.
    let narrow = parts.iter().all(Part::narrow)
        && s.epsilon <= 1 << 53
        && order.iter().all(|e| !matches!(e, Event::Retune(_, e, _) if *e > 1 << 53));
    if narrow {
        if let Some(answer) = play::<i64>(s, parts, order, names, summary) {
            return answer;
        }
    }
    play::<i128>(s, parts, order, names, summary).unwrap()
}

// --------------------------------------------------------------------------------------- commands

/// The words of one simple command: each known option at most once, with one value; else positionals.
fn words<'a>(list: &'a [String], known: &[&str]) -> Result<(Vec<Option<&'a str>>, Vec<&'a str>), Fault> {
    let mut values: Vec<Option<&str>> = vec![None; known.len()];
    let mut rest = vec![];
    let mut escaped = false;
    let mut i = 0;
    while i < list.len() {
        let w = list[i].as_str();
        i += 1;
        if escaped || !w.starts_with('-') || w == "-" {
            rest.push(w);
            continue;
        }
        if w == "--" {
            escaped = true;
            continue;
        }
        let Some(body) = w.strip_prefix("--") else {
            return Err(Fault::Usage);
        };
        let (name, value) = match body.split_once('=') {
            Some((n, v)) => (n, Some(v)),
            None => (body, None),
        };
        let Some(at) = known.iter().position(|&k| k == name) else {
            return Err(Fault::Usage);
        };
        let value = match value {
            Some(v) => v,
            None => match list.get(i) {
                Some(v) if !v.starts_with('-') || v == "-" => {
                    i += 1;
                    v
                }
                _ => return Err(Fault::Usage),
            },
        };
        if values[at].replace(value).is_some() {
            return Err(Fault::Usage);
        }
    }
    Ok((values, rest))
}

fn form(v: Option<&str>, max: usize) -> Result<u128, Fault> {
    v.and_then(|v| digits(v.as_bytes(), max)).ok_or(Fault::Usage)
}

fn replay(list: &[String]) -> Result<(), Fault> {
    let known = ["k", "epsilon", "objects", "own-weight", "order", "piece", "frames"];
    let (v, rest) = words(list, &known)?;
    let k = form(v[0], 18)? as u64;
    let epsilon = form(v[1], 38)?;
    let file = v[2].filter(|f| !f.is_empty()).ok_or(Fault::Usage)?;
    let own = if v[3].is_some() { form(v[3], 18)? as u64 } else { 1 };
    if v[4].is_some_and(|f| f.is_empty()) {
        return Err(Fault::Usage);
    }
    if v[5].is_some() && !(1..=65_536).contains(&form(v[5], 18)?) {
        return Err(Fault::Usage);
    }
    if v[6].is_some_and(|f| f != "1" && f != "2") || rest.is_empty() {
        return Err(Fault::Usage);
    }
    let mut logs = vec![];
    for w in rest {
        let (mon, name) = w.split_once('=').ok_or(Fault::Usage)?;
        let mon = match digits(mon.as_bytes(), 2) {
            Some(x) if (1..=64).contains(&x) && !mon.starts_with('0') => x as u8,
            _ => return Err(Fault::Usage),
        };
        if name.is_empty() {
            return Err(Fault::Usage);
        }
        logs.push((mon - 1, name));
    }
    let mut buf = vec![];
    let len = read_file(file, &mut buf)?;
    let names = Catalog::read(file, &buf[..len])?;
    let m = logs.iter().map(|l| l.0).max().unwrap() as usize + 1;
    let s = settings(k, epsilon, own, names.len() as u64, m as u64)
        .or_else(|t| bad("", 0, t))?;
    let mut parts = vec![];
    let mut total = 0;
    for &(mon, name) in &logs {
        let len = read_file(name, &mut buf)?;
        let part = Part::read(name, mon, &buf, len, &names)?;
        total += part.len();
        if total > 4_000_000 {
            return bad(name, 0, "too many changes");
        }
        parts.push(part);
    }
    parts.sort_by_key(|p| p.mon); // stable, so feeders stay in word order
    let feeders = |j: usize| parts.iter().filter(|p| p.mon as usize == j).count();
    if let Some(j) = (0..m).find(|&j| feeders(j) == 0) {
        return bad("", 0, &format!("no log for monitor {}", j + 1));
    }
    if let Some(j) = (0..m).find(|&j| feeders(j) > 8) {
        return bad("", 0, &format!("too many logs for monitor {}", j + 1));
    }
    for j in 0..m {
        let mine = || parts.iter().filter(|p| p.mon as usize == j);
        if mine().all(Part::narrow) {
            continue; // at most 4,000,000 times 2^31
        }
        let mut sum = vec![0u128; names.len()];
        for p in mine() {
            for i in 0..p.len() {
                let (o, by) = i128::change(&p.list, i).unwrap();
                sum[o] = sum[o].saturating_add(by.unsigned_abs());
            }
        }
        if let Some(o) = sum.iter().position(|&x| x > 1 << 100) {
            return Err(Fault::Great(j as u32 + 1, o as u32 + 1));
        }
    }
    let mut order = vec![];
    if let Some(f) = v[4] {
        let len = read_file(f, &mut buf)?;
        order = read_order(f, &buf[..len])?;
        for e in &order {
            if let Event::Retune(k, eps, line) = *e {
                settings(k, eps, own, names.len() as u64, m as u64).or_else(|t| bad(f, line, t))?;
            }
        }
    }
    drop(buf);
    job(s, &parts, &order, &names, false)
}

fn gen_job(list: &[String]) -> Result<(), Fault> {
    let known = ["seed", "monitors", "objects", "updates", "k", "epsilon"];
    let (v, rest) = words(list, &known)?;
    let seed = form(v[0], 18)? as u64;
    let m = form(v[1], 18)? as u64;
    let n = form(v[2], 18)? as u64;
    let updates = form(v[3], 18)? as u64;
    let k = form(v[4], 18)? as u64;
    let epsilon = form(v[5], 38)?;
    if !rest.is_empty() {
        return Err(Fault::Usage);
    }
    let s = settings(k, epsilon, 1, n, m).or_else(|t| bad("", 0, t))?;
    if updates > 1_000_000 {
        return bad("", 0, "too many records");
    }
    let mut state = seed;
    let mut next = || {
        state = state.wrapping_add(MIX);
        let mut z = state;
        z = (z ^ (z >> 30)).wrapping_mul(0xbf58_476d_1ce4_e5b9);
        z = (z ^ (z >> 27)).wrapping_mul(0x94d0_49bb_1331_11eb);
        z ^ (z >> 31)
    };
    let mut lists: Vec<Vec<Change>> = vec![vec![]; m as usize];
    for _ in 0..updates {
        let (w1, w2, w3, w4) = (next(), next(), next(), next());
        let obj = (w2 % n).min(w3 % n) as u16;
        lists[(w1 % m) as usize].push(Change { obj, by: (w4 % 100) as i32 - 20 });
    }
    let parts: Vec<Part> =
        lists.into_iter().enumerate().map(|(j, l)| Part { mon: j as u8, list: List::Narrow(l) }).collect();
    job(s, &parts, &[], &Catalog::numbered(n as usize), true)
}

fn main() {
    let list: Result<Vec<String>, _> = std::env::args_os().skip(1).map(|w| w.into_string()).collect();
    let answer = match &list {
        Ok(l) => match l.first().map(|w| w.as_str()) {
            Some("replay") => replay(&l[1..]),
            Some("gen") => gen_job(&l[1..]),
            _ => Err(Fault::Usage),
        },
        Err(_) => Err(Fault::Usage),
    };
    if let Err(f) = answer {
        let _ = std::io::stderr().write_all(format!("{}\n", f.line()).as_bytes());
        std::process::exit(f.code());
    }
    std::process::exit(0);
}
