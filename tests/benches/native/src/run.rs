//! Reads, parses and answers request lines.
use crate::map;
use crate::out::Join;
use crate::stack::*;
use crate::text::{is_dev_name, number};
use crate::types::*;
use std::fs::File;
use std::io::Read;
use std::mem::ManuallyDrop;
use std::os::fd::FromRawFd;

#[derive(Debug, PartialEq, Clone, Copy)]
pub enum Ending {
    Done,
    Bad(u64, &'static str),
    ReadFault,
}

pub const MAX_LINES: u64 = 1_000_000_000_000;
pub const MAX_LEN: u64 = 1_048_576;
const BUF: usize = 1 << 17;
const PAD: usize = 64;

/// Devices by name; names of at most 16 bytes are compared as two words.
pub struct Names<'a> {
    slots: Vec<(u64, u64, u32)>,
    shift: u32,
    all: &'a Map<B, u32>,
}
#[inline(always)]
fn key_hash(a: u64, b: u64) -> u64 {
    (a ^ b.rotate_left(29)).wrapping_mul(0x9E37_79B9_7F4A_7C15)
}
const NONE: u32 = u32::MAX;
impl<'a> Names<'a> {
    pub fn new(all: &'a Map<B, u32>) -> Names<'a> {
        let cap = (all.len() * 4).next_power_of_two().max(16);
        let shift = 64 - cap.trailing_zeros();
        let mut slots = vec![(0, 0, NONE); cap];
        for (n, &i) in all {
            if n.len() <= 16 {
                let mut k = [0u8; 16];
                k[..n.len()].copy_from_slice(n);
                let a = u64::from_le_bytes(k[..8].try_into().unwrap());
                let b = u64::from_le_bytes(k[8..].try_into().unwrap());
                let mut h = (key_hash(a, b) >> shift) as usize;
                while slots[h].2 != NONE {
                    h = (h + 1) & (cap - 1);
                }
                slots[h] = (a, b, i);
            }
        }
        Names { slots, shift, all }
    }
    #[inline(always)]
    fn short(&self, a: u64, b: u64) -> u32 {
        let mut h = (key_hash(a, b) >> self.shift) as usize;
        loop {
            let s = unsafe { self.slots.get_unchecked(h) };
            if (s.0 == a && s.1 == b) || s.2 == NONE {
                return s.2;
            }
            h = (h + 1) & (self.slots.len() - 1);
        }
    }
}

#[derive(Clone, Copy)]
pub struct Req {
    pub write: bool,
    pub dev: u32,
    pub start: u64,
    pub len: u64,
}

/// The careful parse of a whole line; Err is the word.
#[inline(never)]
fn slow(line: &[u8], names: &Map<B, u32>) -> Result<Req, &'static str> {
    let mut it = line.split(|&c| c == b' ');
    let mut f: [&[u8]; 4] = [b""; 4];
    for x in f.iter_mut() {
        match it.next() {
            Some(t) if !t.is_empty() => *x = t,
            _ => return Err("form"),
        }
    }
    if it.next().is_some() || !matches!(f[0], b"R" | b"W") || !is_dev_name(f[1]) {
        return Err("form");
    }
    let (Some(start), Some(len)) = (number(f[2]), number(f[3])) else { return Err("number") };
    if len == 0 || len > MAX_LEN {
        return Err("length");
    }
    match names.get(f[1]) {
        Some(&dev) => Ok(Req { write: f[0] == b"W", dev, start, len }),
        None => Err("unknown"),
    }
}

#[inline(always)]
unsafe fn load8(p: *const u8) -> u64 {
    (p as *const u64).read_unaligned()
}
/// Value of the `n` (1 to 8) digits in the low bytes of `x`.
#[inline(always)]
fn digits(x: u64, n: u32) -> u64 {
    let t = (x ^ 0x3030_3030_3030_3030) << (64 - 8 * n);
    let t = t.wrapping_mul(10).wrapping_add(t >> 8);
    let a = (t & 0x0000_00FF_0000_00FF).wrapping_mul(0x000F_4240_0000_0064);
    let b = ((t >> 16) & 0x0000_00FF_0000_00FF).wrapping_mul(0x0000_2710_0000_0001);
    a.wrapping_add(b) >> 32
}
/// How many digits the low bytes begin with.
#[inline(always)]
fn run_of_digits(x: u64) -> u32 {
    let t = x ^ 0x3030_3030_3030_3030;
    let m = (t.wrapping_add(0x7676_7676_7676_7676) | t) & 0x8080_8080_8080_8080;
    if m == 0 {
        8
    } else {
        m.trailing_zeros() / 8
    }
}
const POW: [u64; 9] = [1, 10, 100, 1_000, 10_000, 100_000, 1_000_000, 10_000_000, 100_000_000];
/// A number of 1 to 15 digits without a leading zero, and the byte after it; None: take the slow way.
#[inline(always)]
unsafe fn num(p: *const u8) -> Option<(u64, *const u8)> {
    let x = load8(p);
    let n = run_of_digits(x);
    if n < 8 {
        if n == 0 || (x as u8 == b'0' && n > 1) {
            return None;
        }
        return Some((digits(x, n), p.add(n as usize)));
    }
    if x as u8 == b'0' {
        return None;
    }
    let hi = digits(x, 8);
    let y = load8(p.add(8));
    let m = run_of_digits(y);
    if m == 8 {
        return None;
    }
    let lo = if m == 0 { 0 } else { digits(y, m) };
    Some((hi * POW[m as usize] + lo, p.add(8 + m as usize)))
}

/// The same of at most 7 digits.
#[inline(always)]
unsafe fn num7(p: *const u8) -> Option<(u64, *const u8)> {
    let x = load8(p);
    let n = run_of_digits(x);
    if n.wrapping_sub(1) > 6 || (x as u8 == b'0' && n > 1) {
        return None;
    }
    Some((digits(x, n), p.add(n as usize)))
}

const BATCH: usize = 32;

/// Hands each request to `each` (which answers false to stop), and tells how the requests ended; a
/// bad line ends the run. Requests are parsed in batches: `early` and `later` see each request of a
/// batch before `each` does, to fetch ahead.
#[inline(always)]
pub fn requests<const AHEAD: bool, C, F: FnMut(&mut C, &Req) -> Result<bool, &'static str>>(
    names: &Map<B, u32>,
    ctx: &mut C,
    early: impl Fn(&C, &Req),
    later: impl Fn(&C, &Req),
    mut each: F,
) -> Ending {
    use std::arch::x86_64::*;
    let mut fd = ManuallyDrop::new(unsafe { File::from_raw_fd(0) });
    let table = Names::new(names);
    let mut buf = vec![0u8; BUF + PAD];
    let (mut at, mut end) = (0usize, 0usize);
    let mut n = 0u64;
    // the last name looked up
    let (mut ka, mut kb, mut kd) = (0u64, 0u64, NONE);
    let mut batch = [Req { write: false, dev: 0, start: 0, len: 0 }; BATCH];
    let mut bad: Option<&'static str> = None;
    loop {
        let base = buf.as_ptr();
        let stop = unsafe { base.add(end) };
        let mut p = unsafe { base.add(at) };
        // every whole line there is
        let mut more = true;
        while more && p < stop {
            let mut have = 0;
            while have < BATCH && p < stop {
                let fast: Option<(Req, *const u8)> = unsafe {
                    'f: {
                        let h = (p as *const u16).read_unaligned();
                        let write = h == u16::from_le_bytes(*b"W ");
                        if !write && h != u16::from_le_bytes(*b"R ") {
                            break 'f None;
                        }
                        let q = p.add(2);
                        let v = _mm_loadu_si128(q as *const __m128i);
                        let m = _mm_movemask_epi8(_mm_cmpeq_epi8(v, _mm_set1_epi8(b' ' as i8))) as u32;
                        if m == 0 {
                            // a name of 16 bytes or more
                            let mut k = 16;
                            while k <= 127 && *q.add(k) != b' ' && q.add(k) < stop {
                                k += 1;
                            }
                            let name = std::slice::from_raw_parts(q, k);
                            if q.add(k) >= stop {
                                break 'f None;
                            }
                            let Some(&dev) = table.all.get(name) else { break 'f None };
                            let Some((start, r)) = num(q.add(k + 1)) else { break 'f None };
                            if *q.add(k) != b' ' || *r != b' ' {
                                break 'f None;
                            }
                            let Some((len, r)) = num7(r.add(1)) else { break 'f None };
                            if *r != b'\n' || r >= stop || len.wrapping_sub(1) >= MAX_LEN {
                                break 'f None;
                            }
                            break 'f Some((Req { write, dev, start, len }, r.add(1)));
                        }
                        let k = m.trailing_zeros() as usize;
                        static MASK: [u64; 17] = {
                            let mut t = [0u64; 17];
                            let mut i = 0;
                            while i < 17 {
                                t[i] = if i >= 8 { u64::MAX } else { (1u64 << (8 * i)) - 1 };
                                i += 1;
                            }
                            t
                        };
                        let a = load8(q) & MASK[k];
                        let b = load8(q.add(8)) & MASK[k.saturating_sub(8)];
                        if a != ka || b != kb || kd == NONE {
                            let d = table.short(a, b);
                            if d == NONE {
                                break 'f None;
                            }
                            (ka, kb, kd) = (a, b, d);
                        }
                        let Some((start, r)) = num(q.add(k + 1)) else { break 'f None };
                        if *r != b' ' {
                            break 'f None;
                        }
                        let Some((len, r)) = num7(r.add(1)) else { break 'f None };
                        if *r != b'\n' || r >= stop || len.wrapping_sub(1) >= MAX_LEN {
                            break 'f None;
                        }
                        Some((Req { write, dev: kd, start, len }, r.add(1)))
                    }
                };
                let (req, next) = match fast {
                    Some(x) if n + (have as u64) < MAX_LINES => x,
                    _ => {
                        let rest = unsafe { std::slice::from_raw_parts(p, stop.offset_from(p) as usize) };
                        let head = &rest[..rest.len().min(4097)];
                        let Some(k) = head.iter().position(|&c| c == b'\n') else {
                            if rest.len() > 4096 {
                                bad = Some("long");
                            }
                            more = false;
                            break;
                        };
                        if n + have as u64 >= MAX_LINES {
                            bad = Some("many");
                            break;
                        }
                        match slow(&rest[..k], names) {
                            Ok(r) => (r, unsafe { p.add(k + 1) }),
                            Err(w) => {
                                bad = Some(w);
                                break;
                            }
                        }
                    }
                };
                p = next;
                if AHEAD {
                    early(ctx, &req);
                    batch[have] = req;
                    have += 1;
                } else {
                    n += 1;
                    match each(ctx, &req) {
                        Ok(true) => {}
                        Ok(false) => return Ending::Done,
                        Err(w) => return Ending::Bad(n, w),
                    }
                }
            }
            for r in &batch[..have] {
                later(ctx, r);
            }
            for r in &batch[..have] {
                n += 1;
                match each(ctx, r) {
                    Ok(true) => {}
                    Ok(false) => return Ending::Done,
                    Err(w) => return Ending::Bad(n, w),
                }
            }
            if let Some(w) = bad {
                return Ending::Bad(n + 1, w);
            }
        }
        at = unsafe { p.offset_from(base) as usize };
        // the rest to the front, then more
        buf.copy_within(at..end, 0);
        end -= at;
        at = 0;
        match fd.read(&mut buf[end..BUF]) {
            Ok(0) => {
                return if end > 0 { Ending::Bad(n + 1, "unended") } else { Ending::Done };
            }
            Ok(k) => end += k,
            Err(_) => return Ending::ReadFault,
        }
    }
}

/// `map`: the ending, where the output didn't fail.
pub fn run(s: &Stack, c: &Compiled, out: &mut Join) -> Ending {
    let m = map::Mapper::new(c);
    let mut ctx = (m, out);
    type Ctx<'a, 'b> = (map::Mapper<'a>, &'b mut Join);
    let early = |(m, _): &Ctx, r: &Req| {
        let dir = if r.write { c.w() } else { &c.r };
        let dev = unsafe { dir.devs.get_unchecked(r.dev as usize) };
        if dev.count > 1 {
            dir.prefetch_bucket(dev, r.start);
        } else {
            let l = unsafe { dir.lines.get_unchecked(dev.first as usize) };
            if l.kind() == C_SNAP {
                m.prefetch(l.delta as usize, r.start);
            }
        }
    };
    let later = |_: &Ctx, r: &Req| {
        let dir = if r.write { c.w() } else { &c.r };
        let dev = unsafe { dir.devs.get_unchecked(r.dev as usize) };
        if dev.count > 1 && r.start < dev.len {
            dir.prefetch_line(dev, r.start);
        }
    };
    macro_rules! each {
        () => {
            |(m, out): &mut Ctx, r: &Req| {
                out.begin();
                let dir = if r.write { c.w() } else { &c.r };
                let dev = unsafe { dir.devs.get_unchecked(r.dev as usize) };
                if r.start + r.len > dev.len {
                    out.only_plain(Join::P_ERROR, r.len);
                    return Ok(!out.failed);
                }
                let l = unsafe { dir.lines.get_unchecked(dir.find(dev, r.start)) };
                if r.start + r.len <= l.end() && l.kind() <= C_ERROR && l.kind() != C_DEV {
                    match l.kind() {
                        C_DISK => out.only(r.write, l.tgt(), r.start.wrapping_add(l.delta), r.len),
                        C_ZERO => out.only_plain(if r.write { Join::P_DROP } else { Join::P_ZERO }, r.len),
                        _ => out.only_plain(Join::P_ERROR, r.len),
                    }
                } else {
                    if r.write {
                        map::write(c, &mut m.snaps, r.dev, r.start, r.len, *out);
                    } else {
                        map::read(c, &m.snaps, r.dev, r.start, r.len, *out);
                    }
                    out.finish();
                }
                Ok(!out.failed)
            }
        };
    }
    // fetching ahead pays where tables are searched
    let ending = if c.r.buckets.is_empty() && c.snaps.is_empty() {
        requests::<false, _, _>(&s.names, &mut ctx, early, later, each!())
    } else {
        requests::<true, _, _>(&s.names, &mut ctx, early, later, each!())
    };
    ending
}
