//! Checks a description, and compiles it into tables for mapping.
use crate::types::*;

/// A lower device: a device's number, or a disk's number with the top bit.
pub const DISK: u32 = 1 << 31;

pub struct Stack {
    pub d: Desc,
    pub disks: Vec<Disk>,
    pub names: Map<B, u32>,
    pub lens: Vec<u64>,
    /// devices, lower ones first
    pub order: Vec<u32>,
    /// targets of each line, in the order of its text (`low[low_at[i]..low_at[i + 1]]`)
    pub low: Vec<u32>,
    pub low_at: Vec<u32>,
}

pub fn e_shift(chunk: u64) -> u32 {
    5 + chunk.trailing_zeros()
}
pub fn places(kind: u8, chunk: u64, store_len: u64) -> u64 {
    let m = store_len / chunk;
    if kind == b'N' {
        return m;
    }
    if m < 3 {
        return 0;
    }
    let q = m - 3; // i + i / e <= q
    let e = 32 * chunk;
    let (a, b) = (q / (e + 1), q % (e + 1));
    a * e + (b + 1).min(e)
}

impl Stack {
    pub fn len_of(&self, x: u32) -> u64 {
        if x & DISK != 0 {
            self.disks[(x & !DISK) as usize].len
        } else {
            self.lens[x as usize]
        }
    }

    pub fn load(d: Desc, disks: Vec<Disk>) -> Result<Stack, Fault> {
        // lines stand in the order of their devices
        let all = || d.lines.iter();
        // 1
        if let Some(v) = d.devs.get(1024) {
            return src_fault(LIMIT, v.at as u64);
        }
        if let Some(k) = disks.get(1024) {
            return Err(Fault { kind: LIMIT, part: k.part, at: k.at as u64 });
        }
        if let Some(l) = d.lines.get(65536) {
            return src_fault(LIMIT, l.at as u64);
        }
        // 2
        let m = MAX_SECTORS;
        for l in all() {
            let off = match l.target {
                Target::Linear { off, .. } => off,
                Target::Striped { n, first, .. } => {
                    d.cols[first as usize..first as usize + n as usize].iter().map(|c| c.1).max().unwrap_or(0)
                }
                _ => 0,
            };
            if l.start > m || l.len > m || l.start + l.len > m || off > m {
                return src_fault(LIMIT, l.at as u64);
            }
        }
        for k in &disks {
            if k.len > m {
                return Err(Fault { kind: LIMIT, part: k.part, at: k.at as u64 });
            }
        }
        // 3
        let mut names: Map<B, u32> = Map::default();
        for (i, v) in d.devs.iter().enumerate() {
            if names.insert(v.name, i as u32).is_some() {
                return src_fault(TWICE, v.at as u64);
            }
        }
        let mut disk_names: Map<B, u32> = Map::default();
        for (i, k) in disks.iter().enumerate() {
            if disk_names.insert(k.name, i as u32).is_some() {
                return Err(Fault { kind: TWICE, part: k.part, at: k.at as u64 });
            }
        }
        // 4
        for v in &d.devs {
            if v.count == 0 {
                return src_fault(EMPTY, v.at as u64);
            }
            for l in d.lines_of(v) {
                if l.len == 0 {
                    return src_fault(EMPTY, l.at as u64);
                }
            }
        }
        for k in &disks {
            if k.len == 0 {
                return Err(Fault { kind: EMPTY, part: k.part, at: k.at as u64 });
            }
        }
        // 5
        let mut lens = Vec::with_capacity(d.devs.len());
        for v in &d.devs {
            let mut end = 0;
            for l in d.lines_of(v) {
                if l.start != end {
                    return src_fault(if l.start > end { GAP } else { OVERLAP }, l.at as u64);
                }
                end = l.start + l.len;
            }
            lens.push(end);
        }
        // 6
        let mut low = Vec::with_capacity(d.lines.len() + d.cols.len());
        let mut low_at = Vec::with_capacity(d.lines.len() + 1);
        {
            let mut last: Option<(Ref, u32)> = None;
            let mut find = |r: Ref| -> Option<u32> {
                if let Some((k, x)) = last {
                    if k == r {
                        return Some(x);
                    }
                }
                let x = match r {
                    Ref::Dev(n) => names.get(n).copied(),
                    Ref::Disk(n) => disk_names.get(n).map(|i| i | DISK),
                }?;
                last = Some((r, x));
                Some(x)
            };
            for l in all() {
                low_at.push(low.len() as u32);
                let ok = match l.target {
                    Target::Linear { to, .. } => find(to).map(|x| low.push(x)),
                    Target::Striped { n, first, .. } => d.cols[first as usize..first as usize + n as usize]
                        .iter()
                        .try_for_each(|c| find(c.0).map(|x| low.push(x))),
                    Target::Zero | Target::Error => Some(()),
                    Target::Snapshot { origin, store, .. } => find(origin).and_then(|o| {
                        low.push(o);
                        find(store).map(|s| low.push(s))
                    }),
                    Target::Origin { origin } => find(origin).map(|x| low.push(x)),
                };
                if ok.is_none() {
                    return src_fault(UNKNOWN, l.at as u64);
                }
            }
            low_at.push(low.len() as u32);
        }
        // edges between devices, each once
        let nd = d.devs.len();
        let mut edges: Vec<Vec<u32>> = vec![Vec::new(); nd];
        let mut seen = vec![u32::MAX; nd];
        for (i, v) in d.devs.iter().enumerate() {
            let a = low_at[v.first as usize] as usize;
            let b = low_at[(v.first + v.count) as usize] as usize;
            for &x in &low[a..b] {
                if x & DISK == 0 && seen[x as usize] != i as u32 {
                    seen[x as usize] = i as u32;
                    edges[i].push(x);
                }
            }
        }
        // 7: a device reaches itself where its component has a cycle
        let order = match components(&edges) {
            Ok(order) => order,
            Err(first) => return src_fault(CYCLE, d.devs[first].at as u64),
        };
        // 8
        let mut depths = vec![0u32; nd];
        for &v in &order {
            let v = v as usize;
            depths[v] = 1 + edges[v].iter().map(|&x| depths[x as usize]).max().unwrap_or(0);
        }
        for (v, &dep) in d.devs.iter().zip(&depths) {
            if dep > 32 {
                return src_fault(DEEP, v.at as u64);
            }
        }
        // 9
        for l in all() {
            if let Target::Striped { n, chunk, .. } = l.target {
                if !(1..=128).contains(&n)
                    || !(1..=u32::MAX as u64).contains(&chunk)
                    || l.len % n != 0
                    || (l.len / n) % chunk != 0
                {
                    return src_fault(STRIPE, l.at as u64);
                }
            }
        }
        let s = Stack { d, disks, names, lens, order, low, low_at };
        let d = &s.d;
        // 10
        for (i, l) in d.lines.iter().enumerate() {
            let low = s.low_of(i);
            let bad = match l.target {
                Target::Linear { off, .. } => off + l.len > s.len_of(low[0]),
                Target::Striped { n, first, .. } => low
                    .iter()
                    .zip(&d.cols[first as usize..first as usize + n as usize])
                    .any(|(&x, c)| c.1 + l.len / n > s.len_of(x)),
                _ => false,
            };
            if bad {
                return src_fault(RANGE, l.at as u64);
            }
        }
        // 11
        for v in &d.devs {
            for (i, l) in d.lines_of(v).iter().enumerate() {
                let low = s.low_of(v.first as usize + i);
                let bad = match l.target {
                    Target::Snapshot { chunk, .. } => {
                        v.count != 1 || !chunk.is_power_of_two() || chunk > 1024 || l.len != s.len_of(low[0])
                    }
                    Target::Origin { .. } => v.count != 1 || l.len != s.len_of(low[0]),
                    _ => false,
                };
                if bad {
                    return src_fault(SNAPSHOT, l.at as u64);
                }
            }
        }
        // 12
        let mut store_ok = vec![false; nd];
        for &v in &s.order {
            let v = v as usize;
            store_ok[v] = !d.devs[v].ro
                && d.lines_of(&d.devs[v])
                    .iter()
                    .all(|l| matches!(l.target, Target::Linear { .. } | Target::Striped { .. }))
                && edges[v].iter().all(|&x| store_ok[x as usize]);
        }
        for (i, l) in d.lines.iter().enumerate() {
            if let Target::Snapshot { .. } = l.target {
                let x = s.low_of(i)[1];
                if x & DISK == 0 && !store_ok[x as usize] {
                    return src_fault(STORE, l.at as u64);
                }
            }
        }
        // 13
        let mut sum = 0;
        for (i, l) in d.lines.iter().enumerate() {
            if let Target::Snapshot { kind, chunk, .. } = l.target {
                sum += places(kind, chunk, s.len_of(s.low_of(i)[1]));
                if sum > MAX_PLACES {
                    return src_fault(LIMIT, l.at as u64);
                }
            }
        }
        Ok(s)
    }

    pub fn low_of(&self, line: usize) -> &[u32] {
        &self.low[self.low_at[line] as usize..self.low_at[line + 1] as usize]
    }
}

/// Devices with lower ones first, or the first device that reaches itself.
fn components(edges: &[Vec<u32>]) -> Result<Vec<u32>, usize> {
    let n = edges.len();
    let mut index = vec![u32::MAX; n];
    let mut lowl = vec![0u32; n];
    let mut on = vec![false; n];
    let mut stack: Vec<u32> = Vec::new();
    let mut work: Vec<(u32, u32)> = Vec::new();
    let mut order = Vec::with_capacity(n);
    let mut next = 0u32;
    let mut first = usize::MAX;
    for r in 0..n {
        if index[r] != u32::MAX {
            continue;
        }
        work.push((r as u32, 0));
        while let Some(&mut (v, ref mut k)) = work.last_mut() {
            let vu = v as usize;
            if *k == 0 && index[vu] == u32::MAX {
                index[vu] = next;
                lowl[vu] = next;
                next += 1;
                stack.push(v);
                on[vu] = true;
            }
            if let Some(&w) = edges[vu].get(*k as usize) {
                *k += 1;
                let wu = w as usize;
                if index[wu] == u32::MAX {
                    work.push((w, 0));
                } else if on[wu] {
                    lowl[vu] = lowl[vu].min(index[wu]);
                }
                continue;
            }
            work.pop();
            if let Some(&(p, _)) = work.last() {
                lowl[p as usize] = lowl[p as usize].min(lowl[vu]);
            }
            if lowl[vu] == index[vu] {
                let at = stack.iter().rposition(|&x| x == v).unwrap();
                let cyc = stack.len() - at > 1 || edges[vu].contains(&v);
                for x in stack.drain(at..) {
                    on[x as usize] = false;
                    order.push(x);
                    if cyc {
                        first = first.min(x as usize);
                    }
                }
            }
        }
    }
    if first != usize::MAX {
        Err(first)
    } else {
        Ok(order)
    }
}

pub const C_DISK: u32 = 0;
pub const C_DEV: u32 = 1;
/// a read answers zeros, a write is dropped
pub const C_ZERO: u32 = 2;
pub const C_ERROR: u32 = 3;
pub const C_STRIPE: u32 = 4;
pub const C_SNAP: u32 = 5;
pub const C_ORIGIN: u32 = 6;

/// 16 bytes: 65,536 lines and their buckets stay near the second-level cache.
#[derive(Clone, Copy, Debug, PartialEq)]
pub struct CLine {
    /// end (51 bits), disk or device (10 bits), kind (3 bits)
    bits: u64,
    /// sector below is `s + delta` (wrapping); else the number of the stripe, snapshot or origin
    pub delta: u64,
}
impl CLine {
    fn new(end: u64, to: CTo, start: u64) -> CLine {
        let (tgt, delta) = match to.kind {
            C_DISK | C_DEV => (to.tgt, to.off.wrapping_sub(start)),
            _ => (0, to.tgt as u64),
        };
        CLine { bits: end | (tgt as u64) << 51 | (to.kind as u64) << 61, delta }
    }
    #[inline(always)]
    pub fn end(&self) -> u64 {
        self.bits & ((1 << 51) - 1)
    }
    #[inline(always)]
    pub fn tgt(&self) -> u32 {
        (self.bits >> 51) as u32 & 0x3FF
    }
    #[inline(always)]
    pub fn kind(&self) -> u32 {
        (self.bits >> 61) as u32
    }
}
/// A target whose sector 0 lies at `off`.
#[derive(Clone, Copy, Debug, PartialEq)]
pub struct CTo {
    pub off: u64,
    pub tgt: u32,
    pub kind: u32,
}
#[derive(Clone, Copy, Debug)]
pub struct CStripe {
    pub start: u64,
    pub chunk: u64,
    pub n: u32,
    pub first: u32,
    /// floor(2^64 / chunk) and of n, at most 2^64 - 1
    pub cinv: u64,
    pub ninv: u64,
}
#[derive(Clone, Copy, Debug)]
pub struct CDev {
    pub first: u32,
    pub count: u32,
    /// `buckets[bucket + (s >> shift)]`: the line, from `first`, of a bucket's first sector
    pub bucket: u32,
    pub shift: u32,
    pub len: u64,
}
#[derive(Clone, Copy, Debug)]
pub struct COrigin {
    pub to: CTo,
    /// `serves[first .. first + count]`: snapshots of this lower device, in source order
    pub first: u32,
    pub count: u32,
}

/// The tables of one direction: reads, or writes with read-only devices made into errors.
#[derive(Default)]
pub struct Dir {
    pub devs: Vec<CDev>,
    pub lines: Vec<CLine>,
    pub buckets: Vec<u16>,
    pub stripes: Vec<CStripe>,
    pub cols: Vec<CTo>,
    pub origins: Vec<COrigin>,
}

pub struct Compiled {
    pub r: Dir,
    /// None where it is the same as for reads
    pub w_own: Option<Dir>,
    pub serves: Vec<u32>,
    pub snaps: Vec<CSnap>,
}
/// The fixed part of a snapshot.
#[derive(Clone, Copy)]
pub struct CSnap {
    pub len: u64,
    pub sh: u32,
    pub esh: u32,
    pub kind: u8,
    pub may_err: bool,
    pub places: u64,
    pub origin: CTo,
    pub store: CTo,
}

impl Dir {
    #[inline(always)]
    pub fn find(&self, dev: &CDev, s: u64) -> usize {
        let mut base = dev.first as usize;
        if dev.count == 1 {
            return base;
        }
        unsafe {
            let b = dev.bucket as usize + (s >> dev.shift) as usize;
            let lo = *self.buckets.get_unchecked(b) as usize;
            let hi = *self.buckets.get_unchecked(b + 1) as usize;
            base += lo;
            // the first line that ends above s, of lo..=hi
            let mut n = hi - lo;
            while n > 0 {
                let half = n / 2;
                let up = self.lines.get_unchecked(base + half).end() <= s;
                base += if up { half + 1 } else { 0 };
                n = if up { n - half - 1 } else { half };
            }
        }
        base
    }
    #[inline(always)]
    pub fn prefetch_bucket(&self, dev: &CDev, s: u64) {
        use std::arch::x86_64::*;
        let b = dev.bucket as usize + (s >> dev.shift) as usize;
        unsafe { _mm_prefetch::<_MM_HINT_T0>(self.buckets.as_ptr().wrapping_add(b) as *const i8) }
    }
    #[inline(always)]
    pub fn prefetch_line(&self, dev: &CDev, s: u64) {
        use std::arch::x86_64::*;
        let b = dev.bucket as usize + (s >> dev.shift) as usize;
        let lo = match self.buckets.get(b) {
            Some(&x) => x,
            None => 0,
        };
        let l = self.lines.as_ptr().wrapping_add(dev.first as usize + lo as usize);
        unsafe { _mm_prefetch::<_MM_HINT_T0>(l as *const i8) }
    }

    fn resolve(&self, x: u32, off: u64, len: u64) -> CTo {
        if x & DISK != 0 {
            return CTo { off, tgt: x & !DISK, kind: C_DISK };
        }
        let d = &self.devs[x as usize];
        let l = &self.lines[self.find(d, off)];
        if off + len <= l.end() {
            match l.kind() {
                C_DISK | C_DEV => return CTo { off: off.wrapping_add(l.delta), tgt: l.tgt(), kind: l.kind() },
                C_ZERO | C_ERROR => return CTo { off: 0, tgt: 0, kind: l.kind() },
                _ => {}
            }
        }
        CTo { off, tgt: x, kind: C_DEV }
    }

    fn build(s: &Stack, write: bool, serves_of: &Map<u32, (u32, u32)>, snap_of: &[u32]) -> Dir {
        let nd = s.d.devs.len();
        let none = CDev { first: 0, count: 0, bucket: 0, shift: 0, len: 0 };
        let mut t = Dir { devs: vec![none; nd], ..Dir::default() };
        t.lines.reserve(s.d.lines.len());
        for &v in &s.order {
            let dv = &s.d.devs[v as usize];
            let len = s.lens[v as usize];
            let first = t.lines.len();
            if write && dv.ro {
                t.lines.push(CLine::new(len, CTo { off: 0, tgt: 0, kind: C_ERROR }, 0));
                t.devs[v as usize] = CDev { first: first as u32, count: 1, len, ..none };
                continue;
            }
            for k in dv.first as usize..(dv.first + dv.count) as usize {
                let l = &s.d.lines[k];
                let low = s.low_of(k);
                let to = match l.target {
                    Target::Linear { off, .. } => t.resolve(low[0], off, l.len),
                    Target::Striped { n: 1, first, .. } => t.resolve(low[0], s.d.cols[first as usize].1, l.len),
                    Target::Striped { n, chunk, first } => {
                        let f = t.cols.len() as u32;
                        for (j, &x) in low.iter().enumerate() {
                            let c = t.resolve(x, s.d.cols[first as usize + j].1, l.len / n);
                            t.cols.push(c);
                        }
                        let inv = |x: u64| ((1u128 << 64) / x as u128).min(u64::MAX as u128) as u64;
                        t.stripes.push(CStripe {
                            start: l.start,
                            chunk,
                            n: n as u32,
                            first: f,
                            cinv: inv(chunk),
                            ninv: inv(n),
                        });
                        CTo { off: 0, tgt: t.stripes.len() as u32 - 1, kind: C_STRIPE }
                    }
                    Target::Zero => CTo { off: 0, tgt: 0, kind: C_ZERO },
                    Target::Error => CTo { off: 0, tgt: 0, kind: C_ERROR },
                    Target::Snapshot { .. } => CTo { off: 0, tgt: snap_of[v as usize], kind: C_SNAP },
                    Target::Origin { .. } => {
                        let to = t.resolve(low[0], 0, l.len);
                        match serves_of.get(&low[0]) {
                            Some(&(first, count)) if write => {
                                t.origins.push(COrigin { to, first, count });
                                CTo { off: 0, tgt: t.origins.len() as u32 - 1, kind: C_ORIGIN }
                            }
                            _ => to,
                        }
                    }
                };
                t.lines.push(CLine::new(l.start + l.len, to, l.start));
            }
            let count = t.lines.len() - first;
            let mut cd = CDev { first: first as u32, count: count as u32, len, ..none };
            if count > 1 {
                // about two buckets a line
                let mut shift = 0;
                while (len - 1) >> shift >= 2 * count as u64 {
                    shift += 1;
                }
                cd.shift = shift;
                cd.bucket = t.buckets.len() as u32;
                let nb = ((len - 1) >> shift) + 1;
                let mut at = first;
                for b in 0..nb {
                    while t.lines[at].end() <= b << shift {
                        at += 1;
                    }
                    t.buckets.push((at - first) as u16);
                }
                t.buckets.push((count - 1) as u16);
            }
            t.devs[v as usize] = cd;
        }
        t
    }
}

impl Compiled {
    #[inline(always)]
    pub fn w(&self) -> &Dir {
        match &self.w_own {
            Some(w) => w,
            None => &self.r,
        }
    }
    pub fn new(s: &Stack) -> Compiled {
        let nd = s.d.devs.len();
        let mut snap_of = vec![u32::MAX; nd];
        let mut snap_devs = Vec::new();
        // served snapshots of each lower device, in source order
        let mut by_low: Map<u32, Vec<u32>> = Map::default();
        for (i, v) in s.d.devs.iter().enumerate() {
            if let Target::Snapshot { .. } = s.d.lines[v.first as usize].target {
                snap_of[i] = snap_devs.len() as u32;
                by_low.entry(s.low_of(v.first as usize)[0]).or_default().push(snap_devs.len() as u32);
                snap_devs.push(i);
            }
        }
        let mut serves = Vec::new();
        let mut serves_of: Map<u32, (u32, u32)> = Map::default();
        for (&x, l) in &by_low {
            serves_of.insert(x, (serves.len() as u32, l.len() as u32));
            serves.extend_from_slice(l);
        }
        let r = Dir::build(s, false, &serves_of, &snap_of);
        let origins = s.d.lines.iter().any(|l| matches!(l.target, Target::Origin { .. }));
        let own = origins || s.d.devs.iter().any(|v| v.ro);
        let w_own = own.then(|| Dir::build(s, true, &serves_of, &snap_of));
        let mut may_err = vec![false; nd];
        for &v in &s.order {
            let dv = &s.d.devs[v as usize];
            may_err[v as usize] = (dv.first as usize..(dv.first + dv.count) as usize).any(|k| {
                matches!(s.d.lines[k].target, Target::Error | Target::Snapshot { .. })
                    || s.low_of(k).iter().any(|&x| x & DISK == 0 && may_err[x as usize])
            });
        }
        let snaps = snap_devs
            .iter()
            .map(|&i| {
                let k = s.d.devs[i].first as usize;
                let l = &s.d.lines[k];
                let low = s.low_of(k);
                let Target::Snapshot { kind, chunk, .. } = l.target else { unreachable!() };
                let store_len = s.len_of(low[1]);
                CSnap {
                    len: l.len,
                    sh: chunk.trailing_zeros(),
                    esh: e_shift(chunk),
                    kind,
                    may_err: low[0] & DISK == 0 && may_err[low[0] as usize],
                    places: places(kind, chunk, store_len),
                    origin: r.resolve(low[0], 0, l.len),
                    store: r.resolve(low[1], 0, store_len),
                }
            })
            .collect();
        Compiled { r, w_own, serves, snaps }
    }
}
