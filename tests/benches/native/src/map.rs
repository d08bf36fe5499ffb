//! Maps ranges of sectors, and keeps the state of the snapshots.
use crate::stack::*;

/// What a read answers, in order.
pub trait ReadSink {
    fn disk(&mut self, disk: u32, start: u64, len: u64);
    fn zero(&mut self, len: u64);
    fn error(&mut self, len: u64);
}
/// The pieces of a request (neighbours may still join).
pub trait Sink: ReadSink {
    fn w(&mut self, disk: u32, start: u64, len: u64);
    fn drop_(&mut self, len: u64);
    fn copy(&mut self, disk: u32, start: u64, len: u64, disk2: u32, start2: u64);
    fn fill(&mut self, len: u64, disk: u32, start: u64);
}

/// The taken chunks: for each chunk its place plus 1, or 0 if it isn't taken. All space is reserved at load, and the
/// kernel zeroes it when it is touched.
pub struct Taken {
    places: Vec<u32>,
    pub count: u64,
}
impl Taken {
    pub fn new(chunks: u64, places: u64) -> Taken {
        Taken { places: vec![0; if places == 0 { 0 } else { chunks as usize }], count: 0 }
    }
    #[inline(always)]
    pub fn find(&self, c: u64) -> u32 {
        match self.places.get(c as usize) {
            Some(&x) => x,
            None => 0,
        }
    }
    #[inline(always)]
    pub fn take(&mut self, c: u64, place: u32) {
        self.count += 1;
        self.places[c as usize] = place + 1
    }
}

pub struct Snap {
    pub taken: Taken,
    pub valid: bool,
}

pub struct Mapper<'a> {
    pub c: &'a Compiled,
    pub snaps: Vec<Snap>,
}

/// By the divisor's inverse: the first quotient is right or one too small.
#[inline(always)]
fn div_mod(x: u64, d: u64, inv: u64) -> (u64, u64) {
    let q = ((x as u128 * inv as u128) >> 64) as u64;
    let r = x - q * d;
    let up = (r >= d) as u64;
    (q + up, r - d * up)
}

#[inline(always)]
fn read_to<S: ReadSink>(c: &Compiled, sn: &[Snap], to: &CTo, s: u64, len: u64, out: &mut S) {
    match to.kind {
        C_DISK => out.disk(to.tgt, to.off.wrapping_add(s), len),
        C_DEV => read(c, sn, to.tgt, to.off.wrapping_add(s), len, out),
        C_ZERO => out.zero(len),
        _ => out.error(len),
    }
}

pub fn read<S: ReadSink>(c: &Compiled, sn: &[Snap], dev: u32, mut s: u64, mut len: u64, out: &mut S) {
    let t = &c.r;
    let mut i = t.find(&t.devs[dev as usize], s);
    loop {
        let l = unsafe { t.lines.get_unchecked(i) };
        let seg = len.min(l.end() - s);
        match l.kind() {
            C_DISK => out.disk(l.tgt(), s.wrapping_add(l.delta), seg),
            C_DEV => read(c, sn, l.tgt(), s.wrapping_add(l.delta), seg, out),
            C_ZERO => out.zero(seg),
            C_ERROR => out.error(seg),
            C_STRIPE => {
                let st = unsafe { t.stripes.get_unchecked(l.delta as usize) };
                let cols = &t.cols[st.first as usize..(st.first + st.n) as usize];
                let (ch, mut r) = div_mod(s - st.start, st.chunk, st.cinv);
                let (row, col) = div_mod(ch, st.n as u64, st.ninv);
                let mut base = row * st.chunk;
                let mut col = col as usize;
                let mut left = seg;
                loop {
                    let k = left.min(st.chunk - r);
                    read_to(c, sn, &cols[col], base + r, k, out);
                    left -= k;
                    if left == 0 {
                        break;
                    }
                    r = 0;
                    col += 1;
                    if col == cols.len() {
                        col = 0;
                        base += st.chunk;
                    }
                }
            }
            _ => read_snap(c, sn, l.delta as usize, s, seg, out),
        }
        len -= seg;
        if len == 0 {
            return;
        }
        s += seg;
        i += 1;
    }
}

fn read_snap<S: ReadSink>(c: &Compiled, sn: &[Snap], k: usize, s: u64, len: u64, out: &mut S) {
    let f = &c.snaps[k];
    let st = &sn[k];
    if !st.valid {
        out.error(len);
        return;
    }
    let e = s + len;
    if st.taken.count == 0 {
        read_to(c, sn, &f.origin, s, len, out);
        return;
    }
    let last = (e - 1) >> f.sh;
    let mut at = s;
    let mut ch = s >> f.sh;
    let mut p = st.taken.find(ch);
    loop {
        // as many neighbouring chunks as lie side by side below
        let from = p;
        let mut want = p + (p != 0) as u32;
        let mut next;
        loop {
            if ch == last {
                next = u32::MAX;
                break;
            }
            ch += 1;
            next = st.taken.find(ch);
            if next != want {
                break;
            }
            want += (want != 0) as u32;
        }
        let end = if next == u32::MAX { e } else { ch << f.sh };
        if from == 0 {
            read_to(c, sn, &f.origin, at, end - at, out);
        } else {
            let x = ((from as u64 - 1) << f.sh) + (at & ((1 << f.sh) - 1));
            read_to(c, sn, &f.store, x, end - at, out);
        }
        if next == u32::MAX {
            return;
        }
        at = end;
        p = next;
    }
}

#[inline(always)]
fn write_to<O: Sink>(c: &Compiled, sn: &mut [Snap], to: &CTo, s: u64, len: u64, out: &mut O) {
    match to.kind {
        C_DISK => out.w(to.tgt, to.off.wrapping_add(s), len),
        C_DEV => write(c, sn, to.tgt, to.off.wrapping_add(s), len, out),
        C_ZERO => out.drop_(len),
        _ => out.error(len),
    }
}

pub fn write<O: Sink>(c: &Compiled, sn: &mut [Snap], dev: u32, mut s: u64, mut len: u64, out: &mut O) {
    let t = c.w();
    let mut i = t.find(&t.devs[dev as usize], s);
    loop {
        let l = unsafe { t.lines.get_unchecked(i) };
        let seg = len.min(l.end() - s);
        match l.kind() {
            C_DISK => out.w(l.tgt(), s.wrapping_add(l.delta), seg),
            C_DEV => write(c, sn, l.tgt(), s.wrapping_add(l.delta), seg, out),
            C_ZERO => out.drop_(seg),
            C_ERROR => out.error(seg),
            C_STRIPE => {
                let st = unsafe { t.stripes.get_unchecked(l.delta as usize) };
                let cols = &t.cols[st.first as usize..(st.first + st.n) as usize];
                let (ch, mut r) = div_mod(s - st.start, st.chunk, st.cinv);
                let (row, col) = div_mod(ch, st.n as u64, st.ninv);
                let mut base = row * st.chunk;
                let mut col = col as usize;
                let mut left = seg;
                loop {
                    let k = left.min(st.chunk - r);
                    write_to(c, sn, &cols[col], base + r, k, out);
                    left -= k;
                    if left == 0 {
                        break;
                    }
                    r = 0;
                    col += 1;
                    if col == cols.len() {
                        col = 0;
                        base += st.chunk;
                    }
                }
            }
            C_SNAP => write_snap(c, sn, l.delta as usize, s, seg, out),
            _ => write_origin(c, sn, &t.origins[l.delta as usize], s, seg, out),
        }
        len -= seg;
        if len == 0 {
            return;
        }
        s += seg;
        i += 1;
    }
}

struct Errs(bool);
impl ReadSink for Errs {
    fn disk(&mut self, _: u32, _: u64, _: u64) {}
    fn zero(&mut self, _: u64) {}
    fn error(&mut self, _: u64) {
        self.0 = true
    }
}
/// What reads of the origin say, to copies and fills of what lies at the store.
struct Copies<'a, 'b, O: Sink> {
    c: &'a Compiled,
    sn: &'a [Snap],
    store: &'a CTo,
    /// the store's sector
    to: u64,
    out: &'b mut O,
}
struct CopyTo<'b, O: Sink> {
    disk: u32,
    from: u64,
    out: &'b mut O,
}
impl<O: Sink> ReadSink for CopyTo<'_, O> {
    #[inline(always)]
    fn disk(&mut self, disk: u32, start: u64, len: u64) {
        self.out.copy(self.disk, self.from, len, disk, start);
        self.from += len;
    }
    fn zero(&mut self, _: u64) {}
    fn error(&mut self, _: u64) {}
}
struct FillTo<'b, O: Sink>(&'b mut O);
impl<O: Sink> ReadSink for FillTo<'_, O> {
    fn disk(&mut self, disk: u32, start: u64, len: u64) {
        self.0.fill(len, disk, start)
    }
    fn zero(&mut self, _: u64) {}
    fn error(&mut self, _: u64) {}
}
impl<O: Sink> ReadSink for Copies<'_, '_, O> {
    #[inline(always)]
    fn disk(&mut self, disk: u32, start: u64, len: u64) {
        let mut t = CopyTo { disk, from: start, out: self.out };
        read_to(self.c, self.sn, self.store, self.to, len, &mut t);
        self.to += len;
    }
    fn zero(&mut self, len: u64) {
        read_to(self.c, self.sn, self.store, self.to, len, &mut FillTo(self.out));
        self.to += len;
    }
    fn error(&mut self, _: u64) {}
}

/// Takes the chunk with its copies and fills; None where there is no place (false) or a sector
/// reads as error (true).
#[inline]
fn take<O: Sink>(c: &Compiled, sn: &mut [Snap], k: usize, ch: u64, out: &mut O) -> Result<u32, bool> {
    let f = &c.snaps[k];
    let n = sn[k].taken.count;
    if n >= f.places {
        return Err(false);
    }
    let u0 = ch << f.sh;
    let len = f.len.min(u0 + (1 << f.sh)) - u0;
    if f.may_err {
        let mut e = Errs(false);
        read_to(c, sn, &f.origin, u0, len, &mut e);
        if e.0 {
            return Err(true);
        }
    }
    let place = if f.kind == b'N' { n } else { 2 + n + (n >> f.esh) };
    let to = place << f.sh;
    if f.origin.kind == C_DISK && f.store.kind == C_DISK {
        out.copy(f.origin.tgt, f.origin.off + u0, len, f.store.tgt, f.store.off + to);
    } else {
        let mut cp = Copies { c, sn, store: &f.store, to, out };
        read_to(c, sn, &f.origin, u0, len, &mut cp);
    }
    sn[k].taken.take(ch, place as u32);
    Ok(place as u32 + 1)
}

fn write_snap<O: Sink>(c: &Compiled, sn: &mut [Snap], k: usize, mut s: u64, len: u64, out: &mut O) {
    let f = &c.snaps[k];
    let e = s + len;
    if !sn[k].valid {
        out.error(len);
        return;
    }
    let mask = (1u64 << f.sh) - 1;
    while s < e {
        let ch = s >> f.sh;
        let end = e.min((ch + 1) << f.sh);
        let mut p = sn[k].taken.find(ch);
        if p == 0 {
            match take(c, sn, k, ch, out) {
                Ok(x) => p = x,
                Err(false) if f.kind == b'K' => {
                    out.error(end - s);
                    s = end;
                    continue;
                }
                Err(_) => {
                    sn[k].valid = false;
                    out.error(e - s);
                    return;
                }
            }
        }
        let x = ((p as u64 - 1) << f.sh) + (s & mask);
        if f.store.kind == C_DISK {
            out.w(f.store.tgt, f.store.off + x, end - s);
        } else {
            write_to(c, sn, &f.store, x, end - s, out);
        }
        s = end;
    }
}

fn write_origin<O: Sink>(c: &Compiled, sn: &mut [Snap], o: &COrigin, mut s: u64, len: u64, out: &mut O) {
    let e = s + len;
    let list = &c.serves[o.first as usize..(o.first + o.count) as usize];
    while s < e {
        let mut cut = e;
        for &k in list {
            let k = k as usize;
            if !sn[k].valid {
                continue;
            }
            let f = &c.snaps[k];
            let ch = s >> f.sh;
            if sn[k].taken.find(ch) == 0 && take(c, sn, k, ch, out).is_err() {
                sn[k].valid = false;
                continue;
            }
            cut = cut.min((ch + 1) << f.sh);
        }
        write_to(c, sn, &o.to, s, cut - s, out);
        s = cut;
    }
}

impl<'a> Mapper<'a> {
    pub fn new(c: &'a Compiled) -> Mapper<'a> {
        let snaps = c
            .snaps
            .iter()
            .map(|f| Snap { taken: Taken::new(((f.len - 1) >> f.sh) + 1, f.places), valid: true })
            .collect();
        Mapper { c, snaps }
    }
    #[inline(always)]
    pub fn prefetch(&self, k: usize, s: u64) {
        use std::arch::x86_64::*;
        let places = self.snaps[k].taken.places.as_ptr();
        let p = places.wrapping_add((s >> self.c.snaps[k].sh) as usize);
        unsafe { _mm_prefetch::<_MM_HINT_T0>(p as *const i8) }
    }
}
