//! Joins pieces, and writes them through a large buffer, eight digits at a time.
use crate::map::{ReadSink, Sink};
use std::fs::File;
use std::io::Write;
use std::mem::ManuallyDrop;
use std::os::fd::FromRawFd;

const CAP: usize = 1 << 17;
/// more than the longest line (number, two names of 255 bytes, three numbers)
const SLACK: usize = 1024;

pub struct Fd(ManuallyDrop<File>);
impl Fd {
    pub fn new(fd: i32) -> Fd {
        Fd(ManuallyDrop::new(unsafe { File::from_raw_fd(fd) }))
    }
    /// false at a fault; an interruption is one
    pub fn write_all(&mut self, mut b: &[u8]) -> bool {
        while !b.is_empty() {
            match self.0.write(b) {
                Ok(n) if n > 0 => b = &b[n..],
                _ => return false,
            }
        }
        true
    }
}

/// Eight digits, first one in the low byte, without the ASCII zeros.
#[inline(always)]
fn eight(x: u32) -> u64 {
    let hi = x / 10_000;
    let lo = x - hi * 10_000;
    let m = hi as u64 | (lo as u64) << 32;
    let top = ((m * 10486) >> 20) & 0x0000_007f_0000_007f;
    let bot = m - 100 * top;
    let h = (bot << 16) + top;
    let t = ((h * 103) >> 10) & 0x000f_000f_000f_000f;
    t + ((h - 10 * t) << 8)
}
const ZEROS: u64 = 0x3030_3030_3030_3030;

#[inline(always)]
unsafe fn put8(p: *mut u8, x: u32) -> *mut u8 {
    let v = eight(x);
    let lead = ((v | 1 << 63).trailing_zeros() / 8) as usize;
    (p as *mut u64).write_unaligned((v | ZEROS) >> (8 * lead));
    p.add(8 - lead)
}
/// Writes at most 24 bytes at `p`.
#[inline(always)]
pub unsafe fn put(p: *mut u8, x: u64) -> *mut u8 {
    if x < 100_000_000 {
        put8(p, x as u32)
    } else {
        put_big(p, x)
    }
}
#[inline(always)]
unsafe fn put_big(p: *mut u8, x: u64) -> *mut u8 {
    let hi = x / 100_000_000;
    let lo = (x - hi * 100_000_000) as u32;
    let q = if hi < 100_000_000 {
        put8(p, hi as u32)
    } else {
        let h2 = hi / 100_000_000;
        let q = put8(p, h2 as u32);
        let v = eight((hi - h2 * 100_000_000) as u32) | ZEROS;
        (q as *mut u64).write_unaligned(v);
        q.add(8)
    };
    (q as *mut u64).write_unaligned(eight(lo) | ZEROS);
    q.add(8)
}

/// A text that is copied 16 bytes at a time.
#[derive(Clone)]
#[repr(align(64))]
struct Text {
    b: [u8; 48],
    len: u32,
    long: Box<[u8]>,
}
impl Text {
    fn new(t: &[u8]) -> Text {
        let mut b = [0; 48];
        if t.len() <= 48 {
            b[..t.len()].copy_from_slice(t);
        }
        Text { b, len: t.len() as u32, long: t.into() }
    }
    #[inline(always)]
    unsafe fn put(&self, p: *mut u8) -> *mut u8 {
        let n = self.len as usize;
        let s = self.b.as_ptr();
        s.copy_to_nonoverlapping(p, 16);
        if n > 16 {
            if n <= 48 {
                s.add(16).copy_to_nonoverlapping(p.add(16), 32);
            } else {
                self.long.as_ptr().copy_to_nonoverlapping(p, n);
            }
        }
        p.add(n)
    }
}

// the kind in a held piece's key
const NOTHING: u32 = 0;
const ZERO: u32 = 1 << 16;
const DROP: u32 = 2 << 16;
const ERROR: u32 = 3 << 16;
const COPY: u32 = 4 << 16;
const FILL: u32 = 5 << 16;
/// reads and writes: `RW | disk * 2 | write`
const RW: u32 = 6 << 16;

pub struct Join {
    buf: Box<[u8]>,
    pos: usize,
    fd: Fd,
    pub failed: bool,
    // the held piece
    key: u32,
    disk2: u32,
    start: u64,
    end: u64,
    start2: u64,
    // the request's number as text, and what to add for the next one
    num: u128,
    one: u128,
    last: u32,
    num_len: usize,
    number: u64,
    // where `START LEN\n` of the last read or write stands in the buffer: columns of a stripe
    // often have one offset, so many lines in turn end alike
    tail_start: u64,
    tail_len: u64,
    tail_at: usize,
    tail_size: usize,
    /// ` R NAME ` and ` W NAME ` of each disk
    rw: Vec<Text>,
    /// ` NAME `
    names: Vec<Text>,
    /// ` LEN\n` tails below 1000: the text and its length
    tails: Box<[(u32, u32); 1024]>,
}

impl Join {
    pub fn new(disks: &[crate::types::Disk], fd: i32) -> Join {
        let mut rw = Vec::new();
        let mut names = Vec::new();
        for k in disks {
            let mut t = b" R ".to_vec();
            t.extend_from_slice(k.name);
            t.push(b' ');
            rw.push(Text::new(&t));
            t[1] = b'W';
            rw.push(Text::new(&t));
            names.push(Text::new(&t[2..]));
        }
        let mut tails = Box::new([(0, 0); 1024]);
        for (i, t) in tails.iter_mut().enumerate().take(1000) {
            let s = format!("{i}\n");
            let mut b = [0u8; 4];
            b[..s.len()].copy_from_slice(s.as_bytes());
            *t = (u32::from_le_bytes(b), s.len() as u32);
        }
        Join {
            buf: vec![0; CAP + SLACK].into_boxed_slice(),
            pos: 0,
            fd: Fd::new(fd),
            failed: false,
            key: NOTHING,
            disk2: 0,
            start: 0,
            end: 0,
            start2: 0,
            num: 0,
            one: 0,
            last: 9,
            num_len: 0,
            number: 0,
            tail_start: u64::MAX,
            tail_len: 0,
            tail_at: 0,
            tail_size: 0,
            rw,
            names,
            tails,
        }
    }
    /// The next request's number: one more than the last.
    #[inline(always)]
    pub fn begin(&mut self) {
        self.number += 1;
        if self.last != 9 {
            self.last += 1;
            self.num = self.num.wrapping_add(self.one);
        } else {
            self.renumber();
        }
    }
    #[inline(never)]
    fn renumber(&mut self) {
        let mut b = [0u8; 32];
        let n = unsafe { put(b.as_mut_ptr(), self.number).offset_from(b.as_ptr()) as usize };
        self.num = u128::from_le_bytes(b[..16].try_into().unwrap());
        self.num_len = n;
        self.last = (b[n - 1] - b'0') as u32;
        self.one = 1 << (8 * (n - 1));
    }
    #[inline(never)]
    pub fn flush(&mut self) {
        if !self.failed && self.pos > 0 {
            self.failed = !self.fd.write_all(&self.buf[..self.pos]);
        }
        self.pos = 0;
        self.tail_start = u64::MAX;
    }
    #[inline(always)]
    unsafe fn head(&mut self) -> *mut u8 {
        let p = self.buf.as_mut_ptr().add(self.pos);
        (p as *mut u128).write_unaligned(self.num);
        p.add(self.num_len)
    }
    #[inline(always)]
    unsafe fn tail(&mut self, p: *mut u8, len: u64) {
        let q = if len < 1000 {
            let (t, n) = *self.tails.get_unchecked(len as usize);
            (p as *mut u32).write_unaligned(t);
            p.add(n as usize)
        } else {
            let q = put(p, len);
            *q = b'\n';
            q.add(1)
        };
        self.done(q);
    }
    #[inline(always)]
    unsafe fn done(&mut self, q: *mut u8) {
        self.pos = q.offset_from(self.buf.as_ptr()) as usize;
        if self.pos >= CAP {
            self.flush();
        }
    }
    #[inline(always)]
    fn line_rw(&mut self, i: u32, start: u64, len: u64) {
        unsafe {
            let p = self.head();
            let p = self.rw.get_unchecked(i as usize).put(p);
            let q = put(p, start);
            *q = b' ';
            self.tail(q.add(1), len);
        }
    }
    /// The same among the pieces of one request.
    #[inline(always)]
    fn line_rw_many(&mut self, i: u32, start: u64, len: u64) {
        unsafe {
            let p = self.head();
            let p = self.rw.get_unchecked(i as usize).put(p);
            if start == self.tail_start && len == self.tail_len {
                let s = self.buf.as_ptr().add(self.tail_at);
                // whole loads first: the ranges may overlap behind the text
                let (a, b) = ((s as *const u128).read_unaligned(), (s.add(16) as *const u128).read_unaligned());
                (p as *mut u128).write_unaligned(a);
                (p.add(16) as *mut u128).write_unaligned(b);
                self.done(p.add(self.tail_size));
                return;
            }
            let at = p.offset_from(self.buf.as_ptr()) as usize;
            self.tail_at = at;
            self.tail_start = start;
            self.tail_len = len;
            let q = put(p, start);
            *q = b' ';
            // the size first: `tail` may flush
            let q = q.add(1);
            let digits =
                if len < 1000 { self.tails.get_unchecked(len as usize).1 as usize } else { len.ilog10() as usize + 2 };
            self.tail_size = q.add(digits).offset_from(p) as usize;
            self.tail(q, len);
        }
    }
    /// One read or write that is a whole request's answer.
    #[inline(always)]
    pub fn only(&mut self, write: bool, disk: u32, start: u64, len: u64) {
        self.line_rw(disk * 2 + write as u32, start, len);
    }
    #[inline(always)]
    pub fn only_plain(&mut self, kind: u32, len: u64) {
        self.line_plain(kind, len);
    }
    pub const P_ZERO: u32 = ZERO;
    pub const P_DROP: u32 = DROP;
    pub const P_ERROR: u32 = ERROR;
    #[inline(always)]
    fn line_plain(&mut self, kind: u32, len: u64) {
        let (w, n): (&[u8; 8], usize) = match kind {
            ZERO => (b" zero   ", 6),
            DROP => (b" drop   ", 6),
            _ => (b" error  ", 7),
        };
        unsafe {
            let p = self.head();
            w.as_ptr().copy_to_nonoverlapping(p, 8);
            self.tail(p.add(n), len);
        }
    }
    /// Writes the held piece.
    #[inline(always)]
    fn emit(&mut self) {
        let key = self.key;
        if key >= RW {
            self.line_rw_many(key & 0xFFFF, self.start, self.end - self.start);
        } else if key >= COPY {
            self.emit_two();
        } else if key != NOTHING {
            self.line_plain(key, self.end);
        }
    }
    fn emit_two(&mut self) {
        let key = self.key;
        let len = self.end - self.start;
        unsafe {
            let p = self.head();
            if key >= FILL {
                b" fill   ".as_ptr().copy_to_nonoverlapping(p, 8);
                let p = put(p.add(6), len);
                let p = self.names.get_unchecked(self.disk2 as usize).put(p);
                let p = put(p, self.start2);
                *p = b'\n';
                self.done(p.add(1));
            } else {
                b" copy   ".as_ptr().copy_to_nonoverlapping(p, 8);
                let p = self.names.get_unchecked((key & 0xFFFF) as usize).put(p.add(5));
                let p = put(p, self.start);
                *p = b' ';
                let p = put(p.add(1), len);
                let p = self.names.get_unchecked(self.disk2 as usize).put(p);
                let p = put(p, self.start2);
                *p = b'\n';
                self.done(p.add(1));
            }
        }
    }
    /// Ends a request.
    #[inline(always)]
    pub fn finish(&mut self) {
        self.emit();
        self.key = NOTHING;
    }
    #[inline(always)]
    fn rw_piece(&mut self, key: u32, start: u64, len: u64) {
        if key == self.key && start == self.end {
            self.end = start + len;
            return;
        }
        self.emit();
        self.key = key;
        self.start = start;
        self.end = start + len;
    }
    #[inline(always)]
    fn plain(&mut self, key: u32, len: u64) {
        if key == self.key {
            self.end += len;
            return;
        }
        self.emit();
        self.key = key;
        self.end = len;
    }
}
impl ReadSink for Join {
    #[inline(always)]
    fn disk(&mut self, disk: u32, start: u64, len: u64) {
        self.rw_piece(RW | disk * 2, start, len)
    }
    #[inline(always)]
    fn zero(&mut self, len: u64) {
        self.plain(ZERO, len)
    }
    #[inline(always)]
    fn error(&mut self, len: u64) {
        self.plain(ERROR, len)
    }
}
impl Sink for Join {
    #[inline(always)]
    fn w(&mut self, disk: u32, start: u64, len: u64) {
        self.rw_piece(RW | disk * 2 | 1, start, len)
    }
    #[inline(always)]
    fn drop_(&mut self, len: u64) {
        self.plain(DROP, len)
    }
    #[inline(always)]
    fn copy(&mut self, disk: u32, start: u64, len: u64, disk2: u32, start2: u64) {
        let key = COPY | disk;
        if key == self.key
            && start == self.end
            && disk2 == self.disk2
            && start2 == self.start2 + (self.end - self.start)
        {
            self.end = start + len;
            return;
        }
        self.emit();
        self.key = key;
        self.start = start;
        self.end = start + len;
        self.disk2 = disk2;
        self.start2 = start2;
    }
    #[inline(always)]
    fn fill(&mut self, len: u64, disk: u32, start: u64) {
        if self.key == FILL && disk == self.disk2 && start == self.start2 + (self.end - self.start) {
            self.end += len;
            return;
        }
        self.emit();
        self.key = FILL;
        self.start = 0;
        self.end = len;
        self.disk2 = disk;
        self.start2 = start;
    }
}
