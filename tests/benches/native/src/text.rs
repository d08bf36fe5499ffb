//! Parses table text, concise text and disk lists.
use crate::types::*;

/// `0`, or a digit 1 to 9 followed by at most 18 digits.
pub fn number(b: &[u8]) -> Option<u64> {
    if b.is_empty() || b.len() > 19 || (b[0] == b'0' && b.len() > 1) {
        return None;
    }
    let mut v = 0u64;
    let mut bad = false;
    for &c in b {
        let d = c.wrapping_sub(b'0');
        bad |= d > 9;
        v = v.wrapping_mul(10).wrapping_add(d as u64);
    }
    (!bad).then_some(v)
}

const fn name_table() -> [u8; 256] {
    // bit 0: device name and uuid byte; bit 1: disk name byte; bit 2: LVM word byte
    let mut t = [0u8; 256];
    let mut i = 0;
    while i < 256 {
        let c = i as u8;
        let alnum = c.is_ascii_alphanumeric();
        if alnum || matches!(c, b'#' | b'+' | b'-' | b'.' | b':' | b'=' | b'@' | b'_') {
            t[i] |= 1;
        }
        if c >= 0x21 && c <= 0x7E && !matches!(c, b',' | b';' | b'\\') {
            t[i] |= 2;
        }
        if alnum || matches!(c, b'_' | b'+' | b'.' | b'-') {
            t[i] |= 4;
        }
        i += 1;
    }
    t
}
pub static BYTES: [u8; 256] = name_table();

pub fn is_dev_name(b: &[u8]) -> bool {
    !b.is_empty() && b.len() <= 127 && b.iter().all(|&c| BYTES[c as usize] & 1 != 0)
}
pub fn is_uuid(b: &[u8]) -> bool {
    b.len() <= 128 && b.iter().all(|&c| BYTES[c as usize] & 1 != 0)
}
pub fn is_disk_name(b: &[u8]) -> bool {
    !b.is_empty() && b.len() <= 255 && !b.starts_with(b"/dev/mapper/") && b.iter().all(|&c| BYTES[c as usize] & 2 != 0)
}

fn reference(b: B, bad_name: &mut bool) -> Ref {
    if let Some(n) = b.strip_prefix(b"/dev/mapper/") {
        *bad_name |= !is_dev_name(n);
        Ref::Dev(n)
    } else {
        *bad_name |= !is_disk_name(b);
        Ref::Disk(b)
    }
}

/// Positions of some bytes, found 64 at a time. The text stands in a buffer with 64 more bytes
/// behind it (`read_part`).
struct Seps<'a> {
    text: &'a [u8],
    sep: [u8; 4],
    base: usize,
    mask: u64,
}
impl<'a> Seps<'a> {
    fn new(text: &'a [u8], sep: [u8; 4]) -> Seps<'a> {
        let mut s = Seps { text, sep, base: 0, mask: 0 };
        if !text.is_empty() {
            s.fill();
        }
        s
    }
    #[inline(always)]
    fn fill(&mut self) {
        use std::arch::x86_64::*;
        unsafe {
            let p = self.text.as_ptr().add(self.base);
            let [a, b, c, d] = self.sep.map(|x| _mm_set1_epi8(x as i8));
            let mut m = 0u64;
            for k in 0..4 {
                let v = _mm_loadu_si128(p.add(16 * k) as *const __m128i);
                let x = _mm_or_si128(
                    _mm_or_si128(_mm_cmpeq_epi8(v, a), _mm_cmpeq_epi8(v, b)),
                    _mm_or_si128(_mm_cmpeq_epi8(v, c), _mm_cmpeq_epi8(v, d)),
                );
                m |= (_mm_movemask_epi8(x) as u32 as u64) << (16 * k);
            }
            let left = self.text.len() - self.base;
            self.mask = if left < 64 { m & ((1 << left) - 1) } else { m };
        }
    }
    /// The next one, or the text's end.
    #[inline(always)]
    fn next(&mut self) -> usize {
        while self.mask == 0 {
            if self.text.len() - self.base <= 64 {
                return self.text.len();
            }
            self.base += 64;
            self.fill();
        }
        let i = self.base + self.mask.trailing_zeros() as usize;
        self.mask &= self.mask - 1;
        i
    }
}

/// Fields between single spaces; false where a field is empty.
fn split(line: B, f: &mut Vec<B>) -> bool {
    f.clear();
    let mut from = 0;
    for (i, &c) in line.iter().enumerate() {
        if c == b' ' {
            if i == from {
                return false;
            }
            f.push(&line[from..i]);
            from = i + 1;
        }
    }
    if from == line.len() {
        return false;
    }
    f.push(&line[from..]);
    true
}

/// `START LEN TYPE ARGS`; None is a Field fault.
fn line(f: &[B], at: u32, cols: &mut Vec<(Ref, u64)>, bad: &mut bool) -> Option<Line> {
    let start = number(f[0])?;
    let len = number(f[1])?;
    let a = &f[3..];
    let target = match f[2] {
        b"linear" => {
            if a.len() != 2 {
                return None;
            }
            let off = number(a[1])?;
            Target::Linear { to: reference(a[0], bad), off }
        }
        b"striped" => {
            if a.len() < 2 || a.len() % 2 != 0 {
                return None;
            }
            let n = number(a[0])?;
            let chunk = number(a[1])?;
            if n != (a.len() as u64 - 2) / 2 {
                return None;
            }
            let first = cols.len() as u32;
            for p in a[2..].chunks_exact(2) {
                let off = number(p[1])?;
                cols.push((reference(p[0], bad), off));
            }
            Target::Striped { n, chunk, first }
        }
        b"zero" if a.is_empty() => Target::Zero,
        b"error" if a.is_empty() => Target::Error,
        b"snapshot" => {
            if a.len() != 4 || !matches!(a[2], b"P" | b"N" | b"K") {
                return None;
            }
            let chunk = number(a[3])?;
            Target::Snapshot { origin: reference(a[0], bad), store: reference(a[1], bad), kind: a[2][0], chunk }
        }
        b"snapshot-origin" => {
            if a.len() != 1 {
                return None;
            }
            Target::Origin { origin: reference(a[0], bad) }
        }
        _ => return None,
    };
    Some(Line { start, len, target, at })
}

fn is_text(b: &[u8]) -> Option<usize> {
    // branch-free scan first, then find the place
    let mut bad = 0u8;
    for &c in b {
        bad |= ((c.wrapping_sub(0x20) > 0x5E) & (c != b'\n')) as u8;
    }
    if bad == 0 {
        return None;
    }
    b.iter().position(|&c| c != b'\n' && !(0x20..=0x7E).contains(&c))
}

struct First {
    field: u32,
    name: u32,
}
impl First {
    fn field(&mut self, at: u32) {
        if self.field == 0 {
            self.field = at
        }
    }
    fn name(&mut self, at: u32) {
        if self.name == 0 {
            self.name = at
        }
    }
    fn end(&self, part: u8) -> Result<(), Fault> {
        if self.field != 0 {
            return Err(Fault { kind: FIELD, part, at: self.field as u64 });
        }
        if self.name != 0 {
            return Err(Fault { kind: NAME, part, at: self.name as u64 });
        }
        Ok(())
    }
}

fn count(b: &[u8], c: u8) -> u64 {
    b.iter().map(|&x| (x == c) as u64).sum()
}

pub fn parse_table(src: B) -> Result<Desc, Fault> {
    if let Some(i) = is_text(src) {
        return src_fault(NOTTEXT, 1 + count(&src[..i], b'\n'));
    }
    let mut d = Desc::default();
    d.lines.reserve(src.len() / 15 + 1);
    let mut first = First { field: 0, name: 0 };
    let mut f: Vec<B> = Vec::new();
    let mut seps = Seps::new(src, *b" \n\n\n");
    let mut from = 0;
    let mut at = 0u32;
    while from < src.len() {
        at += 1;
        let syntax = src_fault(SYNTAX, at as u64);
        f.clear();
        loop {
            let i = seps.next();
            if i == src.len() {
                return syntax;
            }
            let nl = src[i] == b'\n';
            if i == from {
                // an empty field: only behind one space at the end of a line
                if !nl || f.is_empty() {
                    return syntax;
                }
            } else {
                f.push(&src[from..i]);
            }
            from = i + 1;
            if nl {
                break;
            }
        }
        if f.len() < 4 {
            return syntax;
        }
        let [name @ .., b':'] = f[0] else { return syntax };
        if name.is_empty() {
            return syntax;
        }
        let mut bad = !is_dev_name(name);
        match line(&f[1..], at, &mut d.cols, &mut bad) {
            None => first.field(at),
            Some(x) => {
                if bad {
                    first.name(at);
                }
                match d.devs.last_mut() {
                    Some(v) if v.name == name => v.count += 1,
                    _ => d.devs.push(Dev { name, ro: false, first: d.lines.len() as u32, count: 1, at }),
                }
                d.lines.push(x);
            }
        }
    }
    first.end(SOURCE)?;
    Ok(d)
}

pub fn parse_concise(src: B) -> Result<Desc, Fault> {
    if let Some(i) = is_text(src) {
        return src_fault(NOTTEXT, 1 + count(&src[..i], b';'));
    }
    let mut d = Desc::default();
    let text: B = if let [h @ .., b'\n'] = src { h } else { src };
    if text.is_empty() {
        return Ok(d);
    }
    d.lines.reserve(src.len() / 12 + 1);
    let mut first = First { field: 0, name: 0 };
    let mut f: Vec<B> = Vec::new();
    let mut at = 0u32;
    // separators in turn: `;` or the text's end closes a device
    let mut seps = Seps::new(text, *b" ,;\n");
    let mut from = 0;
    let mut open = true;
    while open {
        at += 1;
        let syntax = src_fault(SYNTAX, at as u64);
        let mut head: [B; 4] = [b""; 4];
        for h in head.iter_mut() {
            let i = seps.next();
            if text.get(i) != Some(&b',') {
                return syntax;
            }
            *h = &text[from..i];
            from = i + 1;
        }
        let [name, uuid, minor, flags] = head;
        if !matches!(flags, b"" | b"ro" | b"rw") || !(minor.is_empty() || number(minor).is_some()) {
            first.field(at);
        }
        let mut bad = !is_dev_name(name) || !is_uuid(uuid);
        let lines = d.lines.len() as u32;
        loop {
            // one table: fields up to `,` or `;` or the end
            f.clear();
            let begin = from;
            let end = loop {
                let i = seps.next();
                let c = text.get(i).copied().unwrap_or(b';');
                if c == b'\n' {
                    return syntax;
                }
                if i == from {
                    // an empty field: behind one space at the begin or before the table's end
                    let first_space = c == b' ' && i == begin;
                    let last_space = c != b' ' && !f.is_empty();
                    if !first_space && !last_space {
                        return syntax;
                    }
                } else {
                    f.push(&text[from..i]);
                }
                from = i + 1;
                if c != b' ' {
                    open = i < text.len();
                    break c;
                }
            };
            if f.len() < 3 {
                return syntax;
            }
            match line(&f, at, &mut d.cols, &mut bad) {
                None => first.field(at),
                Some(x) => d.lines.push(x),
            }
            if end == b';' {
                break;
            }
        }
        if bad {
            first.name(at);
        }
        let count = d.lines.len() as u32 - lines;
        d.devs.push(Dev { name, ro: flags == b"ro", first: lines, count, at });
    }
    first.end(SOURCE)?;
    Ok(d)
}

pub fn parse_disks(src: B) -> Result<Vec<Disk>, Fault> {
    let fault = |kind, at| Err(Fault { kind, part: DISKS, at });
    if let Some(i) = is_text(src) {
        return fault(NOTTEXT, 1 + count(&src[..i], b'\n'));
    }
    let mut v = Vec::new();
    let mut first = First { field: 0, name: 0 };
    let mut f: Vec<B> = Vec::new();
    let mut rest = src;
    let mut at = 0u32;
    while !rest.is_empty() {
        at += 1;
        let Some(nl) = rest.iter().position(|&c| c == b'\n') else {
            return fault(SYNTAX, at as u64);
        };
        let l = &rest[..nl];
        rest = &rest[nl + 1..];
        if !split(l, &mut f) || f.len() != 2 {
            return fault(SYNTAX, at as u64);
        }
        match number(f[1]) {
            None => first.field(at),
            Some(len) => {
                if !is_disk_name(f[0]) {
                    first.name(at);
                }
                v.push(Disk { name: f[0], len, at, part: DISKS });
            }
        }
    }
    first.end(DISKS)?;
    Ok(v)
}
