//! Reads LVM metadata: one pass over the bytes makes a tree in arenas, from which the volume group is read.
use crate::text::{is_disk_name, BYTES};
use crate::types::*;
use std::collections::BTreeMap;

#[derive(Clone, Copy, Debug)]
pub enum Val {
    Section,
    Int(u64),
    Text(B),
    List { first: u32, count: u32 },
}
#[derive(Clone, Copy, Debug)]
pub enum Scalar {
    Int(u64),
    Text(B),
}
#[derive(Clone, Copy, Debug)]
pub struct Node {
    pub key: B,
    pub line: u32,
    pub val: Val,
    /// sections in source order inside a section
    first_sec: u32,
    last_sec: u32,
    next_sec: u32,
    /// free for the reader: index of the PV or LV
    pub tag: u32,
}
const NONE: u32 = u32::MAX;

pub struct Tree {
    pub nodes: Vec<Node>,
    pub scalars: Vec<Scalar>,
    keys: Map<(u32, B), u32>,
}
impl Tree {
    pub fn get(&self, sec: u32, key: &[u8]) -> Option<u32> {
        // the borrow of `key` is only for the look-up
        let k: B = unsafe { std::mem::transmute::<&[u8], B>(key) };
        self.keys.get(&(sec, k)).copied()
    }
    fn sections(&self, sec: u32) -> Sections<'_> {
        Sections { t: self, at: self.nodes[sec as usize].first_sec }
    }
}
struct Sections<'a> {
    t: &'a Tree,
    at: u32,
}
impl Iterator for Sections<'_> {
    type Item = u32;
    fn next(&mut self) -> Option<u32> {
        if self.at == NONE {
            return None;
        }
        let x = self.at;
        self.at = self.t.nodes[x as usize].next_sec;
        Some(x)
    }
}

#[derive(Clone, Copy, PartialEq, Debug)]
enum Tok {
    Word(B),
    Str(B),
    P(u8),
    End,
    Bad,
}
struct Lex {
    s: B,
    i: usize,
    line: u32,
}
impl Lex {
    #[inline]
    fn next(&mut self) -> Tok {
        let s = self.s;
        let mut i = self.i;
        loop {
            let Some(&c) = s.get(i) else {
                self.i = i;
                return Tok::End;
            };
            match c {
                b' ' | b'\t' => i += 1,
                b'\n' => {
                    self.line += 1;
                    i += 1
                }
                b'#' => {
                    while i < s.len() && s[i] != b'\n' {
                        i += 1
                    }
                }
                b'{' | b'}' | b'[' | b']' | b'=' | b',' => {
                    self.i = i + 1;
                    return Tok::P(c);
                }
                b'"' => {
                    let from = i + 1;
                    let mut j = from;
                    loop {
                        match s.get(j) {
                            Some(b'"') => break,
                            Some(b'\\') => match s.get(j + 1) {
                                Some(b'"' | b'\\') => j += 2,
                                _ => return Tok::Bad,
                            },
                            Some(b'\n') | None => return Tok::Bad,
                            Some(_) => j += 1,
                        }
                    }
                    self.i = j + 1;
                    return Tok::Str(&s[from..j]);
                }
                _ if BYTES[c as usize] & 4 != 0 => {
                    let from = i;
                    while i < s.len() && BYTES[s[i] as usize] & 4 != 0 {
                        i += 1
                    }
                    self.i = i;
                    return Tok::Word(&s[from..i]);
                }
                _ => return Tok::Bad,
            }
        }
    }
}

/// Kinds here are those of `text_fault`: Token and Syntax 4, Deep 13, Number 5, Key twice 7.
pub fn parse(src: B) -> Result<Tree, Fault> {
    let mut lx = Lex { s: src, i: 0, line: 1 };
    let top = Node { key: b"", line: 1, val: Val::Section, first_sec: NONE, last_sec: NONE, next_sec: NONE, tag: NONE };
    let mut t = Tree {
        nodes: Vec::with_capacity(src.len() / 16 + 4),
        scalars: Vec::with_capacity(src.len() / 32 + 4),
        keys: Map::with_capacity_and_hasher(src.len() / 16 + 4, FoldBuild),
    };
    t.nodes.push(top);
    let mut open: Vec<u32> = vec![0];
    let (mut deep, mut numb, mut twice) = (0u32, 0u32, 0u32);
    // Ok(line) of a syntax fault, or the tree is whole
    let syntax: u32 = 'p: loop {
        let tok = lx.next();
        let key = match tok {
            Tok::Bad => return src_fault(SYNTAX, lx.line as u64),
            Tok::End => {
                break 'p if open.len() > 1 { lx.line } else { 0 };
            }
            Tok::P(b'}') if open.len() > 1 => {
                open.pop();
                continue;
            }
            Tok::Word(w) if w[0] != b'-' => w,
            _ => break 'p lx.line,
        };
        let line = lx.line;
        let sec = *open.last().unwrap();
        let me = t.nodes.len() as u32;
        macro_rules! scalar {
            ($tok:expr) => {
                match $tok {
                    Tok::Word(w) if w.iter().all(|c| c.is_ascii_digit()) => {
                        let mut v = 0u64;
                        let mut ok = w.len() <= 19;
                        if ok {
                            for &c in w {
                                v = v * 10 + (c - b'0') as u64;
                            }
                            ok = v <= i64::MAX as u64;
                        }
                        if !ok && numb == 0 {
                            numb = lx.line;
                        }
                        Scalar::Int(v)
                    }
                    Tok::Str(s) => Scalar::Text(s),
                    Tok::Bad => return src_fault(SYNTAX, lx.line as u64),
                    _ => break 'p lx.line,
                }
            };
        }
        let val = match lx.next() {
            Tok::P(b'{') => {
                if open.len() == 17 && deep == 0 {
                    deep = lx.line;
                }
                open.push(me);
                Val::Section
            }
            Tok::P(b'=') => match lx.next() {
                Tok::P(b'[') => {
                    let first = t.scalars.len() as u32;
                    let mut tok = lx.next();
                    if tok != Tok::P(b']') {
                        loop {
                            let s = scalar!(tok);
                            t.scalars.push(s);
                            match lx.next() {
                                Tok::P(b']') => break,
                                Tok::P(b',') => tok = lx.next(),
                                Tok::Bad => return src_fault(SYNTAX, lx.line as u64),
                                _ => break 'p lx.line,
                            }
                        }
                    }
                    Val::List { first, count: t.scalars.len() as u32 - first }
                }
                tok => match scalar!(tok) {
                    Scalar::Int(v) => Val::Int(v),
                    Scalar::Text(s) => Val::Text(s),
                },
            },
            Tok::Bad => return src_fault(SYNTAX, lx.line as u64),
            _ => break 'p lx.line,
        };
        if let Val::Section = val {
            let p = &mut t.nodes[sec as usize];
            let last = p.last_sec;
            p.last_sec = me;
            if last == NONE {
                p.first_sec = me;
            } else {
                t.nodes[last as usize].next_sec = me;
            }
        }
        t.nodes.push(Node { key, line, val, ..top });
        if t.keys.insert((sec, key), me).is_some() && twice == 0 {
            twice = line;
        }
    };
    if syntax != 0 {
        // a bad token anywhere goes first
        loop {
            match lx.next() {
                Tok::Bad => return src_fault(SYNTAX, lx.line as u64),
                Tok::End => return src_fault(SYNTAX, syntax as u64),
                _ => {}
            }
        }
    }
    for (k, l) in [(DEEP, deep), (FIELD, numb), (TWICE, twice)] {
        if l != 0 {
            return src_fault(k, l as u64);
        }
    }
    Ok(t)
}

struct Pv {
    key: B,
    line: u32,
    device: B,
    dev_size: u64,
    pe_start: u64,
    pe_count: u64,
}
#[derive(Clone, Copy)]
enum Seg {
    Striped { n: u64, size: u64, first: u32 },
    Zero,
    Error,
    Snapshot { chunk: u64, origin: B, cow: B },
}
struct Segment {
    line: u32,
    start: u64,
    count: u64,
    seg: Seg,
}
struct Lv {
    key: B,
    line: u32,
    ro: bool,
    first: u32,
    count: u32,
}

struct Reader<'a> {
    t: &'a Tree,
    extent: u64,
    /// line of the first hit of check 2
    limit: u32,
}
impl<'a> Reader<'a> {
    fn need(&self, sec: u32, key: &[u8]) -> Result<&'a Node, Fault> {
        match self.t.get(sec, key) {
            Some(i) => Ok(&self.t.nodes[i as usize]),
            None => src_fault(FIELD, self.t.nodes[sec as usize].line as u64),
        }
    }
    fn int(&mut self, sec: u32, key: &[u8], times: bool) -> Result<u64, Fault> {
        let n = self.need(sec, key)?;
        let Val::Int(v) = n.val else { return src_fault(FIELD, n.line as u64) };
        self.over(v, times, n.line);
        Ok(v)
    }
    fn over(&mut self, v: u64, times: bool, line: u32) {
        if self.limit == 0 && (v > MAX_SECTORS || (times && v as u128 * self.extent as u128 > MAX_SECTORS as u128)) {
            self.limit = line;
        }
    }
    fn text(&self, sec: u32, key: &[u8]) -> Result<(B, u32), Fault> {
        let n = self.need(sec, key)?;
        match n.val {
            Val::Text(s) => Ok((s, n.line)),
            _ => src_fault(FIELD, n.line as u64),
        }
    }
    fn section(&self, sec: u32, key: &[u8]) -> Result<u32, Fault> {
        match self.t.get(sec, key) {
            None => src_fault(FIELD, self.t.nodes[sec as usize].line as u64),
            Some(i) => match self.t.nodes[i as usize].val {
                Val::Section => Ok(i),
                _ => src_fault(FIELD, self.t.nodes[i as usize].line as u64),
            },
        }
    }
}

/// The device-mapper name of a volume or of a layer of it, or nothing if LVM allows no such name.
fn build_name(group: &[u8], volume: &[u8], layer: Option<&[u8]>) -> Option<Vec<u8>> {
    let mut name = Vec::with_capacity(128);
    for part in [Some(group), Some(volume), layer].into_iter().flatten() {
        if part.is_empty() || part[0] == b'-' || part.iter().any(|&c| BYTES[c as usize] & 4 == 0) {
            return None;
        }
        if !name.is_empty() {
            name.push(b'-');
        }
        for &c in part {
            name.push(c);
            if c == b'-' {
                name.push(b'-');
            }
        }
    }
    (name.len() <= 127).then_some(name)
}

fn leak(v: Vec<u8>) -> B {
    Box::leak(v.into_boxed_slice())
}

/// The group's tables and disks.
pub fn read(src: B) -> Result<(Desc, Vec<Disk>), Fault> {
    if let Err(e) = std::str::from_utf8(src) {
        let n = src[..e.valid_up_to()].iter().filter(|&&c| c == b'\n').count();
        return src_fault(NOTTEXT, 1 + n as u64);
    }
    let mut tree = parse(src)?;

    // 1. Field, 2. Limit (the same order, so one walk)
    let mut pvs: Vec<Pv> = Vec::new();
    let mut lvs: Vec<Lv> = Vec::new();
    let mut segs: Vec<Segment> = Vec::new();
    // (PV name, extent, PV index)
    let mut stripes: Vec<(B, u64, u32)> = Vec::new();
    let (vg, pv_sec, lv_sec, limit, extent);
    let mut pv_nodes: Vec<u32> = Vec::new();
    let mut lv_nodes: Vec<u32> = Vec::new();
    {
        let mut r = Reader { t: &tree, extent: 0, limit: 0 };
        let (c, l) = r.text(0, b"contents")?;
        if c != b"Text Format Volume Group" {
            return src_fault(FIELD, l as u64);
        }
        let v = r.need(0, b"version")?;
        if !matches!(v.val, Val::Int(1)) {
            return src_fault(FIELD, v.line as u64);
        }
        let mut s = tree.sections(0);
        let Some(g) = s.next() else { return src_fault(FIELD, 1) };
        if let Some(x) = s.next() {
            return src_fault(FIELD, tree.nodes[x as usize].line as u64);
        }
        vg = g;
        extent = r.int(g, b"extent_size", false)?;
        if extent == 0 {
            return src_fault(FIELD, r.need(g, b"extent_size")?.line as u64);
        }
        r.extent = extent;
        pv_sec = r.section(g, b"physical_volumes")?;
        lv_sec = match tree.get(g, b"logical_volumes") {
            None => None,
            Some(_) => Some(r.section(g, b"logical_volumes")?),
        };
        for p in tree.sections(pv_sec) {
            let n = &tree.nodes[p as usize];
            pv_nodes.push(p);
            pvs.push(Pv {
                key: n.key,
                line: n.line,
                device: r.text(p, b"device")?.0,
                dev_size: r.int(p, b"dev_size", false)?,
                pe_start: r.int(p, b"pe_start", false)?,
                pe_count: r.int(p, b"pe_count", true)?,
            });
        }
        let mut name: Vec<u8> = Vec::new();
        if let Some(ls) = lv_sec {
            for l in tree.sections(ls) {
                let n = &tree.nodes[l as usize];
                lv_nodes.push(l);
                let st = r.need(l, b"status")?;
                let Val::List { first, count } = st.val else {
                    return src_fault(FIELD, st.line as u64);
                };
                let mut ro = true;
                for s in &tree.scalars[first as usize..(first + count) as usize] {
                    match s {
                        Scalar::Text(x) => ro &= *x != b"WRITE" && *x != b"WRITE_LOCKED",
                        _ => return src_fault(FIELD, st.line as u64),
                    }
                }
                let count = r.int(l, b"segment_count", false)?;
                let from = segs.len() as u32;
                let mut seg_nodes: Vec<u32> = Vec::new();
                for i in 1..=count {
                    name.clear();
                    name.extend_from_slice(b"segment");
                    use std::io::Write;
                    let _ = write!(name, "{i}");
                    seg_nodes.push(r.section(l, &name)?);
                }
                for &s in &seg_nodes {
                    let start = r.int(s, b"start_extent", true)?;
                    let ext = r.int(s, b"extent_count", true)?;
                    let (ty, ty_line) = r.text(s, b"type")?;
                    let seg = match ty {
                        b"striped" => {
                            let sc = r.need(s, b"stripe_count")?;
                            let n = match sc.val {
                                Val::Int(n) if n >= 1 => n,
                                _ => return src_fault(FIELD, sc.line as u64),
                            };
                            r.over(n, false, sc.line);
                            let st = r.need(s, b"stripes")?;
                            let bad = src_fault(FIELD, st.line as u64);
                            let Val::List { first: lf, count: lc } = st.val else { return bad };
                            if lc % 2 != 0 || lc as u64 / 2 != n {
                                return bad;
                            }
                            let first = stripes.len() as u32;
                            for p in tree.scalars[lf as usize..(lf + lc) as usize].chunks_exact(2) {
                                match (p[0], p[1]) {
                                    (Scalar::Text(pv), Scalar::Int(x)) => {
                                        r.over(x, false, st.line);
                                        stripes.push((pv, x, NONE));
                                    }
                                    _ => return bad,
                                }
                            }
                            let size = if n > 1 { r.int(s, b"stripe_size", false)? } else { 0 };
                            Seg::Striped { n, size, first }
                        }
                        b"zero" => Seg::Zero,
                        b"error" => Seg::Error,
                        b"snapshot" => Seg::Snapshot {
                            chunk: r.int(s, b"chunk_size", false)?,
                            origin: r.text(s, b"origin")?.0,
                            cow: r.text(s, b"cow_store")?.0,
                        },
                        _ => return src_fault(FIELD, ty_line as u64),
                    };
                    let line = tree.nodes[s as usize].line;
                    segs.push(Segment { line, start, count: ext, seg });
                }
                let count = segs.len() as u32 - from;
                lvs.push(Lv { key: n.key, line: n.line, ro, first: from, count });
            }
        }
        limit = r.limit;
    }
    if limit != 0 {
        return src_fault(LIMIT, limit as u64);
    }
    for (i, &p) in pv_nodes.iter().enumerate() {
        tree.nodes[p as usize].tag = i as u32;
    }
    for (i, &p) in lv_nodes.iter().enumerate() {
        tree.nodes[p as usize].tag = i as u32;
    }
    let lv_of = |name: B| -> Option<usize> {
        let n = tree.get(lv_sec?, name)?;
        let tag = tree.nodes[n as usize].tag;
        (tag != NONE).then_some(tag as usize)
    };

    // 3. Name
    let mut uses: Map<B, u32> = Map::default();
    for p in &pvs {
        *uses.entry(p.device).or_insert(0) += 1;
    }
    let mut disks: Vec<Disk> = Vec::with_capacity(pvs.len());
    for p in &pvs {
        let by_device = p.device.first() == Some(&b'/') && is_disk_name(p.device) && uses[p.device] == 1;
        if !by_device && p.key.len() > 255 {
            return src_fault(NAME, p.line as u64);
        }
        let name = if by_device { p.device } else { p.key };
        disks.push(Disk { name, len: p.dev_size, at: p.line, part: SOURCE });
    }

    // 4. Unknown: source order, so the least line of all hits
    let mut hit = u32::MAX;
    for s in &segs {
        match s.seg {
            Seg::Striped { n, first, .. } => {
                for x in &mut stripes[first as usize..first as usize + n as usize] {
                    match tree.get(pv_sec, x.0).map(|i| tree.nodes[i as usize].tag) {
                        Some(tag) if tag != NONE => x.2 = tag,
                        _ => hit = hit.min(s.line),
                    }
                }
            }
            Seg::Snapshot { origin, cow, .. } => {
                if lv_of(origin).is_none() || lv_of(cow).is_none() {
                    hit = hit.min(s.line);
                }
            }
            _ => {}
        }
    }
    if hit != u32::MAX {
        return src_fault(UNKNOWN, hit as u64);
    }

    // 5. Extents
    for p in &pvs {
        if p.pe_start + p.pe_count * extent > p.dev_size {
            return src_fault(EXTENTS, p.line as u64);
        }
    }
    let mut used: BTreeMap<(u32, u64), u64> = BTreeMap::new();
    for l in &lvs {
        let mut end = 0u64;
        for s in &segs[l.first as usize..(l.first + l.count) as usize] {
            let bad = src_fault(EXTENTS, s.line as u64);
            if s.start != end || s.count == 0 {
                return bad;
            }
            end += s.count;
            if let Seg::Striped { n, first, .. } = s.seg {
                if s.count % n != 0 {
                    return bad;
                }
                let each = s.count / n;
                for &(_, x, pv) in &stripes[first as usize..first as usize + n as usize] {
                    if x + each > pvs[pv as usize].pe_count {
                        return bad;
                    }
                    // the last used range that begins before the end of this one
                    if let Some((&(v, _), &e)) = used.range(..(pv, x + each)).next_back() {
                        if v == pv && e > x {
                            return bad;
                        }
                    }
                    used.insert((pv, x), x + each);
                }
            }
        }
    }

    // 6. Snapshot
    #[derive(Clone, Copy, PartialEq)]
    struct Role {
        record: bool,
        origin: bool,
        stores: u32,
    }
    let mut roles = vec![Role { record: false, origin: false, stores: 0 }; lvs.len()];
    let mut record_of: Vec<u32> = vec![NONE; lvs.len()];
    let mut any = false;
    for (i, l) in lvs.iter().enumerate() {
        for (k, s) in segs[l.first as usize..(l.first + l.count) as usize].iter().enumerate() {
            if let Seg::Snapshot { origin, cow, .. } = s.seg {
                any = true;
                roles[i].record |= l.count == 1;
                if l.count == 1 {
                    // a segment of a volume of several is refused below anyway
                    roles[lv_of(origin).unwrap()].origin = true;
                    let c = lv_of(cow).unwrap();
                    roles[c].stores += 1;
                    record_of[c] = l.first + k as u32;
                }
            }
        }
    }
    if any {
        let mut hit = u32::MAX;
        for l in &lvs {
            for s in &segs[l.first as usize..(l.first + l.count) as usize] {
                if let Seg::Snapshot { origin, cow, .. } = s.seg {
                    let o = lv_of(origin).unwrap();
                    let c = lv_of(cow).unwrap();
                    let ol = &lvs[o];
                    let sum: u128 =
                        segs[ol.first as usize..(ol.first + ol.count) as usize].iter().map(|s| s.count as u128).sum();
                    if l.count != 1
                        || roles[o].record
                        || roles[c].record
                        || roles[c].origin
                        || roles[c].stores > 1
                        || s.count as u128 != sum
                    {
                        hit = hit.min(s.line);
                    }
                }
            }
        }
        if hit != u32::MAX {
            return src_fault(SNAPSHOT, hit as u64);
        }
    }

    // tables: Name first over the volumes in source order, then the devices
    let vg_key = tree.nodes[vg as usize].key;
    let mut names: Vec<(B, B)> = Vec::with_capacity(lvs.len());
    for (i, l) in lvs.iter().enumerate() {
        let layer: Option<&[u8]> = match roles[i] {
            Role { record: true, .. } => {
                names.push((b"", b""));
                continue;
            }
            Role { origin: true, .. } => Some(b"real"),
            Role { stores: 1.., .. } => Some(b"cow"),
            _ => None,
        };
        let name = build_name(vg_key, l.key, None);
        let low = if layer.is_some() { build_name(vg_key, l.key, layer) } else { Some(Vec::new()) };
        match (name, low) {
            (Some(n), Some(w)) => names.push((leak(n), leak(w))),
            _ => return src_fault(NAME, l.line as u64),
        }
    }
    let mut d = Desc::default();
    d.devs.reserve(lvs.len() * 2);
    d.lines.reserve(segs.len() + lvs.len());
    for (i, l) in lvs.iter().enumerate() {
        let role = roles[i];
        if role.record {
            continue;
        }
        let (name, low) = names[i];
        let layered = !low.is_empty();
        let first = d.lines.len() as u32;
        let mut len = 0;
        for s in &segs[l.first as usize..(l.first + l.count) as usize] {
            let target = match s.seg {
                Seg::Striped { n, size, first } => {
                    let to = |k: usize| {
                        let (_, x, pv) = stripes[first as usize + k];
                        let p = &pvs[pv as usize];
                        (Ref::Disk(disks[pv as usize].name), p.pe_start + x * extent)
                    };
                    if n == 1 {
                        let (r, off) = to(0);
                        Target::Linear { to: r, off }
                    } else {
                        let f = d.cols.len() as u32;
                        for k in 0..n as usize {
                            let c = to(k);
                            d.cols.push(c);
                        }
                        Target::Striped { n, chunk: size, first: f }
                    }
                }
                Seg::Zero => Target::Zero,
                Seg::Error => Target::Error,
                Seg::Snapshot { .. } => unreachable!(),
            };
            len += s.count * extent;
            d.lines.push(Line { start: s.start * extent, len: s.count * extent, target, at: s.line });
        }
        let count = d.lines.len() as u32 - first;
        let (nm, ro) = if layered { (low, false) } else { (name, l.ro) };
        d.devs.push(Dev { name: nm, ro, first, count, at: l.line });
        if layered {
            let (target, len, at) = if role.origin {
                (Target::Origin { origin: Ref::Dev(low) }, len, l.line)
            } else {
                let rec = &segs[record_of[i] as usize];
                let Seg::Snapshot { chunk, origin, .. } = rec.seg else { unreachable!() };
                let o = lv_of(origin).unwrap();
                let real = Ref::Dev(names[o].1);
                let t = Target::Snapshot { origin: real, store: Ref::Dev(low), kind: b'P', chunk };
                (t, rec.count * extent, rec.line)
            };
            let first = d.lines.len() as u32;
            d.lines.push(Line { start: 0, len, target, at });
            d.devs.push(Dev { name, ro: l.ro, first, count: 1, at: l.line });
        }
    }
    Ok((d, disks))
}
