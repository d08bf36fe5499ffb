//! A description and its faults. All texts are leaked: they are loaded once, and kept to the end.

pub type B = &'static [u8];

pub const READ: u8 = 1;
pub const LONG: u8 = 2;
pub const NOTTEXT: u8 = 3;
pub const SYNTAX: u8 = 4;
pub const FIELD: u8 = 5;
pub const NAME: u8 = 6;
pub const TWICE: u8 = 7;
pub const EMPTY: u8 = 8;
pub const GAP: u8 = 9;
pub const OVERLAP: u8 = 10;
pub const UNKNOWN: u8 = 11;
pub const CYCLE: u8 = 12;
pub const DEEP: u8 = 13;
pub const RANGE: u8 = 14;
pub const STRIPE: u8 = 15;
pub const SNAPSHOT: u8 = 16;
pub const STORE: u8 = 17;
pub const EXTENTS: u8 = 18;
pub const LIMIT: u8 = 19;

pub const WORDS: [&str; 20] = [
    "", "read", "long", "text", "syntax", "field", "name", "twice", "empty", "gap", "overlap", "unknown", "cycle",
    "deep", "range", "stripe", "snapshot", "store", "extents", "limit",
];

pub const SOURCE: u8 = 0;
pub const DISKS: u8 = 1;

pub const MAX_SECTORS: u64 = 1 << 50;
pub const MAX_TEXT: usize = 1_048_576;
pub const MAX_PLACES: u64 = 4_194_304;

#[derive(Debug, Clone, Copy, PartialEq)]
pub struct Fault {
    pub kind: u8,
    pub part: u8,
    pub at: u64,
}

pub fn src_fault<T>(kind: u8, at: u64) -> Result<T, Fault> {
    Err(Fault { kind, part: SOURCE, at })
}

#[derive(Clone, Copy, Debug, PartialEq)]
pub enum Ref {
    Dev(B),
    Disk(B),
}

#[derive(Clone, Copy, Debug, PartialEq)]
pub enum Target {
    Linear {
        to: Ref,
        off: u64,
    },
    /// columns are `cols[first .. first + n]`
    Striped {
        n: u64,
        chunk: u64,
        first: u32,
    },
    Zero,
    Error,
    Snapshot {
        origin: Ref,
        store: Ref,
        kind: u8,
        chunk: u64,
    },
    Origin {
        origin: Ref,
    },
}

#[derive(Clone, Copy, Debug)]
pub struct Line {
    pub start: u64,
    pub len: u64,
    pub target: Target,
    pub at: u32,
}

#[derive(Clone, Copy, Debug)]
pub struct Dev {
    pub name: B,
    pub ro: bool,
    pub first: u32,
    pub count: u32,
    pub at: u32,
}

#[derive(Clone, Copy, Debug)]
pub struct Disk {
    pub name: B,
    pub len: u64,
    pub at: u32,
    pub part: u8,
}

#[derive(Default, Debug)]
pub struct Desc {
    pub devs: Vec<Dev>,
    pub lines: Vec<Line>,
    pub cols: Vec<(Ref, u64)>,
}

impl Desc {
    pub fn lines_of(&self, d: &Dev) -> &[Line] {
        &self.lines[d.first as usize..(d.first + d.count) as usize]
    }
}

/// Multiply-fold hash for the load-time maps.
#[derive(Default, Clone, Copy)]
pub struct Fold(u64);
impl std::hash::Hasher for Fold {
    #[inline]
    fn finish(&self) -> u64 {
        self.0
    }
    #[inline]
    fn write(&mut self, mut b: &[u8]) {
        while b.len() >= 8 {
            self.write_u64(u64::from_le_bytes(b[..8].try_into().unwrap()));
            b = &b[8..];
        }
        let mut t = [0u8; 8];
        t[..b.len()].copy_from_slice(b);
        t[7] = b.len() as u8;
        self.write_u64(u64::from_le_bytes(t));
    }
    #[inline]
    fn write_u64(&mut self, x: u64) {
        let p = ((self.0 ^ x) as u128) * 0x9E37_79B9_7F4A_7C15_F39C_C060_5CED_C835u128 as u64 as u128;
        self.0 = (p as u64) ^ ((p >> 64) as u64) ^ 0x5851_F42D_4C95_7F2D;
    }
    #[inline]
    fn write_usize(&mut self, x: usize) {
        self.write_u64(x as u64)
    }
    #[inline]
    fn write_u32(&mut self, x: u32) {
        self.write_u64(x as u64)
    }
}
#[derive(Default, Clone, Copy)]
pub struct FoldBuild;
impl std::hash::BuildHasher for FoldBuild {
    type Hasher = Fold;
    fn build_hasher(&self) -> Fold {
        Fold(0x1234_5678_9ABC_DEF1)
    }
}
pub type Map<K, V> = std::collections::HashMap<K, V, FoldBuild>;
