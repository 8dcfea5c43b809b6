//! Canonical CBOR (CTAP 2.1, section 6): a reader that walks, and takes nothing else.

pub struct Reader<'a> {
    pub b: &'a [u8],
    pub at: usize,
}

type R<T> = Option<T>;

impl<'a> Reader<'a> {
    pub fn new(b: &'a [u8]) -> Self {
        Reader { b, at: 0 }
    }

    fn take(&mut self, n: u64) -> R<&'a [u8]> {
        let n = usize::try_from(n).ok()?;
        let s = self.b.get(self.at..self.at.checked_add(n)?)?;
        self.at += n;
        Some(s)
    }

    /// (major, argument), the shortest form only.
    #[inline]
    pub fn head(&mut self) -> R<(u8, u64)> {
        let first = *self.b.get(self.at)?;
        self.at += 1;
        let arg = match first & 31 {
            n @ 0..=23 => n as u64,
            24 => { let n = self.take(1)?[0] as u64; if n < 24 || first >> 5 == 7 { return None } n }
            25 => { let n = u16::from_be_bytes(self.take(2)?.try_into().ok()?) as u64; if n < 1 << 8 { return None } n }
            26 => { let n = u32::from_be_bytes(self.take(4)?.try_into().ok()?) as u64; if n < 1 << 16 { return None } n }
            27 => { let n = u64::from_be_bytes(self.take(8)?.try_into().ok()?); if n < 1 << 32 { return None } n }
            _ => return None,
        };
        Some((first >> 5, arg))
    }

    pub fn bytes(&mut self) -> R<&'a [u8]> {
        match self.head()? { (2, n) => self.take(n), _ => None }
    }
    pub fn text(&mut self) -> R<&'a str> {
        match self.head()? { (3, n) => std::str::from_utf8(self.take(n)?).ok(), _ => None }
    }

    /// Lower major, then shorter, then lower bytes.
    fn sorted(a: &[u8], b: &[u8]) -> bool {
        (a[0] >> 5, a.len(), a) < (b[0] >> 5, b.len(), b)
    }

    pub fn skip(&mut self, depth: u8) -> R<()> {
        match self.head()? {
            (0 | 1, _) | (7, 20 | 21) => {}
            (2, n) => { self.take(n)?; }
            (3, n) => { std::str::from_utf8(self.take(n)?).ok()?; }
            (4, n) => {
                if depth == 0 { return None }
                for _ in 0..n { self.skip(depth - 1)? }
            }
            (5, n) => {
                if depth == 0 { return None }
                let mut last: &[u8] = &[];
                for i in 0..n {
                    let from = self.at;
                    if !matches!(self.b.get(from)? >> 5, 0 | 1 | 3) { return None }
                    self.skip(depth - 1)?;
                    let key = &self.b[from..self.at];
                    if i > 0 && !Self::sorted(last, key) { return None }
                    last = key;
                    self.skip(depth - 1)?;
                }
            }
            _ => return None,
        }
        Some(())
    }
}

pub fn check(b: &[u8]) -> bool {
    let mut r = Reader::new(b);
    r.skip(4).is_some() && r.at == b.len()
}
