//! Pages of text: lines of numbers, put a page at a time.

/// The texts of all numbers below 1,000: their digits and a space, and in the last byte how many bytes that is.
static SHORT: [u64; 1_000] = short_texts();

const fn short_texts() -> [u64; 1_000] {
    let mut texts = [0; 1_000];
    let mut n = 0;
    while n < 1_000 {
        let digits = [b'0' + (n / 100) as u8, b'0' + (n / 10 % 10) as u8, b'0' + (n % 10) as u8];
        let leading = (n < 100) as usize + (n < 10) as usize;
        let mut text = b' ' as u64;
        let mut at = 3;
        while at > leading {
            at -= 1;
            text = text << 8 | digits[at] as u64;
        }
        texts[n as usize] = text | (4 - leading as u64) << 56;
        n += 1;
    }
    texts
}

/// The eight decimal digits of a number below 100,000,000, the first one in the lowest byte: halved, and the halves
/// halved, each half of one word.
fn eight_digits(n: u32) -> u64 {
    let fours = u64::from(n / 10_000) | u64::from(n % 10_000) << 32;
    let hundreds = (fours * 10_486 >> 20) & 0x0000_007F_0000_007F;
    let twos = hundreds | (fours - 100 * hundreds) << 16;
    let tens = (twos * 103 >> 10) & 0x000F_000F_000F_000F;
    tens | (twos - 10 * tens) << 8
}

/// The eight hexadecimal digits of a number as text, the first one in the lowest byte.
fn eight_hexadecimal(n: u32) -> u64 {
    let n = u64::from(n.swap_bytes());
    let n = (n | n << 16) & 0x0000_FFFF_0000_FFFF;
    let n = (n | n << 8) & 0x00FF_00FF_00FF_00FF;
    let n = (n >> 4 | n << 8) & 0x0F0F_0F0F_0F0F_0F0F;
    let letters = (n + 0x0606_0606_0606_0606 >> 4) & 0x0101_0101_0101_0101;
    n + 0x3030_3030_3030_3030 + letters * u64::from(b'a' - b'0' - 10)
}

/// How many bytes of text a page has, and how many more the line may take that fills it.
const PAGE: usize = 3 << 17;
const LINE: usize = 128;

/// A page of text.
pub struct Page {
    bytes: Vec<u8>,
    filled: usize,
}

impl Page {
    pub fn new() -> Self {
        Page { bytes: vec![0; PAGE + LINE], filled: 0 }
    }

    pub fn is_full(&self) -> bool {
        self.filled >= PAGE
    }

    pub fn text(&self) -> &[u8] {
        &self.bytes[..self.filled]
    }

    pub fn clear(&mut self) {
        self.filled = 0;
    }

    /// Begins a line on a page that isn't full.
    pub fn line(&mut self) -> Line<'_> {
        let bytes = self.bytes[self.filled..].first_chunk_mut().expect("room for a line");
        Line { bytes, at: 0, filled: &mut self.filled }
    }
}

/// A line that is written.
pub struct Line<'a> {
    bytes: &'a mut [u8; LINE],
    at: usize,
    filled: &'a mut usize,
}

impl Line<'_> {
    /// Ends the line, with a newline in place of the last space.
    pub fn end(self) {
        self.bytes[self.at - 1] = b'\n';
        *self.filled += self.at;
    }

    /// Puts the first bytes of eight.
    fn put_some(&mut self, eight: u64, count: usize) {
        self.bytes[self.at..self.at + 8].copy_from_slice(&eight.to_le_bytes());
        self.at += count;
    }

    /// Puts a text as it is.
    pub fn text(&mut self, text: &[u8]) {
        self.bytes[self.at..self.at + text.len()].copy_from_slice(text);
        self.at += text.len();
    }

    /// Puts a number and a space.
    pub fn number(&mut self, n: u32) {
        if n >= 100_000_000 {
            return self.long_number(n);
        }
        let digits = eight_digits(n);
        let leading = (digits.trailing_zeros() / 8).min(7) as usize;
        self.put_some((digits + 0x3030_3030_3030_3030) >> (8 * leading), 8 - leading);
        self.text(b" ");
    }

    /// Puts a number of nine or ten digits, and a space.
    #[cold]
    fn long_number(&mut self, n: u32) {
        self.short(n / 100_000_000);
        self.at -= 1;
        self.put_some(eight_digits(n % 100_000_000) + 0x3030_3030_3030_3030, 8);
        self.text(b" ");
    }

    /// Puts a number that is mostly below 1,000, and a space.
    pub fn short(&mut self, n: u32) {
        match SHORT.get(n as usize) {
            Some(text) => self.put_some(*text, (text >> 56) as usize),
            None => self.number(n),
        }
    }

    /// Puts a number as sixteen hexadecimal digits.
    pub fn hexadecimal(&mut self, n: u64) {
        self.put_some(eight_hexadecimal((n >> 32) as u32), 8);
        self.put_some(eight_hexadecimal(n as u32), 8);
    }

    /// Puts the lowest byte of a number as two hexadecimal digits.
    pub fn hexadecimal_byte(&mut self, n: u32) {
        self.put_some(eight_hexadecimal(n << 24), 2);
    }
}
