//! "Fields are packed most significant bit first, without gaps."

pub struct Reader<'a> {
    bytes: &'a [u8],
    at: usize,
}

impl<'a> Reader<'a> {
    pub fn new(bytes: &'a [u8]) -> Self {
        Reader { bytes, at: 0 }
    }

    /// The next field of `width` bits.
    pub fn take(&mut self, width: usize) -> u64 {
        let mut field = 0;
        for place in self.at..self.at + width {
            let bit = self.bytes[place / 8] >> (7 - place % 8) & 1;
            field = field << 1 | u64::from(bit);
        }
        self.at += width;
        field
    }
}

#[derive(Default)]
pub struct Writer {
    bytes: Vec<u8>,
    at: usize,
}

impl Writer {
    /// Adds the low `width` bits of `field`.
    pub fn put(&mut self, field: u64, width: usize) {
        for weight in (0..width).rev() {
            if self.at % 8 == 0 {
                self.bytes.push(0);
            }
            let bit = (field >> weight & 1) as u8;
            self.bytes[self.at / 8] |= bit << (7 - self.at % 8);
            self.at += 1;
        }
    }

    pub fn bytes(self) -> Vec<u8> {
        self.bytes
    }
}
