//! The bytes of a record, little-endian. What goes over its words writes them, or reads them into their places, so that
//! their order is said once for both.

pub enum Bytes<'a> {
    Written(Vec<u8>),
    /// What is still to be read.
    Read(&'a [u8]),
}

impl Bytes<'_> {
    /// The word that is written, or the one that is read.
    fn word<const SIZE: usize>(&mut self, word: [u8; SIZE]) -> [u8; SIZE] {
        match self {
            Self::Written(bytes) => {
                bytes.extend(word);
                word
            }
            Self::Read(bytes) => {
                let (first, rest) = bytes.split_first_chunk().expect("a whole record");
                *bytes = rest;
                *first
            }
        }
    }

    pub fn wholes<'b>(&mut self, numbers: impl IntoIterator<Item = &'b mut u32>) {
        for number in numbers {
            *number = u32::from_le_bytes(self.word(number.to_le_bytes()));
        }
    }

    /// A number of 8 bytes, of which a record has 4.
    pub fn wide(&mut self, number: &mut u64) {
        let mut narrow = u32::try_from(*number).expect("a small number");
        self.wholes([&mut narrow]);
        *number = u64::from(narrow);
    }

    pub fn flag(&mut self, flag: &mut bool) {
        *flag = self.word([u8::from(*flag)]) != [0];
    }

    /// Lengths, of a byte each.
    pub fn lengths(&mut self, lengths: &mut [usize]) {
        for length in lengths {
            let [byte] = self.word([u8::try_from(*length).expect("a short buffer")]);
            *length = usize::from(byte);
        }
    }

    pub fn nodes(&mut self, list: &mut [u32]) {
        for node in list {
            let word = u16::try_from(*node).expect("a node of 2 bytes").to_le_bytes();
            *node = u32::from(u16::from_le_bytes(self.word(word)));
        }
    }

    /// Floats, with one pattern for every NaN: which of them a computation gives is not fixed.
    pub fn floats<'b>(&mut self, list: impl IntoIterator<Item = &'b mut f64>) {
        for number in list {
            let one = if number.is_nan() { f64::NAN } else { *number };
            *number = f64::from_le_bytes(self.word(one.to_le_bytes()));
        }
    }

    /// Zeros that stand for nothing.
    pub fn pad<const SIZE: usize>(&mut self) {
        self.word([0; SIZE]);
    }
}
