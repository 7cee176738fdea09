//! Records: a two-byte body length, a two-byte kind, then the body. The reader
//! serves sheets and plans alike and knows no rule of either.

pub struct Record<'a> {
    pub kind: u16,
    pub body: &'a [u8],
}

/// Reads a lent file record by record.
pub struct Records<'a> {
    file: &'a [u8],
    position: usize,
}

impl<'a> Records<'a> {
    pub fn new(file: &'a [u8]) -> Self {
        Records { file, position: 0 }
    }

    /// Reads on from a place where a record begins.
    pub fn at(file: &'a [u8], position: usize) -> Self {
        Records { file, position }
    }

    /// Where the next record begins or would begin.
    pub fn position(&self) -> usize {
        self.position
    }

    pub fn at_end(&self) -> bool {
        self.position == self.file.len()
    }

    /// The next record, or none where the file stops before its end.
    #[inline]
    pub fn take(&mut self) -> Option<Record<'a>> {
        let (head, rest) = self.file[self.position..].split_first_chunk::<4>()?;
        let [low, high, kind_low, kind_high] = *head;
        let length = u16::from_le_bytes([low, high]) as usize;
        let body = rest.get(..length)?;
        self.position += 4 + length;
        let kind = u16::from_le_bytes([kind_low, kind_high]);
        Some(Record { kind, body })
    }

    /// The body of the next record if it has this kind and length.
    pub fn expect(&mut self, kind: u16, length: usize) -> Option<&'a [u8]> {
        let record = self.take()?;
        (record.kind == kind && record.body.len() == length).then_some(record.body)
    }
}

/// Writes records front to back into a buffer that is long enough.
pub struct Writer<'a> {
    rest: &'a mut [u8],
}

impl<'a> Writer<'a> {
    pub fn new(buffer: &'a mut [u8]) -> Self {
        Writer { rest: buffer }
    }

    /// Writes the head of a record and hands back its body to be filled.
    pub fn record(&mut self, kind: u16, length: usize) -> &'a mut [u8] {
        let rest = std::mem::take(&mut self.rest);
        let (head, rest) = rest.split_at_mut(4);
        let (body, rest) = rest.split_at_mut(length);
        head[..2].copy_from_slice(&(length as u16).to_le_bytes());
        head[2..].copy_from_slice(&kind.to_le_bytes());
        self.rest = rest;
        body
    }
}
