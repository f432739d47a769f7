//! Reading a file record by record: marks, bytes, two-byte values, and the place of each refusal.

use crate::numbers::{File, Refusal, Refused};

/// Where the reading of a book or board stands.
pub struct RecordReader<'a> {
    bytes: &'a [u8],
    file: File,
    /// The next byte to read.
    at: usize,
    /// The first byte of the record being judged.
    record: usize,
}

impl<'a> RecordReader<'a> {
    /// A reader before the file's first record.
    pub fn new(bytes: &'a [u8], file: File) -> RecordReader<'a> {
        RecordReader {
            bytes,
            file,
            at: 0,
            record: 0,
        }
    }

    /// Opens the next record and gives its mark; CUT if the file ends before the mark does.
    pub fn mark(&mut self) -> Result<[u8; 2], Refused> {
        self.record = self.at;
        let first = self.byte()?;
        let second = self.byte()?;
        Ok([first, second])
    }

    /// The next byte, or CUT.
    pub fn byte(&mut self) -> Result<u8, Refused> {
        match self.bytes.get(self.at) {
            Some(byte) => {
                self.at += 1;
                Ok(*byte)
            }
            None => Err(self.refused_at(Refusal::Cut, self.bytes.len())),
        }
    }

    /// The next two-byte value, low byte first, or CUT.
    pub fn value(&mut self) -> Result<u16, Refused> {
        let low = self.byte()?;
        let high = self.byte()?;
        Ok(u16::from_le_bytes([low, high]))
    }

    /// After `en`: TRAIL at the first byte that follows, if one does.
    pub fn finish(&self) -> Result<(), Refused> {
        if self.at < self.bytes.len() {
            return Err(self.refused_at(Refusal::Trail, self.at));
        }
        Ok(())
    }

    /// Refuses the record being judged if the fault is there.
    pub fn refuse_if(&self, fault: bool, refusal: Refusal) -> Result<(), Refused> {
        if fault {
            return Err(self.refuse(refusal));
        }
        Ok(())
    }

    /// A refusal at the record being judged.
    pub fn refuse(&self, refusal: Refusal) -> Refused {
        self.refused_at(refusal, self.record)
    }

    /// A refusal of this file at a place.
    fn refused_at(&self, refusal: Refusal, place: usize) -> Refused {
        Refused {
            refusal,
            file: self.file,
            place,
        }
    }
}
