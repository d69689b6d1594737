//! The fields that an office gives for an export as NEM12.

use crate::book::written;
use crate::{Error, Refusal, calls};

/// What a file leaves to the office that exports it.
#[derive(Clone, Debug, Default, PartialEq, Eq)]
pub struct Fields {
    /// The meter identifier, ten characters.
    pub identifier: Vec<u8>,
    /// Record 100: the participant that the file comes from.
    pub from: Vec<u8>,
    /// Record 100: the participant that it goes to.
    pub to: Vec<u8>,
    /// Record 200: the meter's configuration.
    pub configuration: Vec<u8>,
    /// Record 200: the register's identifier.
    pub register: Vec<u8>,
    /// Record 200: the suffix of the meter identifier.
    pub suffix: Vec<u8>,
    /// Record 200: the data stream's identifier.
    pub stream: Vec<u8>,
    /// Record 200: the meter's serial number.
    pub serial: Vec<u8>,
    /// Record 200: the date of the next read.
    pub next_read: Vec<u8>,
    /// The reason code of substituted and agreed slots.
    pub reason: Vec<u8>,
    /// The creation time, 14 digits.
    pub created: Vec<u8>,
    /// The code of method 2, up to 99.
    pub method_2: u32,
    /// The code of method 3, up to 99.
    pub method_3: u32,
    /// The code of method 5, up to 99.
    pub method_5: u32,
    /// The code of method 18, up to 99.
    pub method_18: u32,
    /// The code of method 19, up to 99.
    pub method_19: u32,
}

/// A buffer of zeros, where there is memory for it.
fn buffer(length: usize) -> Result<Vec<u8>, Error> {
    let mut out = Vec::new();
    out.try_reserve_exact(length).map_err(|_| Error::Memory)?;
    out.resize(length, 0);
    Ok(out)
}

impl Fields {
    /// Bytes that hold most exports: the values, a record 300 a day and the two records in front.
    fn likely(&self, slots: usize, days: usize) -> usize {
        let texts =
            self.from.len() + self.to.len() + self.configuration.len() + self.register.len();
        let more = self.suffix.len() + self.stream.len() + self.serial.len() + self.next_read.len();
        16 * slots + days * (64 + self.reason.len()) + texts + more + 256
    }

    fn put(&self, file: &[u8], out: &mut [u8]) -> u64 {
        calls::nem12(
            file,
            &self.identifier,
            &self.from,
            &self.to,
            &self.configuration,
            &self.register,
            &self.suffix,
            &self.stream,
            &self.serial,
            &self.next_read,
            &self.reason,
            &self.created,
            self.method_2,
            self.method_3,
            self.method_5,
            self.method_18,
            self.method_19,
            out,
        )
    }

    /// The export of a file; the buffer is doubled while it is too short.
    pub(crate) fn export(&self, file: &[u8], slots: usize, days: usize) -> Result<Vec<u8>, Error> {
        let mut length = self.likely(slots, days);
        loop {
            let mut out = buffer(length)?;
            let answer = self.put(file, &mut out);
            if answer != u64::from(Refusal::Buffer.number()) {
                return written(answer, out);
            }
            length = length.checked_mul(2).ok_or(Error::Memory)?;
        }
    }
}
