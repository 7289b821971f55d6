//! The digest of bytes that the reports print.

use std::fmt;

/// The digest of the bytes added so far.
#[derive(Clone, Copy, Debug, PartialEq, Eq)]
pub struct Digest(u64);

impl Digest {
    /// The digest of no bytes.
    pub fn new() -> Digest {
        Digest(0)
    }

    /// The digest of these bytes.
    pub fn of(bytes: &[u8]) -> Digest {
        let mut digest = Digest::new();
        digest.add(bytes);
        digest
    }

    /// Adds bytes, one after another.
    pub fn add(&mut self, bytes: &[u8]) {
        for &byte in bytes {
            self.0 = (self.0 * 16_777_619 + u64::from(byte) + 1) % 4_294_967_291;
        }
    }
}

impl fmt::Display for Digest {
    /// Writes eight lower-case hexadecimal digits.
    fn fmt(&self, out: &mut fmt::Formatter<'_>) -> fmt::Result {
        write!(out, "{:08x}", self.0)
    }
}

#[cfg(test)]
mod tests {
    use super::*;

    #[test]
    fn digests_reckoned_by_hand() {
        let digest_of = |bytes: &[u8]| Digest::of(bytes).to_string();
        assert_eq!(digest_of(&[]), "00000000");
        assert_eq!(digest_of(&[1, 2]), "02000329");
        // 256 x 16,777,619 + 1 = 4,295,070,465, less 4,294,967,291.
        assert_eq!(digest_of(&[255, 0]), "00019306");
    }
}
