//! ECDSA signatures, raw and DER, and the hash that goes with a size.

use core::fmt;

use crate::face;
use crate::refusal::Refusal;

/// A raw signature (r, then s, n bytes each) as DER, from the start of `out`; gives how many bytes were written.
///
/// # Errors
///
/// 60 `NO_SIZE` where n is not 28, 32, 48, 64 or 66, 61 `RAW_LENGTH`, 63 `NO_ROOM`, judged in this order
/// ([`crate::numbers`]). All of `out` stays.
///
/// ```
/// let mut raw = [0; 56];
/// (raw[27], raw[55]) = (1, 128);
/// let mut der = [0; fenderrope::DER_MOST];
/// let count = fenderrope::signature_to_der(28, &raw, &mut der)?;
/// assert_eq!(der[..count], [0x30, 0x07, 0x02, 0x01, 0x01, 0x02, 0x02, 0x00, 0x80]);
/// # Ok::<(), fenderrope::Refusal>(())
/// ```
pub fn signature_to_der(n: usize, raw: &[u8], out: &mut [u8]) -> Result<usize, Refusal> {
    Refusal::unless_filled(face::signature_to_der(n, raw, out))
}

/// A DER signature as 2n raw bytes, from the start of `out`; gives how many bytes were written.
///
/// # Errors
///
/// 60 `NO_SIZE` where n is not 28, 32, 48, 64 or 66, 62 `NOT_DER`, 63 `NO_ROOM`, judged in this order
/// ([`crate::numbers`]). All of `out` stays.
///
/// ```
/// let der = [0x30, 0x07, 0x02, 0x01, 0x01, 0x02, 0x02, 0x00, 0x80];
/// let mut raw = [0xEE; fenderrope::SIGNATURE_MOST];
/// assert_eq!(fenderrope::signature_to_raw(28, &der, &mut raw), Ok(56));
/// assert_eq!((raw[27], raw[55]), (1, 128));
/// assert_eq!(raw[56], 0xEE, "memory past what is written stays");
/// ```
pub fn signature_to_raw(n: usize, der: &[u8], out: &mut [u8]) -> Result<usize, Refusal> {
    Refusal::unless_filled(face::signature_to_raw(n, der, out))
}

/// The hash that a signature is made over.
#[derive(Debug, Clone, Copy, PartialEq, Eq, PartialOrd, Ord, Hash)]
pub enum Hash {
    /// SHA-224.
    Sha224,
    /// SHA-256.
    Sha256,
    /// SHA-384.
    Sha384,
    /// SHA-512.
    Sha512,
}

impl Hash {
    /// The length of the digest in bits.
    #[must_use]
    pub fn bits(self) -> usize {
        match self {
            Hash::Sha224 => 224,
            Hash::Sha256 => 256,
            Hash::Sha384 => 384,
            Hash::Sha512 => 512,
        }
    }

    /// The hash of so many bits. The library is proved to name no other.
    fn of_bits(bits: usize) -> Hash {
        match bits {
            224 => Hash::Sha224,
            256 => Hash::Sha256,
            384 => Hash::Sha384,
            512 => Hash::Sha512,
            _ => unreachable!("a hash of {bits} bits"),
        }
    }
}

/// `SHA-256` and the like.
impl fmt::Display for Hash {
    fn fmt(&self, f: &mut fmt::Formatter<'_>) -> fmt::Result {
        write!(f, "SHA-{}", self.bits())
    }
}

/// The hash that goes with signatures of size n.
///
/// # Errors
///
/// 60 `NO_SIZE` where n is not 28, 32, 48, 64 or 66 ([`crate::numbers`]).
///
/// ```
/// use fenderrope::Hash;
/// assert_eq!(fenderrope::hash(66), Ok(Hash::Sha512));
/// assert_eq!(fenderrope::hash(65).unwrap_err().number, 60);
/// ```
pub fn hash(n: usize) -> Result<Hash, Refusal> {
    let answer = face::hash(n);
    Refusal::unless(answer.number, answer.place, answer.bits).map(Hash::of_bits)
}
