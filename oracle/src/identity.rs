// Stand-ins for uuid::Uuid and pricelevel::Id.

use crate::sha1::sha1;
use std::fmt;

#[derive(Debug, Clone, Copy, PartialEq, Eq, Hash)]
pub struct Uuid([u8; 16]);

impl Uuid {
    pub const fn from_bytes(bytes: [u8; 16]) -> Self {
        Self(bytes)
    }

    pub const fn into_bytes(self) -> [u8; 16] {
        self.0
    }

    /// RFC 9562, version 5: the first 16 bytes of SHA-1 of namespace and name, with version and variant set.
    pub fn new_v5(namespace: &Uuid, name: &[u8]) -> Self {
        let digest = sha1(&[&namespace.0[..], name].concat());
        let mut bytes = [0; 16];
        bytes.copy_from_slice(&digest[..16]);
        bytes[6] = bytes[6] & 0x0f | 0x50;
        bytes[8] = bytes[8] & 0x3f | 0x80;
        Self(bytes)
    }
}

/// The published crate keeps a number in the third kind, and its `as_bytes` is not among the published files. Document 01 has the
/// caller give the sixteen bytes, so every kind holds sixteen here.
#[derive(Debug, Clone, Copy, PartialEq, Eq, Hash)]
pub enum Id {
    Uuid(Uuid),
    Ulid([u8; 16]),
    Sequential([u8; 16]),
}

impl Id {
    pub fn from_uuid(uuid: Uuid) -> Self {
        Self::Uuid(uuid)
    }

    pub fn as_bytes(&self) -> [u8; 16] {
        match self {
            Self::Uuid(uuid) => uuid.into_bytes(),
            Self::Ulid(bytes) | Self::Sequential(bytes) => *bytes,
        }
    }

    /// Kind 0 UUID, 1 ULID, 2 sequential, and two words, high first, big-endian.
    pub fn from_words(kind: u64, high: u64, low: u64) -> Self {
        let bytes = bytes_of(high, low);
        match kind {
            0 => Self::Uuid(Uuid(bytes)),
            1 => Self::Ulid(bytes),
            _ => Self::Sequential(bytes),
        }
    }

    pub fn words(&self) -> [u64; 3] {
        let kind = match self {
            Self::Uuid(_) => 0,
            Self::Ulid(_) => 1,
            Self::Sequential(_) => 2,
        };
        let [high, low] = words_of(self.as_bytes());
        [kind, high, low]
    }
}

impl fmt::Display for Id {
    fn fmt(&self, f: &mut fmt::Formatter<'_>) -> fmt::Result {
        let [kind, high, low] = self.words();
        write!(f, "{kind} {high} {low}")
    }
}

pub fn bytes_of(high: u64, low: u64) -> [u8; 16] {
    (u128::from(high) << 64 | u128::from(low)).to_be_bytes()
}

pub fn words_of(bytes: [u8; 16]) -> [u64; 2] {
    let word = u128::from_be_bytes(bytes);
    [(word >> 64) as u64, word as u64]
}
