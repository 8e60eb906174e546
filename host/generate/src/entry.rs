//! Log entries as values, their bytes, and the images that changes carry.

use oracle::crc32c;

pub const BEGIN: u8 = 1;
pub const COMMIT: u8 = 2;
pub const ROLLBACK: u8 = 3;
pub const INSERT: u8 = 4;
pub const DELETE: u8 = 5;
pub const CHECKPOINT: u8 = 7;
pub const UPDATE: u8 = 10;

/// The bytes of a log before its first entry.
pub const LOG_HEADER_BYTES: usize = 32;

#[derive(Clone, Debug, PartialEq, Eq)]
pub struct Entry {
    pub lsn: u64,
    pub transaction: u64,
    pub kind: u8,
    pub table: u32,
    pub key: Vec<u8>,
    pub old: Vec<u8>,
    pub new: Vec<u8>,
}

impl Entry {
    /// An entry without key and values.
    pub fn bare(transaction: u64, kind: u8) -> Entry {
        Entry {
            lsn: 0,
            transaction,
            kind,
            table: 0,
            key: Vec::new(),
            old: Vec::new(),
            new: Vec::new(),
        }
    }

    pub fn insert(transaction: u64, page: u64, slot: u16, new: &[u8]) -> Entry {
        Entry {
            key: key(page, slot),
            new: new.to_vec(),
            ..Entry::bare(transaction, INSERT)
        }
    }

    pub fn delete(transaction: u64, page: u64, slot: u16, old: &[u8]) -> Entry {
        Entry {
            key: key(page, slot),
            old: old.to_vec(),
            ..Entry::bare(transaction, DELETE)
        }
    }

    /// UpdateInPlace: both values begin with the key again.
    pub fn update(transaction: u64, page: u64, slot: u16, old: &[u8], new: &[u8]) -> Entry {
        let key = key(page, slot);
        Entry {
            old: [&key, old].concat(),
            new: [&key, new].concat(),
            key,
            ..Entry::bare(transaction, UPDATE)
        }
    }

    pub fn with_lsn(self, lsn: u64) -> Entry {
        Entry { lsn, ..self }
    }

    pub fn is_change(&self) -> bool {
        matches!(self.kind, INSERT | DELETE | UPDATE)
    }

    /// Page and slot of a change.
    pub fn target(&self) -> (u64, u16) {
        let page = u64::from_le_bytes(self.key[..8].try_into().expect("page number"));
        let slot = u16::from_le_bytes(self.key[8..10].try_into().expect("slot number"));
        (page, slot)
    }

    /// What a change finds in its slot.
    pub fn before_image(&self) -> Option<Vec<u8>> {
        match self.kind {
            INSERT => None,
            DELETE => Some(self.old.clone()),
            _ => Some(self.old[10..].to_vec()),
        }
    }

    /// What a change leaves in its slot.
    pub fn after_image(&self) -> Vec<u8> {
        match self.kind {
            INSERT => self.new.clone(),
            DELETE => {
                let mut image = self.old.clone();
                image[8..16].copy_from_slice(&self.transaction.to_le_bytes());
                image[16] = 1;
                image
            }
            _ => self.new[10..].to_vec(),
        }
    }

    /// The entry's bytes, with lengths at both ends and a right checksum.
    pub fn encode(&self) -> Vec<u8> {
        let length = 43 + self.key.len() + self.old.len() + self.new.len();
        let length = (length as u32).to_le_bytes();
        let mut bytes = Vec::new();
        bytes.extend(length);
        bytes.extend(self.lsn.to_le_bytes());
        bytes.extend(self.transaction.to_le_bytes());
        bytes.push(self.kind);
        bytes.extend(self.table.to_le_bytes());
        bytes.extend((self.key.len() as u16).to_le_bytes());
        bytes.extend(&self.key);
        bytes.extend((self.old.len() as u32).to_le_bytes());
        bytes.extend(&self.old);
        bytes.extend((self.new.len() as u32).to_le_bytes());
        bytes.extend(&self.new);
        bytes.extend(crc32c(&bytes).to_le_bytes());
        bytes.extend(length);
        bytes
    }

    /// The entry that bytes written by `encode` hold.
    pub fn decode(bytes: &[u8]) -> Entry {
        let mut rest = bytes;
        let mut take = |length: usize| {
            let (taken, left) = rest.split_at(length);
            rest = left;
            taken.to_vec()
        };
        take(4);
        let lsn = number(&take(8));
        let transaction = number(&take(8));
        let kind = take(1)[0];
        let table = number(&take(4)) as u32;
        let key_length = number(&take(2)) as usize;
        let key = take(key_length);
        let old_length = number(&take(4)) as usize;
        let old = take(old_length);
        let new_length = number(&take(4)) as usize;
        let new = take(new_length);
        Entry {
            lsn,
            transaction,
            kind,
            table,
            key,
            old,
            new,
        }
    }
}

/// A little-endian number of up to eight bytes.
fn number(bytes: &[u8]) -> u64 {
    bytes
        .iter()
        .rev()
        .fold(0, |number, &byte| number << 8 | u64::from(byte))
}

/// The key of a change: page number, then slot number.
pub fn key(page: u64, slot: u16) -> Vec<u8> {
    let mut key = page.to_le_bytes().to_vec();
    key.extend(slot.to_le_bytes());
    key
}

/// Sets the checksum of an entry's bytes anew.
pub fn seal_entry(bytes: &mut [u8]) {
    let end = bytes.len() - 8;
    let crc = crc32c(&bytes[..end]);
    bytes[end..end + 4].copy_from_slice(&crc.to_le_bytes());
}

/// Whether an entry's bytes have their length at both ends and a right checksum.
pub fn is_sealed(bytes: &[u8]) -> bool {
    let length = (bytes.len() as u32).to_le_bytes();
    let end = bytes.len() - 8;
    bytes[..4] == length
        && bytes[end + 4..] == length
        && bytes[end..end + 4] == crc32c(&bytes[..end]).to_le_bytes()
}

/// A log header: magic, version 1, and the given bytes that no one reads.
pub fn log_header(ignored: &[u8; 26]) -> Vec<u8> {
    let mut header = b"WALN".to_vec();
    header.extend(1u16.to_le_bytes());
    header.extend(ignored);
    header
}
