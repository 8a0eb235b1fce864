//! All short bodies over an alphabet, shortest first; a rank names a body without those before it.

/// Divides no alphabet's size, so that a product with it meets every number below a power of that size.
const PRIME: u128 = 2_654_435_761;

#[derive(Clone, Copy)]
pub struct Family {
    pub name: &'static str,
    pub alphabet: &'static [u8],
    /// Put between a true header and a terminator; else the body is the slice.
    pub framed: bool,
}

const ALL: [u8; 256] = {
    let mut all = [0; 256];
    let mut byte = 0;
    while byte < 256 {
        all[byte] = byte as u8;
        byte += 1;
    }
    all
};

pub const WIDE: Family = Family {
    name: "bodies of any bytes",
    alphabet: &ALL,
    framed: true,
};
pub const TELLING: Family = Family {
    name: "bodies of telling bytes",
    alphabet: &[
        0x00, 0x01, 0x02, 0x03, 0x04, 0x05, 0x06, 0x08, 0x0A, 0x0B, 0x0D, 0x0E, 0x0F, 0x10, 0x30,
        0x61, 0x7F, 0x80, 0xC3, 0xFF,
    ],
    framed: true,
};
pub const NARROW: Family = Family {
    name: "bodies of lengths and tags",
    alphabet: &[0x00, 0x01, 0x02, 0x03, 0x05],
    framed: true,
};
pub const RAW: Family = Family {
    name: "slices with any header",
    alphabet: &[0x00, 0x01, 0x05, 0x06, 0x07, 0xFF],
    framed: false,
};

impl Family {
    /// The length of the body of this rank, its rank among those of that length, and how many these are.
    fn place(&self, mut rank: u64) -> (usize, u64, u64) {
        let mut length = 0;
        let mut bodies = 1;
        while rank >= bodies {
            rank -= bodies;
            length += 1;
            bodies *= self.alphabet.len() as u64;
        }
        (length, rank, bodies)
    }

    pub fn slice(&self, rank: u64) -> Vec<u8> {
        let (length, rank, bodies) = self.place(rank);
        let mut left = (u128::from(rank) * PRIME % u128::from(bodies)) as usize;
        let size = self.alphabet.len();
        let body = (0..length).map(|_| {
            let letter = self.alphabet[left % size];
            left /= size;
            letter
        });
        if !self.framed {
            return body.collect();
        }
        let header = (length as i32 + 5).to_le_bytes();
        header.into_iter().chain(body).chain([0]).collect()
    }

    /// Which lengths the first `count` bodies are all of.
    pub fn covered(&self, count: u64) -> String {
        let (length, rest, bodies) = self.place(count);
        let whole = match length {
            0 => "none in full".into(),
            _ => format!("lengths 0 to {} in full", length - 1),
        };
        let size = self.alphabet.len();
        format!("{whole} and {rest} of the {bodies} of length {length}, of {size} bytes")
    }
}
