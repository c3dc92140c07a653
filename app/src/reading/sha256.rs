//! SHA-256 (FIPS 180-4), so that a recording on a page can be told from any other with everybody's tools.
use std::io::{self, Read};

/// The fractional parts of the cube roots of the first 64 primes.
#[rustfmt::skip]
const ROUNDS: [u32; 64] = [
    0x428a2f98, 0x71374491, 0xb5c0fbcf, 0xe9b5dba5, 0x3956c25b, 0x59f111f1, 0x923f82a4, 0xab1c5ed5,
    0xd807aa98, 0x12835b01, 0x243185be, 0x550c7dc3, 0x72be5d74, 0x80deb1fe, 0x9bdc06a7, 0xc19bf174,
    0xe49b69c1, 0xefbe4786, 0x0fc19dc6, 0x240ca1cc, 0x2de92c6f, 0x4a7484aa, 0x5cb0a9dc, 0x76f988da,
    0x983e5152, 0xa831c66d, 0xb00327c8, 0xbf597fc7, 0xc6e00bf3, 0xd5a79147, 0x06ca6351, 0x14292967,
    0x27b70a85, 0x2e1b2138, 0x4d2c6dfc, 0x53380d13, 0x650a7354, 0x766a0abb, 0x81c2c92e, 0x92722c85,
    0xa2bfe8a1, 0xa81a664b, 0xc24b8b70, 0xc76c51a3, 0xd192e819, 0xd6990624, 0xf40e3585, 0x106aa070,
    0x19a4c116, 0x1e376c08, 0x2748774c, 0x34b0bcb5, 0x391c0cb3, 0x4ed8aa4a, 0x5b9cca4f, 0x682e6ff3,
    0x748f82ee, 0x78a5636f, 0x84c87814, 0x8cc70208, 0x90befffa, 0xa4506ceb, 0xbef9a3f7, 0xc67178f2,
];

/// The fractional parts of the square roots of the first 8 primes.
const START: [u32; 8] =
    [0x6a09e667, 0xbb67ae85, 0x3c6ef372, 0xa54ff53a, 0x510e527f, 0x9b05688c, 0x1f83d9ab, 0x5be0cd19];

/// The digest of what has been taken so far.
pub struct Digest {
    state: [u32; 8],
    /// What does not make up a block yet.
    rest: Vec<u8>,
    length: u64,
}

impl Digest {
    pub fn new() -> Digest {
        Digest { state: START, rest: Vec::new(), length: 0 }
    }

    pub fn take(&mut self, bytes: &[u8]) {
        self.length += bytes.len() as u64;
        let mut bytes = bytes;
        if !self.rest.is_empty() {
            let more = bytes.len().min(64 - self.rest.len());
            self.rest.extend(&bytes[..more]);
            bytes = &bytes[more..];
            if self.rest.len() < 64 {
                return;
            }
            let rest = std::mem::take(&mut self.rest);
            rest.as_chunks().0.iter().for_each(|block| self.block(block));
        }
        let (blocks, rest) = bytes.as_chunks();
        blocks.iter().for_each(|block| self.block(block));
        self.rest.extend(rest);
    }

    /// How many bytes were taken, and their digest in hexadecimal.
    pub fn end(mut self) -> (u64, String) {
        let (length, bits) = (self.length, self.length * 8);
        let mut last = std::mem::take(&mut self.rest);
        last.push(0x80);
        while last.len() % 64 != 56 {
            last.push(0);
        }
        last.extend(bits.to_be_bytes());
        last.as_chunks().0.iter().for_each(|block| self.block(block));
        (length, self.state.map(|word| format!("{word:08x}")).concat())
    }

    fn block(&mut self, block: &[u8; 64]) {
        let mut words = [0u32; 64];
        for (word, bytes) in words.iter_mut().zip(block.as_chunks().0) {
            *word = u32::from_be_bytes(*bytes);
        }
        for i in 16..64 {
            let (x, y) = (words[i - 15], words[i - 2]);
            let x = x.rotate_right(7) ^ x.rotate_right(18) ^ (x >> 3);
            let y = y.rotate_right(17) ^ y.rotate_right(19) ^ (y >> 10);
            words[i] = words[i - 16].wrapping_add(x).wrapping_add(words[i - 7]).wrapping_add(y);
        }
        let [mut a, mut b, mut c, mut d, mut e, mut f, mut g, mut h] = self.state;
        for (word, round) in words.iter().zip(ROUNDS) {
            let big = e.rotate_right(6) ^ e.rotate_right(11) ^ e.rotate_right(25);
            let choice = (e & f) ^ (!e & g);
            let one = h.wrapping_add(big).wrapping_add(choice).wrapping_add(round).wrapping_add(*word);
            let small = a.rotate_right(2) ^ a.rotate_right(13) ^ a.rotate_right(22);
            let majority = (a & b) ^ (a & c) ^ (b & c);
            (h, g, f, e, d, c, b, a) =
                (g, f, e, d.wrapping_add(one), c, b, a, one.wrapping_add(small).wrapping_add(majority));
        }
        for (word, more) in self.state.iter_mut().zip([a, b, c, d, e, f, g, h]) {
            *word = word.wrapping_add(more);
        }
    }
}

/// A reader that takes the digest of what goes through it, where there is one to take.
pub struct Digesting<'a, R> {
    pub inner: R,
    pub digest: Option<&'a mut Digest>,
}

impl<R: Read> Read for Digesting<'_, R> {
    fn read(&mut self, room: &mut [u8]) -> io::Result<usize> {
        let count = self.inner.read(room)?;
        if let Some(digest) = &mut self.digest {
            digest.take(&room[..count]);
        }
        Ok(count)
    }
}

#[cfg(test)]
mod tests {
    use super::Digest;

    /// The examples of FIPS 180-4's companion, and a length around each border of a block taken in two pieces.
    #[test]
    fn known_digests() {
        let of = |bytes: &[u8]| {
            let mut digest = Digest::new();
            digest.take(bytes);
            digest.end().1
        };
        assert_eq!(of(b""), "e3b0c44298fc1c149afbf4c8996fb92427ae41e4649b934ca495991b7852b855");
        assert_eq!(of(b"abc"), "ba7816bf8f01cfea414140de5dae2223b00361a396177a9cb410ff61f20015ad");
        let two = b"abcdbcdecdefdefgefghfghighijhijkijkljklmklmnlmnomnopnopq";
        assert_eq!(of(two), "248d6a61d20638b8e5c026930c3e6039a33ce45964ff2167f6ecedd419db06c1");
        assert_eq!(of(&vec![b'a'; 1_000_000]), "cdc76e5c9914fb9281a1c7e284d73e67f1809a48a497200e046d39ccc7112cd0");
        let bytes: Vec<u8> = (0..200).collect();
        for length in [55, 56, 63, 64, 65, 119, 120, 128, 200] {
            for cut in [0, 1, 63, 64, 65].into_iter().filter(|cut| *cut <= length) {
                let mut digest = Digest::new();
                digest.take(&bytes[..cut]);
                digest.take(&bytes[cut..length]);
                assert_eq!(digest.end(), (length as u64, of(&bytes[..length])), "{cut} of {length}");
            }
        }
    }
}
