//! SHA-256 of a stream (FIPS 180-4).
use std::io::{self, Read, Write};

const BLOCK: usize = 64;

/// The first 32 bits of the fractional parts of the cube roots of the first 64 primes (4.2.2).
const ROUNDS: [u32; 64] = [
    0x428a2f98, 0x71374491, 0xb5c0fbcf, 0xe9b5dba5, 0x3956c25b, 0x59f111f1, 0x923f82a4, 0xab1c5ed5, 0xd807aa98,
    0x12835b01, 0x243185be, 0x550c7dc3, 0x72be5d74, 0x80deb1fe, 0x9bdc06a7, 0xc19bf174, 0xe49b69c1, 0xefbe4786,
    0x0fc19dc6, 0x240ca1cc, 0x2de92c6f, 0x4a7484aa, 0x5cb0a9dc, 0x76f988da, 0x983e5152, 0xa831c66d, 0xb00327c8,
    0xbf597fc7, 0xc6e00bf3, 0xd5a79147, 0x06ca6351, 0x14292967, 0x27b70a85, 0x2e1b2138, 0x4d2c6dfc, 0x53380d13,
    0x650a7354, 0x766a0abb, 0x81c2c92e, 0x92722c85, 0xa2bfe8a1, 0xa81a664b, 0xc24b8b70, 0xc76c51a3, 0xd192e819,
    0xd6990624, 0xf40e3585, 0x106aa070, 0x19a4c116, 0x1e376c08, 0x2748774c, 0x34b0bcb5, 0x391c0cb3, 0x4ed8aa4a,
    0x5b9cca4f, 0x682e6ff3, 0x748f82ee, 0x78a5636f, 0x84c87814, 0x8cc70208, 0x90befffa, 0xa4506ceb, 0xbef9a3f7,
    0xc67178f2,
];

/// Likewise of the square roots of the first eight primes (5.3.3).
const START: [u32; 8] =
    [0x6a09e667, 0xbb67ae85, 0x3c6ef372, 0xa54ff53a, 0x510e527f, 0x9b05688c, 0x1f83d9ab, 0x5be0cd19];

/// A sum, displayed in lower hexadecimal digits.
#[derive(Clone, Copy, PartialEq, Eq, Debug)]
pub struct Sum(pub [u8; 32]);

/// The sum of what is written to it.
#[derive(Clone)]
pub struct Sha256 {
    state: [u32; 8],
    /// The begin of a block, as long as `length` leaves over.
    held: [u8; BLOCK],
    length: u64,
}

impl Sha256 {
    pub fn new() -> Self {
        Self { state: START, held: [0; BLOCK], length: 0 }
    }

    pub fn update(&mut self, mut bytes: &[u8]) {
        let held = self.held_count();
        self.length += bytes.len() as u64;
        if held > 0 {
            let (first, rest) = bytes.split_at(bytes.len().min(BLOCK - held));
            self.held[held..held + first.len()].copy_from_slice(first);
            if held + first.len() < BLOCK {
                return;
            }
            compress(&mut self.state, &self.held);
            bytes = rest;
        }
        let (blocks, rest) = bytes.as_chunks::<BLOCK>();
        for block in blocks {
            compress(&mut self.state, block);
        }
        self.held[..rest.len()].copy_from_slice(rest);
    }

    fn held_count(&self) -> usize {
        (self.length % BLOCK as u64) as usize
    }

    /// The sum: a bit 1, zeros, and the length in bits end the last block (5.1.1).
    pub fn ended(mut self) -> Sum {
        let bits = self.length.wrapping_mul(8);
        let zeros = (2 * BLOCK - 9 - self.held_count()) % BLOCK;
        let mut padding = [0; BLOCK + 8];
        padding[0] = 0x80;
        padding[1 + zeros..9 + zeros].copy_from_slice(&bits.to_be_bytes());
        self.update(&padding[..9 + zeros]);
        let mut sum = [0; 32];
        for (to, word) in sum.as_chunks_mut::<4>().0.iter_mut().zip(self.state) {
            *to = word.to_be_bytes();
        }
        Sum(sum)
    }
}

impl Default for Sha256 {
    fn default() -> Self {
        Self::new()
    }
}

impl Write for Sha256 {
    fn write(&mut self, bytes: &[u8]) -> io::Result<usize> {
        self.update(bytes);
        Ok(bytes.len())
    }

    fn flush(&mut self) -> io::Result<()> {
        Ok(())
    }
}

/// The sum of all that a reader gives, and its length.
pub fn sum_of(reader: &mut impl Read) -> io::Result<(Sum, u64)> {
    let mut sha = Sha256::new();
    let length = io::copy(&mut io::BufReader::with_capacity(1 << 16, reader), &mut sha)?;
    Ok((sha.ended(), length))
}

/// One block into the state (6.2.2).
fn compress(state: &mut [u32; 8], block: &[u8; BLOCK]) {
    let mut words = [0; 64];
    for (word, bytes) in words.iter_mut().zip(block.as_chunks::<4>().0) {
        *word = u32::from_be_bytes(*bytes);
    }
    for t in 16..64 {
        let (back2, back15): (u32, u32) = (words[t - 2], words[t - 15]);
        let low = back15.rotate_right(7) ^ back15.rotate_right(18) ^ (back15 >> 3);
        let high = back2.rotate_right(17) ^ back2.rotate_right(19) ^ (back2 >> 10);
        words[t] = high.wrapping_add(words[t - 7]).wrapping_add(low).wrapping_add(words[t - 16]);
    }
    let mut now = *state;
    for (words, rounds) in words.as_chunks::<8>().0.iter().zip(ROUNDS.as_chunks::<8>().0) {
        for i in 0..8 {
            round(&mut now, i, words[i].wrapping_add(rounds[i]));
        }
    }
    for (old, new) in state.iter_mut().zip(now) {
        *old = old.wrapping_add(new);
    }
}

/// The `i`-th round of eight. Instead of moving a to h on by one, each round names them one further to the left.
#[inline(always)]
fn round(now: &mut [u32; 8], i: usize, word: u32) {
    let at = |letter: usize| (letter + 8 - i) % 8;
    let (a, b, c) = (now[at(0)], now[at(1)], now[at(2)]);
    let (e, f, g) = (now[at(4)], now[at(5)], now[at(6)]);
    let high = e.rotate_right(6) ^ e.rotate_right(11) ^ e.rotate_right(25);
    let choice = g ^ (e & (f ^ g));
    let first = now[at(7)].wrapping_add(high).wrapping_add(choice).wrapping_add(word);
    let low = a.rotate_right(2) ^ a.rotate_right(13) ^ a.rotate_right(22);
    let majority = (a & b) | (c & (a | b));
    now[at(3)] = now[at(3)].wrapping_add(first);
    now[at(7)] = first.wrapping_add(low).wrapping_add(majority);
}

#[cfg(test)]
mod tests {
    use super::*;
    use std::process::{Command, Stdio};

    fn sum(bytes: &[u8]) -> String {
        sum_of(&mut { bytes }).unwrap().0.to_string()
    }

    #[test]
    fn standard_vectors() {
        let million = vec![b'a'; 1_000_000];
        for (bytes, expected) in [
            (&b""[..], "e3b0c44298fc1c149afbf4c8996fb92427ae41e4649b934ca495991b7852b855"),
            (b"abc", "ba7816bf8f01cfea414140de5dae2223b00361a396177a9cb410ff61f20015ad"),
            (
                b"abcdbcdecdefdefgefghfghighijhijkijkljklmklmnlmnomnopnopq",
                "248d6a61d20638b8e5c026930c3e6039a33ce45964ff2167f6ecedd419db06c1",
            ),
            (
                b"abcdefghbcdefghicdefghijdefghijkefghijklfghijklmghijklmnhijklmnoijklmnopjklmnopqklmnopqrlmnopqrsmnopqrst\
                  nopqrstu",
                "cf5b16a778af8380036ce59e7b0492370b249b11e8f07a51afac45037afee9d1",
            ),
            (&million, "cdc76e5c9914fb9281a1c7e284d73e67f1809a48a497200e046d39ccc7112cd0"),
        ] {
            assert_eq!(sum(bytes), expected);
        }
    }

    #[test]
    fn in_pieces_as_whole() {
        let bytes: Vec<u8> = (0..400u32).map(|i| ((i * i) >> 3) as u8).collect();
        for length in 0..200 {
            for cut in [1, 3, 55, 63, 64, 65, 128] {
                let mut sha = Sha256::new();
                bytes[..length].chunks(cut).for_each(|piece| sha.update(piece));
                assert_eq!(sha.ended().to_string(), sum(&bytes[..length]), "{length} bytes by {cut}");
            }
        }
    }

    #[test]
    fn beside_coreutils() {
        let bytes: Vec<u8> = (0..5_000u32).map(|i| (i.wrapping_mul(2_654_435_761) >> 13) as u8).collect();
        for length in [1, 55, 56, 57, 63, 64, 65, 119, 120, 4_999] {
            let asked = Command::new("sha256sum").stdin(Stdio::piped()).stdout(Stdio::piped()).spawn();
            let Ok(mut child) = asked else {
                println!("no sha256sum here: the comparison with coreutils is left out");
                return;
            };
            child.stdin.take().unwrap().write_all(&bytes[..length]).unwrap();
            let said = child.wait_with_output().unwrap().stdout;
            assert_eq!(String::from_utf8_lossy(&said[..64]), sum(&bytes[..length]), "{length} bytes");
        }
    }
}
