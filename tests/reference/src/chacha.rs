//! The words of ChaCha with 20 rounds from a key: a counter of 64 bits, and the number of a stream as nonce.

pub struct ChaCha {
    key: [u32; 8],
    stream: u64,
    counter: u64,
    block: [u32; 16],
    /// How many words of the block were taken.
    taken: usize,
}

impl ChaCha {
    pub fn new(seed: &[u8; 32]) -> ChaCha {
        ChaCha::of_stream(seed, 0)
    }

    pub fn of_stream(seed: &[u8; 32], stream: u64) -> ChaCha {
        let mut key = [0; 8];
        for (word, bytes) in key.iter_mut().zip(seed.chunks_exact(4)) {
            *word = u32::from_le_bytes([bytes[0], bytes[1], bytes[2], bytes[3]]);
        }
        ChaCha {
            key,
            stream,
            counter: 0,
            block: [0; 16],
            taken: 16,
        }
    }

    pub fn word(&mut self) -> u32 {
        if self.taken == 16 {
            self.block = block(&self.key, self.counter, self.stream);
            self.counter = self.counter.wrapping_add(1);
            self.taken = 0;
        }
        self.taken += 1;
        self.block[self.taken - 1]
    }
}

fn block(key: &[u32; 8], counter: u64, stream: u64) -> [u32; 16] {
    let mut first = [0; 16];
    first[..4].copy_from_slice(&[0x6170_7865, 0x3320_646e, 0x7962_2d32, 0x6b20_6574]);
    first[4..12].copy_from_slice(key);
    first[12] = counter as u32;
    first[13] = (counter >> 32) as u32;
    first[14] = stream as u32;
    first[15] = (stream >> 32) as u32;
    let mut state = first;
    for _ in 0..10 {
        for column in 0..4 {
            quarter_round(&mut state, column, 4 + column, 8 + column, 12 + column);
        }
        for a in 0..4 {
            let (b, c, d) = ((a + 1) % 4, (a + 2) % 4, (a + 3) % 4);
            quarter_round(&mut state, a, 4 + b, 8 + c, 12 + d);
        }
    }
    for (word, start) in state.iter_mut().zip(first) {
        *word = word.wrapping_add(start);
    }
    state
}

fn quarter_round(state: &mut [u32; 16], a: usize, b: usize, c: usize, d: usize) {
    for (left, right) in [(16, 12), (8, 7)] {
        state[a] = state[a].wrapping_add(state[b]);
        state[d] = (state[d] ^ state[a]).rotate_left(left);
        state[c] = state[c].wrapping_add(state[d]);
        state[b] = (state[b] ^ state[c]).rotate_left(right);
    }
}
