//! SHA-256, as FIPS 180-4 has it. The crate has no dependencies, and the test schemes are made of
//! it.

/// The first 32 bits of the fractions of the square roots of the first 8 primes.
const FIRST: [u32; 8] = fractions(2);

/// The same of the cube roots of the first 64 primes.
const ROUND: [u32; 64] = fractions(3);

/// The first 32 bits of the fractions of these roots of the first primes.
const fn fractions<const N: usize>(power: u32) -> [u32; N] {
    let mut words = [0; N];
    let (mut prime, mut found) = (2, 0);
    while found < N {
        if is_prime(prime) {
            words[found] = fraction(prime, power);
            found += 1;
        }
        prime += 1;
    }
    words
}

#[allow(clippy::manual_is_multiple_of)]
const fn is_prime(number: u128) -> bool {
    let mut divisor = 2;
    while divisor * divisor <= number {
        if number % divisor == 0 {
            return false;
        }
        divisor += 1;
    }
    true
}

/// The lowest 32 bits of the root of `number`, taken in 2^-32, which is found bit by bit.
const fn fraction(number: u128, power: u32) -> u32 {
    let (mut root, mut bit) = (0_u128, 36);
    while bit > 0 {
        bit -= 1;
        let next = root | 1 << bit;
        // The power of a root in 2^-32 is in 2^-64 or 2^-96.
        if next.pow(power) <= number << (32 * power) {
            root = next;
        }
    }
    root as u32
}

/// The digest of all parts, one after another.
pub fn digest(parts: &[&[u8]]) -> [u8; 32] {
    let mut state = FIRST;
    let (mut block, mut filled, mut length) = ([0; 64], 0, 0_u64);
    for part in parts {
        length += part.len() as u64;
        for byte in *part {
            block[filled] = *byte;
            filled += 1;
            if filled == 64 {
                compress(&mut state, &block);
                filled = 0;
            }
        }
    }
    block[filled] = 0x80;
    block[filled + 1..].fill(0);
    if filled >= 56 {
        compress(&mut state, &block);
        block.fill(0);
    }
    block[56..].copy_from_slice(&(8 * length).to_be_bytes());
    compress(&mut state, &block);
    let mut digest = [0; 32];
    for (bytes, word) in digest.chunks_exact_mut(4).zip(state) {
        bytes.copy_from_slice(&word.to_be_bytes());
    }
    digest
}

fn compress(state: &mut [u32; 8], block: &[u8; 64]) {
    let mut words = [0_u32; 64];
    for (word, bytes) in words.iter_mut().zip(block.chunks_exact(4)) {
        *word = u32::from_be_bytes([bytes[0], bytes[1], bytes[2], bytes[3]]);
    }
    for t in 16..64 {
        let (a, b) = (words[t - 15], words[t - 2]);
        let a = a.rotate_right(7) ^ a.rotate_right(18) ^ a >> 3;
        let b = b.rotate_right(17) ^ b.rotate_right(19) ^ b >> 10;
        words[t] = words[t - 16]
            .wrapping_add(a)
            .wrapping_add(words[t - 7])
            .wrapping_add(b);
    }
    let [mut a, mut b, mut c, mut d, mut e, mut f, mut g, mut h] = *state;
    for (constant, word) in ROUND.iter().zip(words) {
        let sum = e.rotate_right(6) ^ e.rotate_right(11) ^ e.rotate_right(25);
        let choice = e & f ^ !e & g;
        let first = h
            .wrapping_add(sum)
            .wrapping_add(choice)
            .wrapping_add(*constant)
            .wrapping_add(word);
        let sum = a.rotate_right(2) ^ a.rotate_right(13) ^ a.rotate_right(22);
        let majority = a & b ^ a & c ^ b & c;
        let second = sum.wrapping_add(majority);
        (h, g, f, e, d, c, b, a) = (
            g,
            f,
            e,
            d.wrapping_add(first),
            c,
            b,
            a,
            first.wrapping_add(second),
        );
    }
    for (word, more) in state.iter_mut().zip([a, b, c, d, e, f, g, h]) {
        *word = word.wrapping_add(more);
    }
}
