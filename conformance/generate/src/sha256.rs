//! SHA-256 (FIPS 180-4). The constants are the first bits of the fractions of roots of primes, so they are worked out, not listed.

fn primes() -> impl Iterator<Item = u128> {
    (2u128..).filter(|n| (2..*n).take_while(|d| d * d <= *n).all(|d| n % d != 0))
}

/// The greatest r with r^power <= n, by halving.
fn root(n: u128, power: u32) -> u128 {
    let (mut low, mut high) = (0u128, 1 << 36);
    while high - low > 1 {
        let middle = (low + high) / 2;
        match middle.checked_pow(power) {
            Some(p) if p <= n => low = middle,
            _ => high = middle,
        }
    }
    low
}

/// The first 32 bits of the fraction of the square root of a prime, and of its cube root.
fn square(p: u128) -> u32 {
    root(p << 64, 2) as u32
}

fn cube(p: u128) -> u32 {
    root(p << 96, 3) as u32
}

fn schedule(block: &[u8]) -> [u32; 64] {
    let mut w = [0u32; 64];
    for (word, bytes) in w.iter_mut().zip(block.chunks_exact(4)) {
        *word = u32::from_be_bytes(bytes.try_into().unwrap());
    }
    for i in 16..64 {
        let (a, b) = (w[i - 15], w[i - 2]);
        let s0 = a.rotate_right(7) ^ a.rotate_right(18) ^ a >> 3;
        let s1 = b.rotate_right(17) ^ b.rotate_right(19) ^ b >> 10;
        w[i] = w[i - 16].wrapping_add(s0).wrapping_add(w[i - 7]).wrapping_add(s1);
    }
    w
}

fn compress(h: &mut [u32; 8], block: &[u8], k: &[u32]) {
    let mut v = *h;
    for (w, k) in schedule(block).iter().zip(k) {
        let s1 = v[4].rotate_right(6) ^ v[4].rotate_right(11) ^ v[4].rotate_right(25);
        let choice = v[4] & v[5] ^ !v[4] & v[6];
        let t1 = v[7].wrapping_add(s1).wrapping_add(choice).wrapping_add(*k).wrapping_add(*w);
        let s0 = v[0].rotate_right(2) ^ v[0].rotate_right(13) ^ v[0].rotate_right(22);
        let t2 = s0.wrapping_add(v[0] & v[1] ^ v[0] & v[2] ^ v[1] & v[2]);
        v.rotate_right(1);
        v[4] = v[4].wrapping_add(t1);
        v[0] = t1.wrapping_add(t2);
    }
    h.iter_mut().zip(v).for_each(|(h, v)| *h = h.wrapping_add(v));
}

pub fn hex_digest(bytes: &[u8]) -> String {
    let k: Vec<u32> = primes().take(64).map(cube).collect();
    let mut h: [u32; 8] = primes().take(8).map(square).collect::<Vec<_>>().try_into().unwrap();
    let mut padded = bytes.to_vec();
    padded.push(0x80);
    padded.resize(padded.len().next_multiple_of(64) + if padded.len() % 64 > 56 { 64 } else { 0 }, 0);
    let end = padded.len();
    padded[end - 8..].copy_from_slice(&(8 * bytes.len() as u64).to_be_bytes());
    padded.chunks_exact(64).for_each(|block| compress(&mut h, block, &k));
    h.iter().map(|word| format!("{word:08x}")).collect()
}
