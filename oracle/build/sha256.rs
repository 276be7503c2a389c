//! SHA-256 (FIPS 180-4), for the pinned checksums of the sources.

fn primes(n: usize) -> Vec<u64> {
    let mut found: Vec<u64> = Vec::new();
    let mut k = 2u64;
    while found.len() < n {
        if found.iter().all(|p| k % p != 0) {
            found.push(k);
        }
        k += 1;
    }
    found
}

/// The first 32 bits of the fraction of the k-th root of p (k is 2 or 3), by
/// integer arithmetic: the largest r with r^k <= p * 2^(32 k), less its whole part.
fn root_fraction(p: u64, k: u32) -> u32 {
    let (mut low, mut high) = (0u128, 1u128 << 40);
    while high - low > 1 {
        let mid = (low + high) / 2;
        let fits = if k == 2 {
            mid * mid <= (p as u128) << 64
        } else {
            // mid^3 <= p * 2^96, in halves that do not overflow.
            let square = mid * mid;
            square <= u128::MAX / mid && square * mid <= (p as u128) << 96
        };
        if fits {
            low = mid;
        } else {
            high = mid;
        }
    }
    low as u32
}

pub fn sha256(data: &[u8]) -> [u8; 32] {
    let p = primes(64);
    let k: Vec<u32> = p.iter().map(|&p| root_fraction(p, 3)).collect();
    let mut h: Vec<u32> = p[..8].iter().map(|&p| root_fraction(p, 2)).collect();
    let mut message = data.to_vec();
    message.push(0x80);
    while message.len() % 64 != 56 {
        message.push(0);
    }
    message.extend_from_slice(&((data.len() as u64) * 8).to_be_bytes());
    for block in message.chunks(64) {
        let mut w = [0u32; 64];
        for (i, word) in block.chunks(4).enumerate() {
            w[i] = u32::from_be_bytes([word[0], word[1], word[2], word[3]]);
        }
        for i in 16..64 {
            let a = w[i - 15];
            let b = w[i - 2];
            let s0 = a.rotate_right(7) ^ a.rotate_right(18) ^ (a >> 3);
            let s1 = b.rotate_right(17) ^ b.rotate_right(19) ^ (b >> 10);
            w[i] = w[i - 16].wrapping_add(s0).wrapping_add(w[i - 7]).wrapping_add(s1);
        }
        let mut v = [0u32; 8];
        v.copy_from_slice(&h);
        for i in 0..64 {
            let e = v[4];
            let s1 = e.rotate_right(6) ^ e.rotate_right(11) ^ e.rotate_right(25);
            let choice = (e & v[5]) ^ (!e & v[6]);
            let t1 = v[7].wrapping_add(s1).wrapping_add(choice).wrapping_add(k[i]).wrapping_add(w[i]);
            let a = v[0];
            let s0 = a.rotate_right(2) ^ a.rotate_right(13) ^ a.rotate_right(22);
            let majority = (a & v[1]) ^ (a & v[2]) ^ (v[1] & v[2]);
            let t2 = s0.wrapping_add(majority);
            v = [t1.wrapping_add(t2), v[0], v[1], v[2], v[3].wrapping_add(t1), v[4], v[5], v[6]];
        }
        for (x, y) in h.iter_mut().zip(v) {
            *x = x.wrapping_add(y);
        }
    }
    let mut out = [0u8; 32];
    for (i, x) in h.iter().enumerate() {
        out[4 * i..4 * i + 4].copy_from_slice(&x.to_be_bytes());
    }
    out
}

pub fn sha256_hex(data: &[u8]) -> String {
    sha256(data).iter().map(|b| format!("{:02x}", b)).collect()
}
