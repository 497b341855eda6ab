//! SHA2-256, SHA2-384 and SHA2-512 of a slice, after FIPS 180-4.

pub fn sha256(message: &[u8]) -> [u8; 32] {
    bytes_of(narrow::hash(START256, message), u32::to_be_bytes)
}

pub fn sha384(message: &[u8]) -> [u8; 48] {
    bytes_of(wide::hash(START384, message), u64::to_be_bytes)
}

pub fn sha512(message: &[u8]) -> [u8; 64] {
    bytes_of(wide::hash(START512, message), u64::to_be_bytes)
}

/// The digest of an SBS hash ID: 2, 3 and 4 are known, every other ID has none.
pub fn digest(id: u64, message: &[u8]) -> Vec<u8> {
    match id {
        2 => sha256(message).to_vec(),
        3 => sha384(message).to_vec(),
        4 => sha512(message).to_vec(),
        _ => Vec::new(),
    }
}

/// The length of an ID's digest, 0 for an unknown one.
pub fn digest_length(id: u64) -> usize {
    match id {
        2 => 32,
        3 => 48,
        4 => 64,
        _ => 0,
    }
}

/// The first OUT bytes that the state's words spell (6.2.2, 6.4.2, 6.5: the leftmost bits).
fn bytes_of<W: Copy, const B: usize, const OUT: usize>(
    state: [W; 8],
    spell: fn(W) -> [u8; B],
) -> [u8; OUT] {
    let mut out = [0; OUT];
    for (part, word) in out.chunks_exact_mut(B).zip(state) {
        part.copy_from_slice(&spell(word));
    }
    out
}

/// One round. In place of moving the eight words on, the next round names them one further.
macro_rules! round {
    ($a:ident $b:ident $c:ident $d:ident $e:ident $f:ident $g:ident $h:ident, $k:expr, $w:expr) => {
        let ch = ($e & $f) ^ (!$e & $g);
        let maj = ($a & $b) ^ ($a & $c) ^ ($b & $c);
        let t1 = $h
            .wrapping_add(big_sigma1($e))
            .wrapping_add(ch)
            .wrapping_add($k)
            .wrapping_add($w);
        let t2 = big_sigma0($a).wrapping_add(maj);
        $d = $d.wrapping_add(t1);
        $h = t1.wrapping_add(t2);
    };
}

/// One width: its word, rounds and constants, and the amounts of the functions of 4.1.2 or 4.1.3.
/// A capital sigma is three rotations, a small one two rotations and a shift.
macro_rules! width {
    ($name:ident, $word:ty, $length:ty, $rounds:literal, $k:ident,
     $s0:literal $s1:literal $s2:literal, $t0:literal $t1:literal $t2:literal,
     $u0:literal $u1:literal $u2:literal, $v0:literal $v1:literal $v2:literal) => {
        mod $name {
            const WORD: usize = size_of::<$word>();
            const BLOCK: usize = 16 * WORD;

            /// 5.1, 5.2, 6.2 and 6.4: the padded message, block by block.
            pub fn hash(start: [$word; 8], message: &[u8]) -> [$word; 8] {
                let mut state = start;
                let blocks = message.chunks_exact(BLOCK);
                let rest = blocks.remainder();
                for block in blocks {
                    state = compress(state, block);
                }
                // one bit, zeros, and the message's length in bits in the last two words
                let mut last = [0; 2 * BLOCK];
                last[..rest.len()].copy_from_slice(rest);
                last[rest.len()] = 0x80;
                let end = if rest.len() < BLOCK - 2 * WORD {
                    BLOCK
                } else {
                    2 * BLOCK
                };
                let bits = (message.len() as $length).wrapping_mul(8);
                last[end - 2 * WORD..end].copy_from_slice(&bits.to_be_bytes());
                for block in last[..end].chunks_exact(BLOCK) {
                    state = compress(state, block);
                }
                state
            }

            /// 6.2.2 and 6.4.2: the state after one more block.
            fn compress(state: [$word; 8], block: &[u8]) -> [$word; 8] {
                let w = schedule(block);
                let [mut a, mut b, mut c, mut d, mut e, mut f, mut g, mut h] = state;
                for (k, w) in super::$k.chunks_exact(8).zip(w.chunks_exact(8)) {
                    round!(a b c d e f g h, k[0], w[0]);
                    round!(h a b c d e f g, k[1], w[1]);
                    round!(g h a b c d e f, k[2], w[2]);
                    round!(f g h a b c d e, k[3], w[3]);
                    round!(e f g h a b c d, k[4], w[4]);
                    round!(d e f g h a b c, k[5], w[5]);
                    round!(c d e f g h a b, k[6], w[6]);
                    round!(b c d e f g h a, k[7], w[7]);
                }
                let turned = [a, b, c, d, e, f, g, h];
                std::array::from_fn(|i| state[i].wrapping_add(turned[i]))
            }

            fn big_sigma0(x: $word) -> $word {
                x.rotate_right($s0) ^ x.rotate_right($s1) ^ x.rotate_right($s2)
            }

            fn big_sigma1(x: $word) -> $word {
                x.rotate_right($t0) ^ x.rotate_right($t1) ^ x.rotate_right($t2)
            }

            /// The message schedule W of a block.
            fn schedule(block: &[u8]) -> [$word; $rounds] {
                let mut w = [0; $rounds];
                for (word, bytes) in w.iter_mut().zip(block.chunks_exact(WORD)) {
                    *word = <$word>::from_be_bytes(bytes.try_into().unwrap());
                }
                for t in 16..$rounds {
                    let (x, y) = (w[t - 15], w[t - 2]);
                    let sigma0 = x.rotate_right($u0) ^ x.rotate_right($u1) ^ (x >> $u2);
                    let sigma1 = y.rotate_right($v0) ^ y.rotate_right($v1) ^ (y >> $v2);
                    w[t] = sigma1
                        .wrapping_add(w[t - 7])
                        .wrapping_add(sigma0)
                        .wrapping_add(w[t - 16]);
                }
                w
            }
        }
    };
}

width!(narrow, u32, u64, 64, K256, 2 13 22, 6 11 25, 7 18 3, 17 19 10);
width!(wide, u64, u128, 80, K512, 28 34 39, 14 18 41, 1 8 7, 19 61 6);

// 4.2.2, 4.2.3: the constants; 5.3.3 to 5.3.5: the initial hash values.
#[rustfmt::skip]
const K256: [u32; 64] = [
    0x428a2f98, 0x71374491, 0xb5c0fbcf, 0xe9b5dba5, 0x3956c25b, 0x59f111f1, 0x923f82a4, 0xab1c5ed5,
    0xd807aa98, 0x12835b01, 0x243185be, 0x550c7dc3, 0x72be5d74, 0x80deb1fe, 0x9bdc06a7, 0xc19bf174,
    0xe49b69c1, 0xefbe4786, 0x0fc19dc6, 0x240ca1cc, 0x2de92c6f, 0x4a7484aa, 0x5cb0a9dc, 0x76f988da,
    0x983e5152, 0xa831c66d, 0xb00327c8, 0xbf597fc7, 0xc6e00bf3, 0xd5a79147, 0x06ca6351, 0x14292967,
    0x27b70a85, 0x2e1b2138, 0x4d2c6dfc, 0x53380d13, 0x650a7354, 0x766a0abb, 0x81c2c92e, 0x92722c85,
    0xa2bfe8a1, 0xa81a664b, 0xc24b8b70, 0xc76c51a3, 0xd192e819, 0xd6990624, 0xf40e3585, 0x106aa070,
    0x19a4c116, 0x1e376c08, 0x2748774c, 0x34b0bcb5, 0x391c0cb3, 0x4ed8aa4a, 0x5b9cca4f, 0x682e6ff3,
    0x748f82ee, 0x78a5636f, 0x84c87814, 0x8cc70208, 0x90befffa, 0xa4506ceb, 0xbef9a3f7, 0xc67178f2,
];
#[rustfmt::skip]
const K512: [u64; 80] = [
    0x428a2f98d728ae22, 0x7137449123ef65cd, 0xb5c0fbcfec4d3b2f, 0xe9b5dba58189dbbc,
    0x3956c25bf348b538, 0x59f111f1b605d019, 0x923f82a4af194f9b, 0xab1c5ed5da6d8118,
    0xd807aa98a3030242, 0x12835b0145706fbe, 0x243185be4ee4b28c, 0x550c7dc3d5ffb4e2,
    0x72be5d74f27b896f, 0x80deb1fe3b1696b1, 0x9bdc06a725c71235, 0xc19bf174cf692694,
    0xe49b69c19ef14ad2, 0xefbe4786384f25e3, 0x0fc19dc68b8cd5b5, 0x240ca1cc77ac9c65,
    0x2de92c6f592b0275, 0x4a7484aa6ea6e483, 0x5cb0a9dcbd41fbd4, 0x76f988da831153b5,
    0x983e5152ee66dfab, 0xa831c66d2db43210, 0xb00327c898fb213f, 0xbf597fc7beef0ee4,
    0xc6e00bf33da88fc2, 0xd5a79147930aa725, 0x06ca6351e003826f, 0x142929670a0e6e70,
    0x27b70a8546d22ffc, 0x2e1b21385c26c926, 0x4d2c6dfc5ac42aed, 0x53380d139d95b3df,
    0x650a73548baf63de, 0x766a0abb3c77b2a8, 0x81c2c92e47edaee6, 0x92722c851482353b,
    0xa2bfe8a14cf10364, 0xa81a664bbc423001, 0xc24b8b70d0f89791, 0xc76c51a30654be30,
    0xd192e819d6ef5218, 0xd69906245565a910, 0xf40e35855771202a, 0x106aa07032bbd1b8,
    0x19a4c116b8d2d0c8, 0x1e376c085141ab53, 0x2748774cdf8eeb99, 0x34b0bcb5e19b48a8,
    0x391c0cb3c5c95a63, 0x4ed8aa4ae3418acb, 0x5b9cca4f7763e373, 0x682e6ff3d6b2b8a3,
    0x748f82ee5defb2fc, 0x78a5636f43172f60, 0x84c87814a1f0ab72, 0x8cc702081a6439ec,
    0x90befffa23631e28, 0xa4506cebde82bde9, 0xbef9a3f7b2c67915, 0xc67178f2e372532b,
    0xca273eceea26619c, 0xd186b8c721c0c207, 0xeada7dd6cde0eb1e, 0xf57d4f7fee6ed178,
    0x06f067aa72176fba, 0x0a637dc5a2c898a6, 0x113f9804bef90dae, 0x1b710b35131c471b,
    0x28db77f523047d84, 0x32caab7b40c72493, 0x3c9ebe0a15c9bebc, 0x431d67c49c100d4c,
    0x4cc5d4becb3e42b6, 0x597f299cfc657e2a, 0x5fcb6fab3ad6faec, 0x6c44198c4a475817,
];
#[rustfmt::skip]
const START256: [u32; 8] = [
    0x6a09e667, 0xbb67ae85, 0x3c6ef372, 0xa54ff53a, 0x510e527f, 0x9b05688c, 0x1f83d9ab, 0x5be0cd19,
];
#[rustfmt::skip]
const START384: [u64; 8] = [
    0xcbbb9d5dc1059ed8, 0x629a292a367cd507, 0x9159015a3070dd17, 0x152fecd8f70e5939,
    0x67332667ffc00b31, 0x8eb44a8768581511, 0xdb0c2e0d64f98fa7, 0x47b5481dbefa4fa4,
];
#[rustfmt::skip]
const START512: [u64; 8] = [
    0x6a09e667f3bcc908, 0xbb67ae8584caa73b, 0x3c6ef372fe94f82b, 0xa54ff53a5f1d36f1,
    0x510e527fade682d1, 0x9b05688c2b3e6c1f, 0x1f83d9abfb41bd6b, 0x5be0cd19137e2179,
];

#[cfg(test)]
mod tests {
    use super::*;

    fn hex(bytes: &[u8]) -> String {
        bytes.iter().map(|b| format!("{b:02x}")).collect()
    }

    #[test]
    fn published_values_of_abc() {
        assert_eq!(
            hex(&sha256(b"abc")),
            "ba7816bf8f01cfea414140de5dae2223b00361a396177a9cb410ff61f20015ad"
        );
        assert_eq!(
            hex(&sha384(b"abc")),
            "cb00753f45a35e8bb5a03d699ac65007272c32ab0eded1631a8b605a43ff5bed\
             8086072ba1e7cc2358baeca134c825a7"
        );
        assert_eq!(
            hex(&sha512(b"abc")),
            "ddaf35a193617abacc417349ae20413112e6fa4e89a97ea20a9eeee64b55d39a\
             2192992a274fc1a836ba3c23a3feebbd454d4423643ce80e2a9ac94fa54ca49f"
        );
    }

    #[test]
    fn an_unknown_id_has_an_empty_digest() {
        for id in [0, 1, 5, 60000, 65538, u64::MAX] {
            assert!(digest(id, b"abc").is_empty());
        }
    }
}
