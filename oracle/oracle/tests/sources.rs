//! The sources are the published ones, and the build adds one line each.

use std::fs;
use std::path::Path;

const PUBLISHED: [(&str, &str); 4] = [
    ("LICENSE.txt", "e6baf3b235ee87ebccfe91bdc37593b1d535742568fe734529f09de223fca043"),
    ("src/unification.rs", "24b71401f56e11c0884dacd9826c8a3a04fbdbdc45ce045ebe9a532ab7862465"),
    (
        "src/algebra/signature.rs",
        "a5a95d669293475779d08968aaed8a7556248f65b82705fe2ae1f8d3980d0204",
    ),
    (
        "src/algebra/structure.rs",
        "3e3bf890b85f0b37c33d58dd2c35add9a6a2e316fb6648898dbaf8c134e5578c",
    ),
];

fn published(file: &str) -> Vec<u8> {
    let path = Path::new(env!("CARGO_MANIFEST_DIR")).join("../eqlog").join(file);
    fs::read(path).expect("the published file is there")
}

#[test]
fn sources_are_the_published_ones() {
    for (file, digest) in PUBLISHED {
        assert_eq!(sha256(&published(file)), digest, "{file}");
    }
}

#[test]
fn the_build_appends_one_line_that_declares_a_child() {
    for (name, child) in [("signature", "declare"), ("structure", "harness")] {
        let source = published(&format!("src/algebra/{name}.rs"));
        let built = fs::read(Path::new(env!("OUT_DIR")).join(format!("{name}.rs")));
        let built = built.expect("the build wrote it");
        assert!(built.starts_with(&source), "{name}");
        let added = String::from_utf8(built[source.len()..].to_vec()).expect("it is text");
        assert_eq!(added.lines().count(), 1, "{added}");
        assert!(added.starts_with("#[path = ") && added.ends_with(&format!("mod {child};\n")));
    }
}

#[test]
fn digests_are_those_of_the_standard() {
    let abc = "ba7816bf8f01cfea414140de5dae2223b00361a396177a9cb410ff61f20015ad";
    assert_eq!(sha256(b"abc"), abc);
    let empty = "e3b0c44298fc1c149afbf4c8996fb92427ae41e4649b934ca495991b7852b855";
    assert_eq!(sha256(b""), empty);
}

/// SHA-256 as FIPS 180-4 gives it.
fn sha256(message: &[u8]) -> String {
    let primes: Vec<u64> =
        (2..).filter(|n| (2..*n).all(|divisor| n % divisor != 0)).take(64).collect();
    let constants: Vec<u32> = primes.iter().map(|&prime| root_bits(prime, 3)).collect();
    let mut state: Vec<u32> = primes[..8].iter().map(|&prime| root_bits(prime, 2)).collect();

    let mut padded = message.to_vec();
    padded.push(0x80);
    while padded.len() % 64 != 56 {
        padded.push(0);
    }
    padded.extend((message.len() as u64 * 8).to_be_bytes());

    for block in padded.chunks(64) {
        let mut words: Vec<u32> = block
            .chunks(4)
            .map(|bytes| u32::from_be_bytes([bytes[0], bytes[1], bytes[2], bytes[3]]))
            .collect();
        for t in 16..64 {
            let (x, y) = (words[t - 15], words[t - 2]);
            let s0 = x.rotate_right(7) ^ x.rotate_right(18) ^ (x >> 3);
            let s1 = y.rotate_right(17) ^ y.rotate_right(19) ^ (y >> 10);
            let word = words[t - 16].wrapping_add(s0).wrapping_add(words[t - 7]);
            words.push(word.wrapping_add(s1));
        }
        let mut v = state.clone();
        for t in 0..64 {
            let s1 = v[4].rotate_right(6) ^ v[4].rotate_right(11) ^ v[4].rotate_right(25);
            let choice = (v[4] & v[5]) ^ (!v[4] & v[6]);
            let t1 = v[7].wrapping_add(s1).wrapping_add(choice);
            let t1 = t1.wrapping_add(constants[t]).wrapping_add(words[t]);
            let s0 = v[0].rotate_right(2) ^ v[0].rotate_right(13) ^ v[0].rotate_right(22);
            let majority = (v[0] & v[1]) ^ (v[0] & v[2]) ^ (v[1] & v[2]);
            v.rotate_right(1);
            v[4] = v[4].wrapping_add(t1);
            v[0] = t1.wrapping_add(s0).wrapping_add(majority);
        }
        for (word, add) in state.iter_mut().zip(v) {
            *word = word.wrapping_add(add);
        }
    }
    state.iter().map(|word| format!("{word:08x}")).collect()
}

/// The first 32 bits of the fraction of the second or third root: the largest
/// x with x^n at most prime * 2^(32 n), less its whole part.
fn root_bits(prime: u64, n: u32) -> u32 {
    let target = u128::from(prime) << (32 * n);
    let (mut low, mut high) = (0u128, 1u128 << 37);
    while high - low > 1 {
        let middle = (low + high) / 2;
        if middle.pow(n) <= target {
            low = middle;
        } else {
            high = middle;
        }
    }
    low as u32
}
