//! The published vectors, and properties that hold for every key and unit.
//!
//! No published XTS vector with a key of 64 bytes ends in a part of a block, so
//! stealing is held against its definition, spelled out in whole blocks only.

use std::ops::RangeInclusive;

use reference::{Cipher, Refusal, BLOCK_LENGTH};

/// The vectors, one to a line; `#` begins a line of remarks.
const VECTORS: &str = include_str!("vectors.txt");

/// How many vectors the file has, so that a file cut short does not pass.
const VECTOR_COUNT: usize = 14;

/// Every length that a unit may have, as this project states it. Written out
/// here rather than taken from the crate, so that the crate is held to it.
const EVERY_LENGTH: RangeInclusive<usize> = 16..=4096;

/// A small xorshift generator: the same keys and data on every run.
struct Xorshift(u64);

impl Xorshift {
    fn next(&mut self) -> u64 {
        self.0 ^= self.0 << 13;
        self.0 ^= self.0 >> 7;
        self.0 ^= self.0 << 17;
        self.0
    }

    fn bytes(&mut self, length: usize) -> Vec<u8> {
        // The high byte, as the low bits of xorshift are its weakest.
        (0..length).map(|_| (self.next() >> 56) as u8).collect()
    }
}

/// The bytes that pairs of hexadecimal digits stand for.
fn from_hex(digits: &str) -> Vec<u8> {
    assert!(digits.len().is_multiple_of(2), "odd number of digits");
    (0..digits.len())
        .step_by(2)
        .map(|i| u8::from_str_radix(&digits[i..i + 2], 16).expect("hexadecimal digits"))
        .collect()
}

fn cipher_named(name: &str) -> Cipher {
    match name {
        "aes256" => Cipher::Aes256,
        "speck" => Cipher::Speck,
        _ => panic!("no cipher is named {name}"),
    }
}

/// What the crate makes of the line, and what the line expects.
fn computed_and_expected(line: &str) -> (Vec<u8>, Vec<u8>) {
    let fields: Vec<&str> = line.split_whitespace().collect();
    let (result, expected) = match fields[..] {
        ["block", name, key, input, expected] => {
            let computed = cipher_named(name).encrypt_block(&from_hex(key), &from_hex(input));
            (computed.map(Vec::from), expected)
        }
        ["block-back", name, key, input, expected] => {
            let computed = cipher_named(name).decrypt_block(&from_hex(key), &from_hex(input));
            (computed.map(Vec::from), expected)
        }
        ["unit", name, key, number, input, expected] => {
            let number = number.parse().expect("a unit number");
            let computed = cipher_named(name).encipher(&from_hex(key), number, &from_hex(input));
            (computed, expected)
        }
        ["unit-back", name, key, number, input, expected] => {
            let number = number.parse().expect("a unit number");
            let computed = cipher_named(name).decipher(&from_hex(key), number, &from_hex(input));
            (computed, expected)
        }
        _ => panic!("not a vector: {line}"),
    };
    (result.expect("a vector is not refused"), from_hex(expected))
}

#[test]
fn published_vectors_hold() {
    let vectors: Vec<&str> = VECTORS
        .lines()
        .filter(|line| !line.is_empty() && !line.starts_with('#'))
        .collect();
    assert_eq!(vectors.len(), VECTOR_COUNT);
    for vector in vectors {
        let (computed, expected) = computed_and_expected(vector);
        assert_eq!(computed, expected, "{vector}");
    }
}

/// Enciphers and deciphers a unit of every length, each under its own key.
fn deciphering_undoes_enciphering(cipher: Cipher) {
    let mut random = Xorshift(0x9e37_79b9_7f4a_7c15);
    for length in EVERY_LENGTH {
        let key = random.bytes(64);
        let number = random.next();
        let unit = random.bytes(length);
        let enciphered = cipher.encipher(&key, number, &unit).unwrap();
        assert_eq!(enciphered.len(), length);
        assert_ne!(enciphered, unit, "length {length}");
        let deciphered = cipher.decipher(&key, number, &enciphered).unwrap();
        assert_eq!(deciphered, unit, "length {length}");
    }
}

#[test]
fn deciphering_undoes_enciphering_with_aes256() {
    deciphering_undoes_enciphering(Cipher::Aes256);
}

#[test]
fn deciphering_undoes_enciphering_with_speck() {
    deciphering_undoes_enciphering(Cipher::Speck);
}

/// A unit enciphered by the definition of stealing, from units of whole blocks.
///
/// The last block of an m-block unit shows what tweak m - 1 makes of it; the last
/// block of a unit one block longer shows what tweak m makes of it.
fn stolen_by_definition(cipher: Cipher, key: &[u8], number: u64, unit: &[u8]) -> Vec<u8> {
    let part_length = unit.len() % BLOCK_LENGTH;
    let (whole, part) = unit.split_at(unit.len() - part_length);
    let last_block = whole.len() - BLOCK_LENGTH;

    let short = cipher.encipher(key, number, whole).unwrap();
    let (kept, passed) = short.split_at(last_block);
    let longer = [whole, part, &passed[part_length..]].concat();
    let long = cipher.encipher(key, number, &longer).unwrap();

    [kept, &long[whole.len()..], &passed[..part_length]].concat()
}

#[test]
fn stealing_follows_its_definition() {
    let mut random = Xorshift(0x2545_f491_4f6c_dd1d);
    // The shortest units, where the ending is most of the unit, and the longest.
    let lengths = (17..200)
        .chain(4064..4096)
        .filter(|n| n % BLOCK_LENGTH != 0);
    for length in lengths {
        for cipher in Cipher::ALL {
            let key = random.bytes(64);
            let number = random.next();
            let unit = random.bytes(length);
            assert_eq!(
                cipher.encipher(&key, number, &unit).unwrap(),
                stolen_by_definition(cipher, &key, number, &unit),
                "{cipher:?}, length {length}"
            );
        }
    }
}

#[test]
fn check_enciphers_zeros_as_the_last_unit() {
    let mut random = Xorshift(1);
    for cipher in Cipher::ALL {
        let key = random.bytes(64);
        let unit = cipher.encipher(&key, 18_446_744_073_709_551_615, &[0; 16]);
        assert_eq!(cipher.check(&key).map(Vec::from), unit);
    }
}

/// Asserts that both directions of XTS refuse a key and a unit.
fn assert_refused(key: &[u8], unit: &[u8], refusal: Refusal) {
    for cipher in Cipher::ALL {
        assert_eq!(cipher.encipher(key, 7, unit), Err(refusal));
        assert_eq!(cipher.decipher(key, 7, unit), Err(refusal));
    }
}

#[test]
fn wrong_lengths_are_refused() {
    let mut random = Xorshift(2);
    for key_length in [0, 32, 63, 65, 128] {
        assert_refused(&random.bytes(key_length), &[0; 16], Refusal::WrongLength);
    }
    for unit_length in [0, 1, 15, 4097, 8192] {
        let unit = random.bytes(unit_length);
        assert_refused(&random.bytes(64), &unit, Refusal::WrongLength);
    }
}

#[test]
fn equal_halves_are_refused_after_wrong_lengths() {
    let key = Xorshift(3).bytes(32).repeat(2);
    assert_refused(&key, &[0; 16], Refusal::UnfitKey);
    assert_refused(&key, &[0; 4096], Refusal::UnfitKey);
    assert_refused(&key, &[0; 15], Refusal::WrongLength);
    assert_refused(&key, &[0; 4097], Refusal::WrongLength);
}

#[test]
fn halves_that_differ_in_one_bit_are_accepted() {
    let key = Xorshift(4).bytes(32).repeat(2);
    for bit in 0..512 {
        let mut nearly = key.clone();
        nearly[bit / 8] ^= 1 << (bit % 8);
        for cipher in Cipher::ALL {
            assert!(cipher.encipher(&nearly, 7, &[0; 16]).is_ok());
        }
    }
}

#[test]
fn check_refuses_the_keys_that_enciphering_refuses() {
    let mut random = Xorshift(5);
    for cipher in Cipher::ALL {
        assert_eq!(cipher.check(&random.bytes(63)), Err(Refusal::WrongLength));
        let twice = random.bytes(32).repeat(2);
        assert_eq!(cipher.check(&twice), Err(Refusal::UnfitKey));
    }
}

#[test]
fn blocks_of_wrong_lengths_are_refused() {
    let wrong = Err(Refusal::WrongLength);
    for cipher in Cipher::ALL {
        for (key_length, block_length) in [(32, 15), (32, 17), (31, 16), (33, 16)] {
            let (key, block) = (vec![1; key_length], vec![2; block_length]);
            assert_eq!(cipher.encrypt_block(&key, &block), wrong);
            assert_eq!(cipher.decrypt_block(&key, &block), wrong);
        }
    }
}

#[test]
fn numbers_are_those_of_the_interface() {
    assert_eq!(Refusal::WrongLength as u8, 1);
    assert_eq!(Refusal::UnfitKey as u8, 5);
    assert_eq!(Cipher::Aes256 as u8, 1);
    assert_eq!(Cipher::Speck as u8, 2);
}
