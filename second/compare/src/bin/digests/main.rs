//! Compares the digests and extends of the proved library, linked as C, with
//! the model's, call by call.

mod check;

use check::Checks;
use compare::{run, Counts};
use model::bank::{Bank, BANKS, LONGEST_DIGEST};
use model::messages::{pattern, LONGEST_PATTERN, MILLION_A};
use model::octets::from_hex;
use std::process::ExitCode;

/// The wrong lengths that are tried reach past two of the longest digests.
const LONGEST_WRONG: usize = 2 * LONGEST_DIGEST + 6;

/// A bank, and the library's calls of its hash.
struct Hash {
    bank: &'static Bank,
    digest: fn(&[u8], &mut [u8]) -> u64,
    extend: fn(&mut [u8], &[u8]) -> u64,
    million_a: &'static str,
}

fn main() -> ExitCode {
    run("digests", 2000, compare)
}

fn compare(count: u64, seed: u64) -> Counts {
    let mut checks = Checks::new(seed);
    checks.answer("version", linked::version(), model::calls::version());
    for ((bank, library), million_a) in BANKS.iter().zip(&linked::HASHES).zip(MILLION_A) {
        let hash = Hash {
            bank,
            digest: library.digest,
            extend: library.extend,
            million_a,
        };
        println!("{}: {count} random messages, seed {seed}", bank.name);
        patterned_messages(&mut checks, &hash);
        random_messages(&mut checks, &hash, count);
        one_million_a(&mut checks, &hash);
        wrong_digest_lengths(&mut checks, &hash);
        println!("{}: {count} random extends, seed {seed}", bank.name);
        random_extends(&mut checks, &hash, count);
        wrong_extend_lengths(&mut checks, &hash);
    }
    checks.counts
}

fn patterned_messages(checks: &mut Checks, hash: &Hash) {
    for n in 0..=LONGEST_PATTERN {
        compare_digest(checks, hash, "patterned message", &pattern(n));
    }
}

fn random_messages(checks: &mut Checks, hash: &Hash, count: u64) {
    for i in 0..count {
        // The message begins at any alignment.
        let skip = checks.random.below(16);
        let len = checks.random.length();
        let octets = checks.random.octets(skip + len);
        compare_digest(
            checks,
            hash,
            &format!("random message {i}"),
            &octets[skip..],
        );
    }
}

fn one_million_a(checks: &mut Checks, hash: &Hash) {
    let message = vec![b'a'; 1_000_000];
    compare_digest(checks, hash, "one million 'a'", &message);
    check_digest(
        checks,
        hash,
        "one million 'a' of FIPS",
        &message,
        &from_hex(hash.million_a),
    );
}

fn compare_digest(checks: &mut Checks, hash: &Hash, what: &str, message: &[u8]) {
    check_digest(checks, hash, what, message, &hash.bank.digest(message));
}

fn check_digest(checks: &mut Checks, hash: &Hash, what: &str, message: &[u8], wanted: &[u8]) {
    let name = format!("{}, {what}, {} octets", hash.bank.name, message.len());
    let buffer = checks.random.octets(hash.bank.digest_len);
    checks.call(&name, &buffer, Some(wanted), |digest| {
        (hash.digest)(message, digest)
    });
}

fn wrong_digest_lengths(checks: &mut Checks, hash: &Hash) {
    for len in (0..=LONGEST_WRONG).filter(|&len| len != hash.bank.digest_len) {
        let message_len = checks.random.length();
        let message = checks.random.octets(message_len);
        let buffer = checks.random.octets(len);
        let name = format!(
            "{}, {message_len} octets, digest buffer of {len} octets",
            hash.bank.name
        );
        checks.call(&name, &buffer, None, |digest| {
            (hash.digest)(&message, digest)
        });
    }
}

fn random_extends(checks: &mut Checks, hash: &Hash, count: u64) {
    for i in 0..count {
        let register = checks.random.octets(hash.bank.digest_len);
        let digest = checks.random.octets(hash.bank.digest_len);
        let wanted = hash.bank.digest(&[&register[..], &digest[..]].concat());
        let name = format!(
            "{} extend {i}, {} octets",
            hash.bank.name, hash.bank.digest_len
        );
        checks.call(&name, &register, Some(&wanted), |register| {
            (hash.extend)(register, &digest)
        });
    }
}

/// Every pair of lengths but the right one.
fn wrong_extend_lengths(checks: &mut Checks, hash: &Hash) {
    for register_len in 0..=LONGEST_WRONG {
        for digest_len in 0..=LONGEST_WRONG {
            if register_len == hash.bank.digest_len && digest_len == hash.bank.digest_len {
                continue;
            }
            let register = checks.random.octets(register_len);
            let digest = checks.random.octets(digest_len);
            let name = format!(
                "{} extend, register of {register_len} octets, digest of {digest_len} octets",
                hash.bank.name
            );
            checks.call(&name, &register, None, |register| {
                (hash.extend)(register, &digest)
            });
        }
    }
}
