//! The computed claim of the definitions stands on the bytes that the Rust is run on here.

use plain::cases::all;

const CLAIM: &str = include_str!("../../../crates/paper/proofs/Cases.antt");

#[test]
fn the_claim_has_the_bytes_of_each_case() {
    for case in all().unwrap() {
        assert_eq!(
            bytes_in_the_claim(&case.label),
            case.bytes,
            "case {}",
            case.label
        );
    }
}

fn bytes_in_the_claim(label: &str) -> Vec<u8> {
    let text = definition(label);
    let rest: Vec<u8> = text.split_whitespace().filter_map(byte).collect();
    if !text.contains("written") {
        return rest;
    }
    let names = text.split('"').skip(1).step_by(2).flat_map(name_record);
    [1, 1].into_iter().chain(names).chain(rest).collect()
}

fn definition(label: &str) -> &'static str {
    let start = format!("\ncase_{label} =");
    let (_, after) = CLAIM.split_once(&start).expect("the claim has every case");
    after.split("\n\n").next().unwrap()
}

fn byte(word: &str) -> Option<u8> {
    let hex = word.trim_matches(['(', ')']).strip_prefix("0x")?;
    Some(u8::from_str_radix(hex, 16).unwrap())
}

fn name_record(name: &str) -> Vec<u8> {
    let mut record = vec![0; 25];
    record[0] = 2;
    record[1..=name.len()].copy_from_slice(name.as_bytes());
    record
}
