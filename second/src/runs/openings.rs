//! Short runs about the H line: good ones, bad ones of every kind, and none at all.

use crate::random::Random;

const OWN: &str = "41312020202020202020202000000001";
const SHORTEST: &str = "7e202020202020202020202000000001";
const NO_SERIAL: &str = "20202020202020202020202000000001";

/// Openings that are not well formed: 19. The last piece of some is cut off before its LF.
const MALFORMED: [&str; 34] = [
    "",
    "\n",
    "H",
    "H\n",
    "H\t4\t1\t0\n",
    "H\t4\t1\t0\t\n",
    "H\t4\t1\t0\t41312020202020202020202000000001",
    "H\t4\t1\t0\t41312020202020202020202000000001\r\n",
    "H\t4\t1\t0\t41312020202020202020202000000001\t\n",
    "H\t4\t1\t0\t41312020202020202020202000000001\t0\n",
    "H\t4\t1\t0\t4131202020202020202020200000000\n",
    "H\t4\t1\t0\t413120202020202020202020000000011\n",
    "H\t4\t1\t0\t4131202020202020202020200000000A\n",
    "H\t4\t1\t0\t4131202020202020202020200000000g\n",
    "H\t-\t1\t0\t41312020202020202020202000000001\n",
    "H\t4\t1\t-\t41312020202020202020202000000001\n",
    "H\t4\t--\t0\t41312020202020202020202000000001\n",
    "H\t4\t-1\t0\t41312020202020202020202000000001\n",
    "H\t4\t\t0\t41312020202020202020202000000001\n",
    "H\t04\t1\t0\t41312020202020202020202000000001\n",
    "H\t4\t01\t0\t41312020202020202020202000000001\n",
    "H\t4\t1\t00\t41312020202020202020202000000001\n",
    "H\t+4\t1\t0\t41312020202020202020202000000001\n",
    "H\t100\t1\t0\t41312020202020202020202000000001\n",
    "H\t260\t1\t0\t41312020202020202020202000000001\n",
    "H\t4\t100\t0\t41312020202020202020202000000001\n",
    "H\t4\t257\t0\t41312020202020202020202000000001\n",
    "H\t4\t1\t100\t41312020202020202020202000000001\n",
    "H\t4\t1\t256\t41312020202020202020202000000001\n",
    "h\t4\t1\t0\t41312020202020202020202000000001\n",
    " H\t4\t1\t0\t41312020202020202020202000000001\n",
    "H 4 1 0 41312020202020202020202000000001\n",
    "E\t2\n",
    "\nH\t4\t1\t0\t41312020202020202020202000000001\n",
];

const EVENTS: &str = "S\nE\t2\nE\t1\nV\t0\t+\t2\t-\nA\t0\t+\t1\t41312020202020202020202000000001\n";

/// The opening of a short run by its number: first the malformed ones, then random numbers.
pub fn make(random: &mut Random, number: usize) -> Vec<u8> {
    let mut bytes = match MALFORMED.get(number) {
        Some(text) => text.as_bytes().to_vec(),
        None => numbers(random).into_bytes(),
    };
    // What follows a bad opening is not read, and an opening cut off has nothing after it.
    if bytes.ends_with(b"\n") && random.chance(70) {
        bytes.extend_from_slice(EVENTS.as_bytes());
    }
    bytes
}

/// Well-formed openings around the edges of setup, often with more than one thing wrong.
fn numbers(random: &mut Random) -> String {
    let n = match random.below(4) {
        0 => random.pick(&[0, 1, 2, 3, 65, 66, 99]),
        _ => random.between(4, 64),
    };
    let largest = (n + 1) / 5;
    let f = match random.below(5) {
        0 => "0".to_string(),
        1 => "-".to_string(),
        2 => (largest + 1).to_string(),
        3 => random.between(1, 99).to_string(),
        _ => largest.to_string(),
    };
    let seat = match random.below(4) {
        0 => n.min(99),
        1 => random.between(0, 99),
        _ => random.below(n.max(1)),
    };
    let own = random.pick(&[OWN, OWN, SHORTEST, NO_SERIAL, "41203120202020202020202000000001"]);
    format!("H\t{n}\t{f}\t{seat}\t{own}\n")
}
