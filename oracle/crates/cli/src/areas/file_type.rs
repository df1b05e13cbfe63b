//! File types: `ft`, `simft` and `ftname`.
use super::{Lines, any_hex, then_random};
use crate::hex::hex;
use crate::rng::Rng;

const NAMES: &[&str] = &[
    "O", "I", "S", "B", "T", "C", "R", "N", "F", "ST", "A", "L", "MG", "PD", "PLS",
];
/// Every letter of a name, and of those the ones that a name of three could have.
const LETTERS: &[u8] = b"OISBTCRNFALMGPDoisbtcrnfalmgpd";
const OF_THREE: &[u8] = b"PLSTDplstd";

pub fn lines(rng: Rng) -> Lines {
    let codes = |call: &str| (0..=255).map(|c| format!("{call} {c:02X}")).collect();
    let mut names: Vec<Vec<u8>> = vec![Vec::new()];
    names.extend(NAMES.iter().map(|n| n.as_bytes().to_vec()));
    names.extend((0..=255).map(|b| vec![b]));
    for &a in LETTERS {
        names.extend(LETTERS.iter().map(|&b| vec![a, b]));
    }
    for &a in OF_THREE {
        for &b in OF_THREE {
            names.extend(OF_THREE.iter().map(|&c| vec![a, b, c]));
        }
    }
    let names = names.iter().map(|n| format!("ftname {}", hex(n))).collect();
    then_random(vec![codes("ft"), codes("simft"), names], rng, random)
}

fn random(rng: &mut Rng) -> String {
    match rng.below(5) {
        0 => {
            let code = rng.byte();
            format!("ft {}", any_hex(rng, &[code]))
        }
        1 => {
            let code = rng.byte();
            format!("simft {}", any_hex(rng, &[code]))
        }
        _ => {
            let name = name(rng);
            format!("ftname {}", any_hex(rng, &name))
        }
    }
}

fn name(rng: &mut Rng) -> Vec<u8> {
    let mut name = rng.pick(NAMES).as_bytes().to_vec();
    let at = rng.below(name.len());
    match rng.below(8) {
        0 => {}
        1 => name[at] = name[at].to_ascii_lowercase(),
        2 => name[at] = rng.pick(LETTERS),
        3 => name[at] = rng.byte(),
        4 => name.push(rng.pick(b"\0 0:SGD")),
        5 => name.insert(0, rng.pick(b"\0 PMS")),
        6 => name = (0..3).map(|_| rng.pick(LETTERS)).collect(),
        _ => {
            let n = rng.below(6);
            name = rng.bytes(n);
        }
    }
    name
}
