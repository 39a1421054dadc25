//! Each published digest, keystream and ciphertext is what is computed for it. The file is the one
//! that both programs run; that it is whole is seen by the number of lines of each kind.

use reference::{des, md4, rc4};

fn octets(digits: &str) -> Vec<u8> {
    if digits == "-" {
        return Vec::new();
    }
    assert_eq!(digits.len() % 2, 0, "{digits}");
    (0..digits.len())
        .step_by(2)
        .map(|place| u8::from_str_radix(&digits[place..place + 2], 16).unwrap())
        .collect()
}

fn eight(digits: &str) -> [u8; 8] {
    octets(digits).try_into().unwrap()
}

#[test]
fn published_values() {
    let path = concat!(
        env!("CARGO_MANIFEST_DIR"),
        "/../crates/vectors/data/published.txt"
    );
    let text = std::fs::read_to_string(path).unwrap();
    let mut kind = "";
    let mut compared = [0; 3];
    for line in text.lines().filter(|line| !line.starts_with('#')) {
        if line.starts_with(':') {
            kind = line;
            continue;
        }
        let words: Vec<&str> = line.split(' ').collect();
        match (kind, words.as_slice()) {
            (":md4", [input, digest]) => {
                let computed = md4::md4(&octets(input)).unwrap();
                assert_eq!(computed.to_vec(), octets(digest), "{line}");
                compared[0] += 1;
            }
            (":rc4", [key, offset, stream]) => {
                let computed = rc4::keystream(&octets(key), offset.parse().unwrap()).unwrap();
                assert_eq!(computed.to_vec(), octets(stream), "{line}");
                compared[1] += 1;
            }
            (":des", [key, plain, cipher]) => {
                let key = des::drop_parity(&eight(key));
                assert_eq!(des::encrypt(&key, &eight(plain)), eight(cipher), "{line}");
                assert_eq!(des::decrypt(&key, &eight(cipher)), eight(plain), "{line}");
                compared[2] += 1;
            }
            _ => panic!("neither a vector nor a marker: {line}"),
        }
    }
    // RFC 1320 A.5 has 7 digests, RFC 6229 14 keys with 18 offsets each. DES: FIPS 81 has 3 blocks,
    // a textbook one, NBS SP 500-20 each bit of the text, those ciphertexts as texts, each bit of
    // the key, and 19 lines for the substitution tables.
    assert_eq!(compared, [7, 14 * 18, 3 + 1 + 64 + 64 + 56 + 19]);
}
