//! The names of errors.

use second::errors::{name, put_name};
use second::refusal::Refusal;

#[test]
fn table_6() {
    let named: Vec<u8> = (0..=255).filter(|code| !name(*code).is_empty()).collect();
    assert_eq!(named, (129..=142).collect::<Vec<u8>>());
    assert_eq!(name(0x81), "UnrecognizedMIN");
    assert_eq!(name(0x83), "MSID/HLRMismatch");
    assert_eq!(name(0x85), "ResourceShortage");
    assert_eq!(name(0x8A), "UnrecognizedParameterValue");
    assert_eq!(name(0x8E), "TMSI/VLRMismatch");
}

#[test]
fn buffers() {
    for code in 0..=255 {
        let name = name(code).as_bytes();
        assert!(name.len() <= 26);
        for octets in 0..30 {
            let mut buffer = vec![0x5A; octets];
            let answer = put_name(code, &mut buffer);
            let changed = if octets < name.len() {
                assert_eq!(answer, Err(Refusal::new(17, name.len(), "")));
                0
            } else {
                assert_eq!(answer, Ok(name.len()));
                name.len()
            };
            assert_eq!(buffer[..changed], name[..changed]);
            assert!(buffer[changed..].iter().all(|octet| *octet == 0x5A));
        }
    }
}
