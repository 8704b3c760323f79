//! The runtime's file is the published one, byte for byte.

mod sha256;

const PUBLISHED: &str = "51c1509c9f5bb9a232b9fc372a096ca44866c1356b2921ab4d7312926dd5a456";

#[test]
fn the_runtimes_file_is_unaltered() {
    assert_eq!(sha256::hex_digest(include_bytes!("../src/prediction.rs")), PUBLISHED);
}

#[test]
fn the_digest_is_right_on_the_standards_examples() {
    let cases = [
        ("", "e3b0c44298fc1c149afbf4c8996fb92427ae41e4649b934ca495991b7852b855"),
        ("abc", "ba7816bf8f01cfea414140de5dae2223b00361a396177a9cb410ff61f20015ad"),
        (
            "abcdbcdecdefdefgefghfghighijhijkijkljklmklmnlmnomnopnopq",
            "248d6a61d20638b8e5c026930c3e6039a33ce45964ff2167f6ecedd419db06c1",
        ),
    ];
    for (message, digest) in cases {
        assert_eq!(sha256::hex_digest(message.as_bytes()), digest);
    }
}
