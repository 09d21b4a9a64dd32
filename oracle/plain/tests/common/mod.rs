pub const FORMAT: [u8; 2] = [0x01, 0x01];

pub fn name(text: &str) -> Vec<u8> {
    let mut bytes = vec![0x02];
    bytes.extend_from_slice(text.as_bytes());
    bytes.resize(25, 0);
    bytes
}

/// Everything but the end record.
pub fn unended(names: &[&str], nodes: &[&[u8]]) -> Vec<u8> {
    let mut bytes = FORMAT.to_vec();
    for text in names {
        bytes.extend(name(text));
    }
    bytes.extend(nodes.concat());
    bytes
}

pub fn end(count: usize) -> Vec<u8> {
    vec![0x7F, (count % 256) as u8, (count / 256) as u8]
}

pub fn ended(names: &[&str], nodes: &[&[u8]]) -> Vec<u8> {
    [unended(names, nodes), end(nodes.len())].concat()
}

/// `exists f. (g < lit && P{field: f})`
pub fn full_record() -> Vec<u8> {
    ended(
        &["f", "g"],
        &[
            &[0x20, 1],
            &[0x22, 3, 0],
            &[0x17, 2, 0, 0, 1, 0],
            &[0x20, 0],
            &[0x30],
            &[0x31, 7, 0, 3, 0, 4, 0],
            &[0x18, 9, 0, 5, 0],
            &[0x10, 2, 0, 6, 0],
            &[0x16, 0, 0, 0, 7, 0],
        ],
    )
}
