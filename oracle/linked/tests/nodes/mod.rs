use plain::{read, Record};

pub fn record(names: &[&str], nodes: &[&[u8]]) -> Record {
    let mut bytes = vec![0x01, 0x01];
    for text in names {
        bytes.push(0x02);
        bytes.extend(text.bytes().chain(std::iter::repeat(0)).take(24));
    }
    bytes.extend(nodes.concat());
    bytes.push(0x7F);
    bytes.extend((nodes.len() as u16).to_le_bytes());
    read(&bytes).unwrap()
}
