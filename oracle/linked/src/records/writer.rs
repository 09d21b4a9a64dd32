//! Nodes one after the other, each by its bytes and the nodes that it refers to.

pub struct Writer {
    bytes: Vec<u8>,
    nodes: u16,
}

impl Writer {
    pub fn with_names(names: usize) -> Writer {
        let mut bytes = vec![1, 1];
        bytes.extend((0..names).flat_map(name));
        Writer { bytes, nodes: 0 }
    }

    pub fn ended(mut self) -> Vec<u8> {
        self.bytes.push(0x7F);
        self.bytes.extend(self.nodes.to_le_bytes());
        self.bytes
    }

    /// The kind and the fields before the references, the references, and the fields after them.
    pub fn node(&mut self, before: &[u8], references: &[u16], after: &[u8]) -> u16 {
        self.bytes.extend(before);
        for number in references {
            self.bytes.extend(number.to_le_bytes());
        }
        self.bytes.extend(after);
        self.nodes += 1;
        self.nodes - 1
    }

    pub fn call(&mut self) -> u16 {
        self.node(&[0x1B, 0, 0], &[], &[])
    }

    pub fn tp(&mut self, name: u8) -> u16 {
        self.node(&[0x1A, 0, name], &[], &[])
    }

    pub fn predicate(&mut self, arguments: u16) -> u16 {
        self.node(&[0x18, 0, 0], &[arguments], &[])
    }

    /// With a literal on the right, and no equality.
    pub fn comparison(&mut self, left: u16) -> u16 {
        let right = self.literal();
        self.node(&[0x17, 3], &[left, right], &[])
    }

    pub fn var(&mut self, name: u8) -> u16 {
        self.node(&[0x20, name], &[], &[])
    }

    pub fn literal(&mut self) -> u16 {
        self.node(&[0x22, 0, 0], &[], &[])
    }

    pub fn list_end(&mut self) -> u16 {
        self.node(&[0x30], &[], &[])
    }

    pub fn argument(&mut self, term: u16, rest: u16) -> u16 {
        self.node(&[0x31, 0, 0], &[term, rest], &[])
    }

    pub fn item(&mut self, term: u16, rest: u16) -> u16 {
        self.node(&[0x32], &[term, rest], &[])
    }

    pub fn binder(&mut self, name: u8, rest: u16) -> u16 {
        self.node(&[0x33, 0, name, 0], &[rest], &[])
    }

    /// A balanced tree over conditions.
    pub fn joined(&mut self, kind: u8, mut conditions: Vec<u16>) -> u16 {
        while conditions.len() > 1 {
            conditions = conditions
                .chunks(2)
                .map(|pair| match *pair {
                    [left, right] => self.node(&[kind], &[left, right], &[]),
                    _ => pair[0],
                })
                .collect();
        }
        conditions[0]
    }
}

/// Alike but for their number, as a table's names often are.
fn name(number: usize) -> [u8; 25] {
    let mut record = [0; 25];
    let text = format!("field_{number:03}");
    record[0] = 2;
    record[1..=text.len()].copy_from_slice(text.as_bytes());
    record
}
