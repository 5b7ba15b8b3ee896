//! A problem, read from a file and written as one.

use crate::scale::Scale;

pub const VARIABLES: usize = 64;
pub const FUNCTIONS: usize = 64;
pub const ENTRIES: usize = 4096;

/// The number of a refusal, and the byte place.
#[derive(Clone, Copy, Debug, PartialEq, Eq)]
pub struct Refusal {
    pub number: u16,
    pub place: usize,
}

fn refuse<T>(number: u16, place: usize) -> Result<T, Refusal> {
    Err(Refusal { number, place })
}

pub struct Problem<V> {
    pub variables: usize,
    pub functions: usize,
    pub domains: [u8; VARIABLES],
    pub arities: [u8; FUNCTIONS],
    pub scopes: [[u8; 4]; FUNCTIONS],
    /// Where each table begins, and after the last one where it ends.
    pub starts: [u16; FUNCTIONS + 1],
    pub entries: [V; ENTRIES],
}

fn half(bytes: &[u8], place: usize) -> usize {
    u16::from_le_bytes([bytes[place], bytes[place + 1]]) as usize
}

impl<V: Scale> Problem<V> {
    pub fn empty() -> Problem<V> {
        Problem {
            variables: 0,
            functions: 0,
            domains: [0; VARIABLES],
            arities: [0; FUNCTIONS],
            scopes: [[255; 4]; FUNCTIONS],
            starts: [0; FUNCTIONS + 1],
            entries: [V::NEUTRAL; ENTRIES],
        }
    }

    pub fn scope(&self, function: usize) -> &[u8] {
        &self.scopes[function][..self.arities[function] as usize]
    }

    pub fn table(&self, function: usize) -> &[V] {
        &self.entries[self.starts[function] as usize..self.starts[function + 1] as usize]
    }

    /// Replaces the problem by that of a file. A declined file leaves it as it was.
    pub fn read(&mut self, bytes: &[u8]) -> Result<(), Refusal> {
        if bytes.len() < 16 {
            return refuse(18, 0);
        }
        if half(bytes, 0) != V::CODE as usize {
            return refuse(19, 0);
        }
        let [variables, functions, entries] = [2, 4, 6].map(|place| half(bytes, place));
        for (count, most, place) in [(variables, VARIABLES, 2), (functions, FUNCTIONS, 4), (entries, ENTRIES, 6)] {
            if count > most {
                return refuse(20, place);
            }
        }
        let scopes_at = 16 + variables;
        let entries_at = scopes_at + 5 * functions;
        let end = entries_at + 4 * entries;
        for (place, wanted) in [(8, 16), (10, scopes_at), (12, entries_at), (14, end)] {
            if half(bytes, place) != wanted {
                return refuse(21, place);
            }
        }
        if bytes.len() != end {
            return refuse(21, 14);
        }
        let sizes = &bytes[16..scopes_at];
        if let Some(v) = sizes.iter().position(|size| !(1..=16).contains(size)) {
            return refuse(2, 16 + v);
        }
        let records = bytes[scopes_at..entries_at].as_chunks::<5>().0;
        let mut starts = [0; FUNCTIONS + 1];
        let mut total = 0;
        for (f, &[size, a, b, c, d]) in records.iter().enumerate() {
            let place = scopes_at + 5 * f;
            if !(1..=4).contains(&size) {
                return refuse(4, place);
            }
            let all = [a, b, c, d];
            let (scope, unused) = all.split_at(size as usize);
            let mut table = 1;
            let mut seen = 0u64;
            let mut twice = false;
            for &v in scope {
                if v as usize >= variables {
                    return refuse(5, place);
                }
                twice |= seen >> v & 1 == 1;
                seen |= 1 << v;
                table *= sizes[v as usize] as usize;
            }
            if twice {
                return refuse(6, place);
            }
            if table > 1024 || total + table > ENTRIES {
                return refuse(8, place);
            }
            if unused.iter().any(|byte| *byte != 255) {
                return refuse(22, place);
            }
            total += table;
            starts[f + 1] = total as u16;
        }
        if total != entries {
            return refuse(23, 6);
        }
        let words = bytes[entries_at..].as_chunks::<4>().0;
        // All words are tested before the first is stored.
        if words.iter().any(|word| V::read(u32::from_le_bytes(*word)).is_none()) {
            let bad = words.iter().position(|word| V::read(u32::from_le_bytes(*word)).is_none());
            return refuse(11, entries_at + 4 * bad.unwrap_or(0));
        }
        self.variables = variables;
        self.functions = functions;
        self.domains[..variables].copy_from_slice(sizes);
        for (f, &[size, a, b, c, d]) in records.iter().enumerate() {
            self.arities[f] = size;
            self.scopes[f] = [a, b, c, d];
        }
        self.starts = starts;
        for (entry, word) in self.entries.iter_mut().zip(words) {
            *entry = V::read(u32::from_le_bytes(*word)).unwrap_or(V::NEUTRAL);
        }
        Ok(())
    }

    /// Writes the file to the front of a buffer; answers its length.
    pub fn write(&self, out: &mut [u8]) -> Result<usize, Refusal> {
        let entries = self.starts[self.functions] as usize;
        let scopes_at = 16 + self.variables;
        let entries_at = scopes_at + 5 * self.functions;
        let end = entries_at + 4 * entries;
        if out.len() < end {
            return refuse(24, 0);
        }
        let header = [V::CODE as usize, self.variables, self.functions, entries, 16, scopes_at, entries_at, end];
        for (pair, number) in out.as_chunks_mut::<2>().0.iter_mut().zip(header) {
            *pair = (number as u16).to_le_bytes();
        }
        out[16..scopes_at].copy_from_slice(&self.domains[..self.variables]);
        for (f, record) in out[scopes_at..entries_at].as_chunks_mut::<5>().0.iter_mut().enumerate() {
            let [a, b, c, d] = self.scopes[f];
            *record = [self.arities[f], a, b, c, d];
        }
        for (bytes, entry) in out[entries_at..end].as_chunks_mut::<4>().0.iter_mut().zip(&self.entries) {
            *bytes = entry.word().to_le_bytes();
        }
        Ok(end)
    }
}
