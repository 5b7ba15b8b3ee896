//! The problems that are timed, and random small ones that are compared; each the same in every run.

/// Numbers that look random.
pub struct Numbers(u64);

impl Numbers {
    pub fn from(seed: u64) -> Numbers {
        Numbers(seed.wrapping_mul(0x9e37_79b9_7f4a_7c15) | 1)
    }

    /// One of 0 to `count` - 1.
    pub fn below(&mut self, count: usize) -> usize {
        self.0 ^= self.0 << 13;
        self.0 ^= self.0 >> 7;
        self.0 ^= self.0 << 17;
        ((self.0 >> 33) % count as u64) as usize
    }

    fn between(&mut self, low: i32, high: i32) -> i32 {
        low + self.below((high - low + 1) as usize) as i32
    }
}

/// Domain sizes and scopes.
#[derive(Clone)]
pub struct Shape {
    pub domains: Vec<usize>,
    pub scopes: Vec<Vec<usize>>,
}

impl Shape {
    fn table(&self, scope: &[usize]) -> usize {
        scope.iter().map(|v| self.domains[*v]).product()
    }

    pub fn entries(&self) -> usize {
        self.scopes.iter().map(|scope| self.table(scope)).sum()
    }

    /// Without the functions that would close a cycle.
    fn without_cycles(&self) -> Shape {
        let mut parts: Vec<usize> = (0..self.domains.len()).collect();
        let mut scopes = Vec::new();
        for scope in &self.scopes {
            let joined: Vec<usize> = scope.iter().map(|v| parts[*v]).collect();
            if (1..joined.len()).any(|p| joined[..p].contains(&joined[p])) {
                continue;
            }
            for part in &mut parts {
                if joined.contains(part) {
                    *part = joined[0];
                }
            }
            scopes.push(scope.clone());
        }
        Shape { domains: self.domains.clone(), scopes }
    }

    /// The file of the shape with random words: of the whole range of a scale, or of a few values, so that many are equal.
    pub fn file(&self, code: u16, numbers: &mut Numbers, few: bool) -> Vec<u8> {
        let (variables, functions, entries) = (self.domains.len(), self.scopes.len(), self.entries());
        let scopes_at = 16 + variables;
        let entries_at = scopes_at + 5 * functions;
        let header = [code as usize, variables, functions, entries, 16, scopes_at, entries_at, entries_at + 4 * entries];
        let mut bytes: Vec<u8> = header.iter().flat_map(|number| (*number as u16).to_le_bytes()).collect();
        bytes.extend(self.domains.iter().map(|size| *size as u8));
        for scope in &self.scopes {
            let mut record = [255; 5];
            record[0] = scope.len() as u8;
            for (byte, v) in record[1..].iter_mut().zip(scope) {
                *byte = *v as u8;
            }
            bytes.extend(record);
        }
        for _ in 0..entries {
            bytes.extend(word(code, numbers, few).to_le_bytes());
        }
        bytes
    }
}

fn word(code: u16, numbers: &mut Numbers, few: bool) -> u32 {
    match (code, few) {
        (1, false) => numbers.between(-1_000_000, 1_000_000) as u32,
        (1, true) => numbers.between(-2, 3) as u32,
        (3, _) => {
            let span = if few { 1 } else { 1000 };
            let first = numbers.between(-span, span);
            let second = numbers.between(-span, span);
            first as u32 & 0xffff | (second as u32) << 16
        }
        (_, false) => numbers.between(0, 1000) as u32,
        (_, true) => 250 * numbers.between(0, 4) as u32,
    }
}

pub struct Input {
    pub name: String,
    pub code: u16,
    pub entries: usize,
    pub bytes: Vec<u8>,
}

fn input(name: &str, code: u16, shape: &Shape) -> Input {
    let shape = if code == 4 { shape.without_cycles() } else { shape.clone() };
    let seed = name.bytes().fold(code as u64, |sum, byte| sum.wrapping_mul(31).wrapping_add(byte as u64));
    Input { name: name.to_string(), code, entries: shape.entries(), bytes: shape.file(code, &mut Numbers::from(seed), false) }
}

/// A ring of functions on two neighbours each.
fn ring(variables: usize, even: usize, odd: usize) -> Shape {
    Shape {
        domains: (0..variables).map(|v| if v % 2 == 0 { even } else { odd }).collect(),
        scopes: (0..variables).map(|v| vec![v, (v + 1) % variables]).collect(),
    }
}

fn chain(functions: usize) -> Shape {
    Shape { domains: vec![8; functions + 1], scopes: (0..functions).map(|v| vec![v, v + 1]).collect() }
}

/// Forty cameras in 8 columns and 5 rows; sixty pairs of neighbours.
fn hall() -> Shape {
    let (columns, rows) = (8, 5);
    let domains = (0..columns * rows).map(|v| 4 + (3 * (v % columns) + 2 * (v / columns)) % 5).collect();
    let mut scopes = Vec::new();
    for v in 0..columns * rows {
        if v % columns + 1 < columns {
            scopes.push(vec![v, v + 1]);
        }
        if v + columns < columns * rows && v % 5 != 2 {
            scopes.push(vec![v, v + columns]);
        }
    }
    scopes.truncate(60);
    Shape { domains, scopes }
}

/// Sixty-four functions of four places, with 64 entries each.
fn wide() -> Shape {
    let scope = |f: usize| {
        let steps = if f < 32 { [0, 1, 10, 23] } else { [0, 3, 14, 29] };
        steps.iter().map(|step| (2 * f + step) % 64).collect()
    };
    Shape { domains: (0..64).map(|v| if v % 2 == 0 { 4 } else { 2 }).collect(), scopes: (0..64).map(scope).collect() }
}

/// Four functions of four places, with 1,024 entries each.
fn blocks() -> Shape {
    let domains = [4, 8].iter().cycle().take(10).copied().collect();
    Shape { domains, scopes: (0..4).map(|f| (0..4).map(|p| (2 * f + p) % 10).collect()).collect() }
}

/// What is timed: one of each kind in each scale.
pub fn kinds() -> Vec<Input> {
    let shapes = [("small", ring(8, 3, 3)), ("camera hall", hall()), ("chain", chain(63)), ("wide", wide()), ("blocks", blocks())];
    shapes.iter().flat_map(|(name, shape)| (1..=4).map(move |code| input(name, code, shape))).collect()
}

/// Problems whose entries double: by larger tables, and by more of them.
pub fn growing() -> Vec<Input> {
    let sizes = [(2, 2), (4, 2), (4, 4), (8, 4), (8, 8), (16, 8), (16, 16)];
    let mut inputs = Vec::new();
    for code in [1, 3] {
        for (even, odd) in sizes {
            inputs.push(input("larger tables", code, &ring(16, even, odd)));
        }
        for functions in [1, 2, 4, 8, 16, 32] {
            inputs.push(input("more tables", code, &chain(functions)));
        }
        inputs.push(input("more tables", code, &ring(64, 8, 8)));
    }
    inputs
}

/// A small random problem.
pub fn random(code: u16, seed: u64) -> Vec<u8> {
    let mut numbers = Numbers::from(seed);
    let variables = 1 + numbers.below(9);
    let most = [2, 3, 5, 16][numbers.below(4)];
    let domains: Vec<usize> = (0..variables).map(|_| 1 + numbers.below(most)).collect();
    let mut shape = Shape { domains, scopes: Vec::new() };
    for _ in 0..numbers.below(11) {
        let mut scope: Vec<usize> = Vec::new();
        for _ in 0..1 + numbers.below(4) {
            let v = numbers.below(variables);
            if !scope.contains(&v) {
                scope.push(v);
            }
        }
        if shape.table(&scope) <= 1024 && shape.entries() + shape.table(&scope) <= 4096 {
            shape.scopes.push(scope);
        }
    }
    if code == 4 && numbers.below(4) > 0 {
        shape = shape.without_cycles();
    }
    let few = numbers.below(2) == 0;
    shape.file(code, &mut numbers, few)
}

/// The same with a few bytes changed, or cut short, so that most are declined.
pub fn broken(code: u16, seed: u64) -> Vec<u8> {
    let mut bytes = random(code, seed);
    let mut numbers = Numbers::from(seed ^ 0x5555_5555);
    for _ in 0..1 + numbers.below(2) {
        let at = match numbers.below(3) {
            0 => numbers.below(16),
            _ => numbers.below(bytes.len().min(80)),
        };
        bytes[at] = [0, 1, 2, 5, 17, 255, 64, 65][numbers.below(8)];
    }
    if numbers.below(8) == 0 {
        bytes.truncate(numbers.below(bytes.len()));
    }
    bytes
}
