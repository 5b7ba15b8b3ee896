//! Solving: weights, kept links, messages up the forest, the plan, the figures.

use crate::problem::{FUNCTIONS, Problem, VARIABLES};
use crate::scale::{Measuring, Scale};

pub const ROW: usize = 16;
pub const LINKS: usize = 4 * FUNCTIONS;
const NODES: usize = VARIABLES + FUNCTIONS;
pub const VALUES: usize = ROW * NODES + LINKS;
pub const CHOICES: usize = ROW * FUNCTIONS;
const WEIGHTS: usize = ROW * NODES;
const NONE: u8 = 255;

#[derive(Clone, Copy)]
pub struct Report<V> {
    pub plan: [u8; VARIABLES],
    pub kept: [u64; 4],
    pub kept_count: u32,
    pub tree: V,
    pub score: V,
    pub removed: V,
    pub ceiling: V,
    pub share: u64,
}

impl<V: Scale> Report<V> {
    pub fn blank() -> Report<V> {
        Report {
            plan: [0; VARIABLES],
            kept: [0; 4],
            kept_count: 0,
            tree: V::NEUTRAL,
            score: V::NEUTRAL,
            removed: V::NEUTRAL,
            ceiling: V::NEUTRAL,
            share: 0,
        }
    }
}

/// The parts that links have joined so far.
struct Parts {
    up: [u8; NODES],
}

impl Parts {
    fn apart() -> Parts {
        Parts { up: std::array::from_fn(|node| node as u8) }
    }

    fn find(&mut self, node: usize) -> usize {
        let mut node = node;
        while self.up[node] as usize != node {
            let above = self.up[self.up[node] as usize];
            self.up[node] = above;
            node = above as usize;
        }
        node
    }

    /// Whether they were apart.
    fn join(&mut self, one: usize, other: usize) -> bool {
        let a = self.find(one);
        let b = self.find(other);
        self.up[a.max(b)] = a.min(b) as u8;
        a != b
    }
}

fn holds(kept: &[u64; 4], link: usize) -> bool {
    kept[link / 64] >> (link % 64) & 1 == 1
}

/// Room for as many values as a table has, made once for all functions.
struct Room<V> {
    highs: [V; 1024],
    lows: [V; 1024],
}

/// The widest gap between the highest and the lowest of `size` entries that stand `stride` apart.
fn weight<V: Measuring>(table: &[V], size: usize, stride: usize, room: &mut Room<V>) -> V {
    let mut widest = V::NEUTRAL;
    if stride == 1 {
        for line in table.chunks_exact(size) {
            let (high, low) = line[1..].iter().fold((line[0], line[0]), |(high, low), value| (high.max(*value), low.min(*value)));
            widest = widest.max(high.gap(low));
        }
        return widest;
    }
    let highs = &mut room.highs[..stride];
    let lows = &mut room.lows[..stride];
    for block in table.chunks_exact(size * stride) {
        let (first, rest) = block.split_at(stride);
        highs.copy_from_slice(first);
        lows.copy_from_slice(first);
        for line in rest.chunks_exact(stride) {
            for ((high, low), value) in highs.iter_mut().zip(lows.iter_mut()).zip(line) {
                *high = (*high).max(*value);
                *low = (*low).min(*value);
            }
        }
        for (high, low) in highs.iter().zip(lows.iter()) {
            widest = widest.max(high.gap(*low));
        }
    }
    widest
}

fn weigh<V: Measuring>(problem: &Problem<V>, weights: &mut [V]) {
    let mut room = Room { highs: [V::NEUTRAL; 1024], lows: [V::NEUTRAL; 1024] };
    for f in 0..problem.functions {
        let table = problem.table(f);
        let mut stride = table.len();
        for (p, v) in problem.scope(f).iter().enumerate() {
            let size = problem.domains[*v as usize] as usize;
            stride /= size;
            weights[4 * f + p] = weight(table, size, stride, &mut room);
        }
    }
}

/// The links from the heaviest, each that closes no cycle.
fn keep<V: Measuring>(problem: &Problem<V>, weights: &[V]) -> [u64; 4] {
    let mut room = [(V::NEUTRAL, 0u8); LINKS];
    let mut count = 0;
    for f in 0..problem.functions {
        for p in 0..problem.arities[f] as usize {
            room[count] = (weights[4 * f + p], (4 * f + p) as u8);
            count += 1;
        }
    }
    let order = &mut room[..count];
    order.sort_unstable_by(|one, other| other.0.cmp(&one.0).then(one.1.cmp(&other.1)));
    let mut kept = [0; 4];
    let mut parts = Parts::apart();
    for (_, link) in order.iter() {
        let link = *link as usize;
        let variable = problem.scopes[link / 4][link % 4] as usize;
        if parts.join(variable, VARIABLES + link / 4) {
            kept[link / 64] |= 1 << (link % 64);
        }
    }
    kept
}

/// All links; none where they form a cycle.
fn keep_all<V: Scale>(problem: &Problem<V>) -> Option<[u64; 4]> {
    let mut kept = [0; 4];
    let mut parts = Parts::apart();
    for f in 0..problem.functions {
        for (p, v) in problem.scope(f).iter().enumerate() {
            if !parts.join(*v as usize, VARIABLES + f) {
                return None;
            }
            let link = 4 * f + p;
            kept[link / 64] |= 1 << (link % 64);
        }
    }
    Some(kept)
}

/// The functions, each after the one that its parent hangs from.
struct Forest {
    order: [u8; FUNCTIONS],
    count: usize,
    /// The function that a variable hangs from, or `NONE`.
    above: [u8; VARIABLES],
    /// The place by which a function hangs.
    place: [u8; FUNCTIONS],
}

fn hang<V: Scale>(problem: &Problem<V>, kept: &[u64; 4]) -> Forest {
    let mut around = [0u64; VARIABLES];
    for f in 0..problem.functions {
        for (p, v) in problem.scope(f).iter().enumerate() {
            if holds(kept, 4 * f + p) {
                around[*v as usize] |= 1 << f;
            }
        }
    }
    let mut forest = Forest { order: [0; FUNCTIONS], count: 0, above: [NONE; VARIABLES], place: [0; FUNCTIONS] };
    let mut hung_variables = 0u64;
    let mut hung_functions = 0u64;
    let mut done = 0;
    for root in 0..problem.variables {
        if hung_variables >> root & 1 == 1 {
            continue;
        }
        hung_variables |= 1 << root;
        let mut hang_below = |variable: usize, forest: &mut Forest| {
            let mut below = around[variable] & !hung_functions;
            hung_functions |= below;
            while below != 0 {
                let f = below.trailing_zeros() as usize;
                below &= below - 1;
                let place = problem.scope(f).iter().position(|v| *v as usize == variable);
                forest.place[f] = place.unwrap_or(0) as u8;
                forest.order[forest.count] = f as u8;
                forest.count += 1;
            }
        };
        hang_below(root, &mut forest);
        while done < forest.count {
            let f = forest.order[done] as usize;
            done += 1;
            for (p, v) in problem.scope(f).iter().enumerate() {
                if holds(kept, 4 * f + p) && hung_variables >> *v & 1 == 0 {
                    hung_variables |= 1 << *v;
                    forest.above[*v as usize] = f as u8;
                    hang_below(*v as usize, &mut forest);
                }
            }
        }
    }
    forest
}

/// The lowest of `size` entries that stand `stride` apart, for all values of the others: the table of these, with 0 at the place.
fn cut<V: Scale>(table: &mut [V], size: usize, stride: usize) -> usize {
    let blocks = table.len() / (size * stride);
    if stride == 1 {
        for block in 0..blocks {
            let line = &table[block * size..(block + 1) * size];
            table[block] = line[1..].iter().fold(line[0], |low, value| low.min(*value));
        }
        return blocks;
    }
    for block in 0..blocks {
        let from = block * size * stride;
        table.copy_within(from..from + stride, block * stride);
        for x in 1..size {
            let (front, line) = table.split_at_mut(from + x * stride);
            for (low, value) in front[block * stride..][..stride].iter_mut().zip(&line[..stride]) {
                *low = (*low).min(*value);
            }
        }
    }
    blocks * stride
}

/// The message of a function and its choices; the message is joined to that of its parent.
fn send<V: Scale>(problem: &Problem<V>, kept: &[u64; 4], forest: &Forest, f: usize, room: &mut [V; 1024], values: &mut [V], choices: &mut [u16]) {
    let scope = problem.scope(f);
    let table = problem.table(f);
    // Four levels, those before the first place of size 1.
    let first = 4 - scope.len();
    let mut sizes = [1; 4];
    let mut strides = [0; 4];
    let mut below = [[V::NEUTRAL; ROW]; 4];
    let mut stride = 1;
    for (p, v) in scope.iter().enumerate().rev() {
        let v = *v as usize;
        sizes[first + p] = problem.domains[v] as usize;
        strides[first + p] = stride;
        stride *= problem.domains[v] as usize;
        if forest.above[v] as usize == f {
            below[first + p].copy_from_slice(&values[ROW * v..ROW * (v + 1)]);
        }
    }
    let mut entries = table;
    let all = (1 << scope.len()) - 1;
    let removed = !(kept[f / 16] >> (4 * (f % 16))) & all;
    if removed != 0 {
        room[..table.len()].copy_from_slice(table);
        let mut length = table.len();
        // From the last place on, so that the strides before it count what is left.
        let mut stride = 1;
        for p in (0..scope.len()).rev() {
            if removed >> p & 1 == 1 {
                length = cut(&mut room[..length], sizes[first + p], stride);
                sizes[first + p] = 1;
            }
            stride *= sizes[first + p];
        }
        entries = &room[..length];
    }
    let parent = first + forest.place[f] as usize;
    let mut best = [V::LOWEST; ROW];
    let mut index = [0u16; ROW];
    let mut rows = entries.chunks_exact(sizes[3]);
    for a in 0..sizes[0] {
        for b in 0..sizes[1] {
            let two = below[0][a].join(below[1][b]);
            for c in 0..sizes[2] {
                let Some(row) = rows.next() else { break };
                let three = two.join(below[2][c]);
                let at = (a * strides[0] + b * strides[1] + c * strides[2]) as u16;
                if parent == 3 {
                    for (x, ((entry, best), index)) in row.iter().zip(&mut best).zip(&mut index).enumerate() {
                        let value = entry.join(three);
                        if value > *best {
                            *best = value;
                            *index = at + x as u16;
                        }
                    }
                } else {
                    let x = [a, b, c][parent];
                    let (mut high, mut place) = (best[x], index[x]);
                    for (d, (entry, below)) in row.iter().zip(&below[3]).enumerate() {
                        let value = entry.join(*below).join(three);
                        if value > high {
                            high = value;
                            place = at + d as u16;
                        }
                    }
                    best[x] = high;
                    index[x] = place;
                }
            }
        }
    }
    let size = sizes[parent];
    let above = scope[parent - first] as usize;
    values[ROW * (VARIABLES + f)..][..size].copy_from_slice(&best[..size]);
    choices[ROW * f..][..size].copy_from_slice(&index[..size]);
    for (sum, value) in values[ROW * above..][..size].iter_mut().zip(&best) {
        *sum = sum.join(*value);
    }
}

/// The lowest value at which a message is highest.
fn highest<V: Scale>(message: &[V]) -> usize {
    let mut best = 0;
    for (x, value) in message.iter().enumerate() {
        if *value > message[best] {
            best = x;
        }
    }
    best
}

/// From the kept links to the report.
fn fill<V: Scale>(problem: &Problem<V>, kept: [u64; 4], values: &mut [V], choices: &mut [u16], report: &mut Report<V>) {
    let forest = hang(problem, &kept);
    let mut room = [V::NEUTRAL; 1024];
    for f in forest.order[..forest.count].iter().rev() {
        send(problem, &kept, &forest, *f as usize, &mut room, values, choices);
    }
    let mut plan = [0; VARIABLES];
    let mut tree = V::NEUTRAL;
    for v in 0..problem.variables {
        if forest.above[v] == NONE {
            let message = &values[ROW * v..][..problem.domains[v] as usize];
            let best = highest(message);
            plan[v] = best as u8;
            tree = tree.join(message[best]);
        }
    }
    for f in &forest.order[..forest.count] {
        let f = *f as usize;
        let scope = problem.scope(f);
        let x = plan[scope[forest.place[f] as usize] as usize] as usize;
        let mut rest = choices[ROW * f + x] as usize;
        for v in scope.iter().rev() {
            let v = *v as usize;
            let size = problem.domains[v] as usize;
            if forest.above[v] as usize == f {
                plan[v] = (rest % size) as u8;
            }
            rest /= size;
        }
    }
    let mut score = V::NEUTRAL;
    let mut removed = V::NEUTRAL;
    for f in 0..problem.functions {
        let mut index = 0;
        for (p, v) in problem.scope(f).iter().enumerate() {
            let v = *v as usize;
            index = index * problem.domains[v] as usize + plan[v] as usize;
            if !holds(&kept, 4 * f + p) {
                removed = removed.join(values[WEIGHTS + 4 * f + p]);
            }
        }
        score = score.join(problem.table(f)[index]);
    }
    let ceiling = tree.join(removed);
    let share = match (score.show().0, ceiling.show().0) {
        (part, whole) if part > 0 && whole > 0 => 1000 * part as u64 / whole as u64,
        _ => 0,
    };
    let kept_count = kept.iter().map(|word| word.count_ones()).sum();
    *report = Report { plan, kept, kept_count, tree, score, removed, ceiling, share };
}

fn check<V: Scale>(problem: &Problem<V>, values: &[V], choices: &[u16]) -> Result<(), u16> {
    if values.len() != VALUES || choices.len() != CHOICES {
        return Err(1);
    }
    if problem.variables == 0 {
        return Err(12);
    }
    Ok(())
}

/// Solves with the lightest links removed, and fills both stores.
pub fn bounded_solve<V: Measuring>(problem: &Problem<V>, values: &mut [V], choices: &mut [u16], report: &mut Report<V>) -> Result<(), u16> {
    check(problem, values, choices)?;
    values.fill(V::NEUTRAL);
    choices.fill(0);
    weigh(problem, &mut values[WEIGHTS..]);
    let kept = keep(problem, &values[WEIGHTS..]);
    fill(problem, kept, values, choices, report);
    Ok(())
}

/// Solves with all links, where they form no cycle, and fills both stores.
pub fn straight_solve<V: Scale>(problem: &Problem<V>, values: &mut [V], choices: &mut [u16], report: &mut Report<V>) -> Result<(), u16> {
    check(problem, values, choices)?;
    let kept = keep_all(problem).ok_or(13u16)?;
    values.fill(V::NEUTRAL);
    choices.fill(0);
    fill(problem, kept, values, choices, report);
    Ok(())
}
