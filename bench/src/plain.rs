//! Read, sheets from seeds and in first-reached form, run, first failed test and compare in plain Rust.

use ranthelo_tests::enumeration::{Failed, Failure, Used};
use ranthelo_tests::reference::{
    Refusal, Summary, END, FAULT, MOST_BYTES, MOST_FAULTS, MOST_OPEN_PAIRS, MOST_PRESSES,
    MOST_TESTS, PRESS, QUIET, RULE, SIZE, START, TEST,
};

/// No rule at a pair.
pub const NONE: u8 = 255;

/// An output and a next state.
pub type Move = (u8, u8);

/// Where a pair stands in the tables.
pub fn pair(state: u8, input: u8) -> usize {
    usize::from(state) * 16 + usize::from(input)
}

/// An accepted sheet as tables, indexed by pair.
pub struct Tables<'a> {
    pub states: u8,
    pub inputs: u8,
    pub outputs: u8,
    /// Whether a pair without a rule stays.
    pub quiet: bool,
    /// The rules, with next state NONE where there is none.
    pub rules: [Move; 256],
    /// All faults in order, and where those of a pair begin and end.
    pub faults: [Move; 256],
    pub faults_at: [(u16, u16); 256],
    /// The states in which a mutant may wake, and how many they are.
    pub wakings: [u8; 16],
    pub waking: usize,
    /// The commands of the tests.
    pub suite: &'a [u8],
    pub summary: Summary,
}

fn refuse<T>(number: usize, place: usize) -> Result<T, Refusal> {
    Err(Refusal { number, place })
}

#[derive(Clone, Copy, PartialEq, PartialOrd)]
enum Phase {
    Size,
    Quiet,
    Rules,
    Faults,
    Starts,
    Tests,
}

/// Reads a sheet in one pass.
pub fn load(sheet: &[u8]) -> Result<Tables<'_>, Refusal> {
    if sheet.len() > MOST_BYTES {
        return refuse(1, MOST_BYTES);
    }
    let (mut n, mut k, mut m) = (0, 0, 0);
    let mut rules = [(0, NONE); 256];
    let mut faults = [(0, 0); 256];
    let mut faults_at = [(0, 0); 256];
    let (mut rule_count, mut fault_count, mut tests, mut presses) = (0, 0, 0, 0);
    let (mut last_rule, mut last_fault) = (None, None);
    let (mut suite_start, mut state) = (None, 0);
    let (mut wakings, mut waking) = ([0; 16], 1);
    let mut quiet = false;
    let mut phase = Phase::Size;
    let mut at = 0;
    loop {
        let rest = &sheet[at..];
        match *rest {
            [] => return refuse(2, at),
            [SIZE, ..] if phase == Phase::Size => {
                let [_, states, inputs, outputs, ..] = *rest else {
                    return refuse(2, at);
                };
                let fits = |v| (1..=16).contains(&v);
                if !(fits(states) && fits(inputs) && fits(outputs)) {
                    return refuse(4, at);
                }
                (n, k, m) = (states, inputs, outputs);
                phase = Phase::Quiet;
                at += 4;
            }
            [QUIET, ..] if phase == Phase::Quiet => {
                quiet = true;
                phase = Phase::Rules;
                at += 1;
            }
            [RULE, ..] if phase == Phase::Quiet || phase == Phase::Rules => {
                let [_, s, x, o, t, ..] = *rest else {
                    return refuse(2, at);
                };
                if s >= n || x >= k || o >= m || t >= n {
                    return refuse(5, at);
                }
                if last_rule >= Some((s, x)) {
                    return refuse(6, at);
                }
                last_rule = Some((s, x));
                rules[pair(s, x)] = (o, t);
                rule_count += 1;
                phase = Phase::Rules;
                at += 5;
            }
            [FAULT, ..] if phase >= Phase::Quiet && phase <= Phase::Faults => {
                let [_, s, x, o, t, ..] = *rest else {
                    return refuse(2, at);
                };
                if s >= n || x >= k || o >= m || t >= n {
                    return refuse(5, at);
                }
                if last_fault >= Some((s, x, o, t)) {
                    return refuse(6, at);
                }
                let p = pair(s, x);
                if rules[p].1 == NONE || rules[p] == (o, t) {
                    return refuse(7, at);
                }
                if fault_count == MOST_FAULTS {
                    return refuse(8, at);
                }
                last_fault = Some((s, x, o, t));
                faults[fault_count] = (o, t);
                if faults_at[p].1 == 0 {
                    faults_at[p].0 = fault_count as u16;
                }
                fault_count += 1;
                faults_at[p].1 = fault_count as u16;
                phase = Phase::Faults;
                at += 5;
            }
            [START, ..] if phase >= Phase::Quiet && phase <= Phase::Starts => {
                let [_, t, ..] = *rest else {
                    return refuse(2, at);
                };
                if t >= n {
                    return refuse(5, at);
                }
                if waking > 1 && t <= wakings[waking - 1] {
                    return refuse(6, at);
                }
                if t == 0 {
                    return refuse(7, at);
                }
                wakings[waking] = t;
                waking += 1;
                phase = Phase::Starts;
                at += 2;
            }
            [TEST, ..] if phase >= Phase::Quiet => {
                if tests == MOST_TESTS {
                    return refuse(8, at);
                }
                suite_start = suite_start.or(Some(at));
                tests += 1;
                presses = 0;
                state = 0;
                phase = Phase::Tests;
                at += 1;
            }
            [PRESS, ..] if phase == Phase::Tests => {
                let [_, x, ..] = *rest else {
                    return refuse(2, at);
                };
                if x >= k {
                    return refuse(5, at);
                }
                if presses == MOST_PRESSES {
                    return refuse(8, at);
                }
                let (_, t) = rules[pair(state, x)];
                if t == NONE {
                    return refuse(9, at);
                }
                presses += 1;
                state = t;
                at += 2;
            }
            [END, ..] if phase >= Phase::Quiet => break,
            _ => return refuse(3, at),
        }
    }
    if at + 1 < sheet.len() {
        return refuse(10, at + 1);
    }
    if !reaches_every_state(&rules, n, k) {
        return refuse(11, at);
    }
    let free = !quiet && (n > 1 || m > 1);
    let open_pairs = usize::from(waking > 1) + count_open_pairs(&rules, &faults_at, n, k, free);
    if open_pairs > MOST_OPEN_PAIRS {
        return refuse(12, at);
    }
    Ok(Tables {
        states: n,
        inputs: k,
        outputs: m,
        quiet,
        rules,
        faults,
        faults_at,
        wakings,
        waking,
        suite: &sheet[suite_start.unwrap_or(at)..at],
        summary: Summary {
            states: n.into(),
            presses: k.into(),
            sounds: m.into(),
            rules: rule_count,
            faults: fault_count,
            tests,
            open_pairs,
        },
    })
}

fn reaches_every_state(rules: &[Move; 256], n: u8, k: u8) -> bool {
    let mut reached = 1u32;
    let mut waiting = 1u32;
    while waiting != 0 {
        let s = waiting.trailing_zeros() as u8;
        waiting &= waiting - 1;
        for x in 0..k {
            let (_, t) = rules[pair(s, x)];
            if t != NONE && reached >> t & 1 == 0 {
                reached |= 1 << t;
                waiting |= 1 << t;
            }
        }
    }
    reached.count_ones() == n.into()
}

fn count_open_pairs(
    rules: &[Move; 256],
    faults_at: &[(u16, u16); 256],
    n: u8,
    k: u8,
    free: bool,
) -> usize {
    let mut open = 0;
    for s in 0..n {
        for x in 0..k {
            let p = pair(s, x);
            let unruled = rules[p].1 == NONE && free;
            open += usize::from(unruled || faults_at[p].1 > 0);
        }
    }
    open
}

/// Reads a sheet and gives its summary.
pub fn read(sheet: &[u8]) -> Result<Summary, Refusal> {
    load(sheet).map(|tables| tables.summary)
}

impl Tables<'_> {
    /// The number of choices at a pair.
    pub fn choices(&self, pair: usize) -> usize {
        let (begin, end) = self.faults_at[pair];
        if self.rules[pair].1 == NONE {
            match self.quiet {
                true => 1,
                false => usize::from(self.states) * usize::from(self.outputs),
            }
        } else {
            1 + usize::from(end - begin)
        }
    }

    /// A choice at a pair.
    pub fn choice(&self, pair: usize, choice: u8) -> Move {
        if self.rules[pair].1 == NONE && self.quiet {
            (0, (pair / 16) as u8)
        } else if self.rules[pair].1 == NONE {
            (choice / self.states, choice % self.states)
        } else if choice == 0 {
            self.rules[pair]
        } else {
            let (begin, _) = self.faults_at[pair];
            self.faults[usize::from(begin) + usize::from(choice) - 1]
        }
    }

    /// The mutant that a board describes: refusals 13 and 14.
    pub fn mutant(&self, board: &[u8]) -> Result<Mutant, Refusal> {
        if board.len() != self.summary.open_pairs {
            return refuse(13, 0);
        }
        let mut moves = [(0, 0); 256];
        let (mut start, mut next) = (0, 0);
        if self.waking > 1 {
            if usize::from(board[0]) >= self.waking {
                return refuse(14, 0);
            }
            start = self.wakings[usize::from(board[0])];
            next = 1;
        }
        for s in 0..self.states {
            for x in 0..self.inputs {
                let p = pair(s, x);
                let count = self.choices(p);
                let mut taken = 0;
                if count > 1 {
                    taken = board[next];
                    if usize::from(taken) >= count {
                        return refuse(14, next);
                    }
                    next += 1;
                }
                moves[p] = self.choice(p, taken);
            }
        }
        Ok(Mutant { start, moves })
    }

    /// The number of choices of each byte of a board.
    fn counts(&self) -> Vec<usize> {
        let waking = (self.waking > 1).then_some(self.waking);
        let pairs = (0..self.states).flat_map(|s| (0..self.inputs).map(move |x| pair(s, x)));
        let pairs = pairs.map(|p| self.choices(p)).filter(|&count| count > 1);
        waking.into_iter().chain(pairs).collect()
    }

    /// The bit of the waking state, if there is a choice.
    fn waking_bit(&self) -> u32 {
        u32::from(self.waking > 1)
    }

    /// A bit for each open pair, none for the others.
    fn bits(&self) -> [u32; 256] {
        let mut bits = [0; 256];
        let mut next = self.waking_bit();
        for s in 0..self.states {
            for x in 0..self.inputs {
                if self.choices(pair(s, x)) > 1 {
                    bits[pair(s, x)] = 1 << next;
                    next += 1;
                }
            }
        }
        bits
    }
}

/// A start, and a move at each pair.
pub struct Mutant {
    start: u8,
    moves: [Move; 256],
}

fn used(set: u32) -> Used {
    Used {
        number: set.count_ones() as usize,
        set: set as usize,
    }
}

/// Run: one output for each press at the buffer's front, and the open pairs used.
pub fn run(sheet: &[u8], board: &[u8], presses: &[u8], buffer: &mut [u8]) -> Result<Used, Refusal> {
    let tables = load(sheet)?;
    let mutant = tables.mutant(board)?;
    if let Some(index) = presses.iter().position(|&x| x >= tables.inputs) {
        return refuse(15, index);
    }
    if buffer.len() < presses.len() {
        return refuse(16, 0);
    }
    let bits = tables.bits();
    let (mut state, mut set) = (mutant.start, tables.waking_bit());
    for (output, &x) in buffer.iter_mut().zip(presses) {
        let p = pair(state, x);
        (*output, state) = mutant.moves[p];
        set |= bits[p];
    }
    Ok(used(set))
}

/// First failed test.
pub fn first_failed(sheet: &[u8], board: &[u8]) -> Result<Failed, Refusal> {
    let tables = load(sheet)?;
    let mutant = tables.mutant(board)?;
    let bits = tables.bits();
    let mut set = tables.waking_bit();
    let failure = walk(&tables, &mutant, |p| set |= bits[p]);
    let used = used(set);
    Ok(Failed { failure, used })
}

/// A tray of boards: the first failed test of each, 65,535 for none, at the front of the results.
pub fn tray(
    sheet: &[u8],
    boards: usize,
    choices: &[u8],
    results: &mut [u16],
) -> Result<(), Refusal> {
    let tables = load(sheet)?;
    let open = tables.summary.open_pairs;
    if boards.checked_mul(open) != Some(choices.len()) {
        return refuse(13, 0);
    }
    let counts = tables.counts();
    for (i, board) in choices.chunks_exact(open.max(1)).enumerate() {
        let high = board.iter().zip(&counts);
        if let Some(index) = high.into_iter().position(|(&c, &n)| usize::from(c) >= n) {
            return refuse(14, i * open + index);
        }
    }
    if results.len() < boards {
        return refuse(16, 0);
    }
    for (i, result) in results[..boards].iter_mut().enumerate() {
        let mutant = tables.mutant(&choices[i * open..][..open])?;
        *result = failure(&tables, &mutant).map_or(65_535, |failure| failure.test as u16);
    }
    Ok(())
}

/// The first test that a mutant fails.
pub fn failure(tables: &Tables<'_>, mutant: &Mutant) -> Option<Failure> {
    walk(tables, mutant, |_| ())
}

/// A mutant along the tests, up to its first wrong output; each pair is met.
fn walk(tables: &Tables<'_>, mutant: &Mutant, mut meet: impl FnMut(usize)) -> Option<Failure> {
    let (mut begun, mut position) = (0, 0);
    let (mut specified, mut given) = (0, 0);
    let mut rest = tables.suite;
    loop {
        match *rest {
            [TEST, ..] => {
                begun += 1;
                (position, specified, given) = (0, 0, mutant.start);
                rest = &rest[1..];
            }
            [_, x, ..] => {
                let (wanted, next) = tables.rules[pair(specified, x)];
                let (output, other) = mutant.moves[pair(given, x)];
                meet(pair(given, x));
                if output != wanted {
                    let test = begun - 1;
                    return Some(Failure { test, position });
                }
                (specified, given) = (next, other);
                position += 1;
                rest = &rest[2..];
            }
            _ => return None,
        }
    }
}

/// Compare: the length of the shortest distinguishing sequence, written to the buffer's front.
pub fn compare(sheet: &[u8], board: &[u8], buffer: &mut [u8]) -> Result<Option<usize>, Refusal> {
    let tables = load(sheet)?;
    let mutant = tables.mutant(board)?;
    if buffer.len() < usize::from(tables.states).pow(2) {
        return refuse(16, 0);
    }
    Ok(distinguish(&tables, &mutant, buffer))
}

/// Breadth first over the pairs of states that are met in step.
pub fn distinguish(tables: &Tables<'_>, mutant: &Mutant, sequence: &mut [u8]) -> Option<usize> {
    let mut seen = [false; 256];
    let mut queue = [0u8; 256];
    // How each pair in the queue was met: from which place in the queue, by which input.
    let mut came = [(0u8, 0u8); 256];
    queue[0] = mutant.start;
    seen[usize::from(mutant.start)] = true;
    let (mut head, mut tail) = (0, 1);
    while head < tail {
        let (specified, given) = (queue[head] / 16, queue[head] % 16);
        for x in 0..tables.inputs {
            let (wanted, next) = tables.rules[pair(specified, x)];
            if next == NONE {
                continue;
            }
            let (output, other) = mutant.moves[pair(given, x)];
            if output != wanted {
                return Some(trace(&came, head, x, sequence));
            }
            let met = pair(next, other);
            if !seen[met] {
                seen[met] = true;
                queue[tail] = met as u8;
                came[tail] = (head as u8, x);
                tail += 1;
            }
        }
        head += 1;
    }
    None
}

/// Writes the inputs that lead to a place in the queue, and one more; gives their number.
fn trace(came: &[(u8, u8); 256], place: usize, last: u8, sequence: &mut [u8]) -> usize {
    let mut length = 1;
    let mut at = place;
    while at > 0 {
        length += 1;
        at = came[at].0.into();
    }
    sequence[length - 1] = last;
    at = place;
    for slot in sequence[..length - 1].iter_mut().rev() {
        *slot = came[at].1;
        at = came[at].0.into();
    }
    length
}

/// The sheet of a seed at the buffer's front; its length.
pub fn generate(seed: u32, size: [u8; 3], buffer: &mut [u8]) -> Result<usize, Refusal> {
    if size.iter().any(|number| !(1..=16).contains(number)) {
        return refuse(4, 0);
    }
    if buffer.len() < MOST_BYTES {
        return refuse(16, 0);
    }
    let [states, inputs, outputs] = size;
    let mut sum = seed;
    let mut below = |bound| {
        sum = sum.wrapping_add(0x9E37_79B9);
        ((sum ^ (sum >> 16)) % u32::from(bound)) as u8
    };
    buffer[..4].copy_from_slice(&[SIZE, states, inputs, outputs]);
    let mut at = 4;
    let (mut faults, mut count) = ([[0; 5]; MOST_OPEN_PAIRS], 0);
    for s in 0..states {
        for x in 0..inputs {
            let (o, drawn, lot) = (below(outputs), below(states), below(8));
            let t = if x == 0 { (s + 1) % states } else { drawn };
            buffer[at..at + 5].copy_from_slice(&[RULE, s, x, o, t]);
            at += 5;
            if lot == 0 && outputs >= 2 && count < faults.len() {
                faults[count] = [FAULT, s, x, (o + 1) % outputs, t];
                count += 1;
            }
        }
    }
    for fault in &faults[..count] {
        buffer[at..at + 5].copy_from_slice(fault);
        at += 5;
    }
    buffer[at] = END;
    Ok(at + 1)
}

/// A mutant that passes the suite, and its shortest distinguishing sequence if it is nonconforming.
pub type Passing = (Vec<u8>, Option<Vec<u8>>);

/// Take, from the start or after a board: a board that fails is passed over with all that share the choices which its
/// failed test used. None after so many boards that fail.
pub fn take(sheet: &[u8], last: Option<&[u8]>, most: usize) -> Option<Option<Passing>> {
    let tables = load(sheet).ok()?;
    let counts = tables.counts();
    let mut board = last.map_or_else(|| vec![0; counts.len()], <[u8]>::to_vec);
    if last.is_some() && !advance(&mut board, &counts, counts.len()) {
        return Some(None);
    }
    let slots = tables.bits().map(|bit| 32 - bit.leading_zeros() as usize);
    for _ in 0..most {
        let mutant = tables.mutant(&board).ok()?;
        let Some(used) = blamed(&tables, &mutant, &slots) else {
            let mut sequence = [0; 256];
            let length = distinguish(&tables, &mutant, &mut sequence);
            return Some(Some((board, length.map(|n| sequence[..n].to_vec()))));
        };
        if !advance(&mut board, &counts, used) {
            return Some(None);
        }
    }
    None
}

/// The first board after those that share its first choices, so many; false if there is none.
fn advance(board: &mut [u8], counts: &[usize], shared: usize) -> bool {
    let grows = |&i: &usize| usize::from(board[i]) + 1 < counts[i];
    let Some(i) = (0..shared).rev().find(grows) else {
        return false;
    };
    board[i] += 1;
    board[i + 1..].fill(0);
    true
}

/// Up to which choice the first failed test of a mutant depends on its board, if it fails one.
fn blamed(tables: &Tables<'_>, mutant: &Mutant, slots: &[usize; 256]) -> Option<usize> {
    let (mut specified, mut given, mut used) = (0, 0, 0);
    let mut rest = tables.suite;
    loop {
        match *rest {
            [TEST, ..] => {
                (specified, given) = (0, mutant.start);
                used = usize::from(tables.waking > 1);
                rest = &rest[1..];
            }
            [_, x, ..] => {
                let (wanted, next) = tables.rules[pair(specified, x)];
                let (output, other) = mutant.moves[pair(given, x)];
                used = used.max(slots[pair(given, x)]);
                if output != wanted {
                    return Some(used);
                }
                (specified, given) = (next, other);
                rest = &rest[2..];
            }
            _ => return None,
        }
    }
}

/// Add a test: the sheet with it, the last, at the buffer's front.
pub fn add_test(sheet: &[u8], presses: &[u8], buffer: &mut [u8]) -> Result<usize, Refusal> {
    let tables = load(sheet)?;
    if tables.summary.tests == 256 {
        return refuse(8, 0);
    }
    let mut state = 0;
    for (index, &x) in presses.iter().enumerate() {
        if x >= tables.inputs {
            return refuse(5, index);
        }
        if index == 256 {
            return refuse(8, index);
        }
        state = tables.rules[pair(state, x)].1;
        if state == NONE {
            return refuse(9, index);
        }
    }
    let length = sheet.len() + 1 + 2 * presses.len();
    if length > MOST_BYTES {
        return refuse(1, 0);
    }
    if buffer.len() < length {
        return refuse(16, 0);
    }
    let (body, end) = sheet.split_at(sheet.len() - 1);
    buffer[..body.len()].copy_from_slice(body);
    buffer[body.len()] = TEST;
    for (to, &x) in buffer[body.len() + 1..].chunks_exact_mut(2).zip(presses) {
        to.copy_from_slice(&[PRESS, x]);
    }
    buffer[length - 1] = end[0];
    Ok(length)
}

/// The sheet in first-reached form at the buffer's front; its length.
pub fn renumber(sheet: &[u8], buffer: &mut [u8]) -> Result<usize, Refusal> {
    let tables = load(sheet)?;
    if buffer.len() < sheet.len() {
        return refuse(16, 0);
    }
    let (mut met, mut number, mut count) = ([0; 16], [NONE; 16], 1);
    number[0] = 0;
    let mut at = 0;
    while at < count {
        for input in 0..tables.inputs {
            let (_, t) = tables.rules[pair(met[at], input)];
            if t != NONE && number[usize::from(t)] == NONE {
                number[usize::from(t)] = count as u8;
                met[count] = t;
                count += 1;
            }
        }
        at += 1;
    }
    let length = sheet.len();
    buffer[..length].copy_from_slice(sheet);
    let name = |state: &mut u8| *state = number[usize::from(*state)];
    let rules = 4 + usize::from(tables.quiet);
    let faults = rules + 5 * tables.summary.rules;
    let starts = faults + 5 * tables.summary.faults;
    for part in [rules..faults, faults..starts] {
        let mut rows = [[0; 5]; 256];
        let rows = &mut rows[..part.len() / 5];
        for (row, bytes) in rows.iter_mut().zip(buffer[part.clone()].chunks_exact(5)) {
            row.copy_from_slice(bytes);
            name(&mut row[1]);
            name(&mut row[4]);
        }
        rows.sort_unstable();
        buffer[part].copy_from_slice(rows.as_flattened());
    }
    let mut states = [0; 16];
    let states = &mut states[..tables.waking - 1];
    states.copy_from_slice(&tables.wakings[1..tables.waking]);
    states.iter_mut().for_each(name);
    states.sort_unstable();
    for (i, state) in states.iter().enumerate() {
        buffer[starts + 2 * i + 1] = *state;
    }
    Ok(length)
}
