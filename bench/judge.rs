// Times judging a pattern file, from its bytes to the text that is printed: the proved judge beside an ordinary program
// for the same search, in one run. With --check and the names of pattern files it prints what the ordinary one says.
use std::fmt::Write;
use std::hint::black_box;

unsafe extern "C" {
    // The proved judge: it puts its text into the room that it is lent, and answers the text's length.
    fn kazhulwi_judge(file: *const u8, len: usize, text: *mut u8, room: usize) -> usize;

    // C's processor time of this process, in microseconds.
    safe fn clock() -> std::ffi::c_long;
}

const FINDS: usize = 1024;

// Room for the longest text, which is that of a certificate of 1,024 sets with 20 digits each.
const ROOM: usize = 64 * 1024;

#[derive(Clone, Copy)]
enum Row {
    Constant(bool),
    State(u16),
    Signal(u16),
    And(u16, u16),
    Or(u16, u16),
    Not(u16),
}

struct Pattern {
    signals: u8,
    start: u8,
    finals: u64,
    roots: Vec<u16>,
    rows: Vec<Row>,
}

struct Refusal {
    number: u8,
    layer: &'static str,
    place: usize,
}

fn ask(yes: bool, number: u8, place: usize) -> Result<(), Refusal> {
    let layer = match number {
        20..=24 => "block",
        25 | 26 => "record",
        _ => "table",
    };
    if yes { Ok(()) } else { Err(Refusal { number, layer, place }) }
}

fn word(bytes: &[u8], at: usize) -> u16 {
    u16::from_le_bytes([bytes[at], bytes[at + 1]])
}

// The payload of the blocks.
fn read_blocks(file: &[u8]) -> Result<Vec<u8>, Refusal> {
    let fits = (512..=6656).contains(&file.len()) && file.len() % 512 == 0;
    ask(fits, 20, file.len())?;
    let count = file.len() / 512;
    let mut payload = Vec::with_capacity(504 * count);
    for (b, block) in file.chunks_exact(512).enumerate() {
        let sum: u32 = block[..508].iter().zip(1u32..).map(|(x, i)| i * *x as u32).sum();
        ask(sum == u32::from_le_bytes(block[508..].try_into().unwrap()), 21, b)?;
        ask(word(block, 0) as usize == b, 22, b)?;
        let used = word(block, 2) as usize;
        ask(used == 504 || (b + 1 == count && (1..=504).contains(&used)), 23, b)?;
        ask(block[4 + used..508].iter().all(|x| *x == 0), 24, b)?;
        payload.extend_from_slice(&block[4..4 + used]);
    }
    Ok(payload)
}

impl Pattern {
    fn read(file: &[u8]) -> Result<Pattern, Refusal> {
        let p = read_blocks(file)?;
        ask(p.len() >= 16 && p[0] == 1 && p[14] == 0 && p[15] == 0, 25, 0)?;
        let (states, signals, start, total) = (p[1] as usize, p[2], p[3], word(&p, 4) as usize);
        ask(p.len() == 16 + 2 * states + 6 * total, 26, 0)?;
        let fits = (1..=64).contains(&states) && signals <= 16 && (1..=1024).contains(&total);
        ask(fits, 1, 0)?;
        let finals = u64::from_le_bytes(p[6..14].try_into().unwrap());
        ask((start as usize) < states && (states == 64 || finals >> states == 0), 2, 0)?;
        let roots: Vec<u16> = p[16..16 + 2 * states].chunks_exact(2).map(|x| word(x, 0)).collect();
        for (q, root) in roots.iter().enumerate() {
            ask((*root as usize) < total, 3, q)?;
        }
        let mut rows = Vec::with_capacity(total);
        let mut free = Vec::with_capacity(total);
        for (i, bytes) in p[16 + 2 * states..].chunks_exact(6).enumerate() {
            let row = read_row(bytes, i)?;
            let below = |x: u16| (x as usize) < i;
            let placed = match row {
                Row::Constant(_) => true,
                Row::State(q) => (q as usize) < states,
                Row::Signal(s) => s < signals as u16,
                Row::And(l, r) | Row::Or(l, r) => below(l) && below(r),
                Row::Not(l) => below(l),
            };
            ask(placed, 5, i)?;
            let is_free = match row {
                Row::Constant(_) | Row::Signal(_) => true,
                Row::State(_) => false,
                Row::And(l, r) | Row::Or(l, r) => free[l as usize] && free[r as usize],
                Row::Not(l) => free[l as usize],
            };
            ask(is_free || !matches!(row, Row::Not(_)), 6, i)?;
            free.push(is_free);
            rows.push(row);
        }
        Ok(Pattern { signals, start, finals, roots, rows })
    }

    // The states whose root is 1 under the event and the set. `values` has room for the rows' values.
    fn back(&self, event: u16, set: u64, values: &mut [bool]) -> u64 {
        for (i, row) in self.rows.iter().enumerate() {
            values[i] = match *row {
                Row::Constant(value) => value,
                Row::State(q) => set >> q & 1 == 1,
                Row::Signal(s) => event >> s & 1 == 1,
                Row::And(l, r) => values[l as usize] && values[r as usize],
                Row::Or(l, r) => values[l as usize] || values[r as usize],
                Row::Not(l) => !values[l as usize],
            };
        }
        let mut found = 0;
        for (q, root) in self.roots.iter().enumerate() {
            if values[*root as usize] {
                found |= 1 << q;
            }
        }
        found
    }
}

fn read_row(bytes: &[u8], i: usize) -> Result<Row, Refusal> {
    let (left, right) = (word(bytes, 2), word(bytes, 4));
    ask(bytes[1] == 0, 4, i)?;
    match (bytes[0], left, right) {
        (0, 0, 0) => Ok(Row::Constant(false)),
        (1, 0, 0) => Ok(Row::Constant(true)),
        (2, q, 0) => Ok(Row::State(q)),
        (3, s, 0) => Ok(Row::Signal(s)),
        (4, l, r) => Ok(Row::And(l, r)),
        (5, l, r) => Ok(Row::Or(l, r)),
        (6, l, 0) => Ok(Row::Not(l)),
        _ => Err(Refusal { number: 4, layer: "table", place: i }),
    }
}

struct Find {
    set: u64,
    origin: usize,
    event: u16,
    length: usize,
}

enum Verdict {
    Matches(Vec<u16>),
    Never(Vec<u64>),
    Full(usize),
}

struct Search<'a> {
    pattern: &'a Pattern,
    finds: Vec<Find>,
    held: Vec<u64>,
    values: Vec<bool>,
    row: usize,
    queries: usize,
}

impl<'a> Search<'a> {
    fn new(pattern: &'a Pattern) -> Search<'a> {
        let values = vec![false; pattern.rows.len()];
        let finds = Vec::with_capacity(FINDS);
        Search { pattern, finds, held: Vec::with_capacity(FINDS), values, row: 0, queries: 0 }
    }

    fn run(&mut self) -> Verdict {
        self.record(Find { set: self.pattern.finals, origin: 0, event: 0, length: 0 });
        if self.is_goal(self.pattern.finals) {
            return Verdict::Matches(Vec::new());
        }
        loop {
            self.queries += 1;
            let length = self.finds[self.row].length;
            let Some((event, set)) = self.least_new() else {
                self.row += 1;
                if self.row == self.finds.len() {
                    return Verdict::Never(self.certificate());
                }
                continue;
            };
            if self.finds.len() == FINDS {
                return Verdict::Full(length);
            }
            self.record(Find { set, origin: self.row, event, length: length + 1 });
            if self.is_goal(set) {
                return Verdict::Matches(self.sequence());
            }
        }
    }

    // The least event that leads back from the row that is expanded to a set that no held set covers.
    fn least_new(&mut self) -> Option<(u16, u64)> {
        let here = self.finds[self.row].set;
        for event in 0..1u32 << self.pattern.signals {
            let set = self.pattern.back(event as u16, here, &mut self.values);
            if !self.held.iter().any(|cover| set & !cover == 0) {
                return Some((event as u16, set));
            }
        }
        None
    }

    fn record(&mut self, find: Find) {
        self.held.retain(|set| set & !find.set != 0);
        self.held.push(find.set);
        self.finds.push(find);
    }

    fn is_goal(&self, set: u64) -> bool {
        set >> self.pattern.start & 1 == 1
    }

    fn sequence(&self) -> Vec<u16> {
        let mut events = Vec::new();
        let mut find = &self.finds[self.finds.len() - 1];
        while find.length > 0 {
            events.push(find.event);
            find = &self.finds[find.origin];
        }
        events
    }

    fn certificate(&self) -> Vec<u64> {
        let sets = self.finds.iter().map(|find| find.set);
        sets.filter(|set| self.held.contains(set)).collect()
    }
}

// The text that is printed of a file.
fn judge(file: &[u8]) -> String {
    let mut text = String::new();
    let pattern = match Pattern::read(file) {
        Ok(pattern) => pattern,
        Err(Refusal { number, layer, place }) => {
            writeln!(text, "refused {number} {layer} {place}").unwrap();
            return text;
        }
    };
    let mut search = Search::new(&pattern);
    let verdict = search.run();
    let word = match verdict {
        Verdict::Matches(_) => "MATCHES",
        Verdict::Never(_) => "NEVER",
        Verdict::Full(_) => "FULL",
    };
    writeln!(text, "verdict {word}").unwrap();
    writeln!(text, "queries {}", search.queries).unwrap();
    writeln!(text, "finds {}", search.finds.len()).unwrap();
    match verdict {
        Verdict::Matches(events) => {
            writeln!(text, "length {}", events.len()).unwrap();
            for event in events {
                writeln!(text, "event {event}").unwrap();
            }
        }
        Verdict::Never(sets) => {
            for set in sets {
                writeln!(text, "held {set}").unwrap();
            }
        }
        Verdict::Full(cleared) => writeln!(text, "length {cleared}").unwrap(),
    }
    text
}

// A pattern as rows of a file are written: operation, left, right.
struct Draft {
    signals: u8,
    start: u8,
    finals: u64,
    roots: Vec<u16>,
    rows: Vec<(u8, u16, u16)>,
}

impl Draft {
    fn add(&mut self, operation: u8, left: u16, right: u16) -> u16 {
        self.rows.push((operation, left, right));
        self.rows.len() as u16 - 1
    }

    fn file(&self) -> Vec<u8> {
        let mut p = vec![1, self.roots.len() as u8, self.signals, self.start];
        p.extend_from_slice(&(self.rows.len() as u16).to_le_bytes());
        p.extend_from_slice(&self.finals.to_le_bytes());
        p.extend_from_slice(&[0, 0]);
        for root in &self.roots {
            p.extend_from_slice(&root.to_le_bytes());
        }
        for (operation, left, right) in &self.rows {
            p.extend_from_slice(&[*operation, 0]);
            p.extend_from_slice(&left.to_le_bytes());
            p.extend_from_slice(&right.to_le_bytes());
        }
        let mut file = Vec::new();
        for (b, part) in p.chunks(504).enumerate() {
            let mut block = vec![0u8; 508];
            block[0..2].copy_from_slice(&(b as u16).to_le_bytes());
            block[2..4].copy_from_slice(&(part.len() as u16).to_le_bytes());
            block[4..4 + part.len()].copy_from_slice(part);
            let sum: u32 = block.iter().zip(1u32..).map(|(x, i)| i * *x as u32).sum();
            block.extend_from_slice(&sum.to_le_bytes());
            file.extend(block);
        }
        file
    }
}

// Worked back it keeps the last event, a state for each signal on and one for each signal off; the start asks for
// nothing that comes. So the store fills up with sets of which none covers another.
fn register(signals: u8) -> Draft {
    let start = 2 * signals;
    let mut draft = Draft { signals, start, finals: 0, roots: Vec::new(), rows: Vec::new() };
    for i in 0..signals as u16 {
        let on = draft.add(3, i, 0);
        let off = draft.add(6, on, 0);
        draft.roots.extend([on, off]);
    }
    let never = draft.add(0, 0, 0);
    draft.roots.push(never);
    draft
}

// Conditions by chance: each state asks for some signals on or off, and for one of two pairs of states.
fn by_chance(seed: u64, states: u16, signals: u8) -> Draft {
    let mut state = seed.wrapping_mul(0x9E37_79B9_7F4A_7C15);
    let mut below = |limit: u16| {
        state ^= state << 13;
        state ^= state >> 7;
        state ^= state << 17;
        ((state >> 11) % limit as u64) as u16
    };
    let mut draft = Draft { signals, start: 0, finals: 0, roots: Vec::new(), rows: Vec::new() };
    for i in 0..signals as u16 {
        draft.add(3, i, 0);
    }
    for i in 0..signals as u16 {
        draft.add(6, i, 0);
    }
    for q in 0..states {
        draft.add(2, q, 0);
    }
    let first = 2 * signals as u16;
    for q in 0..states {
        let guard = draft.add(4 + below(2) as u8, below(first), below(first));
        let one = draft.add(4, first + below(states), first + below(states));
        let other = draft.add(4, first + below(states), below(first));
        let either = draft.add(5, one, other);
        let root = draft.add(4, guard, either);
        draft.roots.push(root);
        if below(3) == 0 && q > 0 {
            draft.finals |= 1 << q;
        }
    }
    draft
}

fn patterns() -> Vec<(&'static str, Vec<u8>)> {
    vec![
        ("8 signals, many sets", register(8).file()),
        ("8 signals, by chance", by_chance(12, 24, 8).file()),
        ("12 signals, many sets", register(12).file()),
        ("12 signals, by chance", by_chance(48, 20, 12).file()),
        ("16 signals, many sets", register(16).file()),
        ("16 signals, by chance", by_chance(26, 16, 16).file()),
    ]
}

fn proved(file: &[u8], text: &mut [u8]) -> usize {
    unsafe { kazhulwi_judge(file.as_ptr(), file.len(), text.as_mut_ptr(), text.len()) }
}

// The processor time of a call in milliseconds, over some calls; other work on the machine does not count.
fn time(turns: u32, mut call: impl FnMut()) -> f64 {
    let start = clock();
    for _ in 0..turns {
        call();
    }
    (clock() - start) as f64 / 1e3 / turns as f64
}

// Compares what the two make of a file, and times them in turn: the best of seven rounds each.
fn compare(name: &str, file: &[u8]) {
    let mut text = vec![0; ROOM];
    let expected = judge(file);
    let turns = 1 + (20.0 / time(1, || drop(judge(black_box(file))))) as u32;
    let len = proved(file, &mut text);
    assert_eq!(std::str::from_utf8(&text[..len]), Ok(expected.as_str()), "{name}");
    let (mut ours, mut theirs) = (f64::MAX, f64::MAX);
    for _ in 0..7 {
        ours = ours.min(time(turns, || {
            black_box(proved(black_box(file), &mut text));
        }));
        theirs = theirs.min(time(turns, || {
            black_box(judge(black_box(file)));
        }));
    }
    let head: Vec<&str> = expected.lines().take(3).collect();
    println!(
        "{name} ({}): proved {ours:.2} ms, ordinary {theirs:.2} ms, ratio {:.2}",
        head.join(", "),
        ours / theirs
    );
}

fn main() {
    let words: Vec<String> = std::env::args().skip(1).collect();
    if words.first().is_some_and(|word| word == "--check") {
        for name in &words[1..] {
            let file = std::fs::read(name).unwrap();
            let name = std::path::Path::new(name).file_name().unwrap().to_string_lossy();
            print!("case {name}\n{}", judge(&file));
        }
        return;
    }
    for (name, file) in patterns() {
        compare(name, &file);
    }
}
