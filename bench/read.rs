// Times reading a 13-block pattern file: the proved reader beside an ordinary one, in one run.
use std::hint::black_box;
use std::time::Instant;

unsafe extern "C" {
    fn kazhulwi_read(file: *const u8, len: usize) -> u8;
}

#[derive(Clone, Copy, Default)]
struct Row {
    operation: u8,
    left: u16,
    right: u16,
}

fn word(bytes: &[u8], at: usize) -> u16 {
    u16::from_le_bytes([bytes[at], bytes[at + 1]])
}

// An ordinary reader: it checks the blocks, gathers the payload, and fills the tables as it asks the questions.
fn read(file: &[u8], roots: &mut [u16; 64], rows: &mut [Row; 1024]) -> u8 {
    if file.len() < 512 || file.len() > 6656 || file.len() % 512 != 0 {
        return 20;
    }
    let count = file.len() / 512;
    let mut payload = Vec::with_capacity(504 * count);
    for (b, block) in file.chunks_exact(512).enumerate() {
        let sum: u32 = block[..508].iter().zip(1u32..).map(|(x, i)| i * *x as u32).sum();
        if sum != u32::from_le_bytes(block[508..512].try_into().unwrap()) {
            return 21;
        }
        if word(block, 0) as usize != b {
            return 22;
        }
        let used = word(block, 2) as usize;
        let right = if b + 1 == count { (1..=504).contains(&used) } else { used == 504 };
        if !right {
            return 23;
        }
        if block[4 + used..508].iter().any(|x| *x != 0) {
            return 24;
        }
        payload.extend_from_slice(&block[4..4 + used]);
    }
    let p = &payload;
    if p.len() < 16 || p[0] != 1 || p[14] != 0 || p[15] != 0 {
        return 25;
    }
    let (n, m, start, total) = (p[1] as usize, p[2], p[3] as usize, word(p, 4) as usize);
    if p.len() != 16 + 2 * n + 6 * total {
        return 26;
    }
    let finals = u64::from_le_bytes(p[6..14].try_into().unwrap());
    if n == 0 || n > 64 || m > 16 || total == 0 || total > 1024 {
        return 1;
    }
    if start >= n || (n < 64 && finals >> n != 0) {
        return 2;
    }
    for q in 0..n {
        roots[q] = word(p, 16 + 2 * q);
        if roots[q] as usize >= total {
            return 3;
        }
    }
    let mut free = [false; 1024];
    for (i, bytes) in p[16 + 2 * n..].chunks_exact(6).enumerate() {
        let row = Row { operation: bytes[0], left: word(bytes, 2), right: word(bytes, 4) };
        let (l, r) = (row.left as usize, row.right as usize);
        let known = match row.operation {
            0 | 1 => l == 0 && r == 0,
            2 | 3 | 6 => r == 0,
            4 | 5 => true,
            _ => false,
        };
        if !known || bytes[1] != 0 {
            return 4;
        }
        let placed = match row.operation {
            0 | 1 => true,
            2 => l < n,
            3 => l < m as usize,
            6 => l < i,
            _ => l < i && r < i,
        };
        if !placed {
            return 5;
        }
        if row.operation == 6 && !free[l] {
            return 6;
        }
        free[i] = match row.operation {
            2 => false,
            0 | 1 | 3 => true,
            6 => free[l],
            _ => free[l] && free[r],
        };
        rows[i] = row;
    }
    0
}

// A file of 64 states and 1,024 rows: signals, states, then ANDs, ORs and NOTs over earlier rows.
fn largest() -> Vec<u8> {
    let mut p = vec![1, 64, 16, 0, 0, 4];
    p.extend_from_slice(&u64::MAX.to_le_bytes());
    p.extend_from_slice(&[0, 0]);
    for q in 0..64u16 {
        p.extend_from_slice(&(1023 - q).to_le_bytes());
    }
    for i in 0..1024u16 {
        let (operation, left, right) = match i {
            0..=15 => (3u8, i, 0),
            16..=79 => (2, i - 16, 0),
            _ if i % 5 == 0 => (6, i % 16, 0),
            _ => (4 + (i % 2) as u8, i - 1 - i % 7, i - 2 - i % 11),
        };
        p.extend_from_slice(&[operation, 0]);
        p.extend_from_slice(&left.to_le_bytes());
        p.extend_from_slice(&right.to_le_bytes());
    }
    let mut file = Vec::new();
    for (b, part) in p.chunks(504).enumerate() {
        let mut block = vec![0u8; 508];
        block[0..2].copy_from_slice(&(b as u16).to_le_bytes());
        block[2..4].copy_from_slice(&(part.len() as u16).to_le_bytes());
        block[4..4 + part.len()].copy_from_slice(part);
        let sum: u32 = block.iter().zip(1u32..).map(|(x, i)| i * *x as u32).sum();
        block.extend_from_slice(&sum.to_le_bytes());
        file.extend(block);
    }
    file
}

fn time(turns: u32, mut f: impl FnMut() -> u8) -> f64 {
    let start = Instant::now();
    for _ in 0..turns {
        black_box(f());
    }
    start.elapsed().as_secs_f64() / turns as f64 * 1e6
}

fn main() {
    let file = largest();
    assert_eq!(file.len(), 13 * 512);
    let ours = |f: &[u8]| unsafe { kazhulwi_read(f.as_ptr(), f.len()) };
    let theirs = |f: &[u8]| {
        let (mut roots, mut rows) = ([0; 64], [Row::default(); 1024]);
        let answer = read(f, &mut roots, &mut rows);
        black_box((&roots, &rows));
        answer
    };
    // both readers agree on the file and on damage at every byte
    assert_eq!((ours(&file), theirs(&file)), (0, 0));
    for i in 0..file.len() {
        let mut damaged = file.clone();
        damaged[i] ^= 1 << (i % 8);
        assert_eq!(ours(&damaged), theirs(&damaged), "byte {i}");
    }
    for round in 1..=5 {
        let a = time(20_000, || ours(black_box(&file)));
        let b = time(20_000, || theirs(black_box(&file)));
        println!("round {round}: proved {a:.2} us, ordinary {b:.2} us, ratio {:.2}", a / b);
    }
}
