// Compares `who_knows` with two independent implementations, first what it says and then how fast.
// Built and run by bench/who_knows.sh.
use std::hint::black_box;
use std::time::Instant;

unsafe extern "C" {
    fn purwefi_who_knows(n: u16, calls: *const u16, calls_len: usize, told: *mut u64, told_len: usize) -> bool;
}

// The proved function. It asks nothing of its caller but valid slices.
fn proved(n: u16, calls: &[u16]) -> [u64; 3] {
    let mut told = [9; 3];
    assert!(unsafe { purwefi_who_knows(n, calls.as_ptr(), calls.len(), told.as_mut_ptr(), told.len()) });
    told
}

// The faults that every implementation must tell, in this order.
fn fault(n: u16, calls: &[u16]) -> Option<u64> {
    if !(1..=1024).contains(&n) {
        return Some(2);
    }
    if calls.len() % 2 == 1 {
        return Some(1);
    }
    calls.iter().any(|hut| *hut >= n).then_some(2)
}

// A table of truth values, and a count of those that are false.
fn by_table(n: u16, calls: &[u16]) -> [u64; 3] {
    if let Some(number) = fault(n, calls) {
        return [2, number, 0];
    }
    let n = n as usize;
    let mut known = vec![false; n * n];
    for hut in 0..n {
        known[hut * n + hut] = true;
    }
    let mut missing = n * n - n;
    if missing == 0 {
        return [0, 0, 0];
    }
    for (at, call) in calls.chunks_exact(2).enumerate() {
        let (a, e) = (call[0] as usize * n, call[1] as usize * n);
        for hut in 0..n {
            let both = known[a + hut] || known[e + hut];
            missing -= (both && !known[a + hut]) as usize;
            known[a + hut] = both;
            missing -= (both && !known[e + hut]) as usize;
            known[e + hut] = both;
        }
        if missing == 0 {
            return [0, at as u64 + 1, 0];
        }
    }
    let at = known.iter().position(|k| !*k).unwrap();
    [1, (at / n) as u64, (at % n) as u64]
}

// Bits of words, as a Rust programmer would write it: the huts that know all are counted.
fn by_bits(n: u16, calls: &[u16]) -> [u64; 3] {
    if let Some(number) = fault(n, calls) {
        return [2, number, 0];
    }
    let n = n as usize;
    let mut rows = vec![[0u64; 16]; n];
    let mut all = [0u64; 16];
    for hut in 0..n {
        rows[hut][hut / 64] |= 1 << (hut % 64);
        all[hut / 64] |= 1 << (hut % 64);
    }
    let mut full = rows.iter().filter(|row| **row == all).count();
    if full == n {
        return [0, 0, 0];
    }
    for (at, call) in calls.chunks_exact(2).enumerate() {
        let (a, e) = (call[0] as usize, call[1] as usize);
        full -= (rows[a] == all) as usize + (a != e && rows[e] == all) as usize;
        let mut both = rows[a];
        for (word, other) in both.iter_mut().zip(&rows[e]) {
            *word |= other;
        }
        rows[a] = both;
        rows[e] = both;
        if both == all {
            full += 1 + (a != e) as usize;
        }
        if full == n {
            return [0, at as u64 + 1, 0];
        }
    }
    let hut = rows.iter().position(|row| *row != all).unwrap();
    let other = (0..n).find(|k| rows[hut][k / 64] >> (k % 64) & 1 == 0).unwrap();
    [1, hut as u64, other as u64]
}

struct Random(u64);

impl Random {
    fn below(&mut self, n: u64) -> u64 {
        self.0 ^= self.0 << 13;
        self.0 ^= self.0 >> 7;
        self.0 ^= self.0 << 17;
        (self.0 >> 11) % n
    }

    fn calls(&mut self, n: u64, count: u64) -> Vec<u16> {
        (0..2 * count).map(|_| self.below(n) as u16).collect()
    }
}

fn plan(n: u16) -> Vec<u16> {
    let hub: Vec<u16> = (4..n).flat_map(|hut| [0, hut]).collect();
    [&hub[..], &[0, 1, 2, 3, 0, 2, 1, 3], &hub].concat()
}

fn compare(random: &mut Random) {
    let (mut tried, mut kinds) = (0, [0; 3]);
    for round in 0..60_000 {
        let n = match round % 10 {
            0 => random.below(1030),
            1 => 4 + random.below(200),
            _ => 1 + random.below(24),
        } as u16;
        let count = random.below(4 * u64::from(n.max(4)));
        let mut calls = if round % 3 == 0 && n >= 4 { plan(n) } else { random.calls(u64::from(n.max(1)), count) };
        match random.below(6) {
            0 => {
                calls.pop();
            }
            1 if !calls.is_empty() => {
                let at = random.below(calls.len() as u64) as usize;
                calls[at] = random.below(2 * u64::from(n) + 2) as u16;
            }
            2 if calls.len() > 1 => {
                let at = random.below(calls.len() as u64 / 2) as usize * 2;
                calls.drain(at..at + 2);
            }
            _ => {}
        }
        let told = proved(n, &calls);
        assert_eq!(told, by_bits(n, &calls), "n = {n}, calls {calls:?}");
        if n <= 300 {
            assert_eq!(told, by_table(n, &calls), "n = {n}, calls {calls:?}");
        }
        kinds[told[0] as usize] += 1;
        tried += 1;
    }
    println!("{tried} lists of calls compared, none differs: {} complete, {} lack, {} refused", kinds[0], kinds[1], kinds[2]);
}

fn measure(name: &str, what: &str, n: u16, calls: &[u16], f: fn(u16, &[u16]) -> [u64; 3]) {
    let mut best = f64::MAX;
    for _ in 0..20 {
        let start = Instant::now();
        for _ in 0..10 {
            black_box(f(black_box(n), black_box(calls)));
        }
        best = best.min(start.elapsed().as_secs_f64() / 10.0);
    }
    println!("{what:<44} {name:<8} {:>9.1} us", best * 1e6);
}

fn main() {
    let mut random = Random(0x9e37_79b9_7f4a_7c15);
    compare(&mut random);
    let whole = plan(1024);
    let mut late = whole.clone();
    late.drain(late.len() - 2..);
    late.extend((0..2053).flat_map(|k| [4 + k % 900, 5 + k % 900]));
    let wild = random.calls(1024, 4096);
    let lists: [(&str, u16, &[u16]); 4] = [
        ("1024 huts, 4096 calls, one hut left out", 1024, &late),
        ("1024 huts, 4096 random calls", 1024, &wild),
        ("1024 huts, the plan's 2044 calls", 1024, &whole),
        ("200 huts, the plan's 396 calls", 200, &plan(200)),
    ];
    for (what, n, calls) in lists {
        measure("proved", what, n, calls, proved);
        measure("bits", what, n, calls, by_bits);
        measure("table", what, n, calls, by_table);
    }
}
