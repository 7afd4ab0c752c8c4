//! Ten routines with a long loop and two options each, over 64 settings from equal numbers: one shared run of the bench beside a plain program that configures
//! and runs the 64 settings one after another.
#[allow(dead_code)]
#[path = "src/paper/mod.rs"]
mod paper;

use std::time::Instant;

// rust/measure.c has them: a shared run gives its visits, a plain run its steps
extern "C" {
    fn shared_run(
        image: *const u8,
        length: usize,
        set: u64,
        budget: u32,
        store: *mut i32,
        steps: *mut u32,
    ) -> usize;
    fn plain_run(
        image: *const u8,
        length: usize,
        setting: u64,
        budget: u32,
        numbers: *mut i32,
    ) -> usize;
}

/// An image with six options: its conditions and nodes as words.
struct Routine {
    conditions: Vec<u32>,
    nodes: Vec<u64>,
}

impl Routine {
    fn node(&mut self, kind: u64, variable: u64, a: u64, b: u64, c: u64) -> u64 {
        self.nodes
            .push(kind << 58 | variable << 52 | a << 40 | b << 28 | c << 16);
        self.nodes.len() as u64 - 1
    }

    fn number(&mut self, value: i32) -> u64 {
        self.nodes.push(value as u32 as u64);
        self.nodes.len() as u64 - 1
    }

    /// variable := variable + (condition: first, else second)
    fn add(&mut self, variable: u64, condition: u64, first: i32, second: i32) -> u64 {
        let from = self.node(1, variable, 0, 0, 0);
        let (first, second) = (self.number(first), self.number(second));
        let by = self.node(4, 0, condition, first, second);
        let sum = self.node(2, 0, from, by, 0);
        self.node(17, variable, sum, 0, 0)
    }

    fn bytes(&self) -> Vec<u8> {
        let header = 1u64 << 56
            | 6 << 52
            | (self.conditions.len() as u64) << 40
            | (self.nodes.len() as u64) << 28;
        let mut out = header.to_be_bytes().to_vec();
        self.conditions
            .iter()
            .for_each(|word| out.extend(word.to_be_bytes()));
        self.nodes
            .iter()
            .for_each(|word| out.extend(word.to_be_bytes()));
        out
    }
}

/// A loop that the budget ends: some additions by one option, and a test of what the other adds.
fn routine(k: u64, additions: u64) -> Vec<u8> {
    let (one, other) = (k % 6, (k + 1 + k / 6) % 6);
    let mut r = Routine {
        conditions: vec![2 << 28 | (one as u32) << 24, 2 << 28 | (other as u32) << 24],
        nodes: vec![],
    };
    let always = r.node(9, 0, 0, 0, 0);
    let mut body = r.add(0, 0, 1, 2);
    for v in 0..additions {
        let next = r.add(1 + v % 8, v % 2, 3 + v as i32, -5);
        body = r.node(18, 0, body, next, 0);
    }
    let (left, right) = (r.node(1, 9, 0, 0, 0), r.number(1_000_000));
    let less = r.node(12, 0, left, right, 0);
    let (then, skip) = (r.add(9, 1, 7, 11), r.node(16, 0, 0, 0, 0));
    let test = r.node(19, 0, less, then, skip);
    body = r.node(18, 0, body, test, 0);
    r.node(20, 0, always, body, 0);
    r.bytes()
}

struct All {
    store: Vec<i32>,
    steps: Vec<u32>,
    visits: usize,
}

fn shared(image: &[u8], set: u64, budget: u32) -> All {
    let (mut store, mut steps) = (vec![0; 1024], vec![0; 64]);
    let (at, length) = (image.as_ptr(), image.len());
    let visits = unsafe {
        shared_run(
            at,
            length,
            set,
            budget,
            store.as_mut_ptr(),
            steps.as_mut_ptr(),
        )
    };
    assert_ne!(visits, usize::MAX, "refused");
    All {
        store,
        steps,
        visits,
    }
}

/// Every setting by itself, by the bench's own plain run.
fn by_the_bench(image: &[u8], budget: u32) -> (Vec<i32>, Vec<u32>) {
    let (mut store, mut steps) = (vec![0; 1024], vec![0; 64]);
    let (at, length) = (image.as_ptr(), image.len());
    for (s, numbers) in store.chunks_mut(16).enumerate() {
        let ended = unsafe { plain_run(at, length, s as u64, budget, numbers.as_mut_ptr()) };
        assert_ne!(ended, usize::MAX, "refused");
        steps[s] = ended as u32;
    }
    (store, steps)
}

/// Every setting by itself, as a plain program would: configured, read and run.
fn one_by_one(bytes: &[u8], budget: u32) -> (Vec<i32>, Vec<u32>) {
    let image = paper::check::check(bytes).unwrap_or_else(|_| panic!("accepted"));
    let sets = paper::conditions::condition_sets(&image);
    let (mut store, mut steps) = (vec![0; 1024], vec![0; 64]);
    for s in 0..64usize {
        let written = paper::configure::configure(&image, &sets, s as u64);
        let configured = paper::check::check(&written).unwrap_or_else(|_| panic!("accepted"));
        let routine = paper::tree::routine(&configured);
        steps[s] = paper::plain::run(&routine, budget, &mut store[16 * s..16 * s + 16]).1;
    }
    (store, steps)
}

fn timed<T>(work: impl FnOnce() -> T) -> (f64, T) {
    let start = Instant::now();
    let result = work();
    (start.elapsed().as_secs_f64(), result)
}

fn seconds(image: &[u8], set: u64, budget: u32) -> (f64, usize) {
    let (t, all) = timed(|| shared(image, set, budget));
    (t, all.visits)
}

/// Prints the ratios and the growth, as docs/PERFORMANCE.md has them.
#[no_mangle]
pub extern "C" fn measure() {
    let (mut ours, mut theirs) = (0.0, 0.0);
    println!("| routine | P | shared run, s | 64 plain runs, s | ratio | the bench's plain runs, s |\n|---|---|---|---|---|---|");
    for k in 0..10 {
        let image = routine(k, k);
        let (a, all) = timed(|| shared(&image, u64::MAX, 100_000));
        let (b, (store, steps)) = timed(|| one_by_one(&image, 100_000));
        let (c, (own_store, own_steps)) = timed(|| by_the_bench(&image, 100_000));
        assert!(
            all.store == store && all.steps == steps && store == own_store && steps == own_steps,
            "routine {k} differs"
        );
        println!(
            "| {k} | {} | {a:.2} | {b:.2} | {:.2} | {c:.2} |",
            (image.len() - 16) / 8,
            a / b
        );
        ours += a;
        theirs += b;
    }
    println!(
        "| all | | {ours:.2} | {theirs:.2} | {:.2} | |",
        ours / theirs
    );
    let image = routine(0, 0);
    println!("\n| budget | shared run, s | visits a second |\n|---|---|---|");
    for budget in [12_500, 25_000, 50_000, 100_000] {
        let (t, visits) = seconds(&image, u64::MAX, budget);
        println!("| {budget} | {t:.3} | {:.0} |", visits as f64 / t);
    }
    println!("\n| settings in the set | shared run, s |\n|---|---|");
    for n in [1, 2, 4, 8, 16, 32, 64] {
        let (t, _) = seconds(&image, u64::MAX >> (64 - n), 100_000);
        println!("| {n} | {t:.3} |");
    }
    println!("\n| P | shared run, s |\n|---|---|");
    for additions in [0, 10, 20, 40, 80, 140] {
        let image = routine(0, additions);
        let (t, _) = seconds(&image, u64::MAX, 100_000);
        println!("| {} | {t:.3} |", (image.len() - 16) / 8);
    }
}
