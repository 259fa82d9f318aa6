//! Times readers and writers of DER side by side. `bench/run` calls it, and README.md says what is measured.
//!
//!     der_bench time CORPUS [ITEM..]      the times of all peers, as tab-separated lines
//!     der_bench memory CORPUS             the allocations of a read of each, under count_malloc.so
//!     der_bench repeat CORPUS ITEM PEER OPERATION TIMES       nothing but this, for a counter of instructions
//!     der_bench same CORPUS               whether both writers of trees write the same octets
mod peers;
mod records;

use peers::{calls, peers, Document, Peer, HERE, RUST_CRATE};
use std::{env, ffi::CString, fs, thread};

const ITEMS: [&str; 11] = [
    "certificates",
    "bundle",
    "list_of_revoked",
    "integers",
    "long_integers",
    "text",
    "identifiers",
    "times",
    "failures",
    "nested",
    "subidentifier",
];
/// An item has these sizes, but for the certificates, which are files.
const SIZES: [u32; 3] = [1, 2, 4];
const LARGEST: u32 = 4;
/// Whose time is taken of all sizes.
const GROWTH_OF: [&str; 3] = [RUST_CRATE, HERE, "der-parser"];

fn sizes(item: &str) -> &'static [u32] {
    if item == "certificates" {
        &[LARGEST]
    } else {
        &SIZES
    }
}

fn documents(corpus: &str, item: &str, size: u32) -> Vec<Document> {
    let files = if item == "certificates" {
        let folder = fs::read_dir(format!("{corpus}/certificates")).expect("the certificates");
        let mut files: Vec<_> = folder.map(|file| file.expect("a file").path()).collect();
        files.sort();
        files
    } else {
        vec![format!("{corpus}/{item}.{size}.der").into()]
    };
    let document = |file| {
        let octets = fs::read(file).expect("a document");
        Document { item: CString::new(item).expect("a name"), octets }
    };
    files.iter().map(document).collect()
}

#[derive(Clone, Copy, PartialEq, Debug)]
enum Operation {
    Read,
    Strict,
    Write,
    Rewrite,
}
use Operation::{Read, Rewrite, Strict, Write};

/// How often a tree is written in a row at least: what that takes longer than no writing is the time of so many.
const WRITES: u64 = 8;
const MOST_WRITES: f64 = 256.0;

/// Seconds of this thread on a processor, so that other work on the machine does not count.
fn now() -> f64 {
    const CLOCK_THREAD_CPUTIME_ID: i32 = 3;
    extern "C" {
        fn clock_gettime(clock: i32, to: *mut [i64; 2]) -> i32;
    }
    let mut to = [0; 2];
    unsafe { clock_gettime(CLOCK_THREAD_CPUTIME_ID, &mut to) };
    to[0] as f64 + to[1] as f64 / 1e9
}

fn median(mut values: Vec<f64>) -> f64 {
    values.sort_by(f64::total_cmp);
    values.get(values.len() / 2).copied().unwrap_or(0.0)
}

/// One peer with one operation on an item.
struct Job<'a> {
    peer: &'a Peer,
    operation: Operation,
    size: u32,
    documents: &'a [Document],
    /// How often a turn does it, so that it takes some milliseconds.
    times: u32,
    /// How often a turn writes.
    writes: u64,
    /// Seconds, of each turn.
    turns: Vec<f64>,
}

impl<'a> Job<'a> {
    /// None where the peer has no such operation, refuses a document, or takes longer than can be waited for.
    fn new(peer: &'a Peer, operation: Operation, size: u32, documents: &'a [Document]) -> Option<Job<'a>> {
        let job = Job { peer, operation, size, documents, times: 1, writes: WRITES, turns: Vec::new() };
        let from = now();
        (job.all(1) && now() - from < 1.0).then_some(job)
    }

    /// The operation on all documents; writing is done so many times.
    fn all(&self, writes: u64) -> bool {
        self.documents.iter().all(|document| match self.operation {
            Read => (self.peer.read)(document),
            Strict => self.peer.read_strictly.is_some_and(|read| read(document)),
            Write => self.peer.write.is_some_and(|write| write(document, writes)),
            Rewrite => self.peer.rewrite.is_some_and(|rewrite| rewrite(document)),
        })
    }

    fn seconds(&self, writes: u64) -> f64 {
        let from = now();
        for _ in 0..self.times {
            self.all(writes);
        }
        (now() - from) / f64::from(self.times)
    }

    /// Once unmeasured, so that what the peer before has freed is put in order; then the turn.
    fn turn(&self) -> f64 {
        self.all(0);
        match self.operation {
            Write => (self.seconds(self.writes) - self.seconds(0)) / self.writes as f64,
            _ => self.seconds(0),
        }
    }

    /// How many times as long as another takes: the median over the rounds in which both had a turn.
    fn ratio_to(&self, other: Option<&Job>) -> f64 {
        other.map_or(0.0, |it| median(self.turns.iter().zip(&it.turns).map(|(turn, base)| turn / base).collect()))
    }

    /// Strict reading is compared with the peer's own reading, all else with the Rust crate.
    fn ratio_in(&self, jobs: &[Job]) -> f64 {
        self.ratio_to(jobs.iter().filter(|it| it.size == self.size).find(|it| match self.operation {
            Strict => it.peer.name == self.peer.name && it.operation == Read,
            _ => it.peer.name == RUST_CRATE,
        }))
    }

    /// The same of half the size.
    fn growth_in(&self, jobs: &[Job]) -> f64 {
        let of_half = |it: &&Job| 2 * it.size == self.size && it.operation == self.operation;
        self.ratio_to(jobs.iter().filter(of_half).find(|it| it.peer.name == self.peer.name))
    }
}

const ROUNDS: usize = 11;

/// Rounds in which each job has a turn, so that a slow second of the machine falls on all alike. What is slow has
/// fewer.
fn take_turns(jobs: &mut [Job]) {
    for job in jobs.iter_mut() {
        // as many writes as take as long as the reading before them, which is taken off
        let (reading, writing) = (job.seconds(0), job.seconds(WRITES) - job.seconds(0));
        job.writes = (WRITES as f64 * reading / writing).clamp(WRITES as f64, MOST_WRITES) as u64;
        job.times = (0.003 / job.seconds(job.writes)).ceil().clamp(1.0, 10_000.0) as u32;
    }
    for _ in 0..ROUNDS {
        for job in jobs.iter_mut() {
            let spent: f64 = job.turns.iter().sum();
            if spent < 0.3 || job.turns.len() < 3 && spent < 1.0 {
                job.turns.push(job.turn());
            }
        }
    }
}

/// All sizes of an item have their turns in the same rounds: how time grows is seen within one, too.
fn time(corpus: &str, wanted: &[String]) {
    let peers = peers();
    for item in ITEMS.iter().filter(|it| wanted.is_empty() || wanted.iter().any(|other| other == **it)) {
        let corpora: Vec<_> = sizes(item).iter().map(|size| (*size, documents(corpus, item, *size))).collect();
        // reading and writing apart, so that neither leaves its mark on the other
        for operations in [&[Read, Strict][..], &[Write], &[Rewrite]] {
            let mut jobs = Vec::new();
            for (operation, peer) in operations.iter().flat_map(|it| peers.iter().map(move |peer| (*it, peer))) {
                let of_sizes = corpora.iter().filter(|(size, _)| *size == LARGEST || GROWTH_OF.contains(&peer.name));
                jobs.extend(of_sizes.filter_map(|(size, documents)| Job::new(peer, operation, *size, documents)));
            }
            take_turns(&mut jobs);
            for job in &jobs {
                let octets: usize = job.documents.iter().map(|it| it.octets.len()).sum();
                let blocks: usize = job.documents.iter().map(|it| peers::block_count(&it.octets)).sum();
                let (size, name, nanoseconds) = (job.size, job.peer.name, median(job.turns.clone()) * 1e9);
                let (ratio, growth) = (job.ratio_in(&jobs), job.growth_in(&jobs));
                print!("{item}\t{size}\t{octets}\t{blocks}\t{name}\t{:?}", job.operation);
                println!("\t{nanoseconds:.0}\t{ratio:e}\t{growth:.3}");
            }
        }
    }
}

fn repeat(corpus: &str, item: &str, name: &str, operation: &str, times: u64) {
    let peer = peers().into_iter().chain(calls()).find(|it| it.name == name).expect("a peer");
    let documents = documents(corpus, item, LARGEST);
    let operation =
        *[Read, Strict, Write, Rewrite].iter().find(|it| format!("{it:?}") == operation).expect("an operation");
    let job = Job { peer: &peer, operation, size: LARGEST, documents: &documents, times: 1, writes: 0, turns: vec![] };
    let (repeats, writes) = if operation == Write { (1, times) } else { (times, 0) };
    for _ in 0..repeats {
        job.all(writes);
    }
}

extern "C" {
    fn dlsym(handle: *mut u8, name: *const std::ffi::c_char) -> *mut u8;
    fn mallopt(what: i32, value: i32) -> i32;
}

/// Calls of malloc and its like so far, octets that are live, and the most that were since it was asked last.
fn counted() -> [i64; 3] {
    let found = unsafe { dlsym(std::ptr::null_mut(), c"counted_malloc".as_ptr()) };
    assert!(!found.is_null(), "count_malloc.so is not preloaded");
    let ask: extern "C" fn(*mut [i64; 3]) = unsafe { std::mem::transmute(found) };
    let mut to = [0; 3];
    ask(&mut to);
    to
}

fn memory(corpus: &str) {
    for item in ITEMS.iter().filter(|it| **it != "certificates") {
        let documents = documents(corpus, item, LARGEST);
        for peer in peers().iter().filter(|it| (it.read)(&documents[0])) {
            let before = counted();
            (peer.read)(&documents[0]);
            let after = counted();
            println!("{item}\t{}\t{}\t{}", peer.name, after[0] - before[0], after[2] - before[1]);
        }
    }
}

fn same(corpus: &str) {
    let (mut alike, mut other) = (0, 0);
    for item in ITEMS {
        for size in sizes(item) {
            for document in documents(corpus, item, *size) {
                let is_alike = peers::crate_rewritten(&document.octets) == peers::rewritten(&document.octets);
                *(if is_alike { &mut alike } else { &mut other }) += 1;
                if !is_alike {
                    println!("{item} of size {size} is written otherwise than by the Rust crate");
                }
            }
        }
    }
    println!("{alike} documents are written alike by the {RUST_CRATE} and {HERE}, {other} otherwise");
}

fn run() {
    let arguments: Vec<String> = env::args().skip(1).collect();
    match &arguments.iter().map(String::as_str).collect::<Vec<_>>()[..] {
        ["time", corpus, ..] => time(corpus, &arguments[2..]),
        ["memory", corpus] => memory(corpus),
        ["repeat", corpus, item, name, operation, times] => {
            repeat(corpus, item, name, operation, times.parse().expect("a number"));
        }
        ["same", corpus] => same(corpus),
        _ => panic!("called otherwise than the top of main.rs says"),
    }
}

fn main() {
    // glibc's malloc, for all peers alike: one arena, and what was freed is kept, so that a time is that of a process
    // which has read before. BENCH_MALLOC=plain leaves it as it comes.
    const M_ARENA_MAX: i32 = -8;
    const M_TRIM_THRESHOLD: i32 = -1;
    const M_MMAP_THRESHOLD: i32 = -3;
    unsafe { mallopt(M_ARENA_MAX, 1) };
    if env::var_os("BENCH_MALLOC").is_none() {
        unsafe { mallopt(M_TRIM_THRESHOLD, i32::MAX) };
        unsafe { mallopt(M_MMAP_THRESHOLD, 1 << 30) };
    }
    // some peers recurse
    thread::Builder::new().stack_size(1 << 30).spawn(run).expect("a thread").join().expect("an answer");
}
