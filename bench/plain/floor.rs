//! The least that is to be done where a goal of the bench isn't met, in plain Rust, without any of the rest.
//!
//!     rustc --edition 2021 -O -o /tmp/floor bench/plain/floor.rs
//!     /tmp/floor write STORE FOLDER    writes the blobs of a saved store again, each into a file of its own, and syncs each, as a build
//!                                      has to: no token is made and no posting
//!     /tmp/floor open STORE            reads what an opening reads, and checks the directories of the parts by their rules: nothing is
//!                                      kept of them, and of the checkpoint the numbers are decoded and no tree is built
//!
//! It prints milliseconds of the clock and of the processor: for `write` of one run, for `open` the least of twenty.

use std::path::Path;
use std::thread::sleep;
use std::time::{Duration, Instant};
use std::{env, fs};

const BLOCK_LEN: u64 = 128;
const HEADER_LEN: usize = 16;
const ROUNDS: usize = 20;

/// Bytes that are read from the front.
struct Reader<'a> {
    rest: &'a [u8],
}

impl<'a> Reader<'a> {
    /// The next number in seven bits a byte, the lowest first, in its shortest spelling.
    fn number(&mut self) -> u64 {
        let mut value = 0;
        let mut shift = 0;
        loop {
            let byte = self.rest[0];
            self.rest = &self.rest[1..];
            value |= u64::from(byte & 0x7f) << shift;
            if byte < 0x80 {
                assert!(byte != 0 || shift == 0, "not the shortest spelling");
                return value;
            }
            shift += 7;
            assert!(shift < 64, "too long a number");
        }
    }

    /// The next so many bytes.
    fn bytes(&mut self, count: usize) -> &'a [u8] {
        let (taken, rest) = self.rest.split_at(count);
        self.rest = rest;
        taken
    }
}

/// The eight bytes at a place, the highest first.
fn big(bytes: &[u8], at: usize) -> u64 {
    u64::from_be_bytes(bytes[at..at + 8].try_into().expect("eight bytes"))
}

fn blob(store: &Path, number: u64) -> std::path::PathBuf {
    store.join(format!("b{number}"))
}

/// Reads the first bytes of a file.
fn front(path: &Path, count: usize) -> Vec<u8> {
    use std::io::Read;
    let mut bytes = vec![0; count];
    fs::File::open(path).expect("a part").read_exact(&mut bytes).expect("its front");
    bytes
}

/// Checks a part's directory, and returns how many entries it has.
fn check_directory(bytes: &[u8], size: u64) -> u64 {
    let mut reader = Reader { rest: bytes };
    assert!(reader.number() <= 62);
    let low = reader.number();
    let span = reader.number();
    let stored = reader.number();
    let terms = reader.number();
    assert!(low + span < 1 << 47 && stored >= 1 && stored <= span + 1);
    let (mut counted, mut lengths, mut begins, mut ends) = (0, 0, false, false);
    let mut before: &[u8] = &[];
    for _ in 0..terms {
        let length = reader.number() as usize;
        let term = reader.bytes(length);
        assert!((1..=64).contains(&length) && before < term);
        before = term;
        let mut left = reader.number();
        assert!(left >= 1);
        counted += left;
        let mut from = 0;
        while left > 0 {
            let count = left.min(BLOCK_LEN);
            let first = reader.number();
            let last = first + reader.number();
            assert!(first >= from && last <= span && last - first >= count - 1 && (count > 1 || last == first));
            begins |= first == 0;
            ends |= last == span;
            from = last + 1;
            lengths += reader.number();
            left -= count;
        }
    }
    assert!(reader.rest.is_empty() && counted == stored && begins && ends);
    assert!(HEADER_LEN as u64 + bytes.len() as u64 + lengths == size);
    terms
}

/// Decodes a checkpoint, and returns the blobs and sizes of its parts, and how many nodes it has.
fn parts_of(bytes: &[u8]) -> (Vec<(u64, u64)>, u64) {
    let mut reader = Reader { rest: &bytes[8..] };
    for _ in 0..3 {
        reader.number();
    }
    for _ in 0..reader.number() {
        reader.number();
        for _ in 0..reader.number() {
            reader.number();
        }
    }
    let nodes = reader.number();
    for _ in 0..nodes {
        reader.number();
        let kind = reader.number();
        for _ in 0..if kind == 0 { 3 } else { 7 } {
            reader.number();
        }
    }
    for _ in 0..reader.number() {
        reader.number();
        let length = reader.number() as usize;
        reader.bytes(length);
        reader.number();
    }
    let mut parts = Vec::new();
    for _ in 0..reader.number() {
        parts.push((reader.number(), reader.number()));
        for _ in 0..4 {
            reader.number();
        }
    }
    assert!(reader.rest.is_empty());
    (parts, nodes)
}

/// What an opening reads and checks: entries of directories, their bytes, and nodes.
fn open(store: &Path) -> (u64, usize, u64) {
    let root = fs::read(store.join("root")).expect("a root");
    let checkpoint = fs::read(blob(store, big(&root, 8))).expect("a checkpoint");
    let (parts, nodes) = parts_of(&checkpoint);
    let (mut entries, mut length) = (0, 0);
    for (number, size) in parts {
        let path = blob(store, number);
        let header = front(&path, HEADER_LEN);
        let directory = big(&header, 8) as usize;
        let bytes = front(&path, HEADER_LEN + directory);
        entries += check_directory(&bytes[HEADER_LEN..], size);
        length += directory;
    }
    (entries, length, nodes)
}

/// Writes each blob of the store again, in the order of their numbers, then syncs each, and the folder.
fn write(store: &Path, folder: &Path) -> (usize, usize) {
    let mut numbers: Vec<u64> = fs::read_dir(store)
        .expect("a store")
        .filter_map(|entry| entry.ok()?.file_name().to_str()?.strip_prefix('b')?.parse().ok())
        .collect();
    numbers.sort_unstable();
    fs::create_dir(folder).expect("a new folder");
    let mut length = 0;
    for number in &numbers {
        let bytes = fs::read(blob(store, *number)).expect("a blob");
        length += bytes.len();
        fs::write(blob(folder, *number), bytes).expect("room on the disk");
    }
    for number in &numbers {
        fs::File::open(blob(folder, *number)).and_then(|file| file.sync_all()).expect("a sync");
    }
    fs::File::open(folder).and_then(|file| file.sync_all()).expect("a sync");
    (numbers.len(), length)
}

/// The processor time of this process, in seconds: exact after it slept.
fn processor_seconds() -> f64 {
    sleep(Duration::from_millis(1));
    let status = fs::read_to_string("/proc/self/schedstat").expect("Linux");
    status.split(' ').next().expect("a time").parse::<f64>().expect("a number") / 1e9
}

/// What the work returns, and its milliseconds of the clock and of the processor.
fn timed<T>(work: impl Fn() -> T) -> (T, f64, f64) {
    let before = processor_seconds();
    let start = Instant::now();
    let done = work();
    let clock = start.elapsed().as_secs_f64();
    (done, clock * 1e3, (processor_seconds() - before) * 1e3)
}

fn main() {
    let arguments: Vec<String> = env::args().skip(1).collect();
    match arguments.iter().map(String::as_str).collect::<Vec<_>>()[..] {
        ["write", store, folder] => {
            let ((files, length), clock, processor) = timed(|| write(Path::new(store), Path::new(folder)));
            println!("{files} files, {length} bytes: {clock:.0} ms of the clock, {processor:.0} of the processor");
        }
        ["open", store] => {
            let mut least = (f64::MAX, f64::MAX);
            let mut read = (0, 0, 0);
            for _ in 0..ROUNDS {
                let (found, clock, processor) = timed(|| open(Path::new(store)));
                read = found;
                least = (least.0.min(clock), least.1.min(processor));
            }
            let (entries, length, nodes) = read;
            println!("{entries} entries in {length} bytes, {nodes} nodes: {:.1} ms of the clock, {:.1} of the processor", least.0, least.1);
        }
        _ => eprintln!("floor write STORE FOLDER | floor open STORE"),
    }
}
