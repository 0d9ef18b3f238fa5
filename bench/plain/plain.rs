//! The counts of the bench over its corpus by plain Rust: for each term a sorted vector of its addresses in memory, which is cut to the
//! ranges of the files that a user may read by galloping. Nothing is read from a store, decoded, checked or kept within a bound of memory.
//!
//!     python3 bench/corpus.py 37 100 /tmp/corpus.script
//!     rustc -O -o /tmp/plain bench/plain/plain.rs && /tmp/plain /tmp/corpus.script
//!
//! It prints for each user, kind and frequency the microseconds of the processor that one of the five queries takes, and their hits,
//! which are those that `wumpus` counts.

use std::collections::{HashMap, HashSet};
use std::hint::black_box;
use std::thread::sleep;
use std::time::Duration;
use std::{env, fs, io};

const USERS: [(&str, u32); 3] = [("1 %", 1_001), ("10 %", 1_002), ("all", 0)];
const WORDS: [(&str, [usize; 5]); 3] = [
    ("frequent", [8, 12, 16, 20, 24]),
    ("medium", [2_000, 2_202, 2_404, 2_606, 2_808]),
    ("rare", [30_000, 31_002, 32_004, 33_006, 34_008]),
];
const PHRASES: [(&str, [usize; 5]); 3] = [
    ("frequent", [15, 23, 31, 39, 47]),
    ("medium", [2_007, 2_215, 2_407, 2_615, 2_807]),
    ("rare", [30_007, 31_015, 32_007, 33_015, 34_007]),
];
const NEAR_TOKENS: u32 = 10;
const ROUNDS: usize = 5;
const ROUND_SECONDS: f64 = 0.05;

/// The word of this number, as `corpus.py` spells it.
fn word(number: usize) -> Vec<u8> {
    const CONSONANTS: &[u8] = b"bdfghjklmnprstvwyzqc";
    const VOWELS: &[u8] = b"aeiou";
    const ENDINGS: [&[u8]; 10] = [b"", b"n", b"r", b"s", b"t", b"l", b"nd", b"st", b"ng", b"rs"];
    let mut spelled = Vec::new();
    let mut rest = number + 1;
    while rest > 0 {
        rest -= 1;
        let syllable = rest % (CONSONANTS.len() * VOWELS.len());
        spelled.push(CONSONANTS[syllable % CONSONANTS.len()]);
        spelled.push(VOWELS[syllable / CONSONANTS.len()]);
        rest /= CONSONANTS.len() * VOWELS.len();
    }
    spelled.extend_from_slice(ENDINGS[number * 31 / 7 % ENDINGS.len()]);
    spelled
}

/// The two words of the phrase of this number.
fn pair(number: usize) -> (Vec<u8>, Vec<u8>) {
    let frequent: Vec<usize> = (0..24).filter(|number| number % 8 != 7).collect();
    if number / 8 % 2 == 1 {
        (word(frequent[number / 16 % frequent.len()]), word(number - 1))
    } else {
        (word(number - 2), word(number - 1))
    }
}

/// A file or a directory.
struct Node {
    is_directory: bool,
    owner: u32,
    group: u32,
    mode: u32,
}

/// The addresses of a file's text: from `start` on, and none from `end` on.
#[derive(Clone, Copy)]
struct Frame {
    start: u32,
    end: u32,
}

/// The corpus: the tree, the texts and where each term stands.
#[derive(Default)]
struct Corpus {
    nodes: HashMap<u32, Node>,
    links: Vec<(u32, u32)>,
    groups: HashMap<u32, HashSet<u32>>,
    texts: Vec<(u32, Frame)>,
    addresses: HashMap<Vec<u8>, Vec<u32>>,
    next: u32,
}

impl Corpus {
    /// Reads a script of `corpus.py`.
    fn read(path: &str) -> io::Result<Corpus> {
        let script = fs::read(path)?;
        let root = Node { is_directory: true, owner: 0, group: 0, mode: 0o755 };
        let mut corpus = Corpus::default();
        corpus.nodes.insert(1, root);
        let mut rest = script.as_slice();
        while let Some(end) = rest.iter().position(|byte| *byte == b'\n') {
            let line = String::from_utf8_lossy(&rest[..end]).into_owned();
            let fields: Vec<&str> = line.split('\t').collect();
            rest = &rest[end + 1..];
            if fields[0] == "text" {
                let len: usize = number(fields[2]) as usize;
                corpus.put_text(number(fields[1]), &rest[..len]);
                rest = &rest[len + 1..];
            } else {
                corpus.put_event(&fields);
            }
        }
        Ok(corpus)
    }

    fn put_event(&mut self, fields: &[&str]) {
        match fields[0] {
            "user" => {
                let groups = fields[2..].iter().map(|group| number(group)).collect();
                self.groups.insert(number(fields[1]), groups);
            }
            "link" => self.links.push((number(fields[2]), number(fields[1]))),
            event => {
                let node = Node {
                    is_directory: event == "mkdir",
                    owner: number(fields[4]),
                    group: number(fields[5]),
                    mode: u32::from_str_radix(fields[6], 8).expect("a mode"),
                };
                self.nodes.insert(number(fields[1]), node);
                self.links.push((number(fields[2]), number(fields[1])));
            }
        }
    }

    fn put_text(&mut self, ino: u32, text: &[u8]) {
        let start = self.next;
        self.put(b"<file>");
        for line in text.split(|byte| *byte == b'\n').filter(|line| !line.is_empty()) {
            self.put(b"<line>");
            for word in line.split(|byte| !byte.is_ascii_alphanumeric()).filter(|word| !word.is_empty()) {
                self.put(&word.to_ascii_lowercase());
            }
            self.put(b"</line>");
        }
        self.put(b"</file>");
        self.texts.push((ino, Frame { start, end: self.next }));
    }

    fn put(&mut self, term: &[u8]) {
        match self.addresses.get_mut(term) {
            Some(addresses) => addresses.push(self.next),
            None => {
                self.addresses.insert(term.to_vec(), vec![self.next]);
            }
        }
        self.next += 1;
    }

    /// The frames of the files that the user may read, ascending.
    fn frames(&self, user: u32) -> Vec<Frame> {
        let mut open = HashSet::new();
        let mut left = vec![1];
        while let Some(directory) = left.pop() {
            if self.allows(user, directory, 1) && open.insert(directory) {
                let below = self.links.iter().filter(|link| link.0 == directory && self.nodes[&link.1].is_directory);
                left.extend(below.map(|link| link.1));
            }
        }
        let reached: HashSet<u32> = self.links.iter().filter(|link| open.contains(&link.0)).map(|link| link.1).collect();
        let readable = |ino: &u32| reached.contains(ino) && self.allows(user, *ino, 4);
        self.texts.iter().filter(|text| readable(&text.0)).map(|text| text.1).collect()
    }

    fn allows(&self, user: u32, ino: u32, bit: u32) -> bool {
        let node = &self.nodes[&ino];
        let is_member = self.groups.get(&user).is_some_and(|groups| groups.contains(&node.group));
        let shift = if node.owner == user {
            6
        } else {
            if is_member {
                3
            } else {
                0
            }
        };
        user == 0 || node.mode >> shift & bit != 0
    }

    fn addresses_of(&self, term: &[u8]) -> &[u32] {
        self.addresses.get(term).map_or(&[], Vec::as_slice)
    }
}

fn number(field: &str) -> u32 {
    field.parse().expect("a number")
}

/// The addresses from the bound on: galloping.
fn from(addresses: &[u32], bound: u32) -> &[u32] {
    let mut end = 1;
    while end <= addresses.len() && addresses[end - 1] < bound {
        end *= 2;
    }
    let near = &addresses[end / 2..(end - 1).min(addresses.len())];
    &addresses[end / 2 + near.partition_point(|address| *address < bound)..]
}

/// The frames that end behind the address: galloping.
fn frames_from(frames: &[Frame], address: u32) -> &[Frame] {
    let mut end = 1;
    while end <= frames.len() && frames[end - 1].end <= address {
        end *= 2;
    }
    let near = &frames[end / 2..(end - 1).min(frames.len())];
    &frames[end / 2 + near.partition_point(|frame| frame.end <= address)..]
}

/// Calls for each of the frames that the addresses meet with those in it, and gives the hits that the calls give and the files with any.
fn in_frames(frames: &[Frame], addresses: &[u32], mut count: impl FnMut(&[u32], Frame) -> u64) -> (u64, u64) {
    let (mut hits, mut files) = (0, 0);
    let (mut left, mut rest) = (frames, addresses);
    while let Some(address) = rest.first() {
        left = frames_from(left, *address);
        let Some(frame) = left.first() else { break };
        rest = from(rest, frame.start);
        let inside = rest.iter().take_while(|address| **address < frame.end).count();
        if inside > 0 {
            let found = count(&rest[..inside], *frame);
            hits += found;
            files += u64::from(found > 0);
            rest = &rest[inside..];
        }
    }
    (hits, files)
}

fn count_word(frames: &[Frame], addresses: &[u32]) -> (u64, u64) {
    in_frames(frames, addresses, |inside, _| inside.len() as u64)
}

/// How often an address of the one word is followed by one of the other: each of the rarer one is looked up in the other's list.
fn count_phrase(frames: &[Frame], one: &[u32], other: &[u32]) -> (u64, u64) {
    if one.len() <= other.len() {
        count_beside(frames, one, other, |address| address + 1)
    } else {
        count_beside(frames, other, one, |address| address - 1)
    }
}

fn count_beside(frames: &[Frame], rarer: &[u32], other: &[u32], beside: impl Fn(u32) -> u32) -> (u64, u64) {
    let mut rest = other;
    in_frames(frames, rarer, |inside, _| {
        let mut found = 0;
        for address in inside {
            rest = from(rest, beside(*address));
            found += u64::from(rest.first() == Some(&beside(*address)));
        }
        found
    })
}

/// How many neighbours of both words there are, of which none is farther from the other than the tokens tell.
fn count_near(frames: &[Frame], one: &[u32], other: &[u32]) -> (u64, u64) {
    let mut rest = other;
    in_frames(frames, one, |inside, frame| {
        rest = from(rest, frame.start);
        let (mut found, mut i, mut last) = (0, 0, None);
        loop {
            let next_one = inside.get(i).copied().unwrap_or(u32::MAX);
            let next_other = rest.first().copied().filter(|address| *address < frame.end).unwrap_or(u32::MAX);
            let (address, is_one) = if next_one < next_other { (next_one, true) } else { (next_other, false) };
            if address == u32::MAX {
                return found;
            }
            if let Some((before, was_one)) = last {
                found += u64::from(was_one != is_one && address - before < NEAR_TOKENS);
            }
            last = Some((address, is_one));
            if is_one {
                i += 1;
            } else {
                rest = &rest[1..];
            }
        }
    })
}

/// The processor time of this process, in seconds: exact after it slept.
fn processor_seconds() -> f64 {
    sleep(Duration::from_millis(1));
    let status = fs::read_to_string("/proc/self/schedstat").expect("Linux");
    status.split(' ').next().expect("a time").parse::<f64>().expect("a number") / 1e9
}

/// A count that is asked for.
enum Question {
    Word(Vec<u8>),
    Phrase(Vec<u8>, Vec<u8>),
    Near(Vec<u8>, Vec<u8>),
}

impl Question {
    /// The hits in the frames, and the frames with any.
    fn ask(&self, corpus: &Corpus, frames: &[Frame]) -> (u64, u64) {
        match self {
            Question::Word(word) => count_word(frames, corpus.addresses_of(word)),
            Question::Phrase(one, other) => count_phrase(frames, corpus.addresses_of(one), corpus.addresses_of(other)),
            Question::Near(one, other) => count_near(frames, corpus.addresses_of(one), corpus.addresses_of(other)),
        }
    }
}

/// Asks the questions again and again, and prints the time of one.
fn measure(cell: &str, corpus: &Corpus, frames: &[Frame], questions: &[Question]) {
    let mut best = f64::MAX;
    for _ in 0..ROUNDS {
        let (start, mut asked, mut spent) = (processor_seconds(), 0, 0.0);
        while spent < ROUND_SECONDS {
            for question in questions.iter().cycle().take(8 * questions.len()) {
                black_box(question.ask(corpus, frames));
            }
            asked += 8 * questions.len();
            spent = processor_seconds() - start;
        }
        best = best.min(spent / asked as f64);
    }
    let hits: Vec<String> = questions.iter().map(|question| question.ask(corpus, frames).0.to_string()).collect();
    println!("{cell:22} {:9.1} us  {}", best * 1e6, hits.join("/"));
}

fn main() -> io::Result<()> {
    let path = env::args().nth(1).expect("the path of a script");
    let corpus = Corpus::read(&path)?;
    for (who, user) in USERS {
        let frames = corpus.frames(user);
        for (frequency, numbers) in WORDS {
            let words = numbers.map(|number| Question::Word(word(number)));
            measure(&format!("{who} word {frequency}"), &corpus, &frames, &words);
        }
        let kinds: [(&str, fn((Vec<u8>, Vec<u8>)) -> Question); 2] =
            [("phrase", |pair| Question::Phrase(pair.0, pair.1)), ("near", |pair| Question::Near(pair.0, pair.1))];
        for (kind, question) in kinds {
            for (frequency, numbers) in PHRASES {
                let pairs = numbers.map(|number| question(pair(number)));
                measure(&format!("{who} {kind} {frequency}"), &corpus, &frames, &pairs);
            }
        }
    }
    Ok(())
}
