//! Runs both implementations on each text, and counts and reports what they say.

use std::collections::BTreeMap;
use std::path::PathBuf;
use std::time::{Duration, Instant};

use crate::damage::edge_token;
use crate::lent::{first_difference, Cells, Lent};
use crate::other::Answer;
use crate::prng::Prng;
use crate::texts::Text;
use crate::{other, own};

/// Differences that are written out; further ones are only counted.
const MOST_WRITTEN: usize = 20;
/// Places at which a token is shown, and tokens read as values, for each text.
const PROBES: usize = 8;

pub struct Comparison {
    prng: Prng,
    noise: Lent,
    plain: Lent,
    other: Lent,
    folder: PathBuf,
    differences: usize,
    texts: usize,
    bytes: usize,
    longest: usize,
    values: BTreeMap<u8, usize>,
    answers: BTreeMap<u8, usize>,
    answers_by_maker: BTreeMap<&'static str, BTreeMap<u8, usize>>,
    shown: usize,
    started: Instant,
    plain_time: Duration,
    other_time: Duration,
}

impl Comparison {
    pub fn new(seed: u64, folder: PathBuf) -> Comparison {
        let mut prng = Prng::new(!seed);
        let noise = Lent::noise(&mut prng);
        Comparison {
            plain: noise.clone(),
            other: noise.clone(),
            noise,
            prng,
            folder,
            differences: 0,
            texts: 0,
            bytes: 0,
            longest: 0,
            values: BTreeMap::new(),
            answers: BTreeMap::new(),
            answers_by_maker: BTreeMap::new(),
            shown: 0,
            started: Instant::now(),
            plain_time: Duration::ZERO,
            other_time: Duration::ZERO,
        }
    }

    pub fn differences(&self) -> usize {
        self.differences
    }

    pub fn compare(&mut self, text: &Text) {
        self.texts += 1;
        self.bytes += text.bytes.len();
        self.longest = self.longest.max(text.bytes.len());
        self.compare_verifying(text);
        self.compare_reading(text);
        if self.prng.chance(10) {
            self.compare_small_tables(text);
        }
        for _ in 0..PROBES {
            self.compare_shown(text);
            self.compare_value(text);
        }
    }

    fn lend(&mut self, cells: Cells) {
        let turn = self.prng.below(self.noise.index.len());
        self.plain.refill(&self.noise, turn, cells);
        self.other.refill(&self.noise, turn, cells);
    }

    fn compare_verifying(&mut self, text: &Text) {
        let cells = Cells::enough(&mut self.prng);
        self.lend(cells);
        let start = Instant::now();
        let plain = own::verify(&text.bytes, &mut self.plain);
        let between = Instant::now();
        let other = other::verify(&text.bytes, &mut self.other);
        self.plain_time += between - start;
        self.other_time += between.elapsed();
        self.count(text.made_by, plain);
        self.hold("verify", text, plain, other);
        if text.verifies && plain != (0, 0) {
            self.differ(text, &format!("verify: {plain:?} for a text made to verify"));
        }
    }

    fn compare_reading(&mut self, text: &Text) {
        let cells = Cells::enough(&mut self.prng);
        self.lend(cells);
        let plain = own::read_certificate(&text.bytes, &mut self.plain);
        let other = other::read_certificate(&text.bytes, &mut self.other);
        self.hold("read_certificate", text, plain, other);
    }

    fn compare_small_tables(&mut self, text: &Text) {
        let cells = Cells::too_few(&mut self.prng);
        self.lend(cells);
        let plain = own::verify(&text.bytes, &mut self.plain);
        let other = other::verify(&text.bytes, &mut self.other);
        self.count("small tables", plain);
        self.hold("verify with small tables", text, plain, other);
        self.lend(cells);
        let plain = own::read_certificate(&text.bytes, &mut self.plain);
        let other = other::read_certificate(&text.bytes, &mut self.other);
        self.hold("read_certificate with small tables", text, plain, other);
    }

    /// A token shown at a random place, now and then beyond the end.
    fn compare_shown(&mut self, text: &Text) {
        let beyond = *self.prng.pick(&[0, 0, 0, 3, usize::MAX / 2]);
        let place = self.prng.below(text.bytes.len() + 1 + beyond);
        let (plain, other) = (own::show_token(&text.bytes, place), other::show_token(&text.bytes, place));
        self.shown += usize::from(plain > 0);
        if plain != other {
            self.differ(text, &format!("show_token at {place}: plain {plain} bytes, other {other}"));
        }
    }

    /// A value read from a part of the text, or from a token made up.
    fn compare_value(&mut self, text: &Text) {
        let place = self.prng.below(text.bytes.len() + 1);
        let token = match self.prng.below(4) {
            0 => plain::show_token(&text.bytes, place).to_vec(),
            1 => text.bytes[place..].iter().take(self.prng.below(8)).copied().collect(),
            _ => edge_token(&mut self.prng),
        };
        let noise = (self.prng.next() as i32, self.prng.next() as i32);
        let (mut stored, mut others) = (noise, noise);
        let (plain, other) = (own::read_value(&token, &mut stored), other::read_value(&token, &mut others));
        *self.values.entry(plain).or_default() += 1;
        if (plain, stored) != (other, others) {
            let token = String::from_utf8_lossy(&token).into_owned();
            let what = format!("plain {plain} {stored:?}, other {other} {others:?}, {noise:?} before");
            self.differ(text, &format!("read_value of {token:?}: {what}"));
        }
    }

    fn count(&mut self, made_by: &'static str, answer: Answer) {
        *self.answers.entry(answer.0).or_default() += 1;
        *self.answers_by_maker.entry(made_by).or_default().entry(answer.0).or_default() += 1;
    }

    /// Both answers, both lines and every cell must be the same.
    fn hold(&mut self, function: &str, text: &Text, plain: Answer, other: Answer) {
        let cells = self.plain.cells;
        if plain != other {
            self.differ(text, &format!("{function}: plain {plain:?}, other {other:?}; tables of {cells:?}"));
        }
        if self.plain != self.other {
            let cell = first_difference(&self.plain, &self.other).unwrap_or_default();
            self.differ(text, &format!("{function}: plain {plain:?}, other {other:?}; {cell}; tables of {cells:?}"));
        }
    }

    /// Counts a difference, and writes the first ones to the folder: the text, and both answers.
    fn differ(&mut self, text: &Text, what: &str) {
        self.differences += 1;
        if self.differences > MOST_WRITTEN {
            return;
        }
        let report = format!("text {}, {}\n{what}\n", self.texts, text.made_by);
        eprint!("difference {}: {report}", self.differences);
        let path = |ending: &str| self.folder.join(format!("{}.{ending}", self.differences));
        let written = std::fs::create_dir_all(&self.folder)
            .and_then(|()| std::fs::write(path("vipr"), &text.bytes))
            .and_then(|()| std::fs::write(path("txt"), &report));
        if let Err(error) = written {
            eprintln!("{}: {error}", self.folder.display());
        }
    }

    pub fn print_report(&self) {
        let seconds = self.started.elapsed().as_secs_f64();
        println!("{} texts, {} bytes, the longest {}", self.texts, self.bytes, self.longest);
        println!("answers of verify: {}", in_words(&self.answers));
        for (made_by, answers) in &self.answers_by_maker {
            println!("  {made_by}: {}", in_words(answers));
        }
        println!("answers of read_value: {}", in_words(&self.values));
        println!("tokens shown: {} at {} places", self.shown, PROBES * self.texts);
        println!("{:.0} texts per second in all, {seconds:.1} s", self.texts as f64 / seconds);
        self.print_speed("plain", self.plain_time);
        self.print_speed(other::NAME, self.other_time);
        println!("{} differences between plain and {}", self.differences, other::NAME);
    }

    fn print_speed(&self, name: &str, time: Duration) {
        let (texts, bytes) = (self.texts as f64 / time.as_secs_f64(), self.bytes as f64 / time.as_secs_f64());
        println!("verify, {name}: {texts:.0} texts per second, {:.1} MB per second", bytes / 1e6);
    }
}

fn in_words(answers: &BTreeMap<u8, usize>) -> String {
    let counts: Vec<String> = answers.iter().map(|(answer, count)| format!("{answer}: {count}")).collect();
    counts.join(", ")
}
