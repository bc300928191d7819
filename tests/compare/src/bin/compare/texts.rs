//! The stream of texts: certificates that verify, and damaged ones.

use std::collections::VecDeque;

use plain::reader::MOST_BYTES;

use crate::census::Census;
use crate::damage::{crowd_solutions, damage_bytes, damage_draft, damage_tokens, lengthen};
use crate::draft::Draft;
use crate::limits;
use crate::make::{certificate, Size};
use crate::prng::Prng;
use crate::spell::{text, tokens, Layout};

pub struct Text {
    pub bytes: Vec<u8>,
    /// What was done to it, for the report.
    pub made_by: &'static str,
    /// Whether it is a certificate that verifies, by the way it was made.
    pub verifies: bool,
}

pub struct Texts {
    prng: Prng,
    queue: VecDeque<Text>,
    pub census: Census,
}

/// Damaged texts for each certificate.
const DAMAGED: usize = 12;
/// One certificate in so many, if it is short, is cut off at every byte.
const CUT_OFF_EVERY: usize = 60;
const SHORT: usize = 500;

impl Texts {
    pub fn new(seed: u64) -> Texts {
        Texts { prng: Prng::new(seed), queue: VecDeque::new(), census: Census::default() }
    }

    pub fn next(&mut self) -> Text {
        loop {
            if let Some(text) = self.queue.pop_front() {
                return text;
            }
            self.add_family();
        }
    }

    fn add_family(&mut self) {
        match self.prng.below(100) {
            0..=11 => self.add_wide(),
            12..=17 => self.add_full(),
            _ => self.add_damaged(),
        }
    }

    /// Texts with numbers near the limit of width.
    fn add_wide(&mut self) {
        for _ in 0..DAMAGED {
            let bytes = spell(&limits::wide(&mut self.prng), &mut self.prng);
            self.queue.push_back(Text { bytes, made_by: "wide numbers", verifies: false });
        }
    }

    /// Texts with counts at their limits.
    fn add_full(&mut self) {
        let (draft, is_within) = limits::full(&mut self.prng);
        let bytes = spell(&draft, &mut self.prng);
        let verifies = is_within && bytes.len() <= MOST_BYTES;
        let damaged = damaged(&draft, &bytes, &mut self.prng);
        self.queue.push_back(Text { bytes, made_by: "full counts", verifies });
        self.queue.push_back(Text { verifies: damaged.verifies && is_within, ..damaged });
    }

    /// A certificate, then texts that come of damage to it.
    fn add_damaged(&mut self) {
        let prng = &mut self.prng;
        let draft = certificate(Size::random(prng), prng);
        let whole = spell(&draft, prng);
        self.census.count(&draft, whole.len());
        let is_cut_off = whole.len() <= SHORT && prng.below(CUT_OFF_EVERY) == 0;
        if is_cut_off {
            for length in 0..whole.len() {
                self.queue.push_back(Text { bytes: whole[..length].to_vec(), made_by: "cut off", verifies: false });
            }
        }
        let verifies = whole.len() <= MOST_BYTES;
        self.queue.push_back(Text { bytes: whole.clone(), made_by: "certificate", verifies });
        for _ in 0..DAMAGED {
            self.queue.push_back(damaged(&draft, &whole, prng));
        }
    }
}

fn spell(draft: &Draft, prng: &mut Prng) -> Vec<u8> {
    let oddness = *prng.pick(&[0, 0, 20, 80]);
    let spelled = text(&tokens(draft, oddness, prng), Layout::random(prng), prng);
    if spelled.len() <= MOST_BYTES {
        return spelled;
    }
    text(&tokens(draft, 0, prng), Layout::Tight, prng)
}

fn damaged(draft: &Draft, whole: &[u8], prng: &mut Prng) -> Text {
    let mut damaged = draft.clone();
    let (bytes, made_by) = match prng.below(100) {
        0..=54 => {
            for _ in 0..times(prng) {
                damage_draft(&mut damaged, prng);
            }
            (spell(&damaged, prng), "damaged certificate")
        }
        55..=76 => {
            let mut tokens = tokens(draft, *prng.pick(&[0, 0, 30]), prng);
            for _ in 0..times(prng) {
                damage_tokens(&mut tokens, prng);
            }
            (text(&tokens, Layout::random(prng), prng), "damaged tokens")
        }
        77..=94 => {
            let mut bytes = whole.to_vec();
            for _ in 0..times(prng) {
                damage_bytes(&mut bytes, prng);
            }
            (bytes, "damaged bytes")
        }
        95..=97 => {
            let mut bytes = whole.to_vec();
            lengthen(&mut bytes, prng);
            (bytes, "lengthened")
        }
        98 => {
            crowd_solutions(&mut damaged, prng);
            (spell(&damaged, prng), "many solutions")
        }
        _ => (spell(draft, prng), "spelled again"),
    };
    let is_unharmed = matches!(made_by, "lengthened" | "spelled again");
    Text { verifies: is_unharmed && bytes.len() <= MOST_BYTES, bytes, made_by }
}

fn times(prng: &mut Prng) -> usize {
    *prng.pick(&[1, 1, 1, 1, 2, 3])
}
