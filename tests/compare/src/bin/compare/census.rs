//! What the certificates that verify consist of.

use plain::certificate::{Claim, Direction, Reason};

use crate::draft::Draft;

#[derive(Default)]
pub struct Census {
    certificates: usize,
    minimised: usize,
    infeasible: usize,
    most_variables: usize,
    most_rows: usize,
    most_solutions: usize,
    reasons: [usize; 5],
    /// `uns` that joins two branches, not one row with itself.
    joined: usize,
    /// `uns` with an l row that is no `asm` row.
    beside_others: usize,
    longest: usize,
    over_30_000_bytes: usize,
}

impl Census {
    pub fn count(&mut self, draft: &Draft, bytes: usize) {
        self.certificates += 1;
        self.minimised += usize::from(draft.direction == Direction::Min);
        self.infeasible += usize::from(matches!(draft.claim, Claim::Infeas));
        self.most_variables = self.most_variables.max(draft.variables.len());
        self.most_rows = self.most_rows.max(draft.rows.len());
        self.most_solutions = self.most_solutions.max(draft.solutions.len());
        for derivation in &draft.derivations {
            self.reasons[number(&derivation.reason)] += 1;
            self.joined += usize::from(matches!(derivation.reason, Reason::Uns { i1, i2, .. } if i1 != i2));
            self.beside_others += usize::from(splits_at_others(draft, &derivation.reason));
        }
        self.longest = self.longest.max(bytes);
        self.over_30_000_bytes += usize::from(bytes > 30_000);
    }

    pub fn print(&self) {
        let [asm, lin, rnd, uns, sol] = self.reasons;
        println!(
            "certificates made to verify: {}, {} of them min, {} infeas; up to {} variables, {} rows, {} solutions, {} bytes ({} over 30,000)",
            self.certificates,
            self.minimised,
            self.infeasible,
            self.most_variables,
            self.most_rows,
            self.most_solutions,
            self.longest,
            self.over_30_000_bytes
        );
        let (joined, others) = (self.joined, self.beside_others);
        println!(
            "  their reasons: asm {asm}, lin {lin}, rnd {rnd}, uns {uns} ({joined} join two branches, {others} name an l row that is no asm row), sol {sol}"
        );
    }
}

fn splits_at_others(draft: &Draft, reason: &Reason) -> bool {
    let &Reason::Uns { l1, l2, .. } = reason else { return false };
    [l1, l2].iter().any(|&row| match row.checked_sub(draft.given()) {
        Some(derived) => !matches!(draft.derivations[derived].reason, Reason::Asm),
        None => true,
    })
}

fn number(reason: &Reason) -> usize {
    match reason {
        Reason::Asm => 0,
        Reason::Lin(_) => 1,
        Reason::Rnd(_) => 2,
        Reason::Uns { .. } => 3,
        Reason::Sol => 4,
    }
}
