//! What document 02's request 8 says of the verdict on the merged batch, from the verdicts on the two.

use crate::house::Relation::{self, Bin, Fld};
use crate::verdict::answer::{Counts, Verdict};

/// Accepted exactly when both are. A failure is the earlier of the two.
pub fn told(cpi: usize, first: Verdict, second: Verdict) -> Verdict {
    let counts = counts(first, second);
    let failures = [first.failed_at(), moved(cpi, second.failed_at())];
    match earlier(failures) {
        None => Verdict::Accepted { counts },
        Some((relation, batch_row)) => Verdict::Failed {
            relation,
            batch_row,
            counts,
        },
    }
}

/// Relation and batch row, if there is a failure.
type Failure = Option<(Relation, usize)>;

/// The second's rows stand behind those of all the first's cycles, padding included.
fn moved(cpi: usize, failure: Failure) -> Failure {
    failure.map(|(relation, batch_row)| match relation {
        Bin => (Bin, 512 * cpi + batch_row),
        Fld => (Fld, 32 * cpi + batch_row),
    })
}

/// Any bin before any fld, then the first batch before the second.
fn earlier(failures: [Failure; 2]) -> Failure {
    let of = |relation| failures.into_iter().flatten().find(|at| at.0 == relation);
    of(Bin).or_else(|| of(Fld))
}

/// The rows tested up to there, in the larger batch's order: the first's of bin, the second's of bin, the
/// first's of fld, the second's of fld. Of fld there are none until both have passed bin.
fn counts(first: Verdict, second: Verdict) -> Counts {
    let [one, other] = [first, second].map(Verdict::counts);
    match [first.relation(), second.relation()] {
        [Some(Bin), _] => Counts {
            bin: one.bin,
            fld: 0,
        },
        [_, Some(Bin)] => Counts {
            bin: one.bin + other.bin,
            fld: 0,
        },
        [Some(Fld), _] => Counts {
            bin: one.bin + other.bin,
            fld: one.fld,
        },
        [None, _] => Counts {
            bin: one.bin + other.bin,
            fld: one.fld + other.fld,
        },
    }
}
