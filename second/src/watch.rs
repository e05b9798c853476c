//! Who looks on while the machine runs: nobody, a count of what was reached, or somebody who makes it go wrong on purpose.

/// Told of everything that is reached; asked whether the machine shall make a mistake.
pub trait Watch {
    fn seen(&mut self, _what: &'static str) {}

    /// The same for what comes in numbers.
    fn seen_number(&mut self, _what: &'static str, _number: usize) {}

    fn wrong(&self, _mistake: Mistake) -> bool {
        false
    }
}

/// Looks at nothing and costs nothing.
pub struct Nobody;

impl Watch for Nobody {}

/// Mistakes that a comparison has to notice.
#[derive(Clone, Copy, Debug, PartialEq, Eq)]
pub enum Mistake {
    MarkBeforeHelp,
    ValuesAtH7,
    NoAtH3,
    MarksAfterH7,
    RefusedDrops,
    TallyOfVlx,
    FinalizedAtL8,
    IdleL11,
    VlxKeeps,
    ScxKeeps,
    CellsAtL6,
}

impl Mistake {
    /// Every mistake; the first five are those of document 01's "How this is usually got wrong", in its order.
    pub const ALL: [(Mistake, &'static str); 11] = [
        (Mistake::MarkBeforeHelp, "m1 is tested before helping at L8"),
        (Mistake::ValuesAtH7, "H7 compares only values"),
        (Mistake::NoAtH3, "H3 answers no without looking at allFrozen"),
        (Mistake::MarksAfterH7, "the mark is set after H7"),
        (Mistake::RefusedDrops, "a refused call drops links"),
        (Mistake::TallyOfVlx, "the tally counts a VLX's yes as an SCX's"),
        (Mistake::FinalizedAtL8, "L8 answers Finalized for a change committed since L7"),
        (Mistake::IdleL11, "L11 helps only a change in progress"),
        (Mistake::VlxKeeps, "a VLX that answers no keeps its links"),
        (Mistake::ScxKeeps, "an SCX keeps its links"),
        (Mistake::CellsAtL6, "L6 compares the cells in place of the info"),
    ];
}

/// A machine with one mistake.
pub struct Broken(pub Mistake);

impl Watch for Broken {
    fn wrong(&self, mistake: Mistake) -> bool {
        self.0 == mistake
    }
}
