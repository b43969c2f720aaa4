//! Loaded parts beside right parts: which is which, and why one is not.
use super::words::{counted, numbered, the_inputs_in_short, the_term};
use crate::audit::{Audited, Fault};
use crate::equation::{inputs, listed};

/// How a loaded part stands to the right parts. The numbers are those of right parts, from 0.
#[derive(Clone, Copy, PartialEq, Eq)]
pub enum Standing {
    /// It is that part.
    Part(usize),
    /// It is that part too, but one before it is already.
    Again(usize),
    /// It has the inputs of that part, but other terms.
    Beside(usize),
    /// No right part has its inputs.
    Apart,
}

/// Loaded and right parts, and how each loaded one stands.
pub struct Pairs<'a> {
    pub audited: &'a Audited,
    standings: Vec<Standing>,
    /// Whether nothing is wrong but the order.
    pub only_order: bool,
}

impl<'a> Pairs<'a> {
    pub fn of(audited: &'a Audited) -> Pairs<'a> {
        let mut standings = Vec::new();
        for part in &audited.given {
            let standing = match audited.parts.iter().position(|right| *right == part.terms) {
                Some(right) if standings.contains(&Standing::Part(right)) => Standing::Again(right),
                Some(right) => Standing::Part(right),
                None => beside(audited, inputs(&part.terms)),
            };
            standings.push(standing);
        }
        Pairs { audited, standings, only_order: audited.faults == [Fault::Order] }
    }

    /// How this loaded part stands.
    pub fn standing(&self, loaded: usize) -> Standing {
        self.standings[loaded]
    }

    /// Which loaded part this right part is.
    pub fn loaded_as(&self, right: usize) -> Option<usize> {
        self.standings.iter().position(|&standing| standing == Standing::Part(right))
    }

    /// Whether some loaded part has the inputs of a right part, but other terms.
    pub fn any_beside(&self) -> bool {
        self.standings.iter().any(|standing| matches!(standing, Standing::Beside(_)))
    }

    /// Whether nothing is wrong with this loaded part; its place counts where only the order is wrong.
    pub fn loaded_well(&self, loaded: usize) -> bool {
        matches!(self.standings[loaded], Standing::Part(right) if right == loaded || !self.only_order)
    }

    /// Whether this right part is loaded, and so where its place counts.
    pub fn well_loaded(&self, right: usize) -> bool {
        self.loaded_as(right).is_some_and(|loaded| self.loaded_well(loaded))
    }

    /// The terms that this loaded part has too many, beside the right part with its inputs.
    pub fn extra(&self, loaded: usize) -> Vec<u64> {
        match self.standings[loaded] {
            Standing::Beside(right) => without(&self.audited.given[loaded].terms, &self.audited.parts[right]),
            _ => Vec::new(),
        }
    }

    /// The terms of this right part that are missing in the loaded part with its inputs, if it is not loaded.
    pub fn missing(&self, right: usize) -> Vec<u64> {
        let beside = self.standings.iter().position(|&standing| standing == Standing::Beside(right));
        match (self.loaded_as(right), beside) {
            (None, Some(loaded)) => without(&self.audited.parts[right], &self.audited.given[loaded].terms),
            _ => Vec::new(),
        }
    }

    /// In a sentence or two which parts differ.
    pub fn differing(&self) -> String {
        let loaded: Vec<usize> = (0..self.audited.given.len()).filter(|&k| !self.loaded_well(k)).collect();
        let right: Vec<usize> = (0..self.audited.parts.len()).filter(|&j| !self.well_loaded(j)).collect();
        let mut said = String::new();
        if !loaded.is_empty() {
            said += &format!("Loaded but not right: {}. ", numbered("part", &loaded));
        }
        if !right.is_empty() {
            said += &format!("Right but not loaded: {}.", numbered("right part", &right));
        }
        said
    }

    /// Why this loaded part is none of the right parts: at least one reason. None for one that is.
    pub fn reasons(&self, loaded: usize) -> Vec<String> {
        let mut reasons = match self.standings[loaded] {
            Standing::Part(_) => return Vec::new(),
            Standing::Again(right) => vec![format!("right part {} is loaded once more", right + 1)],
            Standing::Beside(right) => vec![self.difference(loaded, right)],
            Standing::Apart => self.other_inputs(loaded),
        };
        let splits = |fault: &Fault| matches!(fault, Fault::Splits { part, .. } if *part == loaded);
        if self.audited.faults.iter().any(splits) {
            reasons.push("it can be split again".to_string());
        }
        reasons.extend(self.shares(loaded));
        reasons
    }

    /// Which inputs a loaded part shares, and with which others.
    fn shares(&self, loaded: usize) -> Vec<String> {
        let mut shares: Vec<(u64, Vec<usize>)> = Vec::new();
        for (other, part) in self.audited.given.iter().enumerate().filter(|(other, _)| *other != loaded) {
            let common = inputs(&self.audited.given[loaded].terms) & inputs(&part.terms);
            match shares.iter_mut().find(|(inputs, _)| *inputs == common) {
                _ if common == 0 => {}
                Some((_, others)) => others.push(other),
                None => shares.push((common, vec![other])),
            }
        }
        let words = |(common, others): &(u64, Vec<usize>)| {
            format!("it shares {} with {}", the_inputs_in_short(*common), numbered("part", others))
        };
        shares.iter().map(words).collect()
    }

    fn difference(&self, loaded: usize, right: usize) -> String {
        let (terms, should) = (&self.audited.given[loaded].terms, &self.audited.parts[right]);
        let missing = terms_are(&without(should, terms), "missing");
        let extra = terms_are(&without(terms, should), "too many");
        let both: Vec<String> = [missing, extra].into_iter().flatten().collect();
        format!("against right part {}, which has the same inputs, {}", right + 1, both.join(", and "))
    }

    /// What is wrong with the inputs of a part that has those of no right part.
    fn other_inputs(&self, loaded: usize) -> Vec<String> {
        let own = inputs(&self.audited.given[loaded].terms);
        if own == 0 {
            return vec!["it is constant".to_string()];
        }
        let mut reasons = Vec::new();
        let foreign = own & !inputs(&self.audited.approved);
        if foreign != 0 {
            reasons.push(format!("the approved equation does not have {}", the_inputs_in_short(foreign)));
        }
        let touched: Vec<usize> =
            (0..self.audited.parts.len()).filter(|&right| inputs(&self.audited.parts[right]) & own != 0).collect();
        match touched[..] {
            [] => {}
            [right] => match inputs(&self.audited.parts[right]) & !own {
                0 => {}
                lacking => {
                    reasons.push(format!("it lacks {} of right part {}", the_inputs_in_short(lacking), right + 1))
                }
            },
            _ => reasons.push(format!("its inputs belong to {}", numbered("right part", &touched))),
        }
        reasons
    }

    /// The inputs of each row of a table in which parts with a common input, loaded or right, stand in the same row.
    /// Lowest input first; parts without inputs are in none.
    pub fn groups(&self) -> Vec<u64> {
        let loaded = self.audited.given.iter().map(|part| inputs(&part.terms));
        let right = self.audited.parts.iter().map(|part| inputs(part));
        let mut groups: Vec<u64> = Vec::new();
        for own in loaded.chain(right).filter(|&own| own != 0) {
            let (common, others): (Vec<u64>, Vec<u64>) = groups.into_iter().partition(|group| group & own != 0);
            groups = others;
            groups.push(common.into_iter().fold(own, |all, group| all | group));
        }
        groups.sort_by_key(|group| group.trailing_zeros());
        groups
    }
}

fn beside(audited: &Audited, own: u64) -> Standing {
    let same = audited.parts.iter().position(|right| inputs(right) == own);
    same.map_or(Standing::Apart, Standing::Beside)
}

/// The terms of the one that the other lacks.
fn without(terms: &[u64], other: &[u64]) -> Vec<u64> {
    terms.iter().copied().filter(|term| !other.contains(term)).collect()
}

/// `the constant term 1 and the term x3 are missing`; of many only three are named.
fn terms_are(terms: &[u64], what: &str) -> Option<String> {
    const NAMED: usize = 3;
    let mut names: Vec<String> = terms.iter().take(NAMED).map(|&one| the_term(one)).collect();
    if terms.len() > NAMED {
        names.push(counted(terms.len() - NAMED, "more term"));
    }
    let verb = if terms.len() == 1 { "is" } else { "are" };
    (!terms.is_empty()).then(|| format!("{} {verb} {what}", listed(&names)))
}
