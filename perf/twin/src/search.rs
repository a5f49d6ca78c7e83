//! The search: forced marks, holds, picks, and turns that learn.

use crate::text::Book;

const PLACES: usize = 256;

/// A mark: its part from 0, and the code of its side, 1 in or 2 out.
#[derive(Clone, Copy, PartialEq)]
struct Mark {
    part: u8,
    side: u8,
}

impl Mark {
    fn from_signed(number: i16) -> Mark {
        Mark { part: number.unsigned_abs() as u8 - 1, side: if number < 0 { 2 } else { 1 } }
    }

    fn opposite(self) -> Mark {
        Mark { part: self.part, side: 3 - self.side }
    }
}

#[derive(Clone, Copy, PartialEq)]
enum Reason {
    Book(usize),
    Shelf(usize),
}

#[derive(Clone, Copy, PartialEq)]
enum Kind {
    Held,
    Picked,
    Forced(Reason),
}

pub enum Verdict {
    Fits,
    NoneFits(Vec<u8>),
    Spent,
}

/// What a scan finds.
enum Found {
    Broken(usize),
    Pressing(usize, Mark),
    Quiet,
}

/// Rules one after another in a flat list, and where each ends.
struct Rules {
    marks: Vec<Mark>,
    ends: Vec<u32>,
}

impl Rules {
    fn marks(&self, rule: usize) -> &[Mark] {
        let from = if rule == 0 { 0 } else { self.ends[rule - 1] as usize };
        &self.marks[from..self.ends[rule] as usize]
    }
}

/// A fixed number of places, each empty or with a lesson of at most n marks.
struct Shelf {
    n: usize,
    marks: Vec<Mark>,
    counts: Vec<Option<u8>>,
}

impl Shelf {
    fn lesson(&self, place: usize) -> Option<&[Mark]> {
        let count = usize::from(self.counts[place]?);
        Some(&self.marks[place * self.n..place * self.n + count])
    }

    fn write(&mut self, place: usize, row: &[u8]) {
        let block = &mut self.marks[place * self.n..(place + 1) * self.n];
        let mut count = 0;
        for (part, side) in row.iter().enumerate().filter(|(_, side)| **side != 0) {
            block[count] = Mark { part: part as u8, side: *side };
            count += 1;
        }
        self.counts[place] = Some(count as u8);
    }
}

/// The state of a rule: `None` where it is broken, else its only open mark where it is pressing.
enum State {
    Broken,
    Pressing(Mark),
    Quiet,
}

fn state(marks: &[Mark], row: &[u8]) -> State {
    let mut free = None;
    for mark in marks {
        let code = row[usize::from(mark.part)];
        if code == 0 {
            if free.is_some() {
                return State::Quiet;
            }
            free = Some(*mark);
        } else if code == mark.side {
            return State::Quiet;
        }
    }
    free.map_or(State::Broken, State::Pressing)
}

fn scan<'a>(mut rules: impl Iterator<Item = (usize, &'a [Mark])>, row: &[u8]) -> Found {
    while let Some((i, marks)) = rules.next() {
        match state(marks, row) {
            State::Broken => return Found::Broken(i),
            // Only a broken rule would come before this one.
            State::Pressing(mark) => {
                return first_broken(rules, row).map_or(Found::Pressing(i, mark), Found::Broken);
            }
            State::Quiet => {}
        }
    }
    Found::Quiet
}

fn first_broken<'a>(mut rules: impl Iterator<Item = (usize, &'a [Mark])>, row: &[u8]) -> Option<usize> {
    rules
        .find(|(_, marks)| marks.iter().all(|mark| row[usize::from(mark.part)] == 3 - mark.side))
        .map(|(i, _)| i)
}

pub struct Search {
    n: usize,
    rules: Rules,
    shelf: Shelf,
    holds: Vec<Mark>,
    trail: Vec<(Mark, Kind)>,
    row: Vec<u8>,
    last: usize,
    pub steps: usize,
    pub turns: usize,
}

impl Search {
    pub fn new(book: &Book, holds: &[(usize, u8)]) -> Search {
        let n = book.n;
        let marks = book.marks.iter().map(|number| Mark::from_signed(*number)).collect();
        Search {
            n,
            rules: Rules { marks, ends: book.ends.clone() },
            shelf: Shelf { n, marks: vec![Mark { part: 0, side: 0 }; PLACES * n], counts: vec![None; PLACES] },
            holds: holds.iter().map(|hold| Mark { part: hold.0 as u8 - 1, side: hold.1 }).collect(),
            trail: Vec::with_capacity(n),
            row: vec![0; n],
            last: PLACES - 1,
            steps: 0,
            turns: 0,
        }
    }

    pub fn row(&self) -> &[u8] {
        &self.row
    }

    /// Steps until the budget is used or a verdict stands.
    pub fn run(&mut self, budget: usize) -> Verdict {
        while self.steps < budget {
            self.steps += 1;
            if let Some(verdict) = self.step() {
                return verdict;
            }
        }
        Verdict::Spent
    }

    fn step(&mut self) -> Option<Verdict> {
        let in_book = scan((0..self.rules.ends.len()).map(|i| (i, self.rules.marks(i))), &self.row);
        if let Found::Broken(rule) = in_book {
            return self.turn(Reason::Book(rule));
        }
        let mut lessons = (0..PLACES).filter_map(|i| Some((i, self.shelf.lesson(i)?)));
        if let Found::Pressing(rule, mark) = in_book {
            match first_broken(&mut lessons, &self.row) {
                Some(place) => return self.turn(Reason::Shelf(place)),
                None => self.settle(mark, Kind::Forced(Reason::Book(rule))),
            }
            return None;
        }
        match scan(lessons, &self.row) {
            Found::Broken(place) => return self.turn(Reason::Shelf(place)),
            Found::Pressing(place, mark) => self.settle(mark, Kind::Forced(Reason::Shelf(place))),
            Found::Quiet => return self.hold_or_pick(),
        }
        None
    }

    fn hold_or_pick(&mut self) -> Option<Verdict> {
        let crossed = self.holds.iter().find(|hold| self.row[usize::from(hold.part)] == 3 - hold.side);
        if let Some(reason) = crossed.and_then(|hold| self.reason_of(hold.part)) {
            return self.turn(reason);
        }
        if let Some(hold) = self.holds.iter().find(|hold| self.row[usize::from(hold.part)] == 0) {
            self.settle(*hold, Kind::Held);
            return None;
        }
        match self.row.iter().position(|code| *code == 0) {
            None => Some(Verdict::Fits),
            Some(part) => {
                self.settle(Mark { part: part as u8, side: 2 }, Kind::Picked);
                None
            }
        }
    }

    fn reason_of(&self, part: u8) -> Option<Reason> {
        match self.trail.iter().find(|(mark, _)| mark.part == part)?.1 {
            Kind::Forced(reason) => Some(reason),
            _ => None,
        }
    }

    fn settle(&mut self, mark: Mark, kind: Kind) {
        self.trail.push((mark, kind));
        self.row[usize::from(mark.part)] = mark.side;
    }

    fn enter(&self, reason: Reason, work: &mut [u8]) {
        let marks = match reason {
            Reason::Book(rule) => self.rules.marks(rule),
            Reason::Shelf(place) => self.shelf.lesson(place).unwrap_or_default(),
        };
        for mark in marks {
            work[usize::from(mark.part)] = mark.side;
        }
    }

    fn turn(&mut self, reason: Reason) -> Option<Verdict> {
        self.turns += 1;
        let mut codes = [0; 120];
        let work = &mut codes[..self.n];
        self.enter(reason, work);
        while let Some((mark, kind)) = self.trail.pop() {
            let part = usize::from(mark.part);
            self.row[part] = 0;
            if work[part] != mark.opposite().side {
                continue;
            }
            match kind {
                Kind::Held => {}
                Kind::Forced(reason) => {
                    self.enter(reason, work);
                    work[part] = 0;
                }
                Kind::Picked => {
                    let place = self.next_place();
                    self.shelf.write(place, work);
                    self.last = place;
                    self.settle(mark.opposite(), Kind::Forced(Reason::Shelf(place)));
                    return None;
                }
            }
        }
        let mut named = vec![0; self.n];
        for hold in &self.holds {
            let part = usize::from(hold.part);
            if work[part] == hold.opposite().side {
                named[part] = hold.side;
            }
        }
        Some(Verdict::NoneFits(named))
    }

    /// The next empty place after the last written, going round; else the next that is no reason.
    fn next_place(&self) -> usize {
        let around = || (self.last + 1..PLACES).chain(0..=self.last);
        let is_reason = |place| self.trail.iter().any(|(_, kind)| *kind == Kind::Forced(Reason::Shelf(place)));
        around()
            .find(|place| self.shelf.counts[*place].is_none())
            .or_else(|| around().find(|place| !is_reason(*place)))
            .expect("no more places are reasons than there are parts")
    }
}
