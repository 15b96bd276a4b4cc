//! Every order, one run after the other: a search through the tree of choices, depth first.

use super::choose::Random;
use super::moves::{By, Move};
use super::races::{Ask, Races};
use super::step::StepKind;

/// What has become of a way at a choice.
#[derive(Clone, Copy, PartialEq)]
enum Mark {
    /// No race has asked for it.
    Unasked,
    Open,
    /// An order that was run before has it first, and leaves the same.
    Asleep,
    Tried,
}

/// A choice of the run that is on, with the ways that it has.
struct Node {
    moves: Vec<Move>,
    marks: Vec<Mark>,
    at: usize,
}

/// Why a run doesn't go on.
#[derive(Debug)]
pub(crate) enum Astray {
    /// At this choice the same ways as in the run before were expected.
    Differs { choice: usize, before: Vec<Move> },
    /// The schedule has this thread, which can't go on.
    Unfit { choice: usize, task: usize },
}

/// The choices of the run that is on. Those after the last one that has another way are new in each
/// run.
pub(crate) struct Tree {
    nodes: Vec<Node>,
    depth: usize,
    /// Whether it leaves out orders in which only steps are exchanged that commute.
    sleeps: bool,
    /// What asks for ways. `None`: every way is open.
    races: Option<Races>,
    /// In a run a thread that could go on gives way to another one at most so often.
    preemptions: Option<u32>,
    preempted: u32,
    /// The rest of this run leaves the same as a run before. It is run to see that it does, in any
    /// order.
    is_repeat: bool,
    random: Random,
    /// How many runs there were.
    runs: u64,
    /// Every order was run, and after this run there are this many repeats.
    checks: Option<u64>,
}

/// After all orders it makes three repeats more than there were runs, and this many at the most.
pub(crate) const CHECKS: u64 = 16;

impl Tree {
    /// A bound of preemptions doesn't go with sleep sets: an order that is left out may be the only
    /// one within the bound.
    pub fn new(sleeps: bool, preemptions: Option<u32>) -> Tree {
        let sleeps = sleeps && preemptions.is_none();
        Tree {
            nodes: Vec::new(),
            depth: 0,
            sleeps,
            races: sleeps.then(Races::default),
            preemptions,
            preempted: 0,
            is_repeat: false,
            random: Random::new(1),
            runs: 0,
            checks: None,
        }
    }

    pub fn sleeps(&self) -> bool {
        self.sleeps
    }

    /// Whether the run leaves the same as one before.
    pub fn is_repeat(&self) -> bool {
        self.is_repeat
    }

    pub fn begin(&mut self) {
        (self.depth, self.preempted, self.is_repeat) = (0, 0, self.checks.is_some());
        if let Some(races) = &mut self.races {
            races.begin();
        }
    }

    /// A thread starts another one.
    pub fn started(&mut self, task: usize, by: usize) {
        if let Some(races) = &mut self.races {
            races.started(task, by);
        }
    }

    /// A thread has joined another one.
    pub fn joined(&mut self, task: usize, other: usize) {
        if let Some(races) = &mut self.races {
            races.joined(task, other);
        }
    }

    /// A thread lets this lock go.
    pub fn released(&mut self, task: usize, lock: u64) {
        if let Some(races) = &mut self.races {
            races.released(task, lock);
        }
    }

    /// These wait at the next choice.
    pub fn wait(&mut self, waits: &[Move]) {
        if self.is_repeat || self.depth < self.nodes.len() {
            return;
        }
        if let Some(races) = &mut self.races {
            let nodes = &self.nodes;
            let asked = races.wait(waits, |at| nodes[at].has_unasked());
            self.ask(&asked);
        }
    }

    fn ask(&mut self, asked: &[Ask]) {
        for ask in asked {
            self.nodes[ask.at].ask(&ask.tasks);
        }
    }

    /// Not all races are known: from now on every way is open.
    pub fn ask_for_all(&mut self) {
        self.races = None;
        for node in &mut self.nodes {
            node.ask(&[]);
        }
    }

    /// Which of these moves is made. The first is that of the thread that went on last, if it can.
    pub fn choose(&mut self, moves: Vec<Move>, last: usize) -> Result<Move, Astray> {
        if self.is_repeat {
            let any = match moves.len() {
                1 => 0,
                ways => self.random.below(ways as u64) as usize,
            };
            return Ok(moves[any]);
        }
        let has_no_races = |kind: StepKind| kind.is_of_rings() || kind.is_of_condition();
        if self.races.is_some() && moves.iter().any(|way| has_no_races(way.step.kind)) {
            self.ask_for_all();
        }
        let chosen = match self.nodes.get(self.depth) {
            Some(node) => node.again(self.depth, &moves)?,
            None => match self.grow(moves, last) {
                Ok(chosen) => chosen,
                Err(first) => {
                    self.is_repeat = true;
                    return Ok(first);
                }
            },
        };
        let goes_on = &self.nodes[self.depth].moves[0];
        let is_preemption = goes_on.task == last && goes_on.by == By::Step && chosen.task != last;
        self.preempted += u32::from(is_preemption);
        if let Some(races) = &mut self.races {
            let nodes = &self.nodes;
            let asked = races.made(self.depth, &chosen, |at| nodes[at].has_unasked());
            self.ask(&asked);
        }
        self.depth += 1;
        Ok(chosen)
    }

    /// A new choice. `Err`, with its first way, if all of its ways are asleep.
    fn grow(&mut self, mut moves: Vec<Move>, last: usize) -> Result<Move, Move> {
        if self.preemptions.is_some_and(|most| self.preempted >= most)
            && moves[0].task == last
            && moves[0].by == By::Step
        {
            moves.retain(|way| way.task == last);
        }
        let mut marks = self.marks(&moves);
        let Some(at) = marks.iter().position(|mark| *mark == Mark::Open) else {
            return Err(moves[0]);
        };
        let chosen = moves[at];
        if self.races.is_some() && chosen.by == By::Step {
            let others = marks.iter_mut().skip(at + 1).filter(|mark| **mark == Mark::Open);
            others.for_each(|mark| *mark = Mark::Unasked);
        }
        self.nodes.push(Node { moves, marks, at });
        Ok(chosen)
    }

    /// Asleep is what was so or was tried at the choice before, and commutes with what happened
    /// there.
    fn marks(&self, moves: &[Move]) -> Vec<Mark> {
        let before = self.sleeps.then(|| self.depth.checked_sub(1)).flatten();
        let Some(node) = before.map(|before| &self.nodes[before]) else {
            return vec![Mark::Open; moves.len()];
        };
        let went = &node.moves[node.at];
        let is_asleep = |now: &Move| {
            let is_same = |was: &Move| (was.task, was.at, was.by) == (now.task, now.at, now.by);
            let was = node.moves.iter().position(is_same);
            was.is_some_and(|was| {
                was != node.at
                    && matches!(node.marks[was], Mark::Asleep | Mark::Tried)
                    && node.moves[was].commutes_with(went)
            })
        };
        let mark = |now| {
            if is_asleep(now) {
                Mark::Asleep
            } else {
                Mark::Open
            }
        };
        moves.iter().map(mark).collect()
    }

    /// Goes back to the last choice that has another way. `false`: every order was run.
    pub fn next_run(&mut self) -> bool {
        self.runs += 1;
        while let Some(node) = self.nodes.last_mut() {
            node.marks[node.at] = Mark::Tried;
            if let Some(at) = node.marks.iter().position(|mark| *mark == Mark::Open) {
                node.at = at;
                let kept = self.nodes.len() - 1;
                self.races.iter_mut().for_each(|races| races.keep(kept));
                return true;
            }
            self.nodes.pop();
        }
        self.checks()
    }

    /// Whether one more repeat is made, to see that it leaves the same: there were few.
    fn checks(&mut self) -> bool {
        let all = self.races.as_ref().map_or(0, |_| (self.runs + 3).min(CHECKS));
        self.checks = self.checks.unwrap_or(all).checked_sub(1);
        self.checks.is_some()
    }
}

impl Node {
    /// The way that is taken here in this run too, if there are the same ways again.
    fn again(&self, choice: usize, moves: &[Move]) -> Result<Move, Astray> {
        // A bound may have left only the first.
        if moves.starts_with(&self.moves) {
            return Ok(self.moves[self.at]);
        }
        Err(Astray::Differs {
            choice,
            before: self.moves.clone(),
        })
    }

    fn has_unasked(&self) -> bool {
        self.marks.contains(&Mark::Unasked)
    }

    /// Opens a way of one of these threads, unless one of theirs was open, tried or asleep. If none
    /// of them can go on here, it opens all.
    fn ask(&mut self, tasks: &[usize]) {
        let of = |task: &usize| self.moves.iter().position(|way| way.task == *task);
        let ways: Vec<usize> = tasks.iter().filter_map(of).collect();
        if ways.iter().any(|way| self.marks[*way] != Mark::Unasked) {
            return;
        }
        if let Some(way) = ways.first() {
            self.marks[*way] = Mark::Open;
            return;
        }
        let unasked = self.marks.iter_mut().filter(|mark| **mark == Mark::Unasked);
        unasked.for_each(|mark| *mark = Mark::Open);
    }
}
