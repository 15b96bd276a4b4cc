//! Who goes on at each choice of each run.

use super::moves::Move;
use super::schedule::{Choice, Schedule};
use super::tree::{Astray, Tree};

/// How the choices of each run are made.
pub(crate) enum Chooser {
    Every(Tree),
    Random(Random),
    Priorities(Priorities),
    Given(Schedule),
}

impl Chooser {
    /// A run begins: the one of this number.
    pub fn begin(&mut self, run: u64) {
        match self {
            Chooser::Every(tree) => tree.begin(),
            Chooser::Random(random) => random.begin(run),
            Chooser::Priorities(priorities) => priorities.begin(run),
            Chooser::Given(_) => (),
        }
    }

    /// Which of these moves is made, of which there is one at least. `choice` counts the choices
    /// of the run that had more than one way.
    pub fn choose(&mut self, moves: Vec<Move>, last: usize, choice: usize) -> Result<Move, Astray> {
        match self {
            Chooser::Every(tree) => tree.choose(moves, last),
            _ if moves.len() == 1 => Ok(moves[0]),
            Chooser::Random(random) => Ok(moves[random.below(moves.len() as u64) as usize]),
            Chooser::Priorities(priorities) => Ok(priorities.choose(&moves)),
            Chooser::Given(schedule) => given(schedule, &moves, choice),
        }
    }

    /// Whether there is another run.
    pub fn next_run(&mut self) -> bool {
        match self {
            Chooser::Every(tree) => tree.next_run(),
            Chooser::Random(_) | Chooser::Priorities(_) => true,
            Chooser::Given(_) => false,
        }
    }

    pub fn tree(&self) -> Option<&Tree> {
        match self {
            Chooser::Every(tree) => Some(tree),
            _ => None,
        }
    }

    pub fn tree_mut(&mut self) -> Option<&mut Tree> {
        match self {
            Chooser::Every(tree) => Some(tree),
            _ => None,
        }
    }
}

/// The move that a schedule has. After its end the first one.
fn given(schedule: &Schedule, moves: &[Move], choice: usize) -> Result<Move, Astray> {
    let Some(wanted) = schedule.choices.get(choice) else {
        return Ok(moves[0]);
    };
    let found = moves.iter().find(|way| Choice::of(way) == *wanted);
    let task = wanted.task;
    found.copied().ok_or(Astray::Unfit { choice, task })
}

/// Numbers that look like random ones, the same for a seed.
pub(crate) struct Random {
    seed: u64,
    state: u64,
}

impl Random {
    pub fn new(seed: u64) -> Random {
        Random { seed, state: seed }
    }

    /// The seed and the run's number alone say which numbers follow.
    fn begin(&mut self, run: u64) {
        self.state = mix(self.seed, run);
    }

    fn next(&mut self) -> u64 {
        self.state = self.state.wrapping_add(0x9E37_79B9_7F4A_7C15);
        let x = (self.state ^ (self.state >> 30)).wrapping_mul(0xBF58_476D_1CE4_E5B9);
        let x = (x ^ (x >> 27)).wrapping_mul(0x94D0_49BB_1331_11EB);
        x ^ (x >> 31)
    }

    /// The next number below this one.
    pub fn below(&mut self, most: u64) -> u64 {
        ((u128::from(self.next()) * u128::from(most)) >> 64) as u64
    }
}

/// Two numbers as one.
pub(crate) fn mix(one: u64, other: u64) -> u64 {
    let x = (one.rotate_left(25) ^ other).wrapping_mul(0x9E37_79B9_7F4A_7C15);
    x ^ (x >> 29)
}

/// Priorities that change at a few moments: the thread with the highest one goes on. A bug that
/// needs `depth` orders between two steps is met by each run with a chance that falls slowly with
/// the length of the run.
pub(crate) struct Priorities {
    random: Random,
    depth: u64,
    /// How many choices the longest run has had.
    longest: u64,
    of_task: Vec<u64>,
    /// At these choices the thread that would go on gets the lowest priority.
    changes: Vec<u64>,
    choice: u64,
}

/// So long is the first run thought to be.
const FIRST_LENGTH: u64 = 16;

impl Priorities {
    pub fn new(seed: u64, depth: u64) -> Priorities {
        Priorities {
            random: Random::new(seed),
            depth,
            longest: FIRST_LENGTH,
            of_task: Vec::new(),
            changes: Vec::new(),
            choice: 0,
        }
    }

    fn begin(&mut self, run: u64) {
        self.longest = self.longest.max(self.choice);
        self.random.begin(run);
        self.of_task.clear();
        let random = &mut self.random;
        self.changes = (1..self.depth).map(|_| random.below(self.longest)).collect();
        self.choice = 0;
    }

    fn choose(&mut self, moves: &[Move]) -> Move {
        let tasks = moves.iter().map(|way| way.task + 1).max().unwrap_or(0);
        while self.of_task.len() < tasks {
            // Those that have changed are lower.
            self.of_task.push(self.depth + (self.random.next() >> 8));
        }
        let mut best = self.best(moves);
        if let Some(change) = self.changes.iter().position(|at| *at == self.choice) {
            self.of_task[best.task] = change as u64;
            best = self.best(moves);
        }
        self.choice += 1;
        // Any one of its futures goes on. Or its time passes.
        let own: Vec<&Move> = moves.iter().filter(|way| way.task == best.task).collect();
        match own.len() {
            1 => best,
            ways => *own[self.random.below(ways as u64) as usize],
        }
    }

    fn best(&self, moves: &[Move]) -> Move {
        let highest = moves.iter().max_by_key(|way| self.of_task[way.task]);
        *highest.unwrap_or(&moves[0])
    }
}
