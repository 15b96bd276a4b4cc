//! Random programs whose calls meet more, since they are on few objects. Some threads receive from
//! ports that they have made.

use super::locks::{self, FIRST_LOCK};
use super::{step, Board, Objects, Plan};
use crate::explore::choose::{mix, Random};
use crate::explore::step::{Step, StepKind, NONE};
use crate::message::carries::Numbers;
use crate::message::names::{Object, Port};
use crate::seat::owned::OwnedSeat;

/// The calls of this file are the kinds from this one on.
pub(super) const FIRST_ON_FEW: u64 = 50;

/// The kinds of calls on a mailbox, on variables, and on a channel with its ports.
const FAMILIES: [&[u64]; 8] = [
    &[0, 2, 4, 25, 3],
    &[5, 6, 7, 8, 9, 10, 27],
    &[15, 17, 18, 20, 19, 16, 17],
    &[15, 17, 18, 20, 23, 24, 26, 28, 29],
    &[11, 12, 13, 14, 21, 22],
    &[15, 54, 55, 56, 56, 57, 58, 59],
    &[15, 15, 55, 56, 56, 58, 20, 17],
    &[50, 51, 52, 51, 53, 54, 0, 2],
];

/// How many calls each thread has.
const SHAPES: [&[usize]; 5] = [
    &[3, 3, 4],
    &[2, 2, 2, 2],
    &[5, 5],
    &[3, 2, 1, 2],
    &[1, 1, 2, 1, 2],
];

pub(super) fn plan(number: u64) -> Plan {
    let mut random = Random::new(mix(number, 13));
    let mut one_of = |count: usize| random.below(count as u64) as usize;
    let shape = SHAPES[one_of(SHAPES.len())];
    let [family, other] = [(); 2].map(|()| FAMILIES[one_of(FAMILIES.len())]);
    let mut call = || {
        let family = if one_of(4) == 0 { other } else { family };
        family[one_of(family.len())]
    };
    shape.iter().map(|calls| (0..*calls).map(|_| call()).collect()).collect()
}

/// What a thread has beside its seat.
#[derive(Clone)]
pub(super) struct Own {
    /// The port that it made last.
    port: Option<Port<u64>>,
}

/// What the threads have, and what they share beside the board and mark so.
pub(super) struct FewObjects {
    own: Vec<Own>,
    aside: [u64; 2],
    pub locks: locks::Values,
}

impl FewObjects {
    pub fn of(plan: &Plan) -> FewObjects {
        FewObjects {
            own: vec![Own { port: None }; plan.len()],
            aside: [0; 2],
            locks: locks::Values::default(),
        }
    }

    /// The step that a call of this kind is.
    pub fn step(&self, thread: usize, kind: u64, of: Objects) -> Step {
        let port = self.own[thread].port.unwrap_or(of.port).number();
        match kind {
            50 => StepKind::LookAtAll.on(NONE),
            51 | 52 => StepKind::Aside.on(kind - 51),
            53 => StepKind::Mailbox.makes(),
            54 => step(23, of),
            55 => step(24, of),
            56 => StepKind::Recv.on(port),
            57 => StepKind::Poll.on(port),
            58 => StepKind::Close.on(port),
            FIRST_LOCK.. => locks::step(kind),
            _ => StepKind::Look.on(port),
        }
    }

    /// Makes a call of this kind. Returns what was seen that has no entry.
    pub fn call(
        &mut self,
        thread: usize,
        kind: u64,
        of: Objects,
        (board, seat): (&Board, &mut OwnedSeat<Numbers>),
    ) -> u64 {
        let own = &mut self.own[thread];
        let port = own.port.unwrap_or(of.port);
        match kind {
            50 => return board.entries(),
            51 | 52 => {
                let aside = &mut self.aside[(kind - 51) as usize];
                *aside += 1;
                return *aside;
            }
            53 => drop(seat.mailbox::<u64>()),
            54 => own.port = seat.port(of.channel).ok(),
            55 => own.port = seat.copy(of.port).ok().flatten(),
            56 => drop(seat.recv(port)),
            57 => drop(seat.recv_poll(port)),
            58 => drop(seat.close(port)),
            FIRST_LOCK.. => (),
            _ => return board.owed(port).unwrap_or(NONE),
        }
        0
    }
}
