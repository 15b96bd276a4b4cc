//! Calls of lanes and feeds, for random programs.

use super::{Board, Objects, Plan, CALLS, THREADS};
use crate::explore::choose::{mix, Random};
use crate::explore::step::{Step, StepKind, NONE};
use crate::message::carries::Numbers;
use crate::message::names::{Channel, Mailbox, Object, Port};
use crate::seat::owned::{OwnedFeed, OwnedLane, OwnedSeat};
use std::ops::Range;

/// Calls of lanes and feeds are the kinds from this one on.
pub(super) const FIRST_RING: u64 = 30;
const RINGS: u64 = 12;
const FIRST_FEED: u64 = 36;
/// The calls of seats and the looks that meet them.
const OTHERS: [u64; 12] = [0, 2, 3, 4, 15, 17, 18, 20, 25, 26, 29, 24];

/// A program uses few kinds, so that they meet: more of lanes and feeds than others.
pub(super) fn plan(number: u64) -> Plan {
    let mut random = Random::new(mix(number, 11));
    let mut kind = |at| match at {
        0..3 => FIRST_RING + random.below(RINGS),
        _ => OTHERS[random.below(OTHERS.len() as u64) as usize],
    };
    let kinds: Vec<u64> = (0..4).map(&mut kind).collect();
    let mut call = || kinds[random.below(4) as usize];
    // The last thread makes a call less: that leaves a third of the orders.
    let count = |thread| if thread == 2 { CALLS - 1 } else { CALLS };
    (0..THREADS).map(|thread| (0..count(thread)).map(|_| call()).collect()).collect()
}

/// The lane and the feed of a thread.
pub(super) struct Rings {
    mailbox: Mailbox<u64>,
    channel: Channel<u64>,
    /// Whether the lane is one to the channel.
    is_to_channel: bool,
    lane: Option<OwnedLane<Numbers, u64>>,
    feed: Option<OwnedFeed<Numbers, u64>>,
    /// The number of the next thread's first lane.
    other_lane: u64,
    /// The ports of this thread's first feed, and of the next one's.
    ports: [Port<u64>; 2],
}

/// What each thread has, if the program has lanes or feeds.
pub(super) fn of(board: &Board, plan: &Plan, of: Objects) -> Vec<Rings> {
    let has = |kinds: Range<u64>| plan.iter().flatten().any(|kind| kinds.contains(kind));
    let (has_lanes, has_feeds) = (has(FIRST_RING..FIRST_FEED), has(FIRST_FEED..FIRST_RING + RINGS));
    if !has_lanes && !has_feeds {
        return Vec::new();
    }
    let feed = || has_feeds.then(|| board.feed_owned(of.channel, 2).unwrap());
    let feeds = [(); THREADS].map(|()| feed());
    let ports = feeds.each_ref().map(|feed| feed.as_ref().map_or(of.port, OwnedFeed::port));
    let rings = feeds.into_iter().enumerate().map(|(thread, feed)| {
        let next = (thread + 1) % THREADS;
        let mut rings = Rings {
            mailbox: of.mailbox,
            channel: of.channel,
            is_to_channel: thread == 1,
            lane: None,
            feed,
            other_lane: next as u64,
            ports: [ports[thread], ports[next]],
        };
        // In other programs the threads open them.
        if has_lanes && plan[0][0] % 2 == 0 {
            rings.open_lane(board);
        }
        rings
    });
    rings.collect()
}

/// What a call returns that has no number.
const DONE: u64 = 0;

fn number<E>(answer: Result<u64, E>) -> u64 {
    answer.unwrap_or(NONE)
}

impl Rings {
    fn open_lane(&mut self, board: &Board) -> u64 {
        let lane = match self.is_to_channel {
            true => board.lane_owned(self.channel, 1),
            false => board.lane_owned(self.mailbox, 2),
        };
        self.lane.insert(lane.unwrap()).number()
    }

    /// The step that a call of this kind is. If there is no lane or feed, it opens one.
    pub fn step(&self, kind: u64) -> Step {
        let target = match self.is_to_channel {
            true => self.channel.number(),
            false => self.mailbox.number(),
        };
        match (kind, &self.lane, &self.feed) {
            (33, ..) => StepKind::Drain.on(self.other_lane),
            (38, ..) => StepKind::Recv.on(self.ports[1].number()),
            (39, ..) => StepKind::Poll.on(self.ports[1].number()),
            (40, ..) => StepKind::Copy.on(self.ports[1].number()),
            (41, ..) => StepKind::LookAtAll.on(NONE),
            (FIRST_RING..FIRST_FEED, None, _) => StepKind::OpenLane.on(target),
            (_, _, None) => StepKind::OpenFeed.on(self.channel.number()),
            (30 | 31, Some(lane), _) => StepKind::LaneSend.on(lane.number()),
            (32, Some(lane), _) => StepKind::Drain.on(lane.number()),
            (34 | 35, Some(lane), _) => StepKind::CloseLane.on(lane.number()),
            (36, _, Some(feed)) => StepKind::Pump.on(feed.number()),
            (_, _, Some(feed)) => StepKind::EndFeed.on(feed.number()),
        }
    }

    /// Makes a call of this kind. Returns what was answered that has no entry, and what was seen.
    pub fn call(
        &mut self,
        board: &Board,
        seat: &mut OwnedSeat<Numbers>,
        kind: u64,
        message: u64,
    ) -> (Option<u64>, u64) {
        let step = self.step(kind);
        let answer = match (step.kind, &mut self.lane, &mut self.feed) {
            (StepKind::OpenLane, ..) => self.open_lane(board),
            (StepKind::LaneSend, Some(lane), _) => number(lane.send(message).map(|()| DONE)),
            (StepKind::CloseLane, Some(_), _) => self.close_lane(kind == 34),
            (StepKind::Drain, ..) => number(board.drain(step.object)),
            (StepKind::OpenFeed, ..) => {
                self.feed.insert(board.feed_owned(self.channel, 2).unwrap()).number()
            }
            (StepKind::Pump, _, Some(feed)) => {
                let pumped = number(feed.pump());
                let received = std::iter::from_fn(|| feed.recv().unwrap());
                return (Some(pumped), received.fold(pumped, mix));
            }
            (StepKind::EndFeed, ..) => return (None, u64::from(self.feed.take().is_some())),
            (StepKind::Recv, ..) => return (None, u64::from(seat.recv(self.ports[1]).is_ok())),
            (StepKind::Poll, ..) => {
                return (None, u64::from(seat.recv_poll(self.ports[1]).is_ok()))
            }
            (StepKind::Copy, ..) => return (None, u64::from(seat.copy(self.ports[1]).is_ok())),
            _ => return (None, board.lost()),
        };
        (Some(answer), answer)
    }

    /// Closes the lane, or drops it.
    fn close_lane(&mut self, is_closed: bool) -> u64 {
        let lane = self.lane.take();
        match lane {
            Some(lane) if is_closed => number(lane.close().map(|()| DONE)),
            _ => DONE,
        }
    }

    /// Ends the lane and the feed, and receives what is left.
    pub fn leave(self, seat: &mut OwnedSeat<Numbers>) {
        drop((self.lane, self.feed));
        while seat.recv_poll(self.ports[0]).unwrap().is_some() {}
    }
}
