//! Calls the plain node (node.rs) as crates/node_bench calls the proved one, with the same arguments: what is done, how
//! often, and by how many threads beside the first.
#![allow(dead_code)]

mod chacha;
mod choosers;
mod detector;
mod faults;
mod fields;
mod gaps;
mod header;
mod journal;
mod members;
mod plain_node;
mod replies;
mod requests;
mod round;
mod wire;

mod events;

use crate::choosers::{Chooser, Scripted};
use crate::detector::Detector;
use crate::header::Opening;
use crate::members::{Row, State};
use crate::plain_node::{Call, Caller, Node, Recorder};
use crate::replies::Probe;
use crate::wire::{Message, Peer, Version};
use std::process::ExitCode;
use std::sync::atomic::{AtomicBool, Ordering};
use std::thread;

const ME: u32 = 1;
const OTHER: u32 = 2;
const PASSER: u32 = 3;
const SOMEWHERE: Peer = Peer {
    ip: [10, 0, 0, 2],
    port: 7000,
};

fn main() -> ExitCode {
    let words: Vec<String> = std::env::args().skip(1).collect();
    match answered(&words) {
        Some(count) => {
            println!("{count}");
            ExitCode::SUCCESS
        }
        None => {
            eprintln!("usage: node open|record|tick|hear|change|list CALLS BESIDE");
            ExitCode::from(2)
        }
    }
}

/// How many calls were answered.
fn answered(words: &[String]) -> Option<u32> {
    let [mode, calls, beside] = words else {
        return None;
    };
    let (calls, beside): (u32, u32) = (calls.parse().ok()?, beside.parse().ok()?);
    let is_list = mode == "list";
    let limit = if is_list { calls.saturating_mul(8) } else { calls };
    let recorder = Recorder::new(detector(), limit);
    if mode == "record" {
        return Some(record(recorder, calls));
    }
    let node = Node::new(recorder);
    let over = AtomicBool::new(false);
    match mode.as_str() {
        "open" => Some(0),
        "tick" => Some(call_often(&node, calls, |_| Call::Tick)),
        "hear" => Some(hear(&node, calls, beside)),
        "change" => Some(change(&node, calls, beside, &over)),
        "list" => Some(list_beside(&node, calls, beside, limit, &over)),
        _ => None,
    }
}

fn detector() -> Detector {
    let opening = Opening {
        me: ME,
        k: 0,
        rtt: 1,
        period: 65_535,
        version: Version::One,
        last: 0,
        rows: vec![Row {
            id: OTHER,
            peer: SOMEWHERE,
            state: State::Up,
        }],
    };
    Detector::new(&opening, Chooser::Scripted(Scripted::default()))
}

fn ping() -> Message {
    let probe = Probe {
        version: Version::One,
        target: ME,
        peer: SOMEWHERE,
        number: 1,
    };
    Message::of_probe(OTHER, &probe)
}

fn record(mut recorder: Recorder, calls: u32) -> u32 {
    let hear = |number| recorder.record(0, number, Call::Hear(ping(), SOMEWHERE));
    (0..calls).map_while(hear).count() as u32
}

fn call_often(node: &Node, calls: u32, call: impl Fn(u32) -> Call) -> u32 {
    let mut caller = Caller::new(0);
    let answers = |turn: &u32| node.call(&mut caller, call(*turn)).is_ok();
    (0..calls).filter(answers).count() as u32
}

/// Pings, by one thread and so many beside it.
fn hear(node: &Node, calls: u32, beside: u32) -> u32 {
    let by_one = |number: u32| {
        let mut caller = Caller::new(number as u8);
        let (bytes, length) = ping().datagram();
        (0..calls / (beside + 1))
            .filter(|_| node.hear(&mut caller, &bytes[..length], SOMEWHERE).is_ok())
            .count() as u32
    };
    thread::scope(|scope| {
        let by_one = &by_one;
        let others: Vec<_> = (1..=beside)
            .map(|number| scope.spawn(move || by_one(number)))
            .collect();
        by_one(0) + others.into_iter().filter_map(|it| it.join().ok()).sum::<u32>()
    })
}

/// A member joins and leaves in turn.
fn pass(node: &Node, calls: u32, over: &AtomicBool) -> u32 {
    let mut caller = Caller::new(0);
    (0..calls)
        .take_while(|_| !over.load(Ordering::SeqCst))
        .filter(|turn| {
            let call = match turn % 2 {
                0 => Call::Join(PASSER, SOMEWHERE),
                _ => Call::Remove(PASSER),
            };
            node.call(&mut caller, call).is_ok()
        })
        .count() as u32
}

/// Looks at the table, and counts those in which the other member stands.
fn list(node: &Node, looks: u32, over: &AtomicBool) -> u32 {
    (0..looks)
        .take_while(|_| !over.load(Ordering::SeqCst))
        .filter(|_| node.list().iter().any(|row| row.id == OTHER))
        .count() as u32
}

/// Changes, while so many readers list the table.
fn change(node: &Node, calls: u32, readers: u32, over: &AtomicBool) -> u32 {
    thread::scope(|scope| {
        for _ in 0..readers {
            scope.spawn(|| list(node, u32::MAX, over));
        }
        let answered = pass(node, calls, over);
        over.store(true, Ordering::SeqCst);
        answered
    })
}

/// Looks, while so many writers change the table.
fn list_beside(node: &Node, looks: u32, writers: u32, most_changes: u32, over: &AtomicBool) -> u32 {
    thread::scope(|scope| {
        for _ in 0..writers {
            scope.spawn(|| pass(node, most_changes, over));
        }
        let seen = list(node, looks, over);
        over.store(true, Ordering::SeqCst);
        seen
    })
}
