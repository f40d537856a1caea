//! The configuration of the daemon, as the tests write it: a key and its value a line, and `[[member]]` before a member's.

use crate::fields::{bytes_of, number_of, peer_of};
use crate::header::Opening;
use crate::members::{Row, State};
use crate::wire::{Peer, Version};
use std::collections::HashMap;

pub struct Settings {
    pub opening: Opening,
    pub listen: Peer,
    pub control: String,
    pub tick_ms: u64,
    pub seed: [u8; 32],
    pub limit: u32,
}

/// The lines of one table: the value of each key, without its quotes.
type Table<'a> = HashMap<&'a str, &'a str>;

impl Settings {
    /// None where a key is missing, or its value isn't within its range.
    pub fn read(text: &str) -> Option<Settings> {
        let mut tables = text.split("[[member]]").map(table);
        let top = tables.next()?;
        let rows = tables.map(|member| {
            Some(Row {
                id: id(&member)?,
                peer: peer(member.get("at")?)?,
                state: State::Up,
            })
        });
        let short = |key| number(top.get(key)?, u64::from(u32::MAX));
        let opening = Opening {
            me: id(&top)?,
            k: short("k")? as u32,
            rtt: short("rtt")? as u32,
            period: short("period")? as u32,
            version: Version::of(number(top.get("wire").unwrap_or(&"1"), 2)?)?,
            last: number(top.get("last").unwrap_or(&"0"), i64::MAX as u64)?,
            rows: rows.collect::<Option<_>>()?,
        };
        let settings = Settings {
            listen: peer(top.get("listen")?)?,
            control: top.get("control")?.to_string(),
            tick_ms: number(top.get("tick_ms")?, 60_000)?,
            seed: bytes_of(top.get("seed")?.as_bytes())?,
            limit: number(top.get("journal")?, 1_000_000)? as u32,
            opening,
        };
        settings.opening.fault().is_none().then_some(settings)
    }
}

fn table(lines: &str) -> Table<'_> {
    lines.lines().filter_map(key_and_value).collect()
}

fn key_and_value(line: &str) -> Option<(&str, &str)> {
    let (key, value) = line.split_once('=')?;
    Some((key.trim(), value.trim().trim_matches('"')))
}

fn number(text: &str, largest: u64) -> Option<u64> {
    number_of(text.as_bytes(), largest)
}

fn id(table: &Table) -> Option<u32> {
    number(table.get("id")?, u64::from(u32::MAX)).map(|id| id as u32)
}

fn peer(text: &str) -> Option<Peer> {
    peer_of(text.as_bytes())
}
