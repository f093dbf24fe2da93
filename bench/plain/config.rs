//! The settings, as the workloads of bench.py and the examples have them: one key a line. What is
//! wrong in them isn't looked for.
use crate::asdu::Sizes;
use std::collections::HashMap;

pub struct Station {
    pub address: u16,
    pub ca: u16,
    pub select: bool,
}

pub struct Config {
    pub link: usize,
    pub sizes: Sizes,
    pub answer_ms: u64,
    pub retries: u16,
    pub hold: bool,
    pub burst: u8,
    pub queue: usize,
    pub k: u16,
    pub w: u16,
    pub t1: u64,
    pub t2: u64,
    pub t3: u64,
    pub select_ms: u64,
    pub max_age_ms: u64,
    pub stations: Vec<Station>,
}

pub fn read(text: &str) -> Option<Config> {
    let mut table = String::new();
    let mut values: HashMap<(String, String), String> = HashMap::new();
    let mut stations = 0;
    for line in text.lines() {
        let line = line.split('#').next()?.trim();
        if let Some(name) = line
            .strip_prefix("[[")
            .and_then(|rest| rest.strip_suffix("]]"))
        {
            stations += 1;
            table = format!("{name}{stations}");
        } else if let Some(name) = line
            .strip_prefix('[')
            .and_then(|rest| rest.strip_suffix(']'))
        {
            table = name.to_string();
        } else if let Some((key, value)) = line.split_once('=') {
            values.insert(
                (table.clone(), key.trim().to_string()),
                value.trim().trim_matches('"').to_string(),
            );
        }
    }
    let text = |table: &str, key: &str| values.get(&(table.to_string(), key.to_string()));
    let number = |table: &str, key: &str, default: u64| match text(table, key) {
        Some(value) => value.parse().ok(),
        None => Some(default),
    };
    let station = |n: usize| {
        let table = format!("station{n}");
        Some(Station {
            address: number(&table, "address", 0)? as u16,
            ca: number(&table, "ca", 0)? as u16,
            select: text(&table, "select").is_some_and(|value| value == "true"),
        })
    };
    Some(Config {
        link: number("line", "link", 1)? as usize,
        sizes: Sizes {
            cause: number("line", "cause", 1)? as usize,
            ca: number("line", "ca", 1)? as usize,
            ioa: number("line", "ioa", 2)? as usize,
        },
        answer_ms: number("line", "answer_ms", 200)?,
        retries: number("line", "retries", 3)? as u16,
        hold: text("line", "silence").is_none_or(|value| value == "hold"),
        burst: number("line", "burst", 8)? as u8,
        queue: number("line", "queue", 1000)? as usize,
        k: number("tcp", "k", 12)? as u16,
        w: number("tcp", "w", 8)? as u16,
        t1: number("tcp", "t1_ms", 15000)?,
        t2: number("tcp", "t2_ms", 10000)?,
        t3: number("tcp", "t3_ms", 20000)?,
        select_ms: number("tcp", "select_ms", 30000)?,
        max_age_ms: number("tcp", "max_age_ms", 10000)?,
        stations: (1..=stations).map(station).collect::<Option<_>>()?,
    })
}
