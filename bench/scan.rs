//! What `dnr match` does as a plain Rust program, to measure against: `scan RULES REQUESTS [index]`.
//!
//! It reads only the rules that the scripts beside it make, with little checking, and prints what `dnr` prints. It tests each
//! rule for each request, or with a third word those that an index of words finds. Requests it reads by hand, with std alone,
//! or with the feature `crates` by those that read JSON and URLs as their standards say.
//!
//! `scan build RULES RUNS` answers nothing. It builds the index of the rules so many times, and prints how many rules it read
//! and the seconds of the fastest build, by the clock: rules are read before.

#[cfg_attr(feature = "crates", path = "by_crates.rs")]
#[cfg_attr(not(feature = "crates"), path = "by_hand.rs")]
mod by;
mod index;

use by::read_request;
use index::Index;
use std::cmp::Reverse;
use std::env;
use std::fs;
use std::hint::black_box;
use std::io::{self, BufWriter, Write};
use std::ops::Range;
use std::time::Instant;

#[derive(Clone, Copy, PartialEq, Eq, PartialOrd, Ord)]
enum Action {
    Allow,
    Block,
}

struct Rule {
    id: u32,
    priority: u32,
    types: u16,
    methods: Option<u16>,
    hosts: Option<Vec<String>>,
    not_hosts: Vec<String>,
    initiators: Option<Vec<String>>,
    not_initiators: Vec<String>,
    third_party: Option<bool>,
    filter: Option<Filter>,
    action: Action,
}

/// What rules are tested on. The text is in lower case.
struct Request {
    text: String,
    host: Range<usize>,
    initiator: Option<String>,
    third_party: bool,
    kind: u16,
    method: u16,
}

impl Request {
    /// The text is in lower case, and the host stands at this place in it.
    fn new(
        text: String,
        host: Range<usize>,
        initiator: Option<String>,
        kind: &str,
        method: Option<&str>,
    ) -> Request {
        let third_party = initiator
            .as_ref()
            .is_none_or(|other| registrable(other) != registrable(&text[host.clone()]));
        Request {
            third_party,
            initiator,
            host,
            kind: bit_of(&TYPES, kind),
            method: bit_of(&METHODS, method.unwrap_or("get")),
            text,
        }
    }
}

/// The names of types and methods, of which each is a bit.
const TYPES: [&str; 15] = [
    "main_frame",
    "sub_frame",
    "stylesheet",
    "script",
    "image",
    "font",
    "object",
    "xmlhttprequest",
    "ping",
    "csp_report",
    "media",
    "websocket",
    "webtransport",
    "webbundle",
    "other",
];
const METHODS: [&str; 9] = [
    "connect", "delete", "get", "head", "options", "patch", "post", "put", "other",
];

#[derive(PartialEq)]
enum Anchor {
    Anywhere,
    Start,
    Domain,
}

/// A urlFilter: its anchors, and the lower-case pieces between its stars.
struct Filter {
    anchor: Anchor,
    to_end: bool,
    pieces: Vec<Vec<u8>>,
}

impl Filter {
    fn is_anchored(&self) -> bool {
        self.anchor != Anchor::Anywhere
    }

    fn new(text: &str) -> Filter {
        let (anchor, rest) = if let Some(rest) = text.strip_prefix("||") {
            (Anchor::Domain, rest)
        } else if let Some(rest) = text.strip_prefix('|') {
            (Anchor::Start, rest)
        } else {
            (Anchor::Anywhere, text)
        };
        let (to_end, body) = match rest.strip_suffix('|') {
            Some(body) => (true, body),
            None => (false, rest),
        };
        let pieces = body
            .split('*')
            .map(|piece| piece.to_ascii_lowercase().into_bytes())
            .collect();
        Filter {
            anchor,
            to_end,
            pieces,
        }
    }

    /// The text is in lower case, and the host stands at this place in it.
    fn matches(&self, text: &[u8], host: &Range<usize>) -> bool {
        match self.anchor {
            Anchor::Start => self.matches_at(text, 0),
            Anchor::Domain => host
                .clone()
                .filter(|&at| at == host.start || text[at - 1] == b'.')
                .any(|at| self.matches_at(text, at)),
            Anchor::Anywhere => self.matches_rest(text, 0, &self.pieces),
        }
    }

    /// The first piece stands at this place, and the others after it.
    fn matches_at(&self, text: &[u8], at: usize) -> bool {
        let (first, rest) = self.pieces.split_first().expect("a split has a piece");
        match end_of(first, text, at) {
            Some(end) if rest.is_empty() => !self.to_end || end == text.len(),
            Some(end) => self.matches_rest(text, end, rest),
            None => false,
        }
    }

    /// The pieces stand in order somewhere from this place on. The leftmost place of each leaves most room.
    fn matches_rest(&self, text: &[u8], mut from: usize, pieces: &[Vec<u8>]) -> bool {
        let (last, others) = pieces.split_last().expect("a split has a piece");
        for piece in others {
            match find(piece, text, from) {
                Some(end) => from = end,
                None => return false,
            }
        }
        if self.to_end {
            (from..=text.len()).any(|at| end_of(last, text, at) == Some(text.len()))
        } else {
            find(last, text, from).is_some()
        }
    }
}

/// Where the leftmost place of the piece from here on ends.
fn find(piece: &[u8], text: &[u8], from: usize) -> Option<usize> {
    match piece.first() {
        None => Some(from),
        Some(b'^') => (from..=text.len()).find_map(|at| end_of(piece, text, at)),
        Some(&first) => {
            let mut at = from;
            while let Some(step) = text[at..].iter().position(|&byte| byte == first) {
                at += step;
                if let Some(end) = end_of(piece, text, at) {
                    return Some(end);
                }
                at += 1;
            }
            None
        }
    }
}

/// Where the piece ends if it stands at this place. A `^` may stand at the end of the text and take nothing.
fn end_of(piece: &[u8], text: &[u8], mut at: usize) -> Option<usize> {
    for &wanted in piece {
        match text.get(at) {
            Some(&byte) if wanted == byte || wanted == b'^' && is_separator(byte) => at += 1,
            None if wanted == b'^' => {}
            _ => return None,
        }
    }
    Some(at)
}

fn is_separator(byte: u8) -> bool {
    !byte.is_ascii_alphanumeric() && !matches!(byte, b'_' | b'-' | b'.' | b'%')
}

/// What stands between two marks.
fn between<'a>(line: &'a str, before: &str, after: &str) -> Option<&'a str> {
    let (_, rest) = line.split_once(before)?;
    Some(rest.split_once(after)?.0)
}

/// The texts of the list of this key.
fn list_of(line: &str, key: &str) -> Option<Vec<String>> {
    let (_, rest) = line.split_once(&format!("\"{key}\":["))?;
    let list = rest.split_once(']')?.0;
    Some(
        list.split(',')
            .map(|name| name.trim_matches('"').to_string())
            .collect(),
    )
}

fn bit_of(table: &[&str], name: &str) -> u16 {
    table
        .iter()
        .position(|other| *other == name)
        .map_or(0, |place| 1 << place)
}

fn bits_of(table: &[&str], names: &[String]) -> u16 {
    names
        .iter()
        .fold(0, |bits, name| bits | bit_of(table, name))
}

/// The types that are listed, all others than those that are excluded, or all but `main_frame`.
fn types_of(line: &str) -> u16 {
    if let Some(names) = list_of(line, "resourceTypes") {
        return bits_of(&TYPES, &names);
    }
    match list_of(line, "excludedResourceTypes") {
        Some(names) => 0x7fff & !bits_of(&TYPES, &names),
        None => 0x7ffe,
    }
}

fn read_rule(line: &str) -> Option<Rule> {
    Some(Rule {
        id: between(line, "\"id\":", ",")?.parse().ok()?,
        priority: between(line, "\"priority\":", ",").map_or(Some(1), |text| text.parse().ok())?,
        types: types_of(line),
        methods: list_of(line, "requestMethods").map(|names| bits_of(&METHODS, &names)),
        hosts: list_of(line, "requestDomains"),
        not_hosts: list_of(line, "excludedRequestDomains").unwrap_or_default(),
        initiators: list_of(line, "initiatorDomains"),
        not_initiators: list_of(line, "excludedInitiatorDomains").unwrap_or_default(),
        third_party: between(line, "\"domainType\":\"", "\"").map(|name| name == "thirdParty"),
        filter: between(line, "\"urlFilter\":\"", "\"").map(Filter::new),
        action: match between(line, "\"action\":{\"type\":\"", "\"")? {
            "allow" => Action::Allow,
            _ => Action::Block,
        },
    })
}

/// The last two labels: without a suffix list each last label is a suffix.
fn registrable(host: &str) -> &str {
    match host.rmatch_indices('.').nth(1) {
        Some((dot, _)) => &host[dot + 1..],
        None => host,
    }
}

fn covers(domains: &[String], host: &str) -> bool {
    domains.iter().any(|domain| {
        host.strip_suffix(domain.as_str())
            .is_some_and(|rest| rest.is_empty() || rest.ends_with('.'))
    })
}

fn holds(rule: &Rule, request: &Request) -> bool {
    rule.types & request.kind != 0
        && rule
            .methods
            .is_none_or(|methods| methods & request.method != 0)
        && rule
            .hosts
            .as_ref()
            .is_none_or(|domains| covers(domains, &request.text[request.host.clone()]))
        && rule
            .filter
            .as_ref()
            .is_none_or(|filter| filter.matches(request.text.as_bytes(), &request.host))
        && rule.initiators.as_ref().is_none_or(|domains| {
            request
                .initiator
                .as_ref()
                .is_some_and(|host| covers(domains, host))
        })
        && !covers(&rule.not_hosts, &request.text[request.host.clone()])
        && request
            .initiator
            .as_ref()
            .is_none_or(|host| !covers(&rule.not_initiators, host))
        && rule
            .third_party
            .is_none_or(|third| third == request.third_party)
}

/// Of the rules that hold, the one that decides.
fn deciding<'a>(rules: impl Iterator<Item = &'a Rule>, request: &Request) -> Option<&'a Rule> {
    rules
        .filter(|rule| holds(rule, request))
        .min_by_key(|rule| (Reverse(rule.priority), rule.action, rule.id))
}

fn decide<'a>(rules: &'a [Rule], index: Option<&Index>, request: &Request) -> Option<&'a Rule> {
    match index {
        None => deciding(rules.iter(), request),
        Some(index) => {
            let places = index.candidates(request.text.as_bytes());
            deciding(places.map(|place| &rules[place as usize]), request)
        }
    }
}

fn read_rules(path: &str) -> io::Result<Vec<Rule>> {
    Ok(fs::read_to_string(path)?
        .lines()
        .filter_map(read_rule)
        .collect())
}

/// The seconds that building the index of these rules takes.
fn build(rules: &[Rule]) -> f64 {
    let begun = Instant::now();
    let index = black_box(Index::new(black_box(rules)));
    let took = begun.elapsed();
    drop(index);
    took.as_secs_f64()
}

fn tell_build(rules: &str, runs: &str) -> io::Result<()> {
    let rules = read_rules(rules)?;
    let runs: u32 = runs.parse().expect("a count of runs");
    let least = (0..runs)
        .map(|_| build(&rules))
        .fold(f64::INFINITY, f64::min);
    println!("{} {least:.9}", rules.len());
    Ok(())
}

fn answer(rules: &str, script: &str, is_indexed: bool) -> io::Result<()> {
    let rules = read_rules(rules)?;
    let index = is_indexed.then(|| Index::new(&rules));
    let script = fs::read_to_string(script)?;
    let mut out = BufWriter::new(io::stdout().lock());
    for (place, line) in script.lines().enumerate() {
        write!(
            out,
            "{{\"line\":{},\"generation\":0,\"verdict\":",
            place + 1
        )?;
        match read_request(line).and_then(|request| decide(&rules, index.as_ref(), &request)) {
            None => writeln!(out, "\"none\"}}")?,
            Some(rule) => {
                let outcome = match rule.action {
                    Action::Allow => "allow",
                    Action::Block => "block",
                };
                writeln!(
                    out,
                    "\"{outcome}\",\"rule\":[\"local\",\"rules\",{}]}}",
                    rule.id
                )?;
            }
        }
    }
    out.flush()
}

fn main() -> io::Result<()> {
    let words: Vec<String> = env::args().skip(1).collect();
    match words.iter().map(String::as_str).collect::<Vec<_>>()[..] {
        ["build", rules, runs] => tell_build(rules, runs),
        [rules, script] => answer(rules, script, false),
        [rules, script, "index"] => answer(rules, script, true),
        _ => panic!("scan RULES REQUESTS [index], or scan build RULES RUNS"),
    }
}
