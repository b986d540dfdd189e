//! Reads the request lines that `bench/run` makes, with little checking: what stands between quotes is taken as it is.

use crate::{between, Request};
use std::ops::Range;

fn host_in(url: &str) -> Option<Range<usize>> {
    let start = url.find("://")? + 3;
    let end = url[start..]
        .find('/')
        .map_or(url.len(), |length| start + length);
    Some(start..end)
}

pub fn read_request(line: &str) -> Option<Request> {
    let text = between(line, "\"url\":\"", "\"")?.to_ascii_lowercase();
    let host = host_in(&text)?;
    let initiator = between(line, "\"initiator\":\"", "\"")
        .and_then(|url| Some(url[host_in(url)?].to_string()));
    let kind = between(line, "\"type\":\"", "\"")?;
    let method = between(line, "\"method\":\"", "\"");
    Some(Request::new(text, host, initiator, kind, method))
}
