//! Reads request lines as JSON, and their URLs as the URL Standard says, by the crates that most Rust programs use for it.

use crate::Request;
use serde::Deserialize;
use std::borrow::Cow;
use url::Url;

#[derive(Deserialize)]
struct Line<'a> {
    #[serde(borrow)]
    url: Cow<'a, str>,
    #[serde(borrow, rename = "type")]
    kind: Cow<'a, str>,
    #[serde(borrow)]
    initiator: Option<Cow<'a, str>>,
    #[serde(borrow)]
    method: Option<Cow<'a, str>>,
}

fn host_of(url: &str) -> Option<String> {
    Some(Url::parse(url).ok()?.host_str()?.to_string())
}

pub fn read_request(line: &str) -> Option<Request> {
    let line: Line = serde_json::from_str(line).ok()?;
    let mut url = Url::parse(&line.url).ok()?;
    url.set_fragment(None);
    let host = url.host_str()?;
    // (a user or a password may stand before it)
    let start = host.as_ptr() as usize - url.as_str().as_ptr() as usize;
    let host = start..start + host.len();
    let text = url.as_str().to_ascii_lowercase();
    let initiator = match &line.initiator {
        Some(text) => Some(host_of(text)?),
        None => None,
    };
    Some(Request::new(
        text,
        host,
        initiator,
        &line.kind,
        line.method.as_deref(),
    ))
}
