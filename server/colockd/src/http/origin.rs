//! Requests that a page from elsewhere makes a browser send. Where no token is needed, such a page mustn't ask in its reader's name.

use crate::problem::{Problem, ProblemKind};
use hyper::header::{HeaderMap, HeaderValue, HOST, ORIGIN};
use hyper::http::uri::Authority;
use hyper::Uri;
use std::net::IpAddr;

/// Whether a request may come from a page of another server.
///
/// # Errors
///
/// A [`Problem`] where its origin is another one than the host that it asks, or, where only the loopback is to be asked, where that
/// host has a name that may be anybody's.
pub fn is_own(uri: &Uri, headers: &HeaderMap, is_loopback_alone: bool) -> Result<(), Problem> {
    if uri.authority().is_none() && !headers.contains_key(ORIGIN) && (!is_loopback_alone || headers.get(HOST).is_some_and(is_plain)) {
        return Ok(());
    }
    let host = uri.authority().cloned().or_else(|| headers.get(HOST)?.to_str().ok()?.parse().ok());
    if let Some(origin) = headers.get(ORIGIN) {
        let origin = origin.to_str().ok().and_then(|origin| origin.split_once("://")).and_then(|(_, origin)| origin.parse::<Authority>().ok());
        if origin.is_none() || origin != host {
            return Err(Problem::new(ProblemKind::ForeignOrigin, "the request comes from a page of another server"));
        }
    }
    match host {
        Some(host) if is_loopback_alone && !is_loopback(host.host()) => {
            Err(Problem::new(ProblemKind::ForeignOrigin, "without tokens the host is localhost, or an address of the loopback"))
        }
        _ => Ok(()),
    }
}

/// Whether a host is one of the loopback, as most clients say it.
fn is_plain(host: &HeaderValue) -> bool {
    let host = host.as_bytes();
    let port = host.strip_prefix(b"127.0.0.1").or_else(|| host.strip_prefix(b"localhost"));
    port.is_some_and(|port| port.is_empty() || port.strip_prefix(b":").is_some_and(|port| port.iter().all(u8::is_ascii_digit)))
}

fn is_loopback(host: &str) -> bool {
    let address = host.trim_start_matches('[').trim_end_matches(']').parse::<IpAddr>();
    host.eq_ignore_ascii_case("localhost") || address.is_ok_and(|address| address.is_loopback())
}

#[cfg(test)]
mod tests {
    use super::is_own;
    use hyper::header::{HeaderMap, HeaderValue, HOST, ORIGIN};
    use hyper::Uri;

    fn may(host: &'static str, origin: Option<&'static str>, is_loopback_alone: bool) -> bool {
        let mut headers = HeaderMap::new();
        headers.insert(HOST, HeaderValue::from_static(host));
        origin.into_iter().for_each(|origin| drop(headers.insert(ORIGIN, HeaderValue::from_static(origin))));
        is_own(&Uri::from_static("/v1/attempts"), &headers, is_loopback_alone).is_ok()
    }

    #[test]
    fn a_page_of_another_server_may_not() {
        assert!(may("127.0.0.1:7420", None, true) && may("127.0.0.1:7420", Some("http://127.0.0.1:7420"), true));
        for origin in ["http://shop.example", "http://127.0.0.1:7421", "null", "http://localhost:7420"] {
            assert!(!may("127.0.0.1:7420", Some(origin), false), "{origin}");
        }
    }

    #[test]
    fn a_name_that_leads_to_the_loopback_may_not() {
        for host in ["localhost:7420", "localhost", "LOCALHOST", "[::1]:7420", "127.0.0.2", "127.0.0.1:7420"] {
            assert!(may(host, None, true), "{host}");
        }
        for host in ["127.0.0.1.shop.example", "localhost.shop.example:7420", "127.0.0.1:7420@shop.example", "127.0.0.1:x@shop.example"] {
            assert!(!may(host, None, true), "{host}");
        }
        assert!(!may("shop.example:7420", Some("http://shop.example:7420"), true));
        assert!(may("shop.example:7420", Some("http://shop.example:7420"), false));
    }
}
