//! The page for whoever is on call, with its script and its looks.

use crate::http::replies::text;
use hyper::header::{HeaderName, HeaderValue};
use hyper::{Body, Response, StatusCode};

const PAGE: &str = include_str!("../../page/index.html");
const SCRIPT: &str = include_str!("../../page/page.js");
const STYLE: &str = include_str!("../../page/page.css");

/// What the page may do: nothing from elsewhere.
const HEADERS: [(&str, &str); 4] = [
    (
        "content-security-policy",
        "default-src 'none'; script-src 'self'; style-src 'self'; connect-src 'self'; base-uri 'none'; form-action 'none'; frame-ancestors 'none'",
    ),
    ("x-content-type-options", "nosniff"),
    ("referrer-policy", "no-referrer"),
    ("x-frame-options", "DENY"),
];

/// The page.
pub fn page() -> Response<Body> {
    kept_in("text/html; charset=utf-8", PAGE)
}

/// Its script.
pub fn script() -> Response<Body> {
    kept_in("text/javascript; charset=utf-8", SCRIPT)
}

/// Its looks.
pub fn style() -> Response<Body> {
    kept_in("text/css; charset=utf-8", STYLE)
}

fn kept_in(kind: &'static str, body: &'static str) -> Response<Body> {
    let mut response = text(StatusCode::OK, kind, body);
    for (name, content) in HEADERS {
        response.headers_mut().insert(HeaderName::from_static(name), HeaderValue::from_static(content));
    }
    response
}
