//! bare: a server that answers each request at once as `colockd` answers an attempt that is done. It prints its port.

use hyper::server::conn::AddrStream;
use hyper::service::{make_service_fn, service_fn};
use hyper::{body, Body, Request, Response, Server};
use std::convert::Infallible;
use std::net::SocketAddr;

const ANSWER: &str = "{\"replies\":[\"ok\"]}";

async fn answer(request: Request<Body>) -> Result<Response<Body>, hyper::Error> {
    body::to_bytes(request.into_body()).await?;
    let mut response = Response::new(Body::from(ANSWER));
    response.headers_mut().insert("content-type", hyper::header::HeaderValue::from_static("application/json"));
    Ok(response)
}

#[tokio::main]
async fn main() -> Result<(), hyper::Error> {
    let service = make_service_fn(|_: &AddrStream| async { Ok::<_, Infallible>(service_fn(answer)) });
    let server = Server::try_bind(&SocketAddr::from(([127, 0, 0, 1], 0)))?.tcp_nodelay(true).serve(service);
    println!("{}", server.local_addr().port());
    server.await
}
