//! load KIND PORT CONNECTIONS SECONDS: books at a server over connections that are kept, and prints how many bookings there were a
//! second, after how many microseconds half of them and 99 of 100 were answered, and the longest of them.
//!
//! KIND is `attempts`, `lists` of ten attempts a request, or `transactions` of three requests. A booking is `take:1` at the object `hot`.

use std::error::Error;
use std::time::{Duration, Instant};
use tokio::io::{AsyncReadExt, AsyncWriteExt};
use tokio::net::TcpStream;

/// How many attempts a list has.
const LISTED: usize = 10;

/// How long is asked before it is counted.
const WARMING: Duration = Duration::from_millis(500);

type Fault = Box<dyn Error + Send + Sync>;

#[derive(Clone, Copy, Debug, PartialEq, Eq)]
enum Kind {
    Attempts,
    Lists,
    Transactions,
}

impl Kind {
    fn of(word: &str) -> Option<Kind> {
        match word {
            "attempts" => Some(Kind::Attempts),
            "lists" => Some(Kind::Lists),
            "transactions" => Some(Kind::Transactions),
            _ => None,
        }
    }

    /// The bookings of one turn.
    fn bookings(self) -> usize {
        if self == Kind::Lists {
            LISTED
        } else {
            1
        }
    }
}

/// A connection, and what was read of it.
struct Connection {
    stream: TcpStream,
    room: Vec<u8>,
}

impl Connection {
    async fn to(port: u16) -> Result<Connection, Fault> {
        let stream = TcpStream::connect(("127.0.0.1", port)).await?;
        stream.set_nodelay(true)?;
        Ok(Connection { stream, room: Vec::with_capacity(8_192) })
    }

    /// Asks, and takes the body of an answer of a status that begins with 2.
    async fn ask(&mut self, request: &[u8]) -> Result<&str, Fault> {
        self.stream.write_all(request).await?;
        self.room.clear();
        loop {
            if self.stream.read_buf(&mut self.room).await? == 0 {
                return Err("the connection was closed".into());
            }
            if let Some((head, length)) = whole(&self.room)? {
                return Ok(std::str::from_utf8(&self.room[head..head + length])?);
            }
        }
    }
}

/// Where the body begins of an answer that is whole, and its length.
fn whole(read: &[u8]) -> Result<Option<(usize, usize)>, Fault> {
    let Some(end) = read.windows(4).position(|bytes| bytes == b"\r\n\r\n") else { return Ok(None) };
    let head = std::str::from_utf8(&read[..end])?;
    if !head.starts_with("HTTP/1.1 2") {
        return Err(format!("answered {}", String::from_utf8_lossy(read)).into());
    }
    let length = head.lines().find_map(|line| line.to_ascii_lowercase().strip_prefix("content-length: ")?.parse().ok());
    let length: usize = length.ok_or("an answer without a length")?;
    Ok((read.len() >= end + 4 + length).then_some((end + 4, length)))
}

fn request(path: &str, body: &str) -> Vec<u8> {
    format!("POST {path} HTTP/1.1\r\nhost: localhost\r\ncontent-type: application/json\r\ncontent-length: {}\r\n\r\n{body}", body.len()).into_bytes()
}

const CALLS: &str = r#"{"calls":[{"object":"hot","call":"take:1"}]}"#;

/// Books once by three requests.
async fn transact(connection: &mut Connection) -> Result<(), Fault> {
    let begun = connection.ask(&request("/v1/transactions", "")).await?;
    let id = begun.split("\"id\":\"").nth(1).and_then(|rest| rest.split('"').next()).ok_or("a begin without an id")?;
    let path = format!("/v1/transactions/{id}");
    is_ok(connection.ask(&request(&format!("{path}/calls"), CALLS)).await?)?;
    connection.ask(&request(&format!("{path}/commit"), "")).await.map(drop)
}

fn is_ok(body: &str) -> Result<(), Fault> {
    if body.contains("\"ok\"") {
        Ok(())
    } else {
        Err(format!("answered {body}").into())
    }
}

/// Books until it is over; how long each turn took that ended after the warming.
async fn book(kind: Kind, port: u16, start: Instant, end: Instant) -> Result<Vec<u32>, Fault> {
    let mut connection = Connection::to(port).await?;
    let (one, list) = (request("/v1/attempts", CALLS), request("/v1/attempts", &format!("[{}]", [CALLS; LISTED].join(","))));
    let mut times = Vec::new();
    loop {
        let begun = Instant::now();
        if begun >= end {
            return Ok(times);
        }
        match kind {
            Kind::Attempts => is_ok(connection.ask(&one).await?)?,
            Kind::Lists => is_ok(connection.ask(&list).await?)?,
            Kind::Transactions => transact(&mut connection).await?,
        }
        if Instant::now() >= start {
            times.push(u32::try_from(begun.elapsed().as_micros()).unwrap_or(u32::MAX));
        }
    }
}

#[tokio::main(worker_threads = 2)]
async fn main() -> Result<(), Fault> {
    let words: Vec<String> = std::env::args().skip(1).collect();
    let [kind, port, connections, seconds] = words.as_slice() else { return Err("load KIND PORT CONNECTIONS SECONDS".into()) };
    let (kind, port, connections, seconds) = (Kind::of(kind).ok_or("no such kind")?, port.parse()?, connections.parse::<usize>()?, seconds.parse::<f64>()?);
    let start = Instant::now() + WARMING;
    let end = start + Duration::from_secs_f64(seconds);
    let tasks: Vec<_> = (0..connections).map(|_| tokio::spawn(book(kind, port, start, end))).collect();
    let mut times = Vec::new();
    for task in tasks {
        times.extend(task.await??);
    }
    times.sort_unstable();
    let (longest, rate) = (times.last().ok_or("nothing was answered")?, (times.len() * kind.bookings()) as f64 / seconds);
    println!("{rate:.0} {} {} {longest}", times[times.len() / 2], times[times.len() * 99 / 100]);
    Ok(())
}
