//! The words that the server is started with.

use crate::limits::Limits;
use crate::store::opening::OUTCOMES;
use clap::Parser;
use std::net::SocketAddr;
use std::path::PathBuf;
use std::time::Duration;

/// How log lines are written.
#[derive(Clone, Copy, Debug, PartialEq, Eq, clap::ValueEnum)]
pub enum LogForm {
    /// For people.
    Text,
    /// For machines.
    Json,
}

/// The store of colock over HTTP.
#[derive(Clone, Debug, Parser)]
#[command(name = "colockd", version, about, long_about = None)]
pub struct Options {
    /// The folder of the store; it is made where it isn't there
    #[arg(long, value_name = "FOLDER")]
    pub data: PathBuf,
    /// Where to listen
    #[arg(long, value_name = "ADDRESS:PORT", default_value = "127.0.0.1:7420")]
    pub listen: SocketAddr,
    /// The files of a certificate and its key, in PEM
    #[arg(long, num_args = 2, value_names = ["CERTIFICATE", "KEY"])]
    pub tls: Vec<PathBuf>,
    /// The file of the tokens, each a line `NAME RIGHT,RIGHT.. SHA-256`; it is read again at SIGHUP
    #[arg(long, value_name = "FILE")]
    pub tokens: Option<PathBuf>,
    /// The program `colock`
    #[arg(long, value_name = "COLOCK", env = "COLOCK", default_value = "colock")]
    pub program: PathBuf,
    /// Listen elsewhere than on the loopback also without TLS and tokens
    #[arg(long)]
    pub insecure: bool,
    /// How many seconds what is open may go on at SIGTERM
    #[arg(long, value_name = "SECONDS", default_value_t = 10, value_parser = clap::value_parser!(u32).range(0..=3600))]
    pub drain: u32,
    /// How many seconds what is open may go on at the end of an epoch, and where objects are added, if a yes is one-way
    #[arg(long, value_name = "SECONDS", default_value_t = 5, value_parser = clap::value_parser!(u32).range(0..=3600))]
    pub epoch_drain: u32,
    /// How many of the last outcomes of keys stay at least; the oldest go at an epoch's end
    #[arg(long, value_name = "COUNT", default_value_t = OUTCOMES)]
    pub outcomes: u32,
    /// Sync once for a commit, supposing more of torn writes
    #[arg(long)]
    pub fast: bool,
    /// Of how many epochs that have ended the history is kept
    #[arg(long, value_name = "EPOCHS", default_value_t = 512, value_parser = clap::value_parser!(u32).range(1..=100_000))]
    pub history: u32,
    /// The most bytes of a body
    #[arg(long, value_name = "BYTES", default_value_t = Limits::default().body)]
    pub most_body: usize,
    /// The most connections
    #[arg(long, value_name = "COUNT", default_value_t = 4_096, value_parser = clap::value_parser!(u32).range(1..=100_000))]
    pub most_connections: u32,
    /// The most requests that are being answered
    #[arg(long, value_name = "COUNT", default_value_t = 2_048, value_parser = clap::value_parser!(u32).range(1..=100_000))]
    pub most_requests: u32,
    /// The most clients that follow the events
    #[arg(long, value_name = "COUNT", default_value_t = 64, value_parser = clap::value_parser!(u32).range(0..=10_000))]
    pub most_followers: u32,
    /// The most open transactions of one token
    #[arg(long, value_name = "COUNT", default_value_t = 256, value_parser = clap::value_parser!(u32).range(1..=1024))]
    pub most_open: u32,
    /// How many seconds the head of a request, its body and each piece of an answer may take
    #[arg(long, value_name = "SECONDS", default_value_t = 20, value_parser = clap::value_parser!(u32).range(1..=600))]
    pub patience: u32,
    /// A commit that takes so many milliseconds is logged
    #[arg(long, value_name = "MILLISECONDS", default_value_t = 1_000)]
    pub slow: u64,
    /// How log lines are written, on standard error
    #[arg(long, value_enum, default_value_t = LogForm::Text)]
    pub log: LogForm,
    /// How much is logged
    #[arg(long, value_name = "LEVEL", default_value = "info", value_parser = ["error", "warn", "info", "debug"])]
    pub log_level: String,
}

impl Options {
    /// The limits that were chosen.
    pub fn limits(&self) -> Limits {
        Limits {
            body: self.most_body,
            connections: self.most_connections as usize,
            requests: self.most_requests as usize,
            followers: self.most_followers as usize,
            open_of_token: self.most_open as usize,
            patience: Duration::from_secs(u64::from(self.patience)),
        }
    }

    /// Whether others than this machine may come without a token, or be overheard, and nobody said that they may.
    pub fn is_too_open(&self) -> bool {
        !self.listen.ip().is_loopback() && !self.insecure && (self.tls.is_empty() || self.tokens.is_none())
    }
}

#[cfg(test)]
mod tests {
    use super::Options;
    use clap::Parser;

    fn options(words: &str) -> Options {
        Options::try_parse_from(format!("colockd --data shop {words}").split_whitespace()).unwrap()
    }

    #[test]
    fn words_are_read() {
        let options = options("--tls a b --drain 3 --log json");
        assert_eq!((options.tls.len(), options.drain, options.limits().connections), (2, 3, 4_096));
        for wrong in ["--drain -1", "--outcomes 4294967296", "--tls a", "--listen here", "--log x", "--data other"] {
            assert!(Options::try_parse_from(format!("colockd --data shop {wrong}").split_whitespace()).is_err(), "{wrong}");
        }
    }

    #[test]
    fn elsewhere_than_on_the_loopback_both_tls_and_tokens_are_needed() {
        assert!(!options("").is_too_open() && !options("--listen [::1]:1").is_too_open());
        for words in ["", "--tls a b", "--tokens t"] {
            assert!(options(&format!("--listen 0.0.0.0:1 {words}")).is_too_open(), "{words}");
        }
        assert!(!options("--listen 0.0.0.0:1 --tls a b --tokens t").is_too_open());
        assert!(!options("--listen 0.0.0.0:1 --insecure").is_too_open());
    }
}
