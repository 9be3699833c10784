//! The program: its words, its log, and its status.

#![forbid(unsafe_code)]

use clap::Parser;
use colockd::options::{LogForm, Options};
use colockd::running::run;
use std::io;
use std::process::ExitCode;
use tracing::Level;
use tracing_subscriber::filter::Targets;
use tracing_subscriber::layer::SubscriberExt;
use tracing_subscriber::util::SubscriberInitExt;
use tracing_subscriber::Layer;

fn main() -> ExitCode {
    let options = Options::parse();
    start_log(&options);
    let runtime = match tokio::runtime::Builder::new_multi_thread().enable_all().build() {
        Ok(runtime) => runtime,
        Err(error) => {
            tracing::error!(%error, "no threads");
            return ExitCode::from(3);
        }
    };
    match runtime.block_on(run(options)) {
        Ok(()) => ExitCode::SUCCESS,
        Err(why) => {
            tracing::error!(why, "it doesn't serve");
            ExitCode::from(3)
        }
    }
}

fn start_log(options: &Options) {
    let level: Level = options.log_level.parse().unwrap_or(Level::INFO);
    // what the crates below say isn't ours to promise: that it has no secrets
    let ours = Targets::new().with_target("colockd", level);
    let log = tracing_subscriber::fmt::layer().with_target(false).with_writer(io::stderr);
    match options.log {
        LogForm::Text => tracing_subscriber::registry().with(log.with_ansi(false).with_filter(ours)).init(),
        LogForm::Json => tracing_subscriber::registry().with(log.json().flatten_event(true).with_filter(ours)).init(),
    }
}
