//! The server from its start to its end.

use crate::data_folder::DataFolder;
use crate::http::app::App;
use crate::http::connections::{serve, Stage};
use crate::http::tls::acceptor;
use crate::metrics::Metrics;
use crate::options::Options;
use crate::program::Program;
use crate::store::about::Cause;
use crate::store::opening::Choices;
use crate::store::Store;
use crate::tokens::Tokens;
use std::io;
use std::path::{Path, PathBuf};
use std::sync::Arc;
use std::time::Duration;
use tokio::net::TcpListener;
use tokio::signal::unix::{signal, Signal, SignalKind};
use tokio::sync::watch;
use tokio::time::{sleep, Instant};

/// How often it is looked whether something is still open.
const BETWEEN_LOOKS: Duration = Duration::from_millis(20);

/// The signals that the server knows.
struct Signals {
    terminate: Signal,
    interrupt: Signal,
    hang_up: Signal,
}

impl Signals {
    fn new() -> io::Result<Signals> {
        Ok(Signals { terminate: signal(SignalKind::terminate())?, interrupt: signal(SignalKind::interrupt())?, hang_up: signal(SignalKind::hangup())? })
    }

    /// Waits for a signal to end.
    async fn end(&mut self) {
        tokio::select! {
            _ = self.terminate.recv() => {}
            _ = self.interrupt.recv() => {}
        }
    }
}

/// Runs a server until it is asked for its end.
///
/// # Errors
///
/// In words, where it can't be started.
pub async fn run(options: Options) -> Result<(), String> {
    if options.is_too_open() {
        return Err("elsewhere than on the loopback --tls and --tokens are needed, or --insecure".to_string());
    }
    let mut signals = Signals::new().map_err(|error| format!("signals can't be had: {error}"))?;
    let tls = match options.tls.as_slice() {
        [certificate, key] => Some(acceptor(certificate, key).map_err(|why| why.to_string())?),
        _ => None,
    };
    let tokens = options.tokens.as_deref().map(Tokens::read).transpose().map_err(|why| why.to_string())?;
    let listener = TcpListener::bind(options.listen).await.map_err(|error| format!("{}: {error}", options.listen))?;
    let folder = DataFolder::take(&options.data).map_err(|why| why.to_string())?;
    let app = open(&options, &folder, tokens).await?;
    let address = listener.local_addr().map_err(|error| error.to_string())?;
    tracing::info!(%address, data = %folder.path().display(), objects = app.store.objects.len(), tls = tls.is_some(), "ready");
    // where no manager of services listens there is nobody to tell
    let _ = sd_notify::notify(false, &[sd_notify::NotifyState::Ready]);
    let (stage, stages) = watch::channel(Stage::Serving);
    let serving = tokio::spawn(serve(Arc::clone(&app), listener, tls, stages));
    until_asked(&app, &mut signals).await;
    end(&app, &stage, &mut signals, Duration::from_secs(u64::from(options.drain))).await;
    // the task doesn't panic, and it isn't aborted
    let _ = serving.await;
    if app.store.engine.end().await {
        tracing::info!("ended");
        Ok(())
    } else {
        // what was answered is in its file, and the next start ends what was open
        Err("the store didn't end in order".to_string())
    }
}

async fn open(options: &Options, folder: &DataFolder, tokens: Option<Tokens>) -> Result<Arc<App>, String> {
    let metrics = Arc::new(Metrics::new().map_err(|error| format!("metrics: {error}"))?);
    let path = found(&options.program)?;
    let program = Arc::new(Program::new(path, folder.path().to_path_buf()));
    let choices = Choices { is_fast: options.fast, drain: options.epoch_drain, outcomes: options.outcomes, histories: options.history as usize };
    let store = Store::open(folder, program, choices, Arc::clone(&metrics)).await?;
    let mut app = App::new(store, tokens, options.limits(), metrics);
    app.slow = Duration::from_millis(options.slow);
    app.is_insecure = options.insecure;
    Ok(Arc::new(app))
}

/// A program that is named by a path, from here on: it is run in another folder.
fn found(program: &Path) -> Result<PathBuf, String> {
    if program.components().count() > 1 {
        return std::fs::canonicalize(program).map_err(|error| format!("{}: {error}", program.display()));
    }
    Ok(program.to_path_buf())
}

/// Waits until the end is asked for, and reads the tokens again where that is.
async fn until_asked(app: &App, signals: &mut Signals) {
    loop {
        tokio::select! {
            _ = signals.terminate.recv() => return,
            _ = signals.interrupt.recv() => return,
            _ = signals.hang_up.recv() => read_tokens_again(app),
        }
    }
}

fn read_tokens_again(app: &App) {
    match app.tokens.as_ref().map(Tokens::read_again) {
        Some(Ok(count)) => tracing::info!(count, "the tokens were read again"),
        Some(Err(why)) => tracing::error!(%why, "the tokens stay as they were"),
        None => tracing::info!("there are no tokens to read again"),
    }
}

/// Nothing begins any more; what is open may end for so long, unless the end is asked for again.
async fn end(app: &App, stage: &watch::Sender<Stage>, signals: &mut Signals, drain: Duration) {
    tracing::info!(open = app.store.observer.open.unprepared().len(), "ending");
    // as of the readiness
    let _ = sd_notify::notify(false, &[sd_notify::NotifyState::Stopping]);
    app.drain();
    stage.send_replace(Stage::Draining);
    let last = Instant::now() + drain;
    let is_empty = async {
        while !app.store.observer.open.unprepared().is_empty() && Instant::now() < last {
            sleep(BETWEEN_LOOKS).await;
        }
    };
    tokio::select! {
        () = is_empty => {}
        () = signals.end() => tracing::info!("ending at once"),
    }
    for open in app.store.observer.open.unprepared() {
        // it is gone either way
        let _ = app.store.abort(open.name, Cause::Drained).await;
    }
    app.close();
    stage.send_replace(Stage::Closing);
}
