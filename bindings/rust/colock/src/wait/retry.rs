use crate::error::Error;
use crate::key::{Doer, Key};
use crate::shared::transaction::SharedTransaction;
use crate::shared::SharedStore;
use std::collections::hash_map::RandomState;
use std::hash::{BuildHasher, Hasher};
use std::iter;
use std::ops::Deref;
use std::thread;
use std::time::Duration;

/// The longest sleep between two tries.
const LONGEST_SLEEP: Duration = Duration::from_secs(1);

/// How long a victim waits for the end of whom it waited for before it begins anew.
const LONGEST_LOOK: Duration = Duration::from_secs(10);

/// How long a begin waits where too many are open.
const LONGEST_CROWD: Duration = Duration::from_secs(10);

/// How often [`SharedStore::retry`] tries, and how long it sleeps between two tries.
#[derive(Clone, Copy, Debug, PartialEq, Eq)]
// it may be built by its fields, so it isn't `non_exhaustive`
pub struct Retry {
    /// How many tries there are at most, at least one.
    pub tries: u32,
    /// After the n-th try it sleeps a random time up to this times 2 to the n, and at most a second.
    pub backoff: Duration,
}

impl Default for Retry {
    /// Ten tries, and a millisecond.
    fn default() -> Retry {
        Retry { tries: 10, backoff: Duration::from_millis(1) }
    }
}

/// What came of work under a key, by [`SharedStore::retry_under`].
#[derive(Clone, Debug, PartialEq, Eq)]
#[must_use = "the work may have been done before"]
// no answer is to be overlooked by a match, so it isn't `non_exhaustive`
pub enum Keyed<T> {
    /// It was done now, and this is what it gave.
    Done(T),
    /// Another transaction had committed under the key. Nothing stays of what this one did, if anything.
    Known {
        /// The replies of its calls, in their order, where an [attempt](SharedStore::attempt_under) did it; else none.
        replies: Vec<String>,
    },
}

/// An error in which there may be one of a store, so that [`SharedStore::retry`] sees whether to try again.
///
/// ```
/// use colock::{Cause, Error};
///
/// enum BookingError {
///     SoldOut,
///     Store(Error),
/// }
///
/// impl From<Error> for BookingError {
///     fn from(error: Error) -> BookingError {
///         BookingError::Store(error)
///     }
/// }
///
/// impl Cause for BookingError {
///     fn cause_in_store(&self) -> Option<&Error> {
///         match self {
///             BookingError::SoldOut => None,
///             BookingError::Store(error) => Some(error),
///         }
///     }
/// }
/// # assert!(BookingError::SoldOut.cause_in_store().is_none());
/// ```
pub trait Cause {
    /// The error of a store that is in this one.
    fn cause_in_store(&self) -> Option<&Error>;
}

impl Cause for Error {
    fn cause_in_store(&self) -> Option<&Error> {
        Some(self)
    }
}

/// What is behind a pointer to any error.
pub trait AnyError {
    fn cause(&self) -> Option<&Error>;
}

impl AnyError for dyn std::error::Error {
    fn cause(&self) -> Option<&Error> {
        cause_in(self)
    }
}

impl AnyError for dyn std::error::Error + Send + Sync {
    fn cause(&self) -> Option<&Error> {
        cause_in(self)
    }
}

/// A pointer to any error: `Box<dyn std::error::Error>`, the same with `Send + Sync`, or `anyhow::Error`.
impl<P: Deref<Target: AnyError>> Cause for P {
    fn cause_in_store(&self) -> Option<&Error> {
        (**self).cause()
    }
}

/// The error of a store that an error is or comes from, by its sources. Of an `anyhow::Error` it is
/// `cause_in(error.as_ref())`.
///
/// ```
/// use colock::{cause_in, Cause, Error};
/// use std::fmt;
///
/// #[derive(Debug)]
/// struct BookingError(Error);
///
/// impl fmt::Display for BookingError {
///     fn fmt(&self, f: &mut fmt::Formatter<'_>) -> fmt::Result {
///         f.write_str("the seat isn't booked")
///     }
/// }
///
/// impl std::error::Error for BookingError {
///     fn source(&self) -> Option<&(dyn std::error::Error + 'static)> {
///         Some(&self.0)
///     }
/// }
///
/// impl Cause for BookingError {
///     fn cause_in_store(&self) -> Option<&Error> {
///         cause_in(self)
///     }
/// }
/// # assert_eq!(BookingError(Error::TimedOut).cause_in_store(), Some(&Error::TimedOut));
/// # assert_eq!(cause_in(&fmt::Error), None);
/// ```
pub fn cause_in<'e>(error: &'e (dyn std::error::Error + 'static)) -> Option<&'e Error> {
    iter::successors(Some(error), |error| error.source()).find_map(|error| error.downcast_ref())
}

impl SharedStore {
    /// Does `f` as a transaction, which is committed at its end, unless `f` [prepared](SharedTransaction::prepare) it. Where `f` or the
    /// commit fails by an error that [`is_retryable`](Error::is_retryable), the transaction is aborted and `f` runs again in another one,
    /// of the age of the first. Any other error aborts and is handed on; so does a panic.
    ///
    /// So `f` may run several times: what it does beside its transaction isn't taken back, nor is a transaction that it prepared
    /// aborted. A victim first waits for the end of whom it waited for, at most ten seconds; else a random time is slept before
    /// another try. Where too many transactions are open, a begin waits for the end of one, at most ten seconds.
    ///
    /// ```
    /// use colock::{Error, Kind, Retry, SharedStore, Type};
    ///
    /// let counter = Type::counter(5, &[1], Kind::Undo)?;
    /// let store = SharedStore::new([&counter], 100)?;
    /// let mut blocker = Some(store.begin()?);
    /// blocker.as_mut().unwrap().expect(0, "inc:1", "ok")?;
    /// let mut tries = 0;
    /// store.retry(&Retry::default(), |transaction| {
    ///     tries += 1;
    ///     if tries == 3 {
    ///         blocker.take().unwrap().commit()?;
    ///     }
    ///     transaction.expect(0, "dec:1", "ok")
    /// })?;
    /// assert_eq!((tries, store.kept(0)?), (3, 0));
    /// # Ok::<(), Error>(())
    /// ```
    ///
    /// # Errors
    ///
    /// The last error of `f`, of the commit, or of [`SharedStore::begin`]. [`Error::OutcomeUnknown`] is never tried
    /// again.
    pub fn retry<T, E, F>(&self, how: &Retry, f: F) -> Result<T, E>
    where
        E: From<Error> + Cause,
        F: FnMut(&mut SharedTransaction<'_>) -> Result<T, E>,
    {
        self.retried(how, f, |transaction, told| match transaction.was_prepared() {
            true => Ok(told),
            false => transaction.commit().map(|()| told),
        })
    }

    /// As [`SharedStore::retry`], and done once: it first asks what became of the key, and where a transaction committed under it
    /// before, in whatever life or epoch, `f` isn't run. Else each commit is [under the key](SharedTransaction::commit_under).
    ///
    /// Where others ask under the key at the same moment, one of them is done. The others are [`Keyed::Known`], also those whose `f` has
    /// run or has failed, maybe since the work was done: nothing stays of theirs.
    ///
    /// ```
    /// use colock::{Error, Keyed, Kind, Retry, SharedStore, Type};
    ///
    /// let store = SharedStore::new([("A12", &Type::seats(1, Kind::Undo)?)], 1_000)?;
    /// let book = || store.retry_under("order:4711", &Retry::default(), |transaction| transaction.expect("A12", "hold:1", "ok"));
    /// assert!(matches!(book()?, Keyed::Done(_)));
    /// assert_eq!(book()?, Keyed::Known { replies: vec![] }); // it doesn't ask for the seat, which isn't free
    /// # Ok::<(), Error>(())
    /// ```
    ///
    /// # Errors
    ///
    /// [`Error::BadKey`], by which nothing is asked; [`Error::KeyPrepared`], [`Error::KeyAborted`] or [`Error::KeyTaken`];
    /// [`Error::Prepared`] where `f` prepared its transaction, which stays so: its key is no commit's. Else as of [`SharedStore::retry`]:
    /// by [`Error::OutcomeUnknown`] it is asked again, under the same key, with the file open again.
    pub fn retry_under<T, E, F>(&self, key: impl AsRef<str>, retry: &Retry, f: F) -> Result<Keyed<T>, E>
    where
        E: From<Error> + Cause,
        F: FnMut(&mut SharedTransaction<'_>) -> Result<T, E>,
    {
        let key = Key::of(key.as_ref())?;
        let _claim = self.claim(key)?; // up to the end
        if let Some(replies) = self.replies_under(key)? {
            return Ok(Keyed::Known { replies });
        }
        let done = self.retried(retry, f, |transaction, told| {
            let doer = transaction.committed_under(key)?;
            Ok((doer == Doer::This).then_some(told))
        });
        match done {
            Ok(Some(told)) => Ok(Keyed::Done(told)),
            Ok(None) => Ok(Keyed::Known { replies: self.replies_under(key)?.unwrap_or_default() }),
            Err(error) => match self.replies_under(key) {
                Ok(Some(replies)) => Ok(Keyed::Known { replies }),
                _ => Err(error),
            },
        }
    }

    /// Does `f` as a transaction until `commit` does its part, as [`SharedStore::retry`] says.
    fn retried<T, R, E, F>(&self, how: &Retry, mut f: F, commit: impl Fn(SharedTransaction<'_>, T) -> Result<R, Error>) -> Result<R, E>
    where
        E: From<Error> + Cause,
        F: FnMut(&mut SharedTransaction<'_>) -> Result<T, E>,
    {
        let (mut age, mut attempt) = (None, 1);
        loop {
            let mut transaction = self.begin_within(age, LONGEST_CROWD)?;
            age = Some(transaction.age());
            let done = tried(&mut transaction, &mut f);
            let life = transaction.life();
            let error = match done {
                Ok(told) => match commit(transaction, told) {
                    Ok(told) => return Ok(told),
                    Err(error) => E::from(error),
                },
                Err(error) => {
                    drop(transaction); // which aborts it
                    error
                }
            };
            match error.cause_in_store() {
                Some(_) if attempt >= how.tries => return Err(error),
                Some(Error::Deadlock { waited_for }) => self.wait_for_end(life, *waited_for, LONGEST_LOOK),
                Some(cause) if cause.is_retryable() => thread::sleep(drawn(how.backoff, attempt)),
                _ => return Err(error),
            }
            attempt += 1;
        }
    }
}

/// One try, up to its commit.
fn tried<T, E: From<Error>>(transaction: &mut SharedTransaction<'_>, f: &mut impl FnMut(&mut SharedTransaction<'_>) -> Result<T, E>) -> Result<T, E> {
    let told = f(transaction)?;
    match transaction.deadlock() {
        // that it was aborted isn't to be lost where `f` said nothing of it
        Some(error) => Err(error.into()),
        None => Ok(told),
    }
}

/// A random time up to the backoff of this try.
fn drawn(backoff: Duration, attempt: u32) -> Duration {
    let most = backoff.saturating_mul(1_u32.checked_shl(attempt).unwrap_or(u32::MAX)).min(LONGEST_SLEEP);
    let nanoseconds = u64::try_from(most.as_nanos()).unwrap_or(u64::MAX);
    // the keys of each are random
    let random = RandomState::new().build_hasher().finish();
    Duration::from_nanos(random % nanoseconds.saturating_add(1))
}

#[cfg(test)]
mod tests {
    use super::drawn;
    use std::time::Duration;

    #[test]
    fn sleeps_are_bounded() {
        let backoff = Duration::from_millis(1);
        for attempt in 1..=64 {
            let most = Duration::from_millis(1 << attempt.min(10)).min(Duration::from_secs(1));
            assert!(drawn(backoff, attempt) <= most, "{attempt}");
        }
        assert_eq!(drawn(Duration::ZERO, 3), Duration::ZERO);
        assert!(drawn(Duration::MAX, 3) <= Duration::from_secs(1));
    }
}
