use crate::error::Error;
use crate::types::{Kind, Type};
use std::collections::{BTreeSet, HashMap};
use std::fmt::{self, Write};
use std::hash::Hash;

/// The most states of a type.
const MOST_STATES: usize = 1024;

/// The most operations of a type.
const MOST_OPERATIONS: usize = 64;

/// The longest name.
const LONGEST_NAME: usize = 32;

impl Type {
    /// The type whose steps a function gives. An operation is a call with its reply. The function gives the state
    /// to which an operation leads, or `None` where it isn't legal. States are found from `initial` on, breadth
    /// first, and numbered as they are found; for [`Kind::Escrow`] in ascending order, so that a number may begin in the
    /// middle. Which operations conflict is found out and checked.
    ///
    /// ```
    /// use colock::{Kind, Type};
    ///
    /// let operations = [("take:1", "ok"), ("take:1", "none"), ("give:1", "ok")];
    /// let stock = Type::from_steps("stock", 2_u32, &operations, Kind::Undo, |pieces, operation| match operation {
    ///     ("take:1", "ok") => pieces.checked_sub(1),
    ///     ("take:1", _) => (*pieces == 0).then_some(0),
    ///     _ => (*pieces < 2).then_some(pieces + 1),
    /// })?;
    /// assert_eq!((stock.states(), stock.initial()), (3, 0)); // two pieces, one, none
    /// assert_eq!(stock.step(0, 0)?, Some(1));
    /// assert!(!stock.conflicts_named(("take:1", "ok"), ("take:1", "ok"))?);
    /// assert!(stock.conflicts_named(("take:1", "ok"), ("give:1", "ok"))?);
    /// # Ok::<(), colock::Error>(())
    /// ```
    ///
    /// # Errors
    ///
    /// [`Error::TooManyStates`] where there are more than 1,024 states, [`Error::TooLarge`] with more than 64
    /// operations, [`Error::BadParameter`] where a word isn't a name (1 to 32 bytes of `a` to `z`, `0` to `9`, `_`,
    /// `:` and `-`) or there is no operation, [`Error::BadText`] where an operation comes twice, and as of
    /// [`Type::with_made_tables`].
    pub fn from_steps<S: Clone + Ord + Hash>(
        name: &str,
        initial: S,
        operations: &[(&str, &str)],
        kind: Kind,
        step: impl FnMut(&S, (&str, &str)) -> Option<S>,
    ) -> Result<Type, Error> {
        let are_names = is_name(name) && operations.iter().all(|(call, reply)| is_name(call) && is_name(reply));
        if !are_names || operations.is_empty() {
            return Err(Error::BadParameter);
        }
        if operations.len() > MOST_OPERATIONS {
            return Err(Error::TooLarge);
        }
        let found = Found::of(initial, operations, step)?;
        let numbers = if kind == Kind::Escrow { found.ascending() } else { (0..found.states.len()).collect() };
        Type::with_made_tables(found.text(name, operations, &numbers), kind)
    }
}

fn is_name(word: &str) -> bool {
    let is_of_name = |byte: u8| matches!(byte, b'a'..=b'z' | b'0'..=b'9' | b'_' | b':' | b'-');
    (1..=LONGEST_NAME).contains(&word.len()) && word.bytes().all(is_of_name)
}

/// From a state, by an operation, to a state. They are ordered as a text has them.
#[derive(PartialEq, Eq, PartialOrd, Ord)]
struct Step {
    from: usize,
    operation: usize,
    to: usize,
}

/// The states that were found, by their numbers, and the steps between them.
struct Found<S> {
    numbers: HashMap<S, usize>,
    states: Vec<S>,
    steps: Vec<Step>,
    /// How many new states each operation made.
    made: Vec<usize>,
}

impl<S: Clone + Ord + Hash> Found<S> {
    fn of(initial: S, operations: &[(&str, &str)], mut step: impl FnMut(&S, (&str, &str)) -> Option<S>) -> Result<Found<S>, Error> {
        let numbers = HashMap::from([(initial.clone(), 0)]);
        let mut found = Found { numbers, states: vec![initial], steps: Vec::new(), made: vec![0; operations.len()] };
        let mut from = 0;
        while from < found.states.len() {
            found.follow(from, operations, &mut step);
            if found.states.len() > MOST_STATES {
                return Err(too_many(operations, &found.made));
            }
            from += 1;
        }
        Ok(found)
    }

    /// Finds what is one step after a state.
    fn follow(&mut self, from: usize, operations: &[(&str, &str)], step: &mut impl FnMut(&S, (&str, &str)) -> Option<S>) {
        let state = self.states[from].clone();
        for (k, operation) in operations.iter().enumerate() {
            let Some(next) = step(&state, *operation) else { continue };
            let to = *self.numbers.entry(next.clone()).or_insert(self.states.len());
            if to == self.states.len() {
                self.states.push(next);
                self.made[k] += 1;
            }
            self.steps.push(Step { from, operation: k, to });
        }
    }

    /// The place of each state in ascending order.
    fn ascending(&self) -> Vec<usize> {
        let sorted: BTreeSet<&S> = self.states.iter().collect();
        let mut numbers = vec![0; self.states.len()];
        for (place, state) in sorted.into_iter().enumerate() {
            numbers[self.numbers[state]] = place;
        }
        numbers
    }

    /// The text of the type, in which the states have these numbers.
    fn text(&self, name: &str, operations: &[(&str, &str)], numbers: &[usize]) -> String {
        let numbered = |step: &Step| Step { from: numbers[step.from], to: numbers[step.to], ..*step };
        let mut steps: Vec<Step> = self.steps.iter().map(numbered).collect();
        steps.sort_unstable();
        let mut text = format!("type {name}\nstates {}\ninitial {}\n", self.states.len(), numbers[0]);
        text.extend(operations.iter().map(|(call, reply)| format!("op {call} {reply}\n")));
        text.extend(steps.iter().map(|Step { from, operation, to }| format!("step {from} {operation} {to}\n")));
        text.push_str("end\n");
        text
    }
}

/// Too many states, most of which were made by one of these operations: the first of those that made the most.
fn too_many(operations: &[(&str, &str)], made: &[usize]) -> Error {
    let most = made.iter().max();
    let place = made.iter().position(|count| Some(count) == most).unwrap_or(0);
    let (call, reply) = operations[place];
    Error::TooManyStates { call: call.to_string(), reply: reply.to_string() }
}

/// The grid of conflicts: a row for each operation that is requested, and a column for each that is held, by its
/// number. An `x` is where they conflict. Of [`Kind::Escrow`] a line says that there is no conflict table.
///
/// ```
/// # use colock::{Kind, Type};
/// # let counter = Type::counter(5, &[1], Kind::Undo)?;
/// let grid = "counter, undo, 6 states\n           0 1\n0 inc:1 ok . x\n1 dec:1 ok x .\n";
/// assert_eq!(counter.to_string(), grid);
/// let stock = Type::counter(5, &[1], Kind::Escrow)?;
/// assert_eq!(stock.to_string(), "counter, escrow, 6 states, no conflict table\n");
/// # Ok::<(), colock::Error>(())
/// ```
impl fmt::Display for Type {
    fn fmt(&self, f: &mut fmt::Formatter<'_>) -> fmt::Result {
        write!(f, "{}, {}, {} states", self.name(), self.kind(), self.states())?;
        if self.kind() == Kind::Escrow {
            return f.write_str(", no conflict table\n");
        }
        f.write_str("\n")?;
        self.write_grid(f)
    }
}

impl Type {
    fn write_grid(&self, f: &mut fmt::Formatter<'_>) -> fmt::Result {
        let operations = self.operations();
        let widest = operations.saturating_sub(1).to_string().len(); // the type has a table, without amounts
        let rows = (0..operations).map(|requested| self.row_name(requested, widest)).collect::<Result<Vec<String>, fmt::Error>>()?;
        let wide = rows.iter().map(String::len).max().unwrap_or(0);
        let columns: String = (0..operations).map(|held| format!(" {held:>widest$}")).collect();
        writeln!(f, "{:wide$}{columns}", "")?;
        for (requested, row) in (0..operations).zip(&rows) {
            writeln!(f, "{row:wide$}{}", self.marks(requested, operations, widest)?)?;
        }
        Ok(())
    }

    /// What comes before a row of the grid.
    fn row_name(&self, requested: u8, widest: usize) -> Result<String, fmt::Error> {
        let call = self.call_name(requested).map_err(|_| fmt::Error)?;
        let reply = self.reply_name(requested).map_err(|_| fmt::Error)?;
        Ok(format!("{requested:>widest$} {call} {reply}"))
    }

    /// The marks of a row of the grid.
    fn marks(&self, requested: u8, operations: u8, widest: usize) -> Result<String, fmt::Error> {
        let mut marks = String::new();
        for held in 0..operations {
            let is_conflict = self.conflicts(requested, held).map_err(|_| fmt::Error)?;
            write!(marks, " {:>widest$}", if is_conflict { 'x' } else { '.' })?;
        }
        Ok(marks)
    }
}
