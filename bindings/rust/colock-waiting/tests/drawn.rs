//! Schedules that a seed draws, against a model of a store. COLOCK_SEEDS may say how many.

mod model;

use colock_waiting::{Age, Asker, Class, Decision, Number, ObjectIndex, Touched, Verdict, Waiting};
use model::{Draw, Model, Table};
use std::collections::{BTreeMap, BTreeSet, VecDeque};

type Gate = Waiting<Box<dyn Fn(ObjectIndex, Class, Class) -> bool>>;

/// How the store is asked.
#[derive(Clone, Copy, Debug, PartialEq, Eq)]
enum Way {
    /// Whoever ends asks it for those that wait.
    InMemory,
    /// Each asks for itself, and its answer takes a while.
    OverChild,
}

/// What a transaction does.
#[derive(Clone, Copy, Debug, PartialEq, Eq)]
enum Doing {
    Running,
    Sleeping(Asker),
    /// It may make its call.
    Woken(Asker),
    /// A child has answered, at this moment, and nobody has read that yet.
    Answered(Asker, Option<Number>, u64),
    /// It is a victim.
    Doomed(Asker),
}

#[derive(Clone, Copy, Debug)]
struct Transaction {
    age: Age,
    doing: Doing,
    touched: Touched,
}

struct Run {
    draw: Draw,
    way: Way,
    table: Table,
    shape: (usize, usize, usize),
    model: Model,
    waiting: Gate,
    open: BTreeMap<Number, Transaction>,
    begun: u64,
    /// The ages of aborted ones, which begin again.
    ages: Vec<Age>,
    moment: u64,
    /// When somebody last let go at an object.
    let_go: BTreeMap<ObjectIndex, u64>,
    victims: VecDeque<(Number, Number)>,
    wakes: BTreeSet<Number>,
    count: Count,
}

/// What happened, so that a test sees that it does.
#[derive(Debug, Default)]
struct Count {
    sleeps: u64,
    wakes: u64,
    victims: u64,
    passes: u64,
    stale: u64,
}

impl Run {
    fn new(seed: u64, way: Way) -> Run {
        let mut draw = Draw::new(seed);
        let shape = (1 + draw.below(3), 1 + draw.below(4), 2 + draw.below(20));
        let table = Table::drawn(&mut draw, shape.1);
        let known = table.clone();
        Run {
            draw,
            way,
            shape,
            model: Model::new(table.clone()),
            table,
            waiting: Waiting::new(Box::new(move |_, call, other| known.blocks(call, other))),
            open: BTreeMap::new(),
            begun: 0,
            ages: Vec::new(),
            moment: 0,
            let_go: BTreeMap::new(),
            victims: VecDeque::new(),
            wakes: BTreeSet::new(),
            count: Count::default(),
        }
    }

    fn those(&self, is_meant: impl Fn(&Doing) -> bool) -> Vec<Number> {
        self.open.iter().filter(|(_, transaction)| is_meant(&transaction.doing)).map(|(number, _)| *number).collect()
    }

    fn put(&mut self, number: Number, doing: Doing) {
        self.open.get_mut(&number).expect("it is open").doing = doing;
    }

    /// The call that a transaction waits with.
    fn call_of(&self, number: Number) -> Option<Asker> {
        match self.open.get(&number)?.doing {
            Doing::Running => None,
            Doing::Sleeping(asker) | Doing::Woken(asker) | Doing::Answered(asker, _, _) | Doing::Doomed(asker) => Some(asker),
        }
    }
}

// ---- what is drawn

impl Run {
    fn step(&mut self) {
        match self.draw.below(10) {
            0 | 1 if self.open.len() < self.shape.2 => self.begin(),
            2..=4 => self.anyone_runs(),
            5 | 6 => self.anyone_goes_on(),
            7 => self.one_ends_or_takes_back(),
            8 if self.draw.is_hit(15) => self.one_gives_up(),
            9 if self.draw.is_hit(8) => self.one_is_ended_by_others(),
            9 if self.draw.is_hit(3) => self.waiting.all_again(),
            _ => {}
        }
        self.drain();
        self.check();
    }

    fn begin(&mut self) {
        let age = match self.draw.is_hit(40).then(|| self.ages.pop()).flatten() {
            Some(age) => age,
            None => self.waiting.next_age(),
        };
        self.begun += 1;
        self.open.insert(Number(self.begun), Transaction { age, doing: Doing::Running, touched: Touched::default() });
    }

    fn anyone_runs(&mut self) {
        let Some(number) = self.draw.one_of(&self.those(|doing| *doing == Doing::Running)) else { return };
        let object = ObjectIndex(self.draw.below(self.shape.0) as u32);
        let call = Class(self.draw.below(self.shape.1) as u8);
        let asker = Asker { number, age: self.open[&number].age, object, call };
        let gate = self.waiting.gate(asker);
        assert_eq!(gate, self.in_the_way(asker), "the gate for {asker:?}");
        match (gate, self.model.blocker(asker)) {
            (None, None) => self.does(asker),
            (None, Some(blocker)) if self.draw.is_hit(50) => {
                self.enters(asker);
                self.busy(asker, blocker);
            }
            (None, _) => self.enters(asker),
            (Some(_), _) => {
                self.enters(asker);
                assert!(self.waiting.edge(number).is_some_and(|edge| edge.by_gate), "the gate keeps {asker:?}");
            }
        }
    }

    fn enters(&mut self, asker: Asker) {
        self.count.sleeps += 1;
        self.put(asker.number, Doing::Sleeping(asker));
        self.waiting.enter(asker);
    }

    fn does(&mut self, asker: Asker) {
        self.model.does(asker);
        self.open.get_mut(&asker.number).expect("it is open").touched.note(asker.object);
    }

    /// Somebody who doesn't sleep any more does what it is to do.
    fn anyone_goes_on(&mut self) {
        let awake = self.those(|doing| !matches!(doing, Doing::Running | Doing::Sleeping(_)));
        if let Some(number) = self.draw.one_of(&awake) {
            self.goes_on(number);
        }
    }

    fn goes_on(&mut self, number: Number) {
        match self.open[&number].doing {
            Doing::Woken(asker) => self.calls(asker),
            Doing::Answered(asker, answer, sent) => self.reads(asker, answer, sent),
            Doing::Doomed(_) => self.ends(number),
            Doing::Running | Doing::Sleeping(_) => {}
        }
    }

    fn calls(&mut self, asker: Asker) {
        self.put(asker.number, Doing::Sleeping(asker));
        if self.waiting.gate(asker).is_some() {
            self.waiting.again(asker.number);
        } else if let Some(blocker) = self.model.blocker(asker) {
            self.busy(asker, blocker);
        } else {
            self.does(asker);
            self.leaves(asker.number);
        }
    }

    fn reads(&mut self, asker: Asker, answer: Option<Number>, sent: u64) {
        let Some(blocker) = answer else { return self.leaves(asker.number) };
        self.put(asker.number, Doing::Sleeping(asker));
        let has_let_go = self.let_go.get(&asker.object).is_some_and(|moment| *moment > sent);
        if has_let_go || !self.open.contains_key(&blocker) {
            self.count.stale += 1;
            self.waiting.again(asker.number);
        } else {
            self.busy(asker, blocker);
        }
    }

    fn leaves(&mut self, number: Number) {
        self.put(number, Doing::Running);
        self.waiting.leave(number);
    }

    fn one_gives_up(&mut self) {
        if let Some(number) = self.draw.one_of(&self.those(|doing| matches!(doing, Doing::Sleeping(_) | Doing::Woken(_)))) {
            self.leaves(number);
        }
    }

    fn one_ends_or_takes_back(&mut self) {
        let Some(number) = self.draw.one_of(&self.those(|doing| *doing == Doing::Running)) else { return };
        if !self.draw.is_hit(30) {
            return self.ends(number);
        }
        self.model.take_back(number, 1 + self.draw.below(2));
        self.lets_go(number);
        self.waiting.took_back(number, self.open[&number].touched);
    }

    fn one_is_ended_by_others(&mut self) {
        let all: Vec<Number> = self.open.keys().copied().collect();
        if let Some(number) = self.draw.one_of(&all) {
            self.ends(number);
        }
    }

    fn ends(&mut self, number: Number) {
        self.model.end(number);
        self.lets_go(number);
        let Some(transaction) = self.open.remove(&number) else { return };
        if self.draw.is_hit(50) {
            self.ages.push(transaction.age);
        }
        let look = self.waiting.look_on(number);
        self.waiting.ended(number, transaction.touched);
        assert!(!self.waiting.looks_on(look));
        self.wakes.remove(&number);
    }

    fn lets_go(&mut self, number: Number) {
        self.moment += 1;
        let touched = self.open[&number].touched;
        for object in (0..self.shape.0 as u32).map(ObjectIndex).filter(|object| touched.has(*object)) {
            self.let_go.insert(object, self.moment);
        }
    }
}

// ---- what is decided

impl Run {
    /// The store names a blocker; and what must come of it, where that makes a circle.
    fn busy(&mut self, asker: Asker, blocker: Number) {
        let circle = self.circle(asker.number, blocker);
        let in_front = circle.iter().cycle().skip(1);
        let passing = circle.iter().zip(in_front).filter(|(one, next)| !one.2 && next.2).map(|(_, next)| next.0);
        let before = passing.min_by_key(|asker| asker.age).map(|asker| (asker.number, self.waiting.edge(asker.number)));
        self.waiting.busy(asker.number, blocker);
        if let Some((number, edge)) = before {
            self.count.passes += 1;
            assert_ne!(self.waiting.edge(number), edge, "{number:?} passes");
        } else if let Some((victim, waited_for, _)) = circle.iter().max_by_key(|(asker, _, _)| asker.age) {
            self.victims.push_back((victim.number, *waited_for));
        }
    }

    /// The circle that a new edge makes: each in it, for whom it waits, and whether by the gate.
    fn circle(&self, number: Number, blocker: Number) -> Vec<(Asker, Number, bool)> {
        let asker = self.call_of(number).expect("it waits");
        let (mut members, mut at) = (vec![(asker, blocker, false)], blocker);
        while at != number {
            let Some(edge) = self.waiting.edge(at) else { return Vec::new() };
            members.push((self.call_of(at).expect("it waits"), edge.to, edge.by_gate));
            at = edge.to;
        }
        members
    }

    fn drain(&mut self) {
        while let Some(decision) = self.waiting.next_decision() {
            match decision {
                Decision::Ask(asker) => self.asks(asker),
                Decision::Wake(number) => self.wakes_up(number),
                Decision::Abort { number, waited_for } => self.is_victim(number, waited_for),
                Decision::End { number, verdict } => {
                    assert_eq!(verdict, Verdict::Gone);
                    assert!(!self.open.contains_key(&number));
                }
                Decision::OnlookerFree(id) => assert!(!self.waiting.looks_on(id)),
            }
        }
        assert_eq!((self.victims.len(), self.wakes.len()), (0, 0), "victims and wakes that didn't come");
    }

    fn asks(&mut self, asker: Asker) {
        assert_eq!(self.open[&asker.number].doing, Doing::Sleeping(asker));
        let blocker = self.model.blocker(asker);
        match (self.way, blocker) {
            (Way::OverChild, _) => {
                if blocker.is_none() {
                    self.does(asker);
                }
                self.put(asker.number, Doing::Answered(asker, blocker, self.moment));
            }
            (Way::InMemory, Some(blocker)) => self.busy(asker, blocker),
            (Way::InMemory, None) => self.may_go(asker),
        }
    }

    /// It may go, and goes where nobody is in its way at the gate.
    fn may_go(&mut self, asker: Asker) {
        if self.in_the_way(asker).is_none() {
            self.wakes.insert(asker.number);
        }
        self.waiting.may_go(asker.number);
    }

    fn wakes_up(&mut self, number: Number) {
        assert!(self.wakes.remove(&number), "{number:?} is woken");
        let asker = self.call_of(number).expect("it waits");
        assert_eq!(self.model.blocker(asker), None, "{number:?} is woken in vain");
        self.count.wakes += 1;
        self.put(number, Doing::Woken(asker));
    }

    fn is_victim(&mut self, number: Number, waited_for: Number) {
        assert_eq!(self.victims.pop_front(), Some((number, waited_for)));
        let oldest = self.open.values().map(|transaction| transaction.age).min();
        assert_ne!(Some(self.open[&number].age), oldest, "the oldest is no victim");
        self.count.victims += 1;
        let asker = self.call_of(number).expect("it waits");
        self.put(number, Doing::Doomed(asker));
    }
}

// ---- what must be

impl Run {
    /// The oldest whom a call has to go after, by a look at all.
    fn in_the_way(&self, asker: Asker) -> Option<Number> {
        let others = self.open.keys().filter_map(|number| self.call_of(*number));
        let ahead = others.filter(|other| self.is_ahead(*other, asker));
        ahead.min_by_key(|other| other.age).map(|other| other.number)
    }

    fn is_ahead(&self, other: Asker, asker: Asker) -> bool {
        let is_older = other.object == asker.object && other.age < asker.age;
        is_older && self.table.blocks(asker.call, other.call) && !self.path(other.number).contains(&asker.number)
    }

    /// For whom a transaction waits, along edges.
    fn path(&self, number: Number) -> Vec<Number> {
        let mut path = Vec::new();
        let mut at = number;
        while let Some(edge) = self.waiting.edge(at) {
            path.push(edge.to);
            assert!(path.len() <= self.open.len(), "a circle through {number:?}");
            at = edge.to;
        }
        path
    }

    fn check(&self) {
        for number in self.open.keys() {
            assert!(!self.path(*number).contains(number));
            match self.open[number].doing {
                Doing::Sleeping(asker) => self.check_sleeper(asker),
                _ => assert_eq!(self.waiting.edge(*number), None),
            }
        }
        let is_waiting = self.open.keys().any(|number| self.call_of(*number).is_some());
        assert_eq!(self.waiting.is_empty(), !is_waiting);
    }

    /// A waiter is kept out by the one for whom it waits.
    fn check_sleeper(&self, asker: Asker) {
        let edge = self.waiting.edge(asker.number).expect("a waiter waits for somebody");
        if edge.by_gate {
            let other = self.call_of(edge.to).expect("who is ahead waits");
            assert!(self.is_ahead(other, asker), "{other:?} is ahead of {asker:?}");
        } else {
            assert!(self.open.contains_key(&edge.to), "{:?} has ended", edge.to);
            assert!(self.model.keeps_out(edge.to, asker), "{:?} keeps {asker:?} out", edge.to);
        }
    }

    /// All holders end, and everybody does.
    fn finish(&mut self) {
        while !self.open.is_empty() {
            let awake = self.those(|doing| !matches!(doing, Doing::Sleeping(_)));
            let number = self.draw.one_of(&awake).expect("somebody is awake");
            match self.open[&number].doing {
                Doing::Running => self.ends(number),
                _ => self.goes_on(number),
            }
            self.drain();
            self.check();
        }
        assert!(self.waiting.is_empty());
    }
}

fn runs(way: Way) {
    let seeds = std::env::var("COLOCK_SEEDS").ok().and_then(|seeds| seeds.parse().ok()).unwrap_or(200);
    let mut total = Count::default();
    for seed in 0..seeds {
        let mut run = Run::new(seed, way);
        (0..300).for_each(|_| run.step());
        run.finish();
        total.sleeps += run.count.sleeps;
        total.wakes += run.count.wakes;
        total.victims += run.count.victims;
        total.passes += run.count.passes;
        total.stale += run.count.stale;
    }
    println!("{way:?}: {total:?}");
    assert!(total.sleeps > seeds && total.victims > 0 && total.passes > 0);
    assert_eq!((total.wakes > 0, total.stale > 0), (way == Way::InMemory, way == Way::OverChild));
}

#[test]
fn drawn_schedules_in_memory() {
    runs(Way::InMemory);
}

#[test]
fn drawn_schedules_over_a_child() {
    runs(Way::OverChild);
}
