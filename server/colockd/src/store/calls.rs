//! Calls as they are asked for, with their objects.

use crate::limits::MOST_CALLS;
use crate::names::{is_name, is_object_name};
use crate::problem::{Problem, ProblemKind};
use crate::store::objects::{ObjectEntry, SharedObjects};
use colock_waiting::{Class, ObjectIndex};
use serde::de::{Error, Unexpected, Visitor};
use serde::{Deserialize, Deserializer};
use std::borrow::Cow;
use std::fmt;
use std::sync::Arc;

/// An object as it is asked for.
#[derive(Clone, Debug, PartialEq, Eq)]
pub enum ObjectAsked<'a> {
    /// By its name.
    Name(Cow<'a, str>),
    /// By its number.
    Number(u32),
}

impl<'de: 'a, 'a> Deserialize<'de> for ObjectAsked<'a> {
    fn deserialize<D: Deserializer<'de>>(deserializer: D) -> Result<ObjectAsked<'a>, D::Error> {
        deserializer.deserialize_any(OfObject)
    }
}

/// Takes a text as a name.
struct OfObject;

impl<'de> Visitor<'de> for OfObject {
    type Value = ObjectAsked<'de>;

    fn expecting(&self, f: &mut fmt::Formatter<'_>) -> fmt::Result {
        f.write_str("the name or the number of an object")
    }

    fn visit_borrowed_str<E: Error>(self, name: &'de str) -> Result<ObjectAsked<'de>, E> {
        Ok(ObjectAsked::Name(Cow::Borrowed(name)))
    }

    fn visit_str<E: Error>(self, name: &str) -> Result<ObjectAsked<'de>, E> {
        Ok(ObjectAsked::Name(Cow::Owned(name.to_string())))
    }

    fn visit_u64<E: Error>(self, number: u64) -> Result<ObjectAsked<'de>, E> {
        u32::try_from(number).map(ObjectAsked::Number).map_err(|_| E::invalid_value(Unexpected::Unsigned(number), &self))
    }
}

impl fmt::Display for ObjectAsked<'_> {
    fn fmt(&self, f: &mut fmt::Formatter<'_>) -> fmt::Result {
        match self {
            ObjectAsked::Name(name) => f.write_str(name),
            ObjectAsked::Number(number) => write!(f, "#{number}"),
        }
    }
}

/// A call as it is asked for.
#[derive(Clone, Debug, Deserialize, PartialEq, Eq)]
#[serde(deny_unknown_fields)]
pub struct CallAsked<'a> {
    /// The object.
    #[serde(borrow)]
    pub object: ObjectAsked<'a>,
    /// The name of the call.
    pub call: String,
}

/// A call at an object.
#[derive(Clone, Debug)]
pub struct Call {
    /// The object.
    pub object: Arc<ObjectEntry>,
    /// The name of the call.
    pub name: String,
    /// Its class.
    pub class: u8,
}

impl Call {
    /// The object and the class, for those that wait.
    pub fn at(&self) -> (ObjectIndex, Class) {
        (ObjectIndex(self.object.number), Class(self.class))
    }

    /// A problem at this call, which is at a place of a list.
    pub fn problem(&self, kind: ProblemKind, place: usize, why: &str) -> Problem {
        let words = format!("call {place}, {} at {}: {why}", self.name, self.object.label());
        Problem::new(kind, words).with("place", place).with("object", self.object.label()).with("call", self.name.as_str())
    }
}

/// The objects of calls, of which there are 1 to 64.
///
/// # Errors
///
/// A [`Problem`] at the first call that isn't one.
pub fn resolved(asked: Vec<CallAsked<'_>>, objects: &SharedObjects) -> Result<Vec<Call>, Problem> {
    if !(1..=MOST_CALLS).contains(&asked.len()) {
        return Err(Problem::new(ProblemKind::TooManyCalls, format!("{} calls, and 1 to {MOST_CALLS} may be there", asked.len())));
    }
    let mut calls = Vec::with_capacity(asked.len());
    for (place, asked) in asked.into_iter().enumerate() {
        calls.push(call_of(place, asked, objects)?);
    }
    Ok(calls)
}

fn call_of(place: usize, asked: CallAsked<'_>, objects: &SharedObjects) -> Result<Call, Problem> {
    let CallAsked { object, call } = asked;
    let object = object_of(&object, objects).map_err(|problem| problem.with("place", place))?;
    if !is_name(&call) {
        let words = format!("call {place}: {:?} isn't the name of a call: 1 to 32 of a-z 0-9 _ : -", shown(&call));
        return Err(Problem::new(ProblemKind::BadName, words).with("place", place));
    }
    let Some(class) = object.of.class(&call) else {
        return Err(Call { object, name: call, class: 0 }.problem(ProblemKind::NoCall, place, "its type has no such call"));
    };
    Ok(Call { object, name: call, class })
}

/// An object that is asked for.
///
/// # Errors
///
/// A [`Problem`] where there is none.
pub fn object_of(asked: &ObjectAsked<'_>, objects: &SharedObjects) -> Result<Arc<ObjectEntry>, Problem> {
    let found = match asked {
        ObjectAsked::Name(name) if !is_object_name(name) => {
            let words = format!("{:?} isn't the name of an object: 1 to 64 of a-z A-Z 0-9 _ : - . /", shown(name));
            return Err(Problem::new(ProblemKind::BadName, words));
        }
        ObjectAsked::Name(name) => objects.named(name),
        ObjectAsked::Number(number) => objects.get(*number),
    };
    found.ok_or_else(|| Problem::new(ProblemKind::NoObject, format!("there is no object {asked}")).with("object", asked.to_string()))
}

/// The beginning of a word, for messages.
pub fn shown(word: &str) -> String {
    word.chars().take(80).collect()
}

/// Puts the words of calls into a line.
pub fn add_words(line: &mut String, calls: &[Call]) {
    let mut number = itoa::Buffer::new();
    for call in calls {
        for word in [number.format(call.object.number), call.name.as_str()] {
            line.push(' ');
            line.push_str(word);
        }
    }
}

#[cfg(test)]
mod tests {
    use super::{add_words, resolved, CallAsked, ObjectAsked};
    use crate::problem::ProblemKind;
    use crate::store::objects::{listed, listed_types, SharedObjects};

    fn objects() -> SharedObjects {
        let objects = SharedObjects::default();
        objects.replace(listed("object undo 0 a\nobject undo 0\n", &listed_types("type t\nop hold ok\nend\n\n")).unwrap());
        objects
    }

    fn asked(text: &str) -> Vec<CallAsked<'_>> {
        serde_json::from_str(text).unwrap()
    }

    fn kind_of(text: &str) -> ProblemKind {
        resolved(asked(text), &objects()).unwrap_err().kind
    }

    #[test]
    fn objects_are_asked_for_by_name_or_number() {
        let calls = asked(r#"[{"object": "a", "call": "hold"}, {"object": 1, "call": "hold"}]"#);
        assert_eq!(calls[1].object, ObjectAsked::Number(1));
        assert_eq!(asked(r#"[{"object": "\u0061", "call": "hold"}]"#)[0].object, calls[0].object);
        let mut line = "do".to_string();
        add_words(&mut line, &resolved(calls, &objects()).unwrap());
        assert_eq!(line, "do 0 hold 1 hold");
    }

    #[test]
    fn what_is_neither_a_name_nor_a_number_is_told() {
        for wrong in ["true", "4294967296", "-1", "null", "1.5", "[]"] {
            let text = format!(r#"[{{"object": {wrong}, "call": "hold"}}]"#);
            let told = serde_json::from_str::<Vec<CallAsked<'_>>>(&text).unwrap_err().to_string();
            assert!(told.contains("expected the name or the number of an object"), "{wrong}: {told}");
        }
    }

    #[test]
    fn what_isnt_there_is_a_problem() {
        assert_eq!(kind_of("[]"), ProblemKind::TooManyCalls);
        assert_eq!(kind_of(r#"[{"object": "b", "call": "hold"}]"#), ProblemKind::NoObject);
        assert_eq!(kind_of(r#"[{"object": 2, "call": "hold"}]"#), ProblemKind::NoObject);
        assert_eq!(kind_of(r#"[{"object": "a\n", "call": "hold"}]"#), ProblemKind::BadName);
        assert_eq!(kind_of(r#"[{"object": "a", "call": "hold 1\n2 end"}]"#), ProblemKind::BadName);
        assert_eq!(kind_of(r#"[{"object": "a", "call": "take"}]"#), ProblemKind::NoCall);
    }
}
