//! The objects of the store, by name and by number.

use crate::store::recovery::Recovery;
use crate::store::type_text::TypeText;
use std::collections::BTreeMap;
use std::ops::Bound;
use std::sync::{Arc, PoisonError, RwLock, RwLockReadGuard};

/// The most objects of a store.
pub const MOST_OBJECTS: usize = 65_536;

/// An object.
#[derive(Clone, Debug)]
pub struct ObjectEntry {
    /// Its number.
    pub number: u32,
    /// Its name, where it has one.
    pub name: Option<Arc<str>>,
    /// How it recovers.
    pub recovery: Recovery,
    /// Its type.
    pub of: Arc<TypeText>,
}

impl ObjectEntry {
    /// What it is called: by its name, else by its number.
    pub fn label(&self) -> String {
        self.name.as_deref().map_or_else(|| format!("#{}", self.number), str::to_string)
    }
}

#[derive(Debug, Default)]
struct Table {
    entries: Vec<Arc<ObjectEntry>>,
    by_name: BTreeMap<Arc<str>, u32>,
}

/// The objects, for all tasks.
#[derive(Clone, Debug, Default)]
pub struct SharedObjects(Arc<RwLock<Table>>);

impl SharedObjects {
    fn read(&self) -> RwLockReadGuard<'_, Table> {
        self.0.read().unwrap_or_else(PoisonError::into_inner)
    }

    /// These are all objects from now on, by their numbers.
    pub fn replace(&self, entries: Vec<ObjectEntry>) {
        let entries: Vec<_> = entries.into_iter().map(Arc::new).collect();
        let by_name = entries.iter().filter_map(|entry| Some((Arc::clone(entry.name.as_ref()?), entry.number))).collect();
        *self.0.write().unwrap_or_else(PoisonError::into_inner) = Table { entries, by_name };
    }

    /// These come behind the others, by their numbers; whether they do.
    pub fn append(&self, entries: Vec<ObjectEntry>) -> bool {
        let mut table = self.0.write().unwrap_or_else(PoisonError::into_inner);
        let follow = entries.iter().zip(table.entries.len()..).all(|(entry, number)| entry.number as usize == number);
        if follow {
            for entry in entries {
                if let Some(name) = &entry.name {
                    table.by_name.insert(Arc::clone(name), entry.number);
                }
                table.entries.push(Arc::new(entry));
            }
        }
        follow
    }

    /// How many there are.
    pub fn len(&self) -> usize {
        self.read().entries.len()
    }

    /// Whether there is none.
    pub fn is_empty(&self) -> bool {
        self.len() == 0
    }

    /// The object of a number.
    pub fn get(&self, number: u32) -> Option<Arc<ObjectEntry>> {
        self.read().entries.get(number as usize).cloned()
    }

    /// The object of a name.
    pub fn named(&self, name: &str) -> Option<Arc<ObjectEntry>> {
        let table = self.read();
        let number = *table.by_name.get(name)?;
        table.entries.get(number as usize).cloned()
    }

    /// Objects whose names begin so, in the order of their names, behind a name, at most so many.
    pub fn page(&self, prefix: &str, after: Option<&str>, most: usize) -> Vec<Arc<ObjectEntry>> {
        let table = self.read();
        let start = match after {
            Some(after) if after >= prefix => Bound::Excluded(after),
            _ => Bound::Included(prefix),
        };
        let names = table.by_name.range::<str, _>((start, Bound::Unbounded)).take_while(|(name, _)| name.starts_with(prefix));
        names.filter_map(|(_, number)| table.entries.get(*number as usize).cloned()).take(most).collect()
    }
}

/// The objects that a store lists, with the types that it lists; nothing where that is none.
pub fn listed(objects: &str, types: &[Arc<TypeText>]) -> Option<Vec<ObjectEntry>> {
    let lines = objects.lines().filter(|line| line.starts_with("object "));
    lines.zip(0..).map(|(line, number)| entry(line, number, types)).collect()
}

fn entry(line: &str, number: u32, types: &[Arc<TypeText>]) -> Option<ObjectEntry> {
    let mut words = line.split(' ').skip(1);
    let recovery = Recovery::of(words.next()?)?;
    let of = Arc::clone(types.get(words.next()?.parse::<usize>().ok()?)?);
    Some(ObjectEntry { number, name: words.next().map(Arc::from), recovery, of })
}

/// The texts that a store lists, an empty line after each.
pub fn listed_types(types: &str) -> Vec<Arc<TypeText>> {
    let texts = types.split("\n\n").filter(|text| !text.trim().is_empty());
    texts.map(|text| Arc::new(TypeText::read(text))).collect()
}

#[cfg(test)]
mod tests {
    use super::{listed, listed_types, SharedObjects};

    fn objects() -> SharedObjects {
        let types = listed_types("type a\nop x ok\nend\n\nnumber b\nmax 5\nend\n\n");
        assert_eq!(types.iter().map(|of| of.name()).collect::<Vec<_>>(), ["a", "b"]);
        let objects = SharedObjects::default();
        objects.replace(listed("object undo 0\nobject escrow 1 stalls/B\nobject undo 0 stalls/A\nobject undo 0 t\n", &types).unwrap());
        objects
    }

    #[test]
    fn objects_are_found_by_name_and_number() {
        let objects = objects();
        assert_eq!((objects.len(), objects.get(0).unwrap().label(), objects.named("stalls/B").unwrap().number), (4, "#0".to_string(), 1));
        assert!(objects.get(4).is_none() && objects.named("stalls").is_none());
    }

    #[test]
    fn pages_are_of_a_prefix_and_go_on_behind_a_name() {
        let objects = objects();
        let page = |prefix, after, most| objects.page(prefix, after, most).iter().map(|entry| entry.label()).collect::<Vec<_>>();
        assert_eq!(page("", None, 2), ["stalls/A", "stalls/B"]);
        assert_eq!(page("", Some("stalls/B"), 2), ["t"]);
        assert_eq!(page("stalls/", Some("stalls/A"), 9), ["stalls/B"]);
        assert_eq!(page("stalls/", Some("a"), 1), ["stalls/A"]);
        assert_eq!(page("x", None, 1), [""; 0]);
    }

    #[test]
    fn objects_come_behind_the_others() {
        let objects = objects();
        let more =
            |number| vec![super::ObjectEntry { number, name: Some("new".into()), recovery: super::Recovery::Undo, of: objects.get(0).unwrap().of.clone() }];
        assert!(!objects.append(more(5)) && objects.append(more(4)));
        assert_eq!((objects.len(), objects.named("new").unwrap().number), (5, 4));
    }

    #[test]
    fn nonsense_lists_nothing() {
        assert!(listed("object undo 3", &[]).is_none() && listed("object else 0", &listed_types("type a\n\n")).is_none());
    }
}
