use std::fmt::Display;

/// Of what a type was made, so that the text of its type file can be had again.
#[derive(Clone, Debug)]
pub(crate) enum Source {
    /// This text.
    Text(Vec<u8>),
    /// This text, in which the tables were made anew.
    Tables(Vec<u8>),
    /// A family, by the words after `colock make`.
    Family(Vec<String>),
}

impl Source {
    pub(crate) fn family<Item: Display>(name: &str, size: u64, items: &[Item]) -> Source {
        let mut words = vec![name.to_string(), size.to_string()];
        words.extend(items.iter().map(Item::to_string));
        Source::Family(words)
    }
}
