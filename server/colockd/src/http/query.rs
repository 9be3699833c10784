//! The query of a request.

use crate::problem::{Problem, ProblemKind};
use std::str::FromStr;

/// The parameters, in their order.
#[derive(Clone, Debug, Default, PartialEq, Eq)]
pub struct Query(Vec<(String, String)>);

impl Query {
    /// The parameters of a query, each of which is one of those that are known.
    ///
    /// # Errors
    ///
    /// A [`Problem`] where one is unknown.
    pub fn of(query: Option<&str>, known: &[&str]) -> Result<Query, Problem> {
        let all: Vec<(String, String)> = form_urlencoded::parse(query.unwrap_or("").as_bytes()).into_owned().collect();
        match all.iter().find(|(name, _)| !known.contains(&name.as_str())) {
            Some((name, _)) => Err(bad(name, &format!("it is unknown; there are: {}", known.join(", ")))),
            None => Ok(Query(all)),
        }
    }

    /// The values of a parameter.
    pub fn all<'q>(&'q self, name: &'q str) -> impl Iterator<Item = &'q str> {
        self.0.iter().filter(move |(known, _)| known == name).map(|(_, value)| value.as_str())
    }

    /// The value of a parameter that comes at most once.
    ///
    /// # Errors
    ///
    /// A [`Problem`] where it comes twice.
    pub fn one<'q>(&'q self, name: &'q str) -> Result<Option<&'q str>, Problem> {
        let mut all = self.all(name);
        let first = all.next();
        if all.next().is_some() {
            return Err(bad(name, "it is there twice"));
        }
        Ok(first)
    }

    /// The same as something that is read of a text.
    ///
    /// # Errors
    ///
    /// A [`Problem`] where it isn't one.
    pub fn read<T: FromStr>(&self, name: &str) -> Result<Option<T>, Problem> {
        let value = self.one(name)?;
        value.map(|value| value.parse().map_err(|_| bad(name, "it can't be read"))).transpose()
    }
}

/// A parameter isn't what it should be.
pub fn bad(name: &str, why: &str) -> Problem {
    let name: String = name.chars().take(80).collect();
    Problem::new(ProblemKind::BadQuery, format!("parameter {name:?}: {why}")).with("parameter", name)
}

#[cfg(test)]
mod tests {
    use super::Query;

    #[test]
    fn parameters_are_known() {
        let query = Query::of(Some("object=a%2Fb&object=c&limit=5&x=1&x=2"), &["object", "limit", "x"]).unwrap();
        assert_eq!(query.all("object").collect::<Vec<_>>(), ["a/b", "c"]);
        assert_eq!((query.read::<usize>("limit"), query.one("none")), (Ok(Some(5)), Ok(None)));
        assert!(query.one("x").is_err() && query.read::<bool>("limit").is_err());
        assert!(Query::of(Some("y=1"), &["x"]).is_err());
    }
}
