//! Who may do what: tokens in a file, by their hashes.

use crate::names::is_key;
use sha2::{Digest, Sha256};
use std::fmt;
use std::fs;
use std::path::{Path, PathBuf};
use std::sync::{Arc, PoisonError, RwLock};
use subtle::ConstantTimeEq;

/// The most tokens of a file.
pub const MOST_TOKENS: usize = 1_024;

/// What a token may have a right to.
#[derive(Clone, Copy, Debug, PartialEq, Eq)]
pub enum Right {
    /// To see.
    Read,
    /// To do attempts and transactions.
    Write,
    /// To add types and objects.
    Types,
    /// To see and end what others do.
    Admin,
}

impl Right {
    const ALL: [(&'static str, Right); 4] = [("read", Right::Read), ("write", Right::Write), ("types", Right::Types), ("admin", Right::Admin)];

    /// Its word in the file.
    pub fn word(self) -> &'static str {
        Right::ALL.iter().find(|(_, right)| *right == self).map_or("", |(word, _)| word)
    }
}

/// Some of the rights.
#[derive(Clone, Copy, Debug, Default, PartialEq, Eq)]
struct Rights([bool; Right::ALL.len()]);

impl Rights {
    fn has(self, right: Right) -> bool {
        self.0[right as usize]
    }
}

impl FromIterator<Right> for Rights {
    fn from_iter<I: IntoIterator<Item = Right>>(all: I) -> Rights {
        let mut rights = Rights::default();
        all.into_iter().for_each(|right| rights.0[right as usize] = true);
        rights
    }
}

/// Who asks.
#[derive(Clone, Debug, PartialEq, Eq)]
pub struct Caller {
    token: Option<Arc<str>>,
    rights: Rights,
}

impl Caller {
    /// Anyone, who may do all.
    pub fn anyone() -> Caller {
        Caller { token: None, rights: Right::ALL.iter().map(|(_, right)| *right).collect() }
    }

    /// The name of the token.
    pub fn name(&self) -> &str {
        self.token.as_deref().unwrap_or("anyone")
    }

    /// Whether this is allowed.
    pub fn may(&self, right: Right) -> bool {
        self.rights.has(right)
    }
}

#[derive(Debug)]
struct Token {
    hash: [u8; 32],
    caller: Caller,
}

/// Why a file of tokens isn't taken.
#[derive(Debug)]
pub enum BadTokens {
    /// It can't be read.
    Unread(PathBuf, std::io::Error),
    /// A line of it is none.
    BadLine(usize, &'static str),
}

impl fmt::Display for BadTokens {
    fn fmt(&self, f: &mut fmt::Formatter<'_>) -> fmt::Result {
        match self {
            BadTokens::Unread(path, error) => write!(f, "{}: {error}", path.display()),
            BadTokens::BadLine(line, why) => write!(f, "line {line} of the tokens: {why}"),
        }
    }
}

/// The tokens of a file, which may be read again.
#[derive(Debug)]
pub struct Tokens {
    path: PathBuf,
    all: RwLock<Arc<Vec<Token>>>,
}

impl Tokens {
    /// Reads a file.
    ///
    /// # Errors
    ///
    /// [`BadTokens`] where it isn't one of tokens.
    pub fn read(path: &Path) -> Result<Tokens, BadTokens> {
        let all = RwLock::new(Arc::new(read_file(path)?));
        Ok(Tokens { path: path.to_path_buf(), all })
    }

    /// Reads the file again; how many tokens there are. Where it isn't one, the tokens stay as they are.
    ///
    /// # Errors
    ///
    /// [`BadTokens`] where it isn't one of tokens.
    pub fn read_again(&self) -> Result<usize, BadTokens> {
        let all = Arc::new(read_file(&self.path)?);
        let count = all.len();
        *self.all.write().unwrap_or_else(PoisonError::into_inner) = all;
        Ok(count)
    }

    /// Whose a token is. Each hash is compared in constant time.
    pub fn caller(&self, token: &str) -> Option<Caller> {
        let all = Arc::clone(&self.all.read().unwrap_or_else(PoisonError::into_inner));
        let hash = hash_of(token);
        let mut found = None;
        for token in all.iter() {
            if bool::from(token.hash.ct_eq(&hash)) {
                found = Some(token.caller.clone());
            }
        }
        found
    }
}

/// The hash of a token, as the file has it in hexadecimal digits.
pub fn hash_of(token: &str) -> [u8; 32] {
    Sha256::digest(token.as_bytes()).into()
}

fn read_file(path: &Path) -> Result<Vec<Token>, BadTokens> {
    let text = fs::read_to_string(path).map_err(|error| BadTokens::Unread(path.to_path_buf(), error))?;
    read_text(&text)
}

fn read_text(text: &str) -> Result<Vec<Token>, BadTokens> {
    let lines = text.lines().enumerate().filter(|(_, line)| !line.trim().is_empty() && !line.starts_with('#'));
    let all = lines.map(|(place, line)| token(line).map_err(|why| BadTokens::BadLine(place + 1, why))).collect::<Result<Vec<_>, _>>()?;
    if all.len() > MOST_TOKENS {
        return Err(BadTokens::BadLine(text.lines().count(), "there are more than 1,024 tokens"));
    }
    Ok(all)
}

/// `NAME RIGHT,RIGHT.. HASH`.
fn token(line: &str) -> Result<Token, &'static str> {
    let words: Vec<_> = line.split_whitespace().collect();
    let [name, rights, hash] = words[..] else { return Err("it has to be NAME RIGHT,RIGHT.. HASH") };
    if !is_key(name) {
        return Err("the name has to be 1 to 64 of a-z A-Z 0-9 _ : - .");
    }
    let right = |word: &str| Right::ALL.iter().find(|(known, _)| *known == word).map(|(_, right)| *right);
    let rights = rights.split(',').map(right).collect::<Option<Rights>>().ok_or("a right is read, write, types or admin")?;
    let mut bytes = [0; 32];
    hex::decode_to_slice(hash, &mut bytes).map_err(|_| "the hash has to be the 64 hexadecimal digits of a SHA-256")?;
    Ok(Token { hash: bytes, caller: Caller { token: Some(Arc::from(name)), rights } })
}

#[cfg(test)]
mod tests {
    use super::{hash_of, read_text, BadTokens, Caller, Right, Tokens};
    use std::sync::Arc;

    fn tokens(text: &str) -> Tokens {
        Tokens { path: "tokens".into(), all: std::sync::RwLock::new(Arc::new(read_text(text).unwrap())) }
    }

    #[test]
    fn a_token_has_its_rights_alone() {
        let text = format!("# tokens\nshop read,write {}\nops admin {}\n", hex::encode(hash_of("secret")), hex::encode(hash_of("other")));
        let tokens = tokens(&text);
        let shop = tokens.caller("secret").unwrap();
        assert_eq!((shop.name(), shop.may(Right::Write), shop.may(Right::Admin)), ("shop", true, false));
        assert_eq!(tokens.caller("other").map(|caller| caller.may(Right::Read)), Some(false));
        assert_eq!(tokens.caller("secret "), None);
        assert!(Caller::anyone().may(Right::Admin));
    }

    #[test]
    fn a_line_that_is_none_is_told() {
        for text in ["a read", "a read xy", "a/b read 00", "a all 00", &format!("a read,, {}", "0".repeat(64))] {
            assert!(matches!(read_text(&format!("\n{text}\n")), Err(BadTokens::BadLine(2, _))), "{text}");
        }
    }
}
