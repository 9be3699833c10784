//! TLS, by a certificate and a key in files.

use rustls_pemfile::Item;
use std::fmt;
use std::fs::File;
use std::io::{self, BufReader};
use std::path::Path;
use std::sync::Arc;
use tokio_rustls::rustls::{Certificate, Error, PrivateKey, ServerConfig};
use tokio_rustls::TlsAcceptor;

/// Why there is no TLS.
#[derive(Debug)]
pub enum NoTls {
    /// A file can't be read.
    Unread(String, io::Error),
    /// A file has none.
    Missing(String, &'static str),
    /// The certificate and the key aren't taken.
    Refused(Error),
}

impl fmt::Display for NoTls {
    fn fmt(&self, f: &mut fmt::Formatter<'_>) -> fmt::Result {
        match self {
            NoTls::Unread(path, error) => write!(f, "{path}: {error}"),
            NoTls::Missing(path, what) => write!(f, "{path}: there is no {what} in it"),
            NoTls::Refused(error) => write!(f, "the certificate and its key: {error}"),
        }
    }
}

/// Takes connections by TLS, with HTTP/2 and HTTP/1.1.
///
/// # Errors
///
/// [`NoTls`] where the files aren't those of a certificate and its key.
pub fn acceptor(certificate: &Path, key: &Path) -> Result<TlsAcceptor, NoTls> {
    let certificates = items(certificate)?.into_iter().filter_map(|item| match item {
        Item::X509Certificate(bytes) => Some(Certificate(bytes)),
        _ => None,
    });
    let certificates: Vec<_> = certificates.collect();
    if certificates.is_empty() {
        return Err(NoTls::Missing(certificate.display().to_string(), "certificate"));
    }
    let keys = items(key)?.into_iter().find_map(|item| match item {
        Item::RSAKey(bytes) | Item::PKCS8Key(bytes) | Item::ECKey(bytes) => Some(PrivateKey(bytes)),
        _ => None,
    });
    let key = keys.ok_or_else(|| NoTls::Missing(key.display().to_string(), "key"))?;
    let config = ServerConfig::builder().with_safe_defaults().with_no_client_auth().with_single_cert(certificates, key);
    let mut config = config.map_err(NoTls::Refused)?;
    config.alpn_protocols = vec![b"h2".to_vec(), b"http/1.1".to_vec()];
    Ok(TlsAcceptor::from(Arc::new(config)))
}

fn items(path: &Path) -> Result<Vec<Item>, NoTls> {
    let unread = |error| NoTls::Unread(path.display().to_string(), error);
    let file = File::open(path).map_err(unread)?;
    rustls_pemfile::read_all(&mut BufReader::new(file)).map_err(unread)
}
