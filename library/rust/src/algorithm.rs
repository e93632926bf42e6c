use crate::names::UnknownName;
use std::fmt;
use std::str::FromStr;

/// The number of a security algorithm, as IANA assigns it. It is written and read by its mnemonic,
/// if it has one here, and else as a number.
#[derive(Clone, Copy, Debug, PartialEq, Eq, PartialOrd, Ord, Hash)]
pub struct Algorithm(pub u8);

impl Algorithm {
    /// RSA with SHA-256 (RFC 5702).
    pub const RSASHA256: Algorithm = Algorithm(8);
    /// RSA with SHA-512 (RFC 5702).
    pub const RSASHA512: Algorithm = Algorithm(10);
    /// ECDSA on P-256 with SHA-256 (RFC 6605).
    pub const ECDSAP256SHA256: Algorithm = Algorithm(13);
    /// ECDSA on P-384 with SHA-384 (RFC 6605).
    pub const ECDSAP384SHA384: Algorithm = Algorithm(14);
    /// Ed25519 (RFC 8080).
    pub const ED25519: Algorithm = Algorithm(15);
    /// Ed448 (RFC 8080).
    pub const ED448: Algorithm = Algorithm(16);

    const NAMES: [(Algorithm, &'static str); 6] = [
        (Algorithm::RSASHA256, "RSASHA256"),
        (Algorithm::RSASHA512, "RSASHA512"),
        (Algorithm::ECDSAP256SHA256, "ECDSAP256SHA256"),
        (Algorithm::ECDSAP384SHA384, "ECDSAP384SHA384"),
        (Algorithm::ED25519, "ED25519"),
        (Algorithm::ED448, "ED448"),
    ];
}

impl From<u8> for Algorithm {
    fn from(number: u8) -> Self {
        Algorithm(number)
    }
}

impl From<Algorithm> for u8 {
    fn from(algorithm: Algorithm) -> Self {
        algorithm.0
    }
}

impl fmt::Display for Algorithm {
    fn fmt(&self, f: &mut fmt::Formatter<'_>) -> fmt::Result {
        match Algorithm::NAMES.iter().find(|(it, _)| it == self) {
            Some((_, name)) => f.write_str(name),
            None => self.0.fmt(f),
        }
    }
}

impl FromStr for Algorithm {
    type Err = UnknownName;

    fn from_str(name: &str) -> Result<Self, Self::Err> {
        match Algorithm::NAMES.iter().find(|(_, it)| *it == name) {
            Some((algorithm, _)) => Ok(*algorithm),
            None => name.parse().map(Algorithm).map_err(|_| UnknownName(())),
        }
    }
}
