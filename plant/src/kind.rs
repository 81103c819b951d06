//! Kinds of runs.

use std::fmt;
use std::str::FromStr;

/// What goes wrong in a run. In all but the last faulty members weigh at most the fault bound.
#[derive(Clone, Copy, PartialEq, Eq, Hash, Debug)]
pub enum Kind {
    /// Messages are lost, delayed, doubled and overtake one another.
    Lossy,
    /// The plant falls into parts that do not hear of one another, and heals.
    Partitions,
    /// Power fails between calls and in the middle of stores.
    Crashes,
    /// Faulty members make two proposals of a place, endorse both, send different certificates, and lie.
    Equivocation,
    /// Bonds and unbonds on the chain move the weights.
    Weights,
    /// Guests with queues, rights and serial ports make calls.
    Guests,
    /// All of it.
    All,
    /// Faulty members weigh more than the fault bound: chains may part.
    Beyond,
}

impl Kind {
    /// All kinds.
    pub const ALL: [Kind; 8] = [
        Kind::Lossy,
        Kind::Partitions,
        Kind::Crashes,
        Kind::Equivocation,
        Kind::Weights,
        Kind::Guests,
        Kind::All,
        Kind::Beyond,
    ];

    /// Its name on the command line.
    #[must_use]
    pub const fn name(self) -> &'static str {
        match self {
            Kind::Lossy => "lossy",
            Kind::Partitions => "partitions",
            Kind::Crashes => "crashes",
            Kind::Equivocation => "equivocation",
            Kind::Weights => "weights",
            Kind::Guests => "guests",
            Kind::All => "all",
            Kind::Beyond => "beyond",
        }
    }

    /// Whether runs of this kind have what the other kind is of.
    #[must_use]
    pub fn has(self, other: Kind) -> bool {
        self == other || self == Kind::All && other != Kind::Beyond
    }
}

impl fmt::Display for Kind {
    fn fmt(&self, f: &mut fmt::Formatter<'_>) -> fmt::Result {
        f.write_str(self.name())
    }
}

impl FromStr for Kind {
    type Err = String;

    fn from_str(name: &str) -> Result<Kind, String> {
        let found = Kind::ALL.into_iter().find(|kind| kind.name() == name);
        found.ok_or_else(|| format!("there is no kind '{name}': {}", Kind::ALL.map(Kind::name).join(", ")))
    }
}
