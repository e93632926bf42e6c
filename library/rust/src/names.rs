//! Values that have names in scripts, in answers and in the status.

use std::{error, fmt};

/// A text that names no value of the type that it was read as.
#[derive(Clone, Copy, Debug, PartialEq, Eq)]
pub struct UnknownName(pub(crate) ());

impl fmt::Display for UnknownName {
    fn fmt(&self, f: &mut fmt::Formatter<'_>) -> fmt::Result {
        f.write_str("unknown name")
    }
}

impl error::Error for UnknownName {}

/// An enum whose values have names: `Display` writes them, and `FromStr` reads them.
macro_rules! named {
    ($(#[$doc:meta])* $name:ident { $($(#[$of:meta])* $value:ident = $text:literal),* $(,)? }) => {
        $(#[$doc])*
        #[derive(Clone, Copy, Debug, PartialEq, Eq, PartialOrd, Ord, Hash)]
        pub enum $name {
            $($(#[$of])* $value),*
        }

        impl $name {
            /// The name.
            pub const fn name(self) -> &'static str {
                match self {
                    $($name::$value => $text),*
                }
            }
        }

        impl std::fmt::Display for $name {
            fn fmt(&self, f: &mut std::fmt::Formatter<'_>) -> std::fmt::Result {
                f.write_str(self.name())
            }
        }

        impl std::str::FromStr for $name {
            type Err = $crate::names::UnknownName;

            fn from_str(name: &str) -> Result<Self, Self::Err> {
                match name {
                    $($text => Ok($name::$value),)*
                    _ => Err($crate::names::UnknownName(())),
                }
            }
        }
    };
}

named!(
    /// The kinds of rolls, in the order in which the status has them.
    #[non_exhaustive]
    RollType {
        /// A KSK roll by Double-KSK: RFC 7583, section 3.3.1.
        KskRoll = "ksk-roll",
        /// A KSK roll by Double-DS: RFC 7583, section 3.3.2.
        KskDoubleDsRoll = "ksk-double-ds-roll",
        /// A ZSK roll by Pre-Publication: RFC 7583, section 3.2.1.
        ZskRoll = "zsk-roll",
        /// A ZSK roll by Double-Signature: RFC 7583, section 3.2.2.
        ZskDoubleSignatureRoll = "zsk-double-signature-roll",
        /// A roll from CSKs, or KSKs and ZSKs, to others.
        CskRoll = "csk-roll",
        /// A roll to keys of other algorithms. The first keys come in by it too.
        AlgorithmRoll = "algorithm-roll",
    }
);

named!(
    /// What has to be done next: docs/OPERATORS.md says how.
    #[non_exhaustive]
    Action {
        /// Publish the DNSKEY set, signed by the keys of `signers`.
        UpdateDnskeyRrset = "UpdateDnskeyRrset",
        /// Publish CDS and CDNSKEY of the keys of `ds`.
        CreateCdsRrset = "CreateCdsRrset",
        /// Take CDS and CDNSKEY out.
        RemoveCdsRrset = "RemoveCdsRrset",
        /// Have the parent publish the DS set.
        UpdateDsRrset = "UpdateDsRrset",
        /// Sign the zone by the keys of `zone`.
        UpdateRrsig = "UpdateRrsig",
        /// Report once all servers have the DNSKEY set.
        ReportDnskeyPropagated = "ReportDnskeyPropagated",
        /// Wait until all servers have the DNSKEY set.
        WaitDnskeyPropagated = "WaitDnskeyPropagated",
        /// Report once all servers of the parent have the DS set.
        ReportDsPropagated = "ReportDsPropagated",
        /// Wait until all servers of the parent have the DS set.
        WaitDsPropagated = "WaitDsPropagated",
        /// Report once all servers have the signatures.
        ReportRrsigPropagated = "ReportRrsigPropagated",
        /// Wait until all servers have the signatures.
        WaitRrsigPropagated = "WaitRrsigPropagated",
    }
);

named!(
    /// The kinds of keys.
    KeyKind {
        /// Signs the DNSKEY set, and the parent's DS names it.
        Ksk = "ksk",
        /// Signs the zone.
        Zsk = "zsk",
        /// Does both.
        Csk = "csk",
        /// Another signer's.
        Public = "public",
    }
);

named!(
    /// The kinds of roles. A CSK has two.
    RoleKind {
        /// It signs the DNSKEY set.
        Ksk = "ksk",
        /// It signs the zone.
        Zsk = "zsk",
        /// It is another signer's.
        Public = "public",
    }
);

named!(
    /// What a role's flags come to.
    #[non_exhaustive]
    State {
        /// Not old, and not used: it doesn't sign, isn't in the DNSKEY set and has no DS.
        Future = "future",
        /// Not old, and used, and not yet active.
        Incoming = "incoming",
        /// Not old, signs and is in the DNSKEY set; a KSK role has its DS too.
        Active = "active",
        /// Old, and still used.
        Leaving = "leaving",
        /// Old, and not used.
        Stale = "stale",
    }
);

named!(
    /// The phases of a roll.
    Phase {
        /// What the start changed spreads.
        Propagation1 = "propagation1",
        /// Caches may hold what was there before.
        CacheExpire1 = "cache-expire1",
        /// What the first wait changed spreads.
        Propagation2 = "propagation2",
        /// Caches may hold what was there before.
        CacheExpire2 = "cache-expire2",
        /// The last actions are to be performed.
        Done = "done",
    }
);

named!(
    /// The call that leaves a phase.
    Next {
        /// The first report: [`KeySet::propagation1_complete`](crate::KeySet).
        Report1 = "report1",
        /// The first wait: [`KeySet::cache_expired1`](crate::KeySet).
        Wait1 = "wait1",
        /// The second report: [`KeySet::propagation2_complete`](crate::KeySet).
        Report2 = "report2",
        /// The second wait: [`KeySet::cache_expired2`](crate::KeySet).
        Wait2 = "wait2",
        /// The end: [`KeySet::roll_done`](crate::KeySet).
        Done = "done",
    }
);

named!(
    /// For whom a roll waits.
    WaitsFor {
        /// For the operator.
        You = "you",
        /// For the parent, whose DS set is to change.
        Parent = "parent",
        /// For caches, which may hold older sets.
        Caches = "caches",
    }
);

named!(
    /// A kind of sets, as notes name it.
    SetKind {
        /// The DS set at the parent.
        Ds = "ds",
        /// The DNSKEY set with its signatures.
        Dnskey = "dnskey",
        /// Every other set of the zone, and answers that there is none.
        Zone = "zone",
    }
);
