//! What a check is, how a call refuses, and the list of all checks.

/// A check of a call: which call, the errno, and document 01's words for it. Errno 0 is an accepted call.
#[derive(Clone, Copy, Debug, PartialEq, Eq, Hash, PartialOrd, Ord)]
pub struct Check {
    pub call: &'static str,
    pub errno: i32,
    pub rule: &'static str,
}

/// An accepted call: its result, the value beside it, and which kind of "done" it is.
#[derive(Debug)]
pub struct Done {
    pub result: i32,
    pub value: u64,
    pub check: Check,
}

/// `Err` is the check that refused.
pub type Answer = Result<Done, Check>;

/// The name of a call, which its checks carry.
#[derive(Clone, Copy, Debug, PartialEq, Eq)]
pub struct Name(pub &'static str);

pub const MAP: Name = Name("MAP");
pub const COPY: Name = Name("COPY");
pub const UNMAP: Name = Name("UNMAP");
pub const ALLOW_IOVAS: Name = Name("ALLOW_IOVAS");
pub const IOVA_RANGES: Name = Name("IOVA_RANGES");
pub const IOAS_ALLOC: Name = Name("IOAS_ALLOC");
pub const DESTROY: Name = Name("DESTROY");
pub const UNKNOWN: Name = Name("unknown request");
pub const FRESH: Name = Name("fresh");
pub const BIND: Name = Name("bind");
pub const ATTACH: Name = Name("attach");
pub const DETACH: Name = Name("detach");
pub const REACH: Name = Name("reach");
pub const CHARGE: Name = Name("charge");
pub const NEXT: Name = Name("next");
pub const EXPLAIN: Name = Name("explain");
pub const EXPLAIN_MAP: Name = Name("explain MAP");
pub const EXPLAIN_COPY: Name = Name("explain COPY");

impl Name {
    pub fn check(self, errno: i32, rule: &'static str) -> Check {
        Check { call: self.0, errno, rule }
    }

    /// The call ends here where the rule is broken.
    pub fn refuse(self, broken: bool, errno: i32, rule: &'static str) -> Result<(), Check> {
        if broken {
            Err(self.check(errno, rule))
        } else {
            Ok(())
        }
    }

    /// As `refuse`, for a thing that must be there.
    pub fn need<T>(self, found: Option<T>, errno: i32, rule: &'static str) -> Result<T, Check> {
        found.ok_or(self.check(errno, rule))
    }

    /// The call was accepted, with nothing but 0 to tell.
    pub fn done(self, rule: &'static str) -> Answer {
        self.give(0, 0, rule)
    }

    /// The call was accepted with this result and this value beside it.
    pub fn give(self, result: i32, value: u64, rule: &'static str) -> Answer {
        Ok(Done { result, value, check: self.check(0, rule) })
    }
}

type Rules = &'static [(i32, &'static str)];

const BAD_TABLE: Rules = &[(117, "bad table")];

/// Opening a command that is known.
const OPENING: Rules = &[
    (117, "bad table"),
    (14, "fewer than 4 bytes lent"),
    (22, "size field below the table's size"),
    (14, "size field above the bytes lent"),
    (7, "a byte beyond the known size is not zero"),
];

/// MAP and COPY have these in common: the rights and the length that are asked,
const ASKED: Rules = &[(22, "neither writeable nor readable"), (22, "length 0"), (22, "length over 2^40")];

/// and everything from MAP's alignment check to the free record.
const PLACING: Rules = &[
    (22, "fixed: address not a multiple of the alignment"),
    (22, "fixed: address + length not a multiple of the alignment"),
    (22, "fixed: touches reserved"),
    (17, "fixed: touches a mapping of the space"),
    (22, "not fixed: length not a multiple of the alignment"),
    (28, "not fixed: no candidate"),
    (12, "no free mapping record"),
];

/// The reasons that MAP and COPY have in common, in three parts: up to the length,
const OPENED: Rules = &[
    (0, "0 Accepted"),
    (0, "1 NoSizeField"),
    (0, "2 SizeTooSmall"),
    (0, "3 SizePastBytes"),
    (0, "4 TailNotZero"),
    (0, "5 Flags"),
    (0, "6 NoRight"),
    (0, "7 WrongLength"),
];

/// the address and the space,
const AIMED: Rules = &[(0, "10 AddressPasses"), (0, "11 NoSpace")];

/// and from the alignment to the free record.
const BLOCKED: Rules = &[
    (0, "15 Misaligned"),
    (0, "16 TouchesReserved"),
    (0, "17 TouchesMapping"),
    (0, "18 LengthMisaligned"),
    (0, "19 NoPlace"),
    (0, "20 NoRecord"),
];

const PLACED: Rules = &[(0, "done, fixed"), (0, "done, automatic")];
const DONE: Rules = &[(0, "done")];

const ALL: &[(Name, &[Rules])] = &[
    (
        MAP,
        &[
            OPENING,
            &[(95, "flags above bit 2 or reserved field not 0")],
            ASKED,
            &[(75, "memory + length - 1 past U64MAX"), (75, "fixed and address + length - 1 past U64MAX"), (2, "no such space")],
            PLACING,
            &[(12, "charge would pass the limit")],
            PLACED,
        ],
    ),
    (
        COPY,
        &[
            OPENING,
            &[(95, "unknown flags")],
            ASKED,
            &[
                (75, "source address + length - 1 past U64MAX"),
                (75, "fixed and target address + length - 1 past U64MAX"),
                (2, "no target space"),
                (2, "no source space"),
                (2, "no source mapping with exactly this address and length"),
                (1, "writeable asked where the founding MAP was not"),
            ],
            PLACING,
            PLACED,
        ],
    ),
    (
        UNMAP,
        &[
            OPENING,
            &[
                (22, "length 0"),
                (75, "address + length - 1 past U64MAX"),
                (2, "no such space"),
                (0, "done, remove-all form"),
                (2, "a mapping shares an address and is not wholly inside"),
                (2, "none inside"),
                (0, "done"),
            ],
        ],
    ),
    (
        ALLOW_IOVAS,
        &[
            OPENING,
            &[
                (95, "reserved field not 0"),
                (2, "no such space"),
                (12, "count over 8"),
                (14, "range area short"),
                (22, "a start above its last"),
                (22, "two ranges overlap"),
                (98, "a range touches reserved"),
            ],
            DONE,
        ],
    ),
    (
        IOVA_RANGES,
        &[
            OPENING,
            &[(95, "reserved field not 0"), (2, "no such space"), (14, "range area shorter than 16 times count"), (90, "some ranges had no room")],
            DONE,
        ],
    ),
    (IOAS_ALLOC, &[OPENING, &[(95, "flags not 0"), (12, "no free object record")], DONE]),
    (DESTROY, &[OPENING, &[(2, "no such object"), (16, "an attached device"), (16, "a space with an attached device")], DONE]),
    (UNKNOWN, &[BAD_TABLE, &[(25, "unknown request")]]),
    (FRESH, &[&[(117, "the mapping records are not 128"), (117, "the words of the index are not 128"), (22, "limit above 2^36")], DONE]),
    (
        BIND,
        &[
            BAD_TABLE,
            &[
                (22, "bitmap 0"),
                (22, "lowest bit of the bitmap above 4,096"),
                (22, "over 4 ranges"),
                (22, "a start above its last"),
                (12, "no free object record"),
            ],
            DONE,
        ],
    ),
    (
        ATTACH,
        &[
            BAD_TABLE,
            &[
                (2, "no device"),
                (2, "no space"),
                (16, "already attached"),
                (98, "a reserved range touches a mapping"),
                (98, "a reserved range touches the allow list"),
                (98, "a mapping misfits the new alignment"),
            ],
            DONE,
        ],
    ),
    (DETACH, &[BAD_TABLE, &[(2, "no device"), (22, "not attached")], DONE]),
    (
        REACH,
        &[
            BAD_TABLE,
            &[
                (2, "no device"),
                (22, "not attached"),
                (22, "length 0"),
                (75, "past U64MAX"),
                (14, "not wholly inside one mapping"),
                (1, "right to write missing"),
                (1, "right to read missing"),
            ],
            DONE,
        ],
    ),
    (CHARGE, &[BAD_TABLE, DONE]),
    (NEXT, &[BAD_TABLE, &[(2, "no such space"), (0, "done, none"), (0, "done, found")]]),
    (EXPLAIN, &[BAD_TABLE, &[(25, "another request than MAP and COPY")]]),
    (EXPLAIN_MAP, &[OPENED, &[(0, "8 MemoryPasses")], AIMED, BLOCKED, &[(0, "21 OverLimit")]]),
    (EXPLAIN_COPY, &[OPENED, &[(0, "9 SourcePasses")], AIMED, &[(0, "12 NoSourceSpace"), (0, "13 NoSource"), (0, "14 NotWriteable")], BLOCKED]),
];

/// Every check that some call reaches, each call's in the paper's order.
pub fn checks() -> Vec<Check> {
    let of = |(name, parts): &(Name, &[Rules])| {
        let name = *name;
        parts.iter().flat_map(|rules| rules.iter()).map(move |(errno, rule)| name.check(*errno, rule)).collect::<Vec<_>>()
    };
    ALL.iter().flat_map(of).collect()
}
