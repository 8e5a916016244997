//! Why a call was refused.
use core::{error, fmt};

/// The errno of a refusal.
#[derive(Clone, Copy, Debug, PartialEq, Eq, Hash)]
pub enum Errno {
    /// EPERM: the right to write or read is not held.
    Perm,
    /// ENOENT: no such id, mapping or source.
    NoEnt,
    /// E2BIG: a non-zero byte beyond the command's known size.
    TooBig,
    /// ENOMEM: objects, mappings, allow list or charge full.
    NoMem,
    /// EFAULT: too few bytes lent; address not mapped.
    Fault,
    /// EBUSY: object in use; device already attached.
    Busy,
    /// EEXIST: address already mapped.
    Exist,
    /// EINVAL: a field out of its rule.
    Inval,
    /// ENOTTY: unknown request.
    NoTty,
    /// ENOSPC: no place.
    NoSpc,
    /// EOVERFLOW: a sum past 2^64 - 1.
    Overflow,
    /// EMSGSIZE: count too small for all ranges.
    MsgSize,
    /// EOPNOTSUPP: an unknown flag, or a reserved field that is not 0.
    OpNotSupp,
    /// EADDRINUSE: a reserved range or a device's page size against what is mapped or allowed.
    AddrInUse,
    /// EUCLEAN: bad table.
    Unclean,
    /// A number that is none of the above. The archive is proved never to answer one; a kernel that was linked with another archive sees here what that one answered, where
    /// a panic would stop it and one of the cases above would be a lie.
    Other(i32),
}

impl Errno {
    /// Every case but [`Errno::Other`], by its number.
    pub const ALL: [Errno; 15] = [
        Errno::Perm,
        Errno::NoEnt,
        Errno::TooBig,
        Errno::NoMem,
        Errno::Fault,
        Errno::Busy,
        Errno::Exist,
        Errno::Inval,
        Errno::NoTty,
        Errno::NoSpc,
        Errno::Overflow,
        Errno::MsgSize,
        Errno::OpNotSupp,
        Errno::AddrInUse,
        Errno::Unclean,
    ];

    /// The positive number.
    pub const fn number(self) -> i32 {
        self.row().0
    }

    /// The negative of the number, as an ioctl answers it.
    pub const fn result(self) -> i32 {
        self.number().saturating_neg()
    }

    /// The name that C has for it; `?` for [`Errno::Other`].
    pub const fn name(self) -> &'static str {
        self.row().1
    }

    /// The case of a positive number: [`Errno::Other`] exactly where no other case has it.
    pub fn from_number(number: i32) -> Errno {
        Errno::ALL.into_iter().find(|errno| errno.number() == number).unwrap_or(Errno::Other(number))
    }

    /// Number, name and sentence.
    const fn row(self) -> (i32, &'static str, &'static str) {
        match self {
            Errno::Perm => (1, "EPERM", "the right to read or to write is not held"),
            Errno::NoEnt => (2, "ENOENT", "no such object, mapping or source"),
            Errno::TooBig => (7, "E2BIG", "bytes beyond the command's known size are not zero"),
            Errno::NoMem => (12, "ENOMEM", "no record left, allow list too long, or charge above the limit"),
            Errno::Fault => (14, "EFAULT", "too few bytes lent, or the address is not mapped"),
            Errno::Busy => (16, "EBUSY", "the object is in use, or the device is attached already"),
            Errno::Exist => (17, "EEXIST", "an address is mapped already"),
            Errno::Inval => (22, "EINVAL", "a field is out of its rule"),
            Errno::NoTty => (25, "ENOTTY", "no such request"),
            Errno::NoSpc => (28, "ENOSPC", "no place is long enough"),
            Errno::Overflow => (75, "EOVERFLOW", "a range ends past the last address"),
            Errno::MsgSize => (90, "EMSGSIZE", "more ranges than there was room for"),
            Errno::OpNotSupp => (95, "EOPNOTSUPP", "an unknown flag, or a reserved field that is not zero"),
            Errno::AddrInUse => (98, "EADDRINUSE", "a reserved range stands against what is mapped or allowed"),
            Errno::Unclean => (117, "EUCLEAN", "the table is damaged"),
            Errno::Other(number) => (number, "?", "no errno of this interface"),
        }
    }
}

impl fmt::Display for Errno {
    fn fmt(&self, f: &mut fmt::Formatter<'_>) -> fmt::Result {
        match self {
            Errno::Other(number) => write!(f, "{}: {number}", self.row().2),
            _ => f.write_str(self.row().2),
        }
    }
}

impl error::Error for Errno {}

/// A result of an entry: a number from 0 on, or the negative of an errno. -2^31 has no positive; it is told as 2^31 - 1.
pub(crate) fn done(result: i32) -> Result<u32, Errno> {
    u32::try_from(result).map_err(|_| Errno::from_number(result.saturating_neg()))
}
