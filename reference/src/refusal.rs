//! Why a call or a record is refused.

/// The reasons that a caller of this box can meet, with their numbers.
///
/// The reasons 1 and 2 are missing: this box lends no memory and takes no line.
#[derive(Clone, Copy, Debug, PartialEq, Eq, PartialOrd, Ord, Hash)]
#[repr(u8)]
pub enum Refusal {
    TextTooLong = 3,
    MalformedRecord = 4,
    UnknownRecord = 5,
    WrongFieldCount = 6,
    BadlyWritten = 7,
    AlreadyDeclared = 8,
    NotDeclared = 9,
    TableFull = 10,
    HouseInUse = 11,
    IllFormedDraft = 12,
    SeparatedRolesHeld = 13,
    UnitsOverlap = 14,
    ProhibitedPairAssigned = 15,
    ReachesBarredPermission = 16,
    InvalidLease = 17,
    NoSuchNumber = 18,
    NotAdministrator = 19,
    LeaseOut = 20,
    ProhibitedPair = 21,
    OutsideTask = 22,
    AlreadyAssigned = 23,
    NotAssigned = 24,
    WouldReachBarredPermission = 25,
    SessionLive = 26,
    SessionNotLive = 27,
    RoleNotHeld = 28,
    RoleUnchanged = 29,
    SeparatedRolesActive = 30,
    NoSuchPermission = 31,
}

impl Refusal {
    /// The number by which the answer names the refusal.
    pub fn number(self) -> u8 {
        self as u8
    }
}

/// `Err` with the refusal when its reason applies.
pub fn refuse_when(applies: bool, refusal: Refusal) -> Result<(), Refusal> {
    if applies {
        Err(refusal)
    } else {
        Ok(())
    }
}
