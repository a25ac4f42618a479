//! The numbers by which a part turns a request away.

/// Why a call was refused. The value of each case is the number that is answered; 0, for done, is not among them.
#[derive(Clone, Copy, Debug, PartialEq, Eq, PartialOrd, Ord)]
#[repr(u8)]
pub enum Refusal {
    Dead = 1,
    PowerOff = 2,
    AlreadySelected = 3,
    NotSelected = 4,
    TooManyClocks = 5,
    AlreadyOn = 6,
    NoByte = 10,
    Busy = 11,
    UnknownOpcode = 12,
    NotEnabled = 13,
    Protected = 14,
    WrongLength = 15,
    LeftoverClocks = 16,
    WrongSum = 17,
}

impl Refusal {
    pub fn number(self) -> u8 {
        self as u8
    }
}

/// What a call answers: done, with what it has to tell, or a refusal.
pub type Answer<T = ()> = Result<T, Refusal>;
