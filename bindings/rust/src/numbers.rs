//! Numbers of three kinds, so that none is taken for another.

use crate::{Set, MEMBERS};
use core::cmp::Ordering;
use core::fmt;

macro_rules! number {
    ($(#[$about:meta])* $name:ident) => {
        $(#[$about])*
        ///
        /// Any number is one: which are in range is the engine's to say, and it refuses the others.
        /// `Display` and `Debug` show the bare number, and it compares with a bare one.
        #[derive(Clone, Copy, PartialEq, Eq, PartialOrd, Ord, Hash, Default)]
        #[repr(transparent)]
        pub struct $name(u32);

        impl $name {
            /// Of this number, whichever it is.
            #[must_use]
            pub const fn new(number: u32) -> $name {
                $name(number)
            }

            /// The number.
            #[must_use]
            pub const fn get(self) -> u32 {
                self.0
            }
        }

        impl From<u32> for $name {
            fn from(number: u32) -> $name {
                $name(number)
            }
        }

        impl From<$name> for u32 {
            fn from(number: $name) -> u32 {
                number.0
            }
        }

        impl PartialEq<u32> for $name {
            fn eq(&self, number: &u32) -> bool {
                self.0 == *number
            }
        }

        impl PartialOrd<u32> for $name {
            fn partial_cmp(&self, number: &u32) -> Option<Ordering> {
                self.0.partial_cmp(number)
            }
        }

        impl fmt::Debug for $name {
            fn fmt(&self, f: &mut fmt::Formatter<'_>) -> fmt::Result {
                fmt::Debug::fmt(&self.0, f)
            }
        }

        impl fmt::Display for $name {
            fn fmt(&self, f: &mut fmt::Formatter<'_>) -> fmt::Result {
                fmt::Display::fmt(&self.0, f)
            }
        }
    };
}

number! {
    /// A member, by its number: 0 to 15. Where it stands beside a round it comes first.
    ///
    /// A member and a round cannot be exchanged:
    ///
    /// ```compile_fail,E0308
    /// # use forgelilac::{Engine, Member, Refusal, Round, Sheet};
    /// # let engine = Engine::open(Member::new(0), &Sheet::default())?;
    /// engine.certificate(Round::FIRST, Member::new(3))?;
    /// # Ok::<(), Refusal>(())
    /// ```
    Member
}

number! {
    /// A round: 1 to the ceiling.
    Round
}

number! {
    /// What part of its committee's total a member weighs, in thousandths: 0 to 1,000.
    Share
}

impl Member {
    /// All members, by rising number.
    pub const ALL: [Member; MEMBERS] = {
        let mut all = [Member(0); MEMBERS];
        let mut number = 0;
        while number < MEMBERS {
            all[number] = Member(number as u32);
            number += 1;
        }
        all
    };

    /// The number as an index, for an array of sixteen: one above 15 lies outside of it.
    #[must_use]
    pub const fn index(self) -> usize {
        self.0 as usize
    }

    /// The set of this member alone; the empty one for a number above 15.
    ///
    /// ```
    /// use forgelilac::Member;
    ///
    /// assert_eq!(Member::new(3).bit(), 0b1000);
    /// assert_eq!(Member::new(16).bit(), 0);
    /// ```
    #[must_use]
    pub const fn bit(self) -> Set {
        if self.0 < MEMBERS as u32 {
            1 << self.0
        } else {
            0
        }
    }

    /// The members of a set, by rising number.
    ///
    /// ```
    /// use forgelilac::Member;
    ///
    /// assert!(Member::all_in(0b1010).eq([1, 3].map(Member::new)));
    /// ```
    pub fn all_in(set: Set) -> impl Iterator<Item = Member> {
        Member::ALL.into_iter().filter(move |member| set & member.bit() != 0)
    }
}

impl Round {
    /// Round 1.
    pub const FIRST: Round = Round(1);

    /// The round after it; the largest number stays.
    #[must_use]
    pub const fn next(self) -> Round {
        Round(self.0.saturating_add(1))
    }

    /// The rounds from this one to the last, both among them; none where it is above the last.
    ///
    /// ```
    /// use forgelilac::Round;
    ///
    /// assert!(Round::FIRST.through(Round::new(3)).eq([1, 2, 3].map(Round::new)));
    /// ```
    pub fn through(self, last: Round) -> impl DoubleEndedIterator<Item = Round> {
        (self.0..=last.0).map(Round)
    }

    /// The round before it; of round 1 that is 0, which the engine refuses, and 0 stays.
    #[must_use]
    pub const fn before(self) -> Round {
        Round(self.0.saturating_sub(1))
    }
}
