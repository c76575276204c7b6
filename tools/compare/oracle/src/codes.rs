//! The coded lists of 01's trace format, numbered from 1.

/// Defines an enumeration with its one-byte codes.
macro_rules! coded {
    ($(#[$meta:meta])* $name:ident { $($variant:ident = $code:literal),+ $(,)? }) => {
        $(#[$meta])*
        #[derive(Debug, Clone, Copy, PartialEq, Eq, Hash)]
        pub enum $name {
            $($variant = $code),+
        }

        impl $name {
            /// Every value, in the order of the codes.
            pub const ALL: &'static [Self] = &[$(Self::$variant),+];

            /// The code in a trace record.
            pub const fn code(self) -> u8 {
                self as u8
            }

            /// The value with this code.
            pub const fn from_code(code: u8) -> Option<Self> {
                match code {
                    $($code => Some(Self::$variant),)+
                    _ => None,
                }
            }
        }
    };
}

coded! {
    /// The delivery guarantee of one direction.
    Flow { Recoverable = 1, Idempotent = 2, Unsequenced = 3, None = 4 }
}

coded! {
    /// The code of a Terminate.
    TerminationCode {
        Finished = 1,
        UnspecifiedError = 2,
        ReRequestOutOfBounds = 3,
        ReRequestInProgress = 4,
    }
}

coded! {
    /// The code of a RetransmitReject.
    RejectCode { OutOfRange = 1, InvalidSession = 2, RequestLimitExceeded = 3 }
}

coded! {
    /// What happens when a request stalls.
    Policy {
        Terminate = 1,
        ReRequestAfterContextSwitch = 2,
        ReRequestAfterBatch = 3,
        EventOnly = 4,
    }
}

impl Flow {
    /// Recoverable and Idempotent flows are sequenced.
    pub const fn is_sequenced(self) -> bool {
        matches!(self, Self::Recoverable | Self::Idempotent)
    }
}
