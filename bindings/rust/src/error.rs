//! What stops a call.

use crate::sys;
use std::error;
use std::fmt::{self, Display, Formatter};

/// Which of its texts a call speaks of.
#[derive(Clone, Copy, Debug, PartialEq, Eq)]
pub enum Text {
    /// The expression.
    Expression,
    /// The schema.
    Schema,
    /// The records, the statistics, or the rows of a batch.
    Records,
}

/// A place in what a call was given.
#[derive(Clone, Copy, Debug, PartialEq, Eq)]
pub struct Place {
    /// Which text.
    pub text: Text,
    /// The first byte, from 0 on.
    pub start: usize,
    /// The byte behind the last.
    pub end: usize,
    /// The line, from 1 on.
    pub line: Option<usize>,
    /// The character within the line, from 1 on.
    pub column: Option<usize>,
    /// The line at which the record begins, or the row of the batch, from 1 on.
    pub record: Option<u64>,
}

impl Place {
    fn of(place: &sys::VxPlace) -> Option<Place> {
        let text = match place.text {
            1 => Text::Expression,
            2 => Text::Schema,
            3 => Text::Records,
            _ => return None,
        };
        Some(Place {
            text,
            start: place.start,
            end: place.end,
            line: Some(place.line).filter(|line| *line > 0),
            column: Some(place.column).filter(|column| *column > 0),
            record: Some(place.record).filter(|record| *record > 0),
        })
    }
}

/// How a call ended that answers nothing.
#[non_exhaustive]
#[derive(Clone, Copy, Debug, PartialEq, Eq)]
pub enum Kind {
    /// Memory ran out.
    OutOfMemory,
    /// A text can't be read.
    Unread,
    /// The expression has no type over the schema's, or not one that the call asks for.
    Refused,
    /// The expression faults at a record, or at a row.
    Faulted,
    /// A record isn't of the schema's type, a line says no statistics, or a buffer isn't laid out as the type
    /// asks.
    BadData,
}

/// What stops a call. Prints the message, with the place underlined.
#[derive(Clone, Debug, PartialEq, Eq)]
pub struct Error {
    kind: Kind,
    message: String,
    place: Option<Place>,
}

impl Error {
    /// The error of that status. That of a handle without a plan never comes: a [`Plan`](crate::Plan) has one.
    pub(crate) fn of(status: u32, message: String, place: &sys::VxPlace) -> Error {
        let kind = match status {
            sys::OUT_OF_MEMORY => Kind::OutOfMemory,
            sys::UNREAD => Kind::Unread,
            sys::REFUSED => Kind::Refused,
            sys::FAULTED => Kind::Faulted,
            sys::BAD_DATA => Kind::BadData,
            _ => unreachable!("a call ends with {status}"),
        };
        Error {
            kind,
            message,
            place: Place::of(place),
        }
    }

    /// How the call ended.
    pub fn kind(&self) -> Kind {
        self.kind
    }

    /// Where it is, `None` where that isn't told.
    pub fn place(&self) -> Option<Place> {
        self.place
    }
}

impl Display for Error {
    fn fmt(&self, f: &mut Formatter<'_>) -> fmt::Result {
        match self.kind {
            Kind::OutOfMemory => f.write_str("error: out of memory"),
            _ => f.write_str(&self.message),
        }
    }
}

impl error::Error for Error {}
