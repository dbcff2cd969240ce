//! Values that messages carry, and their sorts.
use crate::raw;
use std::fmt;

/// The sort of a message's value, as a protocol writes it: `x(nat)`, or `x()` for [`Sort::Unit`].
#[derive(Clone, Copy, Debug, PartialEq, Eq, Hash)]
pub enum Sort {
    Unit,
    Bool,
    Nat,
    Int,
    Bytes,
    List,
}

impl Sort {
    pub(crate) fn of_kind(kind: u32) -> Sort {
        match kind {
            raw::BOOL => Sort::Bool,
            raw::NAT => Sort::Nat,
            raw::INT => Sort::Int,
            raw::BYTES => Sort::Bytes,
            raw::LIST => Sort::List,
            _ => Sort::Unit,
        }
    }
}

/// The sort as a protocol writes it between parentheses; the unit is written as nothing.
impl fmt::Display for Sort {
    fn fmt(&self, f: &mut fmt::Formatter<'_>) -> fmt::Result {
        f.write_str(match self {
            Sort::Unit => "",
            Sort::Bool => "bool",
            Sort::Nat => "nat",
            Sort::Int => "int",
            Sort::Bytes => "bytes",
            Sort::List => "list",
        })
    }
}

/// The value of a message.
///
/// Most types of Rust convert into one, so that a call can take `()`, `true`, `7u64`, `-7`, `vec![1u8, 2]` or `"text"`:
///
/// ```
/// use rumpsteak::Value;
///
/// assert_eq!(Value::from(7u64), Value::Nat(7));
/// assert_eq!(Value::from(-7), Value::Int(-7));
/// assert_eq!(Value::from("ab"), Value::Bytes(vec![97, 98]));
/// assert_eq!(u64::try_from(Value::Nat(7)), Ok(7));
/// ```
#[derive(Clone, Debug, PartialEq, Eq, Hash)]
pub enum Value {
    /// No value.
    Unit,
    Bool(bool),
    /// A natural number below 2^63. It may be sent as an `int` too.
    Nat(u64),
    /// An integer. If it isn't below 0, it may be sent as a `nat` too. Where an `int` is received it may come as a `Nat`, if the sender's machine
    /// sends a `nat` there: `i64::try_from` takes both.
    Int(i64),
    Bytes(Vec<u8>),
    /// A list of integers.
    List(Vec<i64>),
}

impl Value {
    /// The sort of the value.
    pub fn sort(&self) -> Sort {
        Sort::of_kind(self.kind())
    }

    pub(crate) fn kind(&self) -> u32 {
        match self {
            Value::Unit => raw::UNIT,
            Value::Bool(_) => raw::BOOL,
            Value::Nat(_) => raw::NAT,
            Value::Int(_) => raw::INT,
            Value::Bytes(_) => raw::BYTES,
            Value::List(_) => raw::LIST,
        }
    }

    /// The same number as a `nat`, if it is an integer that isn't below 0.
    pub(crate) fn as_natural(&self) -> Option<u64> {
        match self {
            Value::Int(number) => u64::try_from(*number).ok(),
            _ => None,
        }
    }
}

impl From<()> for Value {
    fn from(_: ()) -> Value {
        Value::Unit
    }
}

impl From<bool> for Value {
    fn from(value: bool) -> Value {
        Value::Bool(value)
    }
}

macro_rules! numbers {
    ($variant:ident: $($type:ty)*) => {
        $(impl From<$type> for Value {
            fn from(number: $type) -> Value {
                Value::$variant(number.into())
            }
        })*
    };
}

numbers!(Nat: u8 u16 u32 u64);
numbers!(Int: i8 i16 i32 i64);

impl From<Vec<u8>> for Value {
    fn from(bytes: Vec<u8>) -> Value {
        Value::Bytes(bytes)
    }
}

impl From<&[u8]> for Value {
    fn from(bytes: &[u8]) -> Value {
        Value::Bytes(bytes.to_vec())
    }
}

impl<const N: usize> From<&[u8; N]> for Value {
    fn from(bytes: &[u8; N]) -> Value {
        Value::Bytes(bytes.to_vec())
    }
}

impl From<&str> for Value {
    fn from(text: &str) -> Value {
        Value::Bytes(text.as_bytes().to_vec())
    }
}

impl From<String> for Value {
    fn from(text: String) -> Value {
        Value::Bytes(text.into_bytes())
    }
}

impl From<Vec<i64>> for Value {
    fn from(numbers: Vec<i64>) -> Value {
        Value::List(numbers)
    }
}

impl From<&[i64]> for Value {
    fn from(numbers: &[i64]) -> Value {
        Value::List(numbers.to_vec())
    }
}

macro_rules! back {
    ($($type:ty: $($pattern:pat => $result:expr),*;)*) => {
        $(
            /// The error is the value itself, if it is of another sort or too large.
            impl TryFrom<Value> for $type {
                type Error = Value;

                fn try_from(value: Value) -> Result<$type, Value> {
                    match value {
                        $($pattern => $result,)*
                        #[allow(unreachable_patterns)]
                        other => Err(other),
                    }
                }
            }
        )*
    };
}

back! {
    (): Value::Unit => Ok(());
    bool: Value::Bool(value) => Ok(value);
    u64: Value::Nat(number) => Ok(number), Value::Int(number) => u64::try_from(number).map_err(|_| Value::Int(number));
    i64: Value::Int(number) => Ok(number), Value::Nat(number) => i64::try_from(number).map_err(|_| Value::Nat(number));
    Vec<u8>: Value::Bytes(bytes) => Ok(bytes);
    Vec<i64>: Value::List(numbers) => Ok(numbers);
}
