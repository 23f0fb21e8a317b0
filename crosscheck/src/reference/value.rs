/// A value of the logic of here-and-there: 2 holds in both worlds, 1 only there, 0 in neither.
#[derive(Clone, Copy, Debug, PartialEq, Eq, PartialOrd, Ord)]
pub struct Value(u8);

impl Value {
    pub const FALSE: Value = Value(0);
    pub const TRUE: Value = Value(2);

    /// The value of a byte that is known to be 0, 1 or 2.
    pub fn of(byte: u8) -> Value {
        debug_assert!(byte <= 2);
        Value(byte)
    }

    pub fn byte(self) -> u8 {
        self.0
    }

    pub fn and(self, other: Value) -> Value {
        self.min(other)
    }

    pub fn or(self, other: Value) -> Value {
        self.max(other)
    }

    pub fn not(self) -> Value {
        if self == Value::FALSE {
            Value::TRUE
        } else {
            Value::FALSE
        }
    }

    pub fn implies(self, right: Value) -> Value {
        if self <= right {
            Value::TRUE
        } else {
            right
        }
    }
}
