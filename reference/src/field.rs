//! Document 01, "Field and vectors": the field of q elements.

/// The orders q that a field may have, all prime.
pub const ORDERS: [u8; 4] = [2, 7, 31, 251];

/// A field by its order. An element is one byte below the order.
#[derive(Clone, Copy, Debug, PartialEq, Eq)]
pub struct Field {
    order: u8,
}

impl Field {
    /// The field of that order, if there is one.
    pub fn of_order(order: u8) -> Option<Field> {
        ORDERS.contains(&order).then_some(Field { order })
    }

    pub fn order(self) -> u8 {
        self.order
    }

    /// Is this byte an element?
    pub fn contains(self, byte: u8) -> bool {
        byte < self.order
    }

    pub fn sum(self, a: u8, b: u8) -> u8 {
        self.remainder(i32::from(a) + i32::from(b))
    }

    pub fn difference(self, a: u8, b: u8) -> u8 {
        self.remainder(i32::from(a) - i32::from(b))
    }

    pub fn product(self, a: u8, b: u8) -> u8 {
        self.remainder(i32::from(a) * i32::from(b))
    }

    /// The remainder from 0 to q-1, also of a negative number.
    fn remainder(self, number: i32) -> u8 {
        u8::try_from(number.rem_euclid(i32::from(self.order))).expect("a remainder is below q")
    }
}
