//! The sixteen operators.

use super::state::Value;

/// The result of an operator on two ints in an edition; none where it raises arith.
pub fn apply(edition: u8, op: u8, left: i32, right: i32) -> Option<Value> {
    let (l, r) = (i64::from(left), i64::from(right));
    let int = |wide: i64| Some(Value::Int(wide as u32 as i32));
    match op {
        0 => int(l + r),
        1 => int(l - r),
        2 => int(l * r),
        3 | 4 if r == 0 || (l == -(1 << 31) && r == -1) => None,
        3 => int(l / r),
        4 => int(l % r),
        5 => int(l << places(edition, r)?),
        6 => int(l >> places(edition, r)?),
        7 => int(l & r),
        8 => int(l | r),
        9 => int(l ^ r),
        10 => Some(Value::Bool(l < r)),
        11 => Some(Value::Bool(l <= r)),
        12 => Some(Value::Bool(l > r)),
        13 => Some(Value::Bool(l >= r)),
        14 => Some(Value::Bool(l == r)),
        15 => Some(Value::Bool(l != r)),
        _ => None,
    }
}

/// The places that a count shifts by: edition 0 keeps its low five bits, edition 1 has none below 0 or above 31.
fn places(edition: u8, count: i64) -> Option<i64> {
    match edition {
        0 => Some(count & 31),
        _ => (0..=31).contains(&count).then_some(count),
    }
}
