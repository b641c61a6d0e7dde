//! The spread sequence and the lead (document 01, "The spread sequence" and "Ask ... Lead").

use crate::answers::Refusal;
use crate::scheduler::{COLUMNS, LARGEST_WEIGHT};

/// "S(1) is the single term 1. S(k) is S(k-1), then k, then S(k-1)": the term of S(order) at a position from 1 on.
/// Taken from the definition by halves, not from trailing zeros.
pub fn term_of(order: u64, position: u64) -> u64 {
    let middle = 1 << (order - 1);
    if position == middle {
        order
    } else if position < middle {
        term_of(order - 1, position)
    } else {
        term_of(order - 1, position - middle)
    }
}

/// S(order), written out by the definition.
pub fn sequence(order: u64) -> Vec<u64> {
    if order == 0 {
        return Vec::new();
    }
    let half = sequence(order - 1);
    let mut whole = half.clone();
    whole.push(order);
    whole.extend(half);
    whole
}

/// "The term call takes an order and a position and answers the term."
pub fn term(order: u32, position: u32) -> Result<u32, Refusal> {
    let (order, position) = (u64::from(order), u64::from(position));
    if !(1..=COLUMNS).contains(&order) {
        return Err(Refusal::NoTerm);
    }
    // The order has been checked, so 2^order can be worked out.
    if position < 1 || position > (1 << order) - 1 {
        return Err(Refusal::NoTerm);
    }
    Ok(term_of(order, position) as u32)
}

/// "a signed lead, w1·v2 - w2·v1, for weights in range and any two 32-bit visit counts".
pub fn lead(w1: u32, v1: u32, w2: u32, v2: u32) -> Result<i64, Refusal> {
    for weight in [w1, w2] {
        if weight == 0 || u64::from(weight) > LARGEST_WEIGHT {
            return Err(Refusal::BadWeight);
        }
    }
    let exact = i128::from(w1) * i128::from(v2) - i128::from(w2) * i128::from(v1);
    Ok(exact as i64)
}
