//! Programs of calls of 0 to 8 arguments, in families: what the arguments are, how deep the calls go, how many variables the callee has.

use crate::record::File;
use crate::tree::*;

/// A family's name, and its program with so many arguments.
type Family = (&'static str, fn(u8) -> File);

/// The families.
const FAMILIES: [Family; 6] = [
    ("constants", constants),
    ("operators, ints and bools in turn", operators),
    ("a call inside an argument", inside),
    ("calls without an end", without_end),
    ("calls to the caller limit", to_the_limit),
    ("a callee of 64 variables", many_variables),
];

/// The most arguments of a call.
pub const MOST: u8 = 8;

/// The functions that call each other before there are 14 saved callers, main's empty one included.
const CHAIN: u32 = 13;

/// Every family with every number of arguments, by name.
pub fn programs() -> Vec<(String, File)> {
    let of_family = |(family, make): Family| {
        let named = move |count: u8| {
            let plural = if count == 1 { "" } else { "s" };
            (format!("{family}, {count} argument{plural}"), make(count))
        };
        (0..=MOST).map(named)
    };
    FAMILIES.into_iter().flat_map(of_family).collect()
}

/// A constant unlike every other one, of which about half are negative and all are large.
fn constant(number: u8) -> Expr {
    int(0x9E37_79B9_u32.wrapping_mul(u32::from(number) + 1) as i32)
}

/// A call of the first function after main with constants from this one on.
fn call_from(first: u8, count: u8) -> Expr {
    call(1, (first..first + count).map(constant).collect())
}

/// A callee of int parameters alone.
fn callee(count: u8, result: Expr) -> Function {
    taking(INT, count, 0, count, ret(result))
}

/// The first parameter less the last, or a constant where there is none.
fn difference(count: u8) -> Expr {
    match count {
        0 => constant(MOST),
        _ => op(SUB, var(0), var(u32::from(count) - 1)),
    }
}

/// The first parameter, or a constant where there is none.
fn first(count: u8) -> Expr {
    match count {
        0 => constant(MOST),
        _ => var(0),
    }
}

/// A main that returns this, before these functions.
fn returning(value: Expr, others: &[Function]) -> File {
    file(&[&[function(INT, 0, ret(value))], others].concat())
}

/// `return f(c1, .., cn)`.
fn constants(count: u8) -> File {
    returning(call_from(0, count), &[callee(count, difference(count))])
}

/// Each argument an operator over two constants, or a bool in every second place.
fn operators(count: u8) -> File {
    let argument = |i: u8| match i {
        _ if i % 2 == 1 => boolean(i % 4 == 1),
        _ => op([ADD, SUB, MUL, XOR][usize::from(i / 2)], constant(i), constant(i + MOST)),
    };
    let bools = (0..count).filter(|i| i % 2 == 1).fold(0, |mask, i| mask | 1 << i);
    let callee = taking(INT, count, bools, count, ret(first(count)));
    returning(call(1, (0..count).map(argument).collect()), &[callee])
}

/// The first and the last argument are calls of the same function; without arguments, the sum of two calls.
fn inside(count: u8) -> File {
    let value = match count {
        0 => op(ADD, call_from(0, 0), call_from(0, 0)),
        _ => {
            let argument = |i: u8| match i {
                _ if i == 0 || i + 1 == count => call_from((i + 1) * MOST, count),
                _ => constant(i),
            };
            call(1, (0..count).map(argument).collect())
        }
    };
    returning(value, &[callee(count, difference(count))])
}

/// A function that calls itself with its own parameters, so that no caller is left for the last call.
fn without_end(count: u8) -> File {
    let again = call(1, (0..u32::from(count)).map(var).collect());
    returning(call_from(0, count), &[callee(count, again)])
}

/// Functions that call one another with the parameters turned by one place, and the last returns with 14 saved callers.
fn to_the_limit(count: u8) -> File {
    let turned = |number: u32| {
        let places = (1..=u32::from(count)).map(|place| var(place % u32::from(count)));
        callee(count, call(number + 1, places.collect()))
    };
    let mut chain: Vec<Function> = (1..CHAIN).map(turned).collect();
    chain.push(callee(count, difference(count)));
    returning(call_from(0, count), &chain)
}

/// A callee whose parameters and decls are 64 variables, of which the last is taken from the first.
fn many_variables(count: u8) -> File {
    let (own, last) = (u32::from(count), 63);
    let body = seq(assign(last, constant(MOST + 1)), ret(op(SUB, first(count), var(last))));
    let body = (own..=last).rev().fold(body, |inner, variable| decl(variable, INT, inner));
    returning(call_from(0, count), &[taking(INT, count, 0, 64, body)])
}
