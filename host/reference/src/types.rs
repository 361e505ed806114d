//! Question 12: the types.

use crate::record::{Function, Program};
use crate::tree::Forest;
use crate::Refusal;

/// The types of expressions.
#[derive(Clone, Copy, PartialEq, Debug)]
enum Type {
    Nothing,
    Int,
    Bool,
}

/// The type that a result or decl byte names.
fn named(byte: u8) -> Type {
    match byte {
        0 => Type::Nothing,
        1 => Type::Int,
        _ => Type::Bool,
    }
}

/// The type of a function's parameter.
fn parameter(function: &Function, i: usize) -> Type {
    if (function.mask >> i) & 1 == 1 {
        Type::Bool
    } else {
        Type::Int
    }
}

/// The types of a function's variables, parameters first.
fn variables(program: &Program, number: usize) -> Vec<Type> {
    let function = &program.functions[number];
    let mut types = vec![Type::Nothing; usize::from(function.vars)];
    for (i, slot) in types.iter_mut().take(usize::from(function.params)).enumerate() {
        *slot = parameter(function, i);
    }
    for node in &program.nodes[program.parts[number].clone()] {
        if node.kind == 9 {
            types[node.b as usize] = named(node.a);
        }
    }
    types
}

/// The type that an expression node gives; none for a statement.
fn given(program: &Program, variables: &[Type], node: usize) -> Option<Type> {
    let node = &program.nodes[node];
    match node.kind {
        0 => Some(Type::Int),
        1 | 4 => Some(Type::Bool),
        2 => Some(variables[node.b as usize]),
        3 => Some(if node.a < 10 { Type::Int } else { Type::Bool }),
        5 => Some(named(program.functions[node.b as usize].result)),
        15 => Some(Type::Nothing),
        _ => None,
    }
}

/// The type that a node wants of its child at a position; none if any will do.
fn wanted(
    program: &Program,
    function: &Function,
    variables: &[Type],
    node: usize,
    position: usize,
) -> Option<Type> {
    let node = &program.nodes[node];
    match node.kind {
        3 => Some(Type::Int),
        4 | 13 => Some(Type::Bool),
        5 => Some(parameter(&program.functions[node.b as usize], position)),
        8 => Some(variables[node.b as usize]),
        10 | 11 if position == 0 => Some(Type::Bool),
        12 => Some(named(function.result)),
        _ => None,
    }
}

/// Question 12 of the whole file.
pub fn question_12(program: &Program, forest: &Forest) -> Result<(), Refusal> {
    for (number, function, part) in program.each_part() {
        let variables = variables(program, number);
        for node in part {
            let mut children = forest.children[node].iter().enumerate();
            let agrees = children.all(|(position, &child)| {
                match wanted(program, function, &variables, node, position) {
                    Some(want) => given(program, &variables, child) == Some(want),
                    None => true,
                }
            });
            if !agrees {
                return Err((12, program.node_place(node), 0));
            }
        }
    }
    Ok(())
}
