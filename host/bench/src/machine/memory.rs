//! The memory check alone: its time less the file check's, by nodes, frames and callers.

use super::{cells, held, nodes, Sides};
use crate::grouped;
use generators::depth::{deep, long_loop, nested_whiles, waiting, TURNS};
use generators::shapes::calls;
use generators::File;
use reference::image::encode_into;
use reference::machine::program::{Node, Program, Stmt};
use reference::machine::{Activation, Control, Frame, Ref, Running, State, Value};

/// Prints the rows by what grows.
pub fn print(sides: &Sides) {
    let name = sides.judged.name;
    println!("\n| memory | nodes | frames | callers | {name} ns, file check | {name} ns, memory check alone | plain ns, alone | ratio |");
    println!("|---|---:|---:|---:|---:|---:|---:|---:|");
    let sizes = [512, 1024, 2048, 4096].map(long_loop);
    rows(sides, "long loop, its first turn", sizes.map(|file| at(sides, file, 3)));
    let frames = [2, 64, 128, 256, 500];
    rows(sides, "assigns that wait", frames.map(|frames| at(sides, waiting(4096), frames)));
    let frames = [2, 128, 512];
    rows(sides, "arguments that wait", frames.map(|frames| at(sides, calls(4096), frames)));
    let files = [2, 4, 8, 13].map(|callers| deep(callers, 0, TURNS[0].1()));
    rows(sides, "recursion", files.map(|file| after(sides, file, 10_000)));
    let nested = [32, 128, 500].map(|whiles| {
        let file = nested_whiles(whiles, 4088 - 2 * whiles);
        at(sides, file, whiles + 1)
    });
    rows(sides, "whiles that wait in each other", nested);
    let again = frames_of_one_while([32, 128, 512]);
    rows(sides, "the if of one long while that waits again and again", again);
}

/// A file with the memory after so many steps.
fn after(sides: &Sides, file: File, steps: u64) -> (File, Vec<u32>) {
    let memory = sides.after(&file.bytes(), steps);
    (file, memory)
}

/// A file with the memory of its first state of so many frames.
fn at(sides: &Sides, file: File, frames: usize) -> (File, Vec<u32>) {
    let memory = sides.at_frames(&file.bytes(), frames);
    (file, memory)
}

/// A long loop with memories in which the if of its while waits so many times.
fn frames_of_one_while(frames: [usize; 3]) -> [(File, Vec<u32>); 3] {
    frames.map(|frames| {
        let file = long_loop(4096);
        let memory = repeated(&file, frames);
        (file, memory)
    })
}

/// The image of a state that no run reaches: the if of main's while waits so many times over main's body.
fn repeated(file: &File, frames: usize) -> Vec<u32> {
    let Ok(program) = Program::new(&file.bytes()) else { panic!("the file is refused") };
    let main = &program.functions[0];
    let is_while = |node: &Node| matches!(node, Node::Stmt(Stmt::While(..)));
    let Some(at) = main.nodes.iter().position(is_while) else { panic!("main has no while") };
    let vars = vec![Value::Int(1); main.vars.len()];
    let mut all = vec![Frame::Stmt(main.body)];
    all.resize(frames, Frame::Stmt(Ref::IfOf(at as u32)));
    let activations = vec![Activation { function: 0, vars, frames: all }];
    let state = State::Running(Running { control: Control::Stmt(Ref::Nop), activations });
    let mut memory = vec![0; reference::image::WORDS];
    encode_into(&state, &mut memory);
    memory
}

/// A row for each memory: the check of its file, and the memory check less that.
fn rows<const N: usize>(sides: &Sides, label: &str, from: [(File, Vec<u32>); N]) {
    for ((file, memory), [check, both]) in from.iter().zip(sides.checks(&from)) {
        let (frames, callers) = held(memory);
        let alone = [0, 1].map(|i| (both[i] - check[i]).max(0.0));
        let (nodes, check, alone) = (nodes(file), grouped(check[0]), cells(alone));
        println!("| {label} | {nodes} | {frames} | {callers} | {check} | {alone}");
    }
}
