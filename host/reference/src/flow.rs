//! Question 13: every variable read has a value by then.

use crate::record::Program;
use crate::tree::Forest;
use crate::Refusal;

/// A set of variables, one bit for each.
type Set = u64;

/// What is still to be done, the next on top.
enum Task {
    /// Judge a node from the set at hand.
    Judge(usize),
    /// Add an assigned variable.
    Add(u32),
    /// Add every variable of the function, after a return.
    All,
    /// Take a declared variable away.
    Take(u32),
    /// Keep the set that the first branch left and judge the second from what the if found.
    Second { branch: usize, found: Set },
    /// Keep what both branches left.
    Meet(Set),
    /// Leave a loop with what it found less what its body declares.
    Loop(Set),
}

/// The variables below a number.
fn below(count: u8) -> Set {
    (0..count).fold(0, |set, variable| set | 1 << variable)
}

/// For each node the variables that its subtree declares.
fn declared(program: &Program, forest: &Forest) -> Vec<Set> {
    let mut sets: Vec<Set> = Vec::with_capacity(program.nodes.len());
    for (node, children) in program.nodes.iter().zip(&forest.children) {
        let below = children.iter().fold(0, |all, &child| all | sets[child]);
        let own = if node.kind == 9 { 1 << node.b } else { 0 };
        sets.push(below | own);
    }
    sets
}

/// The judgement of one body.
struct Flow<'a> {
    program: &'a Program,
    forest: &'a Forest,
    declared: &'a [Set],
    /// Every variable of the function.
    all: Set,
    tasks: Vec<Task>,
    lowest: Option<usize>,
}

impl Flow<'_> {
    /// Begins a node with the set it finds and gives the set at hand for the next task.
    fn judge(&mut self, number: usize, found: Set) -> Set {
        let node = &self.program.nodes[number];
        let children = &self.forest.children[number];
        match (node.kind, children.as_slice()) {
            (2, _) => {
                if (found >> node.b) & 1 == 0 && self.lowest.is_none_or(|low| number < low) {
                    self.lowest = Some(number);
                }
            }
            (8, &[value]) => self.tasks.extend([Task::Add(node.b), Task::Judge(value)]),
            (9, &[statement]) => {
                self.tasks.extend([Task::Take(node.b), Task::Judge(statement)]);
                return found & !(1 << node.b);
            }
            (10, &[condition, first, second]) => {
                let then = Task::Second { branch: second, found };
                self.tasks.extend([then, Task::Judge(first), Task::Judge(condition)]);
            }
            (11, &[condition, body]) => {
                let after = Task::Loop(found & !self.declared[body]);
                self.tasks.extend([after, Task::Judge(body), Task::Judge(condition)]);
            }
            (12, &[value]) => self.tasks.extend([Task::All, Task::Judge(value)]),
            // Expressions leave what they find and seq goes left to right, so both go child by child.
            (_, all) => self.tasks.extend(all.iter().rev().map(|&child| Task::Judge(child))),
        }
        found
    }

    /// Judges a whole body from the set of parameters.
    fn run(&mut self, body: usize, parameters: Set) {
        let mut set = parameters;
        self.tasks.push(Task::Judge(body));
        while let Some(task) = self.tasks.pop() {
            set = match task {
                Task::Judge(node) => self.judge(node, set),
                Task::Add(variable) => set | 1 << variable,
                Task::All => self.all,
                Task::Take(variable) => set & !(1 << variable),
                Task::Second { branch, found } => {
                    self.tasks.extend([Task::Meet(set), Task::Judge(branch)]);
                    found
                }
                Task::Meet(first) => first & set,
                Task::Loop(left) => left,
            };
        }
    }
}

/// Question 13 of the whole file: the lowest node that reads a variable without a value.
pub fn question_13(program: &Program, forest: &Forest) -> Result<(), Refusal> {
    let declared = declared(program, forest);
    let declared = &declared[..];
    for (_, function, part) in program.each_part() {
        let all = below(function.vars);
        let mut flow = Flow { program, forest, declared, all, tasks: Vec::new(), lowest: None };
        flow.run(part.end - 1, below(function.params));
        if let Some(node) = flow.lowest {
            return Err((13, program.node_place(node), 0));
        }
    }
    Ok(())
}
