//! Questions 1 to 6.

use super::base::three;
use crate::case::Group;
use generators::record::{FunctionRecord, NodeRecord};
use generators::File;

/// The bytes of the base file cut or filled to a length.
fn resized(length: usize) -> Vec<u8> {
    let mut bytes = three().bytes();
    bytes.resize(length, 0);
    bytes
}

/// Question 1: the length.
pub fn question_1() -> Group {
    let mut g = Group::new("question 1");
    for length in [0, 12, 24, 35, 37, 131, 133] {
        g.bytes(format!("length {length}"), resized(length), Some((1, 0, 0)));
    }
    let mut both = resized(131);
    both[0] = b'Q';
    g.bytes("and question 2", both, Some((1, 0, 0)));
    g
}

/// Question 2: the header.
pub fn question_2() -> Group {
    let mut g = Group::new("question 2");
    for at in 0..2 {
        g.refused(format!("mark {at}"), three().with(|f| f.header.mark[at] ^= 0x20), 2, 0);
    }
    editions(&mut g);
    for count in [0, 129, 0x0103, 0x8003, 0xFFFF] {
        g.refused(format!("F {count}"), three().with(|f| f.header.functions = count), 2, 0);
    }
    for count in [0, 4097, 0x0001_0007, 0x0100_0007, 0x8000_0007, u32::MAX] {
        g.refused(format!("N {count}"), three().with(|f| f.header.nodes = count), 2, 0);
    }
    let both = three().with(|f| {
        f.header.mark = *b"RP";
        f.functions.pop();
    });
    g.refused("and question 3", both, 2, 0);
    g
}

/// The bytes 8 to 11: an edition and three zeros.
fn editions(g: &mut Group) {
    let of = |edition: u8| three().with(|f| f.header.edition = edition);
    for edition in [0, 1] {
        g.accepted(format!("edition {edition}"), of(edition));
        for (at, wrong) in [(0, 1), (0, 0x80), (1, 1), (1, 0x80), (2, 1), (2, 0x80)] {
            let spoilt = of(edition).with(|f| f.header.zeros[at] = wrong);
            g.refused(format!("edition {edition}, zero {at} is {wrong}"), spoilt, 2, 0);
        }
    }
    for edition in [2, 3, 127, 128, 255] {
        g.refused(format!("edition {edition}"), of(edition), 2, 0);
    }
    let both = of(2).with(|f| f.nodes.truncate(6));
    g.refused("edition 2 and question 3", both, 2, 0);
}

/// Question 3: the number of records.
pub fn question_3() -> Group {
    let mut g = Group::new("question 3");
    let more = |f: &mut File| f.nodes.push(NodeRecord::new(6, 0, 0, 1));
    g.refused("a node more", three().with(more), 3, 0);
    g.refused("a node less", three().with(|f| f.nodes.truncate(6)), 3, 0);
    g.refused("a function less", three().with(|f| f.functions.truncate(2)), 3, 0);
    g.refused("F one more", three().with(|f| f.header.functions = 4), 3, 0);
    g.refused("N one less", three().with(|f| f.header.nodes = 6), 3, 0);
    g.refused(
        "F 128, N 4,096",
        three().with(|f| (f.header.functions, f.header.nodes) = (128, 4096)),
        3,
        0,
    );
    let both = three().with(more).with(|f| f.functions[0].mark = *b"ND");
    g.refused("and question 4", both, 3, 0);
    let swapped = three().with(|f| (f.header.functions, f.header.nodes) = (2, 8));
    g.refused("F and N of the same sum pass it and fail 4", swapped.with(spoil_first), 4, 1);
    g
}

/// Spoils the first function's mark.
fn spoil_first(file: &mut File) {
    file.functions[0].mark = *b"fN";
}

/// A named way to spoil a function record.
type Defect = (&'static str, fn(&mut FunctionRecord));

/// The ways to spoil a function record.
fn function_defects() -> Vec<Defect> {
    vec![
        ("mark 0", |f| f.mark[0] = b'f'),
        ("mark 1", |f| f.mark[1] = b'D'),
        ("result 3", |f| f.result = 3),
        ("result 255", |f| f.result = 255),
        ("p 9", |f| (f.params, f.vars) = (9, 9)),
        ("p 255", |f| (f.params, f.vars) = (255, 255)),
        ("v below p", |f| (f.params, f.vars) = (2, 1)),
        ("v 65", |f| f.vars = 65),
        ("v 255", |f| f.vars = 255),
        ("mask at p", |f| f.mask = 1 << f.params),
        ("mask at 7", |f| f.mask = 0x80),
        ("zero 0", |f| f.zeros[0] = 1),
        ("zero 1", |f| f.zeros[1] = 0x80),
        ("count 0", |f| f.count = 0),
    ]
}

/// Question 4: the function records.
pub fn question_4() -> Group {
    let mut g = Group::new("question 4");
    for (name, defect) in function_defects() {
        for function in 0..3 {
            let spoilt = three().with(|f| defect(&mut f.functions[function]));
            g.refused(format!("{name} of f{function}"), spoilt, 4, 1 + function as u32);
        }
    }
    let both = three().with(|f| {
        f.functions[2].result = 3;
        f.functions[1].count = 9;
    });
    g.refused("and question 5", both, 4, 3);
    let lower = three().with(|f| {
        f.functions[2].vars = 65;
        f.functions[1].zeros[0] = 1;
    });
    g.refused("the lower of two", lower, 4, 2);
    g
}

/// Question 5: the part counts.
pub fn question_5() -> Group {
    let mut g = Group::new("question 5");
    let counts = |counts: [u32; 3]| {
        three().with(|f| f.functions.iter_mut().zip(counts).for_each(|(f, count)| f.count = count))
    };
    let wrong: [[u32; 3]; 9] = [
        [4, 2, 2],
        [3, 1, 2],
        [3, 2, 3],
        [u32::MAX, 6, 2],
        [3, u32::MAX - 2, 7],
        [1 << 31, 1 << 31, 7],
        [3, 2, u32::MAX],
        [u32::MAX; 3],
        [1, 1, 1],
    ];
    for sizes in wrong {
        g.refused(format!("counts {sizes:?}"), counts(sizes), 5, 0);
    }
    g.refused("and question 6", counts([4, 2, 2]).with(|f| f.functions[0].result = 2), 5, 0);
    g
}

/// Question 6: main.
pub fn question_6() -> Group {
    let mut g = Group::new("question 6");
    g.refused("result nothing", three().with(|f| f.functions[0].result = 0), 6, 1);
    g.refused("result bool", three().with(|f| f.functions[0].result = 2), 6, 1);
    for params in [1, 8] {
        let spoilt =
            three().with(|f| (f.functions[0].params, f.functions[0].vars) = (params, params));
        g.refused(format!("p {params}"), spoilt, 6, 1);
    }
    let both = three().with(|f| {
        f.functions[0].result = 2;
        f.nodes[0].mark = *b"NN";
    });
    g.refused("and question 7", both, 6, 1);
    g
}
