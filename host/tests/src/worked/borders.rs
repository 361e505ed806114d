//! Files of as many nodes as the working arrays of a size hold, and some fewer and more; the reference says what each is answered.

use crate::case::Group;
use generators::rng::Rng;
use generators::{aimed, shapes};

/// The most nodes of a tiny, a short and a middling file.
const BORDERS: [usize; 3] = [32, 256, 1024];

/// The fewest nodes of the shape of many decls.
const DECLS: usize = 128;

/// Every regular shape around each border, whole and with a defect aimed at each of questions 7 to 14.
pub fn group() -> Group {
    let mut g = Group::new("sizes of working arrays");
    let mut rng = Rng::new(19);
    for (name, shape) in shapes::ALL {
        for nodes in BORDERS.iter().flat_map(|n| n - 3..n + 6) {
            if nodes < DECLS && name == "64 decls, many uses" {
                continue;
            }
            let file = shape(nodes);
            let own = format!("{name}, {} nodes", file.nodes.len());
            g.accepted(own.clone(), file.clone());
            for question in 7..15 {
                let spoilt = aimed::spoil(question, &file, &mut rng);
                let expected = reference::check(&spoilt);
                g.bytes(format!("{own}, spoilt for {question}"), spoilt, expected);
            }
        }
    }
    g
}

/// Every regular shape with two defects, for each two of questions 7 to 14 in either order.
pub fn two_defects() -> Group {
    let mut g = Group::new("two defects, by questions");
    let mut rng = Rng::new(51);
    for (name, shape) in shapes::ALL {
        let file = shape(DECLS);
        for first in 7..15 {
            for second in 7..15 {
                let spoilt = aimed::spoil_for([first, second], &file, &mut rng);
                let expected = reference::check(&spoilt);
                g.bytes(format!("{name}, spoilt for {first} and {second}"), spoilt, expected);
            }
        }
    }
    g
}
