//! The table of worked files.

mod base;
mod borders;
mod deep;
mod flow;
mod head;
mod judgements;
mod layout;
mod limits;
mod nodes;
mod returns;
mod runs;
mod scopes;
mod sizes;
mod sorts;
mod types;

use crate::case::Group;

/// All groups of worked files.
pub fn groups() -> Vec<Group> {
    vec![
        runs::group(),
        layout::group(),
        judgements::group(),
        limits::lengths(),
        limits::limits(),
        head::question_1(),
        head::question_2(),
        head::question_3(),
        head::question_4(),
        head::question_5(),
        head::question_6(),
        nodes::question_7(),
        sizes::question_8(),
        sorts::question_9(),
        scopes::question_10(),
        scopes::question_11(),
        types::question_12(),
        flow::question_13(),
        returns::question_14(),
        deep::accepted(),
        deep::refused(),
        borders::group(),
        borders::two_defects(),
    ]
}
