//! The file that most worked files are spoilt from.

use generators::tree::*;
use generators::File;

/// Three functions, seven nodes: main `return f1(1)` (nodes 0 to 2, places 4 to 6), f1 of an int
/// `return x0` (nodes 3 and 4, places 7 and 8), f2 of nothing `return true` (nodes 5 and 6,
/// places 9 and 10).
pub fn three() -> File {
    file(&[
        function(INT, 0, ret(call(1, vec![int(1)]))),
        taking(INT, 1, 0, 1, ret(var(0))),
        function(BOOL, 0, ret(boolean(true))),
    ])
}

/// A file of main and one more function.
pub fn two(main: Stmt, other: Function) -> File {
    file(&[function(INT, 0, main), other])
}

/// A file whose main puts a statement before `return 0`.
pub fn before_return(vars: u8, statement: Stmt) -> File {
    main(vars, seq(statement, ret(int(0))))
}

/// A function that returns nothing.
pub fn procedure() -> Function {
    function(NOTHING, 0, ret(nothing()))
}
