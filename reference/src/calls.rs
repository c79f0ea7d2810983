//! The reference's calls, as scripts are replayed over them.

use crate::coarse::begin_coarse;
use crate::file::{layer, program_line, read, write};
use crate::grid::begin;
use crate::judge::judge;
use crate::local::local_test;
use crate::machine::{carve, crossing, finish, open, points, take};
use crate::practice::practice;
use crate::replay::Calls;
use crate::serve::serve;

pub const REFERENCE: Calls = Calls {
    begin,
    begin_coarse,
    carve,
    take,
    open,
    finish,
    serve,
    judge,
    crossing,
    points,
    local_test,
    layer,
    read,
    write,
    practice,
    program_line,
};
