//! The formula: states, their steps, and guards as trees.

mod checks;
mod read;

pub use read::read;

pub const MOST_STATES: usize = 16;
pub const MOST_STEPS: usize = 8;
pub const MOST_PARTS: usize = 8;
pub const MOST_TIED: usize = 8;
pub const VARIABLES: usize = 8;
/// The variables 8 to 11 are lists, numbered from 0 here.
pub const LISTS: usize = 4;
pub const FIRST_LIST: u8 = 8;
pub const MOST_COMMANDS: usize = 31;
pub const MOST_DEPTH: usize = 8;

#[derive(Clone, Debug, Default)]
pub struct Formula {
    /// One entry a variable: is it tied?
    pub tied: [bool; VARIABLES],
    pub states: Vec<State>,
}

#[derive(Clone, Copy, Debug, PartialEq, Eq)]
pub enum Kind {
    Ordinary,
    Committed,
    Accept,
    Reject,
}

impl Kind {
    pub fn ends(self) -> bool {
        matches!(self, Kind::Accept | Kind::Reject)
    }
}

#[derive(Clone, Debug)]
pub struct State {
    pub kind: Kind,
    pub steps: Vec<Step>,
}

#[derive(Clone, Debug)]
pub struct Step {
    pub place: usize,
    pub target: u8,
    pub tests: Vec<Test>,
    pub binds: Vec<Bind>,
    pub gathers: Vec<Gather>,
    pub guard: Option<Expression>,
}

#[derive(Clone, Debug)]
pub struct Test {
    pub place: usize,
    pub field: usize,
    pub operator: Operator,
    pub right: Right,
}

/// What a field is compared with.
#[derive(Clone, Copy, Debug)]
pub enum Right {
    Value(u32),
    Variable(usize),
}

#[derive(Clone, Copy, Debug)]
pub struct Bind {
    pub field: usize,
    pub variable: usize,
}

#[derive(Clone, Copy, Debug)]
pub struct Gather {
    pub field: usize,
    pub list: usize,
}

#[derive(Clone, Copy, Debug, PartialEq, Eq)]
pub enum Operator {
    Equal,
    Unequal,
    Less,
    Greater,
    AtMost,
    AtLeast,
}

impl Operator {
    pub fn holds(self, left: u32, right: u32) -> bool {
        match self {
            Operator::Equal => left == right,
            Operator::Unequal => left != right,
            Operator::Less => left < right,
            Operator::Greater => left > right,
            Operator::AtMost => left <= right,
            Operator::AtLeast => left >= right,
        }
    }
}

#[derive(Clone, Debug)]
pub enum Expression {
    Const(u32),
    Var { place: usize, variable: usize },
    Count { place: usize, state: usize },
    Sum(usize),
    Length(usize),
    Different(usize),
    Not(Box<Expression>),
    Two(Pair, Box<Expression>, Box<Expression>),
    If(Box<Expression>, Box<Expression>, Box<Expression>),
}

/// The commands with two operands.
#[derive(Clone, Copy, Debug, PartialEq, Eq)]
pub enum Pair {
    Add,
    Sub,
    Less,
    AtMost,
    Equal,
    And,
    Or,
}

impl Expression {
    /// Visits every part in file order.
    pub fn visit(&self, see: &mut dyn FnMut(&Expression)) {
        see(self);
        match self {
            Expression::Not(inner) => inner.visit(see),
            Expression::Two(_, first, second) => {
                first.visit(see);
                second.visit(see);
            }
            Expression::If(condition, first, second) => {
                condition.visit(see);
                first.visit(see);
                second.visit(see);
            }
            _ => {}
        }
    }
}
