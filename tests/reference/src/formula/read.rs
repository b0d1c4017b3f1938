//! Reads a formula file from the front against an accepted log.

use super::*;
use crate::bytes::{value, Walk};
use crate::log::Log;
use crate::refusal::{Refusal, FOREIGN, SURPLUS, TWICE, VALUE};

struct Reader<'a> {
    walk: Walk<'a>,
    /// How many fields the log has.
    fields: usize,
    /// How many TIED commands there were, repeats included.
    tied: usize,
    formula: Formula,
}

pub fn read(bytes: &[u8], log: &Log) -> Result<Formula, Refusal> {
    let mut reader = Reader {
        walk: Walk::new(crate::refusal::FORMULA, bytes),
        fields: log.rising.len(),
        tied: 0,
        formula: Formula::default(),
    };
    while reader.command()? {}
    reader.walk.nothing_left()?;
    checks::check(&reader.formula)?;
    Ok(reader.formula)
}

impl Reader<'_> {
    /// Reads one command; false behind END.
    fn command(&mut self) -> Result<bool, Refusal> {
        match self.walk.command()? {
            0x00 => {
                self.walk
                    .require(!self.formula.states.is_empty(), FOREIGN)?;
                return Ok(false);
            }
            0x10 => self.state()?,
            0x11 => self.step()?,
            0x12 => self.test(6)?,
            0x13 => self.test(3)?,
            0x14 => self.bind()?,
            0x15 => self.guard()?,
            0x16 => self.tie()?,
            0x17 => self.gather()?,
            _ => self.walk.require(false, FOREIGN)?,
        }
        Ok(true)
    }

    fn tie(&mut self) -> Result<(), Refusal> {
        self.walk.require(self.formula.states.is_empty(), FOREIGN)?;
        self.walk.require(self.tied < MOST_TIED, SURPLUS)?;
        let operand = self.walk.operands(1)?[0];
        let variable = self.variable(operand)?;
        self.formula.tied[variable] = true;
        self.tied += 1;
        Ok(())
    }

    fn state(&mut self) -> Result<(), Refusal> {
        self.walk
            .require(self.formula.states.len() < MOST_STATES, SURPLUS)?;
        let operand = self.walk.operands(1)?[0];
        self.walk.require(operand <= 3, VALUE)?;
        let kinds = [Kind::Ordinary, Kind::Committed, Kind::Accept, Kind::Reject];
        self.formula.states.push(State {
            kind: kinds[usize::from(operand)],
            steps: Vec::new(),
        });
        Ok(())
    }

    fn step(&mut self) -> Result<(), Refusal> {
        let place = self.walk.place();
        let above = self.formula.states.last_mut();
        let allowed = above.as_ref().is_some_and(|state| !state.kind.ends());
        self.walk.require(allowed, FOREIGN)?;
        let Some(state) = above else { return Ok(()) };
        self.walk.require(state.steps.len() < MOST_STEPS, SURPLUS)?;
        let target = self.walk.operands(1)?[0];
        state.steps.push(Step {
            place,
            target,
            tests: Vec::new(),
            binds: Vec::new(),
            gathers: Vec::new(),
            guard: None,
        });
        Ok(())
    }

    /// The last step of the last state: the only one that can take parts.
    fn open(&mut self) -> Option<&mut Step> {
        self.formula.states.last_mut()?.steps.last_mut()
    }

    /// Is there a step that takes one more TEST, TESTV, BIND or GATHER?
    fn takes_part(&mut self) -> Result<(), Refusal> {
        let open = self.open();
        let ready = open.as_ref().is_some_and(|step| step.guard.is_none());
        let parts = open.map_or(0, |step| {
            step.tests.len() + step.binds.len() + step.gathers.len()
        });
        self.walk.require(ready, FOREIGN)?;
        self.walk.require(parts < MOST_PARTS, SURPLUS)
    }

    /// TEST has six bytes of operands, TESTV three.
    fn test(&mut self, length: usize) -> Result<(), Refusal> {
        let place = self.walk.place();
        self.takes_part()?;
        let raw = self.walk.operands(length)?;
        let field = self.field(raw[0])?;
        let operator = self.operator(raw[1])?;
        let right = if length == 6 {
            Right::Value(value(&raw[2..]))
        } else {
            Right::Variable(self.variable(raw[2])?)
        };
        let test = Test {
            place,
            field,
            operator,
            right,
        };
        if let Some(step) = self.open() {
            step.tests.push(test);
        }
        Ok(())
    }

    fn bind(&mut self) -> Result<(), Refusal> {
        self.takes_part()?;
        let raw = self.walk.operands(2)?;
        let field = self.field(raw[0])?;
        let variable = self.variable(raw[1])?;
        let bind = Bind { field, variable };
        if let Some(step) = self.open() {
            step.binds.push(bind);
        }
        Ok(())
    }

    /// Whether the step gathers the variable already is asked before whether
    /// field and variable exist.
    fn gather(&mut self) -> Result<(), Refusal> {
        self.takes_part()?;
        let raw = self.walk.operands(2)?;
        let before = self.open().map(|step| step.gathers.clone());
        let mut before = before.unwrap_or_default().into_iter();
        let again = before.any(|gather| gather.list + usize::from(FIRST_LIST) == raw[1].into());
        self.walk.require(!again, TWICE)?;
        let field = self.field(raw[0])?;
        let list = self.list(raw[1])?;
        if let Some(step) = self.open() {
            step.gathers.push(Gather { field, list });
        }
        Ok(())
    }

    fn guard(&mut self) -> Result<(), Refusal> {
        let open = self.open();
        let present = open.is_some();
        let fresh = open.is_some_and(|step| step.guard.is_none());
        self.walk.require(present, FOREIGN)?;
        self.walk.require(fresh, SURPLUS)?;
        let guard = self.expression(1, &mut 0)?;
        if let Some(step) = self.open() {
            step.guard = Some(guard);
        }
        Ok(())
    }

    /// Reads one expression standing at the given depth; `read` counts the
    /// commands of the whole guard.
    fn expression(&mut self, depth: usize, read: &mut usize) -> Result<Expression, Refusal> {
        let code = self.walk.command()?;
        let place = self.walk.place();
        self.walk.require((0x20..=0x2E).contains(&code), FOREIGN)?;
        *read += 1;
        let fits = *read <= MOST_COMMANDS && depth <= MOST_DEPTH;
        self.walk.require(fits, SURPLUS)?;
        let mut operand = || self.expression(depth + 1, read).map(Box::new);
        Ok(match code {
            0x20 => Expression::Const(value(self.walk.operands(4)?)),
            0x21 => {
                let operand = self.walk.operands(1)?[0];
                let variable = self.variable(operand)?;
                Expression::Var { place, variable }
            }
            0x22 => {
                let state = usize::from(self.walk.operands(1)?[0]);
                Expression::Count { place, state }
            }
            0x2C..=0x2E => {
                let operand = self.walk.operands(1)?[0];
                let list = self.list(operand)?;
                match code {
                    0x2C => Expression::Sum(list),
                    0x2D => Expression::Length(list),
                    _ => Expression::Different(list),
                }
            }
            0x28 => Expression::Not(operand()?),
            0x2B => Expression::If(operand()?, operand()?, operand()?),
            _ => Expression::Two(pair(code), operand()?, operand()?),
        })
    }

    fn field(&self, operand: u8) -> Result<usize, Refusal> {
        self.walk
            .require(usize::from(operand) < self.fields, VALUE)?;
        Ok(usize::from(operand))
    }

    fn variable(&self, operand: u8) -> Result<usize, Refusal> {
        self.walk.require(usize::from(operand) < VARIABLES, VALUE)?;
        Ok(usize::from(operand))
    }

    /// The number of a list, which a variable from 8 to 11 names.
    fn list(&self, operand: u8) -> Result<usize, Refusal> {
        let list = usize::from(operand.wrapping_sub(FIRST_LIST));
        self.walk.require(list < LISTS, VALUE)?;
        Ok(list)
    }

    fn operator(&self, operand: u8) -> Result<Operator, Refusal> {
        self.walk.require(operand <= 5, VALUE)?;
        Ok(match operand {
            0 => Operator::Equal,
            1 => Operator::Unequal,
            2 => Operator::Less,
            3 => Operator::Greater,
            4 => Operator::AtMost,
            _ => Operator::AtLeast,
        })
    }
}

fn pair(code: u8) -> Pair {
    match code {
        0x23 => Pair::Add,
        0x24 => Pair::Sub,
        0x25 => Pair::Less,
        0x26 => Pair::AtMost,
        0x27 => Pair::Equal,
        0x29 => Pair::And,
        _ => Pair::Or,
    }
}
