//! What Krc's converter meets in a function's body, in the order in which it converts: worked out
//! from the records alone, to give back the record numbers that Krc's own output does not hold.

use std::collections::HashMap;

use crate::program::size_refused;
use crate::tree::*;

/// The forms of number 27.
#[derive(Clone, Copy, Debug, PartialEq, Eq)]
pub enum Stop {
    DeclareCustom,
    CastStatement,
    CastOfNothing,
    SizeOf,
}

/// The block that is being converted: the numbers of the blocks around it, and how many it opened.
struct Block {
    path: Vec<usize>,
    opened: usize,
}

impl Block {
    fn open(&mut self) -> Block {
        self.opened += 1;
        let mut path = self.path.clone();
        path.push(self.opened);
        Block { path, opened: 0 }
    }

    /// The name that the labels of the next block opened here start with.
    fn label_base(&self, prefix: &str) -> String {
        let mut name = prefix.to_string();
        for number in self.path.iter().copied().chain([self.opened + 1]) {
            name += &format!("_{number}");
        }
        name
    }
}

pub struct Walk<'t> {
    tree: &'t Tree<'t>,
    /// Statements, one for each Comment.
    pub statements: Vec<u32>,
    /// And and Or, in the order in which they take their labels.
    pub logic: Vec<u32>,
    /// String literals.
    pub strings: Vec<u32>,
    /// Kind and opening record of each label of a block, by Krc's name for it.
    pub labels: HashMap<String, (u32, u32)>,
    /// Where Krc would stop, if it came there.
    pub stops: Vec<(Stop, u32)>,
}

impl<'t> Walk<'t> {
    /// The walk through the body of function `record`; nothing for a function without one.
    pub fn new(tree: &'t Tree<'t>, record: u32) -> Self {
        let (statements, logic, strings) = (Vec::new(), Vec::new(), Vec::new());
        let mut walk = Self { tree, statements, logic, strings, labels: HashMap::new(), stops: Vec::new() };
        if tree.at(record).detail & 4 != 0 {
            walk.block(tree.at(record).e(), &mut Block { path: Vec::new(), opened: 0 });
        }
        walk
    }

    fn block(&mut self, list: u32, parent: &mut Block) {
        let mut block = parent.open();
        for statement in self.tree.items(list) {
            self.statements.push(statement);
            self.statement(statement, &mut block);
        }
    }

    fn statement(&mut self, record: u32, block: &mut Block) {
        let own = self.tree.at(record);
        match own.kind {
            DECLARE if self.tree.at(own.c()).detail == 8 => self.stops.push((Stop::DeclareCustom, record)),
            INIT => self.expr(own.c()),
            RETURN => self.expr(own.a()),
            // An expression that is no call is typed and never converted.
            CALL_STATEMENT if self.tree.at(own.a()).kind == CALL => {
                if self.tree.is_cast(own.a()) {
                    self.stops.push((Stop::CastStatement, record));
                }
                self.arguments(own.a());
            }
            IF => self.if_statement(record, block),
            WHILE => {
                let mut body = self.open_loop(record, block);
                self.expr(own.a());
                self.block(own.b(), &mut body);
            }
            FOR => {
                let mut body = self.open_loop(record, block);
                self.expr(own.b());
                self.expr(own.c());
                self.block(own.d(), &mut body);
            }
            _ => {}
        }
    }

    fn open_loop(&mut self, record: u32, block: &mut Block) -> Block {
        let base = block.label_base("loop");
        self.labels.insert(format!("{base}_start"), (1, record));
        self.labels.insert(format!("{base}_end"), (2, record));
        self.labels.insert(format!("{base}_start_check"), (3, record));
        block.open()
    }

    fn if_statement(&mut self, record: u32, block: &mut Block) {
        let own = self.tree.at(record);
        self.expr(own.a());
        let base = block.label_base("condition");
        self.labels.insert(format!("{base}_otherwise"), (4, record));
        self.labels.insert(format!("{base}_end"), (5, record));
        self.block(own.b(), block);
        if own.detail & 1 != 0 {
            self.block(own.c(), block);
        }
    }

    fn expr(&mut self, record: u32) {
        let own = self.tree.at(record);
        match own.kind {
            STR => self.strings.push(record),
            SIZE_OF if size_refused(self.tree, own.a()) => self.stops.push((Stop::SizeOf, record)),
            UNARY => self.expr(own.a()),
            BINARY => {
                // Or is operator 0, And operator 1.
                if own.detail < 2 {
                    self.logic.push(record);
                }
                self.expr(own.a());
                self.expr(own.b());
            }
            CALL => {
                let values = self.arguments(record);
                if values == 0 && self.tree.is_cast(record) {
                    self.stops.push((Stop::CastOfNothing, record));
                }
            }
            _ => {}
        }
    }

    /// The value arguments of a call; gives back how many there are.
    fn arguments(&mut self, call: u32) -> usize {
        let items = self.tree.items(self.tree.at(call).c());
        let values: Vec<u32> = items.into_iter().filter(|item| self.tree.at(*item).kind == VALUE).collect();
        for item in &values {
            self.expr(self.tree.at(*item).a());
        }
        values.len()
    }
}
