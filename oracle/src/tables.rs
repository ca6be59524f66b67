//! From Krc's flat bodies to the six tables of document 01, byte for byte.

use std::collections::HashMap;

use crate::converter::ir::structs::{Function, Instr, Operand, Program, VarId};
use crate::program::{Build, encode};
use crate::tree::*;
use crate::walk::Walk;

/// The six tables, cut to whole entries.
#[derive(Clone, Debug, Default, PartialEq, Eq)]
pub struct Tables {
    pub functions: Vec<u8>,
    pub instructions: Vec<u8>,
    pub variables: Vec<u8>,
    pub labels: Vec<u8>,
    pub strings: Vec<u8>,
    pub floats: Vec<u8>,
}

/// Bytes of an entry: functions, instructions, variables, labels, strings, floats.
pub const ENTRY_BYTES: [usize; 6] = [32, 32, 4, 8, 8, 16];

impl Tables {
    /// The tables in the order in which their counts are printed.
    pub fn in_order(&self) -> [&Vec<u8>; 6] {
        [&self.functions, &self.instructions, &self.variables, &self.labels, &self.strings, &self.floats]
    }

    /// The six counts, in that order.
    pub fn counts(&self) -> [u32; 6] {
        let tables = self.in_order();
        std::array::from_fn(|i| (tables[i].len() / ENTRY_BYTES[i]) as u32)
    }
}

fn put(table: &mut Vec<u8>, words: &[u32]) {
    for word in words {
        table.extend_from_slice(&word.to_le_bytes());
    }
}

/// An instruction before it is bytes: what a kind does not use stays zero.
#[derive(Default)]
struct Entry {
    kind: u8,
    operator: u8,
    tags: [u8; 2],
    target: u32,
    operands: [u64; 2],
    record: u32,
}

impl Entry {
    fn new(kind: u8) -> Self {
        Self { kind, ..Self::default() }
    }

    fn target(self, target: usize) -> Self {
        Self { target: target as u32, ..self }
    }

    fn operator(self, operator: u8) -> Self {
        Self { operator, ..self }
    }

    fn operand(mut self, at: usize, operand: &Operand) -> Result<Self, String> {
        (self.tags[at], self.operands[at]) = match operand {
            Operand::Var(var) => (1, var.id as u64),
            Operand::Int(value, short, unsigned) => {
                (2 + u8::from(*short) + 2 * u8::from(*unsigned), *value as u64)
            }
            Operand::Float(id) => (6, *id as u64),
            Operand::Bool(value) => (7, u64::from(*value)),
            Operand::DataAddress(id) => (8, *id as u64),
            Operand::Null => (9, 0),
            Operand::Address(_) => return Err("the converter made an Operand::Address".to_string()),
        };
        Ok(self)
    }

    fn write(&self, table: &mut Vec<u8>) {
        table.extend_from_slice(&[self.kind, self.operator, self.tags[0], self.tags[1]]);
        put(table, &[self.target]);
        for operand in self.operands {
            table.extend_from_slice(&operand.to_le_bytes());
        }
        put(table, &[self.record, 0]);
    }
}

struct Writer<'b> {
    build: &'b Build<'b>,
    symbols: HashMap<String, u32>,
    tables: Tables,
}

/// The tables of Krc's program `ir` over the tree of `build`.
pub fn tables(build: &Build, ir: &Program) -> Result<Tables, String> {
    let records: Vec<u32> = build.tree.of_kind(FUNCTION).collect();
    let symbols = records.iter().map(|record| (build.symbol(*record), *record)).collect();
    let mut writer = Writer { build, symbols, tables: Tables::default() };
    if records.len() != ir.funcs.len() {
        return Err(format!("{} functions, {} converted", records.len(), ir.funcs.len()));
    }
    let mut strings = Vec::new();
    for (record, func) in records.iter().zip(&ir.funcs) {
        let walk = Walk::new(build.tree, *record);
        writer.function(*record, func, &walk)?;
        strings.extend(walk.strings);
    }
    writer.strings(&strings, &ir.strings)?;
    for (value, short) in &ir.floats {
        writer.tables.floats.extend_from_slice(&value.to_bits().to_le_bytes());
        put(&mut writer.tables.floats, &[u32::from(*short), 0]);
    }
    Ok(writer.tables)
}

impl Writer<'_> {
    fn function(&mut self, record: u32, func: &Function, walk: &Walk) -> Result<(), String> {
        let before = self.tables.counts();
        for ty in &func.vars {
            let ty = self.build.type_record(ty).ok_or_else(|| format!("no record for {ty:?}"))?;
            put(&mut self.tables.variables, &[ty]);
        }
        self.labels(func, walk)?;
        let mut statements = walk.statements.iter();
        for instr in func.body.iter().flatten() {
            self.instruction(instr, &mut statements)?;
        }
        if statements.next().is_some() {
            return Err(format!("function {record} has a statement without Comment"));
        }
        let after = self.tables.counts();
        let mut entry = vec![record, u32::from(func.body.is_some())];
        for table in 1..4 {
            entry.extend([before[table], after[table] - before[table]]);
        }
        put(&mut self.tables.functions, &entry);
        Ok(())
    }

    /// Each label's kind and opening record. The two of an And or Or are named after the number of
    /// the first; they come in the order of conversion.
    fn labels(&mut self, func: &Function, walk: &Walk) -> Result<(), String> {
        let mut logic = walk.logic.iter();
        let mut open = None;
        for (number, name) in func.labels.iter().enumerate() {
            let entry = if *name == format!("logic_{number}_rhs") {
                open = logic.next();
                open.map(|record| (6, *record))
            } else if number > 0 && *name == format!("logic_{}_end", number - 1) {
                open.take().map(|record| (7, *record))
            } else {
                walk.labels.get(name).copied()
            };
            let (kind, record) = entry.ok_or_else(|| format!("label {number} named {name}"))?;
            put(&mut self.tables.labels, &[kind, record]);
        }
        match logic.next() {
            Some(record) => Err(format!("And or Or {record} has no labels")),
            None => Ok(()),
        }
    }

    fn instruction(&mut self, instr: &Instr, statements: &mut std::slice::Iter<u32>) -> Result<(), String> {
        let to = |kind: u8, dest: &VarId| Entry::new(kind).target(dest.id);
        let entry = match instr {
            Instr::Copy { dest, src } => to(1, dest).operand(0, src)?,
            Instr::Unary { dest, op, src } => to(2, dest).operator(*op as u8).operand(0, src)?,
            Instr::Binary { dest, op, left, right } => {
                to(3, dest).operator(*op as u8).operand(0, left)?.operand(1, right)?
            }
            Instr::Cast { dest, src } => to(4, dest).operand(0, src)?,
            Instr::Zero(dest) => to(5, dest),
            Instr::Call { dest, symbol, args } => {
                for arg in args {
                    Entry::new(6).operand(0, arg)?.write(&mut self.tables.instructions);
                }
                let record = self.symbols.get(symbol).ok_or("a call of no function")?;
                let dest = dest.as_ref().map_or(NONE as usize, |dest| dest.id);
                Entry { record: *record, ..Entry::new(7).target(dest) }
            }
            Instr::Label(label) => Entry::new(8).target(label.0),
            Instr::Jump(label) => Entry::new(9).target(label.0),
            Instr::JumpIfNot { cond, target } => Entry::new(10).target(target.0).operand(0, cond)?,
            Instr::Return(value) => Entry::new(11).operand(0, value)?,
            Instr::Comment(_) => {
                let record = statements.next().ok_or("a Comment without statement")?;
                Entry { record: *record, ..Entry::new(12) }
            }
        };
        entry.write(&mut self.tables.instructions);
        Ok(())
    }

    /// Each string's first use, in the order of conversion.
    fn strings(&mut self, uses: &[u32], found: &[String]) -> Result<(), String> {
        let tree = self.build.tree;
        let mut firsts: Vec<u32> = Vec::new();
        for record in uses {
            if firsts.iter().all(|first| tree.own_text(*first) != tree.own_text(*record)) {
                firsts.push(*record);
            }
        }
        let texts: Vec<String> = firsts.iter().map(|first| encode(tree.own_text(*first))).collect();
        if texts != found {
            return Err("the strings are not those of the tree, in order of use".to_string());
        }
        for first in firsts {
            put(&mut self.tables.strings, &[tree.at(first).a(), tree.at(first).b()]);
        }
        Ok(())
    }
}
