//! Questions that only Krc's own converter module can ask: a type or a call over a scope made of a
//! function's parameters. This file is built as a child of that module, and of the amended one.

use crate::parser::postparser::structs::{Expr, ExprKind, Function, Program, Type};
use crate::yardstick::{Called, Krc};

use super::convert_error::{ConvertError, ConvertErrorKind};
use super::converter::Converter;
use super::expressions::Callee;
use super::ir::structs::{self as ir, VarId};
use super::open_types;
use super::scope::{BlockKind, Scope, Variable};

pub static KRC: Krc = Krc {
    convert,
    int_value: open_types::fold_int,
    float_value: open_types::fold_float,
    fits: open_types::fit,
    range_error: open_types::out_of_range,
    get_type,
    resolve_call,
    check_main,
};

fn convert(program: &Program, needs_main: bool) -> Result<ir::Program, ConvertError> {
    Converter::new(program, needs_main).convert()
}

/// The scope of `func`'s parameters, as its conversion would start.
fn parameters(func: &Function) -> Result<Scope<'_>, ConvertError> {
    let mut scope = Scope::new(BlockKind::Function(func), None);
    for (number, param) in func.params.iter().enumerate() {
        if scope.variables.contains_key(&param.name) {
            let kind = ConvertErrorKind::AlreadyDeclared(param.name.clone());
            return Err(ConvertError::new(kind, param.span));
        }
        let var_id = VarId::new(number, param.ty.clone());
        let variable = Variable { ty: param.ty.clone(), constant: false, var_id };
        scope.variables.insert(param.name.clone(), variable);
    }
    Ok(scope)
}

fn get_type(program: &Program, func: &Function, expr: &Expr) -> Result<Type, ConvertError> {
    let mut converter = Converter::new(program, false);
    converter.get_all_functions()?;
    converter.get_type(expr, &parameters(func)?)
}

/// What the call `expr` runs; `None` if it is no call.
fn resolve_call<'a>(
    program: &'a Program,
    func: &'a Function,
    expr: &Expr,
) -> Result<Option<Called<'a>>, ConvertError> {
    let mut converter = Converter::new(program, false);
    converter.get_all_functions()?;
    let ExprKind::Call { verb, args } = &expr.kind else {
        return Ok(None);
    };
    let scope = parameters(func)?;
    Ok(Some(match converter.resolve_call(verb, args, &scope, expr.span)? {
        Callee::Function(func) => Called::Function(func),
        Callee::Cast(ty) => Called::Cast(ty),
    }))
}

/// Whether the program has the `main` that it needs, once its functions are known.
fn check_main(program: &Program, needs_main: bool) -> Result<(), ConvertError> {
    let mut converter = Converter::new(program, needs_main);
    converter.get_all_functions()?;
    converter.check_main()
}
