//! Asks the Rust for its plan. Its errors have a message and no record: the message
//! gives 01's number (11 to 20), the shortest refused beginning gives the record.

use std::panic::{AssertUnwindSafe, catch_unwind};

use crate::component_plan::{ActiveComponentPlan, build_active_component_plan};
use crate::input::{Program, Record};
use crate::instructions::rust_program;
use crate::refusals::Refusal;

/// The Rust's plan, or the message of its error.
type Planned = Result<ActiveComponentPlan, String>;

/// The Rust's plan, or 01's refusal.
pub enum Walked {
    Plan(ActiveComponentPlan),
    Stopped(Refusal),
}

const NUMBERS: [(&str, u64); 10] = [
    (
        "component planner saw a rotation with the wrong active width",
        11,
    ),
    (
        "component planner saw a measurement with the wrong active width",
        12,
    ),
    ("active measurement has no component support", 13),
    (
        "active qubit count is too large for machine basis indices",
        14,
    ),
    ("component planner saw an invalid measurement pivot", 15),
    (
        "component measurement pivot is not in its target component",
        16,
    ),
    (
        "nondiagonal active measurement pivot must have an X component",
        17,
    ),
    (
        "diagonal active measurement pivot must have a Z component",
        18,
    ),
    (
        "diagonal active measurement Pauli must have real eigenvalues",
        19,
    ),
    (
        "cannot build an active measurement kernel for identity Pauli",
        20,
    ),
];

/// 01's number for a message of the Rust.
fn number_of(message: &str) -> Result<u64, String> {
    let found = NUMBERS.iter().find(|(text, _)| *text == message);
    found
        .map(|&(_, number)| number)
        .ok_or_else(|| format!("the Rust's error has no number: {message}"))
}

/// What the Rust says of the head with these records. A panic is nobody's answer.
fn plan(program: &Program, records: &[Record]) -> Result<Planned, String> {
    let program = rust_program(program, records)?;
    let planned = catch_unwind(AssertUnwindSafe(|| build_active_component_plan(&program)));
    let planned = planned.map_err(|_| "the Rust panicked, as told above".to_owned())?;
    Ok(planned.map_err(|error| error.message().to_owned()))
}

/// The plan of a program whose records are left unread.
pub fn plan_unread(program: &Program) -> Result<ActiveComponentPlan, String> {
    plan(program, &[])?.map_err(|message| {
        format!("the Rust reads a program that it should leave unread: {message}")
    })
}

/// The plan of records that the Rust accepts.
pub fn plan_accepted(program: &Program, records: &[Record]) -> Result<ActiveComponentPlan, String> {
    plan(program, records)?
        .map_err(|message| format!("the Rust refuses records that it should accept: {message}"))
}

/// Whether the Rust refuses these records, which it may do with this message only.
fn is_refused(program: &Program, records: &[Record], message: &str) -> Result<bool, String> {
    match plan(program, records)? {
        Ok(_) => Ok(false),
        Err(found) if found == message => Ok(true),
        Err(found) => Err(format!(
            "the Rust's error changes with later records: {found}, {message}"
        )),
    }
}

/// The record at which the Rust stops: the last of the shortest beginning that it refuses.
fn stopping_record(program: &Program, records: &[Record], message: &str) -> Result<usize, String> {
    if is_refused(program, &[], message)? {
        return Err(format!("the Rust refuses the head alone: {message}"));
    }
    let (mut accepted, mut refused) = (0, records.len());
    while refused - accepted > 1 {
        let middle = accepted.midpoint(refused);
        if is_refused(program, &records[..middle], message)? {
            refused = middle;
        } else {
            accepted = middle;
        }
    }
    Ok(accepted)
}

/// Whether 01 lets a record of this kind stop with this number.
fn may_stop(record: &Record, number: u64) -> bool {
    match number {
        11 => record.is_rotation(),
        14 => record.is_rotation() || record.is_measurement(),
        _ => record.is_measurement(),
    }
}

/// The Rust's plan for the records, or where and why it stops.
pub fn walk(program: &Program, records: &[Record]) -> Result<Walked, String> {
    let message = match plan(program, records)? {
        Ok(plan) => return Ok(Walked::Plan(plan)),
        Err(message) => message,
    };
    let number = number_of(&message)?;
    let index = stopping_record(program, records, &message)?;
    if !may_stop(&records[index], number) {
        return Err(format!(
            "number {number} at record {index}, which is of another kind"
        ));
    }
    Ok(Walked::Stopped(Refusal { number, index }))
}
