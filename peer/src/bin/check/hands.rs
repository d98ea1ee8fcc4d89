//! The second check: tickets handed in one by one, each with a buffer of its own, through this book and through the proved program.

use crate::inputs::{case, Case};
use crate::inputs_tally::InputsTally;
use crate::program::Program;
use crate::reduce::reduce_list;
use crate::verdict::{Found, Same};
use crate::Options;
use peer::handing::Input;
use std::io;

const DEFAULT_INPUTS: u64 = 20_000;
/// So many tickets meet everything, with each of 200 seeds.
const ENOUGH_INPUTS: u64 = 20_000;
/// Cases that go through the program at once.
const BATCH: u64 = 64;

pub fn check(options: &Options, program: &Program) -> io::Result<Found> {
    let most = options.inputs.unwrap_or(DEFAULT_INPUTS);
    let mut tally = InputsTally::new();
    let mut number = options.first;
    while tally.inputs < most {
        let cases = some_cases(options.seed, number, most - tally.inputs);
        if let Some(at) = first_differing(program, &cases)? {
            show_difference(options, program, number + at as u64, &cases[at])?;
            return Ok(Found::Differs("case"));
        }
        cases.iter().for_each(|case| tally.case(case));
        number += cases.len() as u64;
    }
    let lacks = tally.print();
    lacks.print();
    let compared = format!("{} tickets one by one", tally.inputs);
    Ok(Found::Same(Same { compared, count: tally.inputs, enough: ENOUGH_INPUTS, unit: "tickets", lacks }))
}

/// The cases from a number on, until they have enough inputs or are a batch.
fn some_cases(seed: u64, first: u64, enough: u64) -> Vec<Case> {
    let mut cases: Vec<Case> = Vec::new();
    let mut inputs = 0;
    for number in first..first + BATCH {
        if inputs >= enough {
            break;
        }
        let case = case(seed, number);
        inputs += case.inputs.len() as u64;
        cases.push(case);
    }
    cases
}

fn first_differing(program: &Program, cases: &[Case]) -> io::Result<Option<usize>> {
    let input: Vec<u8> = (0..).zip(cases).flat_map(|(number, case): (u64, _)| case.bytes(&number.to_string())).collect();
    let texts = program.texts_of(&input, cases.len())?;
    Ok(cases.iter().zip(texts).position(|(case, text)| text != Some(case.own_text())))
}

fn show_difference(options: &Options, program: &Program, number: u64, case: &Case) -> io::Result<()> {
    let with = |inputs: &[Input]| Case { file: case.file.clone(), inputs: inputs.to_vec() };
    let text_of = |case: &Case| program.texts_of(&case.bytes("0"), 1).ok().and_then(|mut texts| texts.pop()).flatten();
    let differs = |case: &Case| text_of(case) != Some(case.own_text());
    println!("\ncase {number} of seed {} differs", options.seed);
    println!("to repeat: check --hands {} --seed {} --first {number} --inputs 1", program.path.display(), options.seed);
    if !differs(case) {
        println!("alone it doesn't differ; it did among the cases of its batch");
        return Ok(());
    }
    let reduced = with(&reduce_list(case.inputs.clone(), |inputs| differs(&with(inputs))));
    let path = options.out.join(format!("differs-{}-{number}.inputs", options.seed));
    std::fs::create_dir_all(&options.out)?;
    std::fs::write(&path, reduced.bytes("0"))?;
    println!("reduced to {} inputs: {}", reduced.inputs.len(), path.display());
    println!("\nthis book:\n{}", String::from_utf8_lossy(&reduced.own_text()));
    match text_of(&reduced) {
        Some(text) => println!("the program:\n{}", String::from_utf8_lossy(&text)),
        None => println!("the program: no text"),
    }
    Ok(())
}
