//! `k NEWTYPE TUPLE PLACE HEX`: `check_struct_type` in both modes.
use ron::parse::{NewtypeMode, StructType, TupleMode};

use crate::line::{Line, Store};
use crate::refusal::Answer;
use crate::run::{parser_at, run};
use crate::text::{fit, is_place, text};

pub fn kind(words: &mut Line, store: &mut Store, out: &mut Vec<u8>) -> Option<Answer> {
    let newtype = match words.number()? {
        0 => NewtypeMode::NoParensMeanUnit,
        1 => NewtypeMode::InsideNewtype,
        _ => return None,
    };
    let tuple = match words.number()? {
        0 => TupleMode::ImpreciseTupleOrNewtype,
        1 => TupleMode::DifferentiateNewtype,
        _ => return None,
    };
    let place = words.number()?;
    words.bytes(&mut store.text)?;
    words.end()?;
    Some(kind_at(newtype, tuple, place, &store.text, out))
}

fn kind_at(newtype: NewtypeMode, tuple: TupleMode, place: usize, bytes: &[u8], out: &mut Vec<u8>) -> Answer {
    let text = text(bytes)?;
    fit(is_place(text, place))?;
    let found = run(&mut parser_at(text, place), |p| p.check_struct_type(newtype, tuple))?;
    out.extend_from_slice(b"ok ");
    out.extend_from_slice(name(&found).as_bytes());
    Ok(())
}

fn name(kind: &StructType) -> &'static str {
    match kind {
        StructType::AnyTuple => "AnyTuple",
        StructType::EmptyTuple => "EmptyTuple",
        StructType::NewtypeTuple => "NewtypeTuple",
        StructType::NonNewtypeTuple => "NonNewtypeTuple",
        StructType::Named => "Named",
        StructType::Unit => "Unit",
    }
}
