//! A module that passes, one with a fault, files that hold none, and what the check found.

use loitsupar::{Answer, Fault, Module, Type, Value, check_then_run};

/// The tables of a method of two int32 that hands back one, behind their length; and where the length of its code stands.
const TABLES: [u8; 22] = [20, 0, 1, 0, 3, 1, 0, 1, 2, 0, 0, 0, 0, 0, 0, 0, 4, 1, 4, 1, 6, 1];
const CODE_LENGTH: std::ops::Range<usize> = 14..16;

/// Where the stacks begin in a state.
const STACKS: usize = 1025;

fn file(code: &[u8]) -> Vec<u8> {
    let mut bytes = [&TABLES, code].concat();
    bytes[CODE_LENGTH].copy_from_slice(&(code.len() as u16).to_le_bytes());
    bytes
}

fn refused<T>(number: u64) -> Result<T, Fault> {
    Err(Fault { number, method: 0, offset: 0 })
}

#[test]
fn a_sum_is_handed_back() {
    let sum = Answer { ending: 0, method: 1, offset: 3, steps: 4, value: Value::Int32(42) };
    assert_eq!(check_then_run(&file(&[0x02, 0x03, 0x58, 0x2A]), &[44, -2], 100), Ok(sum));
}

#[test]
fn an_int32_has_its_sign() {
    let difference = file(&[0x02, 0x03, 0x59, 0x2A]);
    let (answer, _) = Module::split(&difference).unwrap().run(&[-2, 44], 100);
    assert_eq!((answer.ending, answer.value), (0, Value::Int32(-46)));
    let (answer, state) = Module::split(&difference).unwrap().run(&[-2, 44], 1);
    assert_eq!((answer.ending, state[STACKS]), (38, -2_i64 as u64));
}

#[test]
fn a_refused_run_has_no_state() {
    let (answer, state) = Module::split(&file(&[0x02, 0x2A])).unwrap().run(&[], 100);
    assert_eq!(answer, Answer { ending: 21, method: 0, offset: 0, steps: 0, value: Value::None });
    assert!(state.iter().all(|&cell| cell == 0));
}

#[test]
fn types_are_told_before_each_instruction() {
    // ldnull, castclass Object, pop, ldarg.0, ldarg.1, pop, ret
    let bytes = file(&[0x14, 0x74, 0x01, 0x00, 0x00, 0x02, 0x26, 0x02, 0x03, 0x26, 0x2A]);
    let module = Module::split(&bytes).unwrap();
    assert_eq!(module.tell(1, 0), Ok(Some(vec![])));
    assert_eq!(module.tell(1, 1), Ok(Some(vec![Type::Null])));
    assert_eq!(module.tell(1, 6), Ok(Some(vec![Type::Class(1)])));
    assert_eq!(module.tell(1, 9), Ok(Some(vec![Type::Int32, Type::Int32])));
    assert_eq!(module.tell(1, 10), Ok(Some(vec![Type::Int32])));
    for (row, offset) in [(1, 2), (1, 11), (0, 0), (2, 0), (u64::MAX, u64::MAX)] {
        assert_eq!(module.tell(row, offset), Ok(None));
    }
}

#[test]
fn one_value_too_many_is_a_fault() {
    let bad = file(&[0x02, 0x03, 0x00, 0x2A]);
    assert_eq!(check_then_run(&bad, &[44, -2], 100), Err(Fault { number: 15, method: 1, offset: 3 }));
    let (answer, state) = Module::split(&bad).unwrap().run(&[44, -2], 100);
    assert_eq!((answer.ending, answer.value, state[0]), (45, Value::None, 1));
    assert_eq!(Module::split(&bad).unwrap().tell(1, 3), Err(Fault { number: 15, method: 1, offset: 3 }));
}

#[test]
fn a_file_may_hold_no_module() {
    assert_eq!(check_then_run(&[], &[], 0), refused(9));
    assert_eq!(check_then_run(&TABLES[..12], &[], 0), refused(9));
    assert_eq!(check_then_run(&[1, 0x20], &[], 0), refused(1));
    assert_eq!(check_then_run(&file(&vec![0; 32769]), &[], 0), refused(1));
    assert_eq!(Module { tables: &[], code: &[] }.check(), Err(Fault { number: 3, method: 0, offset: 0 }));
}
