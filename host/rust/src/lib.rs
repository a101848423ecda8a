//! The check of a module, what it found, and the run, over the proved functions of libloitsupar.a, which is for x86-64 Linux.
//!
//! The functions here are safe: a reference is never null and a `&mut` overlaps nothing, which is all that the library asks of its host.

unsafe extern "C" {
    fn loitsupar_check(tables: *const u8, tables_length: usize, code: *const u8, code_length: usize, fault: *mut u64, fault_cells: usize) -> u32;
    fn loitsupar_run(
        tables: *const u8, tables_length: usize, code: *const u8, code_length: usize, arguments: *const u64, arguments_length: usize,
        budget: u64, answer: *mut u64, answer_cells: usize, state: *mut u64, state_cells: usize,
    ) -> u32;
    fn loitsupar_tell(
        tables: *const u8, tables_length: usize, code: *const u8, code_length: usize, row: u64, offset: u64, fault: *mut u64, fault_cells: usize,
        shape: *mut u64, shape_cells: usize,
    ) -> u32;
}

const FAULT_CELLS: usize = 3;
const ANSWER_CELLS: usize = 6;
const STATE_CELLS: usize = 5314;
const MOST_STACK: usize = 32;
const TYPES: usize = 2; // where the types begin in a shape, behind whether an instruction starts there and the depth
const SHAPE_CELLS: usize = TYPES + MOST_STACK;
const LENGTH_BYTES: usize = 2;
const MOST_TABLES: usize = 8192;
const MOST_CODE: usize = 32768;

const INT32: u64 = 1;
const INT64: u64 = 2;
const F: u64 = 3;
const CLASS: u64 = 32; // the type of a class is this and its row

const TOO_LONG: u64 = 1;
const CUT_SHORT: u64 = 9;

/// A number other than 0 of loading or the check, with its method and offset; method 0 where loading refuses, the place as the offset.
#[derive(Clone, Copy, Debug, PartialEq, Eq)]
pub struct Fault {
    pub number: u64,
    pub method: u64,
    pub offset: u64,
}

/// What a run handed back.
#[derive(Clone, Copy, Debug, PartialEq)]
pub enum Value {
    None,
    Int32(i32),
    Int64(i64),
    F(f64),
}

/// The type of a value on the stack, as the check found it; a class by its row.
#[derive(Clone, Copy, Debug, PartialEq, Eq)]
pub enum Type {
    Null,
    Int32,
    Int64,
    F,
    Class(u64),
}

/// How a run ended: 0 where it finished, and the endings of document 01 otherwise. A refusal has no method, no steps and no value.
#[derive(Clone, Debug, PartialEq)]
pub struct Answer {
    pub ending: u64,
    pub method: u64,
    pub offset: u64,
    pub steps: u64,
    pub value: Value,
}

/// The cells of the state that a run reached, in the order of loitsupar_state in loitsupar.h; all 0 after a refusal. An int32 has its sign in all 64 bits.
pub type State = Box<[u64]>;

/// The tables and the code of a module.
#[derive(Clone, Copy, Debug)]
pub struct Module<'a> {
    pub tables: &'a [u8],
    pub code: &'a [u8],
}

impl<'a> Module<'a> {
    /// Splits a module file: two bytes of table length, the tables, the code. The faults are 9, cut short, and 1, too long.
    pub fn split(file: &'a [u8]) -> Result<Self, Fault> {
        let refused = |number| Err(Fault { number, method: 0, offset: 0 });
        let [low, high, rest @ ..] = file else { return refused(CUT_SHORT) };
        let announced = usize::from(u16::from_le_bytes([*low, *high]));
        if announced > MOST_TABLES {
            return refused(TOO_LONG);
        }
        if rest.len() < announced {
            return refused(CUT_SHORT);
        }
        if file.len() - LENGTH_BYTES - announced > MOST_CODE {
            return refused(TOO_LONG);
        }
        let (tables, code) = rest.split_at(announced);
        Ok(Module { tables, code })
    }

    /// Loads the module and checks every method; the first fault is the error.
    pub fn check(&self) -> Result<(), Fault> {
        let mut cells = [0; FAULT_CELLS];
        // SAFETY: every pointer comes from a slice with its length, and `cells` is borrowed by this call alone.
        unsafe {
            loitsupar_check(self.tables.as_ptr(), self.tables.len(), self.code.as_ptr(), self.code.len(), cells.as_mut_ptr(), cells.len());
        }
        passed(cells)
    }

    /// Loads the module, checks every method, and tells the types found on the stack before the instruction at an offset of the method at a row, the
    /// bottom first; none where no instruction starts there. Rows count from 1.
    pub fn tell(&self, row: u64, offset: u64) -> Result<Option<Vec<Type>>, Fault> {
        let mut cells = [0; FAULT_CELLS];
        let mut shape = [0; SHAPE_CELLS];
        // SAFETY: as in `check`.
        unsafe {
            loitsupar_tell(
                self.tables.as_ptr(), self.tables.len(), self.code.as_ptr(), self.code.len(), row, offset, cells.as_mut_ptr(), cells.len(),
                shape.as_mut_ptr(), shape.len(),
            );
        }
        passed(cells)?;
        let [starts, depth, types @ ..] = shape;
        Ok((starts == 1).then(|| types.iter().take(depth as usize).copied().map(type_of).collect()))
    }

    /// Loads the module and runs its entry, with a budget of at most 1,000,000 steps. It does not check.
    pub fn run(&self, arguments: &[i64], budget: u64) -> (Answer, State) {
        let mut cells = [0; ANSWER_CELLS];
        let mut state = vec![0; STATE_CELLS].into_boxed_slice();
        // SAFETY: as in `check`; i64 and u64 have one layout.
        unsafe {
            loitsupar_run(
                self.tables.as_ptr(), self.tables.len(), self.code.as_ptr(), self.code.len(), arguments.as_ptr().cast(), arguments.len(),
                budget, cells.as_mut_ptr(), cells.len(), state.as_mut_ptr(), state.len(),
            );
        }
        let [ending, method, offset, steps, sort, bits] = cells;
        (Answer { ending, method, offset, steps, value: value(sort, bits) }, state)
    }
}

fn passed([number, method, offset]: [u64; FAULT_CELLS]) -> Result<(), Fault> {
    if number == 0 { Ok(()) } else { Err(Fault { number, method, offset }) }
}

fn value(sort: u64, bits: u64) -> Value {
    match sort {
        INT32 => Value::Int32(bits as i32),
        INT64 => Value::Int64(bits as i64),
        F => Value::F(f64::from_bits(bits)),
        _ => Value::None,
    }
}

fn type_of(cell: u64) -> Type {
    match cell {
        INT32 => Type::Int32,
        INT64 => Type::Int64,
        F => Type::F,
        _ => cell.checked_sub(CLASS).map_or(Type::Null, Type::Class),
    }
}

/// Splits a module file, checks the module and, where it passes, runs it.
pub fn check_then_run(file: &[u8], arguments: &[i64], budget: u64) -> Result<Answer, Fault> {
    let module = Module::split(file)?;
    module.check()?;
    Ok(module.run(arguments, budget).0)
}
