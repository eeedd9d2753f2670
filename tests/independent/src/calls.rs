// One call of the C interface: how the driver is told of it, what must come of it, and what has been reached.
// Cases are sent to the driver in batches; every byte of each response is compared.

use crate::drive::{broken, Drive};
use crate::table;
use std::collections::{BTreeMap, BTreeSet};

#[derive(Clone, Copy, PartialEq, Eq, PartialOrd, Ord, Debug)]
pub enum Call {
    Find = 1,
    Put,
    Fill,
    Build,
    List,
}

pub const CALLS: [Call; 5] = [Call::Find, Call::Put, Call::Fill, Call::Build, Call::List];

// The table is a part of the bytes and the keys or slots a part of the cells: what stands around them must stay.
pub struct Case {
    pub call: Call,
    pub m: u32,
    pub r: u32,
    pub key: u32,
    pub bytes: Vec<u8>,
    pub table_at: usize,
    pub table_length: usize,
    pub null_table: bool,
    pub cells: Vec<u32>,
    pub cells_at: usize,
    pub cells_count: usize,
    pub null_cells: bool,
}

impl Case {
    fn encode(&self, to: &mut Vec<u8>) {
        let head = [
            self.call as u32,
            self.m,
            self.r,
            self.key,
            self.bytes.len() as u32,
            self.table_at as u32,
            self.table_length as u32,
            self.null_table as u32,
            self.cells.len() as u32,
            self.cells_at as u32,
            self.cells_count as u32,
            self.null_cells as u32,
        ];
        to.extend(head.iter().flat_map(|number| number.to_le_bytes()));
        to.extend(&self.bytes);
        to.extend(self.cells.iter().flat_map(|cell| cell.to_le_bytes()));
    }

    // The answer by the rule, with the bytes and cells as they then stand.
    fn expected(&self) -> (Result<u64, u8>, Vec<u8>) {
        let mut bytes = self.bytes.clone();
        let mut cells = self.cells.clone();
        let lent = &mut bytes[self.table_at..self.table_at + self.table_length];
        let part = &mut cells[self.cells_at..self.cells_at + self.cells_count];
        let answer = match self.call {
            Call::Find => table::find(self.m, self.r, lent, self.key),
            Call::Put => table::put(self.m, self.r, lent, self.key),
            Call::Fill => table::fill(self.m, self.r, lent),
            Call::Build => table::build(self.m, self.r, lent, part),
            Call::List => table::list(self.m, self.r, lent, part),
        };
        let result = match answer {
            Ok(value) => value,
            Err(refusal) => (refusal as u64) << 56,
        };
        let mut response = result.to_le_bytes().to_vec();
        response.extend(&bytes);
        response.extend(cells.iter().flat_map(|cell| cell.to_le_bytes()));
        (answer, response)
    }

    fn lent(&self) -> &[u8] {
        &self.bytes[self.table_at..self.table_at + self.table_length]
    }
}

#[derive(Default)]
pub struct Batch {
    program: String,
    cases: Vec<Case>,
    size: usize,
    // How often each thing came of a call: the refusal, and the value of find and put.
    reached: BTreeMap<(Call, u8, u64), u64>,
    // Find and put accepted in a table that list refuses with this number.
    beside: BTreeSet<(Call, u8)>,
}

impl Batch {
    pub fn new(program: &str) -> Batch {
        Batch { program: program.to_string(), ..Batch::default() }
    }

    pub fn add(&mut self, drive: &mut Drive, case: Case) {
        self.size += 100 + case.bytes.len() + 4 * case.cells.len();
        self.cases.push(case);
        if self.size > 16_000_000 {
            self.flush(drive);
        }
    }

    pub fn flush(&mut self, drive: &mut Drive) {
        let mut input = Vec::new();
        for case in &self.cases {
            case.encode(&mut input);
        }
        let output = drive.output(&self.program, &input);
        let mut rest = &output[..];
        for case in std::mem::take(&mut self.cases) {
            let (answer, expected) = case.expected();
            let got = rest.get(..expected.len()).unwrap_or(rest);
            drive.compared += 1;
            if got != &expected[..] {
                self.mismatch(drive, &case, &expected, got);
            }
            rest = &rest[expected.len()..];
            self.note(&case, answer);
        }
        if !rest.is_empty() {
            drive.fail(&self.program, &input, "more output than cases");
        }
        self.size = 0;
    }

    fn mismatch(&self, drive: &Drive, case: &Case, expected: &[u8], got: &[u8]) -> ! {
        let mut input = Vec::new();
        case.encode(&mut input);
        let hex = |bytes: &[u8]| bytes.iter().take(200).map(|byte| format!("{byte:02X}")).collect::<String>();
        let what = format!(
            "{:?} m={} r={} key={:X} table {} {}, {} cells\n  expected {}\n  got      {}",
            case.call,
            case.m,
            case.r,
            case.key,
            case.table_length,
            hex(case.lent()),
            case.cells_count,
            hex(expected),
            hex(got)
        );
        drive.fail(&self.program, &input, &what)
    }

    fn note(&mut self, case: &Case, answer: Result<u64, u8>) {
        let valued = matches!(case.call, Call::Find | Call::Put);
        let came = match answer {
            Ok(value) => (case.call, 0, if valued { value } else { 0 }),
            Err(refusal) => (case.call, refusal, 0),
        };
        *self.reached.entry(came).or_default() += 1;
        if valued && answer.is_ok() {
            if let Err(refusal) = table::list(case.m, case.r, case.lent(), &mut vec![0; case.table_length]) {
                self.beside.insert((case.call, refusal));
            }
        }
    }

    // What came of one call, and how often.
    pub fn reached(&self, call: Call) -> String {
        let of_call = self.reached.iter().filter(|(came, _)| came.0 == call);
        let each = of_call.map(|(&(_, refusal, value), count)| match (refusal, call, value) {
            (0, Call::Find, 0) => format!("absent {count}"),
            (0, Call::Find, _) => format!("present {count}"),
            (0, Call::Put, 1) => format!("found {count}"),
            (0, Call::Put, _) => format!("inserted {count}"),
            (0, ..) => format!("accepted {count}"),
            _ => format!("refusal {refusal} {count}"),
        });
        format!("{call:?}: {}", each.collect::<Vec<String>>().join(", "))
    }

    // Every refusal number and every answer of every call must have come up.
    pub fn must_have_reached_all(&self) {
        let mut all = vec![(Call::Find, 0, 0), (Call::Find, 0, 1), (Call::Put, 0, 1), (Call::Put, 0, 2)];
        all.extend([1, 2, 6, 7].map(|refusal| (Call::Find, refusal, 0)));
        all.extend([1, 2, 6, 7, 8].map(|refusal| (Call::Put, refusal, 0)));
        all.extend([0, 1].map(|refusal| (Call::Fill, refusal, 0)));
        all.extend([0, 1, 2, 8].map(|refusal| (Call::Build, refusal, 0)));
        all.extend([0, 1, 6, 7, 9].map(|refusal| (Call::List, refusal, 0)));
        all.sort();
        if !self.reached.keys().eq(all.iter()) {
            broken(&format!("the calls reached {:?}, not {all:?}", self.reached));
        }
        let both = [Call::Find, Call::Put].map(|call| [(call, table::UNSOUND), (call, table::LOCKED)]).concat();
        if self.beside != both.into_iter().collect() {
            broken(&format!("find and put beside damage: {:?}", self.beside));
        }
    }
}
