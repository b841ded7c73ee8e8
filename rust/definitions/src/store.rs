//! A call of the store, answered by the definition of `outcome`.

use crate::compiler::compile;
use crate::evaluator::{Evaluator, Stuck};
use crate::program::{DefinitionId, FieldId, Program};
use crate::rooms::Rooms;
use crate::values::{List, Record, Thunk, Value};
use std::rc::Rc;

/// What a call is given besides the schema and the data base.
#[derive(Clone, Debug)]
pub struct Call {
    pub operation: Vec<u8>,
    pub set: Vec<u8>,
    pub reference: u32,
    pub path: Vec<u8>,
    pub key: Vec<u8>,
    pub area: Vec<u8>,
}

#[derive(Clone, Debug, PartialEq)]
pub struct Outcome {
    pub status: u64,
    pub reference: u64,
    pub area: Vec<u8>,
    pub base: Vec<u8>,
}

const OUTCOME: &str = "calls/Outcome.outcome";
const STATUS_NUMBER: &str = "terms/Status.status_number";

/// Definitions of a schema's bytes alone. The same schema serves many calls,
/// so what they came to last is kept.
const OF_A_SCHEMA: [&str; 2] = ["schema/Decode.schema_of", "schema/Layout.keeps_rules"];

/// The fields of the records `Call` and `Outcome`.
const FIELDS: [&str; 9] = [
    "operation",
    "name",
    "reference",
    "path",
    "key",
    "area",
    "schema",
    "base",
    "status",
];

/// Reads `outcome` and all it rests on from the definition files.
pub fn read_definitions(rooms: &Rooms) -> Result<Program, String> {
    compile(rooms, &[OUTCOME, STATUS_NUMBER], &FIELDS)
}

pub struct Store<'p> {
    evaluator: Evaluator<'p>,
    program: &'p Program,
    outcome: DefinitionId,
    status_number: DefinitionId,
}

impl<'p> Store<'p> {
    pub fn new(program: &'p Program) -> Result<Store<'p>, String> {
        let find = |name: &str| {
            let found = program.definition(name);
            found.ok_or_else(|| format!("{name} is not used by outcome"))
        };
        let mut evaluator = Evaluator::new(program);
        for name in OF_A_SCHEMA {
            evaluator.remember(find(name)?);
        }
        Ok(Store {
            evaluator,
            program,
            outcome: find(OUTCOME)?,
            status_number: find(STATUS_NUMBER)?,
        })
    }

    pub fn call(&self, call: &Call, schema: &[u8], base: &[u8]) -> Result<Outcome, String> {
        self.evaluate(call, schema, base)
            .map_err(|stuck| stuck.to_string())?
            .into_bytes()
    }

    fn evaluate(&self, call: &Call, schema: &[u8], base: &[u8]) -> Result<Numbers, Stuck> {
        let fields = [
            ("operation", bytes(&call.operation)),
            ("name", bytes(&call.set)),
            ("reference", Value::Number(call.reference.into())),
            ("path", bytes(&call.path)),
            ("key", bytes(&call.key)),
            ("area", bytes(&call.area)),
            ("schema", bytes(schema)),
            ("base", bytes(base)),
        ];
        let fields = fields.map(|(name, value)| (self.field(name), Thunk::from(value)));
        let record = Value::Record(Rc::new(Record {
            fields: fields.into(),
        }));
        let evaluator = &self.evaluator;
        let outcome = evaluator.call(self.outcome, vec![record.into()])?;
        let part = |name| evaluator.field(&outcome, self.field(name));
        let status = evaluator.call(self.status_number, vec![part("status")?.into()])?;
        Ok(Numbers {
            status: evaluator.number(status)?,
            reference: evaluator.number(part("reference")?)?,
            area: evaluator.numbers(part("area")?)?,
            base: evaluator.numbers(part("base")?)?,
        })
    }

    fn field(&self, name: &str) -> FieldId {
        self.program.field(name).expect("a field of FIELDS")
    }
}

fn bytes<'p>(bytes: &[u8]) -> Value<'p> {
    Value::List(List::numbers(bytes.iter().map(|b| (*b).into()).collect()))
}

/// An outcome as the definitions give it: they speak of numbers, and that
/// these are bytes is something to be seen.
struct Numbers {
    status: u64,
    reference: u64,
    area: Vec<u64>,
    base: Vec<u64>,
}

impl Numbers {
    fn into_bytes(self) -> Result<Outcome, String> {
        let bytes = |numbers: &[u64], what: &str| {
            let bytes = numbers.iter().map(|n| u8::try_from(*n));
            let bytes: Result<Vec<u8>, _> = bytes.collect();
            bytes.map_err(|_| format!("{what} holds a number that is no byte"))
        };
        Ok(Outcome {
            status: self.status,
            reference: self.reference,
            area: bytes(&self.area, "the area")?,
            base: bytes(&self.base, "the data base")?,
        })
    }
}
