//! A bottle and three measured points: added, read forward and backward, and a call refused.

use yarugota::{call, Call, Operation, PathName, Reference, Schema, SetName, Status, BLOCK};

const BOTTLES: SetName = SetName(*b"BOTL");
const POINTS: SetName = SetName(*b"PNTS");
const PATH: PathName = PathName(*b"BOTLLKPT"); // of points, to their bottle

/// A call's reference where it is done, the status where it is refused.
type Done = Result<Reference, Status>;

struct Store {
    schema: [u8; BLOCK],
    base: Vec<u8>,
}

impl Store {
    /// One call for bottle B001 and the path of its points. An area is a record's key and data.
    fn call(&mut self, op: Operation, set: SetName, from: Reference, area: &mut [u8]) -> Done {
        let given = Call {
            set,
            reference: from,
            path: PATH,
            key: b"B001",
            ..Call::new(op)
        };
        call(&given, area, &self.schema, &mut self.base).done()
    }

    /// Reads the bottle's points along the path: LKPT to begin, END. when there are no more.
    fn read_points(&mut self, op: Operation) -> Result<(), Status> {
        let mut area = [0; 8];
        let mut point = self.call(op, POINTS, PATH.link(), &mut area)?;
        while point != Reference::END {
            let radius = area[4..].escape_ascii();
            println!("{op}: record {point}, radius {radius} mm");
            point = self.call(op, POINTS, point, &mut area)?;
        }
        Ok(())
    }
}

fn main() -> Result<(), Status> {
    let (mut bottle, mut points) = (*b"B001NECK", [*b"B00114.1", *b"B00114.6", *b"B00114.3"]);

    let sets = Schema::new()
        .master(BOTTLES, 4, 4, 5) // keys of 4 bytes, 4 bytes of data, 5 records
        .variable(POINTS, 4, 6, &[PATH]); // 4 bytes of data, 6 records
    let (schema, base) = (sets.block(), vec![0; BLOCK * sets.blocks()]);
    let mut store = Store { schema, base };

    let none = Reference::number(0);
    store.call(Operation::Formt, SetName::BLANK, none, &mut bottle)?; // an empty data base
    store.call(Operation::AddM, BOTTLES, none, &mut bottle)?;
    store.call(Operation::Addvc, POINTS, none, &mut points[0])?;
    let last = store.call(Operation::Addvc, POINTS, none, &mut points[1])?; // behind the first
    store.call(Operation::Addvb, POINTS, last, &mut points[2])?; // before the last

    store.read_points(Operation::Readv)?;
    store.read_points(Operation::Readr)?;
    if let Err(status) = store.call(Operation::DelM, BOTTLES, none, &mut bottle) {
        println!("DEL-M: {status}"); // refused: the bottle has points
    }
    Ok(())
}
