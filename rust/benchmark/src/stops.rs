//! How far the calls get: refused by one test after the other, then done.

use yarugota::{Call, Operation, Reference, SetName, Status};
use yarugota_model::{seal, DataBase, Schema, BLOCK};

use crate::stop::{bytes_of, Best, Stop};
use crate::workload::{on_path, POINT, POINTS};
use crate::{fill, model, store, Sizes, Workload};

/// The entries of bottles and points.
const BOTTLE_ENTRY: usize = 0;
const POINT_ENTRY: usize = 1;

/// Calls to a round.
const MANY: u32 = 1_000;
const SOME: u32 = 20;
const ONE: u32 = 1;

/// A full data base, and what it takes to spoil it.
pub struct Ground {
    sizes: Sizes,
    workload: Workload,
    pub schema: Vec<u8>,
    layout: Schema,
    full: Vec<u8>,
}

impl Ground {
    pub fn new(sizes: Sizes) -> Ground {
        let workload = Workload::new(sizes);
        let schema = sizes.schema();
        let layout = Schema::decode(&schema).expect("a schema that keeps every rule");
        let full = fill(&workload, &schema);
        Ground {
            sizes,
            workload,
            schema,
            layout,
            full,
        }
    }

    /// ADDVC whose free record has so many live ones in front of it, test by
    /// test.
    pub fn addvc(&self, in_front: u32) -> Vec<Stop<'_>> {
        let (base, key) = self.with_gap(in_front);
        let call = on_path(Operation::Addvc, key);
        let blocks = self.blocks_of_add(&base, &call);
        let [first, .., last] = blocks[..] else {
            unreachable!("an add stores into several blocks")
        };
        let bad_form = at(call, Reference::END);
        let not_live = at(
            on_path(Operation::Addva, key),
            Reference::number(in_front + 1),
        );
        let tested = format!("{} more blocks tested", blocks.len() - 1);
        let stored = format!("the stores, {} checks set", blocks.len());
        let (in_new, in_master) = (unsealed(&base, first), unsealed(&base, last));
        let mut stops = vec![
            self.decoded(call),
            self.stop("names, lengths, forms", bad_form, &base, Status::Ivrp),
            self.stop("walk for the master", not_live, &base, Status::Ivrp),
            self.stop(
                "scan, neighbours, one block tested",
                call,
                &in_new,
                Status::Damg,
            ),
            self.stop(&tested, call, &in_master, Status::Damg),
            self.stop(&stored, call, &base, Status::Done),
        ];
        // The last three get as far as the scan, which may take longer than all the rest.
        let scanning = if in_front == 0 { MANY } else { SOME };
        stops[3..].iter_mut().for_each(|stop| stop.calls = scanning);
        stops[5].stored = blocks;
        stops
    }

    /// READV from a point in the middle of its chain, test by test.
    pub fn readv(&self) -> Vec<Stop<'_>> {
        let points = self.sizes.points();
        let (base, key) = self.with_gap(points / 2);
        let call = on_path(Operation::Readv, key);
        let gap = Reference::number(points / 2 + 1);
        let middle = Reference::number(points / 2 + 1 + self.sizes.bottles);
        vec![
            self.decoded(call),
            self.stop(
                "names, lengths, forms",
                at(call, Reference::number(0)),
                &base,
                Status::Ivrp,
            ),
            self.stop("walk for the master", at(call, gap), &base, Status::Ivrp),
            self.stop("neighbour, area", at(call, middle), &base, Status::Done),
        ]
    }

    /// ADDVC that is done, with so many live points in front of the free one.
    pub fn addvc_done(&self, in_front: u32) -> Stop<'_> {
        let mut stops = self.addvc(in_front);
        stops.pop().expect("the last one is done")
    }

    /// RDNXT from that reference on a full data base.
    pub fn rdnxt(&self, reference: u32) -> Stop<'_> {
        let call = Call {
            set: POINTS,
            reference: Reference::number(reference),
            ..Call::new(Operation::Rdnxt)
        };
        let what = format!("RDNXT from {reference}");
        Stop {
            calls: SOME,
            ..self.stop(&what, call, &self.full, Status::Done)
        }
    }

    /// FORMT, and beside it the zeroing that it cannot do without.
    pub fn formt(&self) -> Vec<Stop<'_>> {
        let call = Call::new(Operation::Formt);
        let stop = |what| Stop {
            calls: SOME,
            ..self.stop(what, call, &self.full, Status::Done)
        };
        let alone = stop("zeroing alone, no FORMT").by(zeros);
        vec![self.decoded(call), alone, stop("all of FORMT")]
    }

    /// SINON, damage by damage.
    pub fn sinon(&self) -> Vec<Stop<'_>> {
        let call = Call::new(Operation::Sinon);
        let last_block = self.layout.blocks() - 1;
        let damages = [
            ("checks of all blocks", unsealed(&self.full, last_block)),
            (
                "bottles: bytes, homes, ROOT",
                self.spoilt(self.point(1) + 1),
            ),
            (
                "points: states, fillers, free records",
                self.spoilt(self.point(self.records()) + 1),
            ),
            (
                "points: room behind the records",
                self.spoilt(last_block * BLOCK + 507),
            ),
            ("points: every chain ridden", self.spoilt(self.last_field())),
        ];
        let damaged = damages
            .into_iter()
            .map(|(what, base)| self.stop(what, call, &base, Status::Damg));
        let done = self.stop("points: live ones counted", call, &self.full, Status::Done);
        let all = damaged
            .chain([done])
            .map(|stop| Stop { calls: ONE, ..stop });
        [self.decoded(call)].into_iter().chain(all).collect()
    }

    fn stop<'a>(&self, what: &str, call: Call<'a>, base: &[u8], status: Status) -> Stop<'a> {
        let mut area = call.key.to_vec();
        let speaks_of_all = call.set == SetName::BLANK;
        area.resize(if speaks_of_all { 0 } else { POINT }, b'.');
        Stop {
            what: what.to_owned(),
            side: store,
            call,
            area,
            base: base.to_vec(),
            stored: vec![],
            status,
            calls: MANY,
            best: Best::NONE,
        }
    }

    /// Refused as soon as the schema is decoded: a block is missing.
    fn decoded<'a>(&self, call: Call<'a>) -> Stop<'a> {
        let short = &self.full[..self.full.len() - BLOCK];
        self.stop("schema decoded", call, short, Status::Size)
    }

    /// The full data base without the point after so many, and the key of the
    /// bottle that the point was of.
    fn with_gap(&self, in_front: u32) -> (Vec<u8>, &[u8]) {
        let keys = self.workload.keys();
        let key = &keys[in_front as usize % keys.len()];
        let call = on_path(Operation::Delvd, key);
        let mut base = self.full.clone();
        let call = at(call, Reference::number(in_front + 1));
        let (status, _) = model(&call, &mut [], &self.schema, &mut base);
        assert_eq!(status, 0, "{call:?}");
        (base, key)
    }

    /// The blocks that an add stores into: the new record's first, the
    /// master's last, as the order of the stores has them.
    fn blocks_of_add(&self, base: &[u8], call: &Call) -> Vec<usize> {
        let mut after = base.to_vec();
        let mut area = self.stop("", *call, base, Status::Done).area;
        let (_, record) = model(call, &mut area, &self.schema, &mut after);
        let first = self.point(record) / BLOCK;
        let touched = (0..self.layout.blocks()).rev();
        let touched = touched.filter(|&n| n != first && base[bytes_of(n)] != after[bytes_of(n)]);
        [first].into_iter().chain(touched).collect()
    }

    fn records(&self) -> u32 {
        self.layout.entries[POINT_ENTRY].records
    }

    fn point(&self, record: u32) -> usize {
        let offset = self.layout.record_offset(POINT_ENTRY, record);
        offset.expect("a record of the set")
    }

    /// Where the highest-numbered bottle has its last point's number.
    fn last_field(&self) -> usize {
        let base = DataBase {
            schema: &self.layout,
            bytes: &self.full,
        };
        let bottles = base.set(BOTTLE_ENTRY);
        let (number, bottle) = bottles.live_records().last().expect("there are bottles");
        bottles.place.offset(number) + bottle.entry.last_at(0)
    }

    /// The full data base with one byte changed, under a true check.
    fn spoilt(&self, at: usize) -> Vec<u8> {
        let mut base = self.full.clone();
        base[at] ^= 0x40;
        seal(&mut base[bytes_of(at / BLOCK)], (at / BLOCK) as u32);
        base
    }
}

/// Zeroes a data base and does nothing else.
fn zeros(call: &Call, _: &mut [u8], _: &[u8], base: &mut [u8]) -> (u32, u32) {
    base.fill(0);
    (0, call.reference.bits())
}

/// The same data base with a false check in one block.
fn unsealed(base: &[u8], block: usize) -> Vec<u8> {
    let mut base = base.to_vec();
    base[bytes_of(block).end - 1] ^= 1;
    base
}

fn at<'a>(call: Call<'a>, reference: Reference) -> Call<'a> {
    Call { reference, ..call }
}
