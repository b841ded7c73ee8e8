//! Damaged data bases: what the final 16 looks at, what it does not, and how
//! the stores of a call go on when pointers are strange.

use yarugota_model::reference::{lk, END};
use yarugota_model::{home, Status, MASTER_KEY, ROOT_NEXT, ROOT_PRIOR, STATE};
use yarugota_support::schemas::{Draft, Master, Path, Variable};
use yarugota_support::stock::{done, stocked, ABSENT_BOTTLE, ABSENT_CASE};
use yarugota_support::{Call, Fixture};

/// Offsets in the records of the plain schema.
mod at {
    pub const BOTL_PT_FIRST: usize = 16;
    pub const BOTL_PT_LAST: usize = 20;
    pub const BOTL_SP_FIRST: usize = 24;
    pub const BOTL_SP_LAST: usize = 28;
    pub const CASE_CP_FIRST: usize = 20;
    pub const CASE_CP_LAST: usize = 24;
    pub const PT_PRIOR: usize = 8;
    pub const PT_NEXT: usize = 12;
    pub const CP_KEY: usize = 16;
    pub const CP_PRIOR: usize = 24;
    pub const CP_NEXT: usize = 28;
    pub const SP_KEY: usize = 32;
    pub const SP_PRIOR: usize = 36;
    pub const SP_NEXT: usize = 40;
}

fn master_call(op: &[u8; 5], key: &[u8; 4]) -> Call {
    Call {
        op: *op,
        set: *b"BOTL",
        reference: 0,
        path: *b"        ",
        key: key.to_vec(),
        area: [key.as_slice(), b"data"].concat(),
    }
}

/// A call on the points of B001, named by path PT.
fn point_call(op: &[u8; 5], reference: u32) -> Call {
    Call {
        op: *op,
        set: *b"PNTS",
        reference,
        path: *b"BOTLLKPT",
        key: b"B001".to_vec(),
        area: b"B001CASE0001B001data".to_vec(),
    }
}

/// The record of a case, which is its home.
fn home_of_case(fixture: &mut Fixture, key: &[u8; 8]) -> u32 {
    fixture.on_set("RQLOC", "CASE", 0, key, b"").reference
}

fn pointer(fixture: &Fixture, set: &str, record: u32, at: usize) -> u32 {
    let entry = fixture.entry(set);
    let record = fixture.view().set(entry).record(record);
    u32::from_be_bytes(record.bytes[at..at + 4].try_into().unwrap())
}

/// A pointer that a call uses, and a live record of another key on its path,
/// 0 where keys do not matter.
struct Used {
    call: Call,
    set: &'static str,
    record: u32,
    at: usize,
    of_another_key: u32,
}

fn used(call: Call, set: &'static str, record: u32, at: usize, of_another_key: u32) -> Used {
    Used {
        call,
        set,
        record,
        at,
        of_another_key,
    }
}

/// Every pointer that the calls on points use.
fn used_on_points() -> Vec<Used> {
    let case = home_of_case(&mut stocked(), b"CASE0001");
    let mut list = vec![
        used(
            point_call(b"READV", lk(*b"PT")),
            "BOTL",
            2,
            at::BOTL_PT_FIRST,
            4,
        ),
        used(
            point_call(b"READR", lk(*b"PT")),
            "BOTL",
            2,
            at::BOTL_PT_LAST,
            4,
        ),
        used(point_call(b"READV", 1), "PNTS", 1, at::PT_NEXT, 4),
        used(point_call(b"READR", 2), "PNTS", 2, at::PT_PRIOR, 4),
        used(point_call(b"ADDVC", 0), "BOTL", 2, at::BOTL_PT_LAST, 4),
        used(point_call(b"ADDVA", 1), "PNTS", 1, at::PT_NEXT, 4),
        used(point_call(b"ADDVB", 2), "PNTS", 2, at::PT_PRIOR, 4),
        used(point_call(b"DELVD", 2), "PNTS", 2, at::PT_PRIOR, 4),
        used(point_call(b"DELVD", 2), "PNTS", 2, at::PT_NEXT, 4),
        used(point_call(b"DELVD", 2), "PNTS", 2, at::CP_PRIOR, 3),
        used(point_call(b"DELVD", 2), "PNTS", 2, at::CP_NEXT, 3),
        used(point_call(b"DELVD", 2), "PNTS", 2, at::SP_PRIOR, 1),
        used(point_call(b"DELVD", 2), "PNTS", 2, at::SP_NEXT, 1),
    ];
    for (op, reference) in [(b"ADDVC", 0), (b"ADDVA", 1), (b"ADDVB", 2)] {
        let call = point_call(op, reference);
        list.push(used(call.clone(), "CASE", case, at::CASE_CP_LAST, 3));
        list.push(used(call, "BOTL", 2, at::BOTL_SP_LAST, 2));
    }
    list
}

#[test]
fn pointers_used_on_points() {
    for used in used_on_points() {
        let status = |pointer: u32| {
            let mut fixture = stocked();
            fixture.poke_pointer(used.set, used.record, used.at, pointer);
            fixture.make(&used.call).status
        };
        let (above, free) = (7, 6);
        for bad in [above, u32::MAX, END, free, used.of_another_key] {
            assert_eq!(status(bad), Status::Damg, "{:?} with {bad}", used.call);
        }
    }
}

/// On the named path ADDVA uses the reference's next and ADDVB its prior, and
/// neither uses last. DELVD uses no first or last. READV does not use the
/// reference's prior.
#[test]
fn pointers_not_used_on_points() {
    let not_used = [
        (
            point_call(b"READV", lk(*b"PT")),
            "BOTL",
            2,
            at::BOTL_PT_LAST,
        ),
        (
            point_call(b"READR", lk(*b"PT")),
            "BOTL",
            2,
            at::BOTL_PT_FIRST,
        ),
        (point_call(b"READV", 1), "PNTS", 1, at::PT_PRIOR),
        (point_call(b"READV", 1), "BOTL", 2, at::BOTL_PT_FIRST),
        (point_call(b"READR", 2), "PNTS", 2, at::PT_NEXT),
        (point_call(b"READD", 2), "PNTS", 2, at::PT_NEXT),
        (point_call(b"WRITV", 1), "PNTS", 1, at::PT_NEXT),
        (point_call(b"ADDVC", 0), "BOTL", 2, at::BOTL_PT_FIRST),
        (point_call(b"ADDVA", 1), "BOTL", 2, at::BOTL_PT_LAST),
        (point_call(b"ADDVA", 1), "PNTS", 1, at::PT_PRIOR),
        (point_call(b"ADDVB", 2), "BOTL", 2, at::BOTL_PT_LAST),
        (point_call(b"ADDVB", 2), "PNTS", 2, at::PT_NEXT),
        (point_call(b"DELVD", 2), "BOTL", 2, at::BOTL_PT_FIRST),
        (point_call(b"DELVD", 2), "BOTL", 2, at::BOTL_PT_LAST),
    ];
    for (call, set, record, at) in not_used {
        let mut fixture = stocked();
        fixture.poke_pointer(set, record, at, 99);
        done(fixture.make(&call).status);
    }
}

#[test]
fn first_and_last_must_agree() {
    let case = home_of_case(&mut stocked(), b"CASE0001");
    let ends = [
        ("BOTL", 2, at::BOTL_PT_FIRST),
        ("BOTL", 2, at::BOTL_PT_LAST),
        ("CASE", case, at::CASE_CP_FIRST),
        ("CASE", case, at::CASE_CP_LAST),
        ("BOTL", 2, at::BOTL_SP_FIRST),
        ("BOTL", 2, at::BOTL_SP_LAST),
    ];
    let lkpt = lk(*b"PT");
    for (place, (set, record, at)) in ends.into_iter().enumerate() {
        let status = |call: Call| {
            let mut fixture = stocked();
            fixture.poke_pointer(set, record, at, 0);
            fixture.make(&call).status
        };
        // On every path of adds and DELVD, on the named path of reads from the
        // ends, and not at all by other calls.
        for (op, reference) in [(b"ADDVC", 0), (b"ADDVA", 1), (b"ADDVB", 1), (b"DELVD", 1)] {
            assert_eq!(status(point_call(op, reference)), Status::Damg);
        }
        let named = place < 2;
        let expected = if named { Status::Damg } else { Status::Done };
        assert_eq!(status(point_call(b"READV", lkpt)), expected);
        assert_eq!(status(point_call(b"READR", lkpt)), expected);
        for op in [b"READV", b"READR", b"READD", b"WRITV"] {
            done(status(point_call(op, 1)));
        }
    }
}

#[test]
fn root_pointers_used() {
    // B005 takes record 1 from the stranger B006. B006 itself is away from its
    // home. For DEL-M of a bottle at home, take away what B001 has chained.
    let status = |op: &[u8; 5], key: &[u8; 4], record, at, pointer| {
        let mut fixture = without_points();
        fixture.poke_pointer("BOTL", record, at, pointer);
        fixture.make(&master_call(op, key)).status
    };
    let used = [
        (b"ADD-M", b"B005", 1, ROOT_PRIOR),
        (b"ADD-M", b"B005", 1, ROOT_NEXT),
        (b"DEL-M", b"B006", 1, ROOT_PRIOR),
        (b"DEL-M", b"B006", 1, ROOT_NEXT),
        (b"DEL-M", b"B001", 2, ROOT_PRIOR),
        (b"DEL-M", b"B001", 2, ROOT_NEXT),
        (b"DEL-M", b"B001", 1, ROOT_NEXT),
        (b"DEL-M", b"B003", 4, ROOT_PRIOR),
        (b"DEL-M", b"B003", 4, ROOT_NEXT),
    ];
    for (op, key, record, at) in used {
        let (above, free) = (6, 3);
        for bad in [above, u32::MAX, free] {
            assert_eq!(status(op, key, record, at, bad), Status::Damg);
        }
    }
    // ROOT prior 0 away from home is damage for these two calls only.
    assert_eq!(status(b"ADD-M", b"B005", 1, ROOT_PRIOR, 0), Status::Damg);
    assert_eq!(status(b"DEL-M", b"B006", 1, ROOT_PRIOR, 0), Status::Damg);
    done(status(b"READM", b"B006", 1, ROOT_PRIOR, 0));
    done(status(b"WRITM", b"B006", 1, ROOT_PRIOR, 0));
    done(status(b"DEL-M", b"B001", 1, ROOT_PRIOR, 0));
    done(status(b"ADD-M", ABSENT_BOTTLE, 1, ROOT_PRIOR, 0));
}

/// The stocked store with all points deleted.
fn without_points() -> Fixture {
    let mut fixture = stocked();
    for (record, key) in [(1, b"B001"), (2, b"B001"), (3, b"B001"), (4, b"B004")] {
        let deleted = fixture.on_path("DELVD", "PNTS", record, "BOTLLKPT", key, b"");
        done(deleted.status);
    }
    done(fixture.sinon());
    fixture
}

/// One record to a block, so that each record has a check of its own. Bottles
/// as in the stocked store, without B004. The points 1 to 3 are B001's on both
/// paths.
fn wide(points: u32) -> Fixture {
    let draft = Draft {
        masters: vec![Master {
            name: *b"BOTL",
            key_length: 4,
            data_length: 400,
            records: 5,
        }],
        variables: vec![Variable {
            name: *b"PNTS",
            data_length: 400,
            records: 6,
            paths: vec![
                Path {
                    letters: *b"PT",
                    master: 0,
                },
                Path {
                    letters: *b"SP",
                    master: 0,
                },
            ],
        }],
    };
    let mut fixture = Fixture::formatted(&draft.encode());
    for key in [b"B001", b"B006", b"B003"] {
        done(fixture.make(&wide_master(b"ADD-M", key)).status);
    }
    for _ in 0..points {
        done(fixture.make(&wide_point(b"ADDVC", 0)).status);
    }
    fixture
}

fn wide_master(op: &[u8; 5], key: &[u8; 4]) -> Call {
    let mut call = master_call(op, key);
    call.area.resize(404, b'd');
    call
}

fn wide_point(op: &[u8; 5], reference: u32) -> Call {
    let mut call = point_call(op, reference);
    call.area = b"B001B001".to_vec();
    call.area.resize(408, b'd');
    call
}

/// The checks of exactly those blocks matter that the call stores into.
#[test]
fn checks_of_the_blocks_stored_into() {
    // The call, with how many points there are, and the records of BOTL and
    // PNTS that it stores into.
    let rows: [(Call, u32, &[u32], &[u32]); 16] = [
        (wide_master(b"ADD-M", b"B004"), 0, &[5], &[]),
        (wide_master(b"ADD-M", ABSENT_BOTTLE), 0, &[1, 3], &[]),
        (wide_master(b"ADD-M", b"B005"), 0, &[1, 2, 3], &[]),
        (wide_master(b"DEL-M", b"B001"), 0, &[1, 2], &[]),
        (wide_master(b"DEL-M", b"B006"), 0, &[1, 2], &[]),
        (wide_master(b"DEL-M", b"B003"), 0, &[4], &[]),
        (wide_master(b"WRITM", b"B006"), 0, &[1], &[]),
        (wide_master(b"READM", b"B001"), 0, &[], &[]),
        (wide_point(b"ADDVC", 0), 0, &[2], &[1]),
        (wide_point(b"ADDVC", 0), 3, &[2], &[3, 4]),
        (wide_point(b"ADDVA", 1), 3, &[2], &[1, 2, 3, 4]),
        (wide_point(b"ADDVB", 1), 3, &[2], &[1, 3, 4]),
        (wide_point(b"DELVD", 2), 3, &[], &[1, 2, 3]),
        (wide_point(b"DELVD", 1), 3, &[2], &[1, 2]),
        (wide_point(b"WRITV", 2), 3, &[], &[2]),
        (wide_point(b"READV", 1), 3, &[], &[]),
    ];
    for (call, points, bottles, stored_points) in rows {
        done(wide(points).make(&call).status);
        for (set, records, stored) in [("BOTL", 5, bottles), ("PNTS", 6, stored_points)] {
            for record in 1..=records {
                let mut fixture = wide(points);
                fixture.break_check(set, record);
                let expected = if stored.contains(&record) {
                    Status::Damg
                } else {
                    Status::Done
                };
                let status = fixture.make(&call).status;
                assert_eq!(status, expected, "{set} {record}: {:?}", call.op);
            }
        }
    }
}

#[test]
fn a_write_of_no_bytes_needs_a_true_check() {
    let mut fixture = stocked();
    let before = fixture.base.clone();
    done(
        fixture
            .on_set("WRITM", "CASE", 0, b"CASE0001", b"CASE0001")
            .status,
    );
    assert!(fixture.base == before);
    fixture.break_check("CASE", 1);
    let refused = fixture.on_set("WRITM", "CASE", 0, b"CASE0001", b"CASE0001");
    assert_eq!(refused.status, Status::Damg);
}

#[test]
fn reads_do_not_look_at_checks() {
    let mut fixture = stocked();
    for set in ["BOTL", "CASE", "PNTS"] {
        fixture.break_check(set, 1);
    }
    for op in [b"READV", b"READR", b"READD"] {
        done(fixture.make(&point_call(op, 1)).status);
    }
    done(fixture.make(&master_call(b"READM", b"B001")).status);
    done(fixture.on_set("RDNXT", "BOTL", 0, b"", &[0; 8]).status);
    assert_eq!(fixture.sinon(), Status::Damg);
}

/// The deleted record at its home has a prior: it is tested, and then left
/// alone, for the synonym that moves there has none.
#[test]
fn a_prior_of_the_home_when_a_synonym_moves() {
    let mut fixture = wide(0);
    fixture.poke_pointer("BOTL", 2, ROOT_PRIOR, 4);
    fixture.break_check("BOTL", 4);
    let stranger = fixture.view().set(0).record(4).bytes.to_vec();
    done(fixture.make(&wide_master(b"DEL-M", b"B001")).status);
    assert_eq!(pointer(&fixture, "BOTL", 2, ROOT_PRIOR), 0);
    assert_eq!(fixture.view().set(0).record(4).bytes, stranger);
}

/// Without a synonym the record is unlinked from a prior that it should not
/// have.
#[test]
fn a_prior_of_the_home_when_no_synonym_moves() {
    let mut fixture = wide(0);
    fixture.poke_pointer("BOTL", 4, ROOT_PRIOR, 2);
    let mut broken = fixture.clone();
    done(fixture.make(&wide_master(b"DEL-M", b"B003")).status);
    assert_eq!(pointer(&fixture, "BOTL", 2, ROOT_NEXT), 0);
    broken.break_check("BOTL", 2);
    let refused = broken.make(&wide_master(b"DEL-M", b"B003"));
    assert_eq!(refused.status, Status::Damg);
}

/// Where stores meet, the later one in document 01's order stays.
#[test]
fn stores_of_masters_that_meet() {
    // The stranger's prior is the home itself: the new record there gets the
    // free record as its next.
    let mut fixture = without_points();
    fixture.poke_pointer("BOTL", 1, ROOT_PRIOR, 1);
    done(fixture.make(&master_call(b"ADD-M", b"B005")).status);
    assert_eq!(pointer(&fixture, "BOTL", 1, ROOT_NEXT), 3);
    assert_eq!(pointer(&fixture, "BOTL", 3, ROOT_PRIOR), 1);

    // The home's next is the home itself: it ends wiped.
    let mut fixture = without_points();
    fixture.poke_pointer("BOTL", 2, ROOT_NEXT, 2);
    done(fixture.make(&master_call(b"DEL-M", b"B001")).status);
    let wiped = fixture.view().set(0).record(2);
    assert!(wiped.bytes.iter().all(|&byte| byte == 0));

    // The synonym's next is the home: the home ends with itself as its prior.
    let mut fixture = without_points();
    fixture.poke_pointer("BOTL", 1, ROOT_NEXT, 2);
    done(fixture.make(&master_call(b"DEL-M", b"B001")).status);
    assert_eq!(pointer(&fixture, "BOTL", 2, ROOT_PRIOR), 2);
    assert_eq!(pointer(&fixture, "BOTL", 2, ROOT_NEXT), 2);
}

#[test]
fn stores_of_points_that_meet() {
    // A record that is its own neighbour is unlinked from itself and wiped.
    let mut fixture = stocked();
    fixture.poke_pointer("PNTS", 2, at::PT_PRIOR, 2);
    fixture.poke_pointer("PNTS", 2, at::PT_NEXT, 2);
    let deleted = fixture.make(&point_call(b"DELVD", 2));
    assert_eq!((deleted.status, deleted.reference), (Status::Done, 2));
    let wiped = fixture.view().set(2).record(2);
    assert!(wiped.bytes.iter().all(|&byte| byte == 0));

    // Its own next, for ADDVA: the record gets the new one on both sides.
    let mut fixture = stocked();
    fixture.poke_pointer("PNTS", 1, at::PT_NEXT, 1);
    let added = fixture.make(&point_call(b"ADDVA", 1));
    assert_eq!((added.status, added.reference), (Status::Done, 5));
    assert_eq!(pointer(&fixture, "PNTS", 1, at::PT_NEXT), 5);
    assert_eq!(pointer(&fixture, "PNTS", 1, at::PT_PRIOR), 5);
}

/// Linking and unlinking do not ask what a field held before.
#[test]
fn fields_are_stored_whatever_they_held() {
    // Record 2 has no prior, so first becomes its next, although first was 1.
    let mut fixture = stocked();
    fixture.poke_pointer("PNTS", 2, at::PT_PRIOR, 0);
    let deleted = fixture.make(&point_call(b"DELVD", 2));
    assert_eq!(
        (deleted.status, deleted.reference),
        (Status::Done, lk(*b"PT"))
    );
    assert_eq!(pointer(&fixture, "BOTL", 2, at::BOTL_PT_FIRST), 3);

    // ADDVA goes on while first and last are both 0.
    let mut fixture = stocked();
    fixture.poke_pointer("BOTL", 2, at::BOTL_PT_FIRST, 0);
    fixture.poke_pointer("BOTL", 2, at::BOTL_PT_LAST, 0);
    done(fixture.make(&point_call(b"ADDVA", 3)).status);
    assert_eq!(pointer(&fixture, "BOTL", 2, at::BOTL_PT_FIRST), 0);
    assert_eq!(pointer(&fixture, "BOTL", 2, at::BOTL_PT_LAST), 5);
}

/// Of the other paths' masters, the first path that refuses decides.
#[test]
fn other_masters_in_path_order() {
    let with_keys = |case: &[u8; 8], bottle: &[u8; 4]| {
        let mut call = point_call(b"ADDVC", 0);
        call.area = [b"B003", case.as_slice(), bottle, b"data"].concat();
        call.key = b"B003".to_vec();
        call
    };
    let mut fixture = stocked();
    fixture.poke_pointer("BOTL", 1, ROOT_NEXT, 99);
    let call = with_keys(ABSENT_CASE, ABSENT_BOTTLE);
    assert_eq!(fixture.make(&call).status, Status::Mrnf);
    let call = with_keys(b"CASE0001", ABSENT_BOTTLE);
    assert_eq!(fixture.make(&call).status, Status::Damg);

    let mut fixture = stocked();
    let home = home_of_case(&mut fixture, ABSENT_CASE);
    fixture.poke_pointer("CASE", home, ROOT_NEXT, 99);
    let call = with_keys(ABSENT_CASE, ABSENT_BOTTLE);
    assert_eq!(fixture.make(&call).status, Status::Damg);

    // The named path comes before them all, wherever its slot is.
    let mut call = with_keys(ABSENT_CASE, ABSENT_BOTTLE);
    call.path = *b"BOTLLKSP";
    call.key = ABSENT_BOTTLE.to_vec();
    assert_eq!(fixture.make(&call).status, Status::Mrnf);
}

#[test]
fn a_moved_record_keeps_all_its_bytes() {
    let mut fixture = stocked();
    fixture.poke("BOTL", 1, 1, b"\x11\x22\x33");
    let before = fixture.view().set(0).record(1).bytes.to_vec();
    done(fixture.make(&master_call(b"ADD-M", b"B005")).status);
    assert_eq!(fixture.view().set(0).record(3).bytes, before);
    assert_eq!(fixture.view().set(0).record(1).bytes[1..4], [0; 3]);

    let mut fixture = without_points();
    fixture.poke("BOTL", 1, 1, b"\x11\x22\x33");
    let mut before = fixture.view().set(0).record(1).bytes.to_vec();
    before[ROOT_PRIOR..ROOT_PRIOR + 4].fill(0);
    done(fixture.make(&master_call(b"DEL-M", b"B001")).status);
    assert_eq!(fixture.view().set(0).record(2).bytes, before);
}

#[test]
fn a_new_record_is_written_whole() {
    let mut fixture = stocked();
    fixture.poke("PNTS", 5, 0, &[0xEE; 48]);
    fixture.poke("BOTL", 3, 0, &[0xEE; 44]);
    assert_eq!(fixture.sinon(), Status::Damg);
    let added = fixture.make(&point_call(b"ADDVC", 0));
    assert_eq!((added.status, added.reference), (Status::Done, 5));
    done(fixture.make(&master_call(b"ADD-M", ABSENT_BOTTLE)).status);
    done(fixture.sinon());
}

fn read(fixture: &mut Fixture, key: &[u8; 4]) -> (Status, u32) {
    let answered = fixture.make(&master_call(b"READM", key));
    (answered.status, answered.reference)
}

#[test]
fn finding_a_key_on_a_chain_that_goes_on() {
    // The chain of home 2 goes round: 2, 1, 2, ...
    let mut fixture = stocked();
    fixture.poke_pointer("BOTL", 1, ROOT_NEXT, 2);
    assert_eq!(read(&mut fixture, b"B001"), (Status::Done, 2));
    assert_eq!(read(&mut fixture, b"B006"), (Status::Done, 1));
    assert_eq!(read(&mut fixture, ABSENT_BOTTLE).0, Status::Damg);
    // It goes on to records of other homes, which is no damage by itself.
    fixture.poke_pointer("BOTL", 1, ROOT_NEXT, 4);
    assert_eq!(read(&mut fixture, ABSENT_BOTTLE).0, Status::Mrnf);
    // Through all of R records it is still no damage, with one more it is.
    fixture.poke("BOTL", 3, STATE, &[1]);
    fixture.poke_pointer("BOTL", 4, ROOT_NEXT, 5);
    fixture.poke_pointer("BOTL", 5, ROOT_NEXT, 3);
    assert_eq!(read(&mut fixture, ABSENT_BOTTLE).0, Status::Mrnf);
    fixture.poke_pointer("BOTL", 3, ROOT_NEXT, 3);
    assert_eq!(read(&mut fixture, ABSENT_BOTTLE).0, Status::Damg);
}

#[test]
fn finding_a_key_among_damaged_records() {
    // A free record on the way.
    let mut fixture = stocked();
    fixture.poke_pointer("BOTL", 2, ROOT_NEXT, 3);
    assert_eq!(read(&mut fixture, b"B006").0, Status::Damg);
    // A home held by a stranger has no masters, whatever the stranger's next.
    let mut fixture = stocked();
    fixture.poke_pointer("BOTL", 1, ROOT_NEXT, 99);
    assert_eq!(read(&mut fixture, b"B005").0, Status::Mrnf);
    // Of a repeated key, the one met first is the master.
    let mut fixture = stocked();
    fixture.poke("BOTL", 1, MASTER_KEY, b"B001");
    assert_eq!(read(&mut fixture, b"B001"), (Status::Done, 2));
    // States other than 1 are free.
    for state in [0, 2, 0xFF] {
        let mut fixture = stocked();
        fixture.poke("BOTL", 2, STATE, &[state]);
        assert_eq!(read(&mut fixture, b"B001").0, Status::Mrnf);
    }
}

#[test]
fn full_comes_before_damage() {
    let mut fixture = stocked();
    fixture.poke("BOTL", 3, STATE, &[1]);
    fixture.poke_pointer("BOTL", 1, ROOT_PRIOR, 0);
    let refused = fixture.make(&master_call(b"ADD-M", b"B005"));
    assert_eq!(refused.status, Status::Full);
    // With its home free, a master needs no other free record.
    let mut fixture = stocked();
    fixture.poke("BOTL", 4, STATE, &[0]);
    fixture.poke("BOTL", 3, STATE, &[1]);
    done(fixture.make(&master_call(b"ADD-M", b"B003")).status);
}

#[test]
fn imdl_looks_at_every_path_of_every_set() {
    for at in [16, 20, 24, 28, 32, 36] {
        let mut fixture = stocked();
        fixture.poke_pointer("BOTL", 4, at, 1);
        let refused = fixture.make(&master_call(b"DEL-M", b"B003"));
        assert_eq!(refused.status, Status::Imdl, "pointer at {at}");
    }
}

#[test]
fn delvd_looks_up_stored_keys_like_any_other() {
    // A blank key has no master here.
    let mut fixture = stocked();
    fixture.poke("PNTS", 1, at::CP_KEY, &[b' '; 8]);
    assert_eq!(fixture.make(&point_call(b"DELVD", 1)).status, Status::Damg);
    // With a blank master it is found: B003 lies at the home of a blank key.
    let mut fixture = stocked();
    assert_eq!(home(b"    ", 5), 4);
    fixture.poke("BOTL", 4, MASTER_KEY, b"    ");
    fixture.poke("PNTS", 2, at::SP_KEY, b"    ");
    done(fixture.make(&point_call(b"DELVD", 2)).status);
}

/// Only SINON minds a live record on no chain.
#[test]
fn a_live_record_on_no_chain() {
    for op in [b"READD", b"WRITV", b"DELVD", b"ADDVA", b"ADDVB"] {
        let mut fixture = stocked();
        let mut record = vec![0; 48];
        record[STATE] = 1;
        record[4..8].copy_from_slice(b"B001");
        record[at::CP_KEY..at::CP_PRIOR].copy_from_slice(b"CASE0001");
        record[at::SP_KEY..at::SP_PRIOR].copy_from_slice(b"B001");
        fixture.poke("PNTS", 6, 0, &record);
        assert_eq!(fixture.sinon(), Status::Damg);
        let swept = fixture.on_set("RDNXT", "PNTS", 4, b"", &[0; 20]);
        assert_eq!((swept.status, swept.reference), (Status::Done, 6));
        done(fixture.make(&point_call(op, 6)).status);
    }
}

#[test]
fn a_master_on_no_chain_is_absent() {
    let mut fixture = stocked();
    fixture.poke_pointer("BOTL", 2, ROOT_NEXT, 0);
    let refused = fixture.make(&master_call(b"READM", b"B006"));
    assert_eq!(refused.status, Status::Mrnf);
    let swept = fixture.on_set("RDNXT", "BOTL", 0, b"", &[0; 8]);
    assert_eq!((swept.reference, swept.area), (1, b"B006NECK".to_vec()));
}
