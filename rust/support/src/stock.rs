//! A store with something in it, for tests that spoil calls or data bases.

use crate::{rules, Fixture};
use yarugota_model::Status;

/// The schema of [`rules::plain`], with these bottles, where B006 is a synonym
/// of B001 and so lies in the lowest free record:
///
/// | record | bottle | home |
/// |--------|--------|------|
/// | 1      | B006   | 2    |
/// | 2      | B001   | 2    |
/// | 4      | B003   | 4    |
/// | 5      | B004   | 5    |
///
/// with cases CASE0001 and CASE0002 at their homes, and with these points:
///
/// | record | PT   | CP       | SP   |
/// |--------|------|----------|------|
/// | 1      | B001 | CASE0001 | B001 |
/// | 2      | B001 | CASE0001 | B006 |
/// | 3      | B001 | CASE0002 | B001 |
/// | 4      | B004 | CASE0002 | B004 |
///
/// Bottle B003 has no chain, and there are no labels.
pub fn stocked() -> Fixture {
    let mut fixture = Fixture::formatted(&rules::plain().encode());
    for (key, record) in [(b"B001", 2), (b"B006", 1), (b"B003", 4), (b"B004", 5)] {
        let area = [key.as_slice(), b"NECK"].concat();
        done(fixture.on_set("ADD-M", "BOTL", 0, key, &area).status);
        let read = fixture.on_set("READM", "BOTL", 0, key, &area);
        assert_eq!(read.reference, record);
    }
    for key in [b"CASE0001", b"CASE0002"] {
        done(fixture.on_set("ADD-M", "CASE", 0, key, key).status);
    }
    let points = [
        b"B001CASE0001B001p001",
        b"B001CASE0001B006p002",
        b"B001CASE0002B001p003",
        b"B004CASE0002B004p004",
    ];
    for (area, number) in points.into_iter().zip(1..) {
        let added = fixture.on_path("ADDVC", "PNTS", 0, "BOTLLKPT", &area[..4], area);
        done(added.status);
        assert_eq!(added.reference, number);
    }
    done(fixture.sinon());
    fixture
}

#[track_caller]
pub fn done(status: Status) {
    assert_eq!(status, Status::Done);
}

/// A key that is in no set, with the home of a key that is: the sums differ by
/// a multiple of R, which is 5 for BOTL and 7 for CASE.
pub const ABSENT_BOTTLE: &[u8; 4] = b"B00;";
pub const ABSENT_CASE: &[u8; 8] = b"CASE0008";
