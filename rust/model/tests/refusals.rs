//! Every refusal, and the order of the tests.
//!
//! For each operation there is a call that would be done, and a list of faults
//! in the order in which document 01 tests for them. Each fault alone gives
//! its status; of any two together, the earlier one decides.

use std::collections::BTreeSet;

use yarugota_model::reference::{lk, END};
use yarugota_model::{format, Status, ROOT_NEXT};
use yarugota_support::stock::{done, stocked, ABSENT_BOTTLE, ABSENT_CASE};
use yarugota_support::{Call, Fixture};

/// A store and a call on it, to be spoilt.
struct Scene {
    fixture: Fixture,
    call: Call,
}

/// A status, and what makes a call answer it.
type Fault = (Status, fn(&mut Scene));

impl Scene {
    fn on_masters(op: &[u8; 5], key: &[u8; 4]) -> Scene {
        Scene {
            fixture: stocked(),
            call: Call {
                op: *op,
                set: *b"BOTL",
                reference: 5,
                path: *b"        ",
                key: key.to_vec(),
                area: [key.as_slice(), b"data"].concat(),
            },
        }
    }

    fn on_points(op: &[u8; 5], reference: u32) -> Scene {
        Scene {
            fixture: stocked(),
            call: Call {
                op: *op,
                set: *b"PNTS",
                reference,
                path: *b"BOTLLKPT",
                key: b"B001".to_vec(),
                area: b"B001CASE0001B001data".to_vec(),
            },
        }
    }

    /// Makes the call; that a refused one changes nothing is tested there.
    fn status(mut self) -> Status {
        self.fixture.make(&self.call).status
    }

    /// The control key, and the area's first key if the call has one there.
    fn set_keys(&mut self, key: &[u8; 4]) {
        self.call.key = key.to_vec();
        self.call.area[..4].copy_from_slice(key);
    }

    /// Points to a record that is not there from this one's ROOT next.
    fn cut_root(&mut self, set: &str, record: u32) {
        self.fixture.poke_pointer(set, record, ROOT_NEXT, 99);
    }

    fn fill(&mut self, set: &str) {
        let entry = self.fixture.entry(set);
        for record in 1..=self.fixture.decoded.entries[entry].records {
            self.fixture.poke(set, record, 0, &[1]);
        }
    }
}

/// Each fault alone, and each with every later one. The later fault comes
/// first, so that the earlier one stays even where both change the same
/// parameter.
fn in_order(scene: fn() -> Scene, faults: &[Fault]) -> BTreeSet<Status> {
    done(scene().status());
    let mut seen = BTreeSet::new();
    for (at, &(status, spoil)) in faults.iter().enumerate() {
        let mut alone = scene();
        spoil(&mut alone);
        assert_eq!(alone.status(), status, "fault {at} alone");
        seen.insert(status);
        for (later, &(_, spoil_more)) in faults.iter().enumerate().skip(at + 1) {
            let mut both = scene();
            spoil_more(&mut both);
            spoil(&mut both);
            assert_eq!(both.status(), status, "fault {at} before {later}");
        }
    }
    seen
}

// The faults, in document 01's order.

const SCHEMA: Fault = (Status::Schm, |scene| scene.fixture.schema[511] ^= 1);
const SIZE: Fault = (Status::Size, |scene| scene.fixture.base.push(0));
const OPERATION: Fault = (Status::Func, |scene| scene.call.op = *b"SINOF");
const NO_SET: Fault = (Status::Fntf, |scene| scene.call.set = *b"NONE");
const NO_MASTER_SET: Fault = (Status::Kind, |scene| scene.call.set = *b"LABL");
const NO_VARIABLE_SET: Fault = (Status::Kind, |scene| scene.call.set = *b"CASE");
const NO_PATH: Fault = (Status::Path, |scene| scene.call.path = *b"BOTLLKLB");
const AREA_LENGTH: Fault = (Status::Area, |scene| scene.call.area.push(b' '));
const KEY_LENGTH: Fault = (Status::Klen, |scene| scene.call.key.push(b' '));
const BLANK_KEY: Fault = (Status::Bctl, |scene| scene.call.key.fill(b' '));
const BLANK_AREA_KEY: Fault = (Status::Bctl, |scene| scene.call.area[..4].fill(b' '));
const BLANK_OTHER_KEY: Fault = (Status::Bctl, |scene| scene.call.area[4..12].fill(b' '));
const OTHER_AREA_KEY: Fault = (Status::Keys, |scene| {
    scene.call.area[..4].copy_from_slice(b"B006");
});
const FORM: Fault = (Status::Ivrp, |scene| scene.call.reference = END);
const CHAIN_CUT: Fault = (Status::Damg, |scene| {
    scene.set_keys(ABSENT_BOTTLE);
    scene.cut_root("BOTL", 2);
});
const NO_MASTER: Fault = (Status::Mrnf, |scene| scene.set_keys(ABSENT_BOTTLE));
const EXISTS: Fault = (Status::Dupm, |scene| scene.set_keys(b"B003"));
const FREE_RECORD: Fault = (Status::Ivrp, |scene| scene.call.reference = 5);
const STORED_KEY: Fault = (Status::Keys, |scene| {
    scene.call.area[12..16].copy_from_slice(b"B003");
});
const OTHER_CHAIN_CUT: Fault = (Status::Damg, |scene| {
    scene.call.area[4..12].copy_from_slice(ABSENT_CASE);
    let home = scene.fixture.on_set("RQLOC", "CASE", 0, ABSENT_CASE, b"");
    scene.cut_root("CASE", home.reference);
});
const NO_OTHER_MASTER: Fault = (Status::Mrnf, |scene| {
    scene.call.area[4..12].copy_from_slice(ABSENT_CASE);
});
const STORED_MASTER_GONE: Fault = (Status::Damg, |scene| {
    scene
        .fixture
        .poke("PNTS", scene.call.reference, 16, ABSENT_CASE);
});
const HAS_CHAIN: Fault = (Status::Imdl, |scene| scene.set_keys(b"B006"));
const MASTERS_FULL: Fault = (Status::Full, |scene| scene.fill("BOTL"));
const POINTS_FULL: Fault = (Status::Full, |scene| scene.fill("PNTS"));
const MASTERS_CHECK: Fault = (Status::Damg, |scene| scene.fixture.break_check("BOTL", 1));
const POINTS_CHECK: Fault = (Status::Damg, |scene| scene.fixture.break_check("PNTS", 1));

/// What all calls on a master set test first.
fn master_call(rest: &[Fault]) -> Vec<Fault> {
    let start = [SCHEMA, SIZE, OPERATION, NO_SET, NO_MASTER_SET];
    [&start, rest].concat()
}

/// What all calls on a variable set test first.
fn variable_call(rest: &[Fault]) -> Vec<Fault> {
    let start = [SCHEMA, SIZE, OPERATION, NO_SET, NO_VARIABLE_SET, NO_PATH];
    [&start, rest].concat()
}

#[test]
fn formt() {
    // FORMT ignores the data base's checks.
    let scene = || {
        let mut scene = Scene::on_masters(b"FORMT", b"B001");
        scene.fixture.break_check("BOTL", 1);
        scene
    };
    in_order(scene, &[SCHEMA, SIZE]);
}

#[test]
fn sinon() {
    let scene = || Scene::on_masters(b"SINON", b"B001");
    in_order(scene, &[SCHEMA, SIZE, MASTERS_CHECK]);
}

#[test]
fn add_m() {
    // The home of this key is held by B001, so a free record is needed.
    let faults = master_call(&[
        AREA_LENGTH,
        KEY_LENGTH,
        BLANK_KEY,
        BLANK_AREA_KEY,
        OTHER_AREA_KEY,
        CHAIN_CUT,
        EXISTS,
        MASTERS_FULL,
        MASTERS_CHECK,
    ]);
    in_order(|| Scene::on_masters(b"ADD-M", ABSENT_BOTTLE), &faults);
}

#[test]
fn del_m() {
    let faults = master_call(&[
        KEY_LENGTH,
        BLANK_KEY,
        CHAIN_CUT,
        NO_MASTER,
        HAS_CHAIN,
        MASTERS_CHECK,
    ]);
    in_order(|| Scene::on_masters(b"DEL-M", b"B003"), &faults);
}

#[test]
fn readm() {
    let faults = master_call(&[AREA_LENGTH, KEY_LENGTH, BLANK_KEY, CHAIN_CUT, NO_MASTER]);
    in_order(|| Scene::on_masters(b"READM", b"B001"), &faults);
}

#[test]
fn writm() {
    // A blank area key is no BCTL here.
    let blank_differs: Fault = (Status::Keys, BLANK_AREA_KEY.1);
    let faults = master_call(&[
        AREA_LENGTH,
        KEY_LENGTH,
        BLANK_KEY,
        OTHER_AREA_KEY,
        blank_differs,
        CHAIN_CUT,
        NO_MASTER,
        MASTERS_CHECK,
    ]);
    in_order(|| Scene::on_masters(b"WRITM", b"B001"), &faults);
}

#[test]
fn rqloc() {
    let faults = master_call(&[KEY_LENGTH, BLANK_KEY]);
    in_order(|| Scene::on_masters(b"RQLOC", b"B001"), &faults);
}

#[test]
fn rdnxt() {
    let above: Fault = (Status::Ivrp, |scene| scene.call.reference = 6);
    let start = [SCHEMA, SIZE, OPERATION, NO_SET, AREA_LENGTH];
    for reference_fault in [above, FORM] {
        let faults = [start.as_slice(), &[reference_fault]].concat();
        in_order(|| Scene::on_masters(b"RDNXT", b"B001"), &faults);
    }
    let above: Fault = (Status::Ivrp, |scene| scene.call.reference = 7);
    let lkxx: Fault = (Status::Ivrp, |scene| scene.call.reference = lk(*b"PT"));
    for reference_fault in [above, lkxx] {
        let faults = [start.as_slice(), &[reference_fault]].concat();
        in_order(|| Scene::on_points(b"RDNXT", 6), &faults);
    }
}

#[test]
fn readv_and_readr() {
    let cut_next: Fault = (Status::Damg, |scene| {
        scene.fixture.poke_pointer("PNTS", 2, 12, 99);
    });
    let cut_prior: Fault = (Status::Damg, |scene| {
        scene.fixture.poke_pointer("PNTS", 2, 8, 99);
    });
    let start = [
        AREA_LENGTH,
        KEY_LENGTH,
        BLANK_KEY,
        FORM,
        CHAIN_CUT,
        NO_MASTER,
    ];
    let readv = variable_call(&[start.as_slice(), &[FREE_RECORD, cut_next]].concat());
    in_order(|| Scene::on_points(b"READV", 2), &readv);
    let readr = variable_call(&[start.as_slice(), &[FREE_RECORD, cut_prior]].concat());
    in_order(|| Scene::on_points(b"READR", 2), &readr);
}

#[test]
fn readv_and_readr_from_the_ends() {
    let cut_ends: Fault = (Status::Damg, |scene| {
        scene.fixture.poke_pointer("BOTL", 2, 16, 99);
        scene.fixture.poke_pointer("BOTL", 2, 20, 99);
    });
    let other_lkxx: Fault = (Status::Ivrp, |scene| scene.call.reference = lk(*b"SP"));
    let faults = variable_call(&[
        AREA_LENGTH,
        KEY_LENGTH,
        BLANK_KEY,
        other_lkxx,
        CHAIN_CUT,
        NO_MASTER,
        cut_ends,
    ]);
    in_order(|| Scene::on_points(b"READV", lk(*b"PT")), &faults);
    in_order(|| Scene::on_points(b"READR", lk(*b"PT")), &faults);
}

#[test]
fn readd() {
    let lkxx: Fault = (Status::Ivrp, |scene| scene.call.reference = lk(*b"PT"));
    for form in [FORM, lkxx] {
        let faults = variable_call(&[
            AREA_LENGTH,
            KEY_LENGTH,
            BLANK_KEY,
            form,
            CHAIN_CUT,
            NO_MASTER,
            FREE_RECORD,
        ]);
        in_order(|| Scene::on_points(b"READD", 1), &faults);
    }
}

#[test]
fn writv() {
    let faults = variable_call(&[
        AREA_LENGTH,
        KEY_LENGTH,
        BLANK_KEY,
        FORM,
        CHAIN_CUT,
        NO_MASTER,
        FREE_RECORD,
        STORED_KEY,
        POINTS_CHECK,
    ]);
    in_order(|| Scene::on_points(b"WRITV", 1), &faults);
    // The area's keys are compared with the stored ones only.
    let blank_differs: Fault = (Status::Keys, BLANK_OTHER_KEY.1);
    let faults = variable_call(&[FREE_RECORD, blank_differs, POINTS_CHECK]);
    in_order(|| Scene::on_points(b"WRITV", 1), &faults);
}

/// What all adds test after the path, with their form of a reference.
fn add(rest: &[Fault]) -> Vec<Fault> {
    let start = [
        AREA_LENGTH,
        KEY_LENGTH,
        BLANK_KEY,
        BLANK_AREA_KEY,
        BLANK_OTHER_KEY,
        OTHER_AREA_KEY,
        FORM,
        CHAIN_CUT,
        NO_MASTER,
    ];
    let end = [OTHER_CHAIN_CUT, NO_OTHER_MASTER, POINTS_FULL, POINTS_CHECK];
    variable_call(&[start.as_slice(), rest, &end].concat())
}

#[test]
fn addvc() {
    in_order(|| Scene::on_points(b"ADDVC", 0), &add(&[]));
}

#[test]
fn addva_and_addvb() {
    in_order(|| Scene::on_points(b"ADDVA", 2), &add(&[FREE_RECORD]));
    in_order(|| Scene::on_points(b"ADDVB", 2), &add(&[FREE_RECORD]));
}

#[test]
fn delvd() {
    let faults = variable_call(&[
        KEY_LENGTH,
        BLANK_KEY,
        FORM,
        CHAIN_CUT,
        NO_MASTER,
        FREE_RECORD,
        STORED_MASTER_GONE,
        POINTS_CHECK,
    ]);
    in_order(|| Scene::on_points(b"DELVD", 1), &faults);
}

#[test]
fn every_status_is_reached() {
    let master = [
        SCHEMA,
        SIZE,
        OPERATION,
        NO_SET,
        NO_MASTER_SET,
        AREA_LENGTH,
        KEY_LENGTH,
        BLANK_KEY,
        OTHER_AREA_KEY,
        EXISTS,
        MASTERS_FULL,
        MASTERS_CHECK,
    ];
    let mut seen = in_order(|| Scene::on_masters(b"ADD-M", ABSENT_BOTTLE), &master);
    seen.extend(in_order(
        || Scene::on_masters(b"DEL-M", b"B003"),
        &[HAS_CHAIN],
    ));
    seen.extend(in_order(
        || Scene::on_points(b"ADDVC", 0),
        &[NO_PATH, FORM, NO_MASTER],
    ));
    seen.insert(Status::Done);
    assert!(seen.into_iter().eq(Status::ALL));
}

#[test]
fn lengths_are_exact() {
    let statuses = |spoil: fn(&mut Scene)| {
        let mut scene = Scene::on_points(b"WRITV", 1);
        spoil(&mut scene);
        scene.status()
    };
    assert_eq!(statuses(|scene| scene.fixture.base.clear()), Status::Size);
    let shorter = |scene: &mut Scene| {
        let length = scene.fixture.base.len();
        scene.fixture.base.truncate(length - 512);
    };
    assert_eq!(statuses(shorter), Status::Size);
    let longer = |scene: &mut Scene| {
        scene.fixture.base.extend([0; 512]);
        format(&mut scene.fixture.base);
    };
    assert_eq!(statuses(longer), Status::Size);
    assert_eq!(statuses(|scene| scene.call.area.clear()), Status::Area);
    let pop_area = |scene: &mut Scene| {
        scene.call.area.pop();
    };
    assert_eq!(statuses(pop_area), Status::Area);
    assert_eq!(statuses(|scene| scene.call.key.clear()), Status::Klen);
    let pop_key = |scene: &mut Scene| {
        scene.call.key.pop();
    };
    assert_eq!(statuses(pop_key), Status::Klen);
    // The key length is the named path's.
    let longer_key = |scene: &mut Scene| {
        scene.call.path = *b"CASELKCP";
        scene.call.key = b"CASE0001".to_vec();
    };
    assert_eq!(statuses(longer_key), Status::Done);
    let other_paths_key = |scene: &mut Scene| scene.call.path = *b"CASELKCP";
    assert_eq!(statuses(other_paths_key), Status::Klen);
}

#[test]
fn some_calls_ignore_some_parameters() {
    let mut fixture = stocked();
    let rubbish = b"\xFF\0 rubbish";
    for op in ["SINON", "RQLOC", "RDNXT", "DEL-M", "DELVD", "FORMT"] {
        let (set, key, path) = match op {
            "RQLOC" | "DEL-M" => ("BOTL", b"B003".as_slice(), "\0\0\0\0\0\0\0\0"),
            "DELVD" => ("PNTS", b"B001".as_slice(), "BOTLLKPT"),
            "RDNXT" => ("LABL", rubbish.as_slice(), "nopath!!"),
            _ => ("xxxx", rubbish.as_slice(), "nopath!!"),
        };
        let area = if op == "RDNXT" {
            &[0; 7]
        } else {
            rubbish.as_slice()
        };
        let answered = fixture.on_path(op, set, 1, path, key, area);
        done(answered.status);
        assert_eq!(answered.area, area);
    }
}

#[test]
fn forms_of_the_reference() {
    let status = |op: &[u8; 5], reference| Scene::on_points(op, reference).status();
    for reference in [0, 7, u32::MAX, lk(*b"SP"), lk(*b"ZZ"), END - 1] {
        done(status(b"ADDVC", reference));
    }
    for op in [
        b"READV", b"READR", b"READD", b"WRITV", b"ADDVA", b"ADDVB", b"DELVD",
    ] {
        for reference in [0, 7, u32::MAX, lk(*b"SP"), END] {
            assert_eq!(status(op, reference), Status::Ivrp);
        }
        done(status(op, 1));
    }
    for op in [b"READD", b"WRITV", b"ADDVA", b"ADDVB", b"DELVD"] {
        assert_eq!(status(op, lk(*b"PT")), Status::Ivrp);
    }
}

#[test]
fn a_reference_to_another_chain_is_refused() {
    for op in [b"READV", b"READR", b"READD", b"ADDVA", b"ADDVB", b"DELVD"] {
        let mut scene = Scene::on_points(op, 1);
        // Live and named, but record 1 is not on this bottle's chain.
        scene.set_keys(b"B003");
        assert_eq!(scene.status(), Status::Ivrp);
    }
}

#[test]
fn a_key_of_zero_bytes_is_a_key() {
    let mut fixture = stocked();
    let added = fixture.on_set("ADD-M", "CASE", 0, &[0; 8], &[0; 8]);
    done(added.status);
    let nearly_blank = [0x20, 0x20, 0x20, 0x20, 0x20, 0x20, 0x20, 0x21];
    done(
        fixture
            .on_set("ADD-M", "CASE", 0, &nearly_blank, &nearly_blank)
            .status,
    );
    let area = [b"B003".as_slice(), &[0; 8], b"B003data"].concat();
    let added = fixture.on_path("ADDVC", "PNTS", 0, "CASELKCP", &[0; 8], &area);
    done(added.status);
    done(fixture.sinon());
}
