//! SINON: each clause of "sound", broken alone or as nearly alone as may be.

use yarugota_model::{home, sound, Schema, Status};
use yarugota_model::{BLOCK, MASTER_KEY, ROOT_NEXT, ROOT_PRIOR, STATE};
use yarugota_support::stock::{done, stocked};
use yarugota_support::{rules, Fixture};

#[track_caller]
fn not_sound(spoil: impl Fn(&mut Fixture)) {
    let mut fixture = stocked();
    done(fixture.sinon());
    spoil(&mut fixture);
    assert_eq!(fixture.sinon(), Status::Damg);
}

#[track_caller]
fn not_sound_with_pointer(set: &str, record: u32, at: usize, pointer: u32) {
    not_sound(|fixture| fixture.poke_pointer(set, record, at, pointer));
}

#[test]
fn checks() {
    for set in ["BOTL", "CASE", "PNTS", "LABL"] {
        not_sound(|fixture| fixture.break_check(set, 1));
    }
}

#[test]
fn states_fillers_and_free_records() {
    not_sound(|fixture| fixture.poke("LABL", 9, STATE, &[2]));
    not_sound(|fixture| fixture.poke("LABL", 9, STATE, &[0xFF]));
    for byte in 1..4 {
        not_sound(|fixture| fixture.poke("PNTS", 1, byte, &[1]));
        not_sound(|fixture| fixture.poke("BOTL", 1, byte, &[1]));
    }
    for byte in 1..44 {
        not_sound(|fixture| fixture.poke("BOTL", 3, byte, &[1]));
    }
    for byte in 1..19 {
        not_sound(|fixture| fixture.poke("LABL", 1, byte, &[1]));
    }
}

/// All bytes after the records of each set, and before the check.
#[test]
fn leftovers() {
    let taken = [5 * 44, 7 * 28, 6 * 48, 9 * 19];
    for (block, taken) in taken.into_iter().enumerate() {
        for byte in taken..508 {
            not_sound(|fixture| {
                fixture.base[block * BLOCK + byte] = 1;
                fixture.reseal(block);
            });
        }
    }
}

/// A set of several blocks has leftovers in each of them.
#[test]
fn leftovers_of_full_blocks() {
    let mut draft = rules::plain();
    draft.masters[1].records = 40;
    let fixture = Fixture::formatted(&draft.encode());
    // CASE: 18 records of 28 bytes to a block, 40 records, so 4 in its third
    // block.
    for (block, taken) in [(1, 504), (2, 504), (3, 112)] {
        for byte in [taken, taken + 1, 507] {
            let mut fixture = fixture.clone();
            done(fixture.sinon());
            fixture.base[block * BLOCK + byte] = 1;
            fixture.reseal(block);
            assert_eq!(fixture.sinon(), Status::Damg);
        }
    }
}

#[test]
fn blank_keys() {
    // B003 lies at the home of a blank key and has no chain, so nothing else
    // is wrong.
    assert_eq!(home(b"    ", 5), 4);
    not_sound(|fixture| fixture.poke("BOTL", 4, MASTER_KEY, b"    "));
    // A record's key cannot be blank alone: its master would have to be, too.
    not_sound(|fixture| fixture.poke("PNTS", 2, 32, b"    "));
}

#[test]
fn distinct_master_keys() {
    // B003 once more, as a synonym of itself.
    not_sound(|fixture| {
        let record = fixture.view().set(0).record(4).bytes.to_vec();
        fixture.poke("BOTL", 3, 0, &record);
        fixture.poke_pointer("BOTL", 3, ROOT_PRIOR, 4);
        fixture.poke_pointer("BOTL", 4, ROOT_NEXT, 3);
    });
}

#[test]
fn pointers_of_a_home_chain() {
    // Prior of the home, next of the last, prior of the synonym.
    not_sound_with_pointer("BOTL", 2, ROOT_PRIOR, 1);
    not_sound_with_pointer("BOTL", 1, ROOT_NEXT, 2);
    not_sound_with_pointer("BOTL", 1, ROOT_NEXT, 1);
    not_sound_with_pointer("BOTL", 1, ROOT_NEXT, 4);
    not_sound_with_pointer("BOTL", 1, ROOT_NEXT, 3);
    not_sound_with_pointer("BOTL", 1, ROOT_NEXT, 99);
    not_sound_with_pointer("BOTL", 1, ROOT_PRIOR, 0);
    not_sound_with_pointer("BOTL", 1, ROOT_PRIOR, 4);
}

#[test]
fn every_master_is_on_the_chain_of_its_home() {
    // The synonym is on no chain.
    not_sound_with_pointer("BOTL", 2, ROOT_NEXT, 0);
    not_sound(|fixture| {
        fixture.poke_pointer("BOTL", 2, ROOT_NEXT, 0);
        fixture.poke_pointer("BOTL", 1, ROOT_PRIOR, 0);
    });
    // A record of another home is on the chain.
    not_sound(|fixture| {
        fixture.poke_pointer("BOTL", 1, ROOT_NEXT, 4);
        fixture.poke_pointer("BOTL", 4, ROOT_PRIOR, 1);
    });
    // Two chains have changed their last records.
    not_sound(|fixture| {
        done(
            fixture
                .on_set("ADD-M", "BOTL", 0, b"B008", b"B008NECK")
                .status,
        );
        done(fixture.sinon());
        fixture.poke_pointer("BOTL", 2, ROOT_NEXT, 3);
        fixture.poke_pointer("BOTL", 3, ROOT_PRIOR, 2);
        fixture.poke_pointer("BOTL", 4, ROOT_NEXT, 1);
        fixture.poke_pointer("BOTL", 1, ROOT_PRIOR, 4);
    });
    // A master away from its home, which is free.
    not_sound(|fixture| {
        let record = fixture.view().set(0).record(4).bytes.to_vec();
        fixture.poke("BOTL", 3, 0, &record);
        fixture.poke("BOTL", 4, 0, &[0; 44]);
    });
}

#[test]
fn path_ends() {
    // PT of B001 holds 1, 2 and 3.
    for at in [16, 20] {
        for pointer in [0, 2, 4, 6, 99] {
            not_sound_with_pointer("BOTL", 2, at, pointer);
        }
    }
    // PT of B003 holds nothing.
    not_sound_with_pointer("BOTL", 4, 16, 1);
    not_sound_with_pointer("BOTL", 4, 20, 1);
    // The path of a set without records.
    not_sound_with_pointer("BOTL", 4, 32, 1);
    not_sound_with_pointer("BOTL", 4, 36, 1);
}

#[test]
fn path_pointers() {
    // Prior and next of point 2 on PT, CP and SP.
    for (at, right) in [(8, 1), (12, 3), (24, 1), (28, 0), (36, 0), (40, 0)] {
        for pointer in [0, 1, 2, 3, 4, 6, 99] {
            if pointer != right {
                not_sound_with_pointer("PNTS", 2, at, pointer);
            }
        }
    }
}

#[test]
fn chains_hold_exactly_the_records_of_the_key() {
    // Point 3 is left out of PT, or point 4 of another bottle let in.
    not_sound(|fixture| {
        fixture.poke_pointer("PNTS", 2, 12, 0);
        fixture.poke_pointer("BOTL", 2, 20, 2);
    });
    not_sound(|fixture| {
        fixture.poke_pointer("PNTS", 3, 12, 4);
        fixture.poke_pointer("PNTS", 4, 8, 3);
        fixture.poke_pointer("BOTL", 2, 20, 4);
    });
    // Points 3 and 4 have changed chains.
    not_sound(|fixture| {
        fixture.poke_pointer("PNTS", 2, 12, 4);
        fixture.poke_pointer("PNTS", 4, 8, 2);
        fixture.poke_pointer("BOTL", 2, 20, 4);
        fixture.poke_pointer("PNTS", 3, 8, 0);
        fixture.poke_pointer("BOTL", 5, 16, 3);
        fixture.poke_pointer("BOTL", 5, 20, 3);
    });
    // The whole chain is left out.
    not_sound(|fixture| {
        fixture.poke_pointer("BOTL", 2, 16, 0);
        fixture.poke_pointer("BOTL", 2, 20, 0);
    });
}

#[test]
fn every_variable_key_has_its_master() {
    // Point 4 is the only one of B004; now it says B007, which is not there.
    not_sound(|fixture| {
        fixture.poke("PNTS", 4, 4, b"B007");
        fixture.poke_pointer("BOTL", 5, 16, 0);
        fixture.poke_pointer("BOTL", 5, 20, 0);
    });
}

#[test]
fn a_home_may_be_free_or_hold_a_stranger() {
    // Home 1 holds the stranger B006, home 3 is free.
    let mut fixture = stocked();
    done(fixture.sinon());
    let deleted = fixture.on_set("DEL-M", "BOTL", 0, b"B003", b"");
    done(deleted.status);
    done(fixture.sinon());
}

#[test]
fn a_wrong_length_is_not_sound() {
    let fixture = stocked();
    let schema = Schema::decode(&fixture.schema).unwrap();
    assert!(sound(&schema, &fixture.base));
    let shorter = &fixture.base[..fixture.base.len() - BLOCK];
    assert!(!sound(&schema, shorter));
    assert!(!sound(&schema, &[]));
}
