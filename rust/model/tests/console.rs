//! The console: document 01's listing, and the forms of its lines.

use yarugota_model::console::run;

/// What one line prints on a fresh store, without its number.
fn prints(line: &[u8]) -> String {
    let printed = String::from_utf8(run(line)).unwrap();
    let printed = printed.strip_prefix("1 ").unwrap();
    printed.strip_suffix('\n').unwrap().to_string()
}

#[track_caller]
fn form(line: &[u8]) {
    assert_eq!(prints(line), "FORM - -");
}

const LISTING: &str = "\
ADD-M BOTL 0 - B001 B001NECK
ADDVC PNTS LKPT BOTLLKPT B001 B001p001
ADDVB PNTS 1 BOTLLKPT B001 B001p002
READV PNTS LKPT BOTLLKPT B001 -
READV PNTS 2 BOTLLKPT B001 -
READV PNTS 1 BOTLLKPT B001 -
READV PNTS END. BOTLLKPT B001 -
DEL-M BOTL 0 - B001 -
";

const PRINTED: &str = "\
1 **** 0 -
2 **** 1 -
3 **** 2 -
4 **** 2 B001p002
5 **** 1 B001p001
6 **** END. -
7 IVRP END. -
8 IMDL 0 -
";

#[test]
fn the_listing() {
    assert_eq!(String::from_utf8(run(LISTING.as_bytes())).unwrap(), PRINTED);
}

#[test]
fn the_last_newline_may_be_missing() {
    let listing = LISTING.strip_suffix('\n').unwrap();
    assert_eq!(String::from_utf8(run(listing.as_bytes())).unwrap(), PRINTED);
}

#[test]
fn lines_are_counted() {
    assert_eq!(run(b""), b"");
    assert_eq!(run(b"\n"), b"1 FORM - -\n");
    assert_eq!(run(b"\n\n"), b"1 FORM - -\n2 FORM - -\n");
    assert_eq!(
        run(b"\nSINON - 4 - - -\n\nSINON - 5 - - -"),
        b"1 FORM - -\n2 **** 4 -\n3 FORM - -\n4 **** 5 -\n"
    );
}

#[test]
fn a_line_has_at_most_128_bytes() {
    let start = b"SINON - 7 - - ".to_vec();
    let mut line = start;
    line.resize(128, b'x');
    assert_eq!(prints(&line), "**** 7 -");
    line.push(b'x');
    form(&line);
    // The newline is not counted, and the next line is read again.
    line.pop();
    line.extend(b"\nSINON - 8 - - -\n");
    assert_eq!(run(&line), b"1 **** 7 -\n2 **** 8 -\n");
}

#[test]
fn six_fields_with_one_blank_between() {
    form(b"SINON - 0 - -");
    form(b"SINON - 0 - - - -");
    form(b" SINON - 0 - - -");
    form(b"SINON - 0 - - - ");
    form(b"SINON  - 0 - - -");
    form(b"SINON - 0 -  -");
    form(b"SINON - 0 - - ");
    form(b"SINON\t- 0 - - -");
    form(b"SINON");
    form(b" ");
}

#[test]
fn names_have_their_lengths() {
    form(b"SINO - 0 - - -");
    form(b"SINONX - 0 - - -");
    form(b"- - 0 - - -");
    form(b"READM BOT 0 - B001 -");
    form(b"READM BOTLE 0 - B001 -");
    form(b"READV PNTS LKPT BOTLLKP B001 -");
    form(b"READV PNTS LKPT BOTLLKPTS B001 -");
}

#[test]
fn a_dash_is_empty_or_blanks() {
    assert_eq!(prints(b"READM - 0 - B001 -"), "FNTF 0 -");
    assert_eq!(prints(b"READV PNTS LKPT - B001 -"), "PATH LKPT -");
    assert_eq!(prints(b"READM BOTL 0 - - -"), "KLEN 0 -");
    assert_eq!(prints(b"ADD-M BOTL 0 - B001 -"), "AREA 0 -");
    assert_eq!(prints(b"ADD-M BOTL 0 - B001 ----"), "AREA 0 -");
}

#[test]
fn an_unknown_operation_is_a_call() {
    assert_eq!(prints(b"SINOF - 0 - - -"), "FUNC 0 -");
    assert_eq!(prints(b"sinon - 0 - - -"), "FUNC 0 -");
    assert_eq!(prints(b"-\t... - 0 - - -"), "FUNC 0 -");
}

#[test]
fn references_are_decimal_or_written_out() {
    assert_eq!(prints(b"SINON - 0 - - -"), "**** 0 -");
    assert_eq!(prints(b"SINON - 007 - - -"), "**** 7 -");
    assert_eq!(prints(b"SINON - 4294967295 - - -"), "**** 4294967295 -");
    assert_eq!(
        prints(b"SINON - 00000000004294967295 - - -"),
        "**** 4294967295 -"
    );
    assert_eq!(prints(b"SINON - LKPT - - -"), "**** LKPT -");
    assert_eq!(prints(b"SINON - LK09 - - -"), "**** LK09 -");
    assert_eq!(prints(b"SINON - LKAZ - - -"), "**** LKAZ -");
    assert_eq!(prints(b"SINON - END. - - -"), "**** END. -");
    form(b"SINON - 4294967296 - - -");
    form(b"SINON - 99999999999999999999999999 - - -");
    form(b"SINON - - - - -");
    form(b"SINON - +1 - - -");
    form(b"SINON - -1 - - -");
    form(b"SINON - 1x - - -");
    form(b"SINON - 0x1 - - -");
    form(b"SINON - LKpt - - -");
    form(b"SINON - lkPT - - -");
    form(b"SINON - LK-1 - - -");
    form(b"SINON - LKP - - -");
    form(b"SINON - LKPTS - - -");
    form(b"SINON - END - - -");
    form(b"SINON - end. - - -");
    form(b"SINON - \xFF\xFE - - -");
}

#[test]
fn references_print_as_what_they_equal() {
    let end = 0x454E_442E_u32;
    let lkpt = u32::from_be_bytes(*b"LKPT");
    let lower = u32::from_be_bytes(*b"LKpt");
    let decimal = |number: u32| prints(format!("SINON - {number} - - -").as_bytes());
    assert_eq!(decimal(end), "**** END. -");
    assert_eq!(decimal(lkpt), "**** LKPT -");
    assert_eq!(decimal(lower), format!("**** {lower} -"));
    assert_eq!(decimal(end + 1), format!("**** {} -", end + 1));
}

#[test]
fn deleting_the_first_record_prints_lkxx() {
    let input = b"ADD-M BOTL 0 - B001 B001NECK\n\
        ADDVC PNTS 0 BOTLLKPT B001 B001p001\n\
        ADDVC PNTS 0 BOTLLKPT B001 B001p002\n\
        DELVD PNTS 2 BOTLLKPT B001 -\n\
        DELVD PNTS 1 BOTLLKPT B001 -\n";
    let printed = b"1 **** 0 -\n2 **** 1 -\n3 **** 2 -\n4 **** 1 -\n5 **** LKPT -\n";
    assert_eq!(run(input), printed);
}

#[test]
fn reads_use_the_consoles_own_area() {
    let input = b"ADD-M BOTL 0 - B001 B001NECK\n\
        READM BOTL 0 - B001 anything\n\
        RDNXT BOTL 0 - - -\n\
        RDNXT BOTL 2 - - -\n\
        RDNXT PNTS 0 - - -\n\
        READM CASE 0 - B001 -\n\
        RQLOC BOTL 0 - B001 -\n\
        WRITM BOTL 0 - B001 B001\xC3\xA4\xC3\xB6\n\
        READM BOTL 0 - B001 -\n";
    let printed = "1 **** 0 -\n\
        2 **** 2 B001NECK\n\
        3 **** 2 B001NECK\n\
        4 **** END. -\n\
        5 **** END. -\n\
        6 FNTF 0 -\n\
        7 **** 2 -\n\
        8 **** 0 -\n\
        9 **** 2 B001äö\n";
    assert_eq!(String::from_utf8(run(input)).unwrap(), printed);
}

#[test]
fn areas_print_raw() {
    let input = b"ADD-M BOTL 0 - \xFF\0\r- \xFF\0\r-\x01\x02\x03\x04\nREADM BOTL 0 - \xFF\0\r- -\n";
    let lines = run(input);
    let second = lines.split(|&byte| byte == b'\n').nth(1).unwrap();
    assert!(second.ends_with(b" \xFF\0\r-\x01\x02\x03\x04"));
}
