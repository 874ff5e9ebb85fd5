//! The fixed lists give the answers that stand beside them.

use oracle::script::Script;

fn answers(calls: &str, guarded: bool) -> String {
    let mut output = Vec::new();
    let run = Script::new(guarded).run(&mut calls.as_bytes(), &mut output);
    run.expect("a script in memory can be read");
    String::from_utf8(output).expect("answers are text")
}

fn assert_list(calls: &str, expected: &str) {
    assert_answers(&answers(calls, true), expected);
}

fn assert_answers(given: &str, expected: &str) {
    for (line, (given, expected)) in given.lines().zip(expected.lines()).enumerate() {
        assert_eq!(given, expected, "answer line {}", line + 1);
    }
    assert_eq!(given.lines().count(), expected.lines().count());
}

#[test]
fn manager() {
    assert_list(
        include_str!("../lists/manager.calls"),
        include_str!("../lists/manager.answers"),
    );
}

#[test]
fn machine() {
    assert_list(
        include_str!("../lists/machine.calls"),
        include_str!("../lists/machine.answers"),
    );
}

#[test]
fn proved() {
    assert_list(
        include_str!("../lists/proved.calls"),
        include_str!("../lists/proved.answers"),
    );
}

#[test]
fn edges() {
    assert_list(
        include_str!("../lists/edges.calls"),
        include_str!("../lists/edges.answers"),
    );
}

#[test]
fn points() {
    assert_list(
        include_str!("../lists/points.calls"),
        include_str!("../lists/points.answers"),
    );
}

#[test]
fn panics() {
    let calls = include_str!("../lists/panics.calls");
    let expected = include_str!("../lists/panics.answers");
    assert_answers(&answers(calls, false), expected);
    assert!(!answers(calls, true).contains("panic"));
}

#[test]
fn bad_lines_are_told_and_the_run_goes_on() {
    let calls = "reserve 1\nmanager 0 0x1000\n\n# a comment\nbogus\nreserve +1\nreserve 1 2\n\
                 reserve 0x10000000000000000\nreserve 18446744073709551616\nreserve 0x\n\
                 close 0\nstart 1\nfile readable 00\nstore 0 0 256\ncreate 0 huge any 1\nreserve 1";
    let expected = "? line 1: there is no manager yet\nok\n? line 5: no call is named bogus\n\
                    ? line 6: LEN is no number: +1\n? line 7: too much: 2\n\
                    ? line 8: LEN is no number: 0x10000000000000000\n\
                    ? line 9: LEN is no number: 18446744073709551616\n\
                    ? line 10: LEN is no number: 0x\n? line 11: there is no machine yet\nok\n\
                    ? line 13: files are lent before the machine is started\n\
                    ? line 14: BYTE is no byte: 256\n? line 15: no kind is named huge\nok 0x0 0\n";
    assert_eq!(answers(calls, true), expected);
}

#[test]
fn a_region_takes_65535_pins() {
    let mut calls = String::from("start 1\nopen 0x1000 0x1000\ncreate 0 shared any 1\n");
    calls += &"pin 0 0x1000\n".repeat(65_535);
    calls += "pin 0 0x1000\nunpin 0 0x1000\npin 0 0x1000\nremove 0 0x1000\nstate\n";
    let given = answers(&calls, true);
    let end: Vec<&str> = given.lines().skip(3 + 65_535).collect();
    let region = "region 0 0x1000 0x1 shared detached pins 65535 range 0 1 1";
    assert_eq!(end[..4], ["no 21 TableFull", "ok", "ok", "ok"]);
    assert!(end.contains(&region));
}
