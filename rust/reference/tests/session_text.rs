//! The session program: the worked session, and what is a form and what not.

mod common;

use reference::session::{answer_text, run, Answer, Form, Session};

const FORMAT: &str =
    "(format (parts 0) (page 64) (pages 1) (kept 2) (bits 64) (hashes 3) (list 1))";

const WORKED: &str = "\
(format (parts 0) (page 64) (pages 1) (kept 2) (bits 64) (hashes 3) (list 1))
(put 1 10)
(put 2 20)
(put 3 30)
(put 0 40)
(get 2)
(del 2)
(get 2)
(del 3)
(get 3)
(flush 0)
(get 0)
";

const WORKED_OUTPUT: &str = "\
(ok 0)
(ok 0)
(ok 0)
(ok 0)
(ok 1)
(found 20 1 3)
(ok 0)
(none 0 0)
(refused 14 0)
(found 30 1 4)
(ok 1)
(found 40 1 1)
";

/// The output for an input, which must not depend on how it is read.
fn output(input: &[u8]) -> String {
    let text = answer_text(input);
    let mut streamed = Vec::new();
    run(input, &mut streamed).unwrap();
    assert_eq!(streamed, text.as_bytes());
    text
}

fn is_bad(line: &[u8]) -> bool {
    assert!(!line.contains(&b'\n'));
    let bad = Form::read(line).is_none();
    let ended = [line, b"\n"].concat();
    assert_eq!(output(&ended) == "(bad)\n", bad);
    bad
}

#[test]
fn the_worked_session() {
    assert_eq!(output(WORKED.as_bytes()), WORKED_OUTPUT);
}

#[test]
fn a_last_line_needs_no_byte_10() {
    assert_eq!(output(WORKED.trim_end().as_bytes()), WORKED_OUTPUT);
}

#[test]
fn lines_and_the_end_of_input() {
    assert_eq!(output(b""), "");
    assert_eq!(output(b"\n"), "(bad)\n");
    assert_eq!(output(b"\n\n"), "(bad)\n(bad)\n");
    assert_eq!(
        output(b"(get 1)\n\n(get 1)"),
        "(refused 11 0)\n(bad)\n(refused 11 0)\n"
    );
    assert_eq!(output(b"(get 1)\n"), "(refused 11 0)\n");
    assert_eq!(output(b"(get 1"), "(bad)\n");
}

#[test]
fn before_a_format_every_form_is_refused() {
    let input =
        b"(put 1 2)\n(get 1)\n(del 1)\n(flush 0)\n(flush 9)\n(count 0)\n(drop 0)\nno form\n";
    let refused = "(refused 11 0)\n".repeat(7);
    assert_eq!(output(input), refused + "(bad)\n");
}

/// Texts that are no form.
const BAD: [&[u8]; 54] = [
    b"",
    b" ",
    b"(",
    b"()",
    b"(bad)",
    b"get 1",
    b"(get)",
    b"(get )",
    b"(get 1",
    b"(get 1))",
    b"(get 1) ",
    b" (get 1)",
    b"(get  1)",
    b"(get 1 )",
    b"( get 1)",
    b"(get\t1)",
    b"(get 1)\r",
    b"(get 1)\0",
    b"(Get 1)",
    b"(GET 1)",
    b"(get -1)",
    b"(get +1)",
    b"(get 0x1)",
    b"(get 1.0)",
    b"(get 1,000)",
    b"(get 00)",
    b"(get 01)",
    b"(get one)",
    b"(get 1 2)",
    b"(get \xff)",
    b"(get \xd9\xa1)",
    b"(put 1)",
    b"(put 1 )",
    b"(put 1  2)",
    b"(put 1 2 3)",
    b"(put 1 02)",
    b"(put  1 2)",
    b"(del)",
    b"(del 1 1)",
    b"(flush)",
    b"(flush 0 0)",
    b"(view 0 0 0)",
    b"(text 0)",
    b"(count)",
    b"(count 0 0)",
    b"(counts 0)",
    b"(Count 0)",
    b"(drop)",
    b"(drop )",
    b"(drop 0 0)",
    b"(drop 00)",
    b"(drops 0)",
    b"(Drop 0)",
    b"(format)",
];

#[test]
fn other_texts_are_bad() {
    for line in BAD {
        assert!(is_bad(line), "{}", String::from_utf8_lossy(line));
    }
}

#[test]
fn figures_have_their_bounds() {
    let most = u64::MAX;
    assert_eq!(
        Form::read(format!("(get {most})").as_bytes()),
        Some(Form::Get(most))
    );
    assert_eq!(
        Form::read(format!("(del {most})").as_bytes()),
        Some(Form::Del(most))
    );
    let put = format!("(put {most} {most})");
    assert_eq!(Form::read(put.as_bytes()), Some(Form::Put(most, most)));
    assert_eq!(Form::read(b"(put 0 0)"), Some(Form::Put(0, 0)));
    assert_eq!(
        Form::read(b"(flush 4294967295)"),
        Some(Form::Flush(u32::MAX))
    );
    assert_eq!(
        Form::read(b"(count 4294967295)"),
        Some(Form::Count(u32::MAX))
    );
    assert_eq!(Form::read(b"(drop 4294967295)"), Some(Form::Drop(u32::MAX)));
    for text in [
        "(get 18446744073709551616)",
        "(del 18446744073709551616)",
        "(put 18446744073709551616 1)",
        "(put 1 18446744073709551616)",
        "(put 1 99999999999999999999999999999999999999999)",
        "(get 184467440737095516150)",
        "(flush 4294967296)",
        "(count 4294967296)",
        "(drop 4294967296)",
        "(flush 18446744073709551615)",
        "(flush 18446744073709551616)",
    ] {
        assert!(is_bad(text.as_bytes()), "{text}");
    }
}

#[test]
fn format_has_seven_parts_in_one_order() {
    assert!(!is_bad(FORMAT.as_bytes()));
    for (from, to) in [
        ("(parts 0) (page 64)", "(page 64) (parts 0)"),
        (" (list 1)", ""),
        ("(list 1)", "(list 1) (list 1)"),
        ("(kept 2)", "(kept 02)"),
        ("(kept 2)", "(kept 4294967296)"),
        ("(kept 2)", "(kept  2)"),
        ("(kept 2)", "(kept)"),
        ("(kept 2)", "(keep 2)"),
        ("(kept 2)", "(kept -2)"),
        ("(kept 2)", "kept 2"),
        ("(kept 2) ", "(kept 2)"),
        ("(kept 2) ", "(kept 2)  "),
        ("(kept 2)", "(kept 2 )"),
        ("format (", "format  ("),
        ("format (", "format("),
        ("(page 64)", "(pages 64)"),
        ("(list 1))", "(list 1)"),
        ("(list 1))", "(list 1) )"),
        ("(list 1))", "(list 1)))"),
        ("(list 1))", "(list 1))\r"),
    ] {
        let line = FORMAT.replace(from, to);
        assert_ne!(line, FORMAT);
        assert!(is_bad(line.as_bytes()), "{line}");
    }
}

#[test]
fn figures_in_range_but_outside_the_table_are_refused() {
    for (from, to, answer) in [
        ("(kept 2)", "(kept 4294967295)", "(refused 1 0)\n"),
        ("(kept 2)", "(kept 0)", "(refused 1 0)\n"),
        ("(parts 0)", "(parts 9)", "(refused 1 0)\n"),
        ("(parts 0)", "(parts 8)", "(ok 0)\n"),
        ("(list 1)", "(list 1024)", "(ok 0)\n"),
        ("(kept 2)", "(kept 32)", "(ok 0)\n"),
        (
            "(page 64) (pages 1) (kept 2)",
            "(page 4096) (pages 8) (kept 1)",
            "(refused 2 0)\n",
        ),
        (
            "(page 64) (pages 1) (kept 2)",
            "(page 4096) (pages 4) (kept 3)",
            "(refused 3 0)\n",
        ),
    ] {
        let line = FORMAT.replace(from, to);
        assert_eq!(output(line.as_bytes()), answer, "{line}");
    }
}

#[test]
fn flush_of_a_partition_that_is_not_there() {
    let input =
        format!("{FORMAT}\n(put 1 1)\n(flush 1)\n(flush 4294967295)\n(flush 0)\n(flush 0)\n");
    let answers = "(ok 0)\n(ok 0)\n(refused 4 0)\n(refused 4 0)\n(ok 1)\n(refused 15 0)\n";
    assert_eq!(output(input.as_bytes()), answers);
}

/// The lines of one session are answered so.
fn check(lines: &[(&str, &str)]) {
    let (mut input, mut answers) = (String::new(), String::new());
    for (line, answer) in lines {
        input += &format!("{line}\n");
        answers += &format!("{answer}\n");
    }
    assert_eq!(output(input.as_bytes()), answers);
}

#[test]
fn counts_of_a_partition() {
    // The fourth put flushes three entries, the last flush pushes them out.
    check(&[
        (FORMAT, "(ok 0)"),
        ("(count 0)", "(ok 0)"),
        ("(count 1)", "(refused 4 0)"),
        ("(put 1 10)", "(ok 0)"),
        ("(put 2 20)", "(ok 0)"),
        ("(put 3 30)", "(ok 0)"),
        ("(put 0 40)", "(ok 1)"),
        ("(put 5 50)", "(ok 0)"),
        ("(count 0)", "(ok 5)"),
        ("(del 5)", "(ok 0)"),
        ("(count 0)", "(ok 4)"),
        ("(del 2)", "(ok 0)"),
        ("(count 0)", "(ok 4)"),
        ("(flush 0)", "(ok 1)"),
        ("(put 6 60)", "(ok 0)"),
        ("(count 0)", "(ok 5)"),
        ("(flush 0)", "(ok 1)"),
        ("(count 0)", "(ok 2)"),
    ]);
}

#[test]
fn drops_of_a_partition() {
    // Two batches, the first with the keys 1, 2 and 3. The list has one place.
    check(&[
        (FORMAT, "(ok 0)"),
        ("(drop 0)", "(refused 23 0)"),
        ("(drop 1)", "(refused 4 0)"),
        ("(put 1 10)", "(ok 0)"),
        ("(put 2 20)", "(ok 0)"),
        ("(put 3 30)", "(ok 0)"),
        ("(put 0 40)", "(ok 1)"),
        ("(flush 0)", "(ok 1)"),
        ("(del 2)", "(ok 0)"),
        ("(del 0)", "(refused 14 0)"),
        ("(count 0)", "(ok 4)"),
        ("(drop 0)", "(ok 0)"),
        ("(count 0)", "(ok 1)"),
        ("(get 1)", "(none 0 0)"),
        ("(get 0)", "(found 40 1 1)"),
        ("(del 0)", "(ok 0)"),
        ("(put 5 50)", "(ok 0)"),
        ("(drop 0)", "(ok 0)"),
        ("(get 0)", "(none 0 1)"),
        ("(get 5)", "(found 50 0 1)"),
        ("(drop 0)", "(refused 23 0)"),
        ("(count 0)", "(ok 1)"),
    ]);
}

#[test]
fn a_bad_line_does_nothing() {
    let mut session = Session::new();
    for line in WORKED.lines().take(6) {
        session.line(line.as_bytes());
    }
    let before = (session.memory().to_vec(), session.flash().to_vec());
    assert_eq!(session.line(b"(put 5 5) "), Answer::Bad);
    assert_eq!(session.line(b"(put 5 5)\r\n"), Answer::Bad);
    assert_eq!(
        (session.memory(), session.flash()),
        (&before.0[..], &before.1[..])
    );
    assert_ne!(session.line(b"(put 5 5)\n"), Answer::Bad);
}

#[test]
fn any_bytes_give_one_answer_a_line() {
    let mut rng = common::Rng(22);
    let alphabet = b"()gputdelfhsormat 0123456789\n\n\r\t\xff";
    for _ in 0..2000 {
        let length = rng.below(60);
        let text: Vec<u8> = (0..length).map(|_| rng.pick(alphabet)).collect();
        let ends = text.iter().filter(|&&byte| byte == b'\n').count();
        let open = usize::from(text.last().is_some_and(|&byte| byte != b'\n'));
        assert_eq!(output(&text).lines().count(), ends + open);
    }
}
