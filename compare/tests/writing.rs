//! Single sentences of requests (i) and (viii) of document 02 on the writer, each with an answer worked out by hand,
//! on every implementation; and what is said of every file and every text.

use compare::answer::Prints;
use compare::generate::families::bench_g;
use compare::generate::file::file_of;
use compare::generate::{Input, Source};
use compare::plain::{blocks, read, words_of_text, write, write_grammar};
use compare::telling::lists::telling_sums;
use compare::{examples, implementations};
use std::io::Write;
use std::process::{Command, Stdio};

/// Runs a test on every implementation.
fn each(test: impl Fn(&dyn Prints)) {
    for implementation in implementations::all() {
        test(implementation.as_ref());
    }
}

#[test]
fn every_implementation_meets_the_examples() {
    each(|on| assert_eq!(examples::writing::failures(on), Vec::<String>::new()));
}

#[test]
fn only_the_blocks_written_read_back() {
    each(|on| {
        let mut bytes = vec![170; 1_024];
        assert_eq!(on.write(&[5], &mut bytes), Ok(512));
        let mut words = vec![9; 3];
        assert_eq!(on.read(&bytes[..512], &mut words), Ok(1));
        assert_eq!(words, [5, 0, 0]);
        assert_eq!(on.read(&bytes, &mut words), Err(3));
    });
}

#[test]
fn a_block_has_its_bytes_where_document_01_says() {
    each(|on| {
        let mut bytes = vec![170; 520];
        // 3 x 2 + 5 x 0x34 + 6 x 0x12 + 7 x 0xff = 2,159 = 8 x 256 + 111.
        assert_eq!(on.write(&[0x1234, 0x00ff], &mut bytes), Ok(512));
        assert_eq!(bytes[..8], [0, 0, 2, 0, 0x34, 0x12, 0xff, 0]);
        assert!(bytes[8..510].iter().chain(&bytes[512..]).all(|&b| b == 0));
        assert_eq!(bytes[510..512], [111, 8]);
    });
}

#[test]
fn refusal_13_comes_before_14_and_both_leave_zeros() {
    each(|on| {
        for (count, room, refusal) in [
            (0, 0, 13),
            (0, 9_000, 13),
            (1, 0, 14),
            (1, 511, 14),
            (253, 511, 14),
            (506, 1_023, 14),
            (2_783, 5_631, 14),
            (2_784, 0, 13),
            (2_784, 5_631, 13),
            (2_784, 9_000, 13),
            (65_536, 9_000, 13),
            (65_537, 0, 13),
        ] {
            let mut bytes = vec![170; room];
            let answer = on.write(&vec![7; count], &mut bytes);
            assert_eq!(answer, Err(refusal), "{count} words in {room}");
            assert!(bytes.iter().all(|&byte| byte == 0));
        }
    });
}

#[test]
fn the_telling_sums_have_the_checks_that_their_comment_claims() {
    let checks: Vec<u16> = telling_sums()
        .iter()
        .rev()
        .take(5)
        .rev()
        .map(|(words, room)| {
            let mut bytes = vec![170; *room];
            assert_eq!(write(words, &mut bytes), Ok(512));
            u16::from_le_bytes([bytes[510], bytes[511]])
        })
        .collect();
    assert_eq!(checks, [65_520, 0, 1, 14, 15]);
}

/// 02 (viii): the writer refuses "six words or more with word 5 equal to 1", after 13 and before 14, whatever else the
/// words are.
#[test]
fn refusal_16_comes_behind_13_and_before_14_and_leaves_zeros() {
    each(|on| {
        let answer = |words: &[u16], room: usize| {
            let mut bytes = vec![170; room];
            let answer = on.write(words, &mut bytes);
            assert!(answer.is_ok() || bytes.iter().all(|&byte| byte == 0));
            answer
        };
        for count in 1..=5 {
            assert_eq!(answer(&vec![1; count], 512), Ok(512));
            assert_eq!(answer(&vec![1; count], 511), Err(14));
        }
        for count in [6, 7, 42, 253, 254, 2_783] {
            for room in [0, 511, 512, 5_632, 9_000] {
                assert_eq!(answer(&vec![1; count], room), Err(16), "{count} in {room}");
            }
        }
        for room in [0, 512, 9_000] {
            assert_eq!(answer(&vec![1; 2_784], room), Err(13));
            assert_eq!(answer(&vec![1; 65_536], room), Err(13));
        }
        // Only word 5, and only 1.
        for place in 0..9 {
            let mut words = vec![0; 9];
            words[place] = 1;
            let expected = if place == 5 { Err(16) } else { Ok(512) };
            assert_eq!(answer(&words, 512), expected);
        }
        for word in (0..=u16::MAX).filter(|&word| word != 1) {
            assert_eq!(answer(&[0, 0, 0, 0, 0, word], 512), Ok(512));
        }
    });
}

/// "A file the reader accepts is the only one for its words", and the generators' own writer agrees. The blocks and the
/// reader know nothing of the unit, and the writer writes these blocks where word 5 is not 1.
#[test]
fn a_file_that_is_accepted_is_the_one_that_is_written() {
    let source = Source::new(31);
    let (mut accepted, mut refused, mut old) = (0, 0, 0);
    for index in 0..20_000 {
        let Input::Read { file, .. } = source.input(index) else {
            continue;
        };
        let mut words = vec![9; 3_000];
        let Ok(count) = read(&file, &mut words) else {
            refused += 1;
            continue;
        };
        let mut bytes = vec![170; file.len()];
        let answer = write(&words[..count], &mut bytes);
        if count > 5 && words[5] == 1 {
            assert_eq!(answer, Err(16));
            old += 1;
        } else {
            assert_eq!(answer, Ok(file.len()));
            assert_eq!(bytes, file);
        }
        assert_eq!(blocks(&words[..count]), file);
        assert_eq!(file_of(&words[..count]), file);
        accepted += 1;
    }
    assert!(
        accepted > 500 && refused > 500 && old > 50,
        "{accepted}, {old} of them with unit 1, and {refused}"
    );
}

#[test]
fn a_text_spells_its_words() {
    let good: [(&str, &[u16]); 9] = [
        ("", &[]),
        (" \t\r\n", &[]),
        ("0", &[0]),
        ("7 4 6", &[7, 4, 6]),
        ("\n7\t4\r\n6\n\n", &[7, 4, 6]),
        ("007 010 08", &[7, 10, 8]),
        ("65535", &[65_535]),
        ("0000000000000000000000000065535 1", &[65_535, 1]),
        ("12\r34", &[12, 34]),
    ];
    for (text, words) in good {
        assert_eq!(
            words_of_text(text.as_bytes()),
            Ok(words.to_vec()),
            "{text:?}"
        );
    }
    for (text, place) in [
        ("65536", 1),
        ("1 65536 x", 2),
        ("+5", 1),
        ("0 -1", 2),
        ("1 2 0x10", 3),
        ("1,2", 1),
        ("1 2\0 3", 2),
        ("1\u{b}2", 1),
        ("\u{e9}", 1),
        ("18446744073709551616", 1),
        ("4294967296", 1),
    ] {
        assert_eq!(words_of_text(text.as_bytes()), Err(place), "{text:?}");
    }
}

#[test]
fn the_program_makes_a_file_or_says_why_not() {
    let words = bench_g().words();
    let text: String = words.iter().map(|word| format!("{word}\n")).collect();
    assert_eq!(write_grammar(text.as_bytes()), Ok(file_of(&words)));
    let refused = Err("write_grammar: refused 13\n".to_string());
    assert_eq!(write_grammar(b" \n"), refused);
    assert_eq!(write_grammar("7 ".repeat(2_784).as_bytes()), refused);
    assert_eq!(
        write_grammar("7 ".repeat(2_783).as_bytes()),
        Ok(file_of(&[7; 2_783]))
    );
    // Unit 1, and five words.
    let refused = Err("write_grammar: refused 16\n".to_string());
    assert_eq!(write_grammar(b"7 4 6 1 4 1\n"), refused);
    assert_eq!(write_grammar("1 ".repeat(2_783).as_bytes()), refused);
    assert_eq!(write_grammar(b"7 4 6 1 4"), Ok(file_of(&[7, 4, 6, 1, 4])));
    // A word that is no number is told before 13.
    let mut long = "7 ".repeat(2_800);
    long.push('x');
    let told = "write_grammar: word 2801 is no number from 0 to 65535\n";
    assert_eq!(write_grammar(long.as_bytes()), Err(told.to_string()));
}

#[test]
fn the_program_leaves_standard_output_empty_where_it_makes_no_file() {
    for (text, line, size) in [
        ("65535\n", "", 512),
        ("", "write_grammar: refused 13\n", 0),
        ("7 4 6 1 4 1\n", "write_grammar: refused 16\n", 0),
        (
            "1 2 x",
            "write_grammar: word 3 is no number from 0 to 65535\n",
            0,
        ),
    ] {
        let mut program = Command::new(env!("CARGO_BIN_EXE_write_grammar"))
            .stdin(Stdio::piped())
            .stdout(Stdio::piped())
            .stderr(Stdio::piped())
            .spawn()
            .expect("the program starts");
        let mut to = program.stdin.take().expect("a pipe");
        to.write_all(text.as_bytes()).expect("it listens");
        drop(to);
        let done = program.wait_with_output().expect("it ends");
        assert_eq!(done.stdout.len(), size);
        assert_eq!(String::from_utf8_lossy(&done.stderr), line);
    }
}
