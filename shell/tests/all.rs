//! Tests the program by running it. tests/duration_model.py tries what it reads and prints, and
//! tests/completions what shells complete.
use duration_str::parse_duration;
use std::ffi::OsStr;
use std::fs::File;
use std::io::{Read, Write};
use std::os::unix::ffi::OsStrExt;
use std::os::unix::process::ExitStatusExt;
use std::process::{Child, Command, Stdio};

const PROGRAM: &str = env!("CARGO_BIN_EXE_duration");

fn program(words: &[&str]) -> Command {
    let mut command = Command::new("timeout");
    command.args(["60", PROGRAM]).args(words);
    command
}

fn piped(words: &[&str]) -> Child {
    program(words)
        .stdin(Stdio::piped())
        .stdout(Stdio::piped())
        .stderr(Stdio::piped())
        .spawn()
        .unwrap()
}

/// Returns the status, the output and the standard error.
fn run(words: &[&str], input: &[u8]) -> (i32, String, String) {
    let mut child = piped(words);
    let (mut stdin, input) = (child.stdin.take().unwrap(), input.to_vec());
    // The program may end before it has read everything.
    let writer = std::thread::spawn(move || drop(stdin.write_all(&input)));
    let ended = child.wait_with_output().unwrap();
    writer.join().unwrap();
    let text = |bytes| String::from_utf8(bytes).unwrap();
    let status = ended.status.code().unwrap();
    (status, text(ended.stdout), text(ended.stderr))
}

fn answer(words: &[&str]) -> String {
    let (status, output, errors) = run(words, b"");
    assert_eq!((status, &*errors), (0, ""), "{words:?}");
    output
}

fn line(text: &str) -> String {
    parse_duration(text).unwrap_err().to_string()
}

#[test]
fn takes_a_minus_for_a_text() {
    for words in [
        &["-5m", "--to", "s", "1m"][..],
        &["--to", "s", "--", "-5m", "1m"],
    ] {
        let errors = format!("duration: argument 1: {}\n", line("-5m"));
        assert_eq!(run(words, b""), (1, "60\n".into(), errors));
    }
    let errors = format!("duration: argument 1: {}\n", line(" -5m"));
    assert_eq!(run(&[" -5m"], b""), (1, "".into(), errors));
    let json = run(&["--json", "-.5"], b"").1;
    assert!(json.starts_with(&begin_of_json("-.5")), "{json}");
}

/// The beginning of the object for a text that is refused at its first character, a minus sign.
fn begin_of_json(text: &str) -> String {
    let fields = [
        r#""argument":1"#,
        r#""cause":"SYNTAX""#,
        r#""column":1"#,
        r#""expected":["number"]"#,
        r#""found":"-""#,
    ];
    format!(r#"{{"text":"{text}",{},"#, fields.join(","))
}

#[test]
fn gives_programs_all_that_a_message_says() {
    let json = run(&["--json", "2h 1.5min", "+5m", "2h*3m+1"], b"").1;
    let wanted = [
        concat!(
            r#"{"text":"2h 1.5min","argument":1,"cause":"SYNTAX","column":5,"#,
            r#""expected":["unit","operator","end"],"found":".","#,
            r#""help":"FRACTION","suggestion":"90s","span":[3,9],"mended":"2h 90s","#,
            r#""message":"expected a unit, '+', '*' or the end at column 5, found \".\" "#,
            r#"(fractions are not read: write 90s)"}"#,
        ),
        concat!(
            r#"{"text":"+5m","argument":2,"cause":"SYNTAX","column":1,"#,
            r#""expected":["number"],"found":"+","#,
            r#""help":"LEADING_PLUS","suggestion":"","span":[0,1],"mended":"5m","#,
            r#""message":"expected a number at column 1, found \"+\" "#,
            r#"(a leading \"+\" is not read)"}"#,
        ),
        concat!(
            r#"{"text":"2h*3m+1","argument":3,"cause":"MIXED","column":null,"#,
            r#""expected":[],"found":null,"help":null,"suggestion":null,"#,
            r#""span":null,"mended":null,"message":"sum and product mixed in \"2h*3m+1\""}"#,
        ),
    ];
    assert_eq!(json.lines().collect::<Vec<_>>(), wanted);
}

#[test]
fn reads_mended_texts() {
    let lines = b"a,\"2hrs 1.5min\"\nb,1h\nc,1_000.5 mins.\n";
    let words = ["--mend", "-d,", "--field=2"];
    let output = "a,\"2h 1min 30s\"\nb,1h\nc,16h 40min 30s\n";
    assert_eq!(run(&words, lines), (0, output.into(), "".into()));
    let json = answer(&["--mend", "--json", "5 mins", "+5m"]);
    assert!(json.starts_with(r#"{"text":"5 mins","mended":"5 min","nanoseconds":"300000000000","#));
    assert!(
        json.contains("\n{\"text\":\"+5m\",\"mended\":\"5m\","),
        "{json}"
    );
    let json = answer(&["--mend", "--json", "5m"]);
    assert!(json.starts_with(r#"{"text":"5m","mended":null,"nanoseconds":"#));
    // The mended text still has the name.
    let words = ["--mend", "--more-names", "5 mins 1.5h", "1.5mins"];
    assert_eq!(answer(&words), "1h 35min\n1min 30s\n");
    let total = run(
        &["--mend", "--sum", "--header", "--to=s"],
        b"took\n1.5h\n5 mins\n",
    )
    .1;
    assert_eq!(total, "5700\n");
    let (status, output, errors) = run(&["--mend", "-q"], b"1.5h\n5mins\n");
    assert_eq!((status, &*output, &*errors), (0, "", ""));
    let errors = format!("duration: line 2: {}\n", line("1:30"));
    assert_eq!(
        run(&["--mend"], b"1.5h\n1:30\n"),
        (1, "1h 30min\n".into(), errors)
    );
}

#[test]
fn tells_which_fault_is_not_mended() {
    for (text, message) in [
        (
            "5 mins x",
            r#"expected a number, '+', '*' or the end at column 8, found "x""#,
        ),
        (
            "5 μs 1.5h §",
            r#"expected a number, '+', '*' or the end at column 11, found "§""#,
        ),
        // The number is mended twice.
        (
            "1_000.5 mins - 2h",
            r#"expected a number, '+', '*' or the end at column 14, found "-""#,
        ),
        (
            "+5m x",
            r#"expected a number, '+', '*' or the end at column 5, found "x""#,
        ),
        ("5 mins +", "expected a number at column 9, found the end"),
        ("600 yrs", r#"duration of over 584 years in "600 y""#),
    ] {
        let errors = format!("duration: argument 1: {message}\n");
        assert_eq!(
            run(&["--mend", "--", text], b""),
            (1, "".into(), errors),
            "{text}"
        );
    }
    // Too many faults, each with a suggestion
    let many = format!("0{}s", "_000".repeat(33));
    let first = format!("duration: argument 1: {}\n", line(&many));
    assert_eq!(run(&["--mend", &many], b""), (1, "".into(), first));
    let many = format!("0{}s x", "_000".repeat(32));
    let (_, json, _) = run(&["--mend", "--json", &many], b"");
    let wanted = format!(
        r#"{{"text":"{many}","argument":1,"cause":"SYNTAX","column":{},"#,
        many.len()
    );
    assert!(json.starts_with(&wanted), "{json}");
    let rest = r#""found":"x","help":null,"suggestion":null,"span":null,"mended":null,"#;
    assert!(json.contains(rest), "{json}");
}

#[test]
fn counts_mended_texts() {
    for (words, output, errors) in [
        ("1.5h 5m", "1h 30min\n5min\n", "duration: 1 text mended\n"),
        ("--sum 1.5h +5m", "1h 35min\n", "duration: 2 texts mended\n"),
        ("-q 5m", "", "duration: 0 texts mended\n"),
    ] {
        let all = format!("--mend --count-mended {words}");
        let ran = run(&all.split(' ').collect::<Vec<_>>(), b"");
        assert_eq!(ran, (0, output.into(), errors.into()), "{words}");
    }
    let (status, _, errors) = run(&["--mend", "--count-mended"], b"1.5h\n1:30\n");
    let refused = format!("duration: line 2: {}\n", line("1:30"));
    assert_eq!((status, errors), (1, refused + "duration: 1 text mended\n"));
}

#[test]
fn names_the_cause_of_what_is_no_text() {
    let lines = [&b"1\xff\n"[..], &[b'9'; (1 << 20) + 1]].concat();
    let json = run(&["--json"], &lines).1;
    let none = ["found", "help", "suggestion", "span", "mended"];
    let none = none.map(|name| format!("{name:?}:null,")).concat();
    let fields = &format!(r#""column":null,"expected":[],{none}"#);
    let not_text = [
        r#"{"text":"1�","line":1,"cause":"NOT_TEXT","#,
        fields,
        r#""message":"not UTF-8"}"#,
    ];
    let too_long = [
        r#"{"text":"","line":2,"cause":"LINE_TOO_LONG","#,
        fields,
        r#""message":"line of over 1,048,576 bytes"}"#,
    ];
    let wanted = [not_text.concat(), too_long.concat()];
    assert_eq!(json.lines().collect::<Vec<_>>(), wanted);
}

#[test]
fn takes_all_that_follows_two_minuses_for_texts() {
    for text in ["-d=", "-zd=", "-5m", "--", "--to"] {
        let (status, json, errors) = run(&["--json", "--", text], b"");
        assert_eq!((status, &*errors), (1, ""), "{text}");
        assert!(json.starts_with(&begin_of_json(text)), "{json}");
    }
}

#[test]
fn divides_fields_at_equals_signs() {
    for words in ["-d=", "-qd=", "-zqzd=", "-d=="] {
        let input = b"wait=5m\0";
        let wanted = if words.contains('q') {
            ""
        } else {
            "wait=5min\0"
        };
        assert_eq!(
            run(&["-z", words, "--field", "2"], input),
            (0, wanted.into(), "".into()),
            "{words}"
        );
    }
}

#[test]
fn divides_csv_at_delimiters() {
    for (words, line, wanted) in [
        ("-d, --field 2", r#""a,b",90"#, r#""a,b",1min 30s"#),
        ("-d, --field 2", r#""a"",90",300"#, r#""a"",90",5min"#),
        ("-d, --field 2", r#""a"b,90,"c""#, r#""a"b,1min 30s,"c""#),
        ("-d, --field 2", r#""a,90"#, r#""a,1min 30s"#),
        ("-d\" --field 2", r#""90""#, r#""1min 30s""#),
    ] {
        assert_eq!(
            run(&words.split(' ').collect::<Vec<_>>(), line.as_bytes()),
            (0, wanted.into(), "".into()),
            "{words} {line}"
        );
    }
    // A number loses the marks around it.
    for (words, line, wanted) in [
        ("-d, --field 2", r#"a,"90s",b"#, "a,90,b"),
        ("-d, --field 1", r#" "1m 30s" ,"b""#, r#" 90 ,"b""#),
        ("-d; --field 1", "\" 1.5h \"\r\n", " 5400 \r\n"),
        ("--field 2", r#"a "90s" b"#, "a 90 b"),
        // Two marks within a field stand for one.
        ("-d, --field 1", r#""""90s""""#, r#""""90""""#),
        ("-d, --field 1", r#""90s,1"#, r#""90,1"#),
        ("-d, --field 1", r#"90s",1"#, r#"90",1"#),
        ("-d. --field 1", r#""1500ms".a"#, r#""1.5".a"#),
        ("-d. --field 1", r#""90s".a"#, "90.a"),
    ] {
        let words = format!("{words} --to s --mend");
        assert_eq!(
            run(&words.split(' ').collect::<Vec<_>>(), line.as_bytes()),
            (0, wanted.into(), "".into()),
            "{words} {line}"
        );
    }
    // The last field ends before a carriage return.
    for line in ["\"a,90\"\r\n", "\"a,90\""] {
        let errors = "duration: line 1, field 2: no such field\n";
        assert_eq!(
            run(&["-d,", "--field", "2"], line.as_bytes()),
            (1, line.into(), errors.into())
        );
    }
}

#[test]
fn keeps_no_refused_number_beside_numbers() {
    let input = "a,90\nb,\"1.5h\",x\nc,1h\nd";
    let kept = "a,90\nb,\"1.5h\",x\nc,3600\nd";
    let empty = "a,\nb,\"\",x\nc,3600\nd";
    for (words, wanted) in [
        ("--to s", empty),
        ("--to s --refused empty", empty),
        ("--to s --refused keep", kept),
        ("--to s --refused drop", "c,3600\n"),
        ("", &kept.replace("3600", "1h")),
        ("--refused empty", &empty.replace("3600", "1h")),
    ] {
        let all = format!("-d, --field 2 --require-unit {words}");
        let words: Vec<_> = all.split_whitespace().collect();
        let (status, output, errors) = run(&words, input.as_bytes());
        assert_eq!((status, &*output), (1, wanted), "{words:?}");
        assert_eq!(errors.lines().count(), 3, "{errors}");
    }
    // Marks stay only if there are two, since CSV's next lines would belong to an open field.
    for (line, wanted) in [
        ("a,5 inch\",b", "a,,b"),
        ("a,\"90\"x,b", "a,,b"),
        ("a,\"x\"\"\",b", "a,,b"),
        ("a, \"x\" ,b", "a, \"\" ,b"),
        ("a,\"\",b", "a,\"\",b"),
    ] {
        let words = ["-d,", "--field", "2", "--to", "s"];
        assert_eq!(run(&words, line.as_bytes()).1, wanted, "{line}");
    }
    for line in ["a \"\" 7", "a \"x\" 7", "a x\" 7"] {
        let words = ["--field", "2", "--to", "s"];
        assert_eq!(run(&words, line.as_bytes()).1, "a - 7", "{line}");
    }
    // The next field doesn't take the place of a refused one.
    let second = ["--field", "2", "--to", "s", "--require-unit"];
    let (status, output, _) = run(&second, b" a  90 7\nb 1h 8\n\n");
    assert_eq!((status, &*output), (1, " a  - 7\nb 3600 8\n\n"));
}

#[test]
fn says_in_json_which_fields_are_refused() {
    let words = "-d, --field 2 --to s --json-errors".split(' ');
    let words: Vec<_> = words.collect();
    let input = b"a,\"1h*1m+1\"\nb,1h\nc";
    let none =
        ["found", "help", "suggestion", "span", "mended"].map(|name| format!("{name:?}:null,"));
    let no_more = format!(r#""column":null,"expected":[],{}"#, none.concat());
    let wanted = [
        r#"{"text":"1h*1m+1","line":1,"cause":"MIXED","#,
        &no_more,
        r#""message":"sum and product mixed in \"1h*1m+1\""}"#,
        "\n",
        r#"{"text":"c","line":3,"cause":"NO_FIELD","#,
        &no_more,
        r#""message":"no such field"}"#,
        "\n",
    ];
    let output = "a,\"\"\nb,3600\nc";
    assert_eq!(run(&words, input), (1, output.into(), wanted.concat()));
    let quiet = [&words[..], &["-q"]].concat();
    assert_eq!(run(&quiet, input), (1, "".into(), "".into()));
    // An object ends with a line feed here, too.
    let zero_terminated = [&words[..], &["-z"]].concat();
    let input = input.map(|byte| if byte == b'\n' { 0 } else { byte });
    let output = output.replace('\n', "\0");
    assert_eq!(run(&zero_terminated, &input), (1, output, wanted.concat()));
}

#[test]
fn advises_on_a_first_line_without_a_duration() {
    let advice = "(for a header, write --header)\n";
    let advises = |words: &[&str], input: &str| run(words, input.as_bytes()).2.contains(advice);
    for words in [&["--field", "1"][..], &["--field=1", "--sum"]] {
        assert!(advises(words, "takes\n1h\n"), "{words:?}");
        assert!(!advises(words, "1h\ntakes\n"), "{words:?}");
        // The message gives other advice.
        assert!(!advises(words, "PT5M\n"), "{words:?}");
    }
    assert!(!advises(&["--field=1", "--header=0"], "takes\n"));
    assert!(!advises(&["--field=1", "takes"], ""));
    assert!(!advises(&[], "takes\n"));
}

#[test]
fn prints_what_is_chosen_for_refused_lines() {
    let input = "1h\r\n 5 mins\r\n90";
    for (what, wanted) in [
        ("keep", "1h\n 5 mins\n1min 30s\n"),
        ("empty", "1h\n\n1min 30s\n"),
        ("drop", "1h\n1min 30s\n"),
    ] {
        let errors = format!("duration: line 2: {}\n", line(" 5 mins"));
        let ran = run(&["--refused", what], input.as_bytes());
        assert_eq!(ran, (1, wanted.into(), errors));
        let (status, output, _) = run(&["--refused", what, "1h", " 5 mins", "90"], b"");
        assert_eq!((status, &*output), (1, wanted));
    }
    let long = "x".repeat((1 << 21) + 1);
    for (words, wanted) in [
        ("--refused=keep", format!("{long}\n1h\n{long}\n")),
        ("--refused=empty", "\n1h\n\n".into()),
        ("--refused=drop", "1h\n".into()),
        ("--field=1", format!("{long}\n1h\n{long}")),
        ("--field=1 --refused=empty", "\n1h\n".into()),
    ] {
        let words: Vec<_> = words.split(' ').collect();
        let (status, output, _) = run(&words, format!("{long}\n1h\n{long}").as_bytes());
        assert!((status, output) == (1, wanted), "{words:?}");
    }
}

#[test]
fn prints_only_the_sum() {
    let log = b"time path took\n9:00 /a 150ms\n9:01 /b 2s\n";
    let third = ["--sum", "--header", "--field", "3"];
    assert_eq!(run(&third, log), (0, "2s 150ms\n".into(), "".into()));
    assert_eq!(answer(&["--sum", "--to", "min", "30s", "1h", "90"]), "62\n");
    assert_eq!(run(&["--sum"], b""), (0, "0s\n".into(), "".into()));
    let header = [&[b'x'; (1 << 20) + 1][..], b"\n2s\n"].concat();
    let headless = run(&["--sum", "--header"], &header);
    assert_eq!(headless, (0, "2s\n".into(), "".into()));
    // All lines together may be longer than a line may be.
    let lines = b"1ms\n".repeat(400_000);
    assert_eq!(run(&["--sum"], &lines), (0, "6min 40s\n".into(), "".into()));
    let errors = format!("duration: line 2: {}\n", line("5 mins"));
    assert_eq!(run(&["--sum"], b"1h\n5 mins\n2h\n"), (1, "".into(), errors));
    // Neither a refused field nor a line that is too long stays, and the sum's line has an end.
    let first = ["--sum", "-d,", "--field", "1"];
    assert_eq!(run(&first, b"1h,a\n2h,b"), (0, "3h\n".into(), "".into()));
    let long = [b"5 mins,\n1h,", &[b'x'; 1 << 20][..], b"\n1h,\n"].concat();
    let (status, output, _) = run(&first, &long);
    assert_eq!((status, &*output), (1, ""));
    let errors = "duration: sum of over 584 years\n";
    assert_eq!(
        run(&["--sum"], b"500y\n500y\n"),
        (1, "".into(), errors.into())
    );
    assert_eq!(
        run(&["--sum", "-q"], b"500y\n500y\n"),
        (1, "".into(), "".into())
    );
}

#[test]
fn takes_large_numbers() {
    let most = usize::MAX.to_string();
    assert_eq!(answer(&["--parts", &most, "90"]), "1min 30s\n");
    let errors = run(&["--field", "70000", "1h"], b"").2;
    assert_eq!(errors, "duration: argument 1, field 70000: no such field\n");
    let errors = run(&["--parts", &format!("{most}0"), "90"], b"").2;
    assert!(errors.contains("'--parts <N>': too large\n"), "{errors}");
}

/// tests/patterns checks the patterns themselves.
#[test]
fn prints_another_pattern_for_each_option() {
    let options = [
        "--lowercase",
        "--cn-unit",
        "--more-names",
        "--require-unit",
        "--from=ms",
    ];
    let mut patterns = vec![answer(&["--pattern"])];
    patterns.extend(options.map(|option| answer(&["--pattern", option])));
    patterns.sort();
    patterns.dedup();
    assert_eq!(patterns.len(), options.len() + 1);
}

#[test]
fn refuses_wrong_usage() {
    for words in [
        &["--completions", "elvish"][..],
        &["--completions", "bash", "1h"],
        &["--header", "1"],
        &["--pattern", "--round", "up"],
        &["--pattern", "--refused", "keep"],
        &["--pattern", "--json-errors"],
        &["--pattern", "--mend"],
        &["--count-mended", "1h"],
        &["--mend", "--count-mended", "--json-errors", "1h"],
        &["--json", "--refused", "keep", "1h"],
        &["--sum", "--refused", "drop", "1h"],
        &["--sum", "--json-errors", "1h"],
        &["--json", "--json-errors", "1h"],
    ] {
        let (status, output, errors) = run(words, b"");
        assert_eq!((status, &*output), (2, ""), "{words:?}");
        assert!(errors.starts_with("error: "), "{words:?}: {errors}");
    }
    for (words, wanted) in [
        (
            ["--to", "mins", "1h"],
            "invalid value 'mins' for '--to <UNIT>': did you mean \"min\"?",
        ),
        (
            ["--from", "foo", "1h"],
            "invalid value 'foo' for '--from <UNIT>': no unit",
        ),
        (
            ["--units", "y,mins", "1h"],
            "invalid value 'y,mins' for '--units <UNITS>': \"mins\": did you mean \"min\"?",
        ),
        (
            ["--units=y", "--smallest=y", "--largest=d"],
            "--largest is shorter than --smallest",
        ),
        (
            ["--units=y,mon", "--largest=w", "1h"],
            "--units has none from --largest to --smallest",
        ),
        (
            ["--parts", "-1", "1h"],
            "invalid value '-1' for '--parts <N>': not a whole number",
        ),
        (
            ["--parts", "", "1h"],
            "invalid value '' for '--parts <N>': not a whole number",
        ),
        (
            ["--parts", "0", "1h"],
            "invalid value '0' for '--parts <N>': less than 1",
        ),
        (
            ["--to=s", "--decimals=10", "1h"],
            "invalid value '10' for '--decimals <N>': more than 9",
        ),
    ] {
        // Clap 4.0 begins some of these with a capital letter, and later versions don't.
        let errors = run(&words, b"")
            .2
            .replacen("error: Invalid", "error: invalid", 1);
        assert!(
            errors.starts_with(&format!("error: {wanted}")),
            "{words:?}: {errors}"
        );
    }
    // An option can be repeated, such as after an alias that has it. The last one counts.
    assert_eq!(answer(&["--to", "s", "-q", "--to", "ms", "1h", "-q"]), "");
    assert_eq!(answer(&["--to", "s", "--to", "ms", "1h"]), "3600000\n");
    let word = OsStr::from_bytes(b"1h\xff");
    let ended = program(&[])
        .args([word, OsStr::new("1h")])
        .output()
        .unwrap();
    assert_eq!(
        (ended.status.code(), &*ended.stdout),
        (Some(1), &b"1h\n"[..])
    );
    assert_eq!(ended.stderr, b"duration: argument 1: not UTF-8\n");
}

#[test]
fn tells_of_failing_devices() {
    let full = || File::options().write(true).open("/dev/full").unwrap();
    for words in [
        &["1h"][..],
        &["5 mins", "1h"],
        &["--completions", "zsh"],
        &["--json", "1h"],
        &["--help"],
        &["-V"],
    ] {
        let ended = program(words).stdout(full()).output().unwrap();
        assert_eq!(ended.status.code(), Some(2), "{words:?}");
        assert!(
            String::from_utf8(ended.stderr)
                .unwrap()
                .ends_with("No space left on device (os error 28)\n")
        );
    }
    for (words, status, errors) in [
        ("1h >&-", 2, "duration: Bad file descriptor (os error 9)\n"),
        (
            "<&-",
            2,
            "duration: standard input: Bad file descriptor (os error 9)\n",
        ),
        ("-q 1h >&-", 0, ""),
        ("-q 1x >&-", 1, ""),
        ("1h >/dev/null", 0, ""),
        ("-x 2>/dev/full", 2, ""),
    ] {
        let ended = Command::new("sh")
            .args(["-c", &format!("timeout 60 {PROGRAM} {words}")])
            .output()
            .unwrap();
        assert_eq!(
            (ended.status.code(), &*ended.stderr),
            (Some(status), errors.as_bytes()),
            "{words}"
        );
    }
    let ended = program(&["5 mins", "1h"]).stderr(full()).output().unwrap();
    assert_eq!((ended.status.code(), &*ended.stdout), (Some(2), &b""[..]));
    let ended = program(&[])
        .stdin(File::open("/").unwrap())
        .output()
        .unwrap();
    assert_eq!(ended.status.code(), Some(2));
    assert_eq!(
        ended.stderr,
        b"duration: standard input: Is a directory (os error 21)\n"
    );
}

#[test]
fn ends_by_the_signal_of_a_closed_pipe() {
    let mut child = piped(&[]);
    let mut stdin = child.stdin.take().unwrap();
    let writer = std::thread::spawn(move || while stdin.write_all(b"1h\n").is_ok() {});
    child
        .stdout
        .take()
        .unwrap()
        .read_exact(&mut [0; 3])
        .unwrap();
    let ended = child.wait_with_output().unwrap();
    writer.join().unwrap();
    assert_eq!(
        (ended.status.signal(), &*ended.stderr),
        (Some(13), &b""[..])
    );
}

#[test]
fn shows_a_caret_on_a_terminal() {
    let command = format!("printf '5 mins\\r\\n600y\\n1h' | {PROGRAM}");
    let ended = Command::new("timeout")
        .args(["60", "script", "-qec", &command, "/dev/null"])
        .output()
        .unwrap();
    let faults = ["5 mins", "600y"].map(|text| parse_duration(text).unwrap_err());
    let wanted = format!(
        "duration: line 1:\n{}\nduration: line 2: {}\n1h\n",
        faults[0].report(),
        faults[1]
    );
    assert!(faults[0].report().starts_with("5 mins\n  ^\n"));
    assert_eq!(
        String::from_utf8(ended.stdout).unwrap().replace('\r', ""),
        wanted
    );
    assert_eq!(ended.status.code(), Some(1));
}

#[test]
fn tells_of_itself() {
    assert_eq!(
        answer(&["--version"]),
        concat!("duration ", env!("CARGO_PKG_VERSION"), "\n")
    );
    let help = answer(&["--help"]);
    assert_eq!(help, answer(&["-h"]));
    assert!(help.lines().all(|line| line.len() <= 80));
    for (shell, list) in [
        ("bash", "##*,"),
        ("fish", r"(commandline -ct)){y\t,q\t,mon\t,w\t,d\t,"),
        ("zsh", ":UNITS:_sequence compadd - y q mon "),
    ] {
        let script = answer(&["--completions", shell]);
        assert!(script.contains("smallest") && script.contains(list) && !script.contains("LIST"));
        assert!(!script.contains("_default'") && !script.contains("TEXT]"));
    }
}
