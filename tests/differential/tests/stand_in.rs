//! The comparison itself: it passes what is right and catches every slip.

use std::fs;
use std::path::{Path, PathBuf};
use std::process::{Command, Output};

fn differential(way: &str, arguments: &[&str]) -> Output {
    Command::new(env!("CARGO_BIN_EXE_differential"))
        .args(arguments)
        .env("STAND_IN", way)
        .output()
        .expect("the comparison runs")
}

const STAND_IN: &str = env!("CARGO_BIN_EXE_stand_in");

fn compared_program(program: &str, way: &str, cases: &str) -> (Option<i32>, String) {
    let arguments = [program, "--cases", cases, "--seed", "5", "--threads", "1"];
    let output = differential(way, &arguments);
    let text = String::from_utf8(output.stdout).expect("text");
    (output.status.code(), text)
}

fn compared(way: &str, cases: &str) -> (Option<i32>, String) {
    compared_program(STAND_IN, way, cases)
}

#[test]
fn the_reference_equals_itself() {
    let (status, text) = compared("", "600");
    assert_eq!(status, Some(0), "{text}");
    assert!(text.contains("seeds: 8003 (fixed), 5 (clock"), "{text}");
    assert!(text.contains("seed 8003 (fixed): 300 equal"), "{text}");
    assert!(text.contains("seed 5 (clock): 300 equal"), "{text}");
    assert!(text.contains(": all equal"), "{text}");
    assert!(text.contains(" records of the second form"), "{text}");
    for number in [1, 2, 3, 4, 5, 6, 7, 9, 10, 11, 12] {
        assert!(text.contains(&format!(" {number}: ")), "{number}: {text}");
    }
}

#[test]
fn every_slip_is_caught() {
    for slip in [
        "NotesAsPaths",
        "NoTryBack",
        "ScaledInnerTest",
        "LaidAtEquality",
        "HouseWalk",
        "MisplacedRatios",
        "SourceRatio",
        "LateRatio",
        "RatioAtZero",
        "ZeroPosts",
        "FewBytes",
        "Silent",
        "Cut",
        "Crash",
        "Status",
    ] {
        let (status, text) = compared(slip, "0");
        assert_eq!(status, Some(1), "{slip}: {text}");
        assert!(
            text.contains("DIFFERENCE (program) in fixed input"),
            "{slip}"
        );
    }
}

#[test]
fn a_wrong_exit_status_is_shown() {
    let (status, text) = compared("Status", "0");
    assert_eq!(status, Some(1), "{text}");
    let shown = "expected:\nexit status: 0\ngot:\nexit status: 1\n";
    assert!(text.contains(shown), "{text}");
}

/// A folder where these take the place of the programs, and that of what runs
/// them, and the commands are those of the repository.
fn commands_over(name: &str, programs: &[(&str, &str)], commands: &[&str]) -> PathBuf {
    let root = Path::new(env!("CARGO_MANIFEST_DIR")).join("../..");
    let folder = Path::new(env!("CARGO_TARGET_TMPDIR")).join(name);
    let _ = fs::remove_dir_all(&folder);
    // Hard links, or copies where there can be none: `rt ci` refuses symbolic
    // links anywhere in the repository.
    let place = |from: &Path, to: &str| {
        let to = folder.join(to);
        fs::create_dir_all(to.parent().expect("a folder")).expect("made");
        fs::hard_link(from, &to)
            .or_else(|_| fs::copy(from, &to).map(|_| ()))
            .expect("placed");
    };
    for (program, to) in programs {
        place(Path::new(program), to);
    }
    for command in commands {
        place(&root.join(command), command);
    }
    folder
}

/// The command `plan` in a folder where the stand-in takes the program's place.
fn plan_of_the_stand_in() -> String {
    let programs = [(STAND_IN, "target/bin/program"), (STAND_IN, "tools/x86-64")];
    let folder = commands_over(
        "plan_of_the_stand_in",
        &programs,
        &["plan", "tools/program"],
    );
    let plan = folder.join("plan");
    plan.to_str().expect("a plain path").to_owned()
}

#[test]
fn the_command_plan_hands_on_output_and_status() {
    let plan = plan_of_the_stand_in();
    let (status, text) = compared_program(&plan, "", "0");
    assert_eq!(status, Some(0), "{text}");
    for wrong in ["Status", "Silent"] {
        let (status, text) = compared_program(&plan, wrong, "0");
        assert_eq!(status, Some(1), "{wrong}: {text}");
    }
}

#[test]
fn the_record_is_printed_in_decimal() {
    let (status, text) = compared("LaidAtEquality", "0");
    assert_eq!(status, Some(1));
    // The first fixed input that shows it is net A with ratio 0/1.
    let lines: Vec<&str> = text.lines().collect();
    let at = lines
        .iter()
        .position(|line| line.starts_with("DIFFERENCE"))
        .expect("reported");
    assert_eq!(lines[at + 1], "record of 20 bytes, in decimal:");
    assert_eq!(lines[at + 2], "4 0 0 1 5 0 1 4 1 2 4 2 3 4 0 3 5 0 2 6");
}

#[test]
fn what_cannot_be_run_is_no_difference() {
    let nowhere = differential("", &["no-such-program-here"]);
    assert_eq!(nowhere.status.code(), Some(2));
    assert_eq!(differential("", &[]).status.code(), Some(2));
    assert_eq!(differential("", &["a", "b"]).status.code(), Some(2));
    assert_eq!(differential("", &["a", "--cases"]).status.code(), Some(2));
}

#[test]
fn a_server_that_ends_is_a_difference() {
    let ended = differential("", &["--served", "true"]);
    assert_eq!(ended.status.code(), Some(1));
    let nowhere = differential("", &["--served", "no-such-program-here"]);
    assert_eq!(nowhere.status.code(), Some(2));
}

const MOVER: &str = env!("CARGO_BIN_EXE_mover");

fn compared_mover(way: &str, cases: &str) -> (Option<i32>, String) {
    let arguments = ["--mover", MOVER, "--cases", cases, "--seed", "5"];
    let output = differential(way, &arguments);
    let text = String::from_utf8(output.stdout).expect("text");
    (output.status.code(), text)
}

#[test]
fn a_mover_made_from_the_reference_equals_it() {
    let (status, text) = compared_mover("", "100");
    assert_eq!(status, Some(0), "{text}");
    assert!(text.contains("moves to the form First: Moved "), "{text}");
    for number in [1, 2, 3, 4, 5, 6, 7, 10, 11, 12, 20, 30] {
        assert!(text.contains(&format!(" {number}: ")), "{number}: {text}");
    }
}

#[test]
fn every_slip_of_a_mover_is_caught() {
    for slip in [
        "CrossProducts",
        "SourceAsked",
        "HighestPost",
        "CountedRatios",
        "EarlyForm",
        "RatioForSource",
        "ByOffset",
        "OneByteP",
        "JoinedOnly",
        "Silent",
        "Cut",
        "Crash",
        "Status",
        "Both",
        "Unwritten",
    ] {
        let (status, text) = compared_mover(slip, "0");
        assert_eq!(status, Some(1), "{slip}: {text}");
        let reported = "DIFFERENCE (mover) in fixed input";
        assert!(text.contains(reported), "{slip}: {text}");
    }
    let nowhere = differential("", &["--mover", "no-such-program-here"]);
    assert_eq!(nowhere.status.code(), Some(2));
}

fn compared_functions(slip: &str, cases: &str) -> (Option<i32>, String) {
    let arguments = [
        "--stand-in",
        "--cases",
        cases,
        "--seed",
        "5",
        "--threads",
        "1",
    ];
    let output = differential(slip, &arguments);
    let text = String::from_utf8(output.stdout).expect("text");
    (output.status.code(), text)
}

#[test]
fn functions_made_from_the_reference_equal_it() {
    let (status, text) = compared_functions("", "600");
    assert_eq!(status, Some(0), "{text}");
    assert!(text.contains("seed 8003 (fixed): 300 equal"), "{text}");
    assert!(text.contains("seed 5 (clock): 300 equal"), "{text}");
    assert!(text.contains("the stand-in: all equal"), "{text}");
    assert!(text.contains(" margins, "), "{text}");
    for number in (1..=20).chain([30]) {
        let met = text.contains(&format!(" {number}: "));
        // Drawn lengths are rounded up, so 16 isn't given any more.
        assert_eq!(met, number != 16, "{number}: {text}");
    }
    for moves in [
        "moves to the form Second: Moved ",
        "moves to the form First: Moved ",
    ] {
        assert!(text.contains(moves), "{text}");
    }
}

#[test]
fn every_slip_of_the_functions_is_caught() {
    for (slip, function) in [
        ("NotesAsPaths", "drover_plan"),
        ("NoTryBack", "drover_plan"),
        ("ScaledInnerTest", "drover_plan"),
        ("LaidAtEquality", "drover_plan"),
        ("TriedAtEquality", "drover_plan"),
        ("HouseWalk", "drover_plan"),
        ("MisplacedRatios", "drover_rewrite"),
        ("SourceRatio", "drover_check"),
        ("LateRatio", "drover_check"),
        ("RatioAtZero", "drover_check"),
        ("ZeroPosts", "drover_check"),
        ("FewBytes", "drover_check"),
        ("Accepting", "drover_check"),
        ("Beyond", "drover_plan"),
        ("Touched", "drover_plan"),
        ("LateLists", "drover_plan"),
        ("WholeSummary", "drover_plan"),
        ("Spilt", "drover_rewrite"),
        ("Unmarked", "drover_rewrite"),
        ("SourceWritten", "drover_rewrite"),
        ("CrossProducts", "drover_to_first"),
        ("SourceAsked", "drover_to_first"),
        ("HighestPost", "drover_to_first"),
        ("CountedRatios", "drover_to_first"),
        ("LateForm", "drover_to_first"),
        ("EarlyForm", "drover_to_second"),
        ("EarlyRoom", "drover_to_first"),
        ("RatioForSource", "drover_to_second"),
        ("ByOffset", "drover_to_first"),
        ("RoomTouched", "drover_to_second"),
        ("OneByteP", "drover_to_second"),
        ("JoinedOnly", "drover_to_second"),
        ("MovedBeyond", "drover_to_second"),
        ("MovedUnmarked", "drover_to_first"),
        ("Turned", "drover_margin"),
        ("HouseMargin", "drover_margin"),
        ("OtherTree", "drover_margin"),
        ("Long", "drover_drawn"),
        ("NotANumber", "drover_drawn"),
        ("Nearest", "drover_drawn"),
        ("RoundedOnce", "drover_drawn"),
        ("OneCorner", "drover_drawn"),
        ("Silent", "bindings"),
    ] {
        let (status, text) = compared_functions(slip, "1000");
        assert_eq!(status, Some(1), "{slip}: {text}");
        let reported = format!("DIFFERENCE ({function}) in ");
        assert!(text.contains(&reported), "{slip}: {text}");
    }
}

#[test]
fn a_slip_of_the_functions_is_shown_with_its_record() {
    let (_, text) = compared_functions("Silent", "0");
    // The first fixed input is net A.
    let shown = "in fixed input 0\nrecord of 20 bytes, in decimal:\n4 0 1 1 5 0 1 4 ";
    assert!(text.contains(shown), "{text}");
}
