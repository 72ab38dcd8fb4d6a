//! Scripts and their traces.

use plants::script::Runner;

fn trace(script: &str) -> Vec<String> {
    let mut runner = Runner::new(Vec::new());
    for line in script.lines() {
        runner.read(line).unwrap();
    }
    runner.close().unwrap();
    let text = String::from_utf8(runner.out().clone()).unwrap();
    text.lines().map(str::to_string).collect()
}

/// The story of the demonstration: who went where, and what was on target.
#[test]
fn demonstration() {
    let trace = trace(include_str!("../demo.txt"));
    let moves: Vec<&str> = trace
        .iter()
        .filter(|line| line.contains(" -> "))
        .map(String::as_str)
        .collect();
    for expected in [
        "1: port 33 O1 -> O2",
        "3: port 33 O3 -> O6",
        "23: port 33 O7 -> O8",
        "29: port 9 O8 -> O9",
        "31: port 9 O9 -> O1",
        "port 9 O1 -> O2",
        "port 64 O8 -> O10",
        "38: port 64 O10 -> O7",
        "39: port 64 O7 -> O8",
        "port 0 O8 -> O10",
        "1351: port 0 O10 -> O1",
        "port 9 O8 -> O1",
        "1360: port 64 O8 -> O2",
    ] {
        assert!(moves.contains(&expected), "{expected}");
    }
    let last = trace.iter().filter(|line| line.starts_with("1359: burst"));
    assert_eq!(last.clone().count(), 8);
    assert!(last.clone().all(|line| line.contains(" offset=0 ")));
    assert_eq!(
        trace.last().unwrap(),
        "heard 1360 cells, 0 refused, 45 bursts"
    );
}

/// A cell that gives light and says nothing else.
const PLAIN: &str = "010000ffffffffffffff0cffffffffffffff0cffffffffffffff0cffffffffffffff4000000000000000000000002500";

#[test]
fn calls_are_counted() {
    let script = format!(
        "onu 3 00000000000000AB 7\n\
         cell 0 -\n\
         room 26\n\
         cell 0 {PLAIN}\n\
         room 27\n\
         repeat 2 14918173765664742 {PLAIN}\n\
         repeat 3 18446744073709551600 {PLAIN}\n\
         show\n\
         # another one\n\
         new\n\
         \n\
         show\n\
         cell 0 00ff\n\
         trip 5 1\n\
         power 64 lost\n\
         report 0 00\n\
         report 18446744073709551615 {}\n",
        "00".repeat(53)
    );
    let dark = format!("report 18446744073709551615: {}", "00".repeat(954));
    assert_eq!(
        trace(&script),
        [
            "1: refused 15",
            "2: refused 18",
            "3: port 3 O1 -> O2",
            "4: refused 19",
            "5: refused 19",
            "6: refused 19",
            "7: refused 19",
            "port 3 00000000000000ab O2 pon_id=none data=none ploam=none pre=0 register=0 trip=7",
            "1: refused 15",
            "port 5: empty",
            "port 64: empty",
            "report 0: refused 14",
            dark.as_str(),
            "heard 8 cells, 7 refused, 0 bursts",
        ]
    );
}

#[test]
fn wrong_lines() {
    for wrong in [
        "what",
        "onu 65 0000000000000000 0",
        "onu 0 000000000000000 0",
        "onu 0 0000000000000000 4294967296",
        "onu 0 0000000000000000 +1",
        "fibre 0",
        "loss 0 -",
        "cell 18446744073709551616 -",
        "cell 0 0",
        "cell 0",
        "repeat 0 0 -",
        "repeat 10000001 0 -",
        "room 1000001",
        "signal 0 gone",
        "power 0 back",
        "show all",
        "report -1 -",
    ] {
        assert!(trace(wrong)[0].starts_with("line 1: expected "), "{wrong}");
    }
}
