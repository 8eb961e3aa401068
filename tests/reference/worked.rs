// Document 01's worked sessions P1 to P10, as M-100 leaves them, and the refusals beside them: `rustc --edition 2024 --test main.rs`, then run the result.

use crate::history;
use crate::session;

fn play(steps: &[&str]) -> Vec<String> {
    let mut output = Vec::new();
    session::play((steps.join("\n") + "\n").as_bytes(), &mut output).unwrap();
    String::from_utf8(output).unwrap().lines().map(str::to_string).collect()
}

fn last(steps: &[&str]) -> String {
    play(steps).pop().unwrap()
}

#[test]
fn p1_p2() {
    let begin = ["start", "start", "write 1 5 -2048", "commit 1", "read 2 5", "distance 2 0"];
    assert_eq!(play(&begin), ["start 1", "start 2", "write", "commit 3", "read 1 3 -2048", "distance -1"]);
    assert_eq!(last(&[&begin[..], &["commit 2"]].concat()), "aborted FV 0");
    assert_eq!(last(&[&begin[..], &["tune 2 1 1 0", "commit 2"]].concat()), "commit 4");
}

#[test]
fn p3_p4() {
    let begin = ["start", "write 1 5 7", "commit 1", "start", "note 3 5 0", "distance 3 0"];
    assert_eq!(last(&begin), "distance 1");
    assert_eq!(last(&[&begin[..], &["commit 3"]].concat()), "commit 4");
    assert_eq!(last(&[&begin[..], &["tune 3 1 0 0", "commit 3"]].concat()), "aborted BV 0");
    assert_eq!(last(&[&begin[..], &["tune 3 2 0 0", "commit 3"]].concat()), "commit 4");
}

#[test]
fn p5_p6() {
    assert_eq!(last(&["start", "start", "write 1 5 1", "write 2 5 2", "commit 1", "commit 2"]), "aborted WC 0");
    assert_eq!(last(&["start", "write 1 5 1", "commit 1", "start", "write 3 5 2", "commit 3"]), "commit 4");
}

#[test]
fn p7_p8_p9() {
    let begin = ["start", "start", "write 2 5 1", "commit 2", "start", "write 4 6 1", "commit 4", "note 1 5 0", "note 1 6 1"];
    assert_eq!(last(&[&begin[..], &["tune 1 1 1 0", "commit 1"]].concat()), "aborted SV 0 1");
    assert_eq!(last(&[&begin[..], &["tune 1 1 1 1", "commit 1"]].concat()), "commit 6");
    let together = ["start", "start", "write 2 5 1", "write 2 6 1", "commit 2", "note 1 5 0", "note 1 6 1", "tune 1 1 1 0", "commit 1"];
    assert_eq!(last(&together), "commit 4");
}

#[test]
fn p10() {
    let history = "s\t1\ns\t2\nw\t1\t5\nc\t1\nr\t2\t5\t1\nc\t2\n";
    assert_eq!(history::judge(history.as_bytes()), "judge 2\n1 ok\n2 FV\ntotal 2 2 0 0\n");
    assert_eq!(history::judge(b""), "judge 0\ntotal 0 0 0 0\n");
}

#[test]
fn two_hundred_behind() {
    let mut steps: Vec<String> = Vec::new();
    for i in 0..200 {
        let name = 2 * i + 1;
        steps.extend(["start".to_string(), format!("write {name} 5 {i}"), format!("commit {name}")]);
    }
    steps.extend(["start", "note 401 5 0", "distance 401 0"].map(str::to_string));
    let begin: Vec<&str> = steps.iter().map(String::as_str).collect();
    assert_eq!(last(&begin), "distance 200");
    assert_eq!(last(&[&begin[..], &["tune 401 200 0 0", "commit 401"]].concat()), "aborted BV 0");
    assert_eq!(last(&[&begin[..], &["tune 401 201 0 0", "commit 401"]].concat()), "commit 402");
}

#[test]
fn limits() {
    let starts = vec!["start"; 33];
    assert_eq!(play(&starts)[31..], ["start 32", "refused 3"]);
    assert_eq!(play(&["open 4294967294", "start", "start"])[1..], ["start 4294967295", "refused 5"]);
}
