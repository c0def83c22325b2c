//! The verdicts on all case files, from several threads, and what the lab says.

use std::fs;
use std::path::PathBuf;
use std::thread;
use tcpwit::trace::{Header, Trace};
use tcpwit::{check, check_two, explain, find, judge, remark, CaseError, LabError, Level, Rule, Slack, Verdict, USUAL_BUDGET};

fn top() -> PathBuf {
    PathBuf::from(concat!(env!("CARGO_MANIFEST_DIR"), "/../.."))
}

/// The bytes of each case, and the line that `check` prints for it.
fn cases() -> Vec<(Vec<u8>, String)> {
    let folder = top().join("crates/test_cases/data");
    let expected = fs::read_to_string(folder.join("expected.txt")).unwrap();
    let case = |line: &str| {
        let (name, answer) = line.split_once('\t').unwrap();
        (fs::read(folder.join(format!("{name}.case"))).unwrap(), answer.to_string())
    };
    expected.lines().map(case).collect()
}

fn said(answer: Result<Verdict, CaseError>) -> String {
    match answer {
        Ok(verdict) => verdict.to_string(),
        Err(error) => error.to_string(),
    }
}

/// Where the witness of a case begins.
fn cut(case: &[u8]) -> usize {
    case.windows(9).position(|bytes| bytes == b"\nwitness ").unwrap() + 1
}

fn refused() -> Vec<u8> {
    fs::read(top().join("stacks/recorded/lwip-hostile-ack-despite-nagle.case")).unwrap()
}

#[test]
fn each_case_has_its_line() {
    let cases = cases();
    assert!(cases.len() > 1_800);
    for (case, line) in &cases {
        assert_eq!(said(check(case)), *line);
    }
}

#[test]
fn threads_agree() {
    let cases: Vec<_> = cases().into_iter().step_by(20).collect();
    thread::scope(|scope| {
        for _ in 0..8 {
            scope.spawn(|| cases.iter().for_each(|(case, line)| assert_eq!(said(check(case)), *line)));
        }
    });
}

#[test]
fn two_texts_have_the_verdict_of_the_case() {
    let case = fs::read(top().join("examples/handshake.case")).unwrap();
    let (trace, witness) = case.split_at(cut(&case));
    assert_eq!(check_two(trace, witness), Ok(Verdict::Yes { lines: 18, hidden: 13 }));
    assert!(matches!(check_two(trace, b""), Err(CaseError::Witness(_))));
}

#[test]
fn rules_have_numbers() {
    for rule in Rule::ALL {
        assert_eq!(Rule::numbered(rule.number()), Some(rule));
    }
    assert_eq!(Rule::numbered(54), Some(Rule::Echo));
    assert_eq!(Rule::numbered(57), Some(Rule::AnswerLate));
    for number in [0, 58] {
        assert_eq!(Rule::numbered(number), None);
    }
}

#[test]
fn the_lab_says_what_it_says_in_c() {
    let case = refused();
    let trace = &case[..cut(&case)];
    let judgement = judge(trace, Slack::Usual, USUAL_BUDGET).unwrap();
    assert_eq!(judgement.level, None);
    assert!(judgement.to_string().starts_with("full      no 25 25 ack-late\n"));
    assert!(judge(trace, Slack::Any, USUAL_BUDGET).unwrap().meets(Level::Full));
    assert!(matches!(judge(trace, Slack::Micros(u64::MAX), 0), Err(LabError::Usage)));
    assert!(explain(&case, true).unwrap().starts_with(b"no 25 25 ack-late\nthe step: "));
    assert!(remark(&case).unwrap().is_empty());
    let found = find(trace, USUAL_BUDGET).unwrap();
    assert!(matches!(check(&found), Ok(Verdict::No { rule: Rule::AckLate, .. })));
    assert_eq!(find(b"trace 1\n", 0).unwrap_err().to_string(), "bad trace 2 0 0 header");
}

#[test]
fn a_trace_is_written_and_judged() {
    let syn = [0x0f, 0xa0, 0, 80, 0, 0, 0, 99, 0, 0, 0, 0, 0x50, 2, 0xff, 0xff, 0, 0, 0, 0];
    let mut trace = Trace::new(Vec::new(), 5);
    trace.header(&Header::default()).unwrap();
    trace.judged(1, Level::Full, Some(20_000)).unwrap();
    trace.begin_open(0, 1, 0, 4000, 80).unwrap();
    trace.end_number(1, 1, 2).unwrap();
    trace.out(10, 9, 0, &[&syn]).unwrap();
    trace.finish(1_000_000).unwrap();
    let judgement = judge(&trace.into_inner(), Slack::Usual, USUAL_BUDGET).unwrap();
    assert!(judgement.meets(Level::Full), "{judgement}");
}
