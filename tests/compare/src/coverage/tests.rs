use super::Coverage;

#[test]
fn counts_what_a_report_holds() {
    let mut coverage = Coverage::none();
    coverage.count(
        None,
        b"answer=0\ndata=0\nint=1\ntherm=0\nfault=0\nduty1=240\nduty2=17\nanswer=10\nline=5\n",
    );
    assert_eq!((coverage.traces, coverage.events), (1, 1));
    assert_eq!((coverage.int, coverage.therm, coverage.fault), (1, 0, 0));
    assert_eq!((coverage.answers[0], coverage.answers[10]), (1, 1));
    assert_eq!(coverage.distinct_duties(), 2);
    coverage.count(None, b"answer=13\nanswer=12\n");
    assert_eq!((coverage.answers[12], coverage.events), (1, 3));
}

#[test]
fn counts_the_samples_that_are_done() {
    let (write, sample) = ([1, 44, 0x0d, 0x0f], [4, 0, 0, 1022]);
    let mut coverage = Coverage::none();
    let report = b"answer=0\nanswer=0\nanswer=0\nanswer=9\nanswer=0\n";
    coverage.count(
        Some(&[[0, 44, 0, 0], write, sample, sample, sample]),
        report,
    );
    assert_eq!(
        (coverage.samples[0], coverage.samples[5]),
        ([2, 0, 0], [2, 0, 0])
    );
    coverage.count(Some(&[write, sample]), b"answer=2\nanswer=0\n");
    assert_eq!(coverage.samples.as_flattened().iter().sum::<u64>(), 4);
    let mut twice = Coverage::none();
    twice.add(&coverage);
    twice.add(&coverage);
    assert_eq!(twice.samples[0], [4, 0, 0]);
}

#[test]
fn counts_alerts_by_the_events_alone() {
    let (power, own, foreign) = ([0, 44, 0, 0], [9, 44, 0, 0], [9, 45, 0, 0]);
    let mut coverage = Coverage::none();
    coverage.count(Some(&[own, power, own, foreign, foreign]), b"");
    assert_eq!(coverage.alerts, [0, 1, 0, 1, 2, 0, 0, 0, 0, 0, 0, 0]);
    let mut twice = Coverage::none();
    twice.add(&coverage);
    twice.add(&coverage);
    assert_eq!(twice.alerts, [0, 2, 0, 2, 4, 0, 0, 0, 0, 0, 0, 0]);
}

#[test]
fn nothing_reached_is_missing() {
    assert_eq!(Coverage::none().missing().len(), 419);
}
