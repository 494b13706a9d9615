//! The bench's part of the story, and what its element counts.
use demo::{Bench, Report, Tally};
use husk::{Refusal, CURRENT, OLD};

fn tally(handed: u64, others: u64) -> Tally {
    Tally {
        handed,
        repeats: 0,
        others,
    }
}

#[test]
fn the_story_of_the_bench() {
    let report = Report {
        sound: 40,
        gaps: 0,
        behind: 0,
        renewed: 10,
    };
    let mut bench = Bench::new().unwrap();
    assert_eq!(bench.run(), Ok(report));
    assert_eq!(bench.element().tally(), tally(50, 9));
    assert_eq!(
        report.to_string(),
        "bench: 40 handed, 0 gaps\n\
         bench, one record lost: 0 of 9 behind it handed, under a new key 10 of 10\n"
    );
}

#[test]
fn a_lost_record_stops_the_channel_and_a_new_key_starts_it() {
    let mut bench = Bench::new().unwrap();
    assert_eq!(bench.send(40), Ok(40));
    let before = bench.controller().table().clone();
    // However many come behind the lost one, they change nothing but the count.
    assert_eq!(bench.send(1 + 200), Ok(0));
    assert_eq!(bench.element().tally(), tally(40, 200));
    assert_eq!(bench.controller().table(), &before);
    assert_eq!(bench.gaps(), Ok(0), "a lost record is no gap here");
    bench.change_key().unwrap();
    assert_eq!((bench.send(300), bench.gaps()), (Ok(300), Ok(0)));
    assert_eq!(bench.controller().table().gaps(0, CURRENT), Ok(0));
    assert_eq!(
        bench.controller().table().gaps(0, OLD),
        Err(Refusal::Key),
        "it is dropped"
    );
}
