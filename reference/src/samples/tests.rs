//! The rule by which up to three samples are kept, and the line through them.

use super::{joins, Sample, Samples, KEPT_MOST};
use crate::answer::{BAD_DELAY, DONE, OUT_OF_SEQUENCE, TOO_FAR, TOO_FEW_SAMPLES};
use crate::bridge::{Calls, Listed, Plan, OWN};
use crate::frame::{self, Fields, Version, FRAME_LEN};
use crate::lives::lives;
use crate::lives::random::Random;
use crate::lives::sample_census::SampleCensus;
use crate::program::Program;
use crate::replay::Replay;
use crate::rules::{parts_per_million, rate, SPREAD_LEAST, SPREAD_MOST, STEADINESS};
use crate::times::{moved, next_count, parts, spread, LOCAL_END};

const SECOND: u128 = 1 << 40;
/// A spread of which many are within the limits.
const STEP: u64 = 1 << 34;
/// A spread whose greatest difference is whole, and twice which is document 01's figure.
const HALF_RUN: u64 = 2_000_000_000;
/// Its greatest difference.
const HALF_MOST: i128 = 500_000;

/// A sample by its way from the one before it and what its clock gained over that way.
type Move = (u64, i128);

/// Gives the sample that comes after another by a move.
fn after(before: &Sample, (way, gained): Move) -> Sample {
    Sample {
        grand: (before.grand as i128 + i128::from(way) + gained) as u128,
        local: moved(before.local, i128::from(way)),
        error: before.error + 1,
    }
}

/// Gives the samples of a clock from a local time on, the first being 100 s.
fn clock_at(local: u64, moves: &[Move]) -> Vec<Sample> {
    let first = Sample {
        grand: 100 * SECOND,
        local,
        error: 0,
    };
    let mut clock = vec![first];
    for step in moves {
        clock.push(after(&clock[clock.len() - 1], *step));
    }
    clock
}

/// Gives what is kept after all samples of a clock were taken.
fn taken(clock: &[Sample]) -> Samples {
    let mut samples = Samples::default();
    for sample in clock {
        samples.take(*sample, true);
    }
    samples
}

/// Says how many samples are kept of a clock that makes moves, from local times before, at and after the wrap.
fn kept_of(moves: &[Move]) -> usize {
    let starts = [0, 1 << 45, LOCAL_END - 1, LOCAL_END - SPREAD_LEAST];
    let counts = starts.map(|local| taken(&clock_at(local, moves)).count());
    assert!(counts.iter().all(|count| *count == counts[0]));
    counts[0]
}

/// The newest three are kept, from the newest to the oldest, and the rest go.
#[test]
fn up_to_three_are_kept() {
    let clock = clock_at(7, &[(STEP, 1), (STEP, 5), (STEP, -7), (STEP, 11)]);
    let mut samples = Samples::default();
    assert_eq!((samples.count(), samples.newest()), (0, None));
    for (place, sample) in clock.iter().enumerate() {
        samples.take(*sample, true);
        let wanted: Vec<Sample> = clock[..=place].iter().rev().take(3).copied().collect();
        let kept: Vec<Sample> = samples.kept.into_iter().flatten().collect();
        assert_eq!(kept, wanted);
        assert_eq!(samples.newest(), Some(*sample));
        assert_eq!(samples.count(), (place + 1).min(KEPT_MOST));
    }
}

/// The rate is from the oldest kept to the newest, and two are enough for it.
#[test]
fn rates_go_from_the_oldest_to_the_newest() {
    let clock = clock_at(7, &[(STEP, 1), (STEP, 5), (STEP, -7), (STEP, 11)]);
    let rates = [None, Some(2), Some(6), Some(-2), Some(4)];
    for (place, wanted) in rates.into_iter().enumerate() {
        let samples = taken(&clock[..=place]);
        assert_eq!(samples.rate(), wanted);
        let ends = (place > 0).then(|| (clock[place.saturating_sub(2)], clock[place]));
        assert_eq!(samples.ends(), ends);
    }
}

/// A third is kept up to the greatest spread from the oldest that stays, and one unit farther stands alone, though the newest would take it.
#[test]
fn the_oldest_has_its_spread() {
    for run in [
        SPREAD_LEAST,
        STEP,
        SPREAD_MOST / 2,
        SPREAD_MOST - SPREAD_LEAST,
    ] {
        let rest = SPREAD_MOST - run;
        assert_eq!(kept_of(&[(run, 0), (rest, 0)]), 3);
        assert_eq!(kept_of(&[(run, 0), (rest + 1, 0)]), 1);
        assert_eq!(kept_of(&[(SPREAD_LEAST, 0), (run, 0), (rest + 1, 0)]), 1);
    }
    assert_eq!(kept_of(&[(SPREAD_MOST, 0), (SPREAD_LEAST, 0)]), 1);
    assert_eq!(kept_of(&[(SPREAD_LEAST, 0), (SPREAD_LEAST, 0)]), 3);
    assert_eq!(kept_of(&[(SPREAD_MOST, 0)]), 2);
}

/// A third stands alone by the newest's spread, though the oldest would take it: too near, at the same time, before it.
#[test]
fn the_newest_has_its_spread() {
    assert_eq!(kept_of(&[(STEP, 0), (SPREAD_LEAST, 0)]), 3);
    for near in [SPREAD_LEAST - 1, 1, 0] {
        assert_eq!(kept_of(&[(STEP, 0), (near, 0)]), 1);
        assert_eq!(kept_of(&[(STEP, 0), (STEP, 0), (near, 0)]), 1);
    }
    let mut clock = clock_at(7, &[(STEP, 0)]);
    let between = Sample {
        grand: clock[0].grand + u128::from(STEP / 2),
        local: clock[0].local + STEP / 2,
        error: 0,
    };
    assert!(joins(&clock[0], &between));
    clock.push(between);
    assert_eq!(taken(&clock).count(), 1);
}

/// A third is kept at the greatest difference from both, and stands alone one unit beyond it from the newest, whatever it is from the oldest.
#[test]
fn differences_are_those_from_the_newest() {
    let third = |first: i128, second: i128| kept_of(&[(HALF_RUN, first), (HALF_RUN, second)]);
    for side in [1, -1] {
        assert_eq!(third(side * HALF_MOST, side * HALF_MOST), 3);
        assert_eq!(third(side * HALF_MOST, -side * HALF_MOST), 3);
        assert_eq!(third(side * HALF_MOST, side * (HALF_MOST + 1)), 1);
        assert_eq!(third(side * (HALF_MOST - 1), side * (HALF_MOST + 1)), 1);
        assert_eq!(third(-side * HALF_MOST, side * (HALF_MOST + 1)), 1);
    }
}

/// Where the newest takes a sample, the oldest that stays does too unless it is too far: the differences and their limits add up.
#[test]
fn only_the_spread_breaks_the_limits_of_the_oldest() {
    let mut random = Random::new(20);
    let mut broken = 0;
    for _ in 0..100_000 {
        let mut samples = Samples::default();
        let mut new = clock_at(random.below(LOCAL_END), &[])[0];
        for _ in 0..6 {
            let (newest, oldest) = (samples.newest(), samples.oldest_to_stay());
            if newest.is_some_and(|kept| joins(&kept, &new)) {
                let refused = oldest.filter(|kept| !joins(kept, &new));
                let far = |kept: Sample| spread(new.local, kept.local) > SPREAD_MOST;
                assert!(refused.is_none_or(far));
                broken += u64::from(refused.is_some());
            }
            samples.take(new, true);
            let way = random.within(SPREAD_LEAST, SPREAD_MOST * 3 / 4);
            let most = i128::from(way / STEADINESS as u64);
            let by_chance = random.about(way / STEADINESS as u64);
            new = after(&new, (way, random.pick(&[most, -most, by_chance])));
        }
    }
    assert!(broken > 1000);
}

/// The oldest goes and is not tested: a fourth can be farther from it than the greatest spread.
#[test]
fn the_oldest_that_goes_is_not_tested() {
    let half = SPREAD_MOST / 2;
    let clock = clock_at(7, &[(half, 64), (half, 192), (half, -128)]);
    assert!(!joins(&clock[0], &clock[3]));
    assert_eq!(taken(&clock).rate(), Some(rate(64, SPREAD_MOST)));
    assert_eq!(taken(&clock).ends(), Some((clock[1], clock[3])));
}

/// A sample of another clock stands alone, however many are kept, and the next ones join it.
#[test]
fn another_clock_stands_alone() {
    let clock = clock_at(7, &[(STEP, 1), (STEP, 5), (STEP, 0), (STEP, 0)]);
    for kept in 0..=KEPT_MOST {
        let mut samples = taken(&clock[..kept]);
        samples.take(clock[kept], false);
        assert_eq!(samples.kept, [Some(clock[kept]), None, None]);
        assert_eq!(samples.rate(), None);
        let next = after(&clock[kept], (STEP, 3));
        samples.take(next, true);
        assert_eq!(samples.ends(), Some((clock[kept], next)));
    }
}

/// Makes a linked bridge of two ports of both versions, whose own clock is followed if it is capable.
fn station(capable: bool) -> Listed {
    let mut bridge = Listed::empty();
    let plan = Plan {
        ports: 2,
        capable,
        back: Some(STEP),
        versions: [1, 2, 1, 1, 1, 1, 1, 1].map(Version),
        ..Plan::default()
    };
    assert_eq!(bridge.setup(&plan), DONE);
    assert_eq!(bridge.links(3), Ok(2));
    bridge
}

/// Has a port hear a frame of a clock with a hop, a count and a that-time, and gives the answer.
fn hear(bridge: &mut Listed, sample: &Sample, [hop, count, that]: [u8; 3], arrival: u64) -> u8 {
    let bytes = frame::put_together(&Fields {
        precedence: 5,
        hop,
        count,
        grand: sample.grand,
        local: 1,
        that_tx: u64::from(that),
        that_rx: u64::from(that),
        error: sample.error,
        ..Fields::default()
    });
    bridge.receive(1, &bytes, arrival)
}

/// Has port 1 hear all samples of a clock.
fn hear_all(bridge: &mut Listed, clock: &[Sample]) {
    let mut count = 0;
    let first = hear(bridge, &clock[0], [1, count, 0], clock[0].local);
    assert_eq!(first, OUT_OF_SEQUENCE);
    for (place, sample) in clock.iter().enumerate() {
        count = next_count(count);
        let arrival = clock.get(place + 1).unwrap_or(sample).local;
        assert_eq!(hear(bridge, sample, [1, count, 0], arrival), DONE);
    }
}

/// Has the own clock read all samples of a clock.
fn read_all(bridge: &mut Listed, clock: &[Sample]) {
    assert_eq!(bridge.own_clock(0, 0, 0, clock[0].local), OUT_OF_SEQUENCE);
    for (count, sample) in (1..).zip(clock) {
        let (seconds, fraction) = parts(sample.grand);
        let now = clock.get(usize::from(count)).unwrap_or(sample).local;
        assert_eq!(bridge.own_clock(count, seconds, fraction, now), DONE);
    }
}

/// Sends at a port and gives grand time and errorTime, or the refusal.
fn sent(bridge: &mut Listed, port: u8, departure: u64) -> Result<(u128, i32), u8> {
    let mut bytes = [0; FRAME_LEN];
    match bridge.send(port, departure, &mut bytes) {
        DONE => frame::read(&bytes).map(|fields| (fields.grand, fields.error)),
        refusal => Err(refusal),
    }
}

/// Drift, sends and stamps go by the line through the oldest and the newest, with u and errorTime from the newest, at a port and for the own clock, with two and with three.
#[test]
fn the_line_goes_through_the_oldest_and_the_newest() {
    let moves = [(STEP, 1 << 20), (STEP, 3 << 20), (STEP, -(2 << 20))];
    let clock = clock_at(LOCAL_END - STEP, &moves);
    for (heard, rate) in [(2, 1 << 21), (3, 1 << 22), (4, 1 << 20)] {
        let newest = clock[heard - 1];
        let oldest = clock[heard.saturating_sub(KEPT_MOST)];
        let back = rate as u128 / 2;
        for (port, error) in [(1, newest.error), (OWN, 0)] {
            let mut bridge = station(port == OWN);
            match port {
                OWN => read_all(&mut bridge, &clock[..heard]),
                _ => hear_all(&mut bridge, &clock[..heard]),
            }
            assert_eq!(bridge.drift(port), Ok(Some(parts_per_million(rate))));
            let grand = newest.grand - back;
            assert_eq!(sent(&mut bridge, 1, newest.local), Ok((grand, error)));
            let in_two = (grand, error + back as i32);
            assert_eq!(sent(&mut bridge, 2, newest.local), Ok(in_two));
            assert_eq!(bridge.stamp(newest.local), Ok(newest.grand));
            assert_eq!(bridge.stamp(oldest.local), Ok(oldest.grand));
        }
    }
}

/// With one sample there is no line: no drift, and 11 to a send and a stamp.
#[test]
fn one_is_too_few() {
    let clock = clock_at(5, &[(STEP, 0), (SPREAD_MOST - STEP + 1, 0)]);
    for heard in [1, 3] {
        let mut bridge = station(false);
        hear_all(&mut bridge, &clock[..heard]);
        let local = clock[heard - 1].local;
        assert_eq!(bridge.drift(1), Ok(None));
        assert_eq!(sent(&mut bridge, 1, local), Err(TOO_FEW_SAMPLES));
        assert_eq!(bridge.stamp(local), Err(TOO_FEW_SAMPLES));
    }
}

/// Frames that are refused with 7, 8 or 9 leave the three as they are, Age and a lost link take them all; the own clock keeps its own.
#[test]
fn three_go_together() {
    let clock = clock_at(5, &[(STEP, 1), (STEP, 5)]);
    let now = clock[2].local;
    let mut bridge = station(true);
    hear_all(&mut bridge, &clock);
    read_all(&mut bridge, &clock);
    let kept = bridge.ports[0].record.samples;
    assert_eq!(kept.count(), 3);
    for (frame, answer) in [
        ([255, 4, 0], TOO_FAR),
        ([1, 9, 0], OUT_OF_SEQUENCE),
        ([1, 10, 1], BAD_DELAY),
    ] {
        let arrival = now + SPREAD_MOST + STEP;
        assert_eq!(hear(&mut bridge, &clock[2], frame, arrival), answer);
        assert_eq!(bridge.ports[0].record.samples, kept);
    }
    let mut aged = bridge.clone();
    assert_eq!(aged.age(now + SPREAD_MOST), DONE);
    assert_eq!(bridge.links(2), Ok(1));
    for bridge in [&mut aged, &mut bridge] {
        assert_eq!(bridge.ports[0].record.samples, Samples::default());
        assert_eq!(bridge.own.samples.count(), 3);
    }
}

/// In generated lives what is kept is always within the limits from the newest, and an older sample is never without a newer one.
#[test]
fn lives_keep_samples_within_the_limits() {
    let mut three = 0;
    let played = lives(100_000, 20, &mut |_, _, bridge| {
        let ports = bridge.ports.iter().map(|port| &port.record.samples);
        for samples in ports.chain([&bridge.own.samples]) {
            let [newest, middle, oldest] = samples.kept;
            assert!(middle.is_none() || newest.is_some());
            assert!(oldest.is_none() || middle.is_some());
            let older = [middle, oldest].into_iter().flatten();
            assert!(newest.is_none_or(|new| older.clone().all(|kept| joins(&kept, &new))));
            three += usize::from(oldest.is_some());
        }
        Ok(())
    });
    assert!(played.is_ok());
    assert!(three > 1000);
}

/// The count of samples wants what can become of one at a port and of the own clock, each limit, and what is made from two and from three.
#[test]
fn census_misses_samples() {
    let mut census = SampleCensus::default();
    assert_eq!(census.missing().len(), 65);
    let mut replay = Replay::on(station(true));
    let mut play = |line: &str| {
        let mut out = Vec::new();
        replay.answer(line.as_bytes(), &mut out);
        census.count(line.as_bytes(), &out, &replay.bridge);
        census.missing().len()
    };
    assert_eq!(play("O 0 0 0 0"), 65);
    assert_eq!(play("O 1 0 0 400000000"), 64);
    assert_eq!(play("T 1 0 40"), 64);
    assert_eq!(play("O 2 0 400000000 8000000000"), 63);
    assert_eq!(play("T 1 0 40"), 63);
    assert_eq!(play("T 1 400000000 40"), 62);
    assert_eq!(play("T 2 400000000 40"), 61);
    assert_eq!(play("E 400000000"), 60);
    assert_eq!(play("D 0"), 59);
    assert_eq!(play("D 0"), 59);
    assert_eq!(play("O 3 0 8000000100 8400000001"), 57);
    assert_eq!(play("D 0"), 55);
    assert_eq!(play("O 4 0 8400000001 0"), 53);
    assert!(census
        .missing()
        .contains(&String::from("limits of a port: oldest at the spread")));
}
