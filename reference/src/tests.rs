//! The figures that are known beforehand.

use crate::answer::{
    BAD_DELAY, BAD_LENGTH, BAD_SETUP, BAD_VERSION, BEYOND_RANGE, DONE, NOT_TIME_SYNC, NO_CLOCK,
    NO_LINK, OUT_OF_RANGE, OUT_OF_REACH, OUT_OF_SEQUENCE, TOO_FAR, TOO_FEW_SAMPLES,
};
use crate::bridge::{
    Bridge, Calls, Chosen, Listed, Plan, Profile, BACK_DEFAULT, BACK_MOST, OWN, TIMEOUT_DEFAULT,
};
use crate::byvalue::{Flat, Handed};
use crate::frame::{self, Fields, Version, AT_VERSION, FRAME_LEN, PRECEDENCE_WORST};
use crate::hex;
use crate::listing::Listing;
use crate::lives::census::{Census, PassesCensus, RankingCensus, TimestampCensus};
use crate::lives::latches;
use crate::lives::limits;
use crate::lives::listener_census::ListenerCensus;
use crate::lives::lives;
use crate::lives::random::Random;
use crate::lives::stamped::Stamper;
use crate::lives::version_census::VersionCensus;
use crate::order::{better, paired, Order, Places, Shuffled};
use crate::port::Port;
use crate::program::Program;
use crate::ptp::{export, import, on_scale, Scale, NANOSECONDS_END, SECONDS_END};
use crate::replay::{plan_in, Replay};
use crate::rules::{
    held_hop, link_delay, parts_per_million, passes_left, rate, rated, sample_rate, sent_error,
    sent_grand, steady, DELAY_MOST, HOP_LAST, HOP_NONE, RATE_ONE, SPREAD_LEAST, SPREAD_MOST,
    STEADINESS,
};
use crate::samples::{Sample, Samples, KEPT_MOST};
use crate::stamps::Stamps;
use crate::times::{distance, moved, next_count, spread, GRAND_END, LOCAL_END, PART_END};
use std::collections::HashSet;
use std::iter;

const SECOND: u128 = 1 << 40;
/// The greatest distance that is stamped, by document 02's figure.
const FARTHEST: i128 = 1 << 39;
/// The last PTP seconds.
const LAST: u64 = SECONDS_END - 1;
/// More fractions than any nanosecond has, by document 02's figure.
const NANOSECOND_MOST: u64 = 1_100;

/// Rates of both signs go to the nearest whole number and halves to the upper one, and what a rate makes of a stretch goes to the lower one.
#[test]
fn rates_go_to_the_nearest() {
    assert_eq!(rate(1, 1 << 34), 2);
    assert_eq!(rated(2, 1 << 30), 0);
    assert_eq!(rated(2, -(1 << 30)), -1);
    assert_eq!(rate(1, 1 << 36), 1);
    assert_eq!(rate(-1, 1 << 36), 0);
    assert_eq!(rate(3, 1 << 36), 2);
    assert_eq!(rate(-3, 1 << 36), -1);
    assert_eq!(rate(1, (1 << 36) + 1), 0);
    assert_eq!(rate(-1, (1 << 36) - 1), -1);
    assert_eq!(rate(1_000_000, 4_000_000_000), 8_589_935);
    assert_eq!(rate(-1_000_000, 4_000_000_000), -8_589_935);
    assert_eq!(parts_per_million(1 << 20), 30.517578125);
}

/// No whole number is nearer than a rate, none above it as near, and none is larger than document 02's limit.
#[test]
fn no_other_rate_is_nearer() {
    let mut random = Random::new(3);
    let runs = (1..=8).map(|steps: u64| steps << 36);
    let some = (0..100_000).map(|_| random.within(SPREAD_LEAST, SPREAD_MOST));
    let runs: Vec<u64> = runs.chain(some).collect();
    for run in runs {
        let most = run / STEADINESS as u64;
        let nearby = random.about(8);
        for difference in [random.about(most), nearby, most as i128, -(most as i128)] {
            let found = rate(difference, run);
            let off = |rate: i128| (rate * i128::from(run) - difference * RATE_ONE).abs();
            assert!(off(found) <= off(found - 1) && off(found) < off(found + 1));
            assert!(found.abs() <= 8_589_935);
        }
    }
}

/// Spreads and differences are taken up to their last value.
#[test]
fn samples_are_kept_up_to_the_limits() {
    assert!(steady(1_000_000, 4_000_000_000));
    assert!(steady(-1_000_000, 4_000_000_000));
    assert!(!steady(1_000_001, 4_000_000_000));
    assert!(steady(0, 1 << 30) && steady(0, 1 << 39));
    assert!(!steady(0, (1 << 30) - 1) && !steady(0, (1 << 39) + 1));
}

/// Local times and counts go round.
#[test]
fn circles_close() {
    assert_eq!(spread(1 << 33, LOCAL_END - (1 << 33)), 1 << 34);
    assert_eq!(next_count(255), 0);
}

/// Delays are half of what the trip took beyond the turn.
#[test]
fn delays_are_halved_and_never_below_zero() {
    assert_eq!(link_delay(0, 7, 2), 2);
    assert_eq!(link_delay(0, 5, 9), 0);
    assert_eq!(link_delay(-1, 2, 1), 1);
}

/// Held hops jump for a frame from farther away.
#[test]
fn hops_grow() {
    assert_eq!(held_hop(3, 2), 3);
    assert_eq!(held_hop(2, 3), 129);
    assert_eq!(held_hop(HOP_NONE, 3), 4);
    assert_eq!(held_hop(10, 253), 254);
    assert_eq!(held_hop(10, 254), 255);
}

/// Every held hop is above the frame's and at most the last, by the greatest step that half of the way left allows.
#[test]
fn hops_rise_at_every_station() {
    for chosen in 0..=HOP_NONE {
        for hop in 0..HOP_NONE {
            let held = held_hop(chosen, hop);
            assert!(held > hop);
            let step = u16::from(held - hop);
            let left = u16::from(HOP_NONE - hop);
            let farthest = if hop > chosen { left } else { 0 };
            assert!(step == 1 || 2 * step <= farthest);
            assert!(2 * (step + 1) > farthest);
        }
    }
}

/// Gives the passes left at a hop by the rule: none at 255, otherwise one more than at the hop that the larger step leads to.
fn passes_by_steps(hop: u8) -> u8 {
    if hop == HOP_NONE {
        return 0;
    }
    let larger_step = ((HOP_NONE - hop) / 2).max(1);
    1 + passes_by_steps(hop + larger_step)
}

/// At every hop the passes left are those of the rule.
#[test]
fn passes_are_those_of_the_rule() {
    for hop in 0..=HOP_NONE {
        assert_eq!(passes_left(hop), passes_by_steps(hop));
    }
}

/// The passes left change where the way left is a power of two, from nine at hop 0 to none at 255.
#[test]
fn passes_change_at_powers_of_two() {
    for (first, last, passes) in [
        (0, 126, 9),
        (127, 190, 8),
        (191, 222, 7),
        (223, 238, 6),
        (239, 246, 5),
        (247, 250, 4),
        (251, 252, 3),
        (253, 253, 2),
        (254, 254, 1),
        (255, 255, 0),
    ] {
        assert!((first..=last).all(|hop| passes_left(hop) == passes));
    }
}

/// A frame that goes from station to station, each with a chosen hop below the frame's own, is taken as often as its hop has passes left.
#[test]
fn frames_are_taken_as_often_as_they_have_passes() {
    for first in 1..=HOP_NONE {
        for chosen in 0..first {
            let held = |hop: &u8| (*hop != HOP_NONE).then(|| held_hop(chosen, *hop));
            let stations = iter::successors(held(&first), held).count();
            assert_eq!(stations, usize::from(passes_left(first)));
        }
    }
}

/// A worked example of a sent time comes out.
#[test]
fn sent_time_lies_on_the_line() {
    let newer = 100 * SECOND + (1 << 34) + 2;
    let older = newer - (1 << 34) - 2;
    let newer = (newer, 7 + (1 << 34));
    let rate = sample_rate((older, 7), newer);
    let sent = sent_grand(rate, newer, 1 << 33, 7 + (2 << 34));
    assert_eq!(sent, (100 * SECOND) as i128 + 34_359_738_371);
}

/// The listing program answers its example.
#[test]
fn listing_shows_the_example() {
    let frame = |count: &str| {
        let zeros = |many| "0".repeat(many);
        let fixed = "0180C200000E02000000000188B50101";
        format!("01{}{fixed}{}{count}{}", zeros(12), zeros(28), zeros(66))
    };
    let lines = [
        String::new(),
        format!("01{}", "0".repeat(140)),
        frame("00"),
        frame("01"),
    ];
    let mut listing = Listing::on(Listed::empty());
    let mut out = Vec::new();
    for line in lines {
        listing.answer(line.as_bytes(), &mut out);
        out.push(b'\n');
    }
    assert_eq!(out, b"0E FF FF\n05 FF FF\n08 FF FF\n00 01 01\n");
}

/// A refusal wipes the bridge that was there.
#[test]
fn a_refused_setup_leaves_no_ports() {
    let mut bridge = Listed::empty();
    let plan = Plan {
        ports: 2,
        capable: true,
        ..Plan::default()
    };
    assert_eq!(bridge.setup(&plan), 0);
    assert_eq!(bridge.chosen(), Some((0, 0)));
    assert_eq!(bridge.setup(&Plan { ports: 9, ..plan }), 1);
    assert_eq!(bridge.chosen(), None);
    assert_eq!(bridge.links(1), Err(2));
    assert_eq!(bridge.own_clock(0, 0, 0, 0), 10);
}

/// The list and the fixed-size value give the same answers.
#[test]
fn both_forms_of_the_state_answer_alike() {
    let mut handed = Replay {
        bridge: Handed(Flat::empty()),
    };
    let mut out = Vec::new();
    let played = lives(20_000, 1, &mut |line, reply, _| {
        out.clear();
        handed.answer(line, &mut out);
        assert_eq!(out, reply);
        Ok(())
    });
    assert!(played.is_ok());
}

/// A bridge that compares in orders from a seed gives the same answers as one that compares its ports in turn, and between calls has the same choice and the same ranking.
#[test]
fn every_order_answers_alike() {
    let mut shuffled = Replay {
        bridge: Bridge::<Vec<Port>, Shuffled>::comparing(Shuffled::new(1)),
    };
    let mut out = Vec::new();
    let played = lives(20_000, 3, &mut |line, reply, bridge| {
        out.clear();
        shuffled.answer(line, &mut out);
        assert_eq!(out, reply);
        assert_eq!(shuffled.bridge.best(), bridge.best());
        for place in 0..=9 {
            assert_eq!(shuffled.bridge.ranked_at(place), bridge.ranked_at(place));
        }
        Ok(())
    });
    assert!(played.is_ok());
}

/// The local spread of two samples and their grand spread less it.
struct Line {
    spread: u64,
    difference: i128,
}

const RATE_2: Line = Line {
    spread: 1 << 34,
    difference: 1,
};
const RATE_0: Line = Line {
    spread: 1 << 34,
    difference: 0,
};
const RATE_MINUS_1: Line = Line {
    spread: 1 << 35,
    difference: -1,
};

/// A bridge that follows its own clock, whose newer sample is given and whose older one lies on a line with it.
struct Followed {
    bridge: Listed,
    newer_local: u64,
}

impl Followed {
    /// Makes the bridge with the two samples.
    fn on(line: &Line, newer_grand: u128, newer_local: u64) -> Followed {
        let newer = Sample {
            grand: newer_grand,
            local: newer_local,
            error: 0,
        };
        let older_grand = newer_grand as i128 - i128::from(line.spread) - line.difference;
        let older = Sample {
            grand: older_grand as u128,
            local: moved(newer_local, -i128::from(line.spread)),
            error: 0,
        };
        let mut bridge = capable();
        bridge.own.samples = Samples {
            kept: [Some(newer), Some(older), None],
        };
        Followed {
            bridge,
            newer_local,
        }
    }

    /// Gives the stamp of the latch at a distance from the newer sample.
    fn at(&mut self, distance: i128) -> Result<u128, u8> {
        self.bridge.stamp(moved(self.newer_local, distance))
    }
}

/// Makes a bridge whose own clock is chosen and has no sample yet.
fn capable() -> Listed {
    let mut bridge = Listed::empty();
    let plan = Plan {
        ports: 1,
        capable: true,
        ..Plan::default()
    };
    assert_eq!(bridge.setup(&plan), 0);
    bridge
}

/// The nearer way round has its sign, across the wrap too.
#[test]
fn distances_go_the_nearer_way() {
    assert_eq!(distance(7, 7), 0);
    assert_eq!(distance(0, LOCAL_END - 1), 1);
    assert_eq!(distance(LOCAL_END - 1, 0), -1);
    assert_eq!(distance((1 << 47) - 1, 0), (1 << 47) - 1);
    assert_eq!(distance((1 << 47) + 1, 0), 1 - (1 << 47));
    assert_eq!(distance(1 << 47, 0).abs(), 1 << 47);
}

/// At the newer sample the stamp is its grand time, and beside it the rate is rounded down.
#[test]
fn stamps_round_down_before_and_after() {
    let newer = 100 * SECOND;
    let mut faster = Followed::on(&RATE_2, newer, 5 << 40);
    assert_eq!(faster.at(0), Ok(newer));
    assert_eq!(faster.at(1), Ok(newer + 1));
    assert_eq!(faster.at(-1), Ok(newer - 2));
    assert_eq!(faster.at(1 << 34), Ok(newer + (1 << 34) + 1));
    assert_eq!(faster.at(-(1 << 34)), Ok(newer - (1 << 34) - 1));
    let mut slower = Followed::on(&RATE_MINUS_1, newer, 5 << 40);
    assert_eq!(slower.at(0), Ok(newer));
    assert_eq!(slower.at(1), Ok(newer));
    assert_eq!(slower.at(-1), Ok(newer - 1));
    assert_eq!(slower.at(1 << 35), Ok(newer + (1 << 35) - 1));
    assert_eq!(slower.at(-(1 << 35)), Ok(newer - (1 << 35) + 1));
}

/// A distance of 2^39 is stamped to both sides, one more is not, nor is the other end of the circle.
#[test]
fn stamps_reach_as_far_as_the_limit() {
    let newer = 100 * SECOND;
    let mut faster = Followed::on(&RATE_2, newer, 5 << 40);
    assert_eq!(faster.at(FARTHEST), Ok(newer + (1 << 39) + 32));
    assert_eq!(faster.at(-FARTHEST), Ok(newer - (1 << 39) - 32));
    let mut slower = Followed::on(&RATE_MINUS_1, newer, 5 << 40);
    assert_eq!(slower.at(FARTHEST), Ok(newer + (1 << 39) - 16));
    assert_eq!(slower.at(-FARTHEST), Ok(newer - (1 << 39) + 16));
    for beyond in [FARTHEST + 1, -FARTHEST - 1, 1 << 47, (1 << 47) + 1] {
        assert_eq!(faster.at(beyond), Err(OUT_OF_REACH));
        assert_eq!(slower.at(beyond), Err(OUT_OF_REACH));
    }
}

/// The wrap of local time makes no difference.
#[test]
fn stamps_go_across_the_wrap() {
    let newer = 100 * SECOND;
    for newer_local in [0, 5, LOCAL_END - 1] {
        let mut faster = Followed::on(&RATE_2, newer, newer_local);
        assert_eq!(faster.at(1), Ok(newer + 1));
        assert_eq!(faster.at(-6), Ok(newer - 7));
        assert_eq!(faster.at(FARTHEST), Ok(newer + (1 << 39) + 32));
        assert_eq!(faster.at(-FARTHEST), Ok(newer - (1 << 39) - 32));
        assert_eq!(faster.at(FARTHEST + 1), Err(OUT_OF_REACH));
        assert_eq!(faster.at(-FARTHEST - 1), Err(OUT_OF_REACH));
    }
}

/// Zero is stamped and nothing below it.
#[test]
fn stamps_begin_at_zero() {
    let mut level = Followed::on(&RATE_0, (1 << 34) + 5, 7);
    assert_eq!(level.at(-(1 << 34) - 5), Ok(0));
    assert_eq!(level.at(-(1 << 34) - 6), Err(BEYOND_RANGE));
    let mut faster = Followed::on(&RATE_2, 1 << 38, 7);
    assert_eq!(faster.at(-(1 << 38) + 17), Ok(1));
    assert_eq!(faster.at(-(1 << 38) + 16), Ok(0));
    assert_eq!(faster.at(-(1 << 38) + 15), Err(BEYOND_RANGE));
    assert_eq!(faster.at(-FARTHEST), Err(BEYOND_RANGE));
    assert_eq!(faster.at(-FARTHEST - 1), Err(OUT_OF_REACH));
}

/// The last grand time is stamped and nothing from 2^80 on.
#[test]
fn stamps_end_before_the_end() {
    let mut level = Followed::on(&RATE_0, GRAND_END - 1 - (1 << 34), 7);
    assert_eq!(level.at(1 << 34), Ok(GRAND_END - 1));
    assert_eq!(level.at((1 << 34) + 1), Err(BEYOND_RANGE));
    let mut faster = Followed::on(&RATE_2, GRAND_END - (1 << 38), 7);
    assert_eq!(faster.at((1 << 38) - 17), Ok(GRAND_END - 2));
    assert_eq!(faster.at((1 << 38) - 16), Ok(GRAND_END - 1));
    assert_eq!(faster.at((1 << 38) - 15), Err(BEYOND_RANGE));
    assert_eq!(faster.at(FARTHEST), Err(BEYOND_RANGE));
    assert_eq!(faster.at(FARTHEST + 1), Err(OUT_OF_REACH));
}

/// The latch's range comes first, then the clock, then its samples, and a stamp leaves the bridge as it was.
#[test]
fn stamps_refuse_in_order() {
    let mut none = Listed::empty();
    assert_eq!(none.stamp(LOCAL_END), Err(OUT_OF_RANGE));
    assert_eq!(none.stamp(u64::MAX), Err(OUT_OF_RANGE));
    assert_eq!(none.stamp(LOCAL_END - 1), Err(NO_CLOCK));
    let mut few = capable();
    assert_eq!(few.stamp(LOCAL_END), Err(OUT_OF_RANGE));
    assert_eq!(few.stamp(0), Err(TOO_FEW_SAMPLES));
    let mut followed = Followed::on(&RATE_2, SECOND, 7);
    let before = followed.bridge.clone();
    assert_eq!(followed.bridge.stamp(LOCAL_END), Err(OUT_OF_RANGE));
    assert_eq!(followed.bridge.stamp(7), Ok(SECOND));
    assert_eq!(followed.bridge, before);
}

/// Twelve digits are a latch in either case, and anything else is the listing's.
#[test]
fn only_twelve_digits_are_a_latch() {
    let mut stamps = Stamps::on(Listed::empty());
    let mut answer = |line: &str| {
        let mut out = Vec::new();
        stamps.answer(line.as_bytes(), &mut out);
        String::from_utf8_lossy(&out).into_owned()
    };
    assert_eq!(answer("00000000000F"), "0A");
    assert_eq!(answer("ffffffffffff"), "0A");
    for neither in [
        "",
        "00000000000",
        "0000000000000",
        "00000000000g",
        " 00000000000",
        "00000000000\r",
    ] {
        assert_eq!(answer(neither), "0E FF FF");
    }
}

/// Every answer occurs in generated lives, and each that latches can have in the lines for the stamps program.
#[test]
fn lives_meet_every_answer() {
    let mut census = Census::default();
    let mut stamper = Stamper::default();
    let mut turned = Vec::new();
    let played = lives(100_000, 1, &mut |line, reply, bridge| {
        census.count(line, reply, bridge);
        stamper.put(line, &mut turned);
        turned.clear();
        Ok(())
    });
    assert!(played.is_ok());
    assert!(census.complete());
    assert!(stamper.census.missing().is_empty());
}

/// A latch goes to the stamps program in twelve digits.
#[test]
fn latches_are_turned_into_twelve_digits() {
    let mut stamper = Stamper::default();
    let mut turned = Vec::new();
    stamper.put(b"E 5abc", &mut turned);
    assert!(turned.starts_with(b"000000005ABC\n"));
    assert_eq!(stamper.census.missing().len(), 8);
}

/// Every stamp in generated lives is less than 9 U from the line through the chosen clock's oldest and newest sample.
#[test]
fn stamps_lie_near_the_line() {
    let mut stamps = 0;
    let played = lives(100_000, 2, &mut |line, reply, bridge| {
        let (Some(latch), Some(stamp)) = (latches::called(line), stamp_of(reply)) else {
            return Ok(());
        };
        let Some((oldest, newest)) = limits::followed(bridge).ends() else {
            return Err(std::io::Error::other("a stamp without two samples"));
        };
        let run = i128::from(spread(newest.local, oldest.local));
        let rise = newest.grand as i128 - oldest.grand as i128;
        let risen = stamp - newest.grand as i128;
        let off = risen * run - rise * distance(latch, newest.local);
        assert!(off.abs() < 9 * run);
        stamps += 1;
        Ok(())
    });
    assert!(played.is_ok());
    assert!(stamps > 1000);
}

/// Gives the stamp that replay printed, where it did.
fn stamp_of(reply: &[u8]) -> Option<i128> {
    let digits = std::str::from_utf8(reply.strip_prefix(b"00 ")?).ok()?;
    i128::from_str_radix(digits, 16).ok()
}

/// Gives the nanoseconds that a fraction is exported as, with seconds that stay as they are.
fn exported(fraction: u64) -> u64 {
    let Ok(timestamp) = export(PART_END - 1, fraction) else {
        return NANOSECONDS_END;
    };
    assert_eq!(timestamp.seconds.count(), PART_END - 1);
    u64::from(timestamp.nanoseconds)
}

/// Gives the fraction that nanoseconds are imported as, with seconds that stay as they are.
fn imported(nanoseconds: u64) -> u64 {
    let Ok(grand) = import(PART_END - 1, nanoseconds) else {
        return PART_END;
    };
    assert_eq!(grand / SECOND, SECOND - 1);
    (grand % SECOND) as u64
}

/// A fraction is exported as the whole nanoseconds in it.
#[test]
fn exports_round_down() {
    for (fraction, nanoseconds) in [
        (0, 0),
        (1, 0),
        (1_099, 0),
        (1_100, 1),
        (2_199, 1),
        (2_200, 2),
        ((1 << 31) - 1, 1_953_124),
        (1 << 31, 1_953_125),
        ((1 << 39) - 1, 499_999_999),
        (1 << 39, 500_000_000),
        (PART_END - 1_100, 999_999_998),
        (PART_END - 1_099, 999_999_999),
        (PART_END - 1, 999_999_999),
    ] {
        assert_eq!(exported(fraction), nanoseconds);
    }
}

/// An imported fraction is the first of its nanosecond, which a search from before that nanosecond finds too.
#[test]
fn imports_are_the_least() {
    assert_eq!(imported(0), 0);
    assert_eq!(imported(1), 1_100);
    assert_eq!(imported(2), 2_200);
    assert_eq!(imported(1_953_125), 1 << 31);
    assert_eq!(imported(999_999_999), PART_END - 1_099);
    let mut random = Random::new(1);
    let some = (0..1_000).map(|_| random.below(NANOSECONDS_END));
    for nanoseconds in [0, 1, 2, 999_999_998, 999_999_999].into_iter().chain(some) {
        let least = imported(nanoseconds);
        let before = least.saturating_sub(NANOSECOND_MOST);
        assert!(before == 0 || exported(before) < nanoseconds);
        let found = (before..PART_END).find(|fraction| exported(*fraction) >= nanoseconds);
        assert_eq!(found, Some(least));
        assert_eq!(exported(least), nanoseconds);
    }
}

/// An export undoes an import, and an import after an export is never later and less than 1,100 U earlier.
#[test]
fn timestamps_go_there_and_back() {
    let mut random = Random::new(2);
    for _ in 0..100_000 {
        let nanoseconds = random.below(NANOSECONDS_END);
        assert_eq!(exported(imported(nanoseconds)), nanoseconds);
        let fraction = random.below(PART_END);
        let again = imported(exported(fraction));
        assert!(again <= fraction && fraction - again < NANOSECOND_MOST);
    }
}

/// Exports refuse what is no grand time, imports that and nanoseconds from 10^9 on.
#[test]
fn timestamps_refuse_what_is_out_of_range() {
    assert!(export(PART_END - 1, PART_END - 1).is_ok());
    assert!(import(PART_END - 1, NANOSECONDS_END - 1).is_ok());
    for beyond in [PART_END, SECONDS_END, u64::MAX] {
        assert_eq!(export(beyond, 0), Err(OUT_OF_RANGE));
        assert_eq!(export(0, beyond), Err(OUT_OF_RANGE));
        assert_eq!(export(beyond, beyond), Err(OUT_OF_RANGE));
        assert_eq!(import(beyond, 0), Err(OUT_OF_RANGE));
        assert_eq!(import(beyond, NANOSECONDS_END), Err(OUT_OF_RANGE));
    }
    for beyond in [NANOSECONDS_END, (1 << 32) - 1, 1 << 32, u64::MAX] {
        assert_eq!(import(0, beyond), Err(OUT_OF_RANGE));
    }
}

/// GPS begins at its offset and ends with PTP.
#[test]
fn gps_keeps_its_range() {
    assert_eq!(on_scale(0, Scale::Gps), Err(BEYOND_RANGE));
    assert_eq!(on_scale(315_964_818, Scale::Gps), Err(BEYOND_RANGE));
    assert_eq!(on_scale(315_964_819, Scale::Gps), Ok(0));
    assert_eq!(on_scale(315_964_820, Scale::Gps), Ok(1));
    assert_eq!(on_scale(LAST, Scale::Gps), Ok(LAST - 315_964_819));
    assert_eq!(on_scale(SECONDS_END, Scale::Gps), Err(OUT_OF_RANGE));
}

/// Asserts that a scale begins so many seconds ahead of PTP, and has none left as many before PTP ends.
fn assert_ends_early(scale: Scale, ahead: u64) {
    assert_eq!(on_scale(0, scale), Ok(ahead));
    assert_eq!(on_scale(LAST - ahead - 1, scale), Ok(LAST - 1));
    assert_eq!(on_scale(LAST - ahead, scale), Ok(LAST));
    assert_eq!(on_scale(LAST - ahead + 1, scale), Err(BEYOND_RANGE));
    assert_eq!(on_scale(LAST, scale), Err(BEYOND_RANGE));
}

/// UTC begins at its leap seconds, or where they are below zero ends so much earlier.
#[test]
fn utc_keeps_its_range() {
    for leap in [1, 37, i16::MAX] {
        let first = leap as u64;
        assert_eq!(on_scale(0, Scale::Utc(leap)), Err(BEYOND_RANGE));
        assert_eq!(on_scale(first - 1, Scale::Utc(leap)), Err(BEYOND_RANGE));
        assert_eq!(on_scale(first, Scale::Utc(leap)), Ok(0));
        assert_eq!(on_scale(first + 1, Scale::Utc(leap)), Ok(1));
        assert_eq!(on_scale(LAST, Scale::Utc(leap)), Ok(LAST - first));
    }
    assert_eq!(on_scale(0, Scale::Utc(0)), Ok(0));
    assert_eq!(on_scale(LAST, Scale::Utc(0)), Ok(LAST));
    for (leap, ahead) in [(-1, 1), (-37, 37), (i16::MIN, 32_768)] {
        assert_ends_early(Scale::Utc(leap), ahead);
    }
}

/// NTP never begins below zero, and ends earlier than PTP by what it is ahead.
#[test]
fn ntp_keeps_its_range() {
    for (leap, ahead) in [
        (i16::MIN, 2_209_021_568),
        (-1, 2_208_988_801),
        (0, 2_208_988_800),
        (37, 2_208_988_763),
        (i16::MAX, 2_208_956_033),
    ] {
        assert_ends_early(Scale::Ntp(leap), ahead);
    }
}

/// PTP seconds out of range are refused first, whether or not the scale would be in range again.
#[test]
fn scales_refuse_in_order() {
    for scale in [
        Scale::Gps,
        Scale::Utc(1),
        Scale::Utc(0),
        Scale::Utc(-1),
        Scale::Ntp(37),
    ] {
        assert_eq!(on_scale(SECONDS_END, scale), Err(OUT_OF_RANGE));
        assert_eq!(on_scale(u64::MAX, scale), Err(OUT_OF_RANGE));
    }
}

/// The first second of 2017, when the leap seconds became 37, is what it is known as on each scale.
#[test]
fn scales_meet_at_a_known_date() {
    let seconds = 1_483_228_837;
    assert_eq!(on_scale(seconds, Scale::Gps), Ok(1_167_264_018));
    assert_eq!(on_scale(seconds, Scale::Utc(37)), Ok(1_483_228_800));
    assert_eq!(on_scale(seconds, Scale::Ntp(37)), Ok(3_692_217_600));
}

/// Gives what a line prints that asks a bridge and leaves it as it was.
fn asked(bridge: &Listed, line: &str) -> String {
    let mut replay = Replay {
        bridge: bridge.clone(),
    };
    let mut out = Vec::new();
    replay.answer(line.as_bytes(), &mut out);
    assert_eq!(replay.bridge, *bridge);
    String::from_utf8_lossy(&out).into_owned()
}

/// Lines of timestamps and scales have numbers of up to 16 digits and leap seconds of two bytes, and leave the bridge as it was.
#[test]
fn lines_of_timestamps_have_their_form() {
    let bridge = Followed::on(&RATE_2, SECOND, 7).bridge;
    let answer = |line: &str| asked(&bridge, line);
    assert_eq!(answer("X a 44c"), "00 00000000000A 00000001");
    assert_eq!(answer("X 10000000000 0"), "02");
    assert_eq!(
        answer("I 000000000000000A 3B9AC9FF"),
        "00 000000000AFFFFFFFBB5"
    );
    assert_eq!(answer("I A 3b9aca00"), "02");
    assert_eq!(answer("G 12D53D94"), "00 000000000001");
    assert_eq!(answer("G 12D53D92"), "0D");
    assert_eq!(answer("U 0 8000"), "00 000000008000");
    assert_eq!(answer("U 0 0001"), "0D");
    assert_eq!(answer("N 0 7fff"), "00 000083A9FE81");
    assert_eq!(answer("N FFFFFFFFFFFF 0025"), "0D");
    for no_line in [
        "X 0",
        "X 0 0 0",
        "X 0 00000000000000000",
        "I 0",
        "I 0 -",
        "G",
        "G 0 0025",
        "U 0",
        "U 0 25",
        "U 0 -",
        "U 0 025",
        "N 0 000025",
        "N 0 0025 0",
        "n 0 0025",
    ] {
        assert_eq!(answer(no_line), "0E");
    }
}

/// The count of timestamps and scales wants every answer of each letter, and 13 at each end where it can be.
#[test]
fn census_misses_timestamps() {
    let mut census = TimestampCensus::default();
    assert_eq!(census.missing().len(), 19);
    census.count(b"X 0 0", b"00 000000000000 00000000");
    census.count(b"G 0", b"0D");
    census.count(b"N", b"0E");
    census.count(b"NN 0", b"0E");
    assert_eq!(census.missing().len(), 16);
    census.count(b"U 0 0001", b"0D");
    assert!(census.missing().contains(&String::from("U beyond the end")));
    assert!(!census.missing().contains(&String::from("U below zero")));
}

/// Gives three candidates of which the last two differ in their port alone.
fn alike() -> Vec<Option<Chosen>> {
    let candidate = |hop, port| {
        Some(Chosen {
            precedence: 7,
            hop,
            port,
        })
    };
    vec![candidate(3, OWN), candidate(2, 5), candidate(2, 4)]
}

/// Pairs come in each order and grouping: three leaves make the twelve trees that there are.
#[test]
fn every_pairing_is_drawn() {
    let pairing = |seed| {
        let leaves = vec!["a".to_string(), "b".to_string(), "c".to_string()];
        paired(leaves, Random::new(seed), |one, other| {
            format!("({one}{other})")
        })
    };
    let drawn: HashSet<Option<String>> = (0..1_000).map(pairing).collect();
    assert_eq!(drawn.len(), 12);
    assert!(drawn.contains(&Some("((ab)c)".to_string())));
    assert!(drawn.contains(&Some("(c(ba))".to_string())));
}

/// Every pairing comes to the least candidate, and where the port is left out of the comparison some come to another one.
#[test]
fn every_pairing_chooses_the_same() {
    let by_hop_alone = |one: Option<Chosen>, other: Option<Chosen>| {
        if other.map(|clock| clock.hop) < one.map(|clock| clock.hop) {
            other
        } else {
            one
        }
    };
    let least = alike().into_iter().flatten().min();
    let wrong: HashSet<Option<u8>> = (0..1_000)
        .map(|seed| {
            assert_eq!(paired(alike(), Random::new(seed), better).flatten(), least);
            paired(alike(), Random::new(seed), by_hop_alone)
                .flatten()
                .map(|clock| clock.port)
        })
        .collect();
    assert_eq!(wrong, HashSet::from([Some(4), Some(5)]));
}

/// The nine places are listed in many orders: in a thousand seeds each candidate comes to each place, and no order is usual.
#[test]
fn every_place_is_drawn() {
    let mut places = Places::default();
    for (port, place) in (0..).zip(&mut places) {
        *place = Some(Chosen {
            precedence: 7,
            hop: 2,
            port,
        });
    }
    let mut orders = HashSet::new();
    let mut placed = HashSet::new();
    for seed in 0..1_000 {
        let mut mixed = places;
        Shuffled::new(seed).mix(&mut mixed);
        placed.extend(mixed.into_iter().enumerate());
        orders.insert(mixed);
        mixed.sort();
        assert_eq!(mixed, places);
    }
    assert_eq!(placed.len(), places.len() * places.len());
    assert!(orders.len() > 990);
}

/// Makes a bridge whose ports all have a link, with a precedence of its own clock where that is a candidate.
fn linked(ports: u8, own: Option<u128>) -> Listed {
    let mut bridge = Listed::empty();
    let plan = Plan {
        ports,
        precedence: own.unwrap_or_default(),
        capable: own.is_some(),
        ..Plan::default()
    };
    assert_eq!(bridge.setup(&plan), DONE);
    assert_eq!(bridge.links(((1_u16 << ports) - 1) as u8), Ok(ports));
    bridge
}

/// Gives a frame of a precedence, a hop and a count, and of zeros.
fn plain_frame(precedence: u128, hop: u8, count: u8) -> [u8; FRAME_LEN] {
    frame::put_together(&Fields {
        precedence,
        hop,
        count,
        ..Fields::default()
    })
}

/// Has a port take a frame of a precedence and hop 0, which is held as 1, after a first one that it refuses where it has heard none.
fn hear(bridge: &mut Listed, port: u8, precedence: u128, now: u64) {
    let count = match bridge.ports[usize::from(port) - 1].record.last {
        Some(heard) => next_count(heard.count),
        None => {
            let first = plain_frame(precedence, 0, 0);
            assert_eq!(bridge.receive(port, &first, now), OUT_OF_SEQUENCE);
            1
        }
    };
    let next = plain_frame(precedence, 0, count);
    assert_eq!(bridge.receive(port, &next, now), DONE);
}

/// Gives the ports of all places up to the first without a candidate, and asserts that every later place is without one too.
fn shown(bridge: &mut Listed) -> Vec<u8> {
    let before = bridge.clone();
    let places: Vec<Option<Chosen>> = (0..=u8::MAX).map(|place| bridge.ranked(place)).collect();
    assert_eq!(*bridge, before);
    let shown: Vec<u8> = places
        .iter()
        .map_while(|clock| Some((*clock)?.port))
        .collect();
    assert!(places[shown.len()..].iter().all(Option::is_none));
    shown
}

/// Without a candidate no place has one: before a setup, and after one of a station that isn't capable.
#[test]
fn no_candidate_has_no_place() {
    assert_eq!(shown(&mut Listed::empty()), []);
    assert_eq!(shown(&mut linked(8, None)), []);
}

/// The own clock of a capable station is in its place from the setup on, with hop 0, and before every port of the same precedence.
#[test]
fn the_own_clock_has_a_place() {
    let mut bridge = linked(3, Some(5));
    let own = Chosen {
        precedence: 5,
        hop: 0,
        port: OWN,
    };
    assert_eq!(bridge.ranked(0), Some(own));
    assert_eq!(shown(&mut bridge), [OWN]);
    hear(&mut bridge, 3, 4, 0);
    hear(&mut bridge, 1, 5, 0);
    hear(&mut bridge, 2, 6, 0);
    assert_eq!(shown(&mut bridge), [3, OWN, 1, 2]);
    assert_eq!(bridge.own_clock(0, 0, 0, 0), OUT_OF_SEQUENCE);
    assert_eq!(bridge.own_clock(1, 0, 0, 1), DONE);
    assert_eq!(shown(&mut bridge), [3, OWN, 1, 2]);
}

/// The runner-up is the best but for the chosen clock, and a clock that becomes better or worse goes to where it belongs.
#[test]
fn the_runner_up_comes_second() {
    let mut bridge = linked(3, None);
    hear(&mut bridge, 1, 30, 0);
    assert_eq!(shown(&mut bridge), [1]);
    hear(&mut bridge, 2, 10, 0);
    hear(&mut bridge, 3, 20, 0);
    assert_eq!(shown(&mut bridge), [2, 3, 1]);
    let runner_up = Chosen {
        precedence: 20,
        hop: 1,
        port: 3,
    };
    assert_eq!(bridge.ranked(1), Some(runner_up));
    hear(&mut bridge, 1, 5, 0);
    assert_eq!(shown(&mut bridge), [1, 2, 3]);
    hear(&mut bridge, 1, 15, 0);
    assert_eq!(shown(&mut bridge), [2, 1, 3]);
    hear(&mut bridge, 2, 40, 0);
    assert_eq!(shown(&mut bridge), [1, 3, 2]);
    hear(&mut bridge, 3, 20, 0);
    assert_eq!(shown(&mut bridge), [1, 3, 2]);
}

/// Of the same precedence the lesser hop is first, and of the same hop too the lesser port, whichever was heard last.
#[test]
fn ties_go_by_hop_and_port() {
    let mut bridge = linked(4, None);
    for port in [3, 1, 4, 2, 1, 3] {
        hear(&mut bridge, port, 7, 0);
    }
    assert_eq!(shown(&mut bridge), [1, 2, 3, 4]);
    assert_eq!(bridge.receive(1, &plain_frame(7, 1, 3), 0), DONE);
    assert_eq!(bridge.ranked(3).map(|clock| clock.hop), Some(2));
    assert_eq!(shown(&mut bridge), [2, 3, 4, 1]);
    hear(&mut bridge, 1, 7, 0);
    assert_eq!(shown(&mut bridge), [1, 2, 3, 4]);
}

/// Eight ports and the own clock have nine places, and there is no tenth.
#[test]
fn nine_places_can_be_shown() {
    let mut bridge = linked(8, Some(4));
    for port in 1..=8 {
        hear(&mut bridge, port, u128::from(8 - port), 0);
    }
    assert_eq!(shown(&mut bridge), [8, 7, 6, 5, OWN, 4, 3, 2, 1]);
    assert_eq!(bridge.ranked(8).map(|clock| clock.port), Some(1));
    assert_eq!(bridge.ranked(9), None);
    assert_eq!(bridge.ranked(255), None);
}

/// A port whose link goes down is gone at once, and when the link is back it stays away until a frame is taken.
#[test]
fn a_lost_link_leaves_the_ranking() {
    let mut bridge = linked(3, None);
    for port in 1..=3 {
        hear(&mut bridge, port, u128::from(port), 0);
    }
    assert_eq!(bridge.links(0b1101), Err(OUT_OF_RANGE));
    assert_eq!(shown(&mut bridge), [1, 2, 3]);
    assert_eq!(bridge.links(0b101), Ok(2));
    assert_eq!(shown(&mut bridge), [1, 3]);
    assert_eq!(bridge.links(0b111), Ok(3));
    assert_eq!(shown(&mut bridge), [1, 3]);
    assert_eq!(bridge.receive(2, &plain_frame(0, 0, 9), 0), OUT_OF_SEQUENCE);
    assert_eq!(shown(&mut bridge), [1, 3]);
    hear(&mut bridge, 2, 2, 0);
    assert_eq!(shown(&mut bridge), [1, 2, 3]);
    assert_eq!(bridge.links(0b010), Ok(1));
    assert_eq!(shown(&mut bridge), [2]);
}

/// A port that ages is gone at once, those heard later and the own clock stay, and the next frame that is taken brings it back.
#[test]
fn an_aged_port_leaves_the_ranking() {
    let mut bridge = linked(3, Some(9));
    for (port, now) in [(1, 100), (2, 102), (3, 101)] {
        hear(&mut bridge, port, u128::from(port), now);
    }
    assert_eq!(bridge.age(TIMEOUT_DEFAULT + 99), DONE);
    assert_eq!(shown(&mut bridge), [1, 2, 3, OWN]);
    assert_eq!(bridge.age(TIMEOUT_DEFAULT + 101), DONE);
    assert_eq!(shown(&mut bridge), [2, OWN]);
    hear(&mut bridge, 1, 8, 103);
    assert_eq!(shown(&mut bridge), [2, 1, OWN]);
    assert_eq!(bridge.age(LOCAL_END), OUT_OF_RANGE);
    assert_eq!(shown(&mut bridge), [2, 1, OWN]);
    assert_eq!(bridge.age(0), DONE);
    assert_eq!(shown(&mut bridge), [OWN]);
}

/// A frame that is refused, with 7, 8 or 9 too, leaves every candidate in its place.
#[test]
fn a_refused_frame_leaves_the_ranking_alone() {
    let mut bridge = linked(3, None);
    for port in 1..=3 {
        hear(&mut bridge, port, u128::from(port), 0);
    }
    let best = plain_frame(0, 0, 2);
    let too_far = plain_frame(0, HOP_NONE, 2);
    let out_of_sequence = plain_frame(0, 0, 4);
    let bad_delay = frame::put_together(&Fields {
        count: 5,
        that_tx: 1,
        ..Fields::default()
    });
    for (bytes, refusal) in [
        (too_far, TOO_FAR),
        (out_of_sequence, OUT_OF_SEQUENCE),
        (bad_delay, BAD_DELAY),
    ] {
        assert_eq!(bridge.receive(3, &bytes, 0), refusal);
        assert_eq!(shown(&mut bridge), [1, 2, 3]);
    }
    assert_eq!(bridge.receive(4, &best, 0), OUT_OF_RANGE);
    assert_eq!(bridge.receive(3, &best, LOCAL_END), OUT_OF_RANGE);
    assert_eq!(shown(&mut bridge), [1, 2, 3]);
    hear(&mut bridge, 3, 0, 0);
    assert_eq!(shown(&mut bridge), [3, 1, 2]);
}

/// A setup begins the ranking anew, and a refused one leaves it empty.
#[test]
fn a_setup_begins_the_ranking_anew() {
    let mut bridge = linked(2, Some(9));
    hear(&mut bridge, 1, 1, 0);
    assert_eq!(shown(&mut bridge), [1, OWN]);
    let plan = Plan {
        ports: 2,
        capable: true,
        ..Plan::default()
    };
    assert_eq!(bridge.setup(&plan), DONE);
    assert_eq!(shown(&mut bridge), [OWN]);
    assert_eq!(bridge.setup(&Plan { ports: 0, ..plan }), 1);
    assert_eq!(shown(&mut bridge), []);
}

/// After every line of generated lives the ranking begins with the chosen clock, goes from better to worse, and has each candidate once.
#[test]
fn the_ranking_has_each_candidate_once() {
    let played = lives(100_000, 4, &mut |_, _, bridge| {
        let ranking = limits::ranking(bridge);
        assert_eq!(ranking.first(), bridge.best().as_ref());
        assert!(ranking.windows(2).all(|pair| pair[0] < pair[1]));
        let ranked: HashSet<u8> = ranking.iter().map(|clock| clock.port).collect();
        let announced = (1..)
            .zip(&bridge.ports)
            .filter(|(_, port)| port.record.announcement.is_some())
            .map(|(number, _)| number);
        let own = bridge.settings.capable.then_some(OWN);
        assert_eq!(ranked, own.into_iter().chain(announced).collect());
        assert_eq!(ranked.len(), ranking.len());
        Ok(())
    });
    assert!(played.is_ok());
}

/// A line of a place has one number below 256, prints as that of the chosen clock does, and leaves the bridge as it was.
#[test]
fn lines_of_places_have_their_form() {
    let mut bridge = linked(2, Some(9));
    hear(&mut bridge, 2, 1, 0);
    let answer = |line: &str| asked(&bridge, line);
    assert_eq!(answer("C"), "02 01");
    assert_eq!(answer("K 0"), "02 01");
    assert_eq!(answer("K 1"), "00 00");
    assert_eq!(answer("K 01"), "00 00");
    assert_eq!(answer("K 0000000000000001"), "00 00");
    for beyond in ["K 2", "K 9", "K a", "K FF", "K ff", "K 00000000000000fF"] {
        assert_eq!(answer(beyond), "FF FF");
    }
    for no_line in [
        "K",
        "K ",
        "K 0 ",
        "K 0 0",
        "K  0",
        " K 0",
        "k 0",
        "KK 0",
        "K0",
        "K -",
        "K -1",
        "K g",
        "K 100",
        "K 0100",
        "K FFFFFFFFFFFFFFFF",
        "K 00000000000000000",
    ] {
        assert_eq!(answer(no_line), "0E");
    }
}

/// The count of places wants each thing that a place shows after each thing that happens to the ranking.
#[test]
fn census_misses_places() {
    let mut census = RankingCensus::default();
    let mut bridge = linked(2, Some(9));
    assert_eq!(census.missing().len(), 39);
    census.count(b"S", b"00", &bridge);
    census.count(b"K 0", b"00 00", &bridge);
    assert_eq!(census.missing().len(), 38);
    hear(&mut bridge, 2, 9, 0);
    census.count(b"R 2", b"00", &bridge);
    census.count(b"K 1", b"02 01", &bridge);
    census.count(b"K 10", b"FF FF", &bridge);
    census.count(b"K", b"0E", &bridge);
    assert_eq!(census.missing().len(), 34);
    assert!(bridge.links(0).is_ok());
    census.count(b"L 0", b"00 00", &bridge);
    census.count(b"K 1", b"FF FF", &bridge);
    let missing = census.missing();
    assert!(!missing.contains(&String::from("beyond after lost")));
    assert!(missing.contains(&String::from("chosen after lost")));
    assert!(missing.contains(&String::from("tied")));
}

/// A line of a hop has one number below 256, prints the passes left at it, needs no setup and leaves the bridge as it was.
#[test]
fn lines_of_passes_have_their_form() {
    let mut bridge = linked(2, Some(9));
    hear(&mut bridge, 2, 1, 0);
    let answer = |line: &str| {
        let printed = asked(&bridge, line);
        assert_eq!(answered(line), printed);
        printed
    };
    assert_eq!(answer("H 0"), "09");
    assert_eq!(answer("H 7E"), "09");
    assert_eq!(answer("H 7F"), "08");
    assert_eq!(answer("H 80"), "08");
    assert_eq!(answer("H FE"), "01");
    assert_eq!(answer("H FF"), "00");
    assert_eq!(answer("H d"), "09");
    assert_eq!(answer("H fD"), "02");
    assert_eq!(answer("H 0fb"), "03");
    assert_eq!(answer("H 00000000000000Fb"), "03");
    for no_line in [
        "H",
        "H ",
        "H 1 ",
        "H 1 2",
        "H  1",
        " H 1",
        "h 1",
        "HH 1",
        "H1",
        "H\t1",
        "H 1\r",
        "H -",
        "H -1",
        "H g",
        "H 100",
        "H 0100",
        "H FFFFFFFFFFFFFFFF",
        "H 00000000000000001",
    ] {
        assert_eq!(answer(no_line), "0E");
    }
}

/// The count of passes wants each number of passes and a text that is no line.
#[test]
fn census_misses_passes() {
    let mut census = PassesCensus::default();
    assert_eq!(census.missing().len(), 11);
    census.count(b"H 0", b"09");
    census.count(b"H 100", b"0E");
    census.count(b"HH 0", b"0E");
    census.count(b"A 0", b"00");
    assert_eq!(census.missing().len(), 9);
    assert!(!census.missing().contains(&"09"));
    assert!(census.missing().contains(&"00"));
}

/// A plan that a listener is set up by.
const LISTENER: Plan = Plan {
    profile: Profile::Listener,
    ports: 1,
    mac: [2, 0, 0, 0, 0, 7],
    precedence: 1,
    capable: false,
    timeout: None,
    back: Some(0),
    delays: [None; 8],
    versions: [Version::ONE; 8],
};

/// Makes a listener whose port has a link.
fn listener() -> Listed {
    let mut bridge = Listed::empty();
    assert_eq!(bridge.setup(&LISTENER), DONE);
    assert_eq!(bridge.links(1), Ok(1));
    bridge
}

/// Sends at a bridge's first port and gives the fields of the frame, or the refusal.
fn sent(bridge: &mut Listed, departure: u64) -> Result<Fields, u8> {
    let mut bytes = [0; FRAME_LEN];
    match bridge.send(1, departure, &mut bytes) {
        DONE => frame::read(&bytes),
        refusal => Err(refusal),
    }
}

/// Gives the fields of a listener's frame without an echo.
fn listened(count: u8, local: u64) -> Fields {
    Fields {
        sa: LISTENER.mac,
        precedence: PRECEDENCE_WORST,
        hop: HOP_LAST,
        count,
        local,
        ..Fields::default()
    }
}

/// The worst precedence is thirteen bytes FF, and the last hop that is taken is 254.
#[test]
fn the_worst_is_known() {
    let bytes = frame::put_together(&listened(0, 0));
    assert_eq!(bytes[16..29], [0xFF; 13]);
    assert_eq!(bytes[29], 254);
}

/// A listener has one port, is not capable and has back time 0, and any other is refused, as is what every setup is refused for.
#[test]
fn listeners_are_set_up_in_one_way() {
    let delayed = |first, second| {
        let mut delays = [None; 8];
        delays[0] = first;
        delays[1] = second;
        Plan { delays, ..LISTENER }
    };
    let timed = |timeout| Plan {
        timeout: Some(timeout),
        ..LISTENER
    };
    for plan in [
        LISTENER,
        timed(1 << 36),
        timed(1 << 46),
        delayed(Some(0), None),
        delayed(Some(DELAY_MOST), Some(DELAY_MOST + 1)),
    ] {
        assert_eq!(Listed::empty().setup(&plan), DONE);
    }
    for ports in [0, 2, 3, 8, 9, 255] {
        let plan = Plan { ports, ..LISTENER };
        assert_eq!(Listed::empty().setup(&plan), BAD_SETUP);
    }
    for back in [None, Some(1), Some(13), Some(BACK_DEFAULT), Some(BACK_MOST)] {
        let plan = Plan { back, ..LISTENER };
        assert_eq!(Listed::empty().setup(&plan), BAD_SETUP);
    }
    let capable = Plan {
        capable: true,
        ..LISTENER
    };
    for plan in [
        capable,
        timed((1 << 36) - 1),
        timed((1 << 46) + 1),
        delayed(Some(DELAY_MOST + 1), None),
    ] {
        assert_eq!(Listed::empty().setup(&plan), BAD_SETUP);
    }
}

/// What is refused of a listener a full bridge is set up with, and a refusal leaves what every refused setup leaves.
#[test]
fn a_refused_listener_leaves_no_ports() {
    let two = Plan {
        ports: 2,
        capable: true,
        back: None,
        ..LISTENER
    };
    let mut bridge = listener();
    hear(&mut bridge, 1, 5, 0);
    assert_eq!(bridge.setup(&two), BAD_SETUP);
    assert_eq!(bridge, Listed::empty());
    let full = Plan {
        profile: Profile::Full,
        ..two
    };
    assert_eq!(bridge.setup(&full), DONE);
    assert_eq!(bridge.chosen(), Some((OWN, 0)));
}

/// A listener sends before it has heard anything, one count after another, and refusals of port, time, link and length use up none.
#[test]
fn listeners_send_without_a_clock() {
    let mut bridge = Listed::empty();
    assert_eq!(bridge.setup(&LISTENER), DONE);
    assert_eq!(sent(&mut bridge, 5), Err(NO_LINK));
    assert_eq!(bridge.links(1), Ok(1));
    assert_eq!(bridge.chosen(), None);
    assert_eq!(sent(&mut bridge, 5), Ok(listened(0, 5)));
    let mut bytes = [0xA5; 2 * FRAME_LEN];
    for port in [0, 2, 255] {
        assert_eq!(bridge.send(port, 5, &mut bytes), OUT_OF_RANGE);
    }
    assert_eq!(bridge.send(1, LOCAL_END, &mut bytes), OUT_OF_RANGE);
    assert_eq!(bridge.send(1, 5, &mut bytes[1..FRAME_LEN]), BAD_LENGTH);
    assert_eq!(bytes, [0xA5; 2 * FRAME_LEN]);
    assert_eq!(bridge.send(1, LOCAL_END - 1, &mut bytes), DONE);
    assert_eq!(
        bytes[..FRAME_LEN],
        frame::put_together(&listened(1, LOCAL_END - 1))
    );
    assert_eq!(bytes[FRAME_LEN..], [0xA5; FRAME_LEN]);
}

/// A listener's counts go round after 255, and begin again once its link was lost.
#[test]
fn listeners_count_their_frames() {
    let mut bridge = listener();
    for count in (0..=255).chain(0..=2) {
        assert_eq!(sent(&mut bridge, 0), Ok(listened(count, 0)));
    }
    assert_eq!(bridge.links(0), Ok(0));
    assert_eq!(sent(&mut bridge, 0), Err(NO_LINK));
    assert_eq!(bridge.links(1), Ok(1));
    assert_eq!(sent(&mut bridge, 0), Ok(listened(0, 0)));
}

/// A listener that follows a clock of two samples or of one, at any departure and at the end of grand time, sends as one that follows none, but for the echo.
#[test]
fn listeners_never_refuse_for_their_clock() {
    for newest_grand in [0, 100 * SECOND, GRAND_END - 1] {
        let mut bridge = listener();
        hear(&mut bridge, 1, 5, 0);
        let newest = Sample {
            grand: newest_grand,
            local: 1 << 34,
            error: 3,
        };
        bridge.ports[0].record.samples.kept[0] = Some(newest);
        assert_eq!(bridge.stamp(1 << 34), Err(TOO_FEW_SAMPLES));
        assert_eq!(sent(&mut bridge, 7), Ok(listened(0, 7)));
        bridge.ports[0].record.samples.kept[1] = Some(Sample {
            grand: newest_grand.saturating_sub(1 << 34),
            local: 0,
            error: 2,
        });
        for (count, departure) in (1..).zip([0, 1 << 34, 1 << 40, 1 << 47, LOCAL_END - 1]) {
            let wanted = listened(count, departure);
            assert_eq!(sent(&mut bridge, departure), Ok(wanted));
        }
    }
}

/// A listener's frame has the echo of the last frame that was taken, which goes by age and with the link.
#[test]
fn listeners_echo() {
    let mut bridge = listener();
    let heard = |count: u8, local| {
        frame::put_together(&Fields {
            count,
            local,
            ..Fields::default()
        })
    };
    assert_eq!(bridge.receive(1, &heard(0, 10), 100), OUT_OF_SEQUENCE);
    assert_eq!(sent(&mut bridge, 1), Ok(listened(0, 1)));
    assert_eq!(bridge.receive(1, &heard(1, 20), 200), DONE);
    let echoing = Fields {
        that_tx: 20,
        that_rx: 100,
        ..listened(1, 2)
    };
    assert_eq!(sent(&mut bridge, 2), Ok(echoing));
    assert_eq!(bridge.age(TIMEOUT_DEFAULT + 200), DONE);
    assert_eq!(sent(&mut bridge, 3), Ok(listened(2, 3)));
    assert_eq!(bridge.receive(1, &heard(2, 30), 300), DONE);
    assert_eq!(sent(&mut bridge, 4).map(|fields| fields.that_tx), Ok(30));
    assert_eq!(bridge.links(0), Ok(0));
    assert_eq!(bridge.links(1), Ok(1));
    assert_eq!(sent(&mut bridge, 5), Ok(listened(0, 5)));
}

/// A listener has no own clock, and chooses, ranks, ages and stamps as a full bridge does that has heard the same.
#[test]
fn listeners_follow_as_others_do() {
    let mut bridge = listener();
    let mut full = bridge.clone();
    full.settings.profile = Profile::Full;
    for station in [&mut bridge, &mut full] {
        assert_eq!(station.own_clock(0, 0, 0, 0), NO_CLOCK);
        for (count, time) in (0..).zip([0, 1 << 34, 2 << 34]) {
            let fields = Fields {
                precedence: 5,
                hop: 3,
                count,
                grand: 100 * SECOND + u128::from(time),
                local: time,
                ..Fields::default()
            };
            let arrival = time + (1 << 34);
            station.receive(1, &frame::put_together(&fields), arrival);
        }
        assert_eq!(station.chosen(), Some((1, 4)));
        assert_eq!(shown(station), [1]);
        assert_eq!(station.drift(1), Ok(Some(0.0)));
        assert_eq!(station.drift(OWN), Ok(None));
        assert_eq!(station.stamp(2 << 34), Ok(100 * SECOND + (2 << 34)));
    }
    full.settings.profile = Profile::Listener;
    assert_eq!(bridge, full);
}

/// A full bridge takes a listener's frames as those of a worst clock at its end: held at 255, chosen where alone, and never with two samples.
#[test]
fn a_listener_is_a_lawful_worst_clock() {
    let mut bridge = linked(3, None);
    for (count, time) in (0..=3).zip([0, 1 << 34, 2 << 34, 3 << 34]) {
        let bytes = frame::put_together(&listened(count, time));
        let wanted = if count == 0 { OUT_OF_SEQUENCE } else { DONE };
        assert_eq!(bridge.receive(2, &bytes, time), wanted);
    }
    assert_eq!(bridge.chosen(), Some((2, HOP_NONE)));
    assert_eq!(bridge.drift(2), Ok(None));
    assert_eq!(sent(&mut bridge, 3 << 34), Err(TOO_FEW_SAMPLES));
    assert_eq!(bridge.stamp(3 << 34), Err(TOO_FEW_SAMPLES));
    hear(&mut bridge, 3, PRECEDENCE_WORST - 1, 3 << 34);
    assert_eq!(shown(&mut bridge), [3, 2]);
    let first = frame::put_together(&listened(7, 0));
    let second = frame::put_together(&listened(8, 0));
    assert_eq!(bridge.receive(1, &first, 0), OUT_OF_SEQUENCE);
    assert_eq!(bridge.receive(1, &second, 0), DONE);
    assert_eq!(shown(&mut bridge), [3, 1, 2]);
    assert_eq!(bridge.ranked(1).map(|clock| clock.hop), Some(HOP_NONE));
}

/// A worst clock that is no listener's is followed and sent on, from hop 254 with hop 255, which the next station refuses.
#[test]
fn another_worst_clock_is_sent_on() {
    let mut bridge = linked(2, None);
    for (count, time) in (0..).zip([0, 1 << 34, 2 << 34]) {
        let fields = Fields {
            grand: 100 * SECOND + u128::from(time),
            ..listened(count, time)
        };
        bridge.receive(2, &frame::put_together(&fields), time);
    }
    assert_eq!(bridge.chosen(), Some((2, HOP_NONE)));
    let Ok(passed_on) = sent(&mut bridge, 2 << 34) else {
        panic!("nothing was sent");
    };
    assert_eq!(passed_on.precedence, PRECEDENCE_WORST);
    assert_eq!(passed_on.hop, HOP_NONE);
    let mut next = listener();
    let bytes = frame::put_together(&passed_on);
    assert_eq!(next.receive(1, &bytes, 0), TOO_FAR);
    assert_eq!(next.chosen(), None);
}

/// A listener and a full bridge at the ends of a cable measure it alike, by each other's frames, and the listener's stamps are the bridge's time.
#[test]
fn both_ends_of_a_cable_measure_it() {
    let cable = 5_497_558;
    let interval: u64 = 1 << 34;
    let (mut near, mut far) = (listener(), linked(1, Some(5)));
    let (mut near_left, mut far_left) = (0, 0);
    for (count, time) in (0..6_u8).zip((1..).map(|tick| tick * interval)) {
        far.own_clock(count, 100, time - interval, time);
        let reply = time + interval / 2;
        if let Ok(fields) = sent(&mut far, far_left) {
            let bytes = frame::put_together(&fields);
            near.receive(1, &bytes, time + cable);
        }
        far_left = time;
        if let Ok(fields) = sent(&mut near, near_left) {
            let bytes = frame::put_together(&fields);
            far.receive(1, &bytes, reply + cable);
        }
        near_left = reply;
    }
    for station in [&near, &far] {
        let record = station.ports[0].record;
        let measured = record.pair.zip(record.samples.newest());
        let delay = measured.map(|((_, p), newest)| spread(p, newest.local));
        assert_eq!(delay, Some(cable));
    }
    assert_eq!(far.chosen(), Some((OWN, 0)));
    assert_eq!(near.chosen(), Some((1, 1)));
    assert_eq!(near.stamp(5 * interval), Ok(100 * SECOND + 5 * (1 << 34)));
}

/// In generated lives a listener answers a send with 0, 2, 3 or 4 and nothing else, and every frame of it tells of no clock.
#[test]
fn listeners_send_alike_in_lives() {
    let mut frames = 0;
    let played = lives(100_000, 5, &mut |line, reply, bridge| {
        let listens = bridge.settings.profile == Profile::Listener;
        if !listens || !line.starts_with(b"T ") || reply == b"0E" {
            return Ok(());
        }
        assert!(matches!(&reply[..2], b"00" | b"02" | b"03" | b"04"));
        if reply.starts_with(b"00") {
            let told = "FFFFFFFFFFFFFFFFFFFFFFFFFFFE";
            assert_eq!(&reply[35..63], told.as_bytes());
            assert_eq!(&reply[67..87], "0".repeat(20).as_bytes());
            assert_eq!(&reply[123..131], "0".repeat(8).as_bytes());
            frames += 1;
        }
        Ok(())
    });
    assert!(played.is_ok());
    assert!(frames > 1000);
}

/// Gives what a line prints to a station that was never set up.
fn answered(line: &str) -> String {
    let mut replay = Replay {
        bridge: Listed::empty(),
    };
    let mut out = Vec::new();
    replay.answer(line.as_bytes(), &mut out);
    String::from_utf8_lossy(&out).into_owned()
}

/// A listener's setup is a line of the form that every setup has, under a letter of its own.
#[test]
fn lines_of_listeners_have_their_form() {
    let rest = "020000000007 00000000000000000000000001";
    let answer = |line: &str| answered(&line.replace("..", rest));
    assert_eq!(answer("P 1 .. 0 D 0 M M M M M M M M"), "00");
    assert_eq!(answer("P 01 .. 0 8000000000 00 0 M M M M M M M"), "00");
    assert_eq!(answer("P 1 .. 0 D 0 40000000 40000001 M M M M M d"), "00");
    assert_eq!(answer("P 1 .. 0 D D M M M M M M M M"), "01");
    assert_eq!(answer("P 1 .. 0 D d M M M M M M M M"), "01");
    assert_eq!(answer("P 2 .. 0 D 0 M M M M M M M M"), "01");
    assert_eq!(answer("P 1 .. 1 D 0 M M M M M M M M"), "01");
    for no_line in [
        "P",
        "P ",
        "P 1",
        "p 1 .. 0 D 0 M M M M M M M M",
        "PP 1 .. 0 D 0 M M M M M M M M",
        " P 1 .. 0 D 0 M M M M M M M M",
        "P  1 .. 0 D 0 M M M M M M M M",
        "P 1 .. 0 D 0 M M M M M M M M ",
        "P 1 .. 0 D 0 M M M M M M M M M",
        "P 1 .. 0 D 0 M M M M M M M",
        "P 1 .. 2 D 0 M M M M M M M M",
        "P 1 .. 00 D 0 M M M M M M M M",
        "P 1 .. 0 M 0 M M M M M M M M",
        "P 1 .. 0 D M M M M M M M M M",
        "P 1 .. 0 D 0 D M M M M M M m",
        "P 100 .. 0 D 0 M M M M M M M M",
        "P 1 0200000007 00000000000000000000000001 0 D 0 M M M M M M M M",
        "P 1 020000000007 000000000000000000000001 0 D 0 M M M M M M M M",
    ] {
        assert_eq!(answer(no_line), "0E");
    }
}

/// The count of listeners wants each way in which a setup ends, each answer and each frame of a listener, and each way in which it is heard.
#[test]
fn census_misses_listeners() {
    let mut census = ListenerCensus::default();
    let mut bridge = listener();
    assert_eq!(census.missing().len(), 60);
    let setup = b"P 1 020000000007 00000000000000000000000001 0 D 0 M M M M M M M M";
    census.count(setup, b"00", &bridge);
    census.count(b"P 1", b"0E", &bridge);
    assert_eq!(census.missing().len(), 58);
    let mut out = Vec::new();
    let mut replay = Replay {
        bridge: bridge.clone(),
    };
    replay.answer(b"T 1 0 40", &mut out);
    census.count(b"T 1 0 40", &out, &replay.bridge);
    let missing = census.missing();
    assert_eq!(missing.len(), 55);
    assert!(!missing.contains(&String::from("sent for no clock")));
    assert!(missing.contains(&String::from("sent for beyond range")));
    assert!(missing.contains(&String::from("sent echo")));
    assert_eq!(
        bridge.setup(&Plan {
            ports: 2,
            ..LISTENER
        }),
        BAD_SETUP
    );
    let refused = b"P 2 020000000007 00000000000000000000000001 0 D 0 M M M M M M M M";
    census.count(refused, b"01", &bridge);
    assert!(!census
        .missing()
        .contains(&String::from("set up more ports")));
    assert!(census.missing().contains(&String::from("set up capable")));
}

/// Every version byte but 1 and 2.
fn wrong_versions() -> impl Iterator<Item = Version> {
    (0..=u8::MAX)
        .map(Version)
        .filter(|version| ![1, 2].contains(&version.0))
}

/// Gives fields in a version, whose other parts are all different.
fn versioned(version: Version) -> Fields {
    Fields {
        version,
        sa: [2, 0, 0, 0, 0, 1],
        precedence: 5,
        hop: 3,
        count: 4,
        grand: 7 * SECOND,
        local: 8,
        that_tx: 9,
        that_rx: 10,
        error: -11,
    }
}

/// A frame of version 1 or 2 is read with its version, and one of any other is refused with 6, after 4 and 5.
#[test]
fn versions_are_read() {
    for version in [Version(1), Version(2)] {
        let fields = versioned(version);
        let bytes = frame::put_together(&fields);
        assert_eq!(bytes[AT_VERSION], version.0);
        assert_eq!(frame::read(&bytes), Ok(fields));
    }
    for version in wrong_versions() {
        let mut bytes = frame::put_together(&versioned(version));
        assert_eq!(frame::read(&bytes), Err(BAD_VERSION));
        bytes[0] ^= 1;
        assert_eq!(frame::read(&bytes), Err(NOT_TIME_SYNC));
        assert_eq!(frame::read(&bytes[1..]), Err(BAD_LENGTH));
    }
}

/// The two versions of the same fields differ in byte 15 alone.
#[test]
fn versions_differ_in_one_byte() {
    let mut bytes = frame::put_together(&versioned(Version(1)));
    bytes[15] = 2;
    assert_eq!(bytes, frame::put_together(&versioned(Version(2))));
}

/// Asserts that a write is refused with a number and leaves the output alone.
fn assert_not_written(fields: &Fields, length: usize, refusal: u8) {
    let mut output = vec![0xA5; length];
    assert_eq!(frame::write(fields, &mut output), refusal);
    assert_eq!(output, vec![0xA5; length]);
}

/// A frame of version 1 or 2 is written, and one of any other is refused with 6, after 2 and 4.
#[test]
fn versions_are_written() {
    for version in [Version(1), Version(2)] {
        let fields = versioned(version);
        let mut output = [0xA5; FRAME_LEN + 1];
        assert_eq!(frame::write(&fields, &mut output), DONE);
        assert_eq!(output[..FRAME_LEN], frame::put_together(&fields));
        assert_eq!(output[FRAME_LEN], 0xA5);
        assert_not_written(&fields, FRAME_LEN - 1, BAD_LENGTH);
    }
    for version in wrong_versions() {
        let fields = versioned(version);
        assert_not_written(&fields, FRAME_LEN, BAD_VERSION);
        assert_not_written(&fields, FRAME_LEN + 1, BAD_VERSION);
        assert_not_written(&fields, FRAME_LEN - 1, BAD_LENGTH);
        assert_not_written(&fields, 0, BAD_LENGTH);
        let late = Fields {
            that_rx: LOCAL_END,
            ..fields
        };
        assert_not_written(&late, FRAME_LEN, OUT_OF_RANGE);
        assert_not_written(&late, FRAME_LEN - 1, OUT_OF_RANGE);
    }
}

/// Frames of both versions are compared by precedence and hop, the first being the better on a tie, and one of another version loses.
#[test]
fn versions_do_not_count_in_comparisons() {
    let of = |version, precedence, hop| {
        frame::put_together(&Fields {
            version: Version(version),
            precedence,
            hop,
            ..Fields::default()
        })
    };
    for (one, other) in [(1, 1), (1, 2), (2, 1), (2, 2)] {
        let (better, worse, farther) = (of(one, 5, 3), of(other, 6, 2), of(other, 5, 4));
        for lesser in [worse, farther] {
            assert_eq!(frame::better(&better, &lesser), &better[16..29]);
            assert_eq!(frame::better(&lesser, &better), &better[16..29]);
        }
        let equal = of(other, 5, 3);
        let part = frame::better(&better, &equal);
        assert!(std::ptr::eq(part, &better[16..29]));
    }
    for wrong in [0, 3, 255] {
        let (known, unknown) = (of(2, 9, 9), of(wrong, 1, 1));
        assert_eq!(frame::better(&known, &unknown), &known[16..29]);
        assert_eq!(frame::better(&unknown, &known), &known[16..29]);
        assert!(frame::better(&unknown, &unknown).is_empty());
    }
}

/// Gives a plan of so many ports with versions for all eight.
fn plan_of(ports: u8, versions: [u8; 8]) -> Plan {
    Plan {
        ports,
        versions: versions.map(Version),
        ..Plan::default()
    }
}

/// Asserts that at a place of a plan of so many ports each version is taken or refused as it should be.
fn assert_looked_at(ports: u8, place: usize) {
    let count = usize::from(ports);
    for version in 0..=u8::MAX {
        let mut versions = [2; 8];
        versions[count..].fill(255);
        versions[place] = version;
        let taken = place >= count || [1, 2].contains(&version);
        let wanted = if taken { DONE } else { BAD_SETUP };
        let answer = Listed::empty().setup(&plan_of(ports, versions));
        assert_eq!(answer, wanted);
    }
}

/// Each port that there is must have version 1 or 2, and those beyond are not looked at.
#[test]
fn ports_have_known_versions() {
    for ports in 1..=8 {
        for place in 0..8 {
            assert_looked_at(ports, place);
        }
    }
}

/// Each port keeps its own version, through the loss of its link too, and a refused version leaves what every refused setup leaves.
#[test]
fn ports_keep_their_versions() {
    let mut bridge = Listed::empty();
    let versions = |bridge: &Listed| -> Vec<u8> {
        let ports = bridge.ports.iter();
        ports.map(|port| port.version.0).collect()
    };
    assert_eq!(bridge.setup(&plan_of(4, [2, 1, 1, 2, 9, 9, 9, 9])), DONE);
    assert_eq!(versions(&bridge), [2, 1, 1, 2]);
    assert_eq!(bridge.links(15), Ok(4));
    assert_eq!(bridge.links(0), Ok(0));
    assert_eq!(versions(&bridge), [2, 1, 1, 2]);
    assert_eq!(
        bridge.setup(&plan_of(2, [2, 0, 1, 1, 1, 1, 1, 1])),
        BAD_SETUP
    );
    assert_eq!(bridge, Listed::empty());
}

/// Version 1 is the default of a plan and of a frame, what the lines without versions mean, and what the listing is set up with.
#[test]
fn version_1_is_the_default() {
    assert_eq!(Plan::default().versions, [Version(1); 8]);
    assert_eq!(Fields::default().version, Version(1));
    for letter in ["S", "P"] {
        let rest = "1 020000000007 00000000000000000000000001 0 D 0 M M M M M M M M";
        let plan = plan_in(format!("{letter} {rest}").as_bytes());
        assert_eq!(plan.map(|plan| plan.versions), Some([Version(1); 8]));
    }
    let listing = Listing::on(Listed::empty());
    let versions: Vec<Version> = listing
        .bridge
        .ports
        .iter()
        .map(|port| port.version)
        .collect();
    assert_eq!(versions, [Version(1); 2]);
}

/// What version 2 adds is the rate's part of the back time, rounded down for rates of both signs.
#[test]
fn version_2_adds_the_missing_rest() {
    for (rate, back, rest) in [
        (0, BACK_MOST, 0),
        (8_589_935, 0, 0),
        (-8_589_935, 0, 0),
        (2, (1 << 34) - 1, 0),
        (2, 1 << 34, 1),
        (1, BACK_DEFAULT, 0),
        (-1, BACK_DEFAULT, -1),
        (-1, 1, -1),
        (-1, 1 << 35, -1),
        (-1, (1 << 35) + 1, -2),
        (1 << 20, BACK_DEFAULT, 503_316),
        (-(1 << 20), BACK_DEFAULT, -503_317),
        (8_589_935, BACK_DEFAULT, 4_123_168),
        (-8_589_935, BACK_DEFAULT, -4_123_169),
        (8_589_935, BACK_MOST, 137_438_959),
        (-8_589_935, BACK_MOST, -137_438_960),
    ] {
        assert_eq!(sent_error(rate, 0, back), rest);
        assert_eq!(sent_error(rate, -7, back), rest - 7);
        assert_eq!(sent_error(rate, i32::MAX, back), rest + 2_147_483_647);
        assert_eq!(sent_error(rate, i32::MIN, back), rest - 2_147_483_648);
    }
}

const STEEPEST: Line = Line {
    spread: 4_000_000_000,
    difference: 1_000_000,
};
const STEEPEST_BELOW: Line = Line {
    spread: 4_000_000_000,
    difference: -1_000_000,
};

/// A bridge of two ports with versions, which follows the clock at port 1.
struct Sender {
    bridge: Listed,
    newer_local: u64,
}

impl Sender {
    /// Has the clock's frames arrive, so that its two samples have given errorTimes, and the newer one is 100 s.
    fn on(line: &Line, back: u64, versions: [u8; 2], errors: [i32; 2]) -> Sender {
        let newer_local = 5 << 40;
        let older_local = moved(newer_local, -i128::from(line.spread));
        let newer_grand = 100 * SECOND;
        let older_grand = newer_grand as i128 - i128::from(line.spread) - line.difference;
        let plan = Plan {
            ports: 2,
            back: Some(back),
            versions: [versions[0], versions[1], 0, 3, 4, 5, 6, 255].map(Version),
            ..Plan::default()
        };
        let mut bridge = Listed::empty();
        assert_eq!(bridge.setup(&plan), DONE);
        assert_eq!(bridge.links(3), Ok(2));
        let heard = |count, version, grand, error| {
            frame::put_together(&Fields {
                count,
                version: Version(version),
                grand,
                error,
                ..Fields::default()
            })
        };
        let first = heard(0, 2, 0, 0);
        let older = heard(1, 1, older_grand as u128, errors[0]);
        let newer = heard(2, 2, newer_grand, errors[1]);
        assert_eq!(bridge.receive(1, &first, older_local), OUT_OF_SEQUENCE);
        assert_eq!(bridge.receive(1, &older, newer_local), DONE);
        assert_eq!(bridge.receive(1, &newer, newer_local + 1), DONE);
        Sender {
            bridge,
            newer_local,
        }
    }

    /// Sends at a port, so long after the newer sample, and gives the fields or the refusal, which leaves the output alone.
    fn at(&mut self, port: u8, reach: u64) -> Result<Fields, u8> {
        let mut bytes = [0xA5; FRAME_LEN];
        let answer = self.bridge.send(port, self.newer_local + reach, &mut bytes);
        if answer == DONE {
            frame::read(&bytes)
        } else {
            assert_eq!(bytes, [0xA5; FRAME_LEN]);
            Err(answer)
        }
    }

    /// Sends at a port and gives version, count and errorTime, or the refusal.
    fn told(&mut self, port: u8) -> Result<(u8, u8, i32), u8> {
        self.at(port, 0)
            .map(|fields| (fields.version.0, fields.count, fields.error))
    }
}

/// Asserts that, at any departure, what both ports of a bridge send differs in version, errorTime and echo alone, whichever of them has version 2.
fn assert_sent_alike(line: &Line, back: u64) {
    let mut sender = Sender::on(line, back, [1, 2], [77, -5]);
    let mut turned = Sender::on(line, back, [2, 1], [78, -5]);
    let added = rated(rate(line.difference, line.spread), i128::from(back));
    let as_two = |fields: Fields| Fields {
        version: Version(2),
        error: -5 + added as i32,
        ..fields
    };
    let without_echo = |fields: Fields| Fields {
        that_tx: 0,
        that_rx: 0,
        ..fields
    };
    for reach in [0, 1, back.min(1 << 38), (1 << 39) - 1] {
        let one = sender.at(1, reach).unwrap_or_default();
        assert_eq!((one.version, one.error), (Version(1), -5));
        assert_eq!(sender.at(2, reach), Ok(without_echo(as_two(one))));
        assert_eq!(turned.at(1, reach), Ok(as_two(one)));
        assert_eq!(turned.at(2, reach), Ok(without_echo(one)));
    }
}

/// Two ports of different versions send the same clock with the same grand time.
#[test]
fn both_versions_send_the_same_grand_time() {
    for line in [&RATE_0, &RATE_2, &RATE_MINUS_1, &STEEPEST, &STEEPEST_BELOW] {
        for back in [0, 1, BACK_DEFAULT, BACK_MOST] {
            assert_sent_alike(line, back);
        }
    }
}

/// Of two samples the newer one's errorTime is sent, with the older one's at any value.
#[test]
fn the_newer_errortime_counts() {
    for older in [0, i32::MAX, i32::MIN] {
        let mut sender = Sender::on(&STEEPEST, BACK_MOST, [1, 2], [older, 1_000]);
        assert_eq!(sender.told(1), Ok((1, 0, 1_000)));
        assert_eq!(sender.told(2), Ok((2, 0, 137_439_959)));
    }
}

/// The errorTimes 2^31-1 and -2^31 are sent in version 2, and one beyond either is refused with 13, which uses up the port's count; version 1 sends on all the while.
#[test]
fn errortimes_end_at_32_bits() {
    for (line, newer, wanted) in [
        (&STEEPEST, 2_147_483_647 - 137_438_959_i64, Ok(i32::MAX)),
        (&STEEPEST, 2_147_483_648 - 137_438_959, Err(BEYOND_RANGE)),
        (&STEEPEST_BELOW, 137_438_960 - 2_147_483_648, Ok(i32::MIN)),
        (
            &STEEPEST_BELOW,
            137_438_960 - 2_147_483_649,
            Err(BEYOND_RANGE),
        ),
        (&STEEPEST, 2_147_483_647, Err(BEYOND_RANGE)),
        (&STEEPEST_BELOW, -2_147_483_648, Err(BEYOND_RANGE)),
        (&STEEPEST, -2_147_483_648, Ok(-2_010_044_689)),
        (&STEEPEST_BELOW, 2_147_483_647, Ok(2_010_044_687)),
        (&RATE_0, 2_147_483_647, Ok(i32::MAX)),
        (&RATE_0, -2_147_483_648, Ok(i32::MIN)),
        (&RATE_2, 2_147_483_647 - 31, Ok(i32::MAX)),
        (&RATE_2, 2_147_483_647 - 30, Err(BEYOND_RANGE)),
        (&RATE_MINUS_1, -2_147_483_648 + 16, Ok(i32::MIN)),
        (&RATE_MINUS_1, -2_147_483_648 + 15, Err(BEYOND_RANGE)),
    ] {
        let newer = newer as i32;
        let mut sender = Sender::on(line, BACK_MOST, [1, 2], [0, newer]);
        for count in 0..3 {
            assert_eq!(sender.told(1), Ok((1, count, newer)));
            assert_eq!(sender.told(2), wanted.map(|error| (2, count, error)));
        }
        assert_eq!(sender.bridge.ports[1].record.next_count, 3);
    }
}

/// At the end of grand time 13 is of both versions, before it of version 2 alone where the errorTime leaves its bits; 12 comes before either.
#[test]
fn both_ends_refuse_with_13() {
    let newer_grand = |sender: &mut Sender, grand: u128| {
        let samples = &mut sender.bridge.ports[0].record.samples;
        for sample in &mut samples.kept {
            *sample = sample.map(|sample| Sample {
                grand: sample.grand + grand - 100 * SECOND,
                ..sample
            });
        }
    };
    let mut sender = Sender::on(&RATE_0, BACK_DEFAULT, [1, 2], [0, i32::MAX]);
    newer_grand(&mut sender, GRAND_END - 1);
    for port in [1, 2] {
        let told = |fields: Fields| (fields.grand, fields.error);
        assert_eq!(sender.at(port, 0).map(told), Ok((GRAND_END - 1, i32::MAX)));
        assert_eq!(sender.at(port, 1), Err(BEYOND_RANGE));
        assert_eq!(sender.at(port, 1 << 39), Err(OUT_OF_REACH));
        let next = sender.at(port, 0).map(|fields| fields.count);
        assert_eq!(next, Ok(3));
    }
    let mut sender = Sender::on(&STEEPEST, BACK_MOST, [1, 2], [0, i32::MAX]);
    assert!(sender.at(1, 0).is_ok());
    assert_eq!(sender.at(2, 0), Err(BEYOND_RANGE));
    assert_eq!(sender.at(2, 1 << 39), Err(OUT_OF_REACH));
}

/// Makes a bridge whose only port has a version, and has it hear a clock in both versions in turn, whose samples make one line.
fn hearing(version: u8) -> Listed {
    let mut bridge = Listed::empty();
    assert_eq!(bridge.setup(&plan_of(1, [version; 8])), DONE);
    assert_eq!(bridge.links(1), Ok(1));
    for (count, version) in (0..).zip([1, 2, 1, 2, 2, 1]) {
        let time = u64::from(count) << 34;
        let bytes = frame::put_together(&Fields {
            version: Version(version),
            count,
            grand: u128::from(time),
            local: time,
            ..Fields::default()
        });
        let wanted = if count == 0 { OUT_OF_SEQUENCE } else { DONE };
        assert_eq!(bridge.receive(1, &bytes, time), wanted);
        let samples = bridge.ports[0].record.samples;
        assert_eq!(samples.count(), usize::from(count).min(KEPT_MOST));
    }
    bridge
}

/// Frames of both versions are taken in turn at a port of either version, and one of any other version stores nothing.
#[test]
fn both_versions_are_taken() {
    for version in [1, 2] {
        let mut bridge = hearing(version);
        let before = bridge.clone();
        for wrong in wrong_versions() {
            let bytes = frame::put_together(&versioned(wrong));
            assert_eq!(bridge.receive(1, &bytes, 0), BAD_VERSION);
        }
        assert_eq!(bridge, before);
    }
}

/// A listener of version 2 sends what one of version 1 does, but for the version, and is heard as it is.
#[test]
fn listeners_have_versions() {
    let mut bridge = Listed::empty();
    let versions = [2, 0, 3, 255, 1, 2, 0, 0].map(Version);
    let plan = Plan {
        versions,
        ..LISTENER
    };
    assert_eq!(bridge.setup(&plan), DONE);
    assert_eq!(bridge.links(1), Ok(1));
    hear(&mut bridge, 1, 5, 0);
    let sample = |grand, local| {
        Some(Sample {
            grand,
            local,
            error: i32::MAX,
        })
    };
    let kept = [sample(100 * SECOND, 1 << 34), sample(99 * SECOND, 0), None];
    bridge.ports[0].record.samples = Samples { kept };
    let mut full = linked(1, None);
    for (count, departure) in (0..).zip([0, 1 << 34, LOCAL_END - 1]) {
        let wanted = Fields {
            version: Version(2),
            ..listened(count, departure)
        };
        assert_eq!(sent(&mut bridge, departure), Ok(wanted));
        let bytes = frame::put_together(&wanted);
        let answer = if count == 0 { OUT_OF_SEQUENCE } else { DONE };
        assert_eq!(full.receive(1, &bytes, departure), answer);
    }
    assert_eq!(full.chosen(), Some((1, HOP_NONE)));
    for wrong in [0, 3, 255] {
        let mut versions = versions;
        versions[0] = Version(wrong);
        let plan = Plan { versions, ..plan };
        assert_eq!(Listed::empty().setup(&plan), BAD_SETUP);
    }
}

/// Gives the place of the port at which a line made a frame, with the frame's fields.
fn sent_in_lives(line: &[u8], reply: &[u8]) -> Option<(usize, Fields)> {
    let text = std::str::from_utf8(line.strip_prefix(b"T ")?).ok()?;
    let port = usize::from_str_radix(text.split(' ').next()?, 16).ok()?;
    let mut room = [0; FRAME_LEN];
    let digits = reply.strip_prefix(b"00 ")?.get(..2 * FRAME_LEN)?;
    let bytes = hex::bytes(digits, &mut room)?;
    Some((port - 1, frame::read(bytes).ok()?))
}

/// In every version 2 frame of a full bridge in generated lives, grand time and errorTime less the newest sample's are less than 10 U from the line at the departure itself; in version 1 the errorTime is the newest sample's.
#[test]
fn version_2_reaches_the_line() {
    let mut frames = [0, 0];
    let played = lives(100_000, 6, &mut |line, reply, bridge| {
        let Some((place, fields)) = sent_in_lives(line, reply) else {
            return Ok(());
        };
        assert_eq!(fields.version, bridge.ports[place].version);
        if bridge.settings.profile == Profile::Listener {
            return Ok(());
        }
        let Some((oldest, newest)) = limits::followed(bridge).ends() else {
            return Err(std::io::Error::other("a frame without two samples"));
        };
        let added = i128::from(fields.error) - i128::from(newest.error);
        if fields.version == Version(1) {
            assert_eq!(added, 0);
            frames[0] += 1;
            return Ok(());
        }
        let run = i128::from(spread(newest.local, oldest.local));
        let rise = newest.grand as i128 - oldest.grand as i128;
        let risen = fields.grand as i128 + added - newest.grand as i128;
        let off = risen * run - rise * i128::from(spread(fields.local, newest.local));
        assert!(off.abs() < 10 * run);
        frames[1] += 1;
        Ok(())
    });
    assert!(played.is_ok());
    assert!(frames.into_iter().all(|count| count > 1000));
}

/// Gives a reply to a send without what its version may change: the version and the errorTime.
fn without_version(reply: &[u8]) -> Vec<u8> {
    let mut rest = reply.to_vec();
    if rest.starts_with(b"00 ") {
        rest[33..35].fill(b'-');
        rest[123..131].fill(b'-');
    }
    rest
}

/// A bridge whose ports all have the other version answers generated lives alike, but for version and errorTime of its frames, and for sends that the errorTime alone has refused.
#[test]
fn versions_change_nothing_else() {
    let mut turned = Replay {
        bridge: Listed::empty(),
    };
    let mut out = Vec::new();
    let mut refused = 0;
    let played = lives(100_000, 7, &mut |line, reply, _| {
        out.clear();
        turned.answer(line, &mut out);
        let one_refused = reply.starts_with(b"0D") != out.starts_with(b"0D");
        if line.starts_with(b"T ") && one_refused {
            refused += 1;
        } else if line.starts_with(b"T ") {
            assert_eq!(without_version(reply), without_version(&out));
        } else {
            assert_eq!(reply, out);
        }
        if matches!(line.first(), Some(b'S' | b'P' | b'V')) && reply == b"00" {
            for port in &mut turned.bridge.ports {
                port.version = Version(3 - port.version.0);
            }
        }
        Ok(())
    });
    assert!(played.is_ok());
    assert!(refused > 100);
}

/// A setup with every part said has the profile before and eight versions after what every setup says.
#[test]
fn lines_of_versions_have_their_form() {
    let answer = |line: &str| {
        let rest = "020000000007 00000000000000000000000001 0 D 0 M M M M M M M M";
        answered(&line.replace("..", rest))
    };
    for taken in [
        "V 0 1 .. 0101010101010101",
        "V 0 1 .. 0200FF0304050607",
        "V 0 8 .. 0201020102010201",
        "V 1 1 .. 0101010101010101",
        "V 1 01 .. 02ffFFffFFfFFfFF",
        "V 0 1 020000000007 00000000000000000000000001 1 D D D d M M M M M 7 02FfFfFfFfFfFfFf",
    ] {
        assert_eq!(answer(taken), "00");
    }
    for refused in [
        "V 0 1 .. 0001010101010101",
        "V 0 1 .. 0302020202020202",
        "V 0 1 .. FF02020202020202",
        "V 0 8 .. 0202020202020200",
        "V 0 8 .. 0102010201020103",
        "V 0 2 .. 01FF010101010101",
        "V 0 0 .. 0101010101010101",
        "V 0 9 .. 0101010101010101",
        "V 1 2 .. 0101010101010101",
        "V 1 1 .. 0002020202020202",
    ] {
        assert_eq!(answer(refused), "01");
    }
    for no_line in [
        "V",
        "V 0",
        "V 0 1 ..",
        "V 1 ..",
        "V 1 .. 0101010101010101",
        "V 2 1 .. 0101010101010101",
        "V 00 1 .. 0101010101010101",
        "V 01 1 .. 0101010101010101",
        "V D 1 .. 0101010101010101",
        "V - 1 .. 0101010101010101",
        "V  1 .. 0101010101010101",
        "V 0 1 .. 01010101010101",
        "V 0 1 .. 010101010101010101",
        "V 0 1 .. 010101010101010",
        "V 0 1 .. 01010101010101010",
        "V 0 1 .. 0101010101010g01",
        "V 0 1 .. -",
        "V 0 1 .. D",
        "V 0 1 .. 1",
        "V 0 1 .. ",
        "V 0 1 .. 0101010101010101 ",
        "V 0 1 .. 0101010101010101 01",
        "V 0 1 .. 01 01 01 01 01 01 01 01",
        "v 0 1 .. 0101010101010101",
        "VV 0 1 .. 0101010101010101",
        " V 0 1 .. 0101010101010101",
        "V 0 100 .. 0101010101010101",
        "S 0 1 .. 0101010101010101",
        "S 1 .. 0101010101010101",
        "P 1 .. 0101010101010101",
    ] {
        assert_eq!(answer(no_line), "0E");
    }
}

/// The version is the last thing that a read prints, and the last but one that a write is given.
#[test]
fn lines_of_frames_have_versions() {
    let fields = "020000000001 00000000000000000000000005 3 4 7 0 8 9 A FFFFFFF5";
    let printed = "020000000001 00000000000000000000000005 03 04 00000000070000000000";
    let times = "000000000008 000000000009 00000000000A FFFFFFF5";
    for version in [Version(1), Version(2)] {
        let mut digits = Vec::new();
        hex::put_bytes(&mut digits, &frame::put_together(&versioned(version)));
        let digits = String::from_utf8_lossy(&digits).into_owned();
        let version = version.0;
        assert_eq!(
            answered(&format!("F {digits}")),
            format!("00 {printed} {times} {version:02X}")
        );
        for written in ["", "0", "00000000000000"] {
            assert_eq!(
                answered(&format!("W {fields} {written}{version} 40")),
                format!("00 {digits}")
            );
        }
    }
    let filled = "A5".repeat(64);
    for wrong in ["0", "3", "ff", "80", "0000000000000003"] {
        let write = |length: &str| answered(&format!("W {fields} {wrong} {length}"));
        assert_eq!(write("40"), format!("06 {filled}"));
        assert_eq!(write("0"), "04 -");
        assert_eq!(write("81"), "0E");
    }
    for no_version in ["", "100", "-", "D1", "1 1", "00000000000000001"] {
        let line = format!("W {fields} {no_version} 40");
        let wanted = if no_version == "D1" { "06" } else { "0E" };
        assert_eq!(answered(&line)[..2], *wanted);
    }
    assert_eq!(answered(&format!("W {fields} 40")), "0E");
}

/// The count of versions wants each way in which a setup, a send, an arrival, a read, a write and a comparison can fare by its version.
#[test]
fn census_misses_versions() {
    let mut census = VersionCensus::default();
    let mut bridge = Sender::on(&STEEPEST, BACK_MOST, [1, 2], [0, i32::MAX]).bridge;
    assert_eq!(census.missing().len(), 57);
    let station = "020000000007 00000000000000000000000001 0 D D M M M M M M M M";
    let mut play = |line: String, bridge: &mut Listed| {
        let mut replay = Replay {
            bridge: bridge.clone(),
        };
        let mut out = Vec::new();
        replay.answer(line.as_bytes(), &mut out);
        census.count(line.as_bytes(), &out, &replay.bridge);
        *bridge = replay.bridge;
        census.missing()
    };
    assert_eq!(
        play(format!("T 1 {:X} 40", 5_u64 << 40), &mut bridge).len(),
        55
    );
    assert_eq!(
        play(format!("T 2 {:X} 40", 5_u64 << 40), &mut bridge).len(),
        54
    );
    let missing = play(String::from("V 0 1"), &mut bridge);
    assert!(!missing.contains(&String::from("sent 1 where 2 is refused")));
    assert!(!missing.contains(&String::from("sent 2 refused above")));
    assert!(missing.contains(&String::from("sent 2 refused below")));
    assert_eq!(missing.len(), 53);
    let mut other = Listed::empty();
    let refused = format!("V 0 2 {station} 0103000000000000");
    assert_eq!(play(refused, &mut other).len(), 51);
    let two_wrong = format!("V 0 2 {station} 0300000000000000");
    assert_eq!(play(two_wrong, &mut other).len(), 51);
    let mixed = format!("V 0 2 {station} 0102000000000000");
    let missing = play(mixed, &mut other);
    assert_eq!(missing.len(), 49);
    assert!(!missing.contains(&String::from("set up wrong beyond")));
    assert!(missing.contains(&String::from("set up refused first")));
}
