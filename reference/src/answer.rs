//! The numbers that calls answer with.

/// The number a call answers with.
pub type Answer = u8;

/// The call was done.
pub const DONE: Answer = 0;
/// A setup value is outside its limits.
pub const BAD_SETUP: Answer = 1;
/// A port, a mask or a time is outside its limits.
pub const OUT_OF_RANGE: Answer = 2;
/// The port is not linked.
pub const NO_LINK: Answer = 3;
/// The bytes or the output have the wrong length.
pub const BAD_LENGTH: Answer = 4;
/// One of the frame's fixed bytes is wrong.
pub const NOT_TIME_SYNC: Answer = 5;
/// The frame's version is neither 1 nor 2.
pub const BAD_VERSION: Answer = 6;
/// The frame has come too many hops.
pub const TOO_FAR: Answer = 7;
/// The frame count does not follow the last one.
pub const OUT_OF_SEQUENCE: Answer = 8;
/// The measured delay is not believable.
pub const BAD_DELAY: Answer = 9;
/// There is no clock to use.
pub const NO_CLOCK: Answer = 10;
/// The chosen clock has fewer than two samples.
pub const TOO_FEW_SAMPLES: Answer = 11;
/// The departure or the latch is too far from the newest sample.
pub const OUT_OF_REACH: Answer = 12;
/// What was worked out is beyond its range: a grand time or an errorTime to be sent, a stamp, or seconds of a scale.
pub const BEYOND_RANGE: Answer = 13;
/// The line of text does not have the wanted form.
pub const BAD_LINE: Answer = 14;
