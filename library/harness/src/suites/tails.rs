//! Tails with wrong bits, at every setting: found up to it and not beyond, the
//! first place that counts and no other, however the recording is cut.
//!
//! Two facts about the bits of SYNC say what must be found, without the second
//! decoder. Every window before the tail is 9 or more places from it, so up to
//! four wrong bits in any 64 neighbours never cost or make a line at settings up
//! to four. Those that overlap the tail are 13 or more places from it, so wrong
//! bits of the tail alone never do where they are no more than the setting.

use second::bits;
use second::damage;
use second::ice::{places, Received};
use second::lines::Line;
use second::pattern;
use second::scramble::{sync, TAIL_BITS};

use super::reading::Reading;
use crate::bench::{Bench, Difference};
use crate::make::Maker;
use crate::pool::FORMATS;

/// One more than the largest setting.
const NOT_SERVED: usize = 7;

/// Wrong bits of a tail that are tried.
const MOST_WRONG: usize = 9;

/// Lines of a recording.
const LINES: usize = 2;

/// The longest piece of a recording, one after the other.
const LONGEST: [usize; 5] = [400, 1_000, 10_000, 60_000, 100_000];

/// The last bits of a SYNC with so many wrong ones in the tail, and soon the
/// tail itself, which loses where the first one counts; cut into two at every
/// byte. Fewer than 64 bits never count.
fn cuts(
    bench: &mut Bench,
    maker: &mut Maker,
    setting: usize,
    length: usize,
    wrong: usize,
) -> Result<(), Difference> {
    let format = maker.dice.pick(&FORMATS);
    let mut all = sync(length);
    for place in places(wrong, TAIL_BITS, maker.dice.random()) {
        all[length - 1 - place] ^= 1;
    }
    all.extend(maker.dice.random().bits(8));
    all.extend(sync(TAIL_BITS));
    let filling = 16 - all.len() % 8;
    all.extend(maker.dice.random().bits(filling));
    let known = match (length < TAIL_BITS, wrong <= setting) {
        (true, _) => Some(filling),
        (false, true) => Some(all.len() - length),
        (false, false) => None, // most likely the later one, but not surely
    };

    let recording = bits::to_bytes(&all);
    for at in 0..=recording.len() {
        let (first, last) = recording.split_at(at);
        let mut reading = Reading::new(bench, maker, format, setting);
        reading.feed(first)?;
        reading.refused(NOT_SERVED, last)?;
        reading.feed(last)?;
        let bits = reading.line_bits();
        if known.is_some() && known != bits {
            return Err(Difference(format!(
                "{length} bits of SYNC, {wrong} of them wrong, at setting {setting}: {bits:?} line \
                 bits, made for {known:?}"
            )));
        }
    }
    Ok(())
}

/// Recordings at a setting.
struct Recordings<'a> {
    bench: &'a mut Bench,
    maker: &'a mut Maker,
    format: usize,
    setting: usize,
}

impl Recordings<'_> {
    /// Reads what was received, at any bit offset, in pieces of up to so many
    /// bytes. Now and then a call in between is refused.
    fn play(&mut self, received: &Received, longest: usize) -> Result<Vec<Line>, Difference> {
        let by = self.maker.dice.under(8);
        let random = self.maker.dice.random();
        let recording = damage::shifted(&received.recording, by, random);
        let pieces = damage::cut(&recording, longest, random);
        let mut reading = Reading::new(self.bench, self.maker, self.format, self.setting);
        for piece in pieces {
            if reading.maker.dice.one_in(10) {
                reading.refused(NOT_SERVED, piece)?;
            }
            reading.feed(piece)?;
        }
        reading.finish(&recording, "wrong bits in SYNC and dummy")
    }

    /// Wrong bits that cost no line and make none: the lines are those sent.
    fn all_sent(&mut self, longest: usize) -> Result<(), Difference> {
        let (format, setting) = (self.format, self.setting);
        let random = self.maker.dice.random();
        let mut received = Received::new(format, LINES);
        if setting <= 4 && random.under(2) == 0 {
            received.wrong_in_every_64(setting, random);
        } else {
            // as many as count in one of the tails, up to as many in the others
            let all = random.under(LINES);
            for k in 0..LINES {
                let wrong = if k == all {
                    setting
                } else {
                    random.under(setting + 1)
                };
                received.wrong_in_tail(k, wrong, random);
            }
        }
        let found = self.play(&received, longest)?;
        let found = found.into_iter().map(|line| line.bytes);
        let sent = (0..LINES as u64).map(|k| pattern::line(format, k, 0).expect("a format"));
        match found.eq(sent) {
            true => Ok(()),
            false => Err(Difference(format!(
                "at setting {setting} the lines of format {format} are not those that were sent"
            ))),
        }
    }

    /// Any wrong bits: too many in a tail, anywhere else, or so that an earlier
    /// place is near to the tail.
    fn any(&mut self, longest: usize) -> Result<(), Difference> {
        let random = self.maker.dice.random();
        let mut received = Received::new(self.format, LINES);
        for k in 0..LINES {
            received.wrong_in_tail(k, random.under(MOST_WRONG + 1), random);
        }
        received.wrong_anywhere(random.under(100), random);
        if random.under(2) == 0 {
            let (k, more) = (random.under(LINES), random.under(2));
            received.earlier(k, self.setting + more, random);
        }
        self.play(&received, longest).map(|_| ())
    }
}

/// One setting.
pub fn at(setting: usize, bench: &mut Bench, maker: &mut Maker) -> Result<(), Difference> {
    for wrong in 0..=MOST_WRONG {
        let length = TAIL_BITS + maker.dice.under(16);
        cuts(bench, maker, setting, length, wrong)?;
    }
    for missing in 1..=NOT_SERVED {
        cuts(bench, maker, setting, TAIL_BITS - missing, 0)?;
    }
    let mut longest = LONGEST.iter().cycle().skip(6 * setting).copied();
    let mut longest = || longest.next().expect("they go on for ever");
    for format in FORMATS {
        let (bench, maker) = (&mut *bench, &mut *maker);
        let mut recordings = Recordings {
            bench,
            maker,
            format,
            setting,
        };
        recordings.all_sent(longest())?;
        recordings.any(longest())?;
    }
    Ok(())
}

pub fn run(bench: &mut Bench, maker: &mut Maker) -> Result<(), Difference> {
    for setting in 0..NOT_SERVED {
        at(setting, bench, maker)?;
    }
    Ok(())
}
