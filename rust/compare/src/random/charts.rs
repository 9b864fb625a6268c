//! Well-formed charts as bytes.

use super::Rng;
use lsc_reference::reader::read_chart;
use lsc_reference::value::*;

/// How large a random chart is.
#[derive(Clone, Copy, Debug, PartialEq, Eq)]
pub enum Size {
    /// At most 5 regions, for trying every row.
    Tiny,
    /// At most 9 regions.
    Small,
    /// Up to the limits.
    Large,
}

/// A size, mostly small.
pub fn some_size(rng: &mut Rng) -> Size {
    match rng.below(10) {
        0..=3 => Size::Tiny,
        4..=7 => Size::Small,
        _ => Size::Large,
    }
}

/// The counts of a chart to be made.
struct Frame {
    lines: u8,
    clocks: u8,
    prechart: usize,
    main: usize,
    labels: u16,
}

fn frame(rng: &mut Rng, size: Size) -> Frame {
    match size {
        Size::Tiny => {
            let total = rng.range(1, 5) as usize;
            let prechart = match rng.below(10) {
                0..=2 => 0,
                3..=5 => total - 1,
                _ => rng.below(total),
            };
            Frame {
                lines: rng.range(2, 4) as u8,
                clocks: rng.range(0, 3) as u8,
                prechart,
                main: total - prechart,
                labels: rng.range(1, 3) as u16,
            }
        }
        Size::Small => Frame {
            lines: rng.range(2, 6) as u8,
            clocks: rng.range(0, 4) as u8,
            prechart: rng.below(4),
            main: rng.range(1, 6) as usize,
            labels: rng.range(1, 4) as u16,
        },
        Size::Large => {
            let total = up_to(rng, 6, 32).into();
            let prechart = rng.below(total);
            Frame {
                lines: up_to(rng, 2, 16),
                clocks: up_to(rng, 0, 8),
                prechart,
                main: total - prechart,
                labels: rng.range(1, 6) as u16,
            }
        }
    }
}

/// A number up to a limit, often the limit.
fn up_to(rng: &mut Rng, low: u8, limit: u8) -> u8 {
    if rng.chance(30) {
        limit
    } else {
        rng.range(low.into(), limit.into()) as u8
    }
}

/// A random non-empty set of the first `width` places.
pub(super) fn some_set(rng: &mut Rng, width: u8) -> u16 {
    let mut set = 1 << rng.below(usize::from(width));
    while rng.chance(35) {
        set |= 1 << rng.below(usize::from(width));
    }
    set
}

fn some_label(rng: &mut Rng, labels: u16) -> u16 {
    if rng.chance(3) {
        rng.pick(&[0, 255, 256, 0xFFFF])
    } else {
        1 + rng.below(usize::from(labels)) as u16
    }
}

/// The command of a random message region.
pub(super) fn message_command(rng: &mut Rng, lines: u8, labels: u16) -> Vec<u8> {
    let source = rng.below(usize::from(lines)) as u8;
    let step = 1 + rng.below(usize::from(lines) - 1) as u8;
    let message = Message {
        source,
        destination: (source + step) % lines,
        label: some_label(rng, labels),
    };
    [&[0x20], &message.to_bytes()[..]].concat()
}

/// The command of a random plain region.
pub(super) fn plain_command(lines: u16) -> Vec<u8> {
    [&[0x21], &lines.to_be_bytes()[..]].concat()
}

/// The command of a random term that plausible times often satisfy; an easy one they
/// nearly always do.
pub(super) fn term_command(rng: &mut Rng, clocks: u8, easy: bool) -> Vec<u8> {
    let mut relation = rng.pick(&[0u8, 1, 1, 1, 1, 2, 3, 3, 3, 4]);
    if easy && relation == 2 {
        relation = 1;
    }
    let first = rng.below(usize::from(clocks)) as u8;
    let difference = clocks >= 2 && rng.chance(25);
    let n = if easy {
        easy_number(rng, relation)
    } else {
        telling_number(rng, relation, difference)
    };
    let mut command = Vec::new();
    if difference {
        let step = 1 + rng.below(usize::from(clocks) - 1) as u8;
        command.extend([0x31, first, (first + step) % clocks]);
    } else {
        command.extend([0x30, first]);
    }
    command.push(relation);
    command.extend(n.to_be_bytes());
    command
}

/// A number that nearly every time is related to.
fn easy_number(rng: &mut Rng, relation: u8) -> i32 {
    let far = rng.pick(&[3_000, 70_000, i32::MAX]);
    if relation < 2 {
        far
    } else {
        -far
    }
}

/// A number that some times are related to and some are not, or one at the limits.
fn telling_number(rng: &mut Rng, relation: u8, difference: bool) -> i32 {
    if rng.chance(4) {
        return rng.pick(&[i32::MIN, i32::MIN + 1, -1, 0, i32::MAX - 1, i32::MAX]);
    }
    let n = match (relation, difference) {
        (0 | 1, false) => rng.range(1, 60),
        (2, false) => rng.range(0, 2),
        (_, false) => rng.range(-1, 4),
        (0 | 1, true) => rng.range(-1, 30),
        (2, true) => rng.range(-1, 1),
        (_, true) => rng.range(-30, 1),
    };
    n as i32
}

/// The command of a term that fails at an opening and holds some ticks later.
fn waiting_command(rng: &mut Rng, clocks: u8) -> Vec<u8> {
    let relation = rng.pick(&[3, 4]);
    let n = rng.range(1, 3) as u8;
    let clock = rng.below(usize::from(clocks)) as u8;
    vec![0x30, clock, relation, 0, 0, 0, n]
}

/// What a region's terms, heat, resets and mark depend on.
struct Setting {
    clocks: u8,
    main: bool,
    plain: bool,
    /// It is in the prechart, plain or with none above it, so that a second offer may test it.
    early: bool,
    /// So many of a hundred terms are easy.
    easy: usize,
    /// So many of a hundred such regions are marked as cold to rest on.
    rest: usize,
}

/// A region's terms, heat, resets and mark, in any order.
fn attributes(rng: &mut Rng, setting: &Setting) -> Vec<u8> {
    let clocks = setting.clocks;
    let mut commands: Vec<Vec<u8>> = Vec::new();
    if clocks > 0 {
        let terms = match rng.below(10) {
            0..=4 => 0,
            5..=6 => 1,
            7 => 2,
            _ => 2 + rng.below(MAX_TERMS - 1),
        };
        for _ in 0..terms {
            let easy = rng.chance(setting.easy);
            let waits = setting.early && rng.chance(40);
            commands.push(if waits {
                waiting_command(rng, clocks)
            } else {
                term_command(rng, clocks, easy)
            });
        }
        if terms > 0 && setting.main && rng.chance(45) {
            commands.push(vec![0x32]);
        }
        if rng.chance(40) || (setting.plain && terms == 0) {
            commands.push(vec![0x40, some_set(rng, clocks) as u8]);
        }
    }
    if setting.main && rng.chance(setting.rest) {
        commands.push(vec![0x33]);
    }
    rng.shuffle(&mut commands);
    commands.concat()
}

/// The lines that a region's starting command touches.
fn touched(event: &[u8]) -> u16 {
    match *event {
        [0x20, source, destination, ..] => (1 << source) | (1 << destination),
        [0x21, high, low, ..] => u16::from_be_bytes([high, low]),
        _ => 0,
    }
}

/// A chart in the making.
struct Maker {
    frame: Frame,
    /// So many of a hundred regions are plain, messages sent again, terms easy, main regions
    /// marked.
    plain_share: usize,
    repeat_share: usize,
    easy_share: usize,
    rest_share: usize,
    /// The commands of the message regions so far.
    pool: Vec<Vec<u8>>,
    bytes: Vec<u8>,
}

impl Maker {
    fn of(rng: &mut Rng, size: Size) -> Maker {
        let frame = frame(rng, size);
        Maker {
            bytes: vec![0x10, frame.lines, frame.clocks],
            frame,
            plain_share: rng.pick(&[0, 15, 30, 50]),
            repeat_share: rng.pick(&[0, 20, 60]),
            easy_share: match size {
                Size::Large => rng.pick(&[50, 90, 97, 100]),
                _ => rng.pick(&[0, 20, 50, 90]),
            },
            rest_share: rng.pick(&[0, 30, 70, 100]),
            pool: Vec::new(),
        }
    }

    /// Adds a half of so many regions.
    fn half(&mut self, rng: &mut Rng, main: bool, count: usize) {
        let opening = !main || self.frame.prechart == 0;
        let mut lines_so_far = 0;
        for _ in 0..count {
            let mut event = None;
            if self.frame.clocks > 0 && rng.chance(self.plain_share) {
                event = self.plain_event(rng, opening, lines_so_far);
            }
            let plain = event.is_some();
            let event = event.unwrap_or_else(|| self.message_event(rng));
            let setting = Setting {
                clocks: self.frame.clocks,
                main,
                plain,
                early: !main && (plain || touched(&event) & lines_so_far == 0),
                easy: self.easy_share,
                rest: self.rest_share,
            };
            lines_so_far |= touched(&event);
            self.bytes.extend(event);
            self.bytes.extend(attributes(rng, &setting));
        }
    }

    /// A plain region's command. In the opening half it shares a line with an earlier region;
    /// none if there is no earlier one.
    fn plain_event(&self, rng: &mut Rng, opening: bool, lines_so_far: u16) -> Option<Vec<u8>> {
        let mut set = some_set(rng, self.frame.lines);
        if opening && set & lines_so_far == 0 {
            if lines_so_far == 0 {
                return None;
            }
            set |= lines_so_far & lines_so_far.wrapping_neg();
        }
        Some(plain_command(set))
    }

    /// A message region's command, now and then of a message that the chart has already.
    fn message_event(&mut self, rng: &mut Rng) -> Vec<u8> {
        let event = if !self.pool.is_empty() && rng.chance(self.repeat_share) {
            self.pool[rng.below(self.pool.len())].clone()
        } else {
            message_command(rng, self.frame.lines, self.frame.labels)
        };
        self.pool.push(event.clone());
        event
    }
}

/// Random bytes that are a well-formed chart.
pub fn chart_bytes(rng: &mut Rng, size: Size) -> Vec<u8> {
    let mut maker = Maker::of(rng, size);
    maker.half(rng, false, maker.frame.prechart);
    maker.bytes.push(0x50);
    maker.half(rng, true, maker.frame.main);
    maker.bytes.push(0x7F);
    maker.bytes
}

/// A random well-formed chart: its bytes and its value.
pub fn chart(rng: &mut Rng, size: Size) -> (Vec<u8>, ChartValue) {
    let bytes = chart_bytes(rng, size);
    let value = read_chart(&bytes).expect("the generator makes well-formed charts");
    (bytes, value)
}
