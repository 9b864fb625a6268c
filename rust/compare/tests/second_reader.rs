//! A second reader of charts, without state: every fault is asked of the list of commands
//! up to the one at hand. It is compared with the reader on damaged charts.

use lsc_compare::coverage::Coverage;
use lsc_compare::random::{self, Rng};
use lsc_reference::reader::read_chart;
use lsc_reference::value::*;

#[derive(Clone, Copy)]
struct Command<'a> {
    offset: usize,
    byte: u8,
    operands: &'a [u8],
}

fn length_of(byte: u8) -> Option<usize> {
    // B1: each command's size, less its own byte.
    let table = [
        (0x10, 2),
        (0x20, 4),
        (0x21, 2),
        (0x30, 6),
        (0x31, 7),
        (0x32, 0),
        (0x33, 0),
        (0x40, 1),
        (0x50, 0),
        (0x7F, 0),
    ];
    table
        .iter()
        .find(|(command, _)| *command == byte)
        .map(|(_, length)| *length)
}

fn starts_region(command: &Command) -> bool {
    command.byte == 0x20 || command.byte == 0x21
}

/// The commands after the last 50, or all.
fn this_half<'a, 'b>(earlier: &'b [Command<'a>]) -> &'b [Command<'a>] {
    match earlier.iter().rposition(|command| command.byte == 0x50) {
        Some(place) => &earlier[place + 1..],
        None => earlier,
    }
}

/// The latest region of this half (R6) and what belongs to it.
fn open_region<'a, 'b>(earlier: &'b [Command<'a>]) -> Option<&'b [Command<'a>]> {
    let half = this_half(earlier);
    let place = half.iter().rposition(starts_region)?;
    Some(&half[place..])
}

fn has(commands: &[Command], byte: u8) -> bool {
    commands.iter().any(|command| command.byte == byte)
}

fn count(commands: &[Command], test: impl Fn(&Command) -> bool) -> usize {
    commands.iter().filter(|command| test(command)).count()
}

fn is_term(command: &Command) -> bool {
    command.byte == 0x30 || command.byte == 0x31
}

fn set(operands: &[u8]) -> Vec<usize> {
    let mut number = 0usize;
    for byte in operands {
        number = number * 256 + usize::from(*byte);
    }
    (0..16).filter(|place| (number >> place) % 2 == 1).collect()
}

fn lines(command: &Command) -> Vec<usize> {
    match command.byte {
        0x20 => vec![command.operands[0].into(), command.operands[1].into()],
        _ => set(command.operands),
    }
}

fn out_of_place(earlier: &[Command], byte: u8) -> bool {
    let open = open_region(earlier);
    match byte {
        0x10 => !earlier.is_empty(),
        _ if earlier.is_empty() => true,
        0x50 => has(earlier, 0x50),
        0x30 | 0x31 => open.is_none(),
        0x32 | 0x33 | 0x40 => open.is_none_or(|open| has(open, byte)),
        _ => false,
    }
}

fn closing_fault(earlier: &[Command]) -> Option<(u8, usize)> {
    let open = open_region(earlier)?;
    let no_term = count(open, is_term) == 0;
    if open[0].byte == 0x21 && no_term && !has(open, 0x40) {
        return Some((6, open[0].offset));
    }
    if has(open, 0x32) && no_term {
        return Some((7, open[0].offset));
    }
    None
}

fn out_of_range(earlier: &[Command], command: &Command) -> bool {
    let o = command.operands;
    if command.byte == 0x10 {
        return o[0] < 2 || o[0] > 16 || o[1] > 8;
    }
    let heading = earlier[0].operands;
    let (lines, clocks) = (heading[0], heading[1]);
    match command.byte {
        0x20 => o[0] >= lines || o[1] >= lines || o[0] == o[1],
        0x21 => set(o).is_empty() || set(o).iter().any(|line| *line >= lines.into()),
        0x30 => o[0] >= clocks || o[1] > 4,
        0x31 => o[0] >= clocks || o[1] >= clocks || o[0] == o[1] || o[2] > 4,
        0x40 => set(o).is_empty() || set(o).iter().any(|clock| *clock >= clocks.into()),
        _ => false,
    }
}

fn fault(earlier: &[Command], command: &Command) -> Option<u8> {
    let main = has(earlier, 0x50);
    let half = this_half(earlier);
    let opening = count(earlier, starts_region) == count(half, starts_region);
    if out_of_range(earlier, command) {
        return Some(4);
    }
    if starts_region(command) && count(earlier, starts_region) >= 32 {
        return Some(5);
    }
    if is_term(command) && open_region(earlier).is_some_and(|open| count(open, is_term) >= 4) {
        return Some(5);
    }
    if command.byte == 0x32 && !main {
        return Some(8);
    }
    if command.byte == 0x33 && !main {
        return Some(13);
    }
    if command.byte == 0x21 && opening {
        let shared = half
            .iter()
            .filter(|other| starts_region(other))
            .any(|other| {
                lines(other)
                    .iter()
                    .any(|line| lines(command).contains(line))
            });
        if !shared {
            return Some(9);
        }
    }
    if command.byte == 0x7F && (!main || count(half, starts_region) == 0) {
        return Some(10);
    }
    None
}

fn first_fault(bytes: &[u8]) -> Result<Vec<Command<'_>>, (u8, usize)> {
    let mut earlier: Vec<Command> = Vec::new();
    let mut offset = 0;
    while offset < bytes.len() {
        let byte = bytes[offset];
        let length = length_of(byte).ok_or((2, offset))?;
        if bytes.len() - offset - 1 < length {
            return Err((1, offset));
        }
        let command = Command {
            offset,
            byte,
            operands: &bytes[offset + 1..offset + 1 + length],
        };
        if out_of_place(&earlier, byte) {
            return Err((3, offset));
        }
        if [0x20, 0x21, 0x50, 0x7F].contains(&byte) {
            if let Some(fault) = closing_fault(&earlier) {
                return Err(fault);
            }
        }
        if let Some(code) = fault(&earlier, &command) {
            return Err((code, offset));
        }
        offset += 1 + length;
        earlier.push(command);
        if byte == 0x7F {
            return if offset < bytes.len() {
                Err((11, offset))
            } else {
                Ok(earlier)
            };
        }
    }
    Err((1, bytes.len()))
}

/// The value of accepted commands.
fn value(commands: &[Command]) -> ChartValue {
    let mut chart = ChartValue::ZERO;
    chart.lines = commands[0].operands[0];
    chart.clocks = commands[0].operands[1];
    let starts: Vec<usize> = (0..commands.len())
        .filter(|place| starts_region(&commands[*place]))
        .collect();
    chart.count = starts.len() as u8;
    let main = commands.iter().position(|c| c.byte == 0x50).unwrap();
    chart.prechart = count(&commands[..main], starts_region) as u8;
    for (number, start) in starts.iter().enumerate() {
        let end = starts.get(number + 1).copied().unwrap_or(commands.len());
        chart.regions[number] = region_value(&commands[*start..end]);
    }
    chart
}

/// The value of a region's start and what follows up to the next.
fn region_value(parts: &[Command]) -> RegionValue {
    let mut region = RegionValue::ZERO;
    let o = parts[0].operands;
    region.event = if parts[0].byte == 0x20 {
        EventValue::Message(Message {
            source: o[0],
            destination: o[1],
            label: u16::from(o[2]) * 256 + u16::from(o[3]),
        })
    } else {
        EventValue::Plain(u16::from(o[0]) * 256 + u16::from(o[1]))
    };
    region.hot = has(parts, 0x32);
    region.rest = has(parts, 0x33);
    for part in parts.iter().filter(|part| part.byte == 0x40) {
        region.resets = part.operands[0];
    }
    for (place, part) in parts.iter().filter(|part| is_term(part)).enumerate() {
        region.terms[place] = term_value(part);
        region.term_count += 1;
    }
    region
}

fn term_value(term: &Command) -> TermValue {
    let o = term.operands;
    let (left, rest) = match term.byte {
        0x30 => (LeftValue::Clock(o[0]), &o[1..]),
        _ => (LeftValue::Difference(o[0], o[1]), &o[2..]),
    };
    let mut n = 0i64;
    for byte in &rest[1..] {
        n = n * 256 + i64::from(*byte);
    }
    if n >= 1 << 31 {
        n -= 1 << 32;
    }
    TermValue {
        left,
        relation: rest[0],
        n: n as i32,
    }
}

#[test]
fn both_readers_agree() {
    let mut rng = Rng::new(11);
    let mut seen = Coverage::default();
    let mut accepted = 0;
    for _ in 0..150_000 {
        let bytes = random::hostile_chart_bytes(&mut rng);
        let expected = first_fault(&bytes).map(|commands| value(&commands));
        match &expected {
            Ok(_) => accepted += 1,
            Err((code, _)) => seen.refusal(*code),
        }
        assert_eq!(read_chart(&bytes), expected, "{bytes:02X?}");
    }
    println!("accepted {accepted}, refused {:?}", seen.refusals);
    assert!(accepted > 1_000);
    let charts = (1..=11).chain([13]);
    assert!(charts
        .into_iter()
        .all(|code| seen.refusals.contains_key(&code)));
}

#[test]
fn every_short_string_of_telling_bytes() {
    // After a heading, all strings of up to five bytes made of a few that matter.
    let telling = [
        0x00, 0x01, 0x02, 0x10, 0x20, 0x21, 0x32, 0x33, 0x40, 0x50, 0x7F,
    ];
    for prefix in [
        &[][..],
        &[0x10, 2, 1],
        &[0x10, 2, 1, 0x50],
        &[0x10, 2, 1, 0x20, 0, 1, 0, 1],
        &[0x10, 2, 1, 0x50, 0x20, 0, 1, 0, 1],
        &[0x10, 2, 1, 0x50, 0x20, 0, 1, 0, 1, 0x21, 0, 1],
    ] {
        for number in 0..telling.len().pow(5) {
            let mut bytes = prefix.to_vec();
            let mut left = number;
            for _ in 0..5 {
                bytes.push(telling[left % telling.len()]);
                left /= telling.len();
            }
            for length in [bytes.len(), bytes.len() - 1 - number % 4] {
                let cut = &bytes[..length];
                let expected = first_fault(cut).map(|commands| value(&commands));
                assert_eq!(read_chart(cut), expected, "{cut:02X?}");
            }
        }
    }
}
