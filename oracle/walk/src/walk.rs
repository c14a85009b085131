//! Reading lines and printing, from the walk program's table of spellings.
use std::fmt::Write;

use crate::calls;
use crate::lent::{Lent, Rooms, LIST, RECORD, ROWS, TRAIL, VARS, WORDS};

pub const INPUT: usize = 65_536;
const LIST_NUMBERS: usize = 1_024;
const NAN: u32 = 2_143_289_344;

/// A line's value: a number or a list.
enum Value {
    Number(u32),
    List(Vec<u32>),
}

/// Each op with its keys in order; a key `lits` is a list.
const OPS: [(&str, &[&str]); 26] = [
    ("start", &["vars"]),
    (
        "room",
        &[
            "words", "clauses", "irred", "core", "mid", "local", "rows", "record",
        ],
    ),
    ("long", &["tier", "glue", "lits"]),
    ("binary", &["lits"]),
    ("tier", &["ref", "tier"]),
    ("delete", &["ref"]),
    ("bump", &["ref"]),
    ("decay", &[]),
    ("locals", &[]),
    ("mids", &[]),
    ("collect", &[]),
    ("units", &[]),
    ("simplify", &[]),
    ("empty", &[]),
    ("assess", &["lits"]),
    ("implied", &["lit"]),
    ("literals", &["ref"]),
    ("view", &["from", "to"]),
    ("unit", &["lit"]),
    ("assign", &["lit", "kind", "value", "level"]),
    ("undo", &[]),
    ("level", &["level"]),
    ("depth", &["var", "level"]),
    ("poke", &["buffer", "at", "value"]),
    ("answers", &["on"]),
    ("show", &[]),
];
const MORE_OPS: [(&str, &[&str]); 2] = [("dump", &[]), ("tails", &[])];

fn number(text: &str) -> Option<u32> {
    let digits = text.bytes().all(|byte| byte.is_ascii_digit());
    if !digits || text.is_empty() || text.len() > 10 {
        return None;
    }
    text.parse::<u64>().ok()?.try_into().ok()
}

fn list(text: &str) -> Option<Vec<u32>> {
    if text.is_empty() {
        return Some(vec![]);
    }
    let numbers: Vec<u32> = text.split(',').map(number).collect::<Option<_>>()?;
    (numbers.len() <= LIST_NUMBERS).then_some(numbers)
}

/// The op's name and its values, if the line is readable.
fn read(line: &[u8]) -> Option<(&'static str, Vec<Value>)> {
    let line = std::str::from_utf8(line).ok()?;
    let mut words = line.split(' ');
    let name = words.next()?.strip_prefix("op=")?;
    let (name, keys) = OPS
        .iter()
        .chain(MORE_OPS.iter())
        .find(|(known, _)| *known == name)?;
    let mut values = vec![];
    for key in keys.iter() {
        let text = words.next()?.strip_prefix(key)?.strip_prefix('=')?;
        values.push(if *key == "lits" {
            Value::List(list(text)?)
        } else {
            Value::Number(number(text)?)
        });
    }
    if words.next().is_some() {
        return None;
    }
    if *name == "answers" && !matches!(values[0], Value::Number(0 | 1)) {
        return None;
    }
    Some((name, values))
}

pub fn commas<T: ToString>(numbers: &[T]) -> String {
    let texts: Vec<String> = numbers.iter().map(|n| n.to_string()).collect();
    texts.join(",")
}

fn bits(bits: u32) -> u32 {
    if f32::from_bits(bits).is_nan() {
        NAN
    } else {
        bits
    }
}

/// What an accepted line has to say.
enum Said {
    /// Nothing, unless answers are on: then `answer=0` and this.
    Quiet(String),
    Prints(String),
}

fn quiet() -> Said {
    Said::Quiet(String::new())
}

fn quiet_bit(name: &str, bit: bool) -> Said {
    Said::Quiet(format!(" {}={}", name, bit as u32))
}

#[derive(Default)]
pub struct Walk {
    pub lent: Lent,
    pub answers: bool,
    /// The last line's op and answer.
    pub last: (&'static str, u32),
}

impl Walk {
    pub fn new() -> Walk {
        Walk::default()
    }

    /// Carries out one line and returns what it prints.
    pub fn line(&mut self, line: &[u8]) -> String {
        let Some((name, values)) = read(line) else {
            self.last = ("none", 99);
            return "op=none answer=99\n".to_string();
        };
        let said = self.carry_out(name, &values);
        self.last = (name, *said.as_ref().err().unwrap_or(&0));
        match said {
            Err(answer) => format!("op={} answer={}\n", name, answer),
            Ok(Said::Prints(text)) => text,
            Ok(Said::Quiet(more)) if self.answers => format!("op={} answer=0{}\n", name, more),
            Ok(Said::Quiet(_)) => String::new(),
        }
    }

    fn carry_out(&mut self, name: &str, values: &[Value]) -> Result<Said, u32> {
        let n = |place: usize| match values[place] {
            Value::Number(number) => number,
            Value::List(_) => unreachable!(),
        };
        let l = |place: usize| match &values[place] {
            Value::List(list) => &list[..],
            Value::Number(_) => unreachable!(),
        };
        let lent = &mut self.lent;
        Ok(match name {
            "start" => {
                calls::start(lent, n(0) as usize)?;
                lent.values.fill(2);
                lent.kinds.fill(0);
                lent.reasons.fill(0);
                lent.levels.fill(0);
                lent.trail.fill(0);
                lent.trail_used = 0;
                lent.level = 0;
                quiet()
            }
            "room" => {
                let given: Vec<usize> = (0..8).map(|place| n(place) as usize).collect();
                let most = [WORDS, LIST, LIST, LIST, LIST, LIST, ROWS, RECORD];
                if given.iter().zip(most).any(|(&given, most)| given > most) {
                    return Err(1);
                }
                lent.rooms = Rooms {
                    words: given[0],
                    lists: given[1..6].try_into().unwrap(),
                    rows: given[6],
                    record: given[7],
                };
                quiet()
            }
            "long" => {
                let at = calls::add_long(lent, n(0), n(1), l(2))?;
                Said::Quiet(format!(" ref={}", at))
            }
            "binary" => {
                calls::add_binary(lent, l(0))?;
                quiet()
            }
            "tier" => {
                calls::set_tier(lent, n(0), n(1))?;
                quiet()
            }
            "delete" => quiet_bit("rebuild", calls::delete(lent, n(0))?),
            "bump" => {
                calls::bump(lent, n(0))?;
                quiet()
            }
            "decay" => {
                calls::decay(lent)?;
                quiet()
            }
            "locals" => quiet_bit("rebuild", calls::reduce_locals(lent)?),
            "mids" => {
                calls::reduce_mids(lent)?;
                quiet()
            }
            "collect" => quiet_bit("rebuild", calls::collect(lent)?),
            "units" => quiet_bit("new", calls::units(lent)?),
            "simplify" => quiet_bit("rebuild", calls::simplify(lent)?),
            "empty" => {
                calls::empty(lent)?;
                quiet()
            }
            "assess" => {
                let (tier, glue) = calls::assess(lent, l(0))?;
                Said::Prints(format!("op=assess tier={} glue={}\n", tier, glue))
            }
            "implied" => {
                let row = calls::implied(lent, n(0))?;
                Said::Prints(format!("op=implied lits={}\n", commas(&row)))
            }
            "literals" => {
                let literals = calls::literals(lent, n(0))?;
                Said::Prints(format!("op=literals lits={}\n", commas(&literals)))
            }
            "view" => {
                let (from, to) = (n(0) as usize, n(1) as usize);
                if from > to || to > lent.rooms.words {
                    return Err(4);
                }
                let view = calls::view(&lent.words[from..to]);
                let header = view.header;
                Said::Prints(format!(
                    "op=view activity={} tier={} deleted={} mark={} glue={} active={} length={} lits={}\n",
                    bits(header.activity().to_bits()),
                    header.tier() as u32,
                    header.deleted() as u32,
                    header.mark() as u32,
                    header.glue(),
                    header.active() as u32,
                    header.len(),
                    commas(&view.literals)
                ))
            }
            "unit" => {
                let level = lent.level;
                assign(lent, n(0), 1, 0, level)?;
                quiet()
            }
            "assign" => {
                assign(lent, n(0), n(1), n(2), n(3))?;
                quiet()
            }
            "undo" => {
                if lent.trail_used == 0 || lent.trail_used > TRAIL {
                    return Err(4);
                }
                let var = lent.trail[lent.trail_used - 1] as usize / 2;
                if var >= lent.lent_vars() {
                    return Err(4);
                }
                lent.values[var] = 2;
                lent.trail_used -= 1;
                lent.trail[lent.trail_used] = 0;
                quiet()
            }
            "level" => {
                lent.level = n(0);
                quiet()
            }
            "depth" => {
                let var = n(0) as usize;
                if var >= lent.state.vars || var >= VARS {
                    return Err(4);
                }
                lent.levels[var] = n(1);
                quiet()
            }
            "poke" => {
                poke(lent, n(0), n(1) as usize, n(2))?;
                quiet()
            }
            "answers" => {
                self.answers = n(0) == 1;
                quiet()
            }
            "show" => Said::Prints(show(lent)),
            "dump" => Said::Prints(dump(lent)),
            "tails" => Said::Prints(tails(lent)),
            _ => unreachable!(),
        })
    }
}

fn assign(lent: &mut Lent, lit: u32, kind: u32, value: u32, level: u32) -> Result<(), u32> {
    let var = lit as usize / 2;
    let out = var >= lent.state.vars || var >= VARS;
    if out || lent.values[var] != 2 || kind > 255 || lent.trail_used >= TRAIL {
        return Err(4);
    }
    lent.values[var] = (lit & 1 ^ 1) as u8;
    lent.kinds[var] = kind as u8;
    lent.reasons[var] = value;
    lent.levels[var] = level;
    lent.trail[lent.trail_used] = lit;
    lent.trail_used += 1;
    Ok(())
}

fn poke(lent: &mut Lent, buffer: u32, at: usize, value: u32) -> Result<(), u32> {
    let vars = lent.lent_vars();
    let rooms = lent.rooms.clone();
    let word = |buffer: &mut Vec<u32>, room: usize| {
        if at < room {
            buffer[at] = value;
            Ok(())
        } else {
            Err(4)
        }
    };
    let byte = |buffer: &mut Vec<u8>, room: usize| {
        if at < room && value < 256 {
            buffer[at] = value as u8;
            Ok(())
        } else {
            Err(4)
        }
    };
    match buffer {
        0 => word(&mut lent.words, rooms.words),
        1..=5 => {
            let list = buffer as usize - 1;
            word(&mut lent.lists[list], rooms.lists[list])
        }
        6 => word(&mut lent.rows, rooms.rows),
        7 => word(&mut lent.row_counts, 2 * vars),
        8 => word(&mut lent.record, rooms.record),
        9 => byte(&mut lent.values, vars),
        10 => byte(&mut lent.kinds, vars),
        11 => word(&mut lent.reasons, vars),
        12 => word(&mut lent.levels, vars),
        13 => word(&mut lent.trail, TRAIL),
        14 => {
            let number = value as usize;
            let state = &mut lent.state;
            match at {
                0 => state.vars = number,
                1 => state.words = number,
                2..=6 => state.lists[at - 2] = number,
                7 => state.record = number,
                8..=11 => state.counts[at - 8] = number,
                12 => state.garbage = number,
                13 => state.binary = number,
                14 => state.bump = bits(value),
                15 => state.inverse = bits(value),
                16 => lent.trail_used = number,
                _ => return Err(4),
            }
            Ok(())
        }
        _ => Err(4),
    }
}

/// How many rows a dump or the tails look at: those with a lent count.
fn rows_seen(lent: &Lent) -> usize {
    if lent.state.vars == 0 {
        0
    } else {
        2 * lent.lent_vars()
    }
}

fn show(lent: &Lent) -> String {
    let state = &lent.state;
    let counts = state.counts;
    let mut out = format!(
        "used={} garbage={} live={} binary={} count0={} count1={} count2={} count3={} record={}\n",
        state.words,
        state.garbage,
        counts.iter().sum::<usize>(),
        state.binary,
        counts[0],
        counts[1],
        counts[2],
        counts[3],
        state.record
    );
    let mut rest = lent.used_record();
    while !rest.is_empty() {
        let length = rest.get(1).copied().unwrap_or(0) as usize;
        let literals = &rest[rest.len().min(2)..];
        let literals = &literals[..length.min(literals.len())];
        writeln!(out, "kind={} lits={}", rest[0], commas(literals)).unwrap();
        rest = &rest[rest.len().min(2 + literals.len())..];
    }
    out
}

fn dump(lent: &Lent) -> String {
    let state = &lent.state;
    let mut out = format!(
        "state vars={} words={} clauses={} irred={} core={} mid={} local={} record={} count0={} count1={} count2={} count3={} garbage={} binary={} bump={} inverse={}\n",
        state.vars,
        state.words,
        state.lists[0],
        state.lists[1],
        state.lists[2],
        state.lists[3],
        state.lists[4],
        state.record,
        state.counts[0],
        state.counts[1],
        state.counts[2],
        state.counts[3],
        state.garbage,
        state.binary,
        bits(state.bump),
        bits(state.inverse)
    );
    let vars = if state.vars == 0 { 0 } else { lent.lent_vars() };
    let mut line = |name: &str, text: String| writeln!(out, "{}={}", name, text).unwrap();
    line("words", commas(lent.used_words()));
    for (list, name) in ["clauses", "irred", "core", "mid", "local"]
        .iter()
        .enumerate()
    {
        line(name, commas(lent.list(list)));
    }
    for code in 0..rows_seen(lent) {
        if lent.row_counts[code] > 0 {
            line("row", format!("{} lits={}", code, commas(lent.row(code))));
        }
    }
    line("record", commas(lent.used_record()));
    line("values", commas(&lent.values[..vars]));
    line("kinds", commas(&lent.kinds[..vars]));
    line("reasons", commas(&lent.reasons[..vars]));
    line("levels", commas(&lent.levels[..vars]));
    line("trail", commas(lent.used_trail()));
    line("level", lent.level.to_string());
    out
}

fn tails(lent: &Lent) -> String {
    let behind = |buffer: &[u32], used: usize, room: usize| {
        let from = used.min(room);
        buffer[from..room].iter().filter(|&&word| word != 0).count()
    };
    let rooms = &lent.rooms;
    let state = &lent.state;
    let list = |list: usize| behind(&lent.lists[list], state.lists[list], rooms.lists[list]);
    let all_rows = behind(&lent.rows, 0, rooms.rows);
    let filled: usize = (0..rows_seen(lent))
        .map(|code| lent.row(code).iter().filter(|&&word| word != 0).count())
        .sum();
    format!(
        "op=tails words={} clauses={} irred={} core={} mid={} local={} rows={} record={} trail={}\n",
        behind(&lent.words, state.words, rooms.words),
        list(0),
        list(1),
        list(2),
        list(3),
        list(4),
        all_rows - filled,
        behind(&lent.record, state.record, rooms.record),
        behind(&lent.trail, lent.trail_used, TRAIL)
    )
}

/// The lines of an input: at most 64 KiB of it.
pub fn lines(input: &[u8]) -> Vec<&[u8]> {
    let input = &input[..input.len().min(INPUT)];
    let mut lines: Vec<&[u8]> = input.split(|&byte| byte == b'\n').collect();
    if lines.last().is_some_and(|last| last.is_empty()) {
        lines.pop();
    }
    lines
}
