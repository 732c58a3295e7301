//! The format that is written: records with the time and two sums, and whole answers.

use std::iter::Peekable;

use super::{first_line, without_zeros, write_call, Answer, Answered, Next, Origin, LINE_ROOM};
use crate::calls::Call;
use crate::sum::{check_sum, continued};
use crate::time::Time;

pub const HEADER: &str = "luffgravel night journal 2 script ";

/// What the first line of a record says.
#[derive(Clone, Copy, Debug, PartialEq, Eq)]
pub struct Head {
    pub number: u64,
    pub length: usize,
    pub time: Option<Time>,
    pub body: u64,
    /// The sum of the line, from that of the record before on.
    pub sum: u64,
}

fn header(origin: &Origin) -> String {
    format!("{HEADER}{} program {:016x}\n", origin.script, origin.program)
}

pub fn read_header(line: &[u8]) -> Option<Origin> {
    let line = std::str::from_utf8(line).ok()?;
    let (script, program) = line.strip_prefix(HEADER)?.trim_end().split_once(" program ")?;
    let origin = Origin { script: script.parse().ok()?, program: u64::from_str_radix(program, 16).ok()? };
    (header(&origin) == line).then_some(origin)
}

/// Is this the first part of a header, without its LF?
pub fn begins_header(bytes: &[u8]) -> bool {
    let rest = bytes.strip_prefix(HEADER.as_bytes());
    HEADER.as_bytes().starts_with(bytes)
        || rest.is_some_and(|rest| {
            rest.len() < 40 && rest.iter().all(|&byte| byte.is_ascii_alphanumeric() || byte == b' ')
        })
}

/// A record as it is written behind one with this sum, and its own sum.
pub fn write_record(chain: u64, number: u64, time: Time, body: &[u8]) -> (Vec<u8>, u64) {
    let said = format!("{number} {} {time} {:016x}", body.len(), check_sum(body));
    let sum = continued(chain, said.as_bytes());
    ([format!("\n@ {said} {sum:016x}\n").as_bytes(), body].concat(), sum)
}

/// The header, and record 0 with the configuration; and that record's sum.
pub fn write_beginning(origin: &Origin, time: Time, configuration: &[u8]) -> (Vec<u8>, u64) {
    let lines = configuration.split_inclusive(|&byte| byte == b'\n');
    let body: Vec<u8> = lines.flat_map(|line| [b":", line].concat()).collect();
    let header = header(origin);
    let (record, sum) = write_record(check_sum(header.as_bytes()), 0, time, &body);
    ([header.as_bytes(), &record].concat(), sum)
}

/// The body of a record of calls, the first of which has this number.
pub fn write_calls(first: usize, jump: Option<i64>, calls: &[Answered]) -> Vec<u8> {
    let mut body = jump.map_or(String::new(), |by| format!("!{by}\n")).into_bytes();
    for (number, answered) in (first..).zip(calls) {
        write_call(number, &answered.call, &mut body);
        for line in answered.answer.text().unwrap_or_default().split_inclusive(|&byte| byte == b'\n') {
            body.push(b'>');
            body.extend(line);
        }
    }
    body
}

/// What these bytes begin with, where the record of this number is due, behind one with this sum.
///
/// A record of full length whose sum is wrong is damaged. What is torn has its first part alone: a last line that is
/// short, or zeros where it was never written, and nothing behind it.
pub fn next(bytes: &[u8], number: u64, chain: u64) -> Next<'_> {
    let end = bytes.iter().take(LINE_ROOM).skip(1).position(|&byte| byte == b'\n').map(|at| at + 2);
    let Some(end) = end else { return if is_cut(bytes, number) { Next::Torn } else { Next::Damaged } };
    let Some(head) = read_head(&bytes[..end], chain).filter(|head| head.number == number) else {
        return Next::Damaged;
    };
    let Some(body) = bytes[end..].get(..head.length) else {
        return Next::Torn;
    };
    if check_sum(body) == head.body {
        return Next::Record(head, body, end + head.length);
    }
    // An append is no longer than its record. And if only the last LF is missing, then nothing that was said is.
    let is_last = bytes.len() == end + head.length;
    let unwritten = body.len() - without_zeros(body).len();
    let all_said = unwritten == 1 && check_sum(&[without_zeros(body), b"\n"].concat()) == head.body;
    if is_last && unwritten > 0 && !all_said {
        return Next::Torn;
    }
    Next::Damaged
}

/// Is this the first part of a record's first line, and after it nothing or zeros, no more than the record has?
fn is_cut(bytes: &[u8], number: u64) -> bool {
    let written = without_zeros(bytes);
    let begins = format!("\n@ {number} ");
    let part = begins.len().min(written.len());
    written[..part] == begins.as_bytes()[..part]
        && written[part..].len() < LINE_ROOM
        && written[part..].iter().all(|&byte| b" 0123456789abcdef-T:.Z".contains(&byte))
        && whole_length(&written[part..], begins.len()).is_none_or(|length| bytes.len() <= length)
}

/// The bytes of a whole record, where its first line was written as far as its length: the line's time and two sums
/// have a width of their own.
fn whole_length(rest: &[u8], begins: usize) -> Option<usize> {
    let digits = rest.iter().position(|&byte| byte == b' ')?;
    let length: usize = std::str::from_utf8(&rest[..digits]).ok()?.parse().ok()?;
    let line = begins + digits + " 2026-11-17T02:41:07.123Z".len() + 2 * " 0123456789abcdef".len() + 1;
    Some(line + length)
}

fn read_head(line: &[u8], chain: u64) -> Option<Head> {
    let line = std::str::from_utf8(line).ok()?.strip_prefix("\n@ ")?.strip_suffix('\n')?;
    let (said, sum) = line.rsplit_once(' ')?;
    if format!("{:016x}", continued(chain, said.as_bytes())) != sum {
        return None;
    }
    let parts: Vec<&str> = said.split(' ').collect();
    let [number, length, time, body] = parts[..] else { return None };
    let (number, length, time) = (number.parse().ok()?, length.parse().ok()?, Time::read(time)?);
    let (body, sum) = (u64::from_str_radix(body, 16).ok()?, u64::from_str_radix(sum, 16).ok()?);
    Some(Head { number, length, time: Some(time), body, sum })
}

/// The next call, which has this number.
pub fn read_call<'b>(number: usize, lines: &mut Peekable<impl Iterator<Item = &'b [u8]>>) -> Option<Answered> {
    let mut call = Call { text: first_line(number, lines.next()?)?.to_vec(), open: false };
    let mut answer = Vec::new();
    while let Some(line) = lines.next_if(|line| line[0] != b'<') {
        match line[0] {
            b'+' => call.text.extend(&line[1..]),
            b'-' => call.open = true,
            b'>' => answer.extend(&line[1..]),
            _ => return None,
        }
    }
    Some(Answered { call, answer: Answer::Whole(answer), time: None })
}
