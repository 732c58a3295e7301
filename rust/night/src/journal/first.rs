//! The format before: `@ number length sum` before a record, no times, and of an answer of several lines its length and
//! check sum alone. A night that was begun in it goes on in it.

use super::{first_line, without_zeros, write_call, Answer, Answered, Head, Next, LINE_ROOM};
use crate::calls::Call;
use crate::sum::{check_sum, continued};

pub const HEADER: &[u8] = b"luffgravel night journal 1\n";

fn record_sum(place: &str, body: &[u8]) -> u64 {
    check_sum(&[place.as_bytes(), b"\n", body].concat())
}

/// The sum of a record and of all before it. The records themselves do not have it.
pub fn chain(before: u64, sum: u64) -> u64 {
    continued(before, &sum.to_le_bytes())
}

/// The record of this number behind others with this sum, with calls of which the first has the other number; and the
/// sum of all of them.
pub fn write_next(before: u64, number: u64, first: usize, calls: &[Answered]) -> (Vec<u8>, u64) {
    let (record, sum) = write_record(number, &write_calls(first, calls));
    (record, chain(before, sum))
}

pub fn write_record(number: u64, body: &[u8]) -> (Vec<u8>, u64) {
    let place = format!("{number} {}", body.len());
    let sum = record_sum(&place, body);
    ([format!("\n@ {place} {sum:016x}\n").as_bytes(), body].concat(), sum)
}

/// The body of a record of calls, the first of which has this number.
fn write_calls(first: usize, calls: &[Answered]) -> Vec<u8> {
    let mut body = Vec::new();
    for (number, answered) in (first..).zip(calls) {
        write_call(number, &answered.call, &mut body);
        if let Some(line) = answered.answer.line() {
            body.push(b'>');
            body.extend(line);
        }
        let text = answered.answer.text().unwrap_or_default();
        body.extend(format!("={} {:016x}\n", text.len(), check_sum(text)).bytes());
    }
    body
}

/// What these bytes begin with, where the record of this number is due.
pub fn next(bytes: &[u8], number: u64) -> Next<'_> {
    let end = bytes.iter().take(LINE_ROOM).skip(1).position(|&byte| byte == b'\n').map(|at| at + 2);
    let written = without_zeros(bytes);
    let Some(end) = end else {
        return if b"\n@ ".starts_with(&written[..written.len().min(3)]) && written.len() < LINE_ROOM {
            Next::Torn
        } else {
            Next::Damaged
        };
    };
    let Some((head, place)) = read_head(&bytes[..end]).filter(|(head, _)| head.number == number) else {
        return Next::Damaged;
    };
    let Some(body) = bytes[end..].get(..head.length) else {
        // The first line has no sum of its own: if the length alone is wrong in it, the rest is whole.
        let is_whole = record_sum(&format!("{number} {}", bytes.len() - end), &bytes[end..]) == head.sum;
        return if is_whole { Next::Damaged } else { Next::Torn };
    };
    if record_sum(place, body) == head.sum {
        return Next::Record(head, body, end + head.length);
    }
    let unwritten = body.len() - without_zeros(body).len();
    let all_said = unwritten == 1 && record_sum(place, &[without_zeros(body), b"\n"].concat()) == head.sum;
    if bytes.len() == end + head.length && unwritten > 0 && !all_said {
        return Next::Torn;
    }
    Next::Damaged
}

/// The first line of a record, and what is in its sum of it.
fn read_head(line: &[u8]) -> Option<(Head, &str)> {
    let line = std::str::from_utf8(line).ok()?.strip_prefix("\n@ ")?.strip_suffix('\n')?;
    let (place, sum) = line.rsplit_once(' ')?;
    let (number, length) = place.split_once(' ')?;
    let (number, length) = (number.parse().ok()?, length.parse().ok()?);
    let head = Head { number, length, time: None, body: 0, sum: u64::from_str_radix(sum, 16).ok()? };
    (line == format!("{number} {length} {:016x}", head.sum)).then_some((head, place))
}

/// The next call, which has this number.
pub fn read_call<'b>(number: usize, mut next_line: impl FnMut() -> Option<&'b [u8]>) -> Option<Answered> {
    let mut call = Call { text: first_line(number, next_line()?)?.to_vec(), open: false };
    let mut answer = None;
    loop {
        let (sort, line) = next_line()?.split_first()?;
        match sort {
            b'+' => call.text.extend(line),
            b'-' => call.open = true,
            b'>' => answer = Some(Answer::Whole(line.to_vec())),
            b'=' => {
                let (length, sum) = std::str::from_utf8(line).ok()?.trim_end().split_once(' ')?;
                let summed = Answer::Summed(length.parse().ok()?, u64::from_str_radix(sum, 16).ok()?);
                return Some(Answered { call, answer: answer.unwrap_or(summed), time: None });
            }
            _ => return None,
        }
    }
}
