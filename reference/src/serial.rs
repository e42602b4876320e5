//! What the program `serial` answers to a log: all its orders done one by one.

use crate::answer::Answer;
use crate::execute::{Values, execute};
use crate::log;
use crate::order::decode;

pub fn answer(log: &[u8]) -> Answer {
    let log = log::split(log);
    let mut values = Values::new();
    let mut done = 0;
    let mut malformed = Vec::new();
    for (place, bytes) in log.orders.iter().enumerate() {
        match decode(bytes) {
            Ok(order) => {
                execute(&order, &mut values);
                done += 1;
            }
            Err(_) => malformed.push(place),
        }
    }
    Answer {
        stdout: values_text(&values),
        stderr: report_text(&malformed, log.tail.len(), done),
        status: 0,
    }
}

fn values_text(values: &Values) -> String {
    let mut text = String::new();
    for (key, value) in values.not_zero() {
        text += &format!("{key} {value}\n");
    }
    text
}

fn report_text(malformed: &[usize], tail: usize, done: usize) -> String {
    let mut text = String::new();
    for place in malformed {
        text += &format!("place {place}: refused 1, malformed order\n");
    }
    if tail > 0 {
        text += &format!("tail: {tail} bytes are no whole order, passed over\n");
    }
    text += &format!("{done} orders done, {} malformed\n", malformed.len());
    text
}

#[cfg(test)]
mod tests {
    use super::*;

    #[test]
    fn an_empty_log() {
        let answer = answer(&[]);
        assert_eq!(answer.stdout, "");
        assert_eq!(answer.stderr, "0 orders done, 0 malformed\n");
        assert_eq!(answer.status, 0);
    }

    #[test]
    fn a_small_log() {
        let mut log = Vec::new();
        // Place 0: key 2 becomes 7, key 300 becomes 5.
        log.extend([0, 25]);
        log.extend([0]);
        log.extend([2, 0, 2, 1, 44]);
        log.extend([4]);
        log.extend([5, 0, 0, 0, 0, 5]);
        log.extend([5, 1, 0, 0, 0, 7]);
        log.extend([7, 1, 0]);
        log.extend([7, 0, 1]);
        // Place 1: malformed, since it has no bytes.
        log.extend([0, 0]);
        // Place 2: key 2 becomes 7 + 5.
        log.extend([0, 16]);
        log.extend([2, 0, 2, 1, 44]);
        log.extend([1, 0, 2]);
        log.extend([2]);
        log.extend([1, 2, 0, 1]);
        log.extend([7, 0, 2]);
        // The tail: three bytes of an order are missing.
        log.extend([0, 4, 0]);

        let answer = answer(&log);
        assert_eq!(answer.stdout, "2 12\n300 5\n");
        assert_eq!(
            answer.stderr,
            "place 1: refused 1, malformed order\n\
             tail: 3 bytes are no whole order, passed over\n\
             2 orders done, 1 malformed\n"
        );
    }

    #[test]
    fn malformed_orders_keep_their_places() {
        let answer = answer(&[0, 0, 0, 3, 0, 0, 0, 0, 1, 0, 9]);
        assert_eq!(answer.stdout, "");
        assert_eq!(
            answer.stderr,
            "place 0: refused 1, malformed order\n\
             place 2: refused 1, malformed order\n\
             tail: 1 bytes are no whole order, passed over\n\
             1 orders done, 2 malformed\n"
        );
    }
}
