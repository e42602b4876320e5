//! A log: orders one behind another, each behind its length in two bytes.

pub struct Log<'a> {
    /// The bytes of each order, by its place. They may be malformed.
    pub orders: Vec<&'a [u8]>,
    /// What stands behind the last whole order, with its length if it has one.
    pub tail: &'a [u8],
}

pub fn split(bytes: &[u8]) -> Log<'_> {
    let mut orders = Vec::new();
    let mut rest = bytes;
    while let Some((order, behind)) = first(rest) {
        orders.push(order);
        rest = behind;
    }
    Log { orders, tail: rest }
}

/// The first order of these bytes and what stands behind it, if there is a
/// whole one.
fn first(bytes: &[u8]) -> Option<(&[u8], &[u8])> {
    if bytes.len() < 2 {
        return None;
    }
    let length = usize::from(bytes[0]) * 256 + usize::from(bytes[1]);
    let rest = &bytes[2..];
    if rest.len() < length {
        return None;
    }
    Some(rest.split_at(length))
}

/// Puts an order at the end of a log.
pub fn push(log: &mut Vec<u8>, order: &[u8]) {
    let length = u16::try_from(order.len()).expect("the length fits two bytes");
    log.extend(length.to_be_bytes());
    log.extend(order);
}

#[cfg(test)]
mod tests {
    use super::*;

    #[test]
    fn splits() {
        let bytes = [0, 1, 9, 0, 0, 0, 2, 7, 8, 1];
        let log = split(&bytes);
        assert_eq!(log.orders, [&[9][..], &[], &[7, 8]]);
        assert_eq!(log.tail, [1]);
    }

    #[test]
    fn an_order_with_a_byte_too_few_is_tail() {
        let log = split(&[0, 3, 7, 8]);
        assert!(log.orders.is_empty());
        assert_eq!(log.tail, [0, 3, 7, 8]);
    }

    #[test]
    fn lengths_have_two_bytes() {
        let mut bytes = Vec::new();
        push(&mut bytes, &[5; 258]);
        assert_eq!(bytes[..3], [1, 2, 5]);
        let log = split(&bytes);
        assert_eq!(log.orders, [&[5; 258][..]]);
        assert!(log.tail.is_empty());
    }

    #[test]
    fn nothing_is_no_order_and_no_tail() {
        let log = split(&[]);
        assert!(log.orders.is_empty());
        assert!(log.tail.is_empty());
    }
}
