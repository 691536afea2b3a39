//! Messages and reports put together field by field, with a true 9 and 10 unless others are asked for. For the
//! hand-written walk, the generator and the tests; the market itself does not use it.

use crate::message::{split_fields, sum, three_digits, SOH};

/// The time that composed messages bear if none is asked for.
pub const TIME: &str = "20261116-09:00:00";

/// A message being put together. `fields` are those between 9 and 10. 9 and 10 are filled in when they are `None`.
#[derive(Clone, Debug, PartialEq, Eq)]
pub struct Draft {
    pub begin: Vec<u8>,
    pub length: Option<Vec<u8>>,
    pub fields: Vec<(Vec<u8>, Vec<u8>)>,
    pub check_sum: Option<Vec<u8>>,
}

impl Draft {
    /// A message with these fields between 9 and 10.
    pub fn of(fields: &[(&str, &str)]) -> Draft {
        let own = |&(tag, value): &(&str, &str)| (tag.as_bytes().to_vec(), value.as_bytes().to_vec());
        Draft { begin: b"FIX.4.2".to_vec(), length: None, fields: fields.iter().map(own).collect(), check_sum: None }
    }

    /// A message with the fields of a text between 9 and 10, `|` for SOH.
    pub fn of_text(text: &str) -> Draft {
        let fields = text.split_terminator('|').map(|field| field.split_once('=').expect("a field has a tag"));
        Draft::of(&fields.collect::<Vec<_>>())
    }

    /// The fields of bytes that are framed as a message is; `None` if they can't be cut into fields.
    pub fn from_bytes(bytes: &[u8]) -> Option<Draft> {
        let fields = split_fields(bytes)?;
        let [begin, _, inner @ .., _] = fields.as_slice() else {
            return None;
        };
        let own = inner.iter().map(|field| (field.tag.to_string().into_bytes(), field.value.to_vec()));
        Some(Draft { begin: begin.value.to_vec(), length: None, fields: own.collect(), check_sum: None })
    }

    /// Where a tag stands first.
    pub fn position(&self, tag: &str) -> Option<usize> {
        self.fields.iter().position(|field| field.0 == tag.as_bytes())
    }

    /// Gives a tag another value; a tag that is not there is added at the end.
    pub fn with(mut self, tag: &str, value: &str) -> Draft {
        match self.position(tag) {
            Some(at) => self.fields[at].1 = value.as_bytes().to_vec(),
            None => self.fields.push((tag.as_bytes().to_vec(), value.as_bytes().to_vec())),
        }
        self
    }

    /// Adds a field at the end, whether or not its tag is there.
    pub fn adding(mut self, tag: &str, value: &str) -> Draft {
        self.fields.push((tag.as_bytes().to_vec(), value.as_bytes().to_vec()));
        self
    }

    /// Puts a field in front of another.
    pub fn inserting(mut self, before: &str, tag: &str, value: &str) -> Draft {
        let at = self.position(before).expect("the other field is there");
        self.fields.insert(at, (tag.as_bytes().to_vec(), value.as_bytes().to_vec()));
        self
    }

    /// Leaves a tag out.
    pub fn without(mut self, tag: &str) -> Draft {
        self.fields.retain(|field| field.0 != tag.as_bytes());
        self
    }

    /// Lets two fields change places.
    pub fn swapping(mut self, one: &str, other: &str) -> Draft {
        let places = self.position(one).zip(self.position(other));
        let (one, other) = places.expect("both fields are there");
        self.fields.swap(one, other);
        self
    }

    pub fn beginning(mut self, value: &str) -> Draft {
        self.begin = value.as_bytes().to_vec();
        self
    }

    pub fn with_length(mut self, value: &str) -> Draft {
        self.length = Some(value.as_bytes().to_vec());
        self
    }

    pub fn with_check_sum(mut self, value: &str) -> Draft {
        self.check_sum = Some(value.as_bytes().to_vec());
        self
    }

    /// The number of bytes that 9 has to say.
    pub fn body_length(&self) -> usize {
        self.counted().len()
    }

    /// The bytes, 9 and 10 filled in.
    pub fn bytes(&self) -> Vec<u8> {
        self.framing(&self.counted())
    }

    /// The bytes with `counted` between 9 and 10 instead of the fields.
    pub fn framing(&self, counted: &[u8]) -> Vec<u8> {
        let mut bytes = Vec::new();
        push(&mut bytes, b"8", &self.begin);
        push(&mut bytes, b"9", self.length.as_ref().unwrap_or(&counted.len().to_string().into_bytes()));
        bytes.extend(counted);
        let check_sum = three_digits(sum(&bytes)).to_vec();
        push(&mut bytes, b"10", self.check_sum.as_ref().unwrap_or(&check_sum));
        bytes
    }

    /// The bytes that 9 counts.
    pub fn counted(&self) -> Vec<u8> {
        let mut counted = Vec::new();
        for (tag, value) in &self.fields {
            push(&mut counted, tag, value);
        }
        counted
    }
}

fn push(bytes: &mut Vec<u8>, tag: &[u8], value: &[u8]) {
    bytes.extend(tag);
    bytes.push(b'=');
    bytes.extend(value);
    bytes.push(SOH);
}

/// `bytes` with the CheckSum in their last field made true; they must end in `10=xxx` and SOH.
pub fn summed_again(bytes: &[u8]) -> Vec<u8> {
    let before_10 = bytes.len() - "10=xxx|".len();
    let mut again = bytes[..before_10].to_vec();
    push(&mut again, b"10", &three_digits(sum(&bytes[..before_10])));
    again
}

/// Header fields from 35 to 56 for venue V and port P.
fn header(msg_type: &'static str) -> [(&'static str, &'static str); 5] {
    [("35", msg_type), ("34", "1"), ("49", "P"), ("52", TIME), ("56", "V")]
}

/// A D for venue V, port P and code 350: a Day buy of 100 at 0.100 without account and MPID.
pub fn new_order(cl_ord_id: &str) -> Draft {
    let body = [
        ("11", cl_ord_id),
        ("21", "1"),
        ("38", "100"),
        ("40", "2"),
        ("44", "0.100"),
        ("47", "A"),
        ("54", "1"),
        ("55", "350"),
        ("59", "0"),
        ("60", TIME),
        ("8060", "1"),
    ];
    Draft::of(&[&header("D")[..], &body].concat())
}

/// A D of one side, quantity and yield.
pub fn order(cl_ord_id: &str, side: &str, quantity: &str, at: &str) -> Draft {
    new_order(cl_ord_id).with("54", side).with("38", quantity).with("44", at)
}

/// A D of one side, quantity and yield that carries an MPID.
pub fn order_of(mpid: &str, cl_ord_id: &str, side: &str, quantity: &str, at: &str) -> Draft {
    order(cl_ord_id, side, quantity, at).inserting("8060", "109", mpid)
}

/// An F for venue V, port P and code 350.
pub fn cancel(orig_cl_ord_id: &str, cl_ord_id: &str, side: &str) -> Draft {
    let body = [("11", cl_ord_id), ("41", orig_cl_ord_id), ("54", side), ("55", "350"), ("60", TIME)];
    Draft::of(&[&header("F")[..], &body].concat())
}

/// A G for venue V, port P and code 350.
pub fn replace(orig_cl_ord_id: &str, cl_ord_id: &str, side: &str, quantity: &str, at: &str) -> Draft {
    let body = [
        ("11", cl_ord_id),
        ("21", "1"),
        ("38", quantity),
        ("40", "2"),
        ("41", orig_cl_ord_id),
        ("44", at),
        ("54", side),
        ("55", "350"),
        ("60", TIME),
    ];
    Draft::of(&[&header("G")[..], &body].concat())
}

/// The symbol of composed messages for an equities market.
pub const SYMBOL: &str = "7203";

/// A D for venue V, port P and symbol 7203: a Day buy of 100 at 100.0 for cash, without account and MPID.
pub fn new_share_order(cl_ord_id: &str) -> Draft {
    new_order(cl_ord_id).with("44", "100").with("55", SYMBOL).inserting("8060", "544", "1")
}

/// The same of one side, quantity and price.
pub fn share_order(cl_ord_id: &str, side: &str, quantity: &str, at: &str) -> Draft {
    new_share_order(cl_ord_id).with("54", side).with("38", quantity).with("44", at)
}

/// The same with an MPID.
pub fn share_order_of(mpid: &str, cl_ord_id: &str, side: &str, quantity: &str, at: &str) -> Draft {
    share_order(cl_ord_id, side, quantity, at).inserting("544", "109", mpid)
}

/// An F for venue V, port P and symbol 7203.
pub fn share_cancel(orig_cl_ord_id: &str, cl_ord_id: &str, side: &str) -> Draft {
    cancel(orig_cl_ord_id, cl_ord_id, side).with("55", SYMBOL)
}

/// A G for venue V, port P and symbol 7203.
pub fn share_replace(orig_cl_ord_id: &str, cl_ord_id: &str, side: &str, quantity: &str, at: &str) -> Draft {
    replace(orig_cl_ord_id, cl_ord_id, side, quantity, at).with("55", SYMBOL)
}
