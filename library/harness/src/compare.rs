//! What makes an outcome wrong: it is not the second decoder's, or it breaks a
//! rule that every call keeps whatever the second decoder says.

use crate::call::{Call, Lent, Outcome};

/// The first difference between an outcome and the expected one, in words.
pub fn difference(call: &Call, expected: &Outcome, got: &Outcome) -> Option<String> {
    if let Some(harm) = &got.harm {
        return Some(harm.clone());
    }
    if got.numbers.len() != expected.numbers.len() {
        return Some(format!(
            "{} fields, expected {}",
            got.numbers.len(),
            expected.numbers.len()
        ));
    }
    let row = call.row();
    for (i, what) in row.fields.iter().enumerate() {
        let (number, wanted) = (got.numbers[i], expected.numbers[i]);
        if number != wanted {
            return Some(format!("{what} is {number}, expected {wanted}"));
        }
    }
    if got.lent.len() != expected.lent.len() {
        return Some(format!("{} buffers", got.lent.len()));
    }
    for (i, part) in row.lent.iter().enumerate() {
        if let Some(words) = first_changed(&expected.lent[i], &got.lent[i]) {
            return Some(format!("{}: {words}", part.what));
        }
    }
    None
}

/// The first element of a buffer that is not as it should be.
fn first_changed(wanted: &Lent, got: &Lent) -> Option<String> {
    match (wanted, got) {
        (Lent::Bytes(wanted), Lent::Bytes(got)) => first_other(wanted, got),
        (Lent::Words(wanted), Lent::Words(got)) => first_other(wanted, got),
        _ => Some("not the kind of buffer that was lent".to_string()),
    }
}

fn first_other<T: Copy + PartialEq + Into<u64>>(wanted: &[T], got: &[T]) -> Option<String> {
    if wanted == got {
        return None;
    }
    if wanted.len() != got.len() {
        let (got, wanted) = (got.len(), wanted.len());
        return Some(format!("{got} elements, expected {wanted}"));
    }
    let place = (0..got.len()).find(|&i| wanted[i] != got[i])?;
    let (got, wanted): (u64, u64) = (got[place].into(), wanted[place].into());
    Some(format!(
        "element {place} (from 0) is {got:#x}, expected {wanted:#x}"
    ))
}

/// A rule of the header that an outcome breaks, in words. The second decoder
/// has no part in this.
pub fn broken_rule(call: &Call, wanted: Option<u8>, got: &Outcome) -> Option<String> {
    let row = call.row();
    let refused = got.refused(row);
    if refused != 0 && !row.refusals.contains(&refused) {
        return Some(format!("refused with {refused}, which is not in its row"));
    }
    if let Some(wanted) = wanted.filter(|&wanted| wanted != refused) {
        return Some(format!("refused with {refused}, made for {wanted}"));
    }
    for (i, part) in row.lent.iter().enumerate() {
        if refused != 0 || !part.written {
            if let Some(words) = first_changed(&call.lent[i], &got.lent[i]) {
                return Some(format!("{} must stay as it was: {words}", part.what));
            }
        }
    }
    if refused != 0 && got.numbers != call.refused(refused) {
        let (numbers, kept) = (&got.numbers, call.refused(refused));
        return Some(format!("refused, but answers {numbers:?} and not {kept:?}"));
    }
    None
}

/// A call in words, for whoever has to make it again.
pub fn described(call: &Call) -> String {
    let row = call.row();
    let mut words = format!("hansobrik_{}", row.text);
    for (number, (what, _)) in call.numbers.iter().zip(row.numbers) {
        words += &format!("\n  {what} = {number} ({number:#x})");
    }
    for (buffer, part) in call.lent.iter().zip(row.lent) {
        words += &format!("\n  {}: {}", part.what, opening(buffer));
    }
    words
}

/// A buffer's count and first elements.
fn opening(buffer: &Lent) -> String {
    let first: Vec<String> = match buffer {
        Lent::Bytes(bytes) => bytes.iter().take(64).map(|b| format!("{b:02x}")).collect(),
        Lent::Words(words) => words.iter().take(32).map(|w| format!("{w:04x}")).collect(),
    };
    format!("{} elements, opening {}", buffer.count(), first.join(" "))
}
