// What holds of an accepted carry by document 01's definition of meaning, without a look at how the result was made.

use crate::model::{carried, meanings, read_sheet, Input, Refusal};

fn refused(what: &str) -> impl Fn(Refusal) -> String + '_ {
    move |r| format!("{what} is refused: {r:?}")
}

/// A result decodes under the second sheet to as many instructions, and each means there what it meant.
pub fn same_meaning(input: &Input, result: &[u8]) -> Result<(), String> {
    let first = read_sheet(&input.first.sheet).map_err(refused("the first sheet of an accepted carry"))?;
    let second = read_sheet(&input.second.sheet).map_err(refused("the second sheet of an accepted carry"))?;
    let before = meanings(&first, &input.first, &input.body).map_err(refused("the body of an accepted carry"))?;
    let after = meanings(&second, &input.second, result).map_err(refused("the result under the second sheet"))?;
    if before.len() != after.len() {
        return Err(format!("{} instructions become {}", before.len(), after.len()));
    }
    match before.iter().zip(&after).position(|(b, a)| b != a) {
        Some(at) => Err(format!("instruction {at} meant {:?} and means {:?}", before[at], after[at])),
        None => Ok(()),
    }
}

/// A result can be carried back: each value came from there, each text has its first id at or below the old one, and with the
/// old lengths each distance is the old one.
pub fn way_back(input: &Input, result: &[u8]) -> Result<(), String> {
    let back = Input { first: input.second.clone(), second: input.first.clone(), body: result.to_vec() };
    let again = carried(&back).map_err(refused("the way back"))?;
    if again.bytes.len() != input.body.len() {
        return Err(format!("{} bytes come back as {}", input.body.len(), again.bytes.len()));
    }
    same_meaning(&back, &again.bytes)
}
