//! Every export of the proved library beside the second program, and where
//! CAPCODE texts go wrong beside the form alone.

mod addresses;
mod capcodes;
mod frames;
mod places;
mod words;

/// Each kind has a seed of its own, so that one kind's count does not move
/// another's inputs.
pub fn compare(exchange: &[String], seed: u64) -> Result<String, String> {
    let addresses = addresses::compare(exchange, seed)?;
    let words = words::compare_words(exchange, seed.wrapping_add(1))?;
    let pairs = words::compare_pairs(exchange, seed.wrapping_add(2))?;
    let texts = capcodes::compare_texts(exchange, seed.wrapping_add(3))?;
    let (values, prints) = capcodes::compare_values(exchange, seed.wrapping_add(4))?;
    let listeners = frames::compare_listeners(exchange, seed.wrapping_add(5))?;
    let waits = frames::compare_waits(exchange)?;
    let places = places::compare(exchange, seed.wrapping_add(6))?;
    Ok(format!(
        "exports: {addresses} addresses, {words} words, {pairs} pairs, {texts} texts, \
         {values} values, {prints} prints, {listeners} listener sets, {waits} waits, \
         and of {places} texts where they go wrong by the form alone \
         (seed {seed}) compared, all agree"
    ))
}
