//! How a Rattle name is written in C: with `mortisevane_` before it, in C's manner.

/// `CallOpening` and `MortisevaneClass` as `call_opening` and `class`.
pub fn snake(name: &str) -> String {
    let mut written = String::new();
    let mut before = '_';
    for letter in bare(name).chars() {
        // A number goes with its word, as in set_12.
        let begins = letter.is_ascii_uppercase() || (letter.is_ascii_digit() && !before.is_ascii_digit());
        if begins && before != '_' {
            written.push('_');
        }
        written.push(letter.to_ascii_lowercase());
        before = letter;
    }
    written
}

/// A struct's name without the library's own, which only the crate `host` puts before its own.
pub fn bare(name: &str) -> &str {
    name.strip_prefix("Mortisevane").filter(|rest| !rest.is_empty()).unwrap_or(name)
}

/// A field's name. `register` is a word of C's own, `class` one of C++'s.
pub fn field(name: &str) -> &str {
    match name {
        "register" => "sum_register",
        "class" => "address_class",
        _ => name,
    }
}

/// A constant's name.
pub fn constant(prefix: &str, name: &str) -> String {
    let name = if name.chars().any(|letter| letter.is_ascii_lowercase()) { snake(name) } else { name.to_string() };
    format!("MORTISEVANE_{prefix}_{}", name.to_ascii_uppercase())
}

#[cfg(test)]
mod tests {
    use super::*;

    #[test]
    fn names_are_written_as_in_c() {
        assert_eq!(snake("CallOpening"), "call_opening");
        assert_eq!(snake("MortisevaneClass"), "class");
        assert_eq!(constant("CLASS", "Set23Country"), "MORTISEVANE_CLASS_SET_23_COUNTRY");
        assert_eq!(constant("PACKET", "SHUT_DOWN_1"), "MORTISEVANE_PACKET_SHUT_DOWN_1");
    }
}
