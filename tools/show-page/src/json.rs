//! The little JSON that the page's data needs.

/// A string in quotes. Nothing in it ends a script element.
pub fn string(text: &str) -> String {
    let mut out = String::from("\"");
    for sign in text.chars() {
        match sign {
            '"' | '\\' => out.extend(['\\', sign]),
            '<' | '\0'..='\u{1f}' => out.push_str(&format!("\\u{:04x}", u32::from(sign))),
            _ => out.push(sign),
        }
    }
    out.push('"');
    out
}

/// A list of values that are JSON already.
pub fn list(values: impl IntoIterator<Item = String>) -> String {
    let values: Vec<String> = values.into_iter().collect();
    format!("[{}]", values.join(","))
}

#[cfg(test)]
mod tests {
    use super::*;

    #[test]
    fn strings_are_escaped() {
        assert_eq!(string("(a \"b\" \\)"), r#""(a \"b\" \\)""#);
        assert_eq!(string("</script>\n"), r#""\u003c/script>\u000a""#);
        assert_eq!(list([string("é"), "2".to_string()]), r#"["é",2]"#);
    }
}
