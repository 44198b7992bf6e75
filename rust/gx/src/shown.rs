//! Names of files and words as they are safe to show: no line can be forged, and no text turned around.

/// Whether a character turns the text after it around, or shuts such a part off.
pub fn turns(sign: char) -> bool {
    matches!(sign, '\u{202a}'..='\u{202e}' | '\u{2066}'..='\u{2069}')
}

/// A file's name as git shows it: one with a character that does something stands in quotes, and that character as its bytes.
pub fn file_name(name: &str) -> String {
    let harmless = |sign: char| !(sign.is_control() || turns(sign) || "\"\\".contains(sign));
    if name.chars().all(harmless) {
        return name.into();
    }
    let mut out = String::from("\"");
    for sign in name.chars() {
        match sign {
            '\n' => out.push_str("\\n"),
            '\t' => out.push_str("\\t"),
            '\r' => out.push_str("\\r"),
            '"' | '\\' => {
                out.push('\\');
                out.push(sign);
            }
            sign if harmless(sign) => out.push(sign),
            sign => {
                let mut bytes = [0; 4];
                for byte in sign.encode_utf8(&mut bytes).bytes() {
                    out.push_str(&format!("\\{byte:03o}"));
                }
            }
        }
    }
    out.push('"');
    out
}

/// A line of a text that is quoted in a message: a character that does something is shown as one that does nothing.
pub fn line(text: &str) -> String {
    let harmless = |sign: char| match sign {
        '\t' => ' ',
        sign if sign.is_control() || turns(sign) => '\u{fffd}',
        sign => sign,
    };
    text.chars().map(harmless).collect()
}
