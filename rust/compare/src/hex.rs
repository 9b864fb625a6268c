//! Bytes as hexadecimal text.

/// Two digits for each byte, one space between.
pub fn write(bytes: &[u8]) -> String {
    let words: Vec<String> = bytes.iter().map(|byte| format!("{byte:02X}")).collect();
    words.join(" ")
}

/// The bytes of a text of two-digit words; `#` starts a comment to the end of the line.
pub fn read(text: &str) -> Result<Vec<u8>, String> {
    text.lines()
        .map(|line| line.split('#').next().unwrap_or(""))
        .flat_map(str::split_whitespace)
        .map(|word| match (word.len(), u8::from_str_radix(word, 16)) {
            (2, Ok(byte)) => Ok(byte),
            _ => Err(format!("no byte: {word:?}")),
        })
        .collect()
}

#[cfg(test)]
mod tests {
    #[test]
    fn there_and_back() {
        let bytes = super::read("10 04 # a comment 99\n\n7f\t00").unwrap();
        assert_eq!(bytes, [0x10, 4, 0x7F, 0]);
        assert_eq!(super::write(&bytes), "10 04 7F 00");
        assert!(super::read("1").is_err());
        assert!(super::read("1g").is_err());
    }
}
