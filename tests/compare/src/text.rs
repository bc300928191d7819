//! Texts: separators, tokens, comments, lines.

/// "tokens, separated by space, tab, CR, LF".
pub fn is_separator(byte: u8) -> bool {
    matches!(byte, b' ' | b'\t' | b'\r' | b'\n')
}

/// The place of the first byte at or after `place` that is no separator, or the end.
pub fn skip_separators(text: &[u8], place: usize) -> usize {
    let rest = &text[place..];
    place + rest.iter().position(|&byte| !is_separator(byte)).unwrap_or(rest.len())
}

/// The place of the first separator at or after `place`, or the end.
pub fn skip_token(text: &[u8], place: usize) -> usize {
    let rest = &text[place..];
    place + rest.iter().position(|&byte| is_separator(byte)).unwrap_or(rest.len())
}

/// "Lines at the start whose first byte is `%` are comments, of any bytes, through their LF or the end."
pub fn skip_comments(text: &[u8]) -> usize {
    let mut place = 0;
    while text.get(place) == Some(&b'%') {
        let rest = &text[place..];
        place += rest.iter().position(|&byte| byte == b'\n').map_or(rest.len(), |feed| feed + 1);
    }
    place
}

/// "1 plus the LF bytes before the token's first byte, or before the end".
pub fn line_at(text: &[u8], place: usize) -> u32 {
    1 + text[..place].iter().filter(|&&byte| byte == b'\n').count() as u32
}

/// **Show a token**: the token that begins at a place, or the empty part at the text's end. It goes by neighbours only.
pub fn show_token(text: &[u8], place: usize) -> &[u8] {
    let begins = place < text.len() && !is_separator(text[place]) && (place == 0 || is_separator(text[place - 1]));
    if begins {
        &text[place..skip_token(text, place)]
    } else {
        &text[text.len()..]
    }
}

#[cfg(test)]
mod tests {
    use super::*;

    #[test]
    fn a_token_is_shown_where_it_begins() {
        let text = b"% a\n\tbc\r d\x0ce";
        assert_eq!(show_token(text, 0), b"%");
        assert_eq!(show_token(text, 1), b"");
        assert_eq!(show_token(text, 2), b"a");
        assert_eq!(show_token(text, 5), b"bc");
        assert_eq!(show_token(text, 6), b"");
        assert_eq!(show_token(text, 9), b"d\x0ce");
        assert_eq!(show_token(text, 11), b"");
        assert_eq!(show_token(text, 12), b"");
        assert_eq!(show_token(text, usize::MAX), b"");
        assert_eq!(show_token(text, 3).as_ptr_range().start, text.as_ptr_range().end);
        assert_eq!(show_token(b"", 0), b"");
    }

    #[test]
    fn comments_stand_at_the_start_and_end_at_lf_only() {
        assert_eq!(skip_comments(b"%a\n%b\rc\nVER"), 8);
        assert_eq!(skip_comments(b"\n%b"), 0);
        assert_eq!(skip_comments(b" %b\n"), 0);
        assert_eq!(skip_comments(b"%b"), 2);
    }
}
