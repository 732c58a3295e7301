//! Making an input that shows a difference small.

/// Leaves out pieces, first many at once and then fewer, as long as the rest still shows the difference.
pub fn pieces(pieces: Vec<Vec<u8>>, shows: &mut dyn FnMut(&[u8]) -> bool) -> Vec<Vec<u8>> {
    let mut kept = pieces;
    let mut size = kept.len() / 2;
    while size > 0 {
        let mut at = 0;
        while at < kept.len() {
            let end = (at + size).min(kept.len());
            let without: Vec<Vec<u8>> = [&kept[..at], &kept[end..]].concat();
            if shows(&without.concat()) {
                kept = without;
            } else {
                at = end;
            }
        }
        size /= 2;
    }
    kept
}

/// The same for lines and then for bytes.
pub fn text(text: &[u8], shows: &mut dyn FnMut(&[u8]) -> bool) -> Vec<u8> {
    let lines = text.split_inclusive(|&byte| byte == b'\n').map(<[u8]>::to_vec).collect();
    let lines = pieces(lines, shows).concat();
    if lines.len() > 2000 {
        return lines;
    }
    let bytes = lines.iter().map(|&byte| vec![byte]).collect();
    pieces(bytes, shows).concat()
}
