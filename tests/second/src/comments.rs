//! Files with comments in their headers, and what reading answers for them,
//! worked out by hand.

/// Accepted files with their width, height, largest sample and offset.
pub const ACCEPTED: [(&[u8], [usize; 4]); 16] = [
    // A comment in each gap, the number directly behind it.
    (b"P5\n#\n2 1\n9\n\x00\x09", [2, 1, 9, 11]),
    (b"P5\n2 #\r1\n9\n\x00\x09", [2, 1, 9, 11]),
    (b"P5\n2 1\n#\n9\n\x00\x09", [2, 1, 9, 11]),
    (b"P5 #\n2\t#\r1\r#\n9 \x00\x09", [2, 1, 9, 15]),
    // Several comments, and white space between and behind them.
    (b"P5\n##\n#\r#1 1\n2 1\n9\n\x00\x09", [2, 1, 9, 19]),
    (b"P5\n2 \t#a\n \t\r\n#b\r\n 1\n9\n\x00\x09", [2, 1, 9, 22]),
    (b"P5\n2 1\r\n#\r\n#\n\r\n9\r\x00\x09", [2, 1, 9, 17]),
    // Bytes of a header in a comment.
    (b"P5\r#P5 3 2 255 \r2 1\n9\n\x00\x09", [2, 1, 9, 22]),
    (b"P5\n2 #7\t9 #8\n1\n9\n\x00\x09", [2, 1, 9, 17]),
    // Other bytes that do not end a comment.
    (
        b"P5\n#\x00\x08\x0b\x0c\x0e\x1f\t \n2 1\n9\n\x00\x09",
        [2, 1, 9, 19],
    ),
    (
        b"P5\n2 1\n#\x7f\x80\x85\x8a\x8d\xa0\xa3\xff\r9\n\x00\x09",
        [2, 1, 9, 19],
    ),
    // Five digits behind each comment.
    (b"P5\n#\n00002 #\n00001\n#\n00009\n\x00\x09", [2, 1, 9, 27]),
    // A #, and what would end a comment, among the pixels.
    (b"P5\n#\n1 1\n255\n#", [1, 1, 255, 13]),
    (b"P5\n2 1\n#\n255\n#\n", [2, 1, 255, 13]),
    (b"P5 #\r\n1 #\r\n1 #\r\n255\r\n", [1, 1, 255, 20]),
    (b"P5\n# made\n2 2\n200\n\xc8##\n", [2, 2, 200, 18]),
];

/// Refused files with the number, and its offset for 2, its place for 6.
pub const REFUSED: [(&[u8], u32, Option<usize>); 43] = [
    // No white space before the comment.
    (b"P5#\n2 1\n9\n\x00\x09", 2, Some(2)),
    (b"P5#\n\n2 1\n9\n\x00\x09", 2, Some(2)),
    (b"P5\n2#\n1\n9\n\x00\x09", 2, Some(4)),
    (b"P5\n2# \n 1\n9\n\x00\x09", 2, Some(4)),
    (b"P5\n2 1#\r9\n\x00\x09", 2, Some(6)),
    // Bytes 11 and 12 are no white space before it.
    (b"P5\x0c#\n2 1\n9\n\x00\x09", 2, Some(2)),
    (b"P5\n2\x0b#\n1\n9\n\x00\x09", 2, Some(4)),
    // Inside a number.
    (b"P5\n0#\n2 1\n9\n\x00\x09", 2, Some(4)),
    (b"P5\n2 0#\n1\n9\n\x00\x09", 2, Some(6)),
    (b"P5\n2 1\n0#\r9\n\x00\x09", 2, Some(8)),
    // Right behind the largest sample.
    (b"P5\n2 1\n9#\n\x00\x09", 2, Some(8)),
    (b"P5\n2 1\n9#\n\n\x00\x09", 2, Some(8)),
    (b"P5\n2 1\n9#", 2, Some(8)),
    (b"P5\n0 #\n41\n0#", 2, Some(11)),
    // Without an end.
    (b"P5\n#2 1 9 \x00\x09", 2, Some(12)),
    (b"P5\n2 #1 9 \x00\x09", 2, Some(12)),
    (b"P5\n2 1\n#9 \x00\x09", 2, Some(12)),
    (b"P5\n#", 2, Some(4)),
    (b"P5\n#\n#\x0b\x0c\t \x8a\x8d", 2, Some(12)),
    // The comment goes on to the next line; then a pixel is unfit.
    (b"P5\n#\t2 1\n9\n\x00\x09", 2, Some(11)),
    (b"P5\n#\x0b2 1\n9\n\x00\x09", 2, Some(11)),
    (b"P5\n#\x0c2 1\n9\n\x00\x09", 2, Some(11)),
    (b"P5\n# 2 1\n9\n\x00\x09", 2, Some(11)),
    (b"P5\n#\x002 1\n9\n\x00\x09", 2, Some(11)),
    (b"P5\n#\x8a2 1\n9\n\x00\x09", 2, Some(11)),
    (b"P5\n2 #\x0c1\n9\n\x00\x09", 2, Some(11)),
    (b"P5\n2 1\n# 9\n\x00\x09", 2, Some(11)),
    // No number behind the comment.
    (b"P5\n#\n", 2, Some(5)),
    (b"P5\n#\nx", 2, Some(5)),
    (b"P5\n#\n\x0b2 1\n9\n\x00\x09", 2, Some(5)),
    (b"P5\n2 #\n-1\n9\n\x00\x09", 2, Some(7)),
    (b"P5\n#\n000002 1\n9\n\x00\x09", 2, Some(10)),
    // Byte 163 is no #.
    (b"P5\n\xa3\n2 1\n9\n\x00\x09", 2, Some(3)),
    // The letters come before every comment.
    (b"#\nP5\n2 1\n9\n\x00\x09", 1, None),
    (b"P#\n5\n2 1\n9\n\x00\x09", 1, None),
    // The other refusals, in their order.
    (b"P5\n#\n0 1\n#\n0\n", 3, None),
    (b"P5\n1 #\n41\n9\n", 3, None),
    (b"P5\n#1\n2 1\n#\n256\n\x00\x09", 4, None),
    (b"P5\n2 1\n9\n#\n\x00\x09", 5, None),
    (b"P5\n#\n2 1\n9\n\x00", 5, None),
    (b"P5\n#\n2 1\n9\n\x00\x09#", 5, None),
    (b"P5\n2 1\n#\n9\n\x09#", 6, Some(1)),
    (b"P5\n2 1\n#\n9\n#\n", 6, Some(0)),
];

/// The accepted and the refused files.
pub fn files() -> Vec<Vec<u8>> {
    let accepted = ACCEPTED.iter().map(|(file, _)| file.to_vec());
    let refused = REFUSED.iter().map(|(file, _, _)| file.to_vec());
    accepted.chain(refused).collect()
}
