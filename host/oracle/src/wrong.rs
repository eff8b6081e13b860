//! Rules that are wrong on purpose. Each one is noticed by a comparison, or the comparison is worth nothing.

macro_rules! wrongs {
    ($($no:literal $name:ident $kind:literal $says:literal;)*) => {
        $(pub const $name: u32 = $no;)*
        /// Number, the kind of comparison that must notice it, and what is wrong.
        pub const WRONGS: &[(u32, &str, &str)] = &[$(($no, $kind, $says)),*];
    };
}

wrongs! {
    1 SIGN_ANY_NON_ZERO "value" "a time is negative for any sign byte but 0";
    2 SYNC_BEFORE_LARGE "session" "3 tested before 2 at a chunk's header";
    3 TOLERANCE_ANY_NUMBER "session" "inside frames any chunk number is accepted";
    4 NO_TOLERANCE "session" "the last frame's number is not accepted for a chunk";
    5 TOLERANCE_KEEPS_NUMBER "session" "after the last frame's number was accepted the plain number goes on from its own";
    6 RESET_KEEPS_FRAME_NUMBER "session" "reset doesn't zero the frame number";
    7 RESET_FORGETS_HEADER "session" "reset forgets a remembered header";
    8 SYNC_WITH_UNREAD "session" "sync copies the number while staging holds bytes";
    9 FRAMES_ON_FORGETS_HEADER "session" "frames-on forgets a remembered chunk header";
    10 ON_AGAIN_RESTARTS "session" "frames-on a second time restarts the frame number and empties staging";
    11 HEADER_LOOKED_AT_AGAIN "session" "a remembered chunk header is read again from the bytes";
    12 LIMIT_ONE_HIGHER "session" "a chunk of limit + 1 bytes is accepted";
    13 BAD_HEADER_BEFORE_LARGE "session" "4 tested before 2 at a frame's header";
    14 BAD_HEADER_IS_SYNC "session" "0/n answers 3 and not 4";
    15 EMPTY_FRAME_NOT_COUNTED "session" "a frame with nothing in it has no number";
    16 PIECES_OF_M "session" "frames are cut at M and not at min(M, limit)";
    17 WRITE_KEEPS_PLAIN_NUMBER "session" "the plain number is not set to the frame's after a framed write";
    18 NO_EMPTY_LAST_CHUNK "small" "no empty chunk after a packet that fills its chunks";
    19 FULL_CHUNK_IS_LAST "small" "a full chunk ends its packet";
    20 LENENC_FB_IS_ZERO "lenenc" "0xFB leads the number 0";
    21 LENENC_FE_IS_FOUR "lenenc" "0xFE leads four bytes";
    22 LENENC_251_IN_ONE "put" "251 written in one byte";
    23 TIME_MICROS_FROM_12_UP "value" "a time's microseconds are read at every length from 12 up";
    24 DATE_MICROS_FROM_11_UP "value" "a date's microseconds are read at every length from 11 up";
    25 DATE_USES_KNOWN_LENGTHS "value" "a date of length 5 uses up four bytes";
    26 UNSIGNED_FROM_MAX "value" "the unsigned kind begins at 2^63 - 1";
    27 TINY_ALWAYS_SIGNED "value" "an unsigned one-byte column is read as signed";
    28 INT24_IN_THREE "value" "type 9 takes three bytes";
    29 NAN_MADE_QUIET "value" "a double's NaN loses its bits";
    30 NEGATIVE_ZERO_KEPT "put" "negative zero time is written with its sign";
    31 NO_ESCAPE_OF_1A "escape" "0x1A is left as it is";
    32 NO_ESCAPE_OF_DOUBLE "escape" "the double quote is left as it is";
    33 TEXT_FB_IS_EMPTY "text" "the text value 0xFB is an empty string";
}
