//! Texts at the corners of each function, one list for each.

#[rustfmt::skip]
pub const LISTS: &[&[&str]] = &[
    DIGITS, ALPHA, DOUBLES, COMMA_INTS, ORDINALS, MONEY, ILLIONS, ROMANS, DR_OR_ST, NUMBER_S, LEADING_ZERO, PHONES,
    TIMES, TIMES_WITH_MERIDIEM, DOTTED, SLASHES, DASHES, UNITS, UNITS_AFTER_NUMBERS, NOT_ASCII, PLAIN,
];

// is_digits and is_n_digits: every length up to 11, and the signs next to the digits.
#[rustfmt::skip]
const DIGITS: &[&str] = &[
    "", "0", "1", "9", "10", "007", "1234", "12345", "123456", "1234567", "12345678", "123456789", "1234567890",
    "12345678901", "0123456789", "/", ":", "1/", "1:", ":1", "/1", " 1", "1 ", "1\n", "+1", "1a", "a1", "1²", "٣", "１",
    "123456789012345678901234567890123456789012345678901234567890123",
    "1234567890123456789012345678901234567890123456789012345678901234",
    "12345678901234567890123456789012345678901234567890123456789012345",
    "123456789012345678901234567890123456789012345678901234567890123x",
];

// is_alpha: both ends of both rows of letters, and the signs next to them.
#[rustfmt::skip]
const ALPHA: &[&str] = &[
    "a", "z", "A", "Z", "@", "[", "`", "{", "abc", "ABC", "aBz", "a1", "1a", "a b", "a-b", "a.", "Rack", "bar", "it's",
    "straße", "a\0", "\0", "\u{7f}", "a\t", "a~",
    "abcdefghijklmnopqrstuvwxyzABCDEFGHIJKLMNOPQRSTUVWXYZabcdefghijkl",
    "abcdefghijklmnopqrstuvwxyzABCDEFGHIJKLMNOPQRSTUVWXYZabcdefghijk5",
];

// is_double: one leading minus and no plus; a digit on one side of the point at least; an exponent with digits.
#[rustfmt::skip]
const DOUBLES: &[&str] = &[
    "-1", "+1", "--1", "-", "+", "1.", ".5", ".", "-.", "-1.", "-.5", "+.5", "1.5", "-1.5", "1..5", "1.5.", "1.5.2", "..5",
    "1e", "1E", "1e+", "1e-", "1e5", "1E5", "1e+5", "1E-5", "1e--5", "1e++5", "1e+-5", "1e5e5", "1e5.", "1e.5", "1e 5",
    "e5", "-e5", ".e5", "1.e5", ".5e5", "-1.5e10", "-1.5E+10", "1.5e-10x", "1-", "1-e5", "1ee5", "1x", "x1", "1,5", "1.5,",
    "-0", "0.0", "00.00", "-0e0", "1e05", " 1.5", "1.5 ", "- 1", "1 .5", "1f5", "1d5", "0x10", "inf", "NaN", "-inf", "1_0",
    "1e5é", "é1", "-é", "1.é", "49", "+49", "3.14159265358979", "-1234567890.0987654321e+1234567890",
];

// is_comma_int: a comma, a first group of 1 to 3 digits, further groups of 3.
#[rustfmt::skip]
const COMMA_INTS: &[&str] = &[
    "1,234", "12,345", "123,456", "12,34", "1234,567", ",123", ",", ",,", "1,", "1,234,", "1,23a", "1,2345", "1,,234",
    "123,456,789", "0,000", "000,000", "1,234,567,890", "1,234,56", "1,234,5678", "-1,234", "1,234.5", "1 ,234", "1, 234",
    "a,234", "1,abc", ",234,567", "1,2,3", "1,é1", "é,123", "1,1é", "1;234", "1.234", "1,000,000,000,000,000,000,000,000",
    "1234", "1,23", "12,345,67a", "999,999,99:",
];

// is_ordinal: a digit first, then digits and commas, then a suffix in any case.
#[rustfmt::skip]
const ORDINALS: &[&str] = &[
    "1,,th", ",1th", "1th", "1TH", "1sT", "1St", "1st", "2nd", "3rd", "4th", "2ND", "3Rd", "21st", "22nd", "23rd", "11th",
    "112th", "1nD", "th", "TH", "st", "1t", "1h", "1ht", "1tt", "1hh", "1ts", "1dn", "1dr", "1ns", "1sd", "1rt", "1nt",
    "1,th", "1,000th", ",th", ",,th", "-1th", "1.5th", "1 th", " 1th", "1th ", "1ths", "ath", "1ath", "1-th", "0th", "00th",
    "éth", "1éth", "1th\u{301}", "𐍈h", "1\u{212a}h", "1\u{17f}t", "th1", "1TH.", "1sth", "1234567890,1234567890th",
];

// is_us_money: a sign, digits or commas, then a point with digits or nothing.
#[rustfmt::skip]
const MONEY: &[&str] = &[
    "$", "$,", "$,,", "$1", "$1.", "$.", "$.5", "$,.5", "$1.5", "$1,500.00", "$1,500", "$1.5.0", "$1.0,0", "$1,", "$1,.",
    "$$1", "1$", "$-1", "-$1", "$ 1", " $1", "$1 ", "$a", "$1a", "$1.a", "$1.5a", "$1.00a", "$é", "$1é", "$1.é", "£5", "€5",
    "$0", "$00.0", "$1e5", "$1%", "$1/2", "$5:", "$1,000,000.000", "$123456789,123456789.123456789",
];

// is_illion: the ending alone, in this case.
#[rustfmt::skip]
const ILLIONS: &[&str] = &[
    "illion", "million", "billion", "trillion", "billions", "Million", "MILLION", "millioN", "milion", "llion", "illio",
    "5million", "5 million", "illion ", "illionillion", "éillion", "𐍈illion", "illioné", "illion.", "millon", "1illion",
    "million million", "zillion", "quadrillion", "illiom", "allion", "iLLion",
];

// is_roman: nine words, or X and then nothing but V, I and X.
#[rustfmt::skip]
const ROMANS: &[&str] = &[
    "I", "II", "III", "IV", "V", "VI", "VII", "VIII", "IX", "X", "XI", "XII", "XIII", "XIV", "XV", "XVI", "XVII", "XVIII",
    "XIX", "XX", "XXI", "XXVI", "XVIX", "XIIIIII", "XVVV", "XIXVXI", "IIII", "IIV", "VV", "VX", "VIIII", "VIV", "IVI", "IIX",
    "IXI", "IVX", "IXX", "i", "ii", "v", "x", "Xx", "xX", "XL", "XC", "L", "C", "D", "M", "MM", "XIL", "XVIé", "Xé", "éX",
    "X.", "X ", " X", "X1", "1X", "IV.", "Iv", "iV", "VIIX", "XW", "XY", "XU", "XJ", "XH", "VIII ", "IXé", "I\0", "I\t", "ΙV",
];

// is_dr_or_st: two words, any case.
#[rustfmt::skip]
const DR_OR_ST: &[&str] = &[
    "dr", "DR", "Dr", "dR", "ST", "St", "sT", "dr.", "Dr.", "St.", "d", "s", "r", "t", "rd", "ts", "dt", "sr", "drs", "sst",
    "str", " dr", "dr ", "dré", "dé", "\u{17f}t", "d\0", "d\t", "Drive", "Street",
];

// is_number_s: digits and a final small s.
#[rustfmt::skip]
const NUMBER_S: &[&str] = &[
    "s", "0s", "60s", "1990s", "1990S", "1990's", "1990ss", "s1", "1s1", "as", "ss", "-1s", "1,0s", "1.0s", "1 s", " 1s",
    "1s ", "éſ", "1ſ", "és", "1és", "𐍈s", "00s", "1234567890123456789012345678901s", "5s5s", "1r", "1t",
];

// is_leading_zero_digits: two or more digits, 0 first.
#[rustfmt::skip]
const LEADING_ZERO: &[&str] = &[
    "00", "01", "000", "010", "10", "0a", "0.", "0,", "0-", "0 ", " 0", "0é", "001", "09", "0/", "0:", "-01", "+01", "a01",
    "0123456789012345678901234567890", "012345678901234567890123456789x", "0005", "0000",
];

// is_seven_digit_phone: three, a hyphen, four; the first hyphen parts the text.
#[rustfmt::skip]
const PHONES: &[&str] = &[
    "555-1234", "555-123", "555-12345", "55-1234", "5555-1234", "5551234", "555--123", "555-1-34", "555-123-4567", "-555-1234",
    "555 1234", "555-1234 ", "a55-1234", "55a-1234", "555-a234", "555-123a", "555-123-", "555.1234", "555–1234", "é5-1234",
    "555-é34", "5é-1234", "555-12é", "000-0000", "999-9999", "-1234", "555-", "55:-1234", "555-123/",
];

// is_time: hours are not limited, the minute's first digit is at most 5.
#[rustfmt::skip]
const TIMES: &[&str] = &[
    "9:30", "09:30", "12:00", "99:59", "0:00", "00:00", "24:00", "9:59", "9:60", "9:99", "9:5", "9:300", "123:45", ":30", "9:",
    ":", "::", "9::30", "9:30:", "9:30:00", "9:3a", "9:a3", "a:30", "9a:30", "a9:30", "9.30", "9;30", "9 :30", "9: 30", " 9:30",
    "9:30 ", "-9:30", "9:-3", "9:/0", "9:0/", "9:0:", "9:é", "é:30", "9é:30", "9:3é", "1:23456", "12:3:4", "9:06", "9:50", "9:49",
];

// split_time_meridiem: the first colon or point parts hour and minute; am or pm in any case.
#[rustfmt::skip]
const TIMES_WITH_MERIDIEM: &[&str] = &[
    "9:30am", "9:30pm", "9.30am", "9.30pm", "9:30AM", "9:30PM", "9:30Am", "9:30pM", "12:59am", "99:59pm", "00.00am", "0:00PM",
    "9:30.am", "9.3:0am", "9:30:am", "9:3.0am", "9.30.am", "9:30xm", "9:30an", "9:30a", "9:30m", "9:30ma", "9:30mp", "9:30 am",
    "9:30amx", "9:30am ", " 9:30am", ":30am", ".30am", "am", "pm", "AM", "m", "a", "9am", "930am", "9:am", "9:3am", "9:300am",
    "123:45am", "9:60am", "9:99pm", "9:5am", "9:59am", "a:30am", "9:a0am", "9:3aam", "9:30aam", "9:30ampm", "9:30pmam", "-9:30am",
    "9-30am", "9,30am", "9;30am", "é:30am", "9é30am", "9:éam", "9:3éam", "9:30éam", "9:30é", "éam", "𐍈am", "9:30ａm", "..30am",
    "::30am", ".:30am", "9..30am", "9:30a.m.", "12.05PM", "1:00pm", "9:/0am", "9:0/am", "9:0:am", "/:30am",
];

// is_dotted_abbrev: two single letters at least, points between, a final point or none.
#[rustfmt::skip]
const DOTTED: &[&str] = &[
    "U.S.A.", "U.S.A", "e.g.", "e.g", "i.e.", "A", "A.", "A.B", "A.B.", "A..B", "A.B..", ".A", ".A.B", ".A.", "A.1", "1.A", "1.2",
    "A.BC", "AB.C", "AB.CD", "a.b.c.d.e.f.g.h.i.j.k.l.m.n.o.p.q.r.s.t.u.v.w.x.y.z.", "a.b.c.d.e.f.g.h.1", "..", "...", "A. B", "A.B ",
    " A.B", "A.é", "é.A", "A.é.", "A.𐍈", "A,B", "A-B", "A.B,C", "z.Z", "@.A", "A.[", "`.a", "a.{", "A.B.C.D1", "A.B.1.", "P.S.", "Ph.D.",
];

// is_digits_slash_digits: the first slash parts the text.
#[rustfmt::skip]
const SLASHES: &[&str] = &[
    "3/4", "/", "3/", "/4", "3//4", "3/4/5", "/3/4", "3/4/", "30/40", "a/4", "3/a", "3a/4", "3/4a", "3 /4", "3/ 4", "-3/4", "3/-4",
    "3.0/4", "3\\4", "3:4", "3.4", "é/4", "3/é", "3/4é", "é3/4", "0/0", "000/000", "1234567890/0987654321", "½", "3÷4", "1/2/",
];

// is_digits_dash_digits: empty parts are dropped; two parts at least.
#[rustfmt::skip]
const DASHES: &[&str] = &[
    "-5-6", "5--6", "5-", "-5", "1-2-3", "1-2", "--", "---", "-5-", "--5", "5--", "5-6-", "-5-6-", "--5--6--", "1998-1999",
    "555-123-4567", "a-5", "5-a", "5-a-6", "5-6a", "5- 6", "5 -6", "5-6 ", "5+6", "5_6", "5–6", "5-é", "é-5", "5-é-6", "5-6é", "-a-5",
    "1-2-3-4-5-6-7-8-9-0", "1-2-3-4-5-6-7-8-9-x", "5-.6", "5,0-6", "5-/", "5-:", "0-0", "-0-", "5---------------------------------6",
];

// unit_word and split_unit: all 22 abbreviations, and near misses.
#[rustfmt::skip]
const UNITS: &[&str] = &[
    "LB", "LBS", "lb", "lbs", "ft", "FT", "kg", "km", "cm", "mm", "ml", "oz", "hz", "Hz", "HZ", "KHz", "MHz", "GHz", "KB", "GB",
    "MB", "TB", "Lb", "lB", "LBs", "lbS", "Lbs", "lBs", "LbS", "lBS", "Ft", "fT", "KG", "Kg", "kG", "KM", "Km", "CM", "Cm", "MM", "Mm",
    "ML", "mL", "Ml", "OZ", "Oz", "hZ", "KHZ", "kHz", "khz", "Khz", "MHZ", "mHz", "Mhz", "GHZ", "gHz", "Ghz", "kb", "Kb", "kB", "gb",
    "Gb", "mb", "Mb", "tb", "Tb", "THz", "PB", "B", "g", "k", "m", "l", "K", "H", "z", "LBSS", "lbss", "kgs", "KHzz", "KH", "MH", "GH",
    "Hzz", "xkg", "kg ", " kg", "kg.", "k g", "kgé", "ékg", "µm", "kg\0", "kg\t", "kilograms", "pounds", "dm", "nm", "in", "yd", "mg", "mi", "bl", "gk",
];

// split_unit: digits and commas, then an abbreviation after the last digit.
#[rustfmt::skip]
const UNITS_AFTER_NUMBERS: &[&str] = &[
    "5LB", "5LBS", "5lb", "5lbs", "5ft", "5FT", "5kg", "5km", "5cm", "5mm", "5ml", "5oz", "5hz", "5Hz", "5HZ", "5KHz", "5MHz", "5GHz",
    "5KB", "5GB", "5MB", "5TB", "1,000LB", "12,345LBS", "0lb", "00lbs", "9,ft", "1,,1FT", "007kg", "10km", "100cm", "00mm", "250ml", "8oz",
    "50hz", "60Hz", "44,100HZ", "440KHz", "2,400MHz", "3GHz", "640KB", "16GB", "1,024MB", "2TB", "5Kg", "5KG", "5kHz", "5Mm", "5Lbs", "5tb",
    "1,000kg", ",5kg", ",,5kg", ",kg", "5,kg", "5", "5,", "5kgs", "5 kg", "5kg ", " 5kg", "-5kg", "+5kg", "5.5kg", "1/2kg", "5-6kg", "$5kg",
    "5kg5", "5kg5kg", "k5g", "a5kg", "5akg", "5kkg", "5g", "5k", "5K", "5Hzz", "5kgé", "5ékg", "é5kg", "5µm", "𐍈5kg", "5𐍈kg", "5k\0g", "5k\tg",
    "12345678901234567890123456789kg", "1,234,567,890,123,456,789KHz", "5:kg", "5/kg", ":5kg", "5.kg", "5%kg", "5x", "1.5oz",
];

// Names in which an offset counted in bytes would fall inside a character.
#[rustfmt::skip]
const NOT_ASCII: &[&str] = &[
    "é", "1é", "12é", "123é", "é1", "ét", "éh", "1\u{10348}", "12\u{10348}", "\u{10348}", "\u{10348}t", "€", "1€", "€1", "1€h", "ﬁ",
    "\u{80}", "\u{7ff}", "\u{800}", "\u{ffff}", "\u{10000}", "\u{10ffff}", "\u{d7ff}", "\u{e000}", "ééé", "€€", "𐍈𐍈", "aéb€c𐍈d", "日本語",
    "1th\u{80}", "9:30é", "ﬀ", "ſt", "İ", "ǅ", "x\u{300}", "\u{feff}5",
];

// Names from sheets that have none of the shapes, and blanks.
#[rustfmt::skip]
const PLAIN: &[&str] = &[
    " ", "\t", "\n", "\r\n", "Bar 12 at 9:30.", "Rack", "(21st)", "5%", "50%", "-5%", "%", "Dr. No", "hello, world", "\"", "?!", "...",
    "'tis", "yahoo!", "a/b", "x=1", "1+1", "#5", "@home", "C++", "\\", "^", "_", "|", "~", "\u{1}", "\u{1f}",
];

// Bytes that are not UTF-8, and the nearest that are.
#[rustfmt::skip]
pub const DAMAGED: &[&[u8]] = &[
    // overlong forms, and the first that is not
    b"\xc0\x80", b"\xc0\xaf", b"\xc1\xbf", b"\xc2\x80", b"\xe0\x80\x80", b"\xe0\x9f\xbf", b"\xe0\xa0\x80", b"\xf0\x80\x80\x80",
    b"\xf0\x8f\xbf\xbf", b"\xf0\x90\x80\x80",
    // surrogates, and their neighbours
    b"\xed\x9f\xbf", b"\xed\xa0\x80", b"\xed\xad\xbf", b"\xed\xae\x80", b"\xed\xaf\xbf", b"\xed\xb0\x80", b"\xed\xbf\xbf", b"\xee\x80\x80",
    b"\xed\xa0\x81\xed\xb0\x80",
    // above U+10FFFF
    b"\xf4\x8f\xbf\xbf", b"\xf4\x90\x80\x80", b"\xf4\xbf\xbf\xbf", b"\xf5\x80\x80\x80", b"\xf7\xbf\xbf\xbf", b"\xf8\x88\x80\x80\x80",
    b"\xfc\x84\x80\x80\x80\x80", b"\xfe", b"\xff", b"\xfe\xff", b"\xff\xfe",
    // cut characters
    b"\xc3", b"\xdf", b"\xe2", b"\xe2\x82", b"\xef\xbf", b"\xf0", b"\xf0\x90", b"\xf0\x90\x8d", b"\xf4\x8f\xbf", b"1\xc3", b"12\xe2\x82",
    b"\xc3\xa9\xc3", b"\xc3a", b"\xe2\x82a", b"\xe2a\x82", b"\xf0\x90\x8da", b"\xf0\x90a\x8d", b"\xf0a", b"\xc3\xc3\xa9", b"\xe2\xe2\x82\xac",
    b"\xf0\x90\xf0\x90\x8d\x88", b"\xe2\x82\xc3\xa9",
    // lone tails
    b"\x80", b"\x8f", b"\x90", b"\xa0", b"\xbf", b"a\x80", b"\x80a", b"\xc3\xa9\xa9", b"\xe2\x82\xac\x80", b"\xf0\x90\x8d\x88\x88",
    // shapes but for one byte
    b"5\xff", b"\xff5", b"abc\xff", b"1.5\xc3", b"1,234\xff", b"1th\xff", b"\xff1th", b"$5\xff", b"\xffillion", b"X\xff", b"dr\xff", b"1990\xffs",
    b"00\xff", b"555-1234\xff", b"9:30\xff", b"9:30\xffam", b"9:30am\xff", b"A.B\xff", b"3/4\xff", b"1-2\xff", b"kg\xff", b"5kg\xff", b"\xff5kg",
    b"5\xc3kg", b"\xed\xa0\x805kg", b"9:30am\xc0\x80",
    b"0123456789012345678901234567890123456789012345678901234567890123\xff",
    b"012345678901234567890123456789012345678901234567890123456789012\xc3",
    b"012345678901234567890123456789012345678901234567890123456789012\xc3\xa9",
    b"\xc3\xa9\xc3\xa9\xc3\xa9\xc3\xa9\xc3\xa9\xc3\xa9\xc3\xa9\xc3\xa9\xc3\xa9\xc3\xa9\xc3\xa9\xc3\xa9\xc3\xa9\xc3\xa9\xc3\xa9\xc3\xa9\xe9",
];
