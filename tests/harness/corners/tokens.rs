//! Texts at the corners of tokens and sentences, one list for each rule, and the pieces that steps are fed.

#[rustfmt::skip]
pub const LISTS: &[&[&str]] = &[
    SET_PIECES, WHITESPACE, LEADING_MARKS, TRAILING_MARKS, MARKS_ALONE, BREAKS, BLANK_LINES, YAHOO, ABBREVIATIONS, NOT_ASCII,
    PROSE,
];

// What document 01 names.
#[rustfmt::skip]
const SET_PIECES: &[&str] = &[
    "", "\"", "\" ", "?!", "?", "? A", "a ? A", "Bar 12 at 9:30. Rack 5mm (21st)\n", "Bar 12 at 9:30. Rack 5mm (21st)", "a",
    "A", ".", " ", "\n",
];

// Space, tab, LF and CR; nothing else is whitespace.
#[rustfmt::skip]
const WHITESPACE: &[&str] = &[
    "\t", "\r", "  ", "\r\n", " \t\n\r", "\r\n\r\n", " a", "\ta", "\na", "\ra", "a ", "a\t", "a\n", "a\r", "a b", "a\tb",
    "a\nb", "a\rb", "a\r\nb", " a b ", "\t\ta\r\rb\n\n", "  a  b  ", "a\u{b}b", "a\u{c}b", "a\0b", "\0", "\u{b}", "\u{c}",
    "\u{1f}", "a\u{1c}b", "a\u{85}b", "a\u{a0}b", "\u{85}", "\u{a0}", "\u{2028}", "a\u{2028}b", "a\u{2029}b", "a\u{3000}b",
    "a\u{2003}b", "a\u{feff}b", "\u{a0} \u{a0}", "a\u{8}b", "a\u{e}b", "a!b", "a\u{21}b", "a\u{1f}b", ".\u{a0}A", "a.\u{a0}A",
    "a.\u{85}A", "a.\u{b}A",
];

// Leading marks: each, several, before a name, before whitespace, before the end.
#[rustfmt::skip]
const LEADING_MARKS: &[&str] = &[
    "'", "`", "(", "{", "[", "' ", "` ", "( ", "{ ", "[ ", "\"a", "'a", "`a", "(a", "{a", "[a", ")a", "}a", "]a", ".a", ",a",
    ":a", ";a", "!a", "?a", "\"'`({[", "\"'`({[ ", "\"'`({[a", "\"'`({[.", "\"'`({[. ", "\"'`({[)", "a \"", "a \" ", "a \"\n",
    "\"\"", "\"\" ", "\"\"a", "((", "(( ", "((a", "(a(", "(a(b", "((a((", "() ", "()", "()a", "(.", "(. ", "(.a", "(..", "(.)",
    "(?!)", "(?! ", "\"?\"", "\"? \"", "\"a\"", "'a'", "`a`", "(a)", "{a}", "[a]", "\"(a)\".", "'tis", "a ( b", "a (", "( (",
    "( ( ", " \"", " \" ", "\"\"\"", "\" \"", "\" \" ", "\"a \"", "<a", "-a", "*a", "_a", "#a", "&a", "%a", "/a", "|a", "~a",
    "\\a", "^a",
];

// Trailing marks: peeled from the end, never the first byte of what follows the leading ones.
#[rustfmt::skip]
const TRAILING_MARKS: &[&str] = &[
    "a\"", "a'", "a`", "a.", "a,", "a:", "a;", "a!", "a?", "a(", "a)", "a{", "a}", "a[", "a]", "a-", "a<", "a>", "a/", "a\\",
    "a_", "a*", "a#", "a&", "a@", "a$", "a%", "a^", "a+", "a=", "a|", "a~", "a\"'`.,:;!?(){}[]", "\"'`.,:;!?(){}[]a", "a.b",
    "a.b.", "a..", "a...", "a.,b.,", "a.1", "a.é", "a.é.", "é.", "é", "é.é", ".é", "..é", "€.", "𐍈.", "\u{80}.", "a. b. c.",
    "a., b!? c:;", "(a).", "(a.)", "(a. )", "9:30.", "9:30", "U.S.A.", "e.g.", "it's", "its'", "\"it's\"", "[a].b", "a.\u{301}",
];

// Runs of marks without a name of their own.
#[rustfmt::skip]
const MARKS_ALONE: &[&str] = &[
    ",", ":", ";", "!", ")", "}", "]", "..", "...", "!?", "??", "!!", ".\"", "\".", "\".\"", "\"..", ").", ".)", "(.)", ")(",
    ")( ", "() a", "]]", "}}}", ". ", ".. ", "? ", "?! ", ". .", ". . .", "... a", "a ... A", "a .. A", "a . A", "a ! A",
    "a : A", "a !! A", "a :: A", "a ?? A", "a .. a", "a !! a", "'.'", "`'", "'`", "\"' ", "\"'", "\"'.", "\"'. ",
];

// Which marks break, before what, and what hides a mark.
#[rustfmt::skip]
const BREAKS: &[&str] = &[
    "a. b", "a. B", "a.  b", "a.  B", "a! b", "a! B", "a? b", "a? B", "a: b", "a: B", "a, B", "a; B", "a) B", "a.) B", "a). B",
    "a.\" B", "a.' b", "a!) b", "a?\" b", "a:] b", "a.! b", "a!. b", "a.: b", "a,! b", "a;? b", "ab. 1", "ab. é", "ab. É",
    "ab. (A", "ab. (a", "ab. \"A\"", "ab. \"", "ab. \" A", "ab. . A", "ab. A.", "ab. ? A", "ab! \" A", "ab! ", "ab!",
    "ab. B. C", "ab! b! c!", "ab.\tB", "ab.\nB", "ab.\rB", "ab.\r\nB", "ab. \tB", "a.b C", "ab .C", "ab .C D", "ab!c D",
    "ab !c d", "ab( B", "ab[ B", "ab{. B", "ab.{ B", "ab. @", "ab. [", "ab. `", "ab. {", "ab. Z", "ab. z", "ab. @A", "ab. ZA",
    "ab. [A", "ab. `A", "1. A", "1.  A", "12. A", "é. A", "é.  A", "é! a",
];

// Two LF break whatever stands before and after; one does not.
#[rustfmt::skip]
const BLANK_LINES: &[&str] = &[
    "a\n\nb", "a\nb", "a\n \nb", "a \n\n b", "a\n\n\nb", "a\r\n\r\nb", "a\r\r\rb", "a\r\rb", "a\n\rb", "a\n\r\nb", "a\t\n\t\nb",
    "\n\na", "\n\na b", "\n\na\n\nb", "a\n\n", "a\n\n\n", "a\n\n1", "a\n\n(", "a\n\n( ", "a\n\n( b", "A.\n\nb", "Dr.\n\nA",
    "Dr.\nA", "Dr.\n\na", "Yahoo!\n\nb", "Yahoo!\nb", "Yahoo!\n \nb", "a,\n\nb", "a\n\nb\n\nc", "a \n b \n c", "a\n\\n\nb",
    "a\n.\nB", "a\n\n.", "é\n\né", "a  b", "a\t\tb",
];

// The one name after which ! does not break before a small letter.
#[rustfmt::skip]
const YAHOO: &[&str] = &[
    "yahoo! a", "Yahoo! a", "YAHOO! a", "yAhOo! a", "Yahoo! A", "yahoo! 1", "yahoo! é", "yahoo! \"a", "yahoo! (A", "yahoo! \"",
    "yahoo! \" a", "yahoo! .", "yahoo? a", "yahoo: a", "yahoo. a", "yahoo. A", "yahoo a", "Yahoo A", "yahoo!? a", "yahoo?! a",
    "yahoo!: a", "yahoo!. a", "yahoo!. A", "yahoo.! a", "yahoo!) a", "yahoo!\" a", "\"yahoo!\" a", "(yahoo!) A", "yahoo,! a",
    "yahoo!  a", "yahoo!\na", "yahoo!\n\na", "yahoo!\r\na", "yaho! a", "yahooo! a", "yahoos! a", "ahoo! a", "xyahoo! a",
    "yahoo1! a", "yahoo-! a", "yaho0! a", "yahop! a", "zahoo! a", "ybhoo! a", "yaioo! a", "yahpo! a", "yahoé! a", "éahoo! a",
    "yahoo.com! a", "yahoo!! a", "yahoo!x a", "yahoo!x! a", "yahoo !a", "yahoo ! a", "yahoo! yahoo! a", "yahoo! Yahoo! A",
    "a yahoo! a", "A! yahoo! z", "yahoo! z", "yahoo! `", "yahoo! {", "yahoo! @", "yahoo! Z", "YAHOO. A", "YAHOO.  A",
    "yahoO. A", "yahoo", "yahoo!", "yahoo! ", "\u{79}ahoo! a", "9ahoo! a", "Y@hoo! a", "yahoO! a", "yAHOO! a",
];

// What looks like an abbreviation: a capital at the end, or a short name with one in front.
#[rustfmt::skip]
const ABBREVIATIONS: &[&str] = &[
    "A. B", "AB. C", "Dr. A", "Mrs. A", "Prof. A", "Dr.  A", "Dr.\tA", "Dr.\n\nA", "Dr. a", "dr. A", "abc. A", "abcd. A",
    "Abc. A", "Abcd. A", "abC. A", "abcD. A", "abcdE. A", "ABCDE. A", "Ab1. A", "A1. A", "1A. A", "1a. A", "A1b2. A", "U.S. A",
    "U.S.A. A", "u.s. A", "e.g. A", "E.g. A", "Ph.D. A", "No. 5", "No. V", "(Dr. A", "(Dr.) A", "\"Dr. A", "\"A. B", "Aé. B",
    "Abé. B", "éA. B", "é. B", "É. B", "ÉÉ. B", "Éa. B", "A€. B", "@. A", "[. A", "Z. A", "z. A", "`. A", "@bc. A", "Zbc. A",
    "ab@. A", "abZ. A", "abZ.) A", "ab[. A", "Abc.. A", "Abc., A", "Abc.; A", "Abc.! A", "Abc: A", "A. B. C. D",
    "It ended. Then", "IT ENDED. THEN", "Dr. Smith ended. Then Mr. A. B. left. He", "?. A", "?A. A", "A?. A", "A.b. C",
    "a.B. C", "a.b.c. D",
];

// Characters of two to four bytes in each place; some share bits with marks or with whitespace.
#[rustfmt::skip]
const NOT_ASCII: &[&str] = &[
    "é a", "a é", "éé. É", "“a” b", "‘a’", "«a»", "(é)", "\"é\"", "é\"", "\"é", "é\" ", "é! é", "é: É", "aé. A", "Aé! a",
    "𐍈. A", "𐍈", "(𐍈)", "𐍈 𐍈", "€!", "!€", "！", "a！ b", "？ a", "。 A", "a。 A", "（a）", "\u{22}\u{80}", "\u{a2}", "\u{ae}. A",
    "\u{ac}", "\u{ba}", "\u{a1}", "\u{bf}", "\u{a8}a\u{a9}", "\u{fb}", "\u{fd}", "\u{10a}", "\u{120}", "\u{a0}a", "\u{8a0}",
    "\u{2020}", "\u{2e2e}", "\u{2121}", "\u{10ffff}.", "\u{80}", "\u{7ff} \u{800}", "\u{ffff}! \u{10000}", "漢字 かな", "漢字。かな",
    "ａ. Ａ", "x\u{300}. X\u{300}",
];

#[rustfmt::skip]
const PROSE: &[&str] = &[
    "The cat sat. It slept! Did it? Yes: it did.", "Mr. Smith (of Leeds) paid $5.00; \"Fine,\" he said.",
    "  Indented.\n\nNext paragraph, \"quoted.\" Then", "Bar 1.\tRack 2.\r\n\r\nBar 3:\n- 5mm\n- 6mm\n",
    "[1] See p. 5. {a} `b` 'c'", "Wait... What?! No (really). OK", "1. First 2. Second 3. Third",
    "Call 555-1234 at 9:30am. Ask for A. B. Cee.", "Yahoo! it said, then Yahoo! It said.", "«Zähler» 5kg; später. Über 21st!",
    "a b c d e f g h i j k l m n o p q r s t u v w x y z", "\"'Tis,\" said she. \"'Twas.\" (\"Is it?\") [\"No.\"]",
    "end.\n\n\nStart", "end.\n \t \nStart", "A.\nB.\nC.\n", "...and so on... And on.", "Plaats 12, rek 5.  Daarna 6.",
];

/// What a text of random pieces draws from.
#[rustfmt::skip]
pub const PIECES: &[&str] = &[
    " ", " ", " ", "  ", "\t", "\n", "\n\n", "\r", "\r\n", "\"", "'", "`", "(", "{", "[", ")", "}", "]", ".", ".", ",", ":",
    ";", "!", "?", ". ", "! ", ".\n", "a", "b", "z", "A", "B", "Z", "1", "é", "É", "€", "𐍈", "~", "\u{85}",
    "\u{a0}", "\u{2028}", "-", "@", "yahoo", "Yahoo", "YAHOO", "yahoo!", "yaho", "Dr", "abcd", "Abc", "abC", "The", "end",
    "9:30", "5mm",
];

/// Whitespace for a step, and texts that are no whitespace.
#[rustfmt::skip]
pub const BLANKS: &[&str] = &[
    "", " ", "  ", "\t", "\n", "\r", "\r\n", "\n\n", "\n \n", "\n\n\n", "\r\n\r\n", "\n\r", " \n", "\n ", "a", "a\nb",
    "a\nb\nc", "x\n", "\nx\n", ".", "é", "\u{2028}", "\\n\\n", "\u{a0a}", "\u{85}\u{85}",
    "                    \n                    \n",
];

/// Names for a step, and texts that are no name of any token.
#[rustfmt::skip]
pub const NAMES: &[&str] = &[
    "", "a", "z", "A", "Z", "1", "@", "[", "`", "{", "é", "É", ".", "?", "\"", " ", " a", " A", "\n", "a b", "A b", "Dr", "dr",
    "dR", "Abc", "abc", "abC", "Abcd", "abcd", "abcD", "ABCD", "Abcde", "abcdE", "end", "Ended", "yahoo", "Yahoo", "YAHOO",
    "yAHOo", "yaho", "Yaho", "yahooo", "yahoo!", "yahoo yahoo", " yahoo", "yahoé", "yahéo", "éA", "Aé", "ABé", "A€", "€", "𐍈",
    "𐍈A", "a.b", "U.S", "yahoo\0", "\0", "\0A", "yahoo\t", "\t", "\tA", "aaaaaaaaaaaaaaaaaaaaaaaaaaaaaaaaaaaaaaaaaaaaaaaaaaaaaaaaaaaaaaaaaaaaaZ",
];

/// Punctuation for a step, and texts that are no punctuation.
#[rustfmt::skip]
pub const MARKS: &[&str] = &[
    "", ".", ":", "?", "!", ",", ";", ")", "\"", ".)", ").", "!.", ".!", "?!", "!?", ":.", ",!", "...", "!!!", "a", "a.", ".a",
    "a!b", " ?", "\n", "é", "é.", "é:", "€?", "！", "。", "\u{2e2e}", "\u{13a}",
    "a b c d e f g h i j k l m n o p q r s t u v w x y z!", ".:?!", "@/;>",
];

/// "yahoo" with capitals in all 32 ways.
pub fn yahoos() -> Vec<String> {
    let capital = |ways: usize, place: usize, c: char| if ways >> place & 1 == 1 { c.to_ascii_uppercase() } else { c };
    let spelled = |ways: usize| "yahoo".chars().enumerate().map(move |(place, c)| capital(ways, place, c)).collect();
    (0..32).map(spelled).collect()
}
