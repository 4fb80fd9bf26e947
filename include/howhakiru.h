/* howhakiru: the reader of the voice unit, for C99 and C++11.
 *
 * `make` builds target/staticlib/libhowhakiru.a for x86-64 Linux, and `make install` puts it, this header and howhakiru.pc in
 * their places; `pkg-config --cflags --libs howhakiru` answers the flags. Of the C library it needs memcpy alone.
 *
 *     const char *sheet = "Bar 12 at 9:30. Rack 5mm (21st)\n"; // seven entries
 *     uint8_t line[HWK_CALL_MOST(32)];
 *     for (size_t i = 0;; i++) {
 *         hwk_entry called = hwk_call_entry((const uint8_t *)sheet, strlen(sheet), i, line, sizeof line);
 *         if (called.refusal == HWK_NO_SUCH_ENTRY) break;            // after the last one
 *         if (called.refusal != HWK_ACCEPTED) return called.refusal; // after HWK_NAME_TOO_LONG one may go on instead
 *         fwrite(line, 1, called.bytes, stdout);                     // "+ bar", "- twelve", "- at", "- nine thirty", ..
 *     }
 *
 *     const char *name = "9:30";
 *     hwk_verdict v = hwk_is_time((const uint8_t *)name, strlen(name));
 *     if (v.refusal == HWK_ACCEPTED && v.yes) { .. }
 *
 *     const char *number = "1984"; // nineteen eighty four
 *     uint8_t store[HWK_WORDS_STORE_MOST(4)], table[HWK_WORDS_TABLE_MOST(4)];
 *     hwk_words read = hwk_year((const uint8_t *)number, 4, store, sizeof store, table, sizeof table);
 *     for (size_t i = 0; i < read.words; i++) // none if the call is refused
 *         printf("%.*s\n", (int)hwk_word_len(table, i), (const char *)store + hwk_word_at(table, i));
 *
 *     const char *text = "Rack 5mm."; // two tokens: Rack, and 5mm with a point
 *     uint8_t tokens[HWK_TOKENS_TABLE_MOST(9)];
 *     size_t count = hwk_tokenize((const uint8_t *)text, 9, tokens, sizeof tokens).tokens;
 *     for (size_t i = 0; i < count; i++)
 *         printf("%.*s\n", (int)hwk_token_len(tokens, i, HWK_NAME), text + hwk_token_at(tokens, i, HWK_NAME));
 *
 * What holds for every call
 * -------------------------
 * A text is a pointer and a length in bytes. It needs no final NUL, and a NUL in it is a control byte: a text with one is
 * refused. Length 0 is the empty text, a text like any other; its pointer may be NULL. A buffer is lent the same way, so a buffer
 * of length 0 may be NULL too. A lent buffer must overlap neither another buffer nor a text; texts may overlap. A call reads what
 * it is lent, and writes only the buffers that it says it writes. It keeps nothing once it has returned and has no state of its
 * own: calls may run on several threads at once. Digits, letters and cases are ASCII's.
 *
 * Every call is total: whatever the bytes and the lengths are, it answers a complete result or one refusal. At each call
 * stands "Tests:" with the refusals that it may answer, in the order in which it tests for them, which is not that of their
 * numbers. It answers the first one whose condition holds, so a text that is both too long and not UTF-8 gives
 * HWK_TEXT_TOO_LONG, and a sheet with a control byte HWK_CONTROL_BYTE, whichever entry is called. A refused call answers its
 * number with every other field 0 (hwk_push: with the state that it was given), and leaves every lent buffer as it was. In an
 * accepted call the bytes of a buffer past the result stay as they were.
 *
 * Nothing is allocated. Only two things recurse: a number of up to 12 digits is read by a function that calls itself on fewer
 * digits, five deep at most, and an entry by functions that call each other on its parts: on what stands before a %, once for
 * each % at its end, and on the two numbers of a range. So hwk_call_entry and hwk_call_sheet need less than 8 KiB of stack and
 * 80 bytes more for each % at an entry's end, in all less than 512 KiB. Every other call needs less than 4 KiB. These bounds are
 * measured, not proved. If a program is linked dynamically and bound lazily, its first call of memcpy, ours or another, also
 * needs the dynamic linker's own few KiB.
 */
#ifndef HOWHAKIRU_H
#define HOWHAKIRU_H

#include <stddef.h>
#include <stdint.h>

#ifdef __cplusplus
extern "C" {
#endif

/* The most bytes of a text. A program that reads a sheet into a buffer of one byte more finds out if it is too long. */
#define HWK_TEXT_LIMIT 65536

/* The most bytes of a name that is called. */
#define HWK_NAME_LIMIT 4096

/* The most bytes that hwk_unit_word writes. */
#define HWK_UNIT_WORD_MOST 11

/* What a call answers in the field `refusal`. */
#define HWK_ACCEPTED 0
#define HWK_TEXT_TOO_LONG 1    /* a text has more than HWK_TEXT_LIMIT bytes */
#define HWK_NOT_UTF8 2         /* a text is not UTF-8 (RFC 3629) */
#define HWK_NO_SUCH_ENTRY 3    /* hwk_call_entry: the entry's number is not below the count of entries */
#define HWK_NAME_TOO_LONG 4    /* hwk_call_entry, hwk_call_sheet: an entry to be called has a name of more than HWK_NAME_LIMIT bytes */
#define HWK_BUFFER_TOO_SHORT 5 /* a lent buffer is smaller than the whole result */
#define HWK_CONTROL_BYTE 6     /* a text holds a byte 0x00 to 0x1F other than tab, LF and CR (0x09, 0x0A, 0x0D), or 0x7F */

/* Shape verdicts
 * --------------
 * Does the whole text have the shape? Each of these calls reads `s`, `s_len` bytes, and writes nothing.
 * Tests of each: HWK_TEXT_TOO_LONG, HWK_NOT_UTF8, HWK_CONTROL_BYTE. */
typedef struct hwk_verdict {
    uint8_t refusal; /* HWK_ACCEPTED or the refusal's number */
    uint8_t yes;     /* 1 yes, 0 no; 0 if the call is refused */
} hwk_verdict;

/* One or more digits, nothing else. */
hwk_verdict hwk_is_digits(const uint8_t *s, size_t s_len);

/* One or more letters, nothing else. */
hwk_verdict hwk_is_alpha(const uint8_t *s, size_t s_len);

/* A decimal number. It may start with one minus, but with no plus. Then come digits, and a point may stand before, in or behind
 * them. At the end there may be an exponent: e or E, a sign or none, and digits. "-1.5e+10", "1." and ".5" are such numbers;
 * "+1", "." and "1e" are not. */
hwk_verdict hwk_is_double(const uint8_t *s, size_t s_len);

/* A first group of 1 to 3 digits, then one or more groups of 3, with commas between: "1,234". */
hwk_verdict hwk_is_comma_int(const uint8_t *s, size_t s_len);

/* A digit, then any number of digits and commas, then th, st, nd or rd in any case: "21st", and "21th" and "1,,th" too. */
hwk_verdict hwk_is_ordinal(const uint8_t *s, size_t s_len);

/* A dollar sign, one or more digits or commas, and nothing more or a point with one or more digits: "$1,500.00", and "$," too. */
hwk_verdict hwk_is_us_money(const uint8_t *s, size_t s_len);

/* Ends with "illion", in lower case. */
hwk_verdict hwk_is_illion(const uint8_t *s, size_t s_len);

/* I to IX, or an X and after it nothing but V, I and X. Capitals alone. */
hwk_verdict hwk_is_roman(const uint8_t *s, size_t s_len);

/* "dr" or "st", in any case. */
hwk_verdict hwk_is_dr_or_st(const uint8_t *s, size_t s_len);

/* One or more digits and a final s, in lower case: "1990s". */
hwk_verdict hwk_is_number_s(const uint8_t *s, size_t s_len);

/* Two or more digits, the first of them 0. */
hwk_verdict hwk_is_leading_zero_digits(const uint8_t *s, size_t s_len);

/* Three digits, a hyphen, four digits. */
hwk_verdict hwk_is_seven_digit_phone(const uint8_t *s, size_t s_len);

/* Exactly n digits. The answer is no if n is 0. */
hwk_verdict hwk_is_n_digits(const uint8_t *s, size_t s_len, size_t n);

/* 1 or 2 digits, a colon, 2 digits of which the first is at most 5: "9:30", and "99:59" too. */
hwk_verdict hwk_is_time(const uint8_t *s, size_t s_len);

/* Two or more single letters with one point between neighbours, and with or without a final point: "U.S.A.". */
hwk_verdict hwk_is_dotted_abbrev(const uint8_t *s, size_t s_len);

/* Digits, a slash, digits: "3/4". */
hwk_verdict hwk_is_digits_slash_digits(const uint8_t *s, size_t s_len);

/* Digits and hyphens alone, with two or more runs of digits: "1998-1999", and "-5--6" too. */
hwk_verdict hwk_is_digits_dash_digits(const uint8_t *s, size_t s_len);

/* The parts of a time with a meridiem: each starts at the byte `_at` of the text and has `_len` bytes. */
typedef struct hwk_time {
    uint8_t refusal; /* HWK_ACCEPTED, HWK_TEXT_TOO_LONG, HWK_NOT_UTF8 or HWK_CONTROL_BYTE */
    uint8_t yes;     /* 1 if the text is such a time; else every field below is 0 */
    size_t hour_at, hour_len;         /* 1 or 2 digits */
    size_t minute_at, minute_len;     /* 2 digits, the first at most 5 */
    size_t meridiem_at, meridiem_len; /* am or pm, in the text's own case */
} hwk_time;

/* "9:30am", "9.30PM": the hour, the first colon or point, the minute, and am or pm in any case. Writes nothing.
 * Tests: HWK_TEXT_TOO_LONG, HWK_NOT_UTF8, HWK_CONTROL_BYTE. */
hwk_time hwk_split_time_meridiem(const uint8_t *s, size_t s_len);

/* A part of the text: it starts at the byte `offset` and has `len` bytes. */
typedef struct hwk_part {
    uint8_t refusal; /* HWK_ACCEPTED, HWK_TEXT_TOO_LONG, HWK_NOT_UTF8 or HWK_CONTROL_BYTE */
    uint8_t yes;     /* 1 if there is such a part; else offset and len are 0 */
    size_t offset;
    size_t len;
} hwk_part;

/* "5kg": digits and commas, and after the last digit one of the 22 unit abbreviations. Case counts:
 *   LB LBS lb lbs   ft FT   kg   km   cm   mm   ml   oz   hz Hz HZ   KHz   MHz   GHz   KB   GB   MB   TB
 * The part is the abbreviation; the number is the bytes before it. Writes nothing.
 * Tests: HWK_TEXT_TOO_LONG, HWK_NOT_UTF8, HWK_CONTROL_BYTE. */
hwk_part hwk_split_unit(const uint8_t *s, size_t s_len);

/* A word in a lent store. */
typedef struct hwk_word {
    uint8_t refusal; /* HWK_ACCEPTED, HWK_TEXT_TOO_LONG, HWK_NOT_UTF8, HWK_CONTROL_BYTE or HWK_BUFFER_TOO_SHORT */
    uint8_t yes;     /* 1 if there is a word; else len is 0 */
    size_t len;      /* the bytes written to the front of the store */
} hwk_word;

/* The word of a unit abbreviation, as "kilograms" of "kg". If the text is one of the 22 abbreviations, the call writes the word
 * to the front of `store`, without a NUL, and answers yes. If it is none, the call answers no and writes nothing.
 * Tests: HWK_TEXT_TOO_LONG, HWK_NOT_UTF8, HWK_CONTROL_BYTE, HWK_BUFFER_TOO_SHORT if there is a word and `store_len` is less than
 * its length. HWK_UNIT_WORD_MOST always suffices. */
hwk_word hwk_unit_word(const uint8_t *unit, size_t unit_len, uint8_t *store, size_t store_len);

/* Number words
 * ------------
 * Six calls turn a text into words. Each reads `s`, `s_len` bytes, and writes two buffers. The words stand end to end,
 * with nothing between and no NUL, at the front of `store`. `table` has 8 bytes for each word, in the order of the words:
 * where the word starts in the store, then how many bytes it has, each number in four bytes, the lowest first. Read it with
 * hwk_word_at and hwk_word_len below.
 *
 * Tests of each: HWK_TEXT_TOO_LONG, HWK_NOT_UTF8, HWK_CONTROL_BYTE, HWK_BUFFER_TOO_SHORT if the store is shorter than all words
 * together or the table is shorter than 8 bytes for each word. A refused call touches neither buffer. A reading without words
 * fits empty buffers. The answer does not say how much room is missing: lend what always suffices, by the macros below.
 *
 * These calls demand no shape: they read any text, and each says below what it leaves out. */
typedef struct hwk_words {
    uint8_t refusal; /* HWK_ACCEPTED, HWK_TEXT_TOO_LONG, HWK_NOT_UTF8, HWK_CONTROL_BYTE or HWK_BUFFER_TOO_SHORT */
    size_t words;    /* how many words there are: 8 bytes each at the front of the table */
    size_t bytes;    /* how many bytes all words have, at the front of the store */
} hwk_words;

/* Room for the words of every text of up to `len` bytes, whichever of the six calls reads it. This is proved; most readings need
 * far less. A call that is lent so much writes at once. One that is lent less measures the words first, which takes about as
 * long again, and is accepted if the words fit: hwk_cardinal of ten sevens is 16 words of together 99 bytes. */
#define HWK_WORDS_STORE_MOST(len) (11 * (size_t)(len) + 11)
#define HWK_WORDS_TABLE_MOST(len) (16 * (size_t)(len) + 16)

/* The four bytes of a table as a number. */
static inline uint32_t hwk_table_number(const uint8_t *four)
{
    return (uint32_t)four[0] | (uint32_t)four[1] << 8 | (uint32_t)four[2] << 16 | (uint32_t)four[3] << 24;
}

/* Word i, from 0 and below the count of words, starts at store + hwk_word_at(table, i) and has hwk_word_len(table, i) bytes. */
static inline size_t hwk_word_at(const uint8_t *table, size_t i) { return hwk_table_number(table + 8 * i); }
static inline size_t hwk_word_len(const uint8_t *table, size_t i) { return hwk_table_number(table + 8 * i + 4); }

/* A whole number. Only the digits of the text count, whatever stands between them. Up to 12 digits: "1984" is one thousand
 * nine hundred eighty four, "1,000,000" one million. From 13 digits on, one word for each digit. Zeros in front count as
 * digits, in groups of three from the right. A group 00 or 000 has no words, and neither has its scale; a single 0 in front is
 * zero: "0" is zero, "00" and "000" are no words, "05" is five, "0005" is zero thousand five and "000005" five. A text without
 * digits has no words. */
hwk_words hwk_cardinal(const uint8_t *s, size_t s_len, uint8_t *store, size_t store_len, uint8_t *table, size_t table_len);

/* The same words with the last one as an ordinal: "21" is twenty first, "12" twelfth, "1,000" one thousandth. If the
 * number has no words, the answer is zeroth: so it is for "", "00" and "th". The suffix of "21st" has no digits, so it may stay. */
hwk_words hwk_ordinal(const uint8_t *s, size_t s_len, uint8_t *store, size_t store_len, uint8_t *table, size_t table_len);

/* A year, or a number in pairs of digits. Only the digits count. "1984" is nineteen eighty four, "07" oh seven, "00" zero zero.
 * An odd count of digits starts with a single one: "747" is seven forty seven. But exactly three digits, the first not 0 and
 * the others 00, are hundreds: "500" is five hundred. The last four digits are read as a cardinal if the two in
 * their middle are 00 ("2005" is two thousand five, "0000" zero thousand). Else they are read in hundreds if the last two are
 * 00 ("1900" is nineteen hundred). In a pair before the last one a 0 in front has no word, and 00 has none: "190705" is
 * nineteen seven oh five, "000012" twelve. */
hwk_words hwk_year(const uint8_t *s, size_t s_len, uint8_t *store, size_t store_len, uint8_t *table, size_t table_len);

/* One word for each digit, nothing for any other character: "555-0123" is five five five zero one two three. */
hwk_words hwk_digits(const uint8_t *s, size_t s_len, uint8_t *store, size_t store_len, uint8_t *table, size_t table_len);

/* A decimal number: "-1.50" is minus one point five zero. Each sign in front is a word, minus or plus. The first e or E is
 * the word e, and the texts before and after it are read in the same way: "+2e-10" is plus two e minus ten. In a text
 * without e the first point is the word point, with a cardinal before it and single digits after it: ".5" is point five,
 * "1.2.3" one point two three. A sign that stands elsewhere has no word. */
hwk_words hwk_real(const uint8_t *s, size_t s_len, uint8_t *store, size_t store_len, uint8_t *table, size_t table_len);

/* One word for each character, A to Z in lower case: "Mr." is m, r and the point. "a" and "A" are the word _a, so that it is
 * not called as the article. A character of two to four bytes is one word of these bytes. */
hwk_words hwk_letters(const uint8_t *s, size_t s_len, uint8_t *store, size_t store_len, uint8_t *table, size_t table_len);

/* A value; there is no buffer. */
typedef struct hwk_number {
    uint8_t refusal; /* HWK_ACCEPTED, HWK_TEXT_TOO_LONG, HWK_NOT_UTF8 or HWK_CONTROL_BYTE */
    uint32_t value;
} hwk_number;

/* The value of a roman numeral of I, V, X, L, C, D and M in any case. A letter that has a larger one anywhere after it is
 * subtracted: "XIV" is 14, "IIX" is 8, "IXC" is 89. The value is 0 if the sum is below 0 ("IIIIIIV"), if the text has any
 * other character, and if it is empty. Whether a numeral is well formed is not tested.
 * Tests: HWK_TEXT_TOO_LONG, HWK_NOT_UTF8, HWK_CONTROL_BYTE. */
hwk_number hwk_roman_value(const uint8_t *s, size_t s_len);

/* Tokens
 * ------
 * A sheet is a text of tokens. Whitespace is space, tab, LF and CR; each run of other bytes, as long as it goes, is one token.
 * A token has four parts, of which each may be empty:
 *   whitespace      all whitespace before the run
 *   prepunctuation  the marks in front of the name:  " ' ` ( { [
 *   name            what is called
 *   punctuation     the marks behind the name:       " ' ` . , : ; ! ? ( ) { } [ ]
 * The marks in front are taken off first, as many as there are; then those behind, but the first byte that follows the
 * prepunctuation stays in the name. "(21st)?" is the name 21st with ( in front and )? behind, "?!" the name ? with ! behind. If
 * a run has only marks that go in front and whitespace follows it, it is prepunctuation before an empty name. If the text ends
 * there instead, the run itself is the name.
 *
 * In a table a token takes HWK_TOKEN_BYTES: for each part, in the order above, its start in the text, then how many bytes it
 * has, each number in four bytes, the lowest first. Each part starts where the one before it ends, empty ones too: joined,
 * the parts are the text without the whitespace at its end. Read a table with hwk_token_at and hwk_token_len below. */
#define HWK_TOKEN_BYTES 32

/* The parts of a token. */
#define HWK_WHITESPACE 0
#define HWK_PREPUNCTUATION 1
#define HWK_NAME 2
#define HWK_PUNCTUATION 3

typedef struct hwk_tokens {
    uint8_t refusal; /* HWK_ACCEPTED, HWK_TEXT_TOO_LONG, HWK_NOT_UTF8, HWK_CONTROL_BYTE or HWK_BUFFER_TOO_SHORT */
    size_t tokens;   /* how many tokens the text has */
} hwk_tokens;

/* Room for the tokens of every text of up to `len` bytes, in a table and in a buffer of sentence starts. This is proved. A call
 * that is lent so much writes at once; one that is lent less counts the tokens first. */
#define HWK_TOKENS_TABLE_MOST(len) (HWK_TOKEN_BYTES * ((size_t)(len) / 2 + 1))
#define HWK_TOKENS_STARTS_MOST(len) ((size_t)(len) / 2 + 1)

/* A part of token i, from 0 and below the count of tokens: it starts at s + hwk_token_at(table, i, part) and has
 * hwk_token_len(table, i, part) bytes. */
static inline size_t hwk_token_at(const uint8_t *table, size_t i, size_t part)
{
    return hwk_table_number(table + HWK_TOKEN_BYTES * i + 8 * part);
}
static inline size_t hwk_token_len(const uint8_t *table, size_t i, size_t part)
{
    return hwk_table_number(table + HWK_TOKEN_BYTES * i + 8 * part + 4);
}

/* Writes a record for each token of `s`, in the order of the text, to the front of `table`. A text without tokens, the empty one
 * among them, fits an empty table.
 * Tests: HWK_TEXT_TOO_LONG, HWK_NOT_UTF8, HWK_CONTROL_BYTE, HWK_BUFFER_TOO_SHORT if the table is shorter than HWK_TOKEN_BYTES for
 * each token. */
hwk_tokens hwk_tokenize(const uint8_t *s, size_t s_len, uint8_t *table, size_t table_len);

/* Sentences
 * ---------
 * Whether a sentence ends before a token is decided by its whitespace and its name, and by the name and the punctuation of the
 * token before it, the last name and the last punctuation. Lengths are in bytes. The first line that applies decides:
 *   1. the whitespace has two LF or more (a blank line): it ends
 *   2. the last name is yahoo, in any case, the last punctuation has a ! and the name starts with a to z: it does not
 *   3. the last punctuation has : or ? or !: it ends
 *   4. the last punctuation has no point: it does not
 *   5. the name does not start with A to Z: it does not
 *   6. the whitespace is longer than one byte: it ends
 *   7. the last name ends with A to Z, or has fewer than 4 bytes and starts with A to Z: it does not
 *   8. else it ends
 * So "9:30. Rack" is two sentences, and "Dr. Smith" is one. Marks in a name don't count: a ? that stands alone is a name, and
 * ends no sentence.
 *
 * Writes one byte for each token of `s` to the front of `starts`: 1 if the token starts a sentence, else 0. The first token
 * starts one.
 * Tests: HWK_TEXT_TOO_LONG, HWK_NOT_UTF8, HWK_CONTROL_BYTE, HWK_BUFFER_TOO_SHORT if `starts` has fewer bytes than there are
 * tokens. */
hwk_tokens hwk_sentences(const uint8_t *s, size_t s_len, uint8_t *starts, size_t starts_len);

/* The step form decides the same for a caller who has one token at a time. Its state is what it keeps of the last token; the
 * caller holds it, and may copy it. It comes from hwk_fresh or from a step, but whatever the fields hold is taken as a state.
 * Compare states field by field: bytes between and after the fields are no part of them. */
typedef struct hwk_state {
    size_t len;          /* the length of the last name */
    uint8_t head[5];     /* its first five bytes, 0 past its end */
    uint8_t last;        /* its last byte, 0 if it is empty */
    uint8_t point;       /* whether the last punctuation has a point; this and what follows: 0 no, else yes */
    uint8_t colon;       /* whether it has a : */
    uint8_t question;    /* whether it has a ? */
    uint8_t exclamation; /* whether it has a ! */
    uint8_t fresh;       /* whether there was no token yet */
} hwk_state;

/* The state before the first token: `fresh` is 1, all else is 0. Never refused. */
hwk_state hwk_fresh(void);

typedef struct hwk_step {
    uint8_t refusal; /* HWK_ACCEPTED, HWK_TEXT_TOO_LONG, HWK_NOT_UTF8 or HWK_CONTROL_BYTE */
    uint8_t breaks;  /* 1 if a sentence ends before this token, else 0; 0 too if the state was fresh */
    hwk_state state; /* the state for the next step; if the step is refused, the one that it was given */
} hwk_step;

/* Takes the next token, as three texts; its prepunctuation does not matter. Writes nothing. Fed the tokens of a text in turn,
 * from hwk_fresh on, the steps break before those tokens that hwk_sentences marks with 1, the first one left out. The texts may
 * be any others, too.
 * Tests: HWK_TEXT_TOO_LONG if any of the three is too long, HWK_NOT_UTF8 if any of the three is not UTF-8, HWK_CONTROL_BYTE if
 * any of the three holds a control byte. */
hwk_step hwk_push(hwk_state state, const uint8_t *whitespace, size_t whitespace_len, const uint8_t *name, size_t name_len,
                  const uint8_t *punctuation, size_t punctuation_len);

/* The call sheet
 * --------------
 * A sheet's entries are its tokens, numbered from 0; what is called of an entry is its name. An entry makes one line: "+" if it
 * starts a sentence, else "-"; then a space and the word for each word; then LF. The first row that takes the name gives its
 * words:
 *    1  an empty name                     no words
 *    2  hwk_is_dotted_abbrev              hwk_letters of the name without its points: "U.S" is u s
 *    3  hwk_is_comma_int                  hwk_cardinal
 *    4  hwk_is_time                       hwk_cardinal of the hour; then hwk_year of the minute, or o'clock if the minute is
 *                                         "00": "9:30" is nine thirty, "9:00" is nine o'clock, "00:00" is o'clock alone
 *    5  hwk_split_time_meridiem           as row 4, but without o'clock; then hwk_letters of the meridiem: "9:30am" is
 *                                         nine thirty _a m, "9:00am" is nine _a m
 *   5a  digits, one hyphen, digits        a range: what stands before the hyphen, from row 1 on; then to; then what stands behind
 *                                         it, from row 1 on: "12-18" is twelve to eighteen, "007-5" zero zero seven to five
 *   5b  hwk_is_digits_slash_digits        a fraction: "1/2", and no other name, is a half. Else, with the first number below the
 *                                         second, hwk_cardinal of the first, hwk_ordinal of the second and, if the first is above
 *                                         1, the word 's: "5/8" is five eighth 's, "01/2" one second. Else hwk_cardinal of both
 *                                         with slash between: "8/5" is eight slash five. The values decide, at any length
 *    6  hwk_is_leading_zero_digits        hwk_digits
 *    7  hwk_is_digits                     hwk_cardinal
 *    8  hwk_is_double                     hwk_real
 *    9  hwk_is_ordinal                    hwk_ordinal of the name without its last two bytes
 *   10  a name that ends in %             what stands before the sign, from row 1 on; then per cent
 *   11  hwk_split_unit                    hwk_cardinal of the number, then hwk_unit_word of the unit
 *   12  any other                         the name as one word, A to Z in lower case
 * A line may have no words: an empty name, "000,000". */

/* The rows by number, in the order in which they take names. Rows 5a and 5b came later than the others. */
#define HWK_ROW_EMPTY 1
#define HWK_ROW_DOTTED 2
#define HWK_ROW_COMMA_INT 3
#define HWK_ROW_TIME 4
#define HWK_ROW_MERIDIEM 5
#define HWK_ROW_RANGE 13    /* 5a */
#define HWK_ROW_FRACTION 14 /* 5b */
#define HWK_ROW_LEADING_ZERO 6
#define HWK_ROW_DIGITS 7
#define HWK_ROW_FIGURE 8
#define HWK_ROW_ORDINAL 9
#define HWK_ROW_PERCENT 10
#define HWK_ROW_UNIT 11
#define HWK_ROW_ONE_WORD 12

/* The signs of row 8, figures. */
#define HWK_PLUS 1
#define HWK_MINUS 2

typedef struct hwk_entry {
    uint8_t refusal; /* HWK_ACCEPTED or a refusal's number; if it is a refusal's, every field below is 0 */
    uint8_t row;     /* the row that took the name, by its number: one of HWK_ROW_.. */
    uint8_t sign;    /* in row 8 HWK_MINUS if the name starts with a minus, else HWK_PLUS; in any other row 0 */
    size_t words;    /* how many words the line has */
    size_t bytes;    /* how many bytes the line has, its LF included, at the front of `out` */
} hwk_entry;

/* Room for the call of every sheet of up to `len` bytes, and for the line of every name of up to `len` bytes. This is proved. So
 * HWK_CALL_MOST(HWK_NAME_LIMIT) is room for every line. A call that is lent so much writes at once; one that is lent less
 * measures first. */
#define HWK_CALL_MOST(len) (11 * (size_t)(len) + 11)

/* Calls entry `number` of the sheet: writes its line to the front of `out`. The sheet is walked from its start, so an entry far
 * behind costs more, and each call tests the whole sheet again. To call all entries at once, call the sheet. After
 * HWK_NAME_TOO_LONG the other entries can still be called.
 * Tests: HWK_TEXT_TOO_LONG, HWK_NOT_UTF8, HWK_CONTROL_BYTE, HWK_NO_SUCH_ENTRY, HWK_NAME_TOO_LONG if this entry's name is too long
 * (other names do not count), HWK_BUFFER_TOO_SHORT if `out` is shorter than the line. */
hwk_entry hwk_call_entry(const uint8_t *s, size_t s_len, size_t number, uint8_t *out, size_t out_len);

typedef struct hwk_sheet {
    uint8_t refusal; /* HWK_ACCEPTED or a refusal's number; if it is a refusal's, every field below is 0 */
    size_t tokens;   /* how many entries the sheet has, and so how many lines */
    size_t words;    /* how many words all lines have */
    size_t bytes;    /* how many bytes all lines have, at the front of `out` */
} hwk_sheet;

/* Calls the whole sheet: writes the lines of all entries, in order and with nothing between, to the front of `out`. A sheet
 * without entries, the empty one among them, has no lines and fits an empty buffer.
 * Tests: HWK_TEXT_TOO_LONG, HWK_NOT_UTF8, HWK_CONTROL_BYTE, HWK_NAME_TOO_LONG if any name is too long, HWK_BUFFER_TOO_SHORT if
 * `out` is shorter than all lines. */
hwk_sheet hwk_call_sheet(const uint8_t *s, size_t s_len, uint8_t *out, size_t out_len);

/* Is the name a clear one? Take two sheets that hwk_call_sheet accepts and that have clear names alone. They have the same call
 * sheet exactly if they have equally many entries, the same names in the same order, and sentences that start at the same
 * entries. This is proved. It is about the words as they are written: "2" and "to" are both clear, though two and to sound
 * alike. "Plain" digits are "0", or digits with no 0 in front. Clear names are:
 *   - one or more digits
 *   - plain digits; there may be a minus before them, a point with digits behind them, and at the end an e with plain digits,
 *     which may have a + or a - before them: "-1.50e+3"
 *   - either of these with one % behind it
 *   - a plain hour of 1 or 2 digits, a colon, and a minute of 00 to 59: "9:00", "12:05"; am or pm may follow: "9:00am"
 *   - one or more digits, a hyphen, one or more digits, and no % behind them: "12-18", "007-5"
 *   - plain digits and their right suffix: "1st", "11th", "22nd"
 *   - plain digits and one of  LB ft kg km cm mm ml oz hz KHz MHz GHz KB GB MB TB
 *   - two or more capitals with single points between: "A.B"
 *   - two or more letters a to z, but not zero to nineteen, twenty, thirty, to ninety, their ordinal forms, thousand, million or
 *     billion: "rack", "to", "hundred", but not "one", "first", "thousand"
 * A name that is not clear may have the same words as one that is: "09:00" as "9:00", "5lb" as "5LB". Fractions are not clear:
 * "100/21000" and "120/1000" are both one hundred twenty one thousandth 's. Reads `s`, a name and not a sheet, and writes
 * nothing.
 * Tests: HWK_TEXT_TOO_LONG, HWK_NOT_UTF8, HWK_CONTROL_BYTE. */
hwk_verdict hwk_is_clear(const uint8_t *s, size_t s_len);

#ifdef __cplusplus
}
#endif

#endif
