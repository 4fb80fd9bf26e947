/* The header's constants and layouts must be the library's. */
#include <assert.h>
#include <stddef.h>
#include <stdlib.h>
#include <string.h>

#include "howhakiru.h"

/* If a layout differs, the array has a negative size, which does not compile. */
#define SAME(name, test) typedef char name[(test) ? 1 : -1]
SAME(verdict_size, sizeof(hwk_verdict) == 2);
SAME(verdict_yes, offsetof(hwk_verdict, yes) == 1);
SAME(time_size, sizeof(hwk_time) == 56);
SAME(time_hour, offsetof(hwk_time, hour_at) == 8);
SAME(time_meridiem, offsetof(hwk_time, meridiem_len) == 48);
SAME(part_size, sizeof(hwk_part) == 24);
SAME(part_len, offsetof(hwk_part, len) == 16);
SAME(word_size, sizeof(hwk_word) == 16);
SAME(word_len, offsetof(hwk_word, len) == 8);
SAME(words_size, sizeof(hwk_words) == 24);
SAME(words_words, offsetof(hwk_words, words) == 8);
SAME(words_bytes, offsetof(hwk_words, bytes) == 16);
SAME(number_size, sizeof(hwk_number) == 8);
SAME(number_value, offsetof(hwk_number, value) == 4);
SAME(tokens_size, sizeof(hwk_tokens) == 16);
SAME(tokens_tokens, offsetof(hwk_tokens, tokens) == 8);
SAME(state_size, sizeof(hwk_state) == 24);
SAME(state_head, offsetof(hwk_state, head) == 8);
SAME(state_last, offsetof(hwk_state, last) == 13);
SAME(state_point, offsetof(hwk_state, point) == 14);
SAME(state_fresh, offsetof(hwk_state, fresh) == 18);
SAME(step_size, sizeof(hwk_step) == 32);
SAME(step_breaks, offsetof(hwk_step, breaks) == 1);
SAME(step_state, offsetof(hwk_step, state) == 8);
SAME(entry_size, sizeof(hwk_entry) == 24);
SAME(entry_row, offsetof(hwk_entry, row) == 1);
SAME(entry_sign, offsetof(hwk_entry, sign) == 2);
SAME(entry_words, offsetof(hwk_entry, words) == 8);
SAME(entry_bytes, offsetof(hwk_entry, bytes) == 16);
SAME(sheet_size, sizeof(hwk_sheet) == 32);
SAME(sheet_tokens, offsetof(hwk_sheet, tokens) == 8);
SAME(sheet_words, offsetof(hwk_sheet, words) == 16);
SAME(sheet_bytes, offsetof(hwk_sheet, bytes) == 24);

/* The numbers that document 01 gives to refusals 1 to 5, and document 02 to refusal 6. */
SAME(text_too_long, HWK_TEXT_TOO_LONG == 1);
SAME(not_utf8, HWK_NOT_UTF8 == 2);
SAME(no_such_entry, HWK_NO_SUCH_ENTRY == 3);
SAME(name_too_long, HWK_NAME_TOO_LONG == 4);
SAME(buffer_too_short, HWK_BUFFER_TOO_SHORT == 5);
SAME(control_byte, HWK_CONTROL_BYTE == 6);

/* The numbers that document 01 gives to rows 1 to 12, and document 02 to rows 5a and 5b. */
SAME(row_empty, HWK_ROW_EMPTY == 1);
SAME(row_dotted, HWK_ROW_DOTTED == 2);
SAME(row_comma_int, HWK_ROW_COMMA_INT == 3);
SAME(row_time, HWK_ROW_TIME == 4);
SAME(row_meridiem, HWK_ROW_MERIDIEM == 5);
SAME(row_leading_zero, HWK_ROW_LEADING_ZERO == 6);
SAME(row_digits, HWK_ROW_DIGITS == 7);
SAME(row_figure, HWK_ROW_FIGURE == 8);
SAME(row_ordinal, HWK_ROW_ORDINAL == 9);
SAME(row_percent, HWK_ROW_PERCENT == 10);
SAME(row_unit, HWK_ROW_UNIT == 11);
SAME(row_one_word, HWK_ROW_ONE_WORD == 12);
SAME(row_range, HWK_ROW_RANGE == 13);
SAME(row_fraction, HWK_ROW_FRACTION == 14);

/* The comparison with the Rust tests on every reading that these sums suffice. */
SAME(store_most, HWK_WORDS_STORE_MOST(1000) == 11011);
SAME(table_most, HWK_WORDS_TABLE_MOST(1000) == 16016);
SAME(tokens_table_most, HWK_TOKENS_TABLE_MOST(1000) == 16032);
SAME(tokens_starts_most, HWK_TOKENS_STARTS_MOST(1000) == 501);
SAME(call_most, HWK_CALL_MOST(1000) == 11011);

static const char *const units[] = {"LB", "LBS", "lb", "lbs", "ft", "FT", "kg", "km", "cm", "mm", "ml",
                                    "oz", "hz", "Hz", "HZ", "KHz", "MHz", "GHz", "KB", "GB", "MB", "TB"};

/* The limit is accepted, a byte more is refused, and so is a byte that is no UTF-8. */
static void check_texts(void)
{
    uint8_t *text = malloc(HWK_TEXT_LIMIT + 1);
    assert(text != NULL);
    memset(text, '5', HWK_TEXT_LIMIT + 1);
    hwk_verdict whole = hwk_is_digits(text, HWK_TEXT_LIMIT);
    hwk_verdict longer = hwk_is_digits(text, HWK_TEXT_LIMIT + 1);
    assert(whole.refusal == HWK_ACCEPTED && whole.yes == 1);
    assert(longer.refusal == HWK_TEXT_TOO_LONG && longer.yes == 0);
    text[0] = 0xFF;
    assert(hwk_is_digits(text, 1).refusal == HWK_NOT_UTF8);
    free(text);
}

/* Each word fits HWK_UNIT_WORD_MOST bytes, and some word takes them all. A store of a byte less than the word is refused. */
static void check_words(void)
{
    size_t most = 0;
    for (size_t i = 0; i < sizeof units / sizeof units[0]; i++) {
        const uint8_t *unit = (const uint8_t *)units[i];
        uint8_t store[HWK_UNIT_WORD_MOST];
        memset(store, 0xA5, sizeof store);
        size_t len = hwk_unit_word(unit, strlen(units[i]), store, sizeof store).len;
        assert(len > 0 && len <= HWK_UNIT_WORD_MOST);
        most = len > most ? len : most;
        memset(store, 0xA5, sizeof store);
        hwk_word cut = hwk_unit_word(unit, strlen(units[i]), store, len - 1);
        assert(cut.refusal == HWK_BUFFER_TOO_SHORT && cut.yes == 0 && cut.len == 0);
        for (size_t k = 0; k < sizeof store; k++) assert(store[k] == 0xA5);
    }
    assert(most == HWK_UNIT_WORD_MOST);
}

typedef hwk_words reading(const uint8_t *s, size_t s_len, uint8_t *store, size_t store_len, uint8_t *table, size_t table_len);

static reading *const readings[] = {hwk_cardinal, hwk_ordinal, hwk_year, hwk_digits, hwk_real, hwk_letters};

/* Texts with as many words, or as many bytes of them, as texts of their length can have. */
static const char *const longest[] = {"", "7", "77", "777", "7777", "7777777", "7777777777", "-777777777777", "aaaa", "-----",
                                      "7777777777e7777777777e7777777777", "777777777777777777777777777777777"};

/* The room that the header says always suffices does, for each reading. The words stand end to end, as the table says. */
static void check_room(void)
{
    static uint8_t store[HWK_WORDS_STORE_MOST(64)], table[HWK_WORDS_TABLE_MOST(64)];
    for (size_t i = 0; i < sizeof longest / sizeof longest[0]; i++) {
        for (size_t k = 0; k < sizeof readings / sizeof readings[0]; k++) {
            size_t len = strlen(longest[i]), end = 0;
            hwk_words read = readings[k]((const uint8_t *)longest[i], len, store, HWK_WORDS_STORE_MOST(len), table,
                                        HWK_WORDS_TABLE_MOST(len));
            assert(read.refusal == HWK_ACCEPTED);
            for (size_t w = 0; w < read.words; w++) {
                assert(hwk_word_at(table, w) == end && hwk_word_len(table, w) > 0);
                end += hwk_word_len(table, w);
            }
            assert(end == read.bytes);
        }
    }
}

/* The header's example, word by word, and the sizes that it names. */
static void check_reading(void)
{
    static const char *const words[] = {"nineteen", "eighty", "four"};
    uint8_t store[HWK_WORDS_STORE_MOST(4)], table[HWK_WORDS_TABLE_MOST(4)];
    hwk_words read = hwk_year((const uint8_t *)"1984", 4, store, sizeof store, table, sizeof table);
    assert(read.refusal == HWK_ACCEPTED && read.words == 3 && read.bytes == 18);
    for (size_t i = 0; i < read.words; i++) {
        assert(hwk_word_len(table, i) == strlen(words[i]));
        assert(memcmp(store + hwk_word_at(table, i), words[i], strlen(words[i])) == 0);
    }
    assert(hwk_cardinal((const uint8_t *)"", 0, NULL, 0, NULL, 0).refusal == HWK_ACCEPTED);
    assert(hwk_ordinal((const uint8_t *)"", 0, NULL, 0, NULL, 0).refusal == HWK_BUFFER_TOO_SHORT);
    assert(hwk_cardinal((const uint8_t *)"7777777777", 10, store, 0, table, 0).refusal == HWK_BUFFER_TOO_SHORT);
}

/* The numbers of a table, the lowest byte first. */
static void check_table(void)
{
    static const uint8_t table[16] = {0, 0, 0, 0, 4, 3, 2, 1, 0xF4, 0xF3, 0xF2, 0xF1, 0xFF, 0, 0, 0};
    assert(hwk_word_at(table, 0) == 0 && hwk_word_len(table, 0) == 0x01020304);
    assert(hwk_word_at(table, 1) == 0xF1F2F3F4 && hwk_word_len(table, 1) == 255);
}

typedef hwk_verdict verdict(const uint8_t *s, size_t s_len);

static verdict *const verdicts[] = {
    hwk_is_digits, hwk_is_alpha, hwk_is_double, hwk_is_comma_int, hwk_is_ordinal, hwk_is_us_money, hwk_is_illion, hwk_is_roman,
    hwk_is_dr_or_st, hwk_is_number_s, hwk_is_leading_zero_digits, hwk_is_seven_digit_phone, hwk_is_time, hwk_is_dotted_abbrev,
    hwk_is_digits_slash_digits, hwk_is_digits_dash_digits, hwk_is_clear,
};

/* What every call that takes one text must answer: this refusal, and nothing else. The store and the table stay as they are. */
static void check_refused(const uint8_t *text, size_t len, uint8_t refusal)
{
    uint8_t store[64], table[64];
    memset(store, 0xA5, sizeof store);
    memset(table, 0xA5, sizeof table);
    for (size_t i = 0; i < sizeof verdicts / sizeof verdicts[0]; i++) {
        hwk_verdict v = verdicts[i](text, len);
        assert(v.refusal == refusal && v.yes == 0);
    }
    hwk_verdict digits = hwk_is_n_digits(text, len, 4);
    assert(digits.refusal == refusal && digits.yes == 0);
    hwk_time time = hwk_split_time_meridiem(text, len);
    assert(time.refusal == refusal && time.yes == 0 && time.hour_len == 0 && time.minute_at == 0 && time.meridiem_at == 0);
    hwk_part unit = hwk_split_unit(text, len);
    assert(unit.refusal == refusal && unit.yes == 0 && unit.offset == 0 && unit.len == 0);
    hwk_word word = hwk_unit_word(text, len, store, sizeof store);
    assert(word.refusal == refusal && word.yes == 0 && word.len == 0);
    for (size_t i = 0; i < sizeof readings / sizeof readings[0]; i++) {
        hwk_words ample = readings[i](text, len, store, sizeof store, table, sizeof table);
        hwk_words none = readings[i](text, len, NULL, 0, NULL, 0);
        assert(ample.refusal == refusal && ample.words == 0 && ample.bytes == 0);
        assert(none.refusal == refusal && none.words == 0 && none.bytes == 0);
    }
    hwk_number value = hwk_roman_value(text, len);
    assert(value.refusal == refusal && value.value == 0);
    hwk_tokens tokens = hwk_tokenize(text, len, table, sizeof table), starts = hwk_sentences(text, len, store, sizeof store);
    assert(tokens.refusal == refusal && tokens.tokens == 0 && starts.refusal == refusal && starts.tokens == 0);
    hwk_sheet sheet = hwk_call_sheet(text, len, store, sizeof store), unlent = hwk_call_sheet(text, len, NULL, 0);
    assert(sheet.refusal == refusal && sheet.tokens == 0 && sheet.words == 0 && sheet.bytes == 0 && unlent.refusal == refusal);
    for (size_t number = 0; number < 3; number++) {
        hwk_entry entry = hwk_call_entry(text, len, number, store, sizeof store);
        assert(entry.refusal == refusal && entry.row == 0 && entry.sign == 0 && entry.words == 0 && entry.bytes == 0);
        assert(hwk_call_entry(text, len, number, NULL, 0).refusal == refusal);
    }
    for (size_t i = 0; i < sizeof store; i++) assert(store[i] == 0xA5 && table[i] == 0xA5);
}

/* Which bytes are control bytes; and that one comes behind a text's length and its UTF-8, and before all else. */
static void check_control_bytes(void)
{
    static uint8_t text[HWK_TEXT_LIMIT + 1];
    for (unsigned byte = 0; byte < 0x80; byte++) {
        uint8_t one = (uint8_t)byte;
        int barred = (byte < 0x20 && byte != '\t' && byte != '\n' && byte != '\r') || byte == 0x7F;
        if (barred) check_refused(&one, 1, HWK_CONTROL_BYTE);
        else assert(hwk_is_digits(&one, 1).refusal == HWK_ACCEPTED);
    }
    assert(hwk_is_digits((const uint8_t *)"\xc2\x80\xc2\x9f\xe2\x80\xa8", 7).refusal == HWK_ACCEPTED);
    check_refused((const uint8_t *)"Bar\0 12", 7, HWK_CONTROL_BYTE);
    check_refused((const uint8_t *)"Bar\x1f 12\xff", 8, HWK_NOT_UTF8);
    memset(text, 'x', sizeof text);
    text[0] = 0;
    check_refused(text, HWK_NAME_LIMIT + 2, HWK_CONTROL_BYTE);
    check_refused(text, HWK_TEXT_LIMIT, HWK_CONTROL_BYTE);
    check_refused(text, HWK_TEXT_LIMIT + 1, HWK_TEXT_TOO_LONG);
    text[0] = 'x';
    text[HWK_TEXT_LIMIT - 1] = 0x7F;
    check_refused(text, HWK_TEXT_LIMIT, HWK_CONTROL_BYTE);
}

/* The largest value that there is, and refusals of a call without buffers. */
static void check_roman(void)
{
    uint8_t *text = malloc(HWK_TEXT_LIMIT + 1);
    assert(text != NULL);
    memset(text, 'M', HWK_TEXT_LIMIT + 1);
    hwk_number whole = hwk_roman_value(text, HWK_TEXT_LIMIT);
    hwk_number longer = hwk_roman_value(text, HWK_TEXT_LIMIT + 1);
    assert(whole.refusal == HWK_ACCEPTED && whole.value == 65536000);
    assert(longer.refusal == HWK_TEXT_TOO_LONG && longer.value == 0);
    text[0] = 0xFF;
    assert(hwk_roman_value(text, 2).refusal == HWK_NOT_UTF8);
    assert(hwk_roman_value((const uint8_t *)"IIX", 3).value == 8);
    free(text);
}

static hwk_entry first_entry(const char *sheet, uint8_t *out, size_t out_len)
{
    return hwk_call_entry((const uint8_t *)sheet, strlen(sheet), 0, out, out_len);
}

/* A name of each row, and the row's number; the two signs. */
static void check_rows(void)
{
    static const struct {
        const char *name;
        uint8_t row;
    } rows[] = {
        {"\" ", HWK_ROW_EMPTY},       {"A.B", HWK_ROW_DOTTED},    {"1,000", HWK_ROW_COMMA_INT}, {"9:30", HWK_ROW_TIME},
        {"9:30am", HWK_ROW_MERIDIEM}, {"7-12", HWK_ROW_RANGE},    {"7/12", HWK_ROW_FRACTION},   {"007", HWK_ROW_LEADING_ZERO},
        {"7", HWK_ROW_DIGITS},        {"7.5", HWK_ROW_FIGURE},    {"7th", HWK_ROW_ORDINAL},     {"7%", HWK_ROW_PERCENT},
        {"7mm", HWK_ROW_UNIT},        {"rack", HWK_ROW_ONE_WORD}, {"7-12%", HWK_ROW_PERCENT},   {"7/12%", HWK_ROW_PERCENT},
    };
    uint8_t out[HWK_CALL_MOST(8)];
    for (size_t i = 0; i < sizeof rows / sizeof rows[0]; i++) {
        hwk_entry called = first_entry(rows[i].name, out, sizeof out);
        assert(called.refusal == HWK_ACCEPTED && called.row == rows[i].row);
        assert(called.sign == (called.row == HWK_ROW_FIGURE ? HWK_PLUS : 0));
    }
    assert(first_entry("-7", out, sizeof out).sign == HWK_MINUS);
    assert(first_entry("-7%", out, sizeof out).sign == 0);
    assert(first_entry("", out, sizeof out).refusal == HWK_NO_SUCH_ENTRY);
}

/* A name at the limit is called, and a longer one is not. The room that the header says always suffices does, for the longest
 * calls. */
static void check_calls(void)
{
    static const char *const repeated[] = {"%",  "777777777777 ", "777777777777e", "7 ",   "a.",
                                           "( ", "-7777777777 ",  "7-7 ",          "7/7 ", "7/8 "};
    static uint8_t text[HWK_NAME_LIMIT + 1], out[HWK_CALL_MOST(HWK_NAME_LIMIT)];
    for (size_t i = 0; i < sizeof repeated / sizeof repeated[0]; i++) {
        for (size_t k = 0; k < HWK_NAME_LIMIT; k++) text[k] = (uint8_t)repeated[i][k % strlen(repeated[i])];
        hwk_sheet called = hwk_call_sheet(text, HWK_NAME_LIMIT, out, sizeof out);
        assert(called.refusal == HWK_ACCEPTED && called.bytes <= sizeof out);
        assert(hwk_call_sheet(text, HWK_NAME_LIMIT, out, called.bytes).bytes == called.bytes);
        assert(hwk_call_sheet(text, HWK_NAME_LIMIT, out, called.bytes - 1).refusal == HWK_BUFFER_TOO_SHORT);
    }
    memset(text, 'x', sizeof text);
    assert(hwk_call_entry(text, HWK_NAME_LIMIT, 0, out, sizeof out).bytes == HWK_NAME_LIMIT + 3);
    assert(hwk_call_entry(text, sizeof text, 0, out, sizeof out).refusal == HWK_NAME_TOO_LONG);
    assert(hwk_call_sheet(text, sizeof text, out, sizeof out).refusal == HWK_NAME_TOO_LONG);
    assert(hwk_call_sheet(NULL, 0, NULL, 0).refusal == HWK_ACCEPTED);
}

int main(void)
{
    check_texts();
    check_words();
    check_room();
    check_reading();
    check_table();
    check_control_bytes();
    check_roman();
    check_rows();
    check_calls();
    return 0;
}
