/* What the header says of stack: each call runs on a stack that is filled with one byte before, and the bytes that it
 * changed are counted.
 * Link with -z now: else the first call of memcpy also counts the stack that the dynamic linker takes to find it. */
#define _XOPEN_SOURCE 600
#include <assert.h>
#include <stdio.h>
#include <string.h>
#include <ucontext.h>

#include "howhakiru.h"

#define PAINT 0xC3
#define MOST 4096             /* the header's bounds: on every call but the two that call entries, */
#define CALL_MOST 8192        /* on those two, on sheets without a name that ends in %, */
#define LEVEL_MOST 80         /* what each % at an entry's end adds, */
#define PERCENT_MOST (512 << 10) /* and on all sheets */

typedef hwk_verdict verdict(const uint8_t *s, size_t s_len);
typedef hwk_words reading(const uint8_t *s, size_t s_len, uint8_t *store, size_t store_len, uint8_t *table, size_t table_len);

static verdict *const verdicts[] = {
    hwk_is_digits, hwk_is_alpha, hwk_is_double, hwk_is_comma_int, hwk_is_ordinal, hwk_is_us_money, hwk_is_illion,
    hwk_is_roman, hwk_is_dr_or_st, hwk_is_number_s, hwk_is_leading_zero_digits, hwk_is_seven_digit_phone, hwk_is_time,
    hwk_is_dotted_abbrev, hwk_is_digits_slash_digits, hwk_is_digits_dash_digits,
};

static reading *const readings[] = {hwk_cardinal, hwk_ordinal, hwk_year, hwk_digits, hwk_real, hwk_letters};

static const char *const names[] = {
    "", "9:30am", "5kg", "kg", "mm", "-1.5e+10", "1,234,567", "U.S.A.", "1998-1999", "caf\xc3\xa9", "\xed\xa0\x80", "XIV",
    "0", "1984", "777777777777", "000000000001", "7777777777777", "-777777777777.5e-777777777777",
    "12-18", "777777777777-777777777777", "000000000001-7777777777777", "1/2", "5/8", "777777777776/777777777777", "8/5",
    "(21st)?", "\"", "yahoo! a", "Dr. Smith ended.\n\nThen",
};

/* What a long text repeats: whole characters, digits, pairs, signs, letters of numbers, marks and whitespace. */
static const char *const repeated[] = {"\xc3\xa9", "7",  "00", "-+",  "777777777777e", ".",        "1-",
                                       "IM",       "aZ", "(",  "\n", "a ",            "Rack. ( ", "1/"};

/* What stands before many %: nothing, figures, ranges and fractions. */
static const char *const before[] = {"", "5", "777777777777", "-777777777777.5e7", "12-18", "777777777777-777777777777", "5/8",
                                     "777777777776/777777777777"};

static uint8_t stack[1 << 20], sheet[HWK_TEXT_LIMIT], called[HWK_CALL_MOST(HWK_TEXT_LIMIT)];
static uint8_t store[HWK_WORDS_STORE_MOST(HWK_TEXT_LIMIT)], table[HWK_WORDS_TABLE_MOST(HWK_TEXT_LIMIT)];
static const uint8_t *text;
static size_t text_len, which;

static void nothing(void) {}
static void one_verdict(void) { verdicts[which](text, text_len); }
static void n_digits(void) { hwk_is_n_digits(text, text_len, 4); }
static void split_time(void) { hwk_split_time_meridiem(text, text_len); }
static void split_unit(void) { hwk_split_unit(text, text_len); }
static void unit_word(void) { hwk_unit_word(text, text_len, store, sizeof store); }
static void one_reading(void) { readings[which](text, text_len, store, sizeof store, table, sizeof table); }
static void measured(void) { readings[which](text, text_len, store, 0, table, 0); } /* before it is refused */
static void roman_value(void) { hwk_roman_value(text, text_len); }
static void tokenize(void) { hwk_tokenize(text, text_len, store, sizeof store); }
static void sentences(void) { hwk_sentences(text, text_len, table, sizeof table); }
static void counted(void) { hwk_tokenize(text, text_len, store, 0); } /* before it is refused */
static void counted_starts(void) { hwk_sentences(text, text_len, table, 0); }
static void steps(void)
{
    hwk_state state = hwk_push(hwk_fresh(), text, text_len, text, text_len, text, text_len).state;
    hwk_push(state, text, text_len, text, text_len, text, text_len);
}

static void is_clear(void) { hwk_is_clear(text, text_len); }
static void call_sheet(void) { hwk_call_sheet(text, text_len, called, sizeof called); }
static void call_entry(void) { hwk_call_entry(text, text_len, 0, called, sizeof called); }
static void measured_sheet(void) { hwk_call_sheet(text, text_len, called, 0); } /* before it is refused */
static void measured_entry(void) { hwk_call_entry(text, text_len, 0, called, 0); }

/* The bytes that f touches, its way in and out included. */
static size_t touched(void (*f)(void))
{
    static ucontext_t here, there;
    size_t untouched = 0;

    memset(stack, PAINT, sizeof stack);
    assert(getcontext(&there) == 0);
    there.uc_stack.ss_sp = stack;
    there.uc_stack.ss_size = sizeof stack;
    there.uc_link = &here;
    makecontext(&there, f, 0);
    assert(swapcontext(&here, &there) == 0);
    while (untouched < sizeof stack && stack[untouched] == PAINT) untouched++;
    return sizeof stack - untouched;
}

static size_t larger(size_t a, size_t b) { return a < b ? b : a; }

static size_t most_of_calls(void)
{
    size_t most = 0;

    for (which = 0; which < sizeof verdicts / sizeof verdicts[0]; which++) most = larger(most, touched(one_verdict));
    for (which = 0; which < sizeof readings / sizeof readings[0]; which++) most = larger(most, touched(one_reading));
    for (which = 0; which < sizeof readings / sizeof readings[0]; which++) most = larger(most, touched(measured));
    most = larger(most, touched(roman_value));
    most = larger(most, touched(tokenize));
    most = larger(most, touched(sentences));
    most = larger(most, touched(counted));
    most = larger(most, touched(counted_starts));
    most = larger(most, touched(steps));
    most = larger(most, touched(n_digits));
    most = larger(most, touched(split_time));
    most = larger(most, touched(split_unit));
    most = larger(most, touched(is_clear));
    return larger(most, touched(unit_word));
}

static size_t most_of_entries(void)
{
    size_t most = larger(touched(call_sheet), touched(call_entry));

    most = larger(most, touched(measured_sheet));
    return larger(most, touched(measured_entry));
}

/* A text of so many bytes at most, as far as whole repetitions reach. */
static void repeat(const char *piece, size_t most)
{
    size_t i, len = strlen(piece);

    for (i = 0; i < most; i++) sheet[i] = (uint8_t)piece[i % len];
    text = sheet;
    text_len = most / len * len;
}

/* An entry of so many %, with each of the beginnings before them. */
static size_t most_of_percents(size_t count)
{
    size_t most = 0, i;

    for (i = 0; i < sizeof before / sizeof before[0]; i++) {
        size_t len = strlen(before[i]);

        memcpy(sheet, before[i], len);
        memset(sheet + len, '%', count);
        text = sheet;
        text_len = len + count < HWK_NAME_LIMIT ? len + count : HWK_NAME_LIMIT;
        most = larger(most, most_of_entries());
    }
    return most;
}

static size_t within(const char *what, size_t bytes, size_t most)
{
    bytes -= touched(nothing);
    printf("stack: %s %lu bytes of stack at most\n", what, (unsigned long)bytes);
    return bytes < most;
}

int main(void)
{
    size_t most = 0, entries = 0, hundred, percents, i;

    for (i = 0; i < sizeof names / sizeof names[0]; i++) {
        text = (const uint8_t *)names[i];
        text_len = strlen(names[i]);
        most = larger(most, most_of_calls());
        entries = larger(entries, most_of_entries());
    }
    for (i = 0; i < sizeof repeated / sizeof repeated[0]; i++) {
        repeat(repeated[i], HWK_TEXT_LIMIT);
        most = larger(most, most_of_calls());
        entries = larger(entries, most_of_entries());
        repeat(repeated[i], HWK_NAME_LIMIT);
        entries = larger(entries, most_of_entries());
    }
    hundred = most_of_percents(100);
    percents = most_of_percents(HWK_NAME_LIMIT);
    return !(within("entries without % at their end need", entries, CALL_MOST)
             & within("an entry of 100 % needs", hundred, CALL_MOST + 100 * LEVEL_MOST)
             & within("an entry of 4,096 % needs", percents, CALL_MOST + HWK_NAME_LIMIT * LEVEL_MOST)
             & (percents < PERCENT_MOST) & (percents - hundred <= (HWK_NAME_LIMIT - 100) * LEVEL_MOST)
             & within("the other calls need", most, MOST));
}
