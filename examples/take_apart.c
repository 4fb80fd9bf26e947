/* Says of each name what the voice unit's reader makes of it, and reads it aloud if it is a number; takes a sheet apart into
 * its tokens and sentences.
 *
 * take_apart NAME..
 * take_apart --sheet FILE
 * take_apart: takes a few names and a sheet of its own. */
#include <stdio.h>
#include <string.h>

#include "howhakiru.h"

/* The verdicts that take the text alone, each with a name to print. */
static const struct {
    const char *name;
    hwk_verdict (*call)(const uint8_t *s, size_t s_len);
} shapes[] = {
    {"digits", hwk_is_digits},
    {"letters", hwk_is_alpha},
    {"decimal number", hwk_is_double},
    {"number with commas", hwk_is_comma_int},
    {"ordinal", hwk_is_ordinal},
    {"dollars", hwk_is_us_money},
    {"ends in illion", hwk_is_illion},
    {"roman numeral", hwk_is_roman},
    {"dr or st", hwk_is_dr_or_st},
    {"number with s", hwk_is_number_s},
    {"digits, 0 first", hwk_is_leading_zero_digits},
    {"phone number", hwk_is_seven_digit_phone},
    {"time", hwk_is_time},
    {"dotted letters", hwk_is_dotted_abbrev},
    {"fraction", hwk_is_digits_slash_digits},
    {"digits and hyphens", hwk_is_digits_dash_digits},
};

static const char *const some_names[] = {
    "12", "1998", "-1.5", "1,234", "21st", "$1,500.00", "million", "XIV", "St", "1990s", "007", "555-1234", "9:30",
    "9.30PM", "U.S.A.", "3/4", "1,000kg", "rack", "", "caf\xc3\xa9", "caf\xc3", "0005", "6.02e+23", "1000000000000",
    "-7777777777.7777777777e777777777",
};

static const char some_sheet[] =
    "Bar 12 at 9:30. Rack 5mm (21st)\n"
    "No. 7 by Dr. B. Smith: \"caf\xc3\xa9\".  Stop?!\n"
    "\n"
    "then yahoo! once more ? \" and ended. Rest (";

typedef hwk_words reading(const uint8_t *s, size_t s_len, uint8_t *store, size_t store_len, uint8_t *table, size_t table_len);

/* How a name of a shape is read aloud. A name may have several shapes, and then has several readings. */
static const struct {
    hwk_verdict (*shape)(const uint8_t *s, size_t s_len);
    const char *name;
    reading *read;
} readings[] = {
    {hwk_is_digits, "as a cardinal", hwk_cardinal},
    {hwk_is_comma_int, "as a cardinal", hwk_cardinal},
    {hwk_is_digits, "as a year", hwk_year},
    {hwk_is_leading_zero_digits, "as digits", hwk_digits},
    {hwk_is_seven_digit_phone, "as digits", hwk_digits},
    {hwk_is_double, "as a decimal number", hwk_real},
    {hwk_is_ordinal, "as an ordinal", hwk_ordinal},
    {hwk_is_dotted_abbrev, "as letters", hwk_letters},
};

/* There is room for every name of up to so many bytes. Many longer ones fit too; the others are refused. */
#define CALLED_MOST 16

/* The header's refusals in words. */
static void print_refusal(uint8_t refusal)
{
    const char *words = "for a reason that this program does not know";

    switch (refusal) {
    case HWK_TEXT_TOO_LONG: words = "the text is too long"; break;
    case HWK_NOT_UTF8: words = "the text is not UTF-8"; break;
    case HWK_CONTROL_BYTE: words = "the text holds a control byte"; break;
    case HWK_BUFFER_TOO_SHORT: words = "the buffers are too short for the result"; break;
    }
    printf("  refused: %s\n", words);
}

/* A part has no NUL at its end, so it is written by its length. */
static void print_part(const char *label, const uint8_t *start, size_t len)
{
    printf("  %s: ", label);
    fwrite(start, 1, len, stdout);
    printf("\n");
}

/* The words are parts of the store; the table says where each starts and how long it is. */
static void print_words(const char *label, reading *read, const uint8_t *text, size_t len)
{
    uint8_t store[HWK_WORDS_STORE_MOST(CALLED_MOST)], table[HWK_WORDS_TABLE_MOST(CALLED_MOST)];
    hwk_words words = read(text, len, store, sizeof store, table, sizeof table);
    size_t i;

    if (words.refusal != HWK_ACCEPTED) {
        print_refusal(words.refusal);
        return;
    }
    printf("  %s:", label);
    for (i = 0; i < words.words; i++) {
        printf(" ");
        fwrite(store + hwk_word_at(table, i), 1, hwk_word_len(table, i), stdout);
    }
    printf("\n");
}

static void print_time(const uint8_t *text, size_t len)
{
    hwk_time time = hwk_split_time_meridiem(text, len);

    if (time.yes) {
        print_part("hour", text + time.hour_at, time.hour_len);
        print_part("minute", text + time.minute_at, time.minute_len);
        print_part("meridiem", text + time.meridiem_at, time.meridiem_len);
    }
}

static void print_unit(const uint8_t *text, size_t len)
{
    uint8_t store[HWK_UNIT_WORD_MOST]; /* has room for every unit's word */
    hwk_part unit = hwk_split_unit(text, len);
    hwk_word word;

    if (!unit.yes) return;
    print_part("number", text, unit.offset);
    print_words("as a cardinal", hwk_cardinal, text, unit.offset);
    print_part("unit", text + unit.offset, unit.len);
    word = hwk_unit_word(text + unit.offset, unit.len, store, sizeof store);
    if (word.refusal != HWK_ACCEPTED) {
        print_refusal(word.refusal);
    } else if (word.yes) {
        print_part("unit's word", store, word.len);
    }
}

static void print_readings(const uint8_t *text, size_t len)
{
    size_t i;

    for (i = 0; i < sizeof readings / sizeof readings[0]; i++) {
        if (readings[i].shape(text, len).yes) {
            print_words(readings[i].name, readings[i].read, text, len);
        }
    }
    if (hwk_is_roman(text, len).yes) {
        printf("  value: %lu\n", (unsigned long)hwk_roman_value(text, len).value);
    }
}

static void print_name(const char *name)
{
    const uint8_t *text = (const uint8_t *)name;
    size_t len = strlen(name);
    uint8_t refusal = hwk_is_digits(text, len).refusal; /* the other calls would refuse this text alike */
    size_t i;

    if (refusal != HWK_ACCEPTED) {
        printf("a name of %lu bytes\n", (unsigned long)len);
        print_refusal(refusal);
        return;
    }
    printf("\"%s\"\n", name);
    for (i = 0; i < sizeof shapes / sizeof shapes[0]; i++) {
        if (shapes[i].call(text, len).yes) {
            printf("  %s\n", shapes[i].name);
        }
    }
    if (hwk_is_n_digits(text, len, 4).yes) {
        printf("  four digits\n");
    }
    print_time(text, len);
    print_unit(text, len);
    print_readings(text, len);
}

/* Room for every sheet and its tokens; the byte over the limit is for sheets that are too long, so that they are refused. */
static uint8_t sheet[HWK_TEXT_LIMIT + 1], tokens[HWK_TOKENS_TABLE_MOST(HWK_TEXT_LIMIT)];
static uint8_t starts[HWK_TOKENS_STARTS_MOST(HWK_TEXT_LIMIT)];

static const uint8_t *part(size_t i, size_t which) { return sheet + hwk_token_at(tokens, i, which); }
static size_t part_len(size_t i, size_t which) { return hwk_token_len(tokens, i, which); }
static void write_part(size_t i, size_t which) { fwrite(part(i, which), 1, part_len(i, which), stdout); }

/* One line for each token: + if it starts a sentence, else -; then the name, with its marks outside of the bars. */
static void print_tokens(size_t count)
{
    size_t i;

    for (i = 0; i < count; i++) {
        printf("  %c ", starts[i] ? '+' : '-');
        write_part(i, HWK_PREPUNCTUATION);
        printf("|");
        write_part(i, HWK_NAME);
        printf("|");
        write_part(i, HWK_PUNCTUATION);
        printf("\n");
    }
}

/* One line for each sentence, by the step form: it has no need of `starts`, nor of the tokens still to come. No step is
 * refused, since the parts of an accepted sheet are texts themselves. */
static void print_sentences(size_t count)
{
    hwk_state state = hwk_fresh();
    size_t i;

    for (i = 0; i < count; i++) {
        hwk_step step = hwk_push(state, part(i, HWK_WHITESPACE), part_len(i, HWK_WHITESPACE), part(i, HWK_NAME),
                                 part_len(i, HWK_NAME), part(i, HWK_PUNCTUATION), part_len(i, HWK_PUNCTUATION));

        if (step.breaks) printf("\n");
        printf(i == 0 || step.breaks ? "  sentence: " : " ");
        write_part(i, HWK_NAME);
        state = step.state;
    }
    if (count > 0) printf("\n");
}

/* Takes the first `len` bytes of `sheet` apart. */
static void print_sheet(size_t len)
{
    hwk_tokens found = hwk_tokenize(sheet, len, tokens, sizeof tokens);

    if (found.refusal != HWK_ACCEPTED) {
        printf("a sheet\n");
        print_refusal(found.refusal);
        return;
    }
    printf("a sheet of %lu bytes: %lu tokens\n", (unsigned long)len, (unsigned long)found.tokens);
    hwk_sentences(sheet, len, starts, sizeof starts); /* not refused: the text is the same, and there is room */
    print_tokens(found.tokens);
    print_sentences(found.tokens);
}

static int print_file(const char *name)
{
    FILE *file = fopen(name, "rb");
    size_t len = file == NULL ? 0 : fread(sheet, 1, sizeof sheet, file);
    int failed = file == NULL || ferror(file);

    if (failed) {
        perror(name);
    } else {
        print_sheet(len);
    }
    if (file != NULL) fclose(file);
    return failed;
}

int main(int argc, char **argv)
{
    size_t count = sizeof some_names / sizeof some_names[0], i;

    if (argc == 3 && strcmp(argv[1], "--sheet") == 0) {
        return print_file(argv[2]);
    }
    if (argc > 1) {
        for (i = 1; i < (size_t)argc; i++) print_name(argv[i]);
        return 0;
    }
    for (i = 0; i < count; i++) print_name(some_names[i]);
    memcpy(sheet, some_sheet, sizeof some_sheet - 1);
    print_sheet(sizeof some_sheet - 1);
    return 0;
}
