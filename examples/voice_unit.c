/* What a voice unit does with the reader: it takes a sheet from a file and calls it, one entry at a time, by number. Here a line
 * is spoken by printing it.
 *
 * voice_unit FILE [NUMBER]: every entry in turn, or entry NUMBER alone. */
#include <stdio.h>
#include <stdlib.h>

#include "howhakiru.h"

/* The byte over the limit is for sheets that are too long, so that they are refused. */
static uint8_t sheet[HWK_TEXT_LIMIT + 1];

/* Room for the line of every entry. */
static uint8_t line[HWK_CALL_MOST(HWK_NAME_LIMIT)];

/* The names, to say of each entry whether its name is clear (see hwk_is_clear). */
static uint8_t tokens[HWK_TOKENS_TABLE_MOST(HWK_TEXT_LIMIT)];

/* The header's refusals in words. */
static const char *reason(uint8_t refusal)
{
    switch (refusal) {
    case HWK_TEXT_TOO_LONG: return "the sheet is too long";
    case HWK_NOT_UTF8: return "the sheet is not UTF-8";
    case HWK_CONTROL_BYTE: return "the sheet holds a control byte";
    case HWK_NO_SUCH_ENTRY: return "there is no entry of this number";
    case HWK_NAME_TOO_LONG: return "the entry's name is too long to be called";
    case HWK_BUFFER_TOO_SHORT: return "the line does not fit";
    }
    return "for a reason that this program does not know";
}

static int is_clear(size_t number)
{
    return hwk_is_clear(sheet + hwk_token_at(tokens, number, HWK_NAME), hwk_token_len(tokens, number, HWK_NAME)).yes;
}

/* Speaks one entry: its number, its line, and a note if its name is not clear. */
static uint8_t speak(size_t len, size_t number)
{
    hwk_entry called = hwk_call_entry(sheet, len, number, line, sizeof line);

    if (called.refusal == HWK_ACCEPTED) {
        printf("%4lu ", (unsigned long)number);
        fwrite(line, 1, called.bytes - 1, stdout); /* without its LF */
        printf("%s\n", is_clear(number) ? "" : "   (not a clear entry)");
    } else {
        printf("%4lu refused: %s\n", (unsigned long)number, reason(called.refusal));
    }
    return called.refusal;
}

static int speak_all(size_t len, size_t count)
{
    size_t number;
    int failed = 0;

    for (number = 0; number < count; number++) {
        failed |= speak(len, number) != HWK_ACCEPTED; /* a name that is too long holds back its own entry alone */
    }
    return failed;
}

static size_t load(const char *name)
{
    FILE *file = fopen(name, "rb");
    size_t len = file == NULL ? 0 : fread(sheet, 1, sizeof sheet, file);

    if (file == NULL || ferror(file)) {
        perror(name);
        exit(2);
    }
    fclose(file);
    return len;
}

int main(int argc, char **argv)
{
    size_t len;
    hwk_tokens found;

    if (argc != 2 && argc != 3) {
        fprintf(stderr, "usage: voice_unit FILE [NUMBER]\n");
        return 2;
    }
    len = load(argv[1]);
    found = hwk_tokenize(sheet, len, tokens, sizeof tokens);
    if (found.refusal != HWK_ACCEPTED) {
        printf("refused: %s\n", reason(found.refusal));
        return 1;
    }
    if (argc == 3) return speak(len, strtoul(argv[2], NULL, 10)) != HWK_ACCEPTED;
    return speak_all(len, found.tokens);
}
