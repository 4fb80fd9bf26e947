/* What the header says of tokens, sentences and states must be what the library does. */
#include <assert.h>
#include <stdlib.h>
#include <string.h>

#include "howhakiru.h"

/* The bytes of a buffer that no call has written. */
#define UNTOUCHED 0xA5

/* A text, and the lengths of the four parts of its first token. */
static const struct {
    const char *text;
    size_t len[4];
} cuts[] = {
    {"(21st)?", {0, 1, 4, 2}},
    {"?!", {0, 0, 1, 1}},
    {"?", {0, 0, 1, 0}},
    {"\" ", {0, 1, 0, 0}},
    {"\"", {0, 0, 1, 0}},
    {" \t\n\rRack 5mm.", {4, 0, 4, 0}},
    {"\"'`({[a", {0, 6, 1, 0}},
    {"a\"'`.,:;!?(){}[]", {0, 0, 1, 15}},
};

/* A text, and for each token whether it starts a sentence, in the order of the header's lines. */
static const struct {
    const char *text, *starts;
} sentence_starts[] = {
    {"a\n\nb", "11"}, {"a\n \nb", "11"}, {"a\nb", "10"}, {"Yahoo!\n\nb", "11"},
    {"yAHOO! b", "10"}, {"yahoo?! b", "10"}, {"yahoo! B", "11"}, {"yahoo! \xc3\xa9", "11"}, {"yahoo? b", "11"},
    {"yahoos! b", "11"},
    {"a: b", "11"}, {"a? b", "11"}, {"a! b", "11"},
    {"ended, Then", "10"}, {"a ? B", "100"},
    {"ended. then", "10"}, {"a. ( B", "100"},
    {"Dr.  Smith", "11"},
    {"Dr. Smith", "10"}, {"Dr.\nSmith", "10"}, {"Rev. Smith", "10"}, {"ended.inA. Then", "10"},
    {"9:30. Rack", "11"}, {"Then. Then", "11"}, {"a. \"B", "11"}, {"\xc3\x89. B", "11"},
};

static const uint8_t *bytes(const char *text) { return (const uint8_t *)text; }

static int untouched(const uint8_t *from, const uint8_t *to)
{
    while (from < to && *from == UNTOUCHED) from++;
    return from == to;
}

static int answers(hwk_tokens call, uint8_t refusal, size_t tokens) { return call.refusal == refusal && call.tokens == tokens; }

static void check_cuts(void)
{
    uint8_t table[HWK_TOKENS_TABLE_MOST(20)];
    for (size_t i = 0; i < sizeof cuts / sizeof cuts[0]; i++) {
        size_t len = strlen(cuts[i].text), end = 0;
        assert(hwk_tokenize(bytes(cuts[i].text), len, table, HWK_TOKENS_TABLE_MOST(len)).tokens > 0);
        for (size_t part = HWK_WHITESPACE; part <= HWK_PUNCTUATION; part++) {
            assert(hwk_token_at(table, 0, part) == end && hwk_token_len(table, 0, part) == cuts[i].len[part]);
            end += cuts[i].len[part];
        }
    }
    assert(answers(hwk_tokenize(bytes("Rack 5mm."), 9, table, sizeof table), HWK_ACCEPTED, 2));
    assert(hwk_token_at(table, 1, HWK_NAME) == 5 && hwk_token_len(table, 1, HWK_NAME) == 3);
    assert(hwk_token_at(table, 1, HWK_PUNCTUATION) == 8 && hwk_token_len(table, 1, HWK_PUNCTUATION) == 1);
}

/* A text of `len` bytes with as many tokens as it can have. */
static void fill(uint8_t *text, size_t len)
{
    for (size_t i = 0; i < len; i++) text[i] = i % 2 == 0 ? 'a' : ' ';
}

/* A buffer of a byte less than the result is refused. The result's own size suffices, and so does the header's. */
static void check_room(size_t len)
{
    size_t count = (len + 1) / 2, size = HWK_TOKEN_BYTES * count;
    size_t table_most = HWK_TOKENS_TABLE_MOST(len), starts_most = HWK_TOKENS_STARTS_MOST(len);
    uint8_t *text = malloc(len + 1), *table = malloc(table_most), *starts = malloc(starts_most);
    assert(text != NULL && table != NULL && starts != NULL);
    fill(text, len);
    memset(table, UNTOUCHED, table_most);
    memset(starts, UNTOUCHED, starts_most);
    if (count > 0) {
        assert(answers(hwk_tokenize(text, len, table, size - 1), HWK_BUFFER_TOO_SHORT, 0));
        assert(answers(hwk_sentences(text, len, starts, count - 1), HWK_BUFFER_TOO_SHORT, 0));
    }
    assert(untouched(table, table + table_most) && untouched(starts, starts + starts_most));
    assert(answers(hwk_tokenize(text, len, table, size), HWK_ACCEPTED, count));
    assert(answers(hwk_sentences(text, len, starts, count), HWK_ACCEPTED, count));
    assert(answers(hwk_tokenize(text, len, table, table_most), HWK_ACCEPTED, count));
    assert(answers(hwk_sentences(text, len, starts, starts_most), HWK_ACCEPTED, count));
    assert(untouched(table + size, table + table_most) && untouched(starts + count, starts + starts_most));
    free(starts);
    free(table);
    free(text);
}

/* The refusals in their order, and what fits empty buffers. */
static void check_refusals(void)
{
    static uint8_t text[HWK_TEXT_LIMIT + 1];
    fill(text, sizeof text);
    text[0] = 0xFF;
    assert(answers(hwk_tokenize(text, sizeof text, NULL, 0), HWK_TEXT_TOO_LONG, 0));
    assert(answers(hwk_sentences(text, sizeof text, NULL, 0), HWK_TEXT_TOO_LONG, 0));
    assert(answers(hwk_tokenize(text, HWK_TEXT_LIMIT, NULL, 0), HWK_NOT_UTF8, 0));
    assert(answers(hwk_sentences(text, HWK_TEXT_LIMIT, NULL, 0), HWK_NOT_UTF8, 0));
    text[0] = 0x1F;
    assert(answers(hwk_tokenize(text, sizeof text, NULL, 0), HWK_TEXT_TOO_LONG, 0));
    assert(answers(hwk_sentences(text, sizeof text, NULL, 0), HWK_TEXT_TOO_LONG, 0));
    assert(answers(hwk_tokenize(text, HWK_TEXT_LIMIT, NULL, 0), HWK_CONTROL_BYTE, 0));
    assert(answers(hwk_sentences(text, HWK_TEXT_LIMIT, NULL, 0), HWK_CONTROL_BYTE, 0));
    assert(answers(hwk_tokenize(NULL, 0, NULL, 0), HWK_ACCEPTED, 0));
    assert(answers(hwk_sentences(NULL, 0, NULL, 0), HWK_ACCEPTED, 0));
    assert(answers(hwk_tokenize(bytes(" \n"), 2, NULL, 0), HWK_ACCEPTED, 0));
    assert(answers(hwk_sentences(bytes(" \n"), 2, NULL, 0), HWK_ACCEPTED, 0));
}

static hwk_step push_token(hwk_state state, const uint8_t *text, const uint8_t *table, size_t i)
{
    return hwk_push(state, text + hwk_token_at(table, i, HWK_WHITESPACE), hwk_token_len(table, i, HWK_WHITESPACE),
                    text + hwk_token_at(table, i, HWK_NAME), hwk_token_len(table, i, HWK_NAME),
                    text + hwk_token_at(table, i, HWK_PUNCTUATION), hwk_token_len(table, i, HWK_PUNCTUATION));
}

/* Both forms, on the same tokens. */
static void check_sentences(void)
{
    uint8_t table[HWK_TOKENS_TABLE_MOST(20)], starts[HWK_TOKENS_STARTS_MOST(20)];
    for (size_t i = 0; i < sizeof sentence_starts / sizeof sentence_starts[0]; i++) {
        const uint8_t *text = bytes(sentence_starts[i].text);
        size_t len = strlen(sentence_starts[i].text), count = strlen(sentence_starts[i].starts);
        hwk_state state = hwk_fresh();
        assert(answers(hwk_tokenize(text, len, table, sizeof table), HWK_ACCEPTED, count));
        assert(answers(hwk_sentences(text, len, starts, sizeof starts), HWK_ACCEPTED, count));
        for (size_t k = 0; k < count; k++) {
            hwk_step step = push_token(state, text, table, k);
            assert(starts[k] == sentence_starts[i].starts[k] - '0');
            assert(step.refusal == HWK_ACCEPTED && step.breaks == (k > 0 && starts[k]));
            state = step.state;
        }
    }
}

static const hwk_state fresh = {0, {0, 0, 0, 0, 0}, 0, 0, 0, 0, 0, 1};
static const hwk_state empty = {0, {0, 0, 0, 0, 0}, 0, 0, 0, 0, 0, 0};
static const hwk_state racks = {5, {'R', 'a', 'c', 'k', 's'}, 's', 1, 0, 1, 0, 0};
static const hwk_state of_5m = {2, {'5', 'm', 0, 0, 0}, 'm', 0, 1, 0, 1, 0};
static const hwk_state longer = {8, {'a', 'b', 'c', 'd', 'e'}, 'h', 0, 0, 0, 0, 0};
static const hwk_state odd = {(size_t)-1, {0xFF, 0, 1, 2, 3}, 0x80, 2, 0xFF, 128, 3, 0}; /* comes from no step */
static const hwk_state odd_fresh = {9, {'y', 'a', 'h', 'o', 'o'}, 0, 1, 1, 1, 1, 254};

static int same(hwk_state a, hwk_state b)
{
    return a.len == b.len && memcmp(a.head, b.head, sizeof a.head) == 0 && a.last == b.last && a.point == b.point &&
           a.colon == b.colon && a.question == b.question && a.exclamation == b.exclamation && a.fresh == b.fresh;
}

static hwk_step push(hwk_state state, const char *whitespace, const char *name, const char *punctuation)
{
    return hwk_push(state, bytes(whitespace), strlen(whitespace), bytes(name), strlen(name), bytes(punctuation),
                    strlen(punctuation));
}

static int goes(hwk_step step, uint8_t breaks, hwk_state state)
{
    return step.refusal == HWK_ACCEPTED && step.breaks == breaks && same(step.state, state);
}

static int hands_back(hwk_step step, uint8_t refusal, hwk_state state)
{
    return step.refusal == refusal && step.breaks == 0 && same(step.state, state);
}

static void check_states(void)
{
    static uint8_t text[HWK_TEXT_LIMIT + 1];
    memset(text, ' ', sizeof text);
    assert(same(hwk_fresh(), fresh));
    assert(goes(push(fresh, "\n\n", "Racks", ".?."), 0, racks));
    assert(goes(push(racks, " ", "5m", "(!:)"), 1, of_5m));
    assert(goes(push(of_5m, " ", "abcdefgh", ""), 1, longer));
    assert(goes(push(longer, " ", "", ""), 0, empty));
    assert(goes(push(odd, " ", "", ""), 1, empty));
    assert(goes(push(odd_fresh, "\n\n", "", ""), 0, empty));
    assert(goes(hwk_push(empty, text, HWK_TEXT_LIMIT, NULL, 0, text, HWK_TEXT_LIMIT), 0, empty));

    assert(hands_back(push(odd, "\n\n", "\xff", ""), HWK_NOT_UTF8, odd));
    assert(hands_back(push(odd_fresh, "\xff", "a", "."), HWK_NOT_UTF8, odd_fresh));
    assert(hands_back(push(racks, "\n\n", "a", "\xc3"), HWK_NOT_UTF8, racks));
    assert(hands_back(push(odd, "\x1f", "A", "."), HWK_CONTROL_BYTE, odd));
    assert(hands_back(push(racks, "\n\n", "\x0b", ""), HWK_CONTROL_BYTE, racks));
    assert(hands_back(push(odd_fresh, "", "a", "!\x7f"), HWK_CONTROL_BYTE, odd_fresh));
    assert(hands_back(hwk_push(fresh, bytes("\0"), 1, NULL, 0, NULL, 0), HWK_CONTROL_BYTE, fresh));
    assert(goes(push(longer, "\t\r", "", ""), 0, empty));

    /* The first test wins, whichever text does not pass it. */
    assert(hands_back(push(odd, "\x1f", "A", "\xff"), HWK_NOT_UTF8, odd));
    assert(hands_back(push(odd, " ", "\x1f\xff", "\x01"), HWK_NOT_UTF8, odd));
    assert(hands_back(push(odd, "\xff", "A", "\x1f"), HWK_NOT_UTF8, odd));
    assert(hands_back(hwk_push(fresh, bytes("\0"), 1, NULL, 0, text, sizeof text), HWK_TEXT_TOO_LONG, fresh));
    assert(hands_back(hwk_push(fresh, text, sizeof text, bytes("\0"), 1, NULL, 0), HWK_TEXT_TOO_LONG, fresh));
    assert(hands_back(hwk_push(fresh, bytes("\xff"), 1, text, sizeof text, NULL, 0), HWK_TEXT_TOO_LONG, fresh));
    assert(hands_back(hwk_push(fresh, NULL, 0, bytes("\xff"), 1, text, sizeof text), HWK_TEXT_TOO_LONG, fresh));
    assert(hands_back(hwk_push(fresh, text, sizeof text, NULL, 0, bytes("\xff"), 1), HWK_TEXT_TOO_LONG, fresh));
}

int main(void)
{
    check_cuts();
    for (size_t len = 0; len < 20; len++) check_room(len);
    check_room(HWK_TEXT_LIMIT);
    check_refusals();
    check_sentences();
    check_states();
    return 0;
}
