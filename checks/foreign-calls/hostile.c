/* hostile COUNT: makes calls on COUNT sets of texts, of which most are cut, changed or random, and prints how many calls it
   made, and how many were wrong. On each set it makes a call
   - with `out` of each size from 0 to one more than the answer has (of a long answer those at both ends);
   - with each growth of memory refused, alone and with all growths after it.
   Each text is in a block of its own size, for valgrind; behind `out` are bytes that no call may write. The linker puts the
   functions below in the place of the library's malloc, realloc and free (--wrap). */
#include <stdio.h>
#include <stdlib.h>
#include <string.h>
#include <upon.h>

void *__real_malloc(size_t size);
void *__real_realloc(void *old, size_t size);
void __real_free(void *block);

/* How many growths a call has had, the one that is refused (0: none), whether all after it are too, and the blocks in use. */
static long growths, refused, blocks;
static int all_after;

static int is_refused(void) {
    growths++;
    return refused && (growths == refused || (all_after && growths > refused));
}

void *__wrap_malloc(size_t size) {
    void *block = is_refused() ? NULL : __real_malloc(size);
    blocks += block != NULL;
    return block;
}

void *__wrap_realloc(void *old, size_t size) {
    void *block = is_refused() ? NULL : __real_realloc(old, size);
    blocks += block != NULL && old == NULL;
    return block;
}

void __wrap_free(void *block) {
    blocks -= block != NULL;
    __real_free(block);
}

/* Numbers that look random, the same in each run. */
static uint64_t state = 88172645463325252u;

static size_t below(size_t limit) {
    state ^= state << 13;
    state ^= state >> 7;
    state ^= state << 17;
    return (size_t)(state % limit);
}

enum { TEXTS = 4, MOST = 1 << 16, GUARD = 64, FILL = 0xa5, CALLS = 5 };

/* The texts of a call. */
struct text {
    uint8_t *bytes;
    size_t size;
};

static const char *const templates[] = {
    "{\"a\": \"{% include \\\"b\\\" %}{% for k, v in m %}{{ k }}={{ v }}{% else %}-{% endfor %}\","
    " \"b\": \"{{ t | verbatim }}\\n\"}",
    "{\"a\": \"{% if t %}{{ t }}{% else if u %}x{% endif %}{% with [t, 1] as x %}{{ x.0 }}{{ x.1 }}{% endwith %}{# c #}\"}",
    "{\"a\": \"x{% include \\\"a\\\" %}\"}",
    "{\"a\": \"{{ upper(t) }}{{ m.k }}{{ m?.z }}\", \"b\": \"{{\", \"c\": \"{% include \\\"d\\\" %}\"}",
    "{\"a\": \"\\u00e9\\ud83d\\ude00 {% raw %}{{ t }}{% endraw %}\", \"\": \"\"}",
};
static const char *const sources[] = {
    "{% for x in items %}{{ loop.index }}{{ x }}{% endfor %}",
    "Hello {{ t }}!\n",
    "{{ (t | lower: 1) }}",
    "{% if not t -%} x {%- endif %}{{",
    "\xef\xbb\xbf\xc3\xa9 {{ \"\\u{1F600}\" }}{{ {\"a\": [t, -9223372036854775808]}.a.1 }}",
};
static const char *const contexts[] = {
    "{\"t\": \"a<b>&'\\\"\", \"m\": {\"k\": 1, \"l\": -0.5e3}}",
    "[1, 2.50, true, \"x\"]",
    "{\"t\": \"\\u0000\\ud83d\\ude00\", \"u\": null}",
    "",
    "{\"t\": [[[[[[]]]]]], \"t\": \"\xc3\xa9\"}",
};
static const char *const names[] = {"a", "b", "d", "", "\xc3\xa9"};
static const char *const options[] = {
    "",
    "{\"html\": true, \"functions\": true}",
    "{\"escape\": \"json\", \"max_steps\": 9, \"max_output\": 30, \"max_memory\": 90}",
    "{\"syntax\": [[\"expr\", \"{{\", \"}}\"], [\"block\", \"{%\", \"%}\"]], \"max_include_depth\": 2}",
    "{\"colour\": 1}",
};
/* What upon_check gets in their place. */
static const char *const on_contexts[] = {
    "",
    "{\"samples\": [{\"t\": \"a\", \"m\": {\"k\": 1}}, {\"t\": null, \"m\": {}}], \"functions\": true}",
    "{\"samples\": [[1, 2.50], {\"t\": [[]]}], \"pages\": [\"a\"], \"escape\": \"shell\"}",
    "{\"schema\": {\"type\": \"object\", \"properties\": {\"t\": {\"type\": \"string\"}}}, \"html\": true}",
    "{\"syntax\": [[\"expr\", \"{{\", \"}}\"], [\"block\", \"{%\", \"%}\"]], \"samples\": [], \"max_include_depth\": 2}",
};

/* A text of its own block, that is one of five or what came of it. */
static struct text text_of(const char *const *five) {
    const char *from = five[below(5)];
    struct text text;
    size_t way = below(8), at, size = strlen(from), random = below(40);
    text.size = way == 0 ? below(size + 1) : way == 1 ? random : size;
    text.bytes = text.size == 0 ? NULL : __real_malloc(text.size);
    for (at = 0; at < text.size; at++) text.bytes[at] = way == 1 ? (uint8_t)below(256) : (uint8_t)from[at];
    if (way == 2 && text.size > 0) text.bytes[below(text.size)] = (uint8_t)below(256);
    if (way == 3 && text.size > 0) text.bytes[below(text.size)] = (uint8_t)"\"{}[]:,\\ 0"[below(10)];
    return text;
}

/* Whether bytes are UTF-8. */
static int is_utf8(const uint8_t *bytes, size_t size) {
    size_t at = 0;
    while (at < size) {
        uint8_t first = bytes[at], second = at + 1 < size ? bytes[at + 1] : 0;
        size_t length = first < 0x80 ? 1 : first < 0xc2 ? 9 : first < 0xe0 ? 2 : first < 0xf0 ? 3 : first < 0xf5 ? 4 : 9, next;
        if (length > size - at || (first == 0xe0 && second < 0xa0) || (first == 0xed && second > 0x9f)) return 0;
        if ((first == 0xf0 && second < 0x90) || (first == 0xf4 && second > 0x8f)) return 0;
        for (next = 1; next < length; next++)
            if ((bytes[at + next] & 0xc0) != 0x80) return 0;
        at += length;
    }
    return 1;
}

/* A set of texts, in the order of upon_render, and the call that gets them. */
static struct text texts[TEXTS];
static size_t call;
static uint8_t out[MOST + GUARD], answer[MOST];
static size_t size;
static long calls, wrong;

#define OF(at) texts[at].bytes, texts[at].size

/* Makes the call with so much of `out`. */
static uint8_t made(size_t out_len) {
    memset(out, FILL, out_len + GUARD);
    size = MOST + 1;
    growths = 0;
    calls++;
    switch (call) {
        case 0: return upon_render(OF(0), OF(1), OF(2), OF(3), out, out_len, &size);
        case 1: return upon_render_text(OF(0), OF(1), OF(3), out, out_len, &size);
        case 2: return upon_check(OF(0), OF(3), out, out_len, &size);
        case 3: return upon_names(OF(0), OF(2), OF(3), out, out_len, &size);
        default: return upon_version(out, out_len, &size);
    }
}

/* Whether `out` is as it was from a place on, with what is behind it. */
static int is_kept(size_t from, size_t out_len) {
    size_t at;
    for (at = from; at < out_len + GUARD; at++)
        if (out[at] != FILL) return 0;
    return 1;
}

/* Counts what is not so, and says what it was about. */
static void expect(int is_so, const char *what, uint8_t status, size_t out_len) {
    if (is_so) return;
    if (wrong++ < 20)
        fprintf(stderr, "hostile: call %lu, %s: status %d, size %lu, out_len %lu, growth %ld refused: %.*s | %.*s | %.*s | %.*s\n",
                (unsigned long)call, what, status, (unsigned long)size, (unsigned long)out_len, refused, (int)texts[0].size,
                (char *)texts[0].bytes, (int)texts[1].size, (char *)texts[1].bytes, (int)texts[2].size, (char *)texts[2].bytes,
                (int)texts[3].size, (char *)texts[3].bytes);
}

/* Compares a call with what it has to be: the status and the answer's size are those of a first call with room enough. */
static void compare(uint8_t wanted, size_t length, size_t out_len) {
    uint8_t status = made(out_len);
    int is_out = refused && status == UPON_OUT_OF_MEMORY, fits = length <= out_len;
    expect(is_out || status == (fits ? wanted : UPON_TOO_SMALL), "status", status, out_len);
    expect(size == (is_out ? 0 : length), "size", status, out_len);
    expect(is_kept(is_out || !fits ? 0 : length, out_len), "out is written", status, out_len);
    expect(is_out || !fits || memcmp(out, answer, length) == 0, "answer", status, out_len);
    expect(blocks == 0, "memory is kept", status, out_len);
}

/* Whether a call gets the text of this place. */
static int is_given(size_t at) {
    static const char *const given[CALLS] = {"0123", "013", "03", "023", ""};
    return strchr(given[call], (int)('0' + at)) != NULL;
}

/* Makes the calls on a set of texts. */
static void try_all(void) {
    uint8_t status = made(MOST);
    size_t length = size, out_len, at, bad = 0;
    long most = growths;
    for (at = 0; at < TEXTS; at++) bad += is_given(at) && !is_utf8(texts[at].bytes, texts[at].size);
    expect(status <= UPON_NOT_UTF8, "first status", status, MOST);
    expect((status == UPON_NOT_UTF8) == (bad > 0), "UTF-8", status, MOST);
    expect(length <= MOST && is_kept(length, MOST) && is_utf8(out, length), "first answer", status, MOST);
    if (length > MOST) return;
    memcpy(answer, out, length);
    for (out_len = 0; out_len <= length + 1; out_len++)
        if (out_len < 40 || out_len + 40 > length) compare(status, length, out_len);
    for (refused = 1; refused <= most + 1; refused++)
        for (all_after = 0; all_after <= 1; all_after++) compare(status, length, length);
    refused = 0;
}

int main(int count, char **words) {
    long left = count == 2 ? atol(words[1]) : 0;
    for (; left > 0; left--) {
        size_t at;
        call = below(CALLS);
        texts[0] = text_of(call == 1 ? sources : templates);
        texts[1] = text_of(contexts);
        texts[2] = text_of(names);
        texts[3] = text_of(call == 2 && below(2) ? on_contexts : options);
        try_all();
        for (at = 0; at < TEXTS; at++) __real_free(texts[at].bytes);
    }
    printf("%ld %ld\n", calls, wrong);
    return 0;
}
