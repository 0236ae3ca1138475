/* Runs the kit on a library with the functions of include/ledger.h and looking_independent of include/looking.h, or, compiled with -DENGINE, on
 * one with that of include/engine.h: an engine has no images, so it is asked for the replies to whole lists from a fresh session alone, and
 * the other tests are skipped.
 *
 *     cc -I include -o runner conformance/runner.c target/staticlib/libledger_c.a target/staticlib/liblooking_c.a && ./runner FILE ..
 */
#include <stdio.h>
#include <stdlib.h>
#include <string.h>
#ifdef ENGINE
#include "engine.h"
#else
#include "ledger.h"
#include "looking.h"
#endif

enum { IMAGE = 42616, OLD = 22132, BLANK = 0xa5 };

/* ---- JSON: a tree of nodes. Numbers are whole; a text's only escapes are those of " and \. */

struct node {
    char kind; /* o object, l list, s text, n number, t true, f false, 0 null */
    char *key, *text;
    uint64_t number;
    struct node *child, *next;
};

static const char *at;

static void fail(const char *what) {
    fprintf(stderr, "%s\n", what);
    exit(2);
}

static void *room(size_t size) {
    void *p = calloc(size ? size : 1, 1);
    if (!p) fail("no memory");
    return p;
}

static void blanks(void) { at += strspn(at, " \n\t\r"); }

static char *text(void) {
    char *whole = room(strcspn(at + 1, "\n") + 1), *to = whole;
    for (at++; *at && *at != '"'; at++) *to++ = *at == '\\' ? *++at : *at;
    at++;
    return whole;
}

static struct node *value(void) {
    struct node *n = room(sizeof *n), **last = &n->child;
    blanks();
    if (*at == '"') {
        n->kind = 's', n->text = text();
    } else if (*at == '{' || *at == '[') {
        n->kind = *at == '{' ? 'o' : 'l';
        for (at++, blanks(); *at != '}' && *at != ']'; blanks()) {
            char *key = n->kind == 'o' ? text() : NULL;
            blanks();
            if (key && *at++ != ':') fail("JSON: no colon");
            *last = value(), (*last)->key = key, last = &(*last)->next;
            blanks();
            if (*at == ',') at++, blanks();
            else if (*at != '}' && *at != ']') fail("JSON: no comma");
        }
        at++;
    } else if (*at >= '0' && *at <= '9') {
        char *end;
        n->kind = 'n', n->number = strtoull(at, &end, 10), at = end;
    } else {
        n->kind = *at == 't' || *at == 'f' ? *at : '0';
        at += strspn(at, "abcdefghijklmnopqrstuvwxyz");
    }
    return n;
}

static const struct node *get(const struct node *n, const char *key) {
    for (n = n->child; n && strcmp(n->key, key); n = n->next) {}
    return n;
}

static uint64_t number(const struct node *n, const char *key, uint64_t otherwise) {
    const struct node *m = get(n, key);
    return m ? m->kind == 't' ? 1 : m->number : otherwise;
}

/* ---- bytes */

struct bytes {
    uint8_t *at;
    size_t length;
};

static int digit(char c) { return c <= '9' ? c - '0' : c - 'a' + 10; }

/* What one test needs; it is used again by the next. */
static uint8_t arena[1 << 20];
static size_t used;

static struct bytes filled(size_t length, int with) {
    struct bytes b = {arena + used, length};
    if (length >= sizeof arena - used) fail("no room");
    used += length + 1;
    return memset(b.at, with, length), b;
}

static int same(struct bytes a, struct bytes b) { return a.length == b.length && !memcmp(a.at, b.at, a.length); }

static int blank(struct bytes b) { return same(b, filled(b.length, BLANK)); }

/* Steps or replies: words of hexadecimal digits, without the zeros at their end; zeros behind the list up to the length. */
static struct bytes words(const struct node *n, size_t length) {
    size_t count = 0, k = 0, i = 0;
    const char *c = n->text;
    for (; *c; c++) count += *c != ' ' && (c == n->text || c[-1] == ' ');
    struct bytes b = filled(length == (size_t)-1 ? 8 * count : length, 0);
    for (c = n->text; *c; c++) {
        if (*c == ' ') k++, i = 0;
        else if (8 * k + i / 2 < b.length) b.at[8 * k + i / 2] |= digit(*c) << (i % 2 ? 0 : 4), i++;
    }
    return b;
}

/* ---- what differs */

static char told[400];

static int differs(const char *what, uint64_t got, uint64_t expected) {
    if (got == expected) return 0;
    return snprintf(told, sizeof told, "%s is %llu, not %llu", what, (unsigned long long)got, (unsigned long long)expected);
}

static int replies_differ(struct bytes steps, struct bytes got, struct bytes expected) {
    static const char *kinds[] = {"root", "letter", "receive", "new", "send", "read", "write", "freeze", "done", "fall", "fail", "lose", "sign", "13", "14", "15"};
    for (size_t i = 0; i < expected.length; i += 8) {
        const uint8_t *a = got.at + i, *b = expected.at + i;
        if (!memcmp(a, b, 8)) continue;
        return snprintf(told, sizeof told, "step %zu, %s: replies %d take %d parcel %d text %u, not %d take %d parcel %d text %u", i / 8 + 1, kinds[steps.at[i] >> 4],
                        a[0], a[1], a[2] << 8 | a[3], (uint32_t)a[4] << 24 | a[5] << 16 | a[6] << 8 | a[7], b[0], b[1], b[2] << 8 | b[3],
                        (uint32_t)b[4] << 24 | b[5] << 16 | b[6] << 8 | b[7]);
    }
    return 0;
}

#ifndef ENGINE
static struct bytes copy(struct bytes b) {
    struct bytes c = filled(b.length, 0);
    return memcpy(c.at, b.at, b.length), c;
}

static void put(struct bytes b, const struct node *stretches) {
    for (const struct node *s = stretches ? stretches->child : NULL; s; s = s->next) {
        const char *c = s->child->next->text;
        for (size_t i = s->child->number; *c; c += 2, i++) b.at[i] = digit(c[0]) << 4 | digit(c[1]);
    }
}

static void digest(struct bytes b, char *out) {
    static const uint32_t k[64] = {
        0x428a2f98, 0x71374491, 0xb5c0fbcf, 0xe9b5dba5, 0x3956c25b, 0x59f111f1, 0x923f82a4, 0xab1c5ed5, 0xd807aa98, 0x12835b01, 0x243185be,
        0x550c7dc3, 0x72be5d74, 0x80deb1fe, 0x9bdc06a7, 0xc19bf174, 0xe49b69c1, 0xefbe4786, 0x0fc19dc6, 0x240ca1cc, 0x2de92c6f, 0x4a7484aa,
        0x5cb0a9dc, 0x76f988da, 0x983e5152, 0xa831c66d, 0xb00327c8, 0xbf597fc7, 0xc6e00bf3, 0xd5a79147, 0x06ca6351, 0x14292967, 0x27b70a85,
        0x2e1b2138, 0x4d2c6dfc, 0x53380d13, 0x650a7354, 0x766a0abb, 0x81c2c92e, 0x92722c85, 0xa2bfe8a1, 0xa81a664b, 0xc24b8b70, 0xc76c51a3,
        0xd192e819, 0xd6990624, 0xf40e3585, 0x106aa070, 0x19a4c116, 0x1e376c08, 0x2748774c, 0x34b0bcb5, 0x391c0cb3, 0x4ed8aa4a, 0x5b9cca4f,
        0x682e6ff3, 0x748f82ee, 0x78a5636f, 0x84c87814, 0x8cc70208, 0x90befffa, 0xa4506ceb, 0xbef9a3f7, 0xc67178f2};
    uint32_t h[8] = {0x6a09e667, 0xbb67ae85, 0x3c6ef372, 0xa54ff53a, 0x510e527f, 0x9b05688c, 0x1f83d9ab, 0x5be0cd19}, w[64], v[8];
    struct bytes p = filled((b.length + 72) / 64 * 64, 0);
    memcpy(p.at, b.at, b.length), p.at[b.length] = 0x80;
    for (int i = 0; i < 8; i++) p.at[p.length - 1 - i] = (uint64_t)b.length * 8 >> 8 * i;
#define ROTATED(x, n) ((x) >> (n) | (x) << (32 - (n)))
    for (size_t block = 0; block < p.length; block += 64) {
        for (int i = 0; i < 64; i++) {
            const uint8_t *c = p.at + block + 4 * i;
            if (i < 16) w[i] = (uint32_t)c[0] << 24 | c[1] << 16 | c[2] << 8 | c[3];
            else w[i] = w[i - 16] + w[i - 7] + (ROTATED(w[i - 15], 7) ^ ROTATED(w[i - 15], 18) ^ w[i - 15] >> 3) + (ROTATED(w[i - 2], 17) ^ ROTATED(w[i - 2], 19) ^ w[i - 2] >> 10);
        }
        memcpy(v, h, sizeof v);
        for (int i = 0; i < 64; i++) {
            uint32_t t = v[7] + (ROTATED(v[4], 6) ^ ROTATED(v[4], 11) ^ ROTATED(v[4], 25)) + ((v[4] & v[5]) ^ (~v[4] & v[6])) + k[i] + w[i];
            uint32_t u = (ROTATED(v[0], 2) ^ ROTATED(v[0], 13) ^ ROTATED(v[0], 22)) + ((v[0] & v[1]) ^ (v[0] & v[2]) ^ (v[1] & v[2]));
            memmove(v + 1, v, 7 * sizeof *v), v[4] += t, v[0] = t + u;
        }
        for (int i = 0; i < 8; i++) h[i] += v[i];
    }
    for (int i = 0; i < 8; i++) sprintf(out + 8 * i, "%08x", (unsigned)h[i]);
}

/* Which field of an image a byte is in. */
static const char *field(size_t at, size_t length) {
    static char name[100];
    size_t old = length == OLD, mark = old ? 17 : 33, start = old ? 4 : 8, take = 9 + 48 * mark, parcel = 7 + 16 * mark;
    if (at < start) return at == 0 ? "takes opened" : at < 3 ? "next number" : at == 4 ? "limit of takes" : at == 5 ? "limit of parcels" : at == 6 ? "limit of signings" : "zero byte";
    size_t t = (at - start) / take, within = (at - start) % take;
    const char *maps[] = {"state", "creation", "behaviour"};
    if (t < 16 && within < 9) return sprintf(name, "take %zu, %s", t, within == 0 ? "status" : within < 5 ? "text" : "saved text"), name;
    if (t < 16) {
        size_t m = (within - 9) / mark;
        return sprintf(name, "take %zu, %s map, mark of take %zu, byte %zu", t, maps[m / 16], m % 16, (within - 9) % mark), name;
    }
    t = (at - start - 16 * take) / parcel, within = (at - start - 16 * take) % parcel;
    if (within < 7) return sprintf(name, "parcel place %zu, %s", t, within == 0 ? "head" : within < 3 ? "number" : "text"), name;
    return sprintf(name, "parcel place %zu, mark of take %zu, byte %zu", t, (within - 7) / mark, (within - 7) % mark), name;
}

static int image_differs(const struct node *test, struct bytes image) {
    const struct node *after = get(test, "after"), *sum = get(test, "sha256");
    char hex[65];
    struct bytes expected = filled(image.length, 0);
    put(expected, after);
    for (size_t i = 0; after && i < image.length; i++)
        if (image.at[i] != expected.at[i]) return snprintf(told, sizeof told, "image: byte %zu (%s) is %d, not %d", i, field(i, image.length), image.at[i], expected.at[i]);
    if (!sum) return 0;
    digest(image, hex);
    return strcmp(hex, sum->text) ? snprintf(told, sizeof told, "image: another SHA-256") : 0;
}

static int changed(const char *what) { return snprintf(told, sizeof told, "%s changed by a refused call, or by one that only reads", what); }

/* ---- the calls */

static struct bytes image_of(const struct node *file, const struct node *test, size_t size) {
    const struct node *given = get(test, "image");
    if (given && given->kind == 's') given = get(get(get(file, "images"), given->text), "bytes");
    size_t length = number(test, "length", size);
    struct bytes b = filled(length > size ? length : size, 0);
    put(b, given), put(b, get(test, "change"));
    b.length = length;
    return b;
}

/* A long list in parts of 128 steps: the first part after which the image differs. */
static int along_differs(const struct node *test, struct bytes list) {
    const struct node *limits = get(test, "limits")->child, *sum = get(test, "along") ? get(test, "along")->child : NULL;
    struct bytes image = filled(IMAGE, 0), replies = filled(1024, 0);
    char hex[65];
    ledger_begin(image.at, image.length, limits->number, limits->next->number, limits->next->next->number);
    for (size_t k = 0; sum; k++, sum = sum->next) {
        size_t before = used;
        uint8_t refusal = ledger_run(image.at, image.length, list.at, list.length, 1024 * k, 1024 * k + 1024, replies.at, 1024);
        digest(image, hex), used = before;
        if (refusal || strcmp(hex, sum->text)) return snprintf(told, sizeof told, "run in parts: another image after one of the steps %zu to %zu", 128 * k + 1, 128 * k + 128);
    }
    return 0;
}

static int run_or_thin(const struct node *file, const struct node *test) {
    int thin = !strcmp(get(test, "call")->text, "thin");
    struct bytes image = image_of(file, test, IMAGE), list = words(get(test, "list"), number(test, "list_length", -1));
    const struct node *limits = get(test, "limits");
    if (limits && ledger_begin(image.at, image.length, limits->child->number, limits->child->next->number, limits->child->next->next->number)) return changed("begin");
    size_t start = number(test, "start", 0), end = number(test, "end", list.length), kept = 0;
    struct bytes before = copy(image), out = filled(number(test, "room", end - start), BLANK);
    uint8_t refusal = BLANK;
    if (thin) kept = ledger_thin(image.at, image.length, list.at, list.length, start, end, out.at, out.length, &refusal);
    else refusal = ledger_run(image.at, image.length, list.at, list.length, start, end, out.at, out.length);
    if (differs("refusal", refusal, number(test, "refusal", 0)) || (thin && differs("answer", kept, number(test, "answer", 0)))) return 1;
    if (refusal) return same(image, before) && blank(out) ? 0 : changed("something");
    if (thin) return !same(image, before) ? changed("image") : same(out, words(get(test, "out"), out.length)) ? 0 : snprintf(told, sizeof told, "another short list");
    struct bytes part = {list.at + start, end - start};
    if (replies_differ(part, out, words(get(test, "replies"), -1)) || image_differs(test, image)) return 1;
    return get(test, "along") ? along_differs(test, list) : 0;
}

static int begin(const struct node *file, const struct node *test) {
    struct bytes image = image_of(file, test, IMAGE), before = copy(image);
    const struct node *limits = get(test, "limits")->child;
    uint8_t refusal = ledger_begin(image.at, image.length, limits->number, limits->next->number, limits->next->next->number);
    if (differs("refusal", refusal, number(test, "refusal", 0))) return 1;
    return refusal ? same(image, before) ? 0 : changed("image") : image_differs(test, image);
}

static int convert(const struct node *file, const struct node *test) {
    int forward = !strcmp(get(test, "call")->text, "forward");
    struct bytes source = image_of(file, test, forward ? OLD : IMAGE), before = copy(source), target = filled(number(test, "target_length", 0), BLANK);
    uint8_t refusal = (forward ? ledger_forward : ledger_back)(source.at, source.length, target.at, target.length);
    if (differs("refusal", refusal, number(test, "refusal", 0))) return 1;
    if (!same(source, before)) return changed("source");
    return refusal ? blank(target) ? 0 : changed("target") : image_differs(test, target);
}

static int plan(const struct node *file, const struct node *test) {
    struct bytes image = image_of(file, test, IMAGE), before = copy(image), out = filled(number(test, "room", LEDGER_PLAN), BLANK);
    uint8_t refusal = BLANK;
    size_t steps = ledger_plan(image.at, image.length, number(test, "take", 0), out.at, out.length, &refusal);
    if (differs("refusal", refusal, number(test, "refusal", 0)) || differs("answer", steps, number(test, "answer", 0))) return 1;
    if (!same(image, before)) return changed("image");
    if (refusal) return blank(out) ? 0 : changed("out");
    return same(out, words(get(test, "out"), out.length)) ? 0 : snprintf(told, sizeof told, "another plan");
}

static int independent(const struct node *file, const struct node *test) {
    struct bytes image = image_of(file, test, IMAGE), before = copy(image), list = words(get(test, "list"), -1), first = filled(16, 0), second = filled(16, 0);
    const struct node *lengths = get(test, "lengths");
    uint8_t refusal = BLANK;
    memcpy(first.at, list.at, 8), memcpy(second.at, list.at + 8, 8);
    first.length = lengths ? lengths->child->number : 8, second.length = lengths ? lengths->child->next->number : 8;
    uint8_t free = looking_independent(image.at, image.length, first.at, first.length, second.at, second.length, &refusal);
    if (differs("refusal", refusal, number(test, "refusal", 0)) || differs("answer", free, number(test, "answer", 0))) return 1;
    return same(image, before) ? 0 : changed("image");
}

/* The numbers of an answer against those of a list. */
static int numbers_differ(const struct node *list, const uint64_t *got) {
    for (const struct node *n = list->child; n; n = n->next)
        if (differs("a number of the answer", *got++, n->number)) return 1;
    return 0;
}

static int actor(const struct node *file, const struct node *test) {
    struct bytes image = image_of(file, test, IMAGE), before = copy(image), step = words(get(test, "list"), number(test, "list_length", -1));
    uint8_t refusal = BLANK;
    struct ledger_acting a = ledger_actor(image.at, image.length, step.at, step.length, &refusal);
    uint64_t got[2] = {a.kind, a.takes};
    if (differs("refusal", refusal, number(test, "refusal", 0)) || numbers_differ(get(test, "answer"), got)) return 1;
    return same(image, before) ? 0 : changed("image");
}

static int fault(const struct node *file, const struct node *test) {
    struct bytes image = image_of(file, test, IMAGE), before = copy(image);
    size_t byte = BLANK;
    uint8_t clause = BLANK, refusal = ledger_fault(image.at, image.length, &byte, &clause);
    uint64_t got[2] = {byte, clause};
    if (differs("refusal", refusal, number(test, "refusal", 0)) || numbers_differ(get(test, "answer"), got)) return 1;
    return same(image, before) ? 0 : changed("image");
}

static int query(const struct node *file, const struct node *test) {
    const char *call = get(test, "call")->text;
    const struct node *answer = get(test, "answer");
    struct bytes i = image_of(file, test, IMAGE), before = copy(i), list = filled(0, 0);
    uint64_t take = number(test, "take", 0), got[4] = {0}, none = 0;
    uint8_t refusal = BLANK;
    if (!strcmp(call, "offer")) got[0] = ledger_offer(i.at, i.length, take, &refusal), none = LEDGER_NONE;
    else if (!strcmp(call, "smallest_volume")) got[0] = ledger_smallest_group(i.at, i.length, take, &refusal);
    else if (!strcmp(call, "ready_count")) got[0] = ledger_ready_count(i.at, i.length, number(test, "size", 0), &refusal);
    else if (!strcmp(call, "all_heard_frozen")) got[0] = ledger_all_heard_stable(i.at, i.length, take, &refusal);
    else if (!strcmp(call, "show")) {
        struct ledger_part p = ledger_show(i.at, i.length, number(test, "parcel", 0), &refusal);
        got[0] = p.offset, got[1] = p.length;
    } else if (!strcmp(call, "dependents")) {
        struct ledger_resting d = ledger_dependents(i.at, i.length, take, &refusal);
        got[0] = d.resting, got[1] = d.through, got[2] = d.unfinished, got[3] = d.carried;
    } else if (!strcmp(call, "obstacle")) {
        struct ledger_reason o = ledger_obstacle(i.at, i.length, number(test, "volume", 0), &refusal);
        got[0] = o.kind, got[1] = o.transactor, got[2] = o.ground;
    } else if (!strcmp(call, "impediment")) {
        struct ledger_cause m = ledger_impediment(i.at, i.length, take, &refusal);
        got[0] = m.kind, got[1] = m.transactor, got[2] = m.ground, got[3] = m.next;
    } else if (!strcmp(call, "worst_window")) {
        list = words(get(test, "list"), number(test, "list_length", -1));
        struct ledger_window w = ledger_worst_window(list.at, list.length, number(test, "width", 0), &refusal);
        got[0] = w.count, got[1] = w.place;
    } else fail("a call that this runner does not know");
    if (differs("refusal", refusal, number(test, "refusal", 0))) return 1;
    if (!same(i, before)) return changed("image");
    if (answer->kind == 'l') return numbers_differ(answer, got);
    return differs("answer", got[0], answer->kind == '0' ? none : number(test, "answer", 0));
}
#else
static int play(const struct node *test) {
    struct bytes list = words(get(test, "list"), number(test, "list_length", -1)), out = filled(number(test, "room", list.length), BLANK);
    const struct node *limits = get(test, "limits")->child;
    uint8_t refusal = engine_play(list.at, list.length, out.at, out.length, limits->number, limits->next->number, limits->next->next->number);
    if (differs("refusal", refusal, number(test, "refusal", 0))) return 1;
    if (refusal) return blank(out) ? 0 : snprintf(told, sizeof told, "replies changed by a refused call");
    return replies_differ(list, out, words(get(test, "replies"), -1));
}
#endif

/* 0 passed, -1 nothing to ask this library, else what differs is told. */
static int check(const struct node *file, const struct node *test) {
    const char *call = get(test, "call")->text;
    int whole = !strcmp(call, "play");
#ifdef ENGINE
    (void)file;
    return whole || (!strcmp(call, "run") && !get(test, "image")) ? play(test) : -1;
#else
    if (whole) return -1;
    if (!strcmp(call, "run") || !strcmp(call, "thin")) return run_or_thin(file, test);
    if (!strcmp(call, "begin")) return begin(file, test);
    if (!strcmp(call, "plan")) return plan(file, test);
    if (!strcmp(call, "independent")) return independent(file, test);
    if (!strcmp(call, "actor")) return actor(file, test);
    if (!strcmp(call, "fault")) return fault(file, test);
    if (!strcmp(call, "forward") || !strcmp(call, "back")) return convert(file, test);
    return query(file, test);
#endif
}

static struct node *read_file(const char *name) {
    FILE *f = fopen(name, "rb");
    if (!f || fseek(f, 0, SEEK_END)) fail(name);
    size_t length = ftell(f);
    char *whole = room(length + 1);
    rewind(f);
    if (fread(whole, 1, length, f) != length) fail(name);
    fclose(f);
    at = whole;
    return value();
}

int main(int count, char **names) {
    int passed = 0, failed = 0, skipped = 0;
    for (int i = 1; i < count; i++) {
        struct node *file = read_file(names[i]);
        if (number(file, "version", 0) != 1) fail("another version");
        for (const struct node *test = get(file, "tests")->child; test; test = test->next) {
            used = 0;
            int found = check(file, test);
            found ? found < 0 ? skipped++ : failed++ : passed++;
            if (found > 0) printf("%s %d: %s\n    %s\n", get(file, "subject")->text, (int)number(test, "number", 0), get(test, "comment")->text, told);
        }
    }
    if (skipped) printf("%d skipped\n", skipped);
    printf("%d passed, %d failed\n", passed, failed);
    return failed || !passed;
}
