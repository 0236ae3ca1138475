/* Names, a page set from them, and a page set from that page: who rests on the names, and why the pages can't be signed. The answers are the
 * ledger's; this program only puts them into words. */
#include <stdio.h>
#include <stdlib.h>
#include "ledger.h"

enum { NAMES, PAGE_1, PAGE_2, TAKES };

static const char *const word[TAKES] = {"names", "page 1", "page 2"};

static uint8_t image[LEDGER_IMAGE];

static unsigned pages(void) { return ledger_member(PAGE_1) | ledger_member(PAGE_2); }

static void step(enum ledger_kind kind, unsigned take, unsigned other, unsigned parcel) {
    uint8_t packed[LEDGER_STEP], reply[LEDGER_STEP];
    ledger_step(packed, kind, take, other, parcel, 0);
    if (ledger_run(image, sizeof image, packed, sizeof packed, 0, sizeof packed, reply, sizeof reply) != LEDGER_ACCEPTED) exit(1);
    if (ledger_reply_outcome(reply) >= LEDGER_MALFORMED) exit(1);
}

static void print_volume(unsigned volume) {
    const char *between = "";
    for (unsigned t = 0; t < TAKES; t++) {
        if (volume & ledger_member(t)) {
            printf("%s%s", between, word[t]);
            between = ", ";
        }
    }
    printf("%s\n", volume == 0 ? "nobody" : "");
}

static void who_rests_on(unsigned take) {
    uint8_t refusal;
    struct ledger_resting d = ledger_dependents(image, sizeof image, take, &refusal);
    if (refusal != 0) {
        printf("who rests on %s? refused with %d\n", word[take], refusal);
        return;
    }
    printf("who rests on %s?\n  directly: ", word[take]);
    print_volume(d.resting);
    printf("  directly or through others: ");
    print_volume(d.through);
    printf("  at work with it: ");
    print_volume(d.unfinished);
    printf("  parcels that carry it: %d\n", d.carried);
}

static void why_not(unsigned volume) {
    uint8_t refusal;
    struct ledger_reason o = ledger_obstacle(image, sizeof image, volume, &refusal);
    printf("why not sign ");
    print_volume(volume);
    if (refusal != 0) printf("  refused with %d\n", refusal);
    else if (o.kind == LEDGER_NOTHING) printf("  nothing stands against it\n");
    else if (o.kind == LEDGER_UNSTABLE) printf("  %s: not frozen\n", word[o.transactor]);
    else if (o.kind == LEDGER_OUTSIDE) printf("  %s rests on %s, outside the volume\n", word[o.transactor], word[o.ground]);
    else printf("  %s rests on a withdrawn life of %s\n", word[o.transactor], word[o.ground]);
}

/* The chain from the take to what is in the way, one call a link. */
static void why_none_with(unsigned take) {
    uint8_t refusal;
    struct ledger_cause i = ledger_impediment(image, sizeof image, take, &refusal);
    printf("why is no volume with %s ready?\n", word[take]);
    if (refusal != 0) {
        printf("  refused with %d\n", refusal);
        return;
    }
    while (i.kind != LEDGER_NO_IMPEDIMENT && i.next != take) {
        printf("  %s rests on %s\n", word[take], word[i.next]);
        take = i.next;
        i = ledger_impediment(image, sizeof image, take, &refusal);
    }
    if (i.kind == LEDGER_NO_IMPEDIMENT) printf("  nothing is in the way\n");
    else if (i.kind == LEDGER_HOPELESS) printf("  %s rests on a withdrawn life of %s: no volume ever, in this life\n", word[take], word[i.ground]);
    else if (i.kind == LEDGER_EXHAUSTED) printf("  %s has all its signings\n", word[take]);
    else printf("  %s: not frozen\n", word[take]);
}

int main(void) {
    if (ledger_begin(image, sizeof image, LEDGER_TRANSACTORS, LEDGER_MESSAGES, LEDGER_CHECKPOINTS) != LEDGER_ACCEPTED) return 1;
    for (unsigned t = 0; t < TAKES; t++) step(LEDGER_ROOT, 0, 0, 0);
    step(LEDGER_LETTER, NAMES, 0, 0), step(LEDGER_RECEIVE, 0, 0, 0);
    step(LEDGER_SEND, NAMES, PAGE_1, 0), step(LEDGER_RECEIVE, 0, 0, 1), step(LEDGER_WRITE, PAGE_1, 0, 0), step(LEDGER_FINISH, PAGE_1, 0, 0);
    /* page 1 sends without reading again: the parcel holds its life and not the names' */
    step(LEDGER_LETTER, PAGE_1, 0, 0), step(LEDGER_RECEIVE, 0, 0, 2);
    step(LEDGER_SEND, PAGE_1, PAGE_2, 0), step(LEDGER_RECEIVE, 0, 0, 3), step(LEDGER_WRITE, PAGE_2, 0, 0);
    for (unsigned t = 0; t < TAKES; t++) who_rests_on(t);
    why_not(ledger_member(PAGE_2));
    puts("both pages freeze");
    step(LEDGER_FREEZE, PAGE_1, 0, 0), step(LEDGER_FREEZE, PAGE_2, 0, 0);
    why_not(ledger_member(PAGE_2));
    why_not(pages());
    why_not(ledger_member(NAMES) | pages());
    why_none_with(PAGE_2);
    puts("the names are withdrawn");
    step(LEDGER_FAIL, NAMES, 0, 0);
    why_not(pages());
    why_not(ledger_member(NAMES) | pages());
    why_none_with(PAGE_2);
    who_rests_on(NAMES);
    return 0;
}
