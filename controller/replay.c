/* Makes the calls that the tester recorded (tester/compare/record.rs): each must answer and leave what the rules say. Prints the
   first thing that differs, or how often each entry gave each number.
   replay FILE           every call of the file
   replay FILE fenced    the same with fences at both ends of everything lent
   replay fences         whether the fences can be relied on */
#include "banthewig.h"
#include "fence.h"

#include <stdio.h>
#include <stdlib.h>
#include <string.h>

/* Exit statuses: something is not as it must be; nothing can be said. */
enum { DIFFERS = 1, NOTHING_SAID = 2 };

enum entry { RUN_AT, RUN, REWRITE_AT, REWRITE, ORDER_AT, ORDER, TIE, STEP, CARRIERS, INTERFACE, ENTRIES };
enum { NUMBERS = 18, FIELDS = 7, LOANS_MOST = 4 };
static const struct {
    const char *name;
    unsigned loans;
} entries[ENTRIES] = {{"knitout_run_at", 1}, {"knitout_run", 1}, {"knitout_rewrite_at", 4}, {"knitout_rewrite", 4},
                      {"knitout_order_at", 3}, {"knitout_order", 3}, {"knitout_tie", 2}, {"knitout_step", 2},
                      {"knitout_carriers", 2}, {"knitout_interface", 0}};

/* A call as the file has it, low bytes first as here: this, its loans, and of each its contents and the bytes that change. */
static struct {
    int64_t fields[FIELDS]; /* of the answer */
    uint32_t place;         /* among the tester's calls */
    uint8_t entry, limit;
    int8_t racking;
    uint8_t loans;
} call;
static struct loan {
    uint32_t unit, count;   /* the bytes of an entry; how many entries the call is told of */
    uint32_t bytes;         /* that are there */
    uint32_t from, changed; /* those of them that the call changes */
} loans[LOANS_MOST];
static unsigned long calls, seen[ENTRIES][NUMBERS + 1]; /* the last: any other number */

/* ---- Lent memory: a fence, a loan, a fence, the next loan and so on. By turns a loan lies flush with the fence at its end, with
   the one at its front, or one unit behind that (an odd address for bytes). NEAR bytes on both sides are painted. */

enum { NEAR = 64, PAINT = 0xa5, LENT_MOST = 100000 };
#define BLOCKS(bytes) (((bytes) + FENCE - 1) / FENCE)
static _Alignas(FENCE) uint8_t memory[(BLOCKS(LENT_MOST) + 3 * LOANS_MOST + 1) * FENCE];
static uint8_t wanted[LENT_MOST + 2 * NEAR * LOANS_MOST]; /* what each loan and the bytes near it must hold after the call */
static unsigned turn;

/* Where a loan begins that has this fence at its front. */
static uint8_t *place(uint8_t *front, size_t unit, size_t bytes)
{
    const size_t skipped[3] = {(FENCE - bytes % FENCE) % FENCE, 0, unit};
    uint8_t *at = front + FENCE + skipped[turn++ % 3];
    memset(at - NEAR, PAINT, bytes + 2 * NEAR);
    return at;
}

/* The fence behind what ends here. */
static uint8_t *fence_behind(const uint8_t *end) { return memory + BLOCKS((size_t)(end - memory)) * FENCE; }

/* ---- Calls of a file */

static void say_nothing(const char *why)
{
    fprintf(stderr, "replay: behind %lu calls: %s\n", calls, why);
    exit(NOTHING_SAID);
}

static void read_bytes(FILE *file, void *to, size_t n)
{
    if (n && fread(to, 1, n, file) != n) say_nothing("the file ends within a call");
}

/* The call and its loans' sizes. 0 at the file's end. */
static int read_call(FILE *file)
{
    size_t lent = 0, got = fread(&call, 1, sizeof call, file);
    if (got == 0 && !ferror(file)) return 0;
    if (got != sizeof call || call.entry >= INTERFACE || call.loans != entries[call.entry].loans) say_nothing("no such call");
    read_bytes(file, loans, call.loans * sizeof loans[0]);
    for (unsigned i = 0; i < call.loans; i++) {
        const struct loan *l = &loans[i];
        lent += l->bytes;
        if (l->unit > FENCE || l->from > l->bytes || l->changed > l->bytes - l->from) say_nothing("no such loan");
        if (l->bytes > LENT_MOST || lent > LENT_MOST) say_nothing("more is lent than fits");
    }
    return 1;
}

/* Places the loans with their contents, and notes what they must hold after the call. */
static void lend(FILE *file, uint8_t *at[])
{
    uint8_t *front = memory, *after = wanted;
    for (unsigned i = 0; i < call.loans; i++) {
        at[i] = place(front, loans[i].unit, loans[i].bytes);
        front = fence_behind(at[i] + loans[i].bytes);
        read_bytes(file, at[i], loans[i].bytes);
        memcpy(after, at[i] - NEAR, loans[i].bytes + 2 * NEAR);
        read_bytes(file, after + NEAR + loans[i].from, loans[i].changed);
        after += loans[i].bytes + 2 * NEAR;
    }
}

/* The calls on programs, which answer with one word. */
static uint64_t call_on_program(void *const at[], const size_t n[])
{
    switch (call.entry) {
    case RUN_AT: return knitout_run_at(call.limit, at[0], n[0]);
    case RUN: return knitout_run(at[0], n[0]);
    case REWRITE_AT: return knitout_rewrite_at(call.limit, at[0], n[0], at[1], n[1], at[2], n[2], at[3], n[3]);
    case REWRITE: return knitout_rewrite(at[0], n[0], at[1], n[1], at[2], n[2], at[3], n[3]);
    case ORDER_AT: return knitout_order_at(call.limit, at[0], n[0], at[1], n[1], at[2], n[2]);
    default: return knitout_order(at[0], n[0], at[1], n[1], at[2], n[2]);
    }
}

/* Makes the call and gives the number. Fields that its answer has not stay as they are. */
static unsigned make(void *const at[], const size_t n[], int64_t fields[])
{
    if (call.entry == TIE) {
        struct knitout_tied t = knitout_tie(call.racking, at[0], n[0], at[1], n[1]);
        fields[0] = t.left, fields[1] = t.right, fields[2] = t.number, fields[3] = t.by, fields[4] = t.carrier;
        fields[5] = t.low, fields[6] = t.high;
        return t.number;
    }
    if (call.entry == STEP) {
        struct knitout_stepped s = knitout_step(at[0], at[1], n[1]);
        fields[0] = s.number, fields[1] = s.complete, fields[2] = s.looked, fields[3] = (int64_t)s.length;
        return s.number;
    }
    if (call.entry == CARRIERS) {
        struct knitout_served s = knitout_carriers(at[0], at[1], n[1]);
        fields[0] = s.number, fields[1] = (int64_t)s.length;
        return s.number;
    }
    uint64_t word = call_on_program(at, n);
    fields[0] = (int64_t)word;
    return KNITOUT_NUMBER(word);
}

/* ---- Each call of a file */

static void compare(const char *what, long which, int64_t is, int64_t must)
{
    if (is == must) return;
    printf("call %lu, %s, call %lu of the tester's: %s %ld is %lld, not %lld\n", calls, entries[call.entry].name,
           (unsigned long)call.place, what, which, (long long)is, (long long)must);
    exit(DIFFERS);
}

static void count(unsigned entry, unsigned number) { seen[entry][number < NUMBERS ? number : NUMBERS]++; }

#define INTERFACE_OF(number) knitout_interface_##number()
#define INTERFACE_CALL(number) INTERFACE_OF(number)

static void try_call(FILE *file)
{
    static const char *const bytes_of[LOANS_MOST] = {"loan 0, byte", "loan 1, byte", "loan 2, byte", "loan 3, byte"};
    uint8_t *at[LOANS_MOST], *after = wanted;
    void *lent[LOANS_MOST];
    size_t n[LOANS_MOST];
    int64_t fields[FIELDS] = {0};
    lend(file, at);
    for (unsigned i = 0; i < call.loans; i++) {
        fence(at[i], loans[i].bytes);
        lent[i] = loans[i].bytes == 0 && calls >> i & 1 ? NULL : at[i];
        n[i] = loans[i].count;
    }
    fences_up();
    unsigned number = make(lent, n, fields);
    fences_down();
    for (int i = 0; i < FIELDS; i++) compare("field", i, fields[i], call.fields[i]);
    for (unsigned i = 0; i < call.loans; i++)
        for (long b = -NEAR; b < (long)loans[i].bytes + NEAR; b++) compare(bytes_of[i], b, at[i][b], *after++);
    compare("interface", 0, INTERFACE_CALL(KNITOUT_INTERFACE), KNITOUT_INTERFACE);
    count(call.entry, number), count(INTERFACE, KNITOUT_DONE);
}

static int replay(const char *name)
{
    FILE *file = fopen(name, "rb");
    if (!file) say_nothing("the file can't be opened");
    while (read_call(file)) calls++, try_call(file);
    fclose(file);
    if (calls == 0) say_nothing("the file is empty");
    for (int e = 0; e < ENTRIES; e++) {
        printf("%s", entries[e].name);
        for (int i = 0; i <= NUMBERS; i++)
            if (seen[e][i]) printf(" %d:%lu", i, seen[e][i]);
        puts("");
    }
    return 0;
}

/* ---- Whether fences hold */

/* Both fences of areas of many lengths, at each place that they can have: the bytes of a fence are out of reach, those before,
   between and behind them are not, nor is any once the fences are down. */
static int try_fences(void)
{
    unsigned tried = 0, wrong = 0;
    for (size_t n = 0; n < 2500; n += tried % 3 == 0) {
        uint8_t *at = place(memory + FENCE, 1, n), *front = memory + 2 * FENCE, *behind = fence_behind(at + n);
        uint8_t *const out[] = {front - FENCE, front - 1, behind, behind + FENCE - 1}, *const in[] = {front, behind - 1};
        fence(at, n);
        fences_up();
        for (int i = 0; i < 4; i++) wrong += 1 - is_fenced(out[i]);
        for (int i = 0; i < 2; i++) wrong += front < behind ? is_fenced(in[i]) : 0;
        wrong += is_fenced(front - FENCE - 1) + is_fenced(behind + FENCE);
        fences_down();
        for (int i = 0; i < 4; i++) wrong += is_fenced(out[i]);
        tried++;
    }
    printf("%u areas fenced, %u bytes wrong\n", tried, wrong);
    return wrong ? DIFFERS : 0;
}

int main(int count_words, char **words)
{
    if (count_words == 2 && strcmp(words[1], "fences") == 0 && use_fences()) return try_fences();
    if (count_words == 2 && strcmp(words[1], "fences") != 0) return replay(words[1]);
    if (count_words == 3 && strcmp(words[2], "fenced") == 0 && use_fences()) return replay(words[1]);
    fputs("usage: replay FILE [fenced], or replay fences; there may be no fences here\n", stderr);
    return NOTHING_SAID;
}
