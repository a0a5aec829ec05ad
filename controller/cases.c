/* Random cases of every entry, the same on every machine: prints a hash of all answers and of every byte that was lent, and how
   often each entry gave each number. What two machines print of one COUNT must be equal.
   cases COUNT           that many cases
   cases COUNT fenced    the same with fences at both ends of everything lent
   cases fences          whether the fences can be relied on */
#include "banthewig.h"
#include "fence.h"

#include <stdio.h>
#include <stdlib.h>
#include <string.h>

/* ---- Chance: one sequence on every machine. No expression draws twice, since C does not say which is first. */

static uint64_t drawn = 0x9e3779b97f4a7c15u;

static uint32_t draw(void)
{
    drawn ^= drawn >> 12, drawn ^= drawn << 25, drawn ^= drawn >> 27;
    return (uint32_t)((drawn * 0x2545f4914f6cdd1du) >> 32);
}

static unsigned below(unsigned n) { return (unsigned)(((uint64_t)draw() * n) >> 32); }
static int one_in(unsigned n) { return below(n) == 0; }

/* ---- What was seen */

enum entry { RUN, RUN_AT, REWRITE, REWRITE_AT, ORDER, ORDER_AT, TIE, STEP, CARRIERS, INTERFACE, ENTRIES };
enum { NUMBERS = 18 };
static const char *const names[ENTRIES] = {"knitout_run", "knitout_run_at", "knitout_rewrite", "knitout_rewrite_at",
                                           "knitout_order", "knitout_order_at", "knitout_tie", "knitout_step",
                                           "knitout_carriers", "knitout_interface"};
static unsigned long seen[ENTRIES][NUMBERS + 1]; /* the last: any other number */
static uint32_t hash = 0x811c9dc5u, hashes;

/* A byte that differs makes all later values of hash differ; hashes, which keeps them apart further, goes by calls. */
static void mix(const void *bytes, size_t n)
{
    uint32_t h = hash;
    for (const uint8_t *at = bytes, *end = at + n; at != end; at++) h = (h ^ *at) * 0x01000193u;
    hash = h, hashes = hashes * 31 + h;
}

static void mix_number(uint64_t n)
{
    uint8_t bytes[8];
    for (int i = 0; i < 8; i++) bytes[i] = (uint8_t)(n >> 8 * i);
    mix(bytes, sizeof bytes);
}

static void count(enum entry entry, unsigned number) { seen[entry][number < NUMBERS ? number : NUMBERS]++; }

static void mix_answer(enum entry entry, uint64_t answer)
{
    mix_number(answer);
    count(entry, KNITOUT_NUMBER(answer));
}

/* ---- Lent areas: each in a room of its own, flush with a fence at its front, with one at its end, or one unit behind the first
   (an odd address for bytes). Painted and hashed with NEAR bytes on both sides. */

enum { NEAR = 64 };
#define ROOM(most) (((most) + FENCE - 1) / FENCE * FENCE + 3 * FENCE)
struct area {
    uint8_t *room;
    size_t unit; /* bytes of an entry */
    uint8_t *at;
    size_t length; /* in bytes */
};

enum { LOG_MOST = 600, RECORDS_MOST = KNITOUT_PROGRAM_MOST / 2, SPARE = 8, LIST_MOST = KNITOUT_CARRIERS + 2 };
static _Alignas(FENCE) uint8_t room_1[ROOM(KNITOUT_PROGRAM_MOST)], room_2[ROOM(LOG_MOST)], room_3[ROOM(KNITOUT_PROGRAM_MOST + SPARE)],
    room_4[ROOM(2 * (RECORDS_MOST + SPARE))], room_5[ROOM(sizeof(struct knitout_state))],
    room_6[ROOM(LIST_MOST * sizeof(struct knitout_carrier))];
static struct area program = {room_1, 1, 0, 0}, logged = {room_2, 1, 0, 0}, output = {room_3, 1, 0, 0}, work = {room_4, 2, 0, 0},
                   panel = {room_5, 2, 0, 0}, list = {room_6, 2, 0, 0};

/* Chooses an area's place in its room and paints it. */
static void place(struct area *a, size_t length)
{
    size_t skipped[3] = {0, (FENCE - length % FENCE) % FENCE, a->unit};
    a->at = a->room + FENCE + skipped[below(3)];
    a->length = length;
    memset(a->at - NEAR, 0xa5, length + 2 * NEAR);
}

/* Fences it, and gives what a call is lent: null or not if there is nothing in it. */
static void *lent(const struct area *a)
{
    fence(a->at, a->length);
    return a->length == 0 && one_in(2) ? NULL : a->at;
}

static void mix_area(const struct area *a) { mix(a->at - NEAR, a->length + 2 * NEAR); }

/* ---- Calls on a state */

static struct knitout_stepped step(const struct area *bytes)
{
    const uint8_t *at = lent(bytes);
    fence(panel.at, panel.length);
    fences_up();
    struct knitout_stepped answer = knitout_step((struct knitout_state *)(void *)panel.at, at, bytes->length);
    fences_down();
    mix_number(answer.number | (uint64_t)answer.complete << 8 | (uint64_t)answer.looked << 16);
    mix_number(answer.length);
    count(STEP, answer.number);
    return answer;
}

static void list_carriers(void)
{
    size_t entries = one_in(8) ? below(KNITOUT_CARRIERS) : KNITOUT_CARRIERS + below(3);
    place(&list, entries * sizeof(struct knitout_carrier));
    struct knitout_carrier *at = lent(&list);
    fence(panel.at, panel.length);
    fences_up();
    struct knitout_served answer = knitout_carriers((const struct knitout_state *)(const void *)panel.at, at, entries);
    fences_down();
    mix_number(answer.number), mix_number(answer.length);
    count(CARRIERS, answer.number);
    mix_area(&list), mix_area(&panel);
}

/* ---- Records that often have their step, from the state that they are to be stepped in */

static const uint8_t sizes[12] = {1, 2, 3, 4, 5, 5, 5, 5, 5, 6, 6, 6};
static int first_column;  /* where carriers of this case come in */
static unsigned carriers; /* how many it has: with few, each goes far */

/* Another carrier that is parked at the same slot, if there is one. */
static unsigned beside(const struct knitout_state *s, unsigned k)
{
    for (unsigned i = 1; i <= KNITOUT_CARRIERS; i++)
        if (i != k && s->carriers[i - 1].active && s->carriers[i - 1].slot == s->carriers[k - 1].slot) return i;
    return 1 + below(KNITOUT_CARRIERS);
}

/* A column for a record of this kind, direction and carrier. */
static int choose_column(const struct knitout_carrier *c, unsigned kind, unsigned right)
{
    if (!c->active) return first_column + (int)below(12);
    if (kind < KNITOUT_IN) return c->slot + (int)below(5) - 2;
    return c->slot - (kind == KNITOUT_OUT ? (int)right : 1 - (int)right);
}

static unsigned choose_kind(const struct knitout_state *s, unsigned k)
{
    unsigned kind = 1 + below(11);
    if (kind == KNITOUT_RACK && below(4)) kind = KNITOUT_KNIT;
    if (carriers < 3) kind = below(12) ? KNITOUT_MISS : one_in(3) ? KNITOUT_RACK : kind;
    if (kind > KNITOUT_IN && !s->carriers[k - 1].active && below(8)) kind = KNITOUT_IN;
    return kind;
}

/* Writes a record of the chosen kind, and gives its length. */
static size_t choose_record(const struct knitout_state *s, uint8_t *r)
{
    unsigned k = 1 + below(carriers), kind = choose_kind(s, k);
    unsigned bed = below(2), right = carriers < 3 && below(8) ? first_column < 100 : below(2);
    int moved = one_in(30) ? (int)below(3) - 1 : 0, column = moved + choose_column(&s->carriers[k - 1], kind, right);
    uint8_t needle = (uint8_t)(bed ? column - s->racking : column), other = (uint8_t)(bed ? column : column - s->racking);
    uint8_t racking = (uint8_t)(one_in(20) ? below(256) : below(17) - 8), second = (uint8_t)beside(s, k);
    const uint8_t rack[] = {racking}, bare[] = {(uint8_t)bed, needle, other},
                  carried[] = {(uint8_t)right, (uint8_t)bed, needle, (uint8_t)k, kind == KNITOUT_SPLIT ? other : second};
    r[0] = (uint8_t)kind;
    memcpy(r + 1, kind == KNITOUT_RACK ? rack : kind < KNITOUT_IN ? bare : carried, sizes[kind] - 1u);
    return sizes[kind];
}

/* ---- A program: made in bytes, and its records' starts */

static uint8_t bytes[KNITOUT_PROGRAM_MOST + KNITOUT_RECORD_MOST];
static uint16_t starts[RECORDS_MOST];
static size_t length;
static unsigned records;
static uint8_t refused[KNITOUT_RECORD_MOST]; /* the last record that had no step */
static size_t refused_size;

static void append(const uint8_t *record, size_t size)
{
    if (size == 0 || length + size > KNITOUT_PROGRAM_MOST) return;
    memcpy(bytes + length, record, size);
    starts[records++] = (uint16_t)length;
    length += size;
}

/* Tries to go on by one record. */
static void extend(void)
{
    static _Alignas(FENCE) uint8_t record[ROOM(KNITOUT_RECORD_MOST)];
    static struct area part = {record, 1, 0, 0};
    struct knitout_state now;
    uint8_t chosen[KNITOUT_RECORD_MOST];
    memcpy(&now, panel.at, sizeof now);
    size_t size = choose_record(&now, chosen);
    place(&part, one_in(40) ? below((unsigned)size) : size);
    memcpy(part.at, chosen, part.length);
    unsigned number = step(&part).number;
    mix_area(&part), mix_area(&panel);
    if (number == KNITOUT_DONE) {
        append(chosen, size);
        return;
    }
    refused_size = size;
    memcpy(refused, chosen, size);
}

/* From the empty state at a limit, with about so many tries. */
static void make_program(uint8_t limit, unsigned tries)
{
    const struct knitout_state empty = KNITOUT_EMPTY(limit);
    static const int columns[] = {0, 3, 100, 228, 240};
    first_column = columns[below(5)];
    carriers = one_in(5) ? 1 + below(2) : KNITOUT_CARRIERS;
    place(&panel, sizeof empty);
    memcpy(panel.at, &empty, sizeof empty);
    length = refused_size = records = 0;
    while (tries-- && length < KNITOUT_PROGRAM_MOST) extend();
}

/* ---- Calls of a case */

/* A state with one byte at random: a step of the program's bytes and a list of it. */
static void call_on_foul_state(void)
{
    struct area part = program;
    size_t from = records ? starts[below(records)] : 0, most = length - from < 10 ? length - from : 10;
    uint8_t byte = (uint8_t)draw();
    panel.at[below((unsigned)panel.length)] = byte;
    place(&part, below((unsigned)most + 1));
    memcpy(part.at, bytes + from, part.length);
    step(&part);
    mix_area(&part), mix_area(&panel);
    list_carriers();
}

/* Sometimes a record without a step behind it, another byte, an end cut off. */
static void spoil_program(void)
{
    if (one_in(8)) append(refused, refused_size);
    uint32_t kind = below(13), byte = one_in(2) ? kind : draw();
    if (length && one_in(4)) bytes[below((unsigned)length)] = (uint8_t)byte;
    if (length && one_in(8)) length -= below(length < 6 ? (unsigned)length : 6);
}

static void place_program(void)
{
    place(&program, length);
    if (length) memcpy(program.at, bytes, length);
}

static void call_run(uint8_t limit)
{
    place_program();
    const uint8_t *at = lent(&program);
    fences_up();
    uint64_t answer = knitout_run(at, length), answer_at = knitout_run_at(limit, at, length);
    fences_down();
    mix_answer(RUN, answer), mix_answer(RUN_AT, answer_at);
    mix_area(&program);
}

/* Far over the limit: refused with hardly a byte to read. */
static void call_too_long(void)
{
    place(&program, 1);
    const uint8_t *at = lent(&program);
    uint32_t beyond = below(1u << 30);
    size_t claimed = one_in(2) ? SIZE_MAX - beyond : KNITOUT_PROGRAM_MOST + 1 + beyond;
    fences_up();
    uint64_t answer = knitout_run(at, claimed);
    fences_down();
    mix_answer(RUN, answer), mix_area(&program);
}

static void make_log(void)
{
    uint8_t made[LOG_MOST];
    size_t n = 0;
    for (unsigned left = below(60); left; left--) {
        unsigned past = one_in(20) ? 3 : 0, i = below(records + past + !records), kind = one_in(100) ? draw() & 255 : KNITOUT_SWAP;
        made[n++] = (uint8_t)kind, made[n++] = (uint8_t)(i >> 8), made[n++] = (uint8_t)i;
    }
    if (n && one_in(10)) n -= 1 + below(2);
    place(&logged, n);
    memcpy(logged.at, made, n);
}

/* Output and work area, mostly large enough. */
static void place_written(void)
{
    unsigned most = (unsigned)length, room = one_in(20) ? below(most + 1) : most + below(SPARE);
    unsigned entries = one_in(20) ? below(most / 2 + 1) : most / 2 + below(SPARE);
    place(&output, room), place(&work, 2 * (size_t)entries);
}

static void mix_written(void) { mix_area(&program), mix_area(&output), mix_area(&work); }

static void call_rewrite(enum entry entry, uint8_t limit)
{
    place_program(), make_log(), place_written();
    const uint8_t *at = lent(&program), *log_at = lent(&logged);
    uint8_t *out = lent(&output);
    uint16_t *entries = lent(&work);
    fences_up();
    uint64_t answer = entry == REWRITE
        ? knitout_rewrite(at, length, log_at, logged.length, out, output.length, entries, work.length / 2)
        : knitout_rewrite_at(limit, at, length, log_at, logged.length, out, output.length, entries, work.length / 2);
    fences_down();
    mix_answer(entry, answer), mix_written(), mix_area(&logged);
}

static void call_order(enum entry entry, uint8_t limit)
{
    place_program(), place_written();
    const uint8_t *at = lent(&program);
    uint8_t *out = lent(&output);
    uint16_t *entries = lent(&work);
    fences_up();
    uint64_t answer = entry == ORDER ? knitout_order(at, length, out, output.length, entries, work.length / 2)
                                     : knitout_order_at(limit, at, length, out, output.length, entries, work.length / 2);
    fences_down();
    mix_answer(entry, answer), mix_written();
}

/* A piece of the program, a record at its front. */
static void place_piece(struct area *a)
{
    size_t from = records ? starts[below(records)] : 0, most = from < length ? length - from : 0;
    size_t size = one_in(10) ? below(6) : 6;
    place(a, size < most ? size : most);
    if (a->length) memcpy(a->at, bytes + from, a->length);
}

static void call_tie(void)
{
    int racking = one_in(10) ? (int)below(256) - 128 : (int)below(17) - 8;
    place_piece(&program), place_piece(&logged);
    const uint8_t *first = lent(&program), *second = lent(&logged);
    fences_up();
    struct knitout_tied tied = knitout_tie((int8_t)racking, first, program.length, second, logged.length);
    fences_down();
    mix_number((uint32_t)tied.left), mix_number((uint32_t)tied.right);
    mix_number(tied.number | (uint64_t)tied.by << 8 | (uint64_t)tied.carrier << 16 | (uint64_t)tied.low << 24 | (uint64_t)tied.high << 32);
    count(TIE, tied.number);
    mix_area(&program), mix_area(&logged);
}

#define INTERFACE_OF(number) knitout_interface_##number()
#define INTERFACE_CALL(number) INTERFACE_OF(number)

/* Every entry at least once. Few programs are long. */
static void try_case(unsigned long n)
{
    uint8_t limit = (uint8_t)(below(3) ? KNITOUT_LIMIT_MOST : 1 + below(KNITOUT_LIMIT_MOST));
    make_program(limit, n % 5000 == 4999 ? 30000 : one_in(50) ? below(900) : below(60));
    list_carriers();
    call_on_foul_state();
    spoil_program();
    if (one_in(20)) limit = (uint8_t)draw();
    call_run(limit), call_too_long();
    call_rewrite(REWRITE, limit), call_rewrite(REWRITE_AT, limit);
    call_order(ORDER, limit), call_order(ORDER_AT, limit);
    for (int i = 0; i < 8; i++) call_tie();
    uint32_t interface = INTERFACE_CALL(KNITOUT_INTERFACE);
    mix_number(interface), count(INTERFACE, interface == KNITOUT_INTERFACE ? 0 : 1);
}

static void print_seen(void)
{
    for (int e = 0; e < ENTRIES; e++) {
        printf("%s", names[e]);
        for (int n = 0; n <= NUMBERS; n++)
            if (seen[e][n]) printf(" %d:%lu", n, seen[e][n]);
        puts("");
    }
}

/* ---- Whether fences hold */

/* Both fences of areas of many lengths, at each place that they can have: the bytes of a fence are out of reach, those before,
   between and behind them are not, nor is any once the fences are down. */
static int try_fences(void)
{
    unsigned tried = 0, wrong = 0;
    for (size_t n = 0; n < 2500; n++) {
        place(&program, n);
        lent(&program);
        uint8_t *front = program.room + (size_t)(program.at - program.room) / FENCE * FENCE;
        uint8_t *behind = program.room + ((size_t)(program.at - program.room) + n + FENCE - 1) / FENCE * FENCE;
        uint8_t *const out[] = {front - FENCE, front - 1, behind, behind + FENCE - 1}, *const in[] = {front, behind - 1};
        fences_up();
        for (int i = 0; i < 4; i++) wrong += 1 - is_fenced(out[i]);
        for (int i = 0; i < 2; i++) wrong += front < behind ? is_fenced(in[i]) : 0;
        wrong += is_fenced(behind + FENCE);
        fences_down();
        for (int i = 0; i < 4; i++) wrong += is_fenced(out[i]);
        tried++;
    }
    printf("%u areas fenced, %u bytes wrong\n", tried, wrong);
    return wrong != 0;
}

int main(int count_words, char **words)
{
    if (count_words == 2 && strcmp(words[1], "fences") == 0 && use_fences()) return try_fences();
    unsigned long most = count_words > 1 ? strtoul(words[1], NULL, 10) : 0;
    if (most < 5 || count_words > 3 || (count_words == 3 && (strcmp(words[2], "fenced") != 0 || !use_fences()))) {
        fputs("usage: cases COUNT [fenced], or cases fences; there may be no fences here\n", stderr);
        return 2;
    }
    for (unsigned long n = 0; n < most; n++) {
        try_case(n);
        if ((n + 1) % (most / 5) == 0) {
            printf("%lu cases: %08lx%08lx\n", n + 1, (unsigned long)hash, (unsigned long)hashes);
            fflush(stdout);
        }
    }
    print_seen();
    return 0;
}
