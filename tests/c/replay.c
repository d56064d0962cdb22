/* The calls of leap.h that replay a trace. The expected lines stand here as request
 * 12/14 gives them, or are worked out beside them from its rules, 01's and 10/14's. */
#include "asked.h"

enum { LINE = LEAP_REPLAY_ROOM, HELD = LEAP_REPLAY_HELD, LONG = 200000 };

/* The two lists that a replay remembers. */
typedef struct {
    leap_schedule current, stored;
} memory;

static uint8_t *current_area, *stored_area;
static char name[64];

static memory of(leap_schedule current, leap_schedule stored)
{
    memory m;
    m.current = current, m.stored = stored;
    return m;
}

static leap_schedule blank(void) { return schedule(0, NULL, 0); }
static leap_schedule gap_of_5(void) { return schedule(0, NULL, MONTH_5); } /* 5? */

static void call_it(const char *trace, size_t length)
{
    size_t i;
    snprintf(name, sizeof name, "%.*s", (int)(length < 40 ? length : 40), trace);
    for (i = 0; name[i] != 0; i++)
        if (name[i] < ' ' || name[i] > '~')
            name[i] = '.';
}

static int differ(const void *one, const void *other, size_t length)
{
    return length > 0 && memcmp(one, other, length) != 0;
}

/* ---- one call ---- */

/* What a room holds after a call that wrote these bytes. */
static void holds(const uint8_t *out, size_t room, uint64_t written, const char *printed)
{
    size_t length = strlen(printed), i;
    same(name, "count", written, length);
    same(name, "a printed byte", differ(out, printed, length), 0);
    for (i = length; i < room; i++)
        same(name, "a byte beyond what is printed", out[i], FILL);
    untouched(name, out_area, room);
}

/* Replays a piece in that room: these bytes of it are used and printed, and these
 * lists remain. */
static void replays(memory before, const char *trace, size_t length, size_t room, uint8_t number,
                    size_t want_used, const char *printed, memory after)
{
    leap_schedule *current = last_copy(current_area, &before.current, sizeof *current);
    leap_schedule *stored = last_copy(stored_area, &before.stored, sizeof *stored);
    const uint8_t *in = last_copy(in_area, trace, length);
    uint8_t *out = last(out_area, room);
    uint64_t *used = last(one_area, sizeof *used), *written = last(two_area, sizeof *written);
    call_it(trace, length);
    same(name, "number",
         leap_replay(current, stored, in, length, out, room, used, written), number);
    same(name, "the used bytes", *used, want_used);
    holds(out, room, *written, printed);
    same(name, "a word of the current list", differ(current, &after.current, sizeof *current), 0);
    same(name, "a word of the stored list", differ(stored, &after.stored, sizeof *stored), 0);
    same(name, "a byte of the trace", differ(in, trace, length), 0);
    untouched(name, in_area, length);
    untouched(name, current_area, sizeof *current);
    untouched(name, stored_area, sizeof *stored);
    untouched(name, one_area, sizeof *used);
    untouched(name, two_area, sizeof *written);
}

static void ends(const char *left, size_t length, size_t room, uint8_t number, const char *printed)
{
    const uint8_t *in = last_copy(in_area, left, length);
    uint8_t *out = last(out_area, room);
    uint64_t *written = last(one_area, sizeof *written);
    call_it(left, length);
    same(name, "number", leap_replay_end(in, length, out, room, written), number);
    holds(out, room, *written, printed);
    same(name, "a byte that is left", differ(in, left, length), 0);
    untouched(name, in_area, length);
    untouched(name, one_area, sizeof *written);
}

/* ---- a whole day ---- */

/* Replays a day as the header's loop does: pieces of that size come behind what is
 * held, which is at most 4,097 bytes, and what they print goes into that room. */
static void in_pieces(const char *trace, size_t length, size_t piece, size_t room,
                      const char *printed)
{
    static uint8_t buffer[HELD + LONG], out[LONG];
    static char all[LONG + 1];
    memory now = of(blank(), blank());
    uint64_t used, written;
    size_t at = 0, start, held = 0, got, total = 0;
    call_it(trace, length);
    while ((got = length - at < piece ? length - at : piece) > 0) {
        memcpy(buffer + held, trace + at, got);
        at += got, start = 0, held += got;
        do {
            same(name, "number",
                 leap_replay(&now.current, &now.stored, buffer + start, held - start, out, room,
                             &used, &written),
                 LEAP_OK);
            memcpy(all + total, out, written);
            total += written, start += used;
        } while (used > 0);
        held -= start;
        if (held > HELD)
            held = HELD;
        memmove(buffer, buffer + start, held);
    }
    same(name, "number at the end", leap_replay_end(buffer, held, out, room, &written), LEAP_OK);
    memcpy(all + total, out, written);
    total += written, all[total] = 0;
    if (strcmp(all, printed) != 0) {
        printf("FAILED replay: %s in pieces of %lu prints %.200s, not %.200s\n", name,
               (unsigned long)piece, all, printed);
        exit(1);
    }
}

static void day_of(const char *trace, size_t length, const char *printed)
{
    static const size_t PIECES[] = {LONG, 1, 2, 7, 4096, 4097, 4098};
    size_t i;
    for (i = 0; i < sizeof PIECES / sizeof *PIECES; i++) {
        if (length / PIECES[i] > 10000)
            continue; /* a long line a byte at a time takes long */
        in_pieces(trace, length, PIECES[i], LINE, printed);
        in_pieces(trace, length, PIECES[i], LINE + 1, printed);
        in_pieces(trace, length, PIECES[i], 4096, printed);
    }
}

static void day(const char *trace, const char *printed) { day_of(trace, strlen(trace), printed); }

/* `before`, that many bytes of one value, `after`. */
static const char *around(const char *before, char byte, size_t count, const char *after)
{
    static char trace[LONG];
    size_t length = strlen(before);
    memcpy(trace, before, length);
    memset(trace + length, byte, count);
    strcpy(trace + length + count, after);
    return trace;
}

/* ---- the tests ---- */

#define Q "Q 41498 86400000000\n"      /* in the second that 6+5? inserts */
#define TIME "41498 86399001000000\n"  /* P10 */

static void worked(void)
{
    begin("replay: the example of 12/14");
    day("L 6+5?\n" Q, TIME);
    end();

    begin("replay: lists used, stored and reset to");
    day("", "");
    day(Q, "!11\n"); /* blank at the start */
    day("S\nZ\n" Q, "!11\n");
    day("L 6+5?\nZ\n" Q, "!11\n");
    day("L 6+5?\nS\nL 6-5?\n" Q "Z\n" Q, "!9\n" TIME);
    day("L 6+5?\nS\nL 6-5?\nS\nL 5?\nZ\n" Q, "!9\n");
    day("L 6+5?\nL 5\n" Q, "!1\n" TIME); /* a refused list keeps the current one */
    end();

    begin("replay: P10 to P12, and the refusals of a Q in their order");
    day("L 6+5?\nQ 41498 85401000000\nQ 41498 85402000000\n",
        "41498 85401000000000\n41498 85401999000000\n");
    day("L 6-5?\nQ 41498 86398000000\nQ 41498 86399000000\n", "41498 86398999000000\n!9\n");
    day("L 6+5?\nQ 41316 99999999999\n", "!8\n");
    day("L 6+5?\nQ 41652 86401000000\n", "!9\n"); /* month 11 starts on MJD 41652 */
    day("L 6+5?\nQ 41652 0\nQ 41651 85399000000\n", "!10\n!10\n");
    day("L 6+5?\nQ 41651 85398999999\nQ 41499 86400000000\n", "41651 85398999999000\n!9\n");
    day("L 6+5?\nQ 41317 0\nQ 41317 1\n", "41317 0\n41317 1000\n");
    end();
}

static void refused(void)
{
    static char many[2048];
    int i;
    char *at = many + sprintf(many, "L ");
    for (i = 0; i < 257; i++)
        at += sprintf(at, "1+");
    strcpy(at, "1?\n");

    begin("replay: lists that do not read");
    day("L \n", "!1\n");
    day("L 6+\n", "!1\n");
    day("L  6+5?\n", "!2\n");
    day("L current\n", "!2\n");
    day("L 5\r?\n", "!2\n");
    day("L 06+5?\n", "!3\n");
    day("L 1000?\n", "!3\n");
    day("L 999+999+403?\n", "!4\n");
    day(many, "!5\n");
    day("L 5?\r\n", "!6\n");
    day("L 5? \n", "!6\n");
    day_of("L 5?\0\n", 6, "!6\n");
    end();
}

static void no_lines(void)
{
    static const char *const NONE[] = {
        "", " ", "#", "L", "l 5?", "L\t5?", " L 5?", "S ", " S", "S\r", "s", "SS", "S 5?", "Z ",
        "Z\r", "z", "\r", "Q", "Q ", "Q  ", "Q 41498", "Q 41498 ", "Q  0", "Q 41498  0",
        "Q  41498 0", "Q 41498 0 ", "Q 41498 0\r", "Q 41498 0 0", "Q 41498\t0", "Q +41498 0",
        "Q 41498 -0", "Q 41498 0.0", "Q x 0", "Q 41498 x", "q 41498 0", "\x80\xff", "show 5?"};
    char trace[64];
    size_t i;
    begin("replay: what is no line, and changes nothing");
    for (i = 0; i < sizeof NONE / sizeof *NONE; i++) {
        snprintf(trace, sizeof trace, "L 6+5?\n%s\n" Q, NONE[i]);
        day(trace, "!20\n" TIME);
        snprintf(trace, sizeof trace, "L 6+5?\nS\nL 6-5?\n%s\nZ\n" Q, NONE[i]);
        day(trace, "!20\n" TIME);
    }
    day_of("\0\n", 2, "!20\n");
    day_of("S\0\n", 3, "!20\n");
    day_of("Q 41498\0 0\n", 11, "!20\n");
    end();
}

/* A Q of 41498 and 7, each number written with that many digits. */
static const char *of_digits(int mjd, int micros)
{
    static char trace[200];
    sprintf(trace, "L 6+5?\nQ %0*d %0*d\n", mjd, 41498, micros, 7);
    return trace;
}

static void numbers(void)
{
    int digits;
    begin("replay: numbers of up to 18 digits");
    for (digits = 5; digits <= 30; digits++) {
        day(of_digits(digits, 1), digits <= 18 ? "41498 7000\n" : "!20\n");
        day(of_digits(5, digits), digits <= 18 ? "41498 7000\n" : "!20\n");
    }
    day("L 6+5?\nQ 999999999999999999 0\n", "!10\n");
    day("L 6+5?\nQ 41498 999999999999999999\n", "!9\n");
    day("L 6+5?\nQ 1000000000000041498 0\n", "!20\n");
    day("L 6+5?\nQ 18446744073709593114 0\n", "!20\n"); /* 2^64 + 41498 */
    day("L 6+5?\nQ 41498 18446744073709551616\n", "!20\n"); /* 2^64 */
    end();
}

static void long_lines(void)
{
    size_t size;
    begin("replay: lines of up to 4,096 bytes");
    for (size = 4093; size <= 4100; size++) {
        const char *own = size <= 4096 ? "!3\n" : "!20\n", *after = size <= 4096 ? "!6\n" : "!20\n";
        day(around("L ", '1', size - 2, "\n"), own);
        day(around("L 5?", '5', size - 4, "\n"), after);
        day(around("", 'S', size, "\n"), "!20\n");
    }
    day(around("L 6+5?\nL ", '1', 100000, "\n" Q), "!20\n" TIME);
    day(around("L 6+5?\n", 'x', 100000, "\n" Q), "!20\n" TIME);
    day(around("L 6+5?\n", 'Z', 100000, ""), "!20\n");
    end();
}

/* ---- rooms ---- */

static void rooms(void)
{
    static const char trace[] = "L 6+5?\n" Q "S\n" Q "S";
    const size_t length = sizeof trace - 1, first = 7 + 20, second = first + 2 + 20;
    memory start = of(blank(), blank()), one = of(list_plus(), blank());
    memory both = of(list_plus(), list_plus()), other = of(gap_of_5(), list_n());
    size_t room;

    begin("replay: rooms of less than 22 bytes, whatever the trace is");
    for (room = 0; room < LINE; room++) {
        replays(other, trace, length, room, LEAP_OUTPUT_SHORT, 0, "", other);
        replays(other, "S\n", 2, room, LEAP_OUTPUT_SHORT, 0, "", other);
        replays(other, "S", 1, room, LEAP_OUTPUT_SHORT, 0, "", other);
        replays(other, "", 0, room, LEAP_OUTPUT_SHORT, 0, "", other);
    }
    end();

    /* Each answer has 21 bytes, so there is none of two in less than 43; and no S
     * either behind the first, though it prints nothing. */
    begin("replay: rooms for one line and for two");
    for (room = LINE; room < 21 + LINE; room++)
        replays(start, trace, length, room, LEAP_OK, first, TIME, one);
    for (room = 21 + LINE; room < 100; room++)
        replays(start, trace, length, room, LEAP_OK, second, TIME TIME, both);
    replays(other, "S\nZ\nS\n", 6, LINE, LEAP_OK, 6, "", of(gap_of_5(), gap_of_5()));
    replays(other, "x\nx\n", 4, LINE, LEAP_OK, 2, "!20\n", other);
    replays(other, "x\nx\n", 4, LINE + 3, LEAP_OK, 2, "!20\n", other);
    replays(other, "x\nx\n", 4, LINE + 4, LEAP_OK, 4, "!20\n!20\n", other);
    end();

    begin("replay: a piece without a complete line");
    replays(other, "", 0, LINE, LEAP_OK, 0, "", other);
    replays(other, "Z", 1, LINE, LEAP_OK, 0, "", other);
    replays(other, around("", 'x', 8000, ""), 8000, 4096, LEAP_OK, 0, "", other);
    end();

    /* 999 + 999 + 402 is month 2400, so Z is MJD 114365. Six digits, a space,
     * fourteen digits and a newline are the most that a line can print. */
    begin("replay: the room that any line needs");
    same("the longest", "LEAP_REPLAY_ROOM", LEAP_REPLAY_ROOM, 22);
    same("the longest", "length", strlen("114364 86399999999000\n"), 22);
    day("L 999+999+402?\nQ 114364 86399999999\n", "114364 86399999999000\n");
    day("L 999+999+402?\nQ 114365 85398999999\nQ 114365 85399000000\nQ 114366 0\n",
        "114365 85398999999000\n!10\n!10\n");
    same("a line that is kept", "LEAP_REPLAY_HELD", LEAP_REPLAY_HELD, 4097);
    end();
}

static void the_end(void)
{
    size_t room;
    begin("replay: the end of a trace, in rooms of 3 bytes and of 4");
    for (room = 0; room < 30; room++) {
        ends("", 0, room, LEAP_OK, "");
        ends("S", 1, room, room < 4 ? LEAP_OUTPUT_SHORT : LEAP_OK, room < 4 ? "" : "!20\n");
        ends(Q, 19, room, room < 4 ? LEAP_OUTPUT_SHORT : LEAP_OK, room < 4 ? "" : "!20\n");
    }
    ends(around("", 'x', 8000, ""), 8000, 4, LEAP_OK, "!20\n");
    ends("\0", 1, 4, LEAP_OK, "!20\n");
    end();

    begin("replay: a last line that lacks its newline");
    day("S", "!20\n");
    day("L 6+5?", "!20\n");
    day("L 6+5?\nQ 41498 86400000000", "!20\n");
    day("L 6+5?\n" Q "Z", TIME "!20\n");
    day("\n", "!20\n");
    end();
}

/* ---- lists that are handed in ---- */

/* The list held expires on 28 December 1972, so that the day before is known whole;
 * 6+5?, which a trace can use, expires on the first, and is extended by it. */
static void held(void)
{
    static const char z[] = "Q 41678 86399999999\nQ 41678 86400000000\nQ 41679 0\n";
    static const char answers[] = "41678 86399999999000\n!9\n!10\n";
    static const char used[] = "S\nL 6+5?\nQ 41651 85398999999\nQ 41651 85399000000\nQ 41652 0\n";
    static const char later[] = "Z\nQ 41651 85399000000\nQ 41652 0\n";
    leap_schedule to_28 = schedule(1, &PLUS_6, 41679);
    memory start = of(to_28, blank()), stored = of(list_plus(), to_28), both = of(to_28, to_28);

    begin("replay: from a list that expires within a month");
    replays(start, z, sizeof z - 1, 100, LEAP_OK, sizeof z - 1, answers, start);
    replays(start, used, sizeof used - 1, 100, LEAP_OK, sizeof used - 1,
            "41651 85398999999000\n!10\n!10\n", stored);
    replays(stored, later, sizeof later - 1, 100, LEAP_OK, sizeof later - 1,
            "41651 85399000000000\n41652 0\n", both);
    end();
}

/* ---- any words ---- */

static void any_words(void)
{
    static const char ask[] = "Q 41317 0\nQ 0 999999999999999999\n", copy[] = "S\nL 5?\n";
    leap_schedule five = gap_of_5(), all;
    size_t i;
    add_malformed();
    memset(&all, 0xff, sizeof all);
    add("all ones", all, 0);

    begin("replay: under words that stand for no list every Q prints !11");
    for (i = 0; i < list_count; i++)
        if (!lists[i].good) {
            memory m = of(lists[i].list, five);
            replays(m, ask, sizeof ask - 1, 100, LEAP_OK, sizeof ask - 1, "!11\n!11\n", m);
        }
    end();

    begin("replay: S and Z copy words as they are");
    for (i = 0; i < list_count; i++) {
        leap_schedule s = lists[i].list;
        replays(of(s, five), copy, sizeof copy - 1, LINE, LEAP_OK, sizeof copy - 1, "",
                of(five, s));
        replays(of(five, s), "Z\n", 2, LINE, LEAP_OK, 2, "", of(s, s));
        replays(of(s, five), "Z\n", 2, LINE, LEAP_OK, 2, "", of(five, five));
        replays(of(s, five), "x\n", 2, LINE, LEAP_OK, 2, "!20\n", of(s, five));
    }
    end();
}

/* A Q under a good list, and what leap_utc_to_uts says of it, whose values other
 * tests check. */
static void agrees(uint64_t mjd, uint64_t micros)
{
    char trace[64], printed[64];
    uint64_t nanos;
    uint8_t number = leap_utc_to_uts(&asked.list, mjd, micros, &nanos);
    int length = snprintf(trace, sizeof trace, "Q %llu %llu\n", (unsigned long long)mjd,
                          (unsigned long long)micros);
    if (mjd > U(999999999999999999) || micros > U(999999999999999999))
        number = LEAP_NO_LINE;
    if (number == LEAP_OK)
        snprintf(printed, sizeof printed, "%llu %llu\n", (unsigned long long)mjd,
                 (unsigned long long)nanos);
    else
        snprintf(printed, sizeof printed, "!%d\n", number);
    replays(of(asked.list, blank()), trace, (size_t)length, LINE, LEAP_OK, (size_t)length, printed,
            of(asked.list, blank()));
}

static void as_single(void)
{
    size_t which, day, i;
    begin("replay: each Q is answered as by leap_utc_to_uts, at the edges and at random");
    for (which = 0; which < list_count; which++) {
        if (!lists[which].good)
            continue;
        choose(which);
        for (day = 0; day < day_count; day += 1 + day_count / 64)
            for (i = 0; i < 3 * SECONDS_COUNT; i += 1 + below(3))
                agrees(days[day], SECONDS[i / 3] * 1000000 + i % 3 - 1);
        for (i = 0; i < 500; i++)
            agrees(random_day(), random_time(1000000));
    }
    end();
}

int main(void)
{
    new_areas();
    current_area = new_area();
    stored_area = new_area();
    add_good();
    worked();
    refused();
    no_lines();
    numbers();
    long_lines();
    rooms();
    the_end();
    held();
    any_words();
    as_single();
    return 0;
}
