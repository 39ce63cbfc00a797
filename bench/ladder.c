/* The five calls of document 01, the search for a label and the list reader, with document 02's requests up to Req 07, in plain C, for
   comparison. Written from the documents alone; it shares nothing with the proved code.
   Standard input: a number of turns, LF, and one request of the vectors' format. Each turn works on a fresh copy of the table
   and of the timer records; the times entered need none, since a list scan sets them for itself alone.
   Standard output: the request's answer line, as the program test_vectors prints it. Standard error: nanoseconds a turn. */
#include <stdint.h>
#include <stdio.h>
#include <stdlib.h>
#include <string.h>
#include <time.h>

enum { MOST_VARS = 1024, MOST_RUNGS = 256, MOST_RUNG_WORDS = 128, MOST_WORDS = 8192, MOST_CODE = 16384, SCRATCH = 32, MOST_BRACKETS = 15,
       MOST_TIMERS = 32, TIMER_NUMBERS = 65536 };

typedef struct { uint16_t label; uint32_t offset, length, times; } Rung;
typedef struct { uint32_t preset, start; uint16_t variable; uint8_t running, done; } Timer;
typedef struct { Timer *row; size_t count; uint32_t now; } Timers;
typedef struct { int number; size_t place; } No;

static const No YES = {0, 0};
static No no(int number, size_t place) { No n = {number, place}; return n; }

/* ---- the kept ladder */

static uint32_t kind(uint32_t word) { return word >> 16; }
static uint32_t operand(uint32_t word) { return word & 0xffff; }

/* Where the front (or rear) that begins at `at` ends; 0 where there is none. */
static size_t front_end(const uint32_t *w, size_t at, size_t end)
{
    size_t owed = 1;
    while (owed > 0) {
        if (at >= end) return 0;
        uint32_t k = kind(w[at]);
        if (k == 1 || k == 2) owed--;
        else if ((k == 3 || k == 4) && operand(w[at]) == 0) owed++;
        else return 0;
        at++;
    }
    return at;
}

static size_t rear_end(const uint32_t *w, size_t at, size_t end)
{
    size_t owed = 1;
    while (owed > 0) {
        if (at >= end) return 0;
        uint32_t k = kind(w[at]);
        if ((k >= 5 && k <= 8) || (k >= 11 && k <= 13)) { owed--; at++; }
        else if (k == 9 && operand(w[at]) == 0) { at = front_end(w, at + 1, end); if (at == 0) return 0; }
        else if (k == 10 && operand(w[at]) == 0) { owed++; at++; }
        else return 0;
    }
    return at;
}

static int holds(const uint32_t *w, size_t n, const Rung *r, size_t m)
{
    size_t start = 0;
    if (m < 1) return 0;
    for (size_t i = 0; i < m; i++) {
        if (r[i].offset != start || r[i].length > n - start) return 0;
        size_t end = start + r[i].length, at = front_end(w, start, end);
        if (at == 0 || rear_end(w, at, end) != end) return 0;
        start = end;
    }
    return start == n;
}

/* "the search goes up from record 0, ends at the match, and tells how many records it looked at" */
typedef struct { int found; size_t place, looked; } Search;

static Search search(const Rung *r, size_t m, uint32_t label)
{
    Search s = {0, 0, 0};
    for (size_t i = 0; i < m; i++) {
        s.looked++;
        if (r[i].label == label) { s.found = 1; s.place = i; break; }
    }
    return s;
}

/* Scratch that a part takes; *at moves past it. */
static unsigned larger(unsigned a, unsigned b) { return a < b ? b : a; }
static int is_contact(uint32_t word) { return kind(word) == 1 || kind(word) == 2; }

static unsigned front_scratch(const uint32_t *w, size_t *at)
{
    uint32_t k = kind(w[(*at)++]);
    if (k == 1 || k == 2) return 0;
    unsigned a = front_scratch(w, at);
    int contact = is_contact(w[*at]);
    unsigned b = front_scratch(w, at);
    return larger(a, contact ? 0 : b + 1);
}

static unsigned rear_scratch(const uint32_t *w, size_t *at)
{
    uint32_t k = kind(w[(*at)++]);
    if (k != 9 && k != 10) return 0;
    if (k == 9) {
        int contact = is_contact(w[*at]);
        unsigned f = front_scratch(w, at);
        return larger(contact ? 0 : f + 1, rear_scratch(w, at));
    }
    unsigned a = rear_scratch(w, at);
    return larger(a + 1, rear_scratch(w, at));
}

/* ---- questions; d is null in the calls that get no timer records */

/* Question 16. */
static No timers_asked(uint32_t vars, const Timers *d)
{
    if (!d) return YES;
    if (d->count > MOST_TIMERS) return no(16, 0);
    for (size_t j = 0; j < d->count; j++) {
        if (d->row[j].variable >= vars) return no(16, 0);
        for (size_t i = 0; i < j; i++) if (d->row[i].variable == d->row[j].variable) return no(16, 0);
    }
    return YES;
}

/* How many timer numbers question 17 lets pass. */
static size_t timers_there(const Timers *d) { return d ? d->count : TIMER_NUMBERS; }

/* Questions 5 to 8, 17 and, where asked, 9. */
static No asked(uint32_t vars, const uint32_t *w, size_t n, const Rung *r, size_t m, const Timers *d, int scratch)
{
    if (m > MOST_RUNGS || n > MOST_WORDS) return no(5, 0);
    for (size_t i = 0; i < m; i++) if (r[i].length > MOST_RUNG_WORDS) return no(5, 0);
    size_t timers = timers_there(d);
    int missing = 0;
    for (size_t i = 0; i < m; i++)
        for (size_t j = r[i].offset; j < r[i].offset + r[i].length; j++) {
            uint32_t k = kind(w[j]);
            if ((k == 1 || k == 2 || k == 5 || k == 6 || k == 11 || k == 12) && operand(w[j]) >= vars) return no(6, i);
            if (k == 13 && operand(w[j]) >= timers) missing = 1;
        }
    for (size_t j = 0; j < m; j++)
        for (size_t i = 0; i < j; i++) if (r[i].label == r[j].label) return no(7, j);
    for (size_t i = 0; i < m; i++)
        for (size_t j = r[i].offset; j < r[i].offset + r[i].length; j++)
            if ((kind(w[j]) == 7 || kind(w[j]) == 8) && !search(r, m, operand(w[j])).found) return no(8, i);
    if (missing) return no(17, 0);
    if (scratch)
        for (size_t i = 0; i < m; i++) {
            size_t at = r[i].offset;
            unsigned f = front_scratch(w, &at);
            if (larger(f, rear_scratch(w, &at)) > SCRATCH) return no(9, 0);
        }
    return YES;
}

static No ladder_asked(uint32_t vars, const uint32_t *w, size_t n, const Rung *r, size_t m, const Timers *d)
{
    if (vars < 1 || vars > MOST_VARS) return no(1, 0);
    No refused = timers_asked(vars, d);
    if (refused.number) return refused;
    if (!holds(w, n, r, m)) return no(4, 0);
    return asked(vars, w, n, r, m, d, 1);
}

static No table_asked(uint32_t vars, const uint8_t *t, size_t bytes)
{
    if (bytes != vars + SCRATCH) return no(11, 0);
    for (size_t i = 0; i < bytes; i++) if (t[i] > 1) return no(11, 0);
    return YES;
}

/* ---- Ladder scan */

static int front_value(const uint32_t *w, size_t *at, const uint8_t *t)
{
    uint32_t word = w[(*at)++];
    switch (kind(word)) {
    case 1: return t[operand(word)];
    case 2: return !t[operand(word)];
    case 3: { int a = front_value(w, at, t), b = front_value(w, at, t); return a & b; }
    default: { int a = front_value(w, at, t), b = front_value(w, at, t); return a | b; }
    }
}

typedef struct { No no; int ended; uint32_t rungs, instructions, moved; } Scan;

/* Writes a variable; it has moved where the byte changed. */
static void write_variable(uint8_t *t, uint32_t x, int value, Scan *s) { s->moved += t[x] != value; t[x] = (uint8_t)value; }

/* "Its variable then gets done, and that write counts as a coil's." */
static void work_timer(const Timers *d, uint32_t number, int power, uint8_t *t, Scan *s)
{
    Timer *timer = &d->row[number];
    if (power) {
        if (!timer->running) { timer->start = d->now; timer->done = 0; }
        timer->running = 1;
        timer->done = timer->done || d->now - timer->start >= timer->preset;
    } else timer->running = timer->done = 0;
    write_variable(t, timer->variable, timer->done, s);
}

/* -1 onward, else the label of a taken jump. */
static int32_t run_rear(const uint32_t *w, size_t *at, int power, uint8_t *t, const Timers *d, Scan *s)
{
    uint32_t word = w[(*at)++];
    switch (kind(word)) {
    case 5: write_variable(t, operand(word), power, s); return -1;
    case 6: write_variable(t, operand(word), !power, s); return -1;
    case 7: return power ? (int32_t)operand(word) : -1;
    case 8: return power ? -1 : (int32_t)operand(word);
    case 11: if (power) write_variable(t, operand(word), 1, s); return -1;
    case 12: if (power) write_variable(t, operand(word), 0, s); return -1;
    case 13: work_timer(d, operand(word), power, t, s); return -1;
    case 9: { int f = front_value(w, at, t); return run_rear(w, at, power & f, t, d, s); }
    default: { int32_t a = run_rear(w, at, power, t, d, s); return a >= 0 ? a : run_rear(w, at, power, t, d, s); }
    }
}

static Scan ladder_scan(uint32_t vars, const uint32_t *w, size_t n, const Rung *r, size_t m, uint8_t *t, size_t bytes, uint32_t watchdog, const Timers *d)
{
    Scan s = {YES, 0, 0, 0, 0};
    s.no = ladder_asked(vars, w, n, r, m, d);
    if (s.no.number) return s;
    s.no = table_asked(vars, t, bytes);
    if (s.no.number) return s;
    if (watchdog > 65535) { s.no = no(12, 0); return s; }
    size_t rung = 0;
    for (;;) {
        if (rung >= m) { s.ended = 1; return s; }
        if (s.rungs == watchdog) return s;
        s.rungs++;
        size_t at = r[rung].offset;
        int power = front_value(w, &at, t);
        int32_t jump = run_rear(w, &at, power, t, d, &s);
        rung = jump < 0 ? rung + 1 : search(r, m, (uint32_t)jump).place;
    }
}

/* ---- lists */

enum { LD = 1, LDN, ST, STN, AND, ANDN, OR, ORN, XOR, XORN, NOT, JMP, JMPC, JMPCN, S, R, TON, OPS = TON };

static int is_jump(uint32_t op) { return op >= JMP && op <= JMPCN; }

static No list_asked(uint32_t vars, const uint32_t *c, size_t n, const Rung *r, size_t m, const Timers *d)
{
    if (vars < 1 || vars > MOST_VARS) return no(1, 0);
    No refused = timers_asked(vars, d);
    if (refused.number) return refused;
    if (n < 1 || n > MOST_CODE || m < 1 || m > MOST_RUNGS) return no(10, 0);
    uint64_t start = 0;
    for (size_t i = 0; i < m; i++) {
        if (r[i].offset != start || r[i].length == 0) return no(10, 0);
        start += r[i].length;
    }
    if (start != n) return no(10, 0);
    size_t timers = timers_there(d);
    int missing = 0;
    for (size_t i = 0; i < n; i++) {
        uint32_t op = kind(c[i]), x = operand(c[i]);
        if (op < 1 || op > OPS) return no(10, 0);
        if (op <= XORN || op == S || op == R ? x >= vars + SCRATCH : op == NOT ? x != 0 : op != TON && x > n) return no(10, 0);
        if (op == TON && x >= timers) missing = 1;
    }
    return missing ? no(17, 0) : YES;
}

/* Writes a byte of the table; "Scratch bytes don't count." */
static void write_byte(uint32_t vars, uint8_t *t, uint32_t x, int value, Scan *s)
{
    if (x < vars) write_variable(t, x, value, s);
    else t[x] = (uint8_t)value;
}

/* "a list scan that isn't refused sets every field for that scan alone, and a refused one touches none" */
static Scan list_scan(uint32_t vars, const uint32_t *c, size_t n, Rung *r, size_t m, uint8_t *t, size_t bytes, uint32_t watchdog, const Timers *d)
{
    Scan s = {YES, 0, 0, 0, 0};
    s.no = list_asked(vars, c, n, r, m, d);
    if (s.no.number) return s;
    s.no = table_asked(vars, t, bytes);
    if (s.no.number) return s;
    if (watchdog > 16777215) { s.no = no(12, 0); return s; }
    for (size_t i = 0; i < m; i++) r[i].times = 0;
    size_t pc = 0, next = 0;
    uint32_t start = r[0].offset;
    int acc = 0;
    for (;;) {
        if (pc == n) { s.ended = 1; return s; }
        if (s.instructions == watchdog) return s;
        s.instructions++;
        if (next < m && start == pc) { s.rungs++; r[next].times++; next++; start = next < m ? r[next].offset : 0; }
        uint32_t word = c[pc], x = operand(word);
        size_t to = pc + 1;
        switch (kind(word)) {
        case LD: acc = t[x]; break;
        case LDN: acc = !t[x]; break;
        case ST: write_byte(vars, t, x, acc, &s); break;
        case STN: write_byte(vars, t, x, !acc, &s); break;
        case AND: acc &= t[x]; break;
        case ANDN: acc &= !t[x]; break;
        case OR: acc |= t[x]; break;
        case ORN: acc |= !t[x]; break;
        case XOR: acc ^= t[x]; break;
        case XORN: acc ^= !t[x]; break;
        case NOT: acc = !acc; break;
        case JMP: to = x; break;
        case JMPC: if (acc) to = x; break;
        case JMPCN: if (!acc) to = x; break;
        case S: if (acc) write_byte(vars, t, x, 1, &s); break;
        case R: if (acc) write_byte(vars, t, x, 0, &s); break;
        case TON: work_timer(d, x, acc, t, &s); break;
        }
        if (to != pc + 1) {
            size_t low = 0, high = m;
            while (low < high) { size_t mid = low + (high - low) / 2; if (r[mid].offset < to) low = mid + 1; else high = mid; }
            next = low;
            start = next < m ? r[next].offset : 0;
        }
        pc = to;
    }
}

/* ---- Translate: counts first, writes then */

typedef struct { uint32_t *code; size_t room, put; uint32_t vars; const Rung *rungs; size_t m; const uint32_t *starts; } Out;

static void emit(Out *o, uint32_t op, uint32_t x) { if (o->put < o->room) o->code[o->put] = op << 16 | x; o->put++; }
static size_t front_code(const uint32_t *w, size_t at, uint32_t depth, Out *o);

static size_t join_code(const uint32_t *w, size_t at, uint32_t op, uint32_t depth, Out *o)
{
    if (is_contact(w[at])) { emit(o, kind(w[at]) == 1 ? op : op + 1, operand(w[at])); return at + 1; }
    emit(o, ST, o->vars + depth);
    at = front_code(w, at, depth + 1, o);
    emit(o, op, o->vars + depth);
    return at;
}

static size_t front_code(const uint32_t *w, size_t at, uint32_t depth, Out *o)
{
    uint32_t k = kind(w[at]);
    if (k <= 2) { emit(o, k == 1 ? LD : LDN, operand(w[at])); return at + 1; }
    at = front_code(w, at + 1, depth, o);
    return join_code(w, at, k == 3 ? AND : OR, depth, o);
}

static size_t rear_code(const uint32_t *w, size_t at, uint32_t depth, Out *o)
{
    uint32_t k = kind(w[at]), x = operand(w[at]);
    switch (k) {
    case 5: emit(o, ST, x); return at + 1;
    case 6: emit(o, STN, x); return at + 1;
    case 11: emit(o, S, x); return at + 1;
    case 12: emit(o, R, x); return at + 1;
    case 13: emit(o, TON, x); return at + 1;
    case 7: case 8: emit(o, k == 7 ? JMPC : JMPCN, o->starts[search(o->rungs, o->m, x).place]); return at + 1;
    case 9: at = join_code(w, at + 1, AND, depth, o); return rear_code(w, at, depth, o);
    default:
        emit(o, ST, o->vars + depth);
        at = rear_code(w, at + 1, depth + 1, o);
        emit(o, LD, o->vars + depth);
        return rear_code(w, at, depth, o);
    }
}

typedef struct { No no; size_t instructions, rungs, longest; } Translation;

static Translation translate(uint32_t vars, const uint32_t *w, size_t n, const Rung *r, size_t m, uint32_t *code, size_t code_room, Rung *out, size_t rung_room)
{
    Translation t = {YES, 0, 0, 0};
    uint32_t starts[MOST_RUNGS];
    t.no = ladder_asked(vars, w, n, r, m, NULL);
    if (t.no.number) return t;
    memset(starts, 0, sizeof starts);
    Out count = {code, 0, 0, vars, r, 0, starts};   /* counting needs no jump's rung, and has no record to search */
    for (size_t i = 0; i < m; i++) {
        size_t begin = count.put;
        starts[i] = (uint32_t)begin;
        rear_code(w, front_code(w, r[i].offset, 0, &count), 0, &count);
        if (count.put - begin > t.longest) t.longest = count.put - begin;
    }
    if (count.put > code_room || m > rung_room) { t.no = no(13, 0); return t; }
    Out write = {code, code_room, 0, vars, r, m, starts};
    for (size_t i = 0; i < m; i++) {
        size_t begin = write.put;
        rear_code(w, front_code(w, r[i].offset, 0, &write), 0, &write);
        out[i].label = r[i].label;
        out[i].offset = (uint32_t)begin;
        out[i].length = (uint32_t)(write.put - begin);
        out[i].times = 0;
    }
    t.instructions = write.put;
    t.rungs = m;
    return t;
}

/* ---- name tables: "one name for each op, 1 to 6 capital letters", six bytes an op, the rest of them zeros */

enum { NAME_BYTES = 6 };

static int is_capital(int b) { return b >= 'A' && b <= 'Z'; }

/* A name as one number, its first letter lowest; 0 where it is empty or "isn't capitals before zeros". */
static uint64_t name_key(const uint8_t *name)
{
    uint64_t key = 0;
    int k = 0;
    for (; k < NAME_BYTES && is_capital(name[k]); k++) key |= (uint64_t)name[k] << 8 * k;
    for (; k < NAME_BYTES; k++) if (name[k]) return 0;
    return key;
}

/* Question 14; keys gets the names' numbers. */
static No names_asked(const uint8_t *names, size_t bytes, uint64_t keys[OPS])
{
    if (bytes != OPS * NAME_BYTES) return no(14, 0);
    for (size_t i = 0; i < OPS; i++) {
        keys[i] = name_key(names + i * NAME_BYTES);
        if (keys[i] == 0) return no(14, 0);
        for (size_t j = 0; j < i; j++) if (keys[j] == keys[i]) return no(14, 0);
    }
    return YES;
}

/* ---- Listing */

typedef struct { uint8_t *bytes; size_t room, put; } Lines;
static void put(Lines *l, uint8_t b) { if (l->put < l->room) l->bytes[l->put] = b; l->put++; }
static void put_number(Lines *l, uint32_t x) { if (x >= 10) put_number(l, x / 10); put(l, '0' + x % 10); }

static void put_list(Lines *l, uint32_t vars, const uint32_t *c, const Rung *r, size_t m, const uint8_t *names)
{
    for (size_t i = 0; i < m; i++) {
        put(l, 'L'); put_number(l, r[i].label); put(l, ':'); put(l, '\n');
        for (size_t j = r[i].offset; j < r[i].offset + r[i].length; j++) {
            uint32_t op = kind(c[j]), x = operand(c[j]);
            const uint8_t *name = names + (op - 1) * NAME_BYTES;
            for (int k = 0; k < NAME_BYTES && name[k]; k++) put(l, name[k]);
            if (op != NOT) {
                put(l, ' ');
                if (is_jump(op)) { put(l, '@'); put_number(l, x); }
                else if (op == TON) { put(l, 'd'); put_number(l, x); }
                else if (x < vars) { put(l, 'v'); put_number(l, x); }
                else { put(l, 't'); put_number(l, x - vars); }
            }
            put(l, '\n');
        }
    }
}

typedef struct { No no; size_t bytes; } ListingDone;

static ListingDone listing(uint32_t vars, const uint32_t *c, size_t n, const Rung *r, size_t m, uint8_t *out, size_t room, const uint8_t *names, size_t name_bytes)
{
    ListingDone d = {YES, 0};
    uint64_t keys[OPS];
    d.no = names_asked(names, name_bytes, keys);
    if (d.no.number) return d;
    d.no = list_asked(vars, c, n, r, m, NULL);
    if (d.no.number) return d;
    Lines count = {out, 0, 0};
    put_list(&count, vars, c, r, m, names);
    if (count.put > room) { d.no = no(13, 0); return d; }
    Lines write = {out, room, 0};
    put_list(&write, vars, c, r, m, names);
    d.bytes = write.put;
    return d;
}

/* ---- Read: a line is number ":" front ">" rear LF. A front is terms joined by |, a term factors joined by &, a factor c, n or (front);
   a rear is branches joined by |, a branch factors each followed by &, then an output or [rear]. */

typedef struct { const uint8_t *text; size_t bytes, at; int stuck, open; uint32_t *words; size_t put; } Reader;

static int peek(const Reader *p) { return p->at < p->bytes ? p->text[p->at] : -1; }
static int take(Reader *p, int b) { if (p->stuck || peek(p) != b) { p->stuck = 1; return 0; } p->at++; return 1; }

static uint32_t number(Reader *p)
{
    int b = peek(p);
    if (p->stuck || b < '0' || b > '9') { p->stuck = 1; return 0; }
    uint32_t x = (uint32_t)(b - '0');
    p->at++;
    if (x == 0) return 0;
    while ((b = peek(p)) >= '0' && b <= '9' && x * 10 + (uint32_t)(b - '0') <= 65535) { x = x * 10 + (uint32_t)(b - '0'); p->at++; }
    return x;
}

static void word(Reader *p, uint32_t k, uint32_t x) { p->words[p->put++] = k << 16 | x; }

static void insert(Reader *p, size_t from, uint32_t k)
{
    memmove(p->words + from + 1, p->words + from, (p->put - from) * sizeof *p->words);
    p->words[from] = k << 16;
    p->put++;
}

static int opens(Reader *p) { if (p->open == MOST_BRACKETS) { p->stuck = 1; return 0; } p->open++; p->at++; return 1; }

static void front(Reader *p);

static void factor(Reader *p)
{
    int b = peek(p);
    if (b == 'c' || b == 'n') { p->at++; uint32_t x = number(p); if (!p->stuck) word(p, b == 'c' ? 1 : 2, x); }
    else if (b == '(') { if (opens(p)) { front(p); if (take(p, ')')) p->open--; } }
    else p->stuck = 1;
}

static void term(Reader *p)
{
    size_t from = p->put;
    factor(p);
    while (!p->stuck && peek(p) == '&') { p->at++; insert(p, from, 3); factor(p); }
}

static void front(Reader *p)
{
    size_t from = p->put;
    term(p);
    while (!p->stuck && peek(p) == '|') { p->at++; insert(p, from, 4); term(p); }
}

static void rear(Reader *p)
{
    for (;;) {
        size_t from = p->put;
        int b;
        while (!p->stuck && ((b = peek(p)) == 'c' || b == 'n' || b == '(')) { word(p, 9, 0); factor(p); take(p, '&'); }
        if (p->stuck) return;
        b = peek(p);
        if (b == 'o' || b == 'q' || b == 'j' || b == 'k' || b == 's' || b == 'r' || b == 't') {
            p->at++;
            uint32_t x = number(p);
            if (p->stuck) return;
            word(p, b == 'o' ? 5 : b == 'q' ? 6 : b == 'j' ? 7 : b == 'k' ? 8 : b == 's' ? 11 : b == 'r' ? 12 : 13, x);
        } else if (b == '[') {
            if (!opens(p)) return;
            rear(p);
            if (!take(p, ']')) return;
            p->open--;
        } else { p->stuck = 1; return; }
        if (peek(p) != '|') return;
        p->at++;
        insert(p, from, 10);
    }
}

static uint32_t read_words[70000];
static Rung read_rungs[20000];

typedef struct { No no; size_t words, rungs; } ReadDone;

static ReadDone read_text(uint32_t vars, const uint8_t *text, size_t bytes, uint32_t *words, size_t word_room, Rung *rungs, size_t rung_room)
{
    ReadDone d = {YES, 0, 0};
    if (vars < 1 || vars > MOST_VARS) { d.no = no(1, 0); return d; }
    if (bytes < 1 || bytes > 65535) { d.no = no(2, 0); return d; }
    Reader p = {text, bytes, 0, 0, 0, read_words, 0};
    size_t m = 0;
    do {
        size_t from = p.put;
        uint32_t label = number(&p);
        take(&p, ':');
        if (!p.stuck) front(&p);
        take(&p, '>');
        if (!p.stuck) rear(&p);
        take(&p, '\n');
        if (p.stuck) { d.no = no(3, p.at); return d; }
        read_rungs[m].label = (uint16_t)label;
        read_rungs[m].offset = (uint32_t)from;
        read_rungs[m].length = (uint32_t)(p.put - from);
        read_rungs[m].times = 0;
        m++;
    } while (p.at < bytes);
    d.no = asked(vars, read_words, p.put, read_rungs, m, NULL, 0);
    if (d.no.number) return d;
    if (p.put > word_room || m > rung_room) { d.no = no(13, 0); return d; }
    memcpy(words, read_words, p.put * sizeof *words);
    memcpy(rungs, read_rungs, m * sizeof *rungs);
    d.words = p.put;
    d.rungs = m;
    return d;
}

/* ---- the list reader: lines as Listing prints them, a label line first. A label line begins with L before a digit; no name has one. */

/* The op whose name stands here. */
static uint32_t op_named(Reader *p, const uint64_t keys[OPS])
{
    uint64_t key = 0;
    int b;
    for (int k = 0; k < NAME_BYTES && is_capital(b = peek(p)); k++) { key |= (uint64_t)b << 8 * k; p->at++; }
    for (uint32_t op = LD; op <= OPS; op++) if (keys[op - 1] == key) return op;
    p->stuck = 1;
    return 0;
}

/* "v below V, t below 32, and for each op only the sort of operand it takes"; a timer is "d with its number" */
static uint32_t list_operand(Reader *p, uint32_t vars, uint32_t op)
{
    int b = peek(p);
    uint32_t limit = is_jump(op) ? (b == '@' ? 65536 : 0) : op == TON ? (b == 'd' ? TIMER_NUMBERS : 0) : b == 'v' ? vars : b == 't' ? SCRATCH : 0;
    if (limit == 0) { p->stuck = 1; return 0; }
    p->at++;
    uint32_t x = number(p);
    if (x >= limit) p->stuck = 1;
    return b == 't' ? vars + x : x;
}

static int at_label(const Reader *p)
{
    if (peek(p) != 'L' || p->at + 1 >= p->bytes) return 0;
    int b = p->text[p->at + 1];
    return b >= '0' && b <= '9';
}

/* One line; rungs counts the records. Both counts end at one more than question 10 takes. */
static void list_line(Reader *p, uint32_t vars, const uint64_t keys[OPS], size_t *rungs)
{
    if (at_label(p)) {
        p->at++;
        Rung begun = {(uint16_t)number(p), (uint32_t)p->put, 0, 0};
        take(p, ':');
        if (*rungs <= MOST_RUNGS) read_rungs[(*rungs)++] = begun;
    } else {
        uint32_t op = op_named(p, keys), x = 0;
        if (op != NOT && take(p, ' ')) x = list_operand(p, vars, op);
        if (*rungs == 0) p->stuck = 1;
        else if (p->put <= MOST_CODE) { word(p, op, x); read_rungs[*rungs - 1].length++; }
    }
    take(p, '\n');
}

/* "The reader writes and returns as Translate does." The form, 15, is asked of the whole text before 10. */
static Translation read_list(uint32_t vars, const uint8_t *text, size_t bytes, uint32_t *code, size_t code_room, Rung *out, size_t rung_room, const uint8_t *names, size_t name_bytes)
{
    Translation t = {YES, 0, 0, 0};
    uint64_t keys[OPS];
    t.no = names_asked(names, name_bytes, keys);
    if (t.no.number) return t;
    if (vars < 1 || vars > MOST_VARS) { t.no = no(1, 0); return t; }
    Reader p = {text, bytes, 0, 0, 0, read_words, 0};
    size_t m = 0;
    do list_line(&p, vars, keys, &m); while (!p.stuck && p.at < bytes);
    if (p.stuck) { t.no = no(15, 0); return t; }
    t.no = list_asked(vars, read_words, p.put, read_rungs, m, NULL);
    if (t.no.number) return t;
    if (p.put > code_room || m > rung_room) { t.no = no(13, 0); return t; }
    memcpy(code, read_words, p.put * sizeof *code);
    memcpy(out, read_rungs, m * sizeof *out);
    for (size_t i = 0; i < m; i++) if (out[i].length > t.longest) t.longest = out[i].length;
    t.instructions = p.put;
    t.rungs = m;
    return t;
}

/* ---- requests and answers */

static uint32_t next(void)
{
    unsigned long x;
    if (scanf("%lu", &x) != 1) exit(2);
    return (uint32_t)x;
}

static uint32_t lent_words[20000], words[20000];
static Rung lent_rungs[400], rungs[400];
static uint8_t lent_bytes[70000], bytes[70000], names[120];
static Timer lent_timers[40], timers[40];

static size_t in_words(void) { size_t n = next(); for (size_t i = 0; i < n; i++) lent_words[i] = next(); return n; }
static size_t in_bytes(uint8_t *to) { size_t n = next(); for (size_t i = 0; i < n; i++) to[i] = (uint8_t)next(); return n; }

static size_t in_rungs(void)
{
    size_t m = next();
    for (size_t i = 0; i < m; i++) {
        lent_rungs[i].label = (uint16_t)next();
        lent_rungs[i].offset = next();
        lent_rungs[i].length = next();
        lent_rungs[i].times = next();
    }
    return m;
}

static size_t in_timers(void)
{
    size_t k = next();
    for (size_t i = 0; i < k; i++) {
        lent_timers[i].preset = next();
        lent_timers[i].start = next();
        lent_timers[i].variable = (uint16_t)next();
        lent_timers[i].running = (uint8_t)next();
        lent_timers[i].done = (uint8_t)next();
    }
    return k;
}

static void fill(void)
{
    memset(words, 255, sizeof words);
    for (size_t i = 0; i < 400; i++) { rungs[i].label = 65535; rungs[i].offset = rungs[i].length = rungs[i].times = 4294967295u; }
}

static void out_words(size_t n)
{
    size_t k = n;
    while (k > 0 && words[k - 1] == 4294967295u) k--;
    printf(" %zu", k);
    for (size_t i = 0; i < k; i++) printf(" %u", words[i]);
    printf(" %zu", n - k);
}

static int filling(Rung r) { return r.label == 65535 && r.offset == 4294967295u && r.length == 4294967295u && r.times == 4294967295u; }

static void out_rungs(size_t n)
{
    size_t k = n;
    while (k > 0 && filling(rungs[k - 1])) k--;
    printf(" %zu", k);
    for (size_t i = 0; i < k; i++) printf(" %u %u %u %u", rungs[i].label, rungs[i].offset, rungs[i].length, rungs[i].times);
    printf(" %zu", n - k);
}

static void out_table(size_t n) { for (size_t i = 0; i < n; i++) printf(" %u", bytes[i]); }
static void out_times(size_t m) { for (size_t i = 0; i < m; i++) printf(" %u", lent_rungs[i].times); }

static void out_timers(size_t k)
{
    for (size_t i = 0; i < k; i++) printf(" %u %u %u %u %u", timers[i].preset, timers[i].start, timers[i].variable, timers[i].running, timers[i].done);
}

static void out_lines(size_t n)
{
    size_t k = n;
    while (k > 0 && bytes[k - 1] == 255) k--;
    printf(" %zu", k);
    for (size_t i = 0; i < k; i++) printf(" %u", bytes[i]);
    printf(" %zu", n - k);
}

static double now(void) { struct timespec t; clock_gettime(CLOCK_MONOTONIC, &t); return (double)t.tv_sec * 1e9 + (double)t.tv_nsec; }

int main(void)
{
    uint32_t turns = next(), call = next(), vars = call == 6 ? 0 : next();
    size_t n = 0, m = 0, a = 0, b = 0, name_bytes = 0;
    ReadDone r = {YES, 0, 0};
    Translation t = {YES, 0, 0, 0};
    Scan s = {YES, 0, 0, 0, 0};
    ListingDone l = {YES, 0};
    Search f = {0, 0, 0};
    Timers d = {timers, 0, 0};
    if (call == 1 || call == 7) { n = in_bytes(lent_bytes); a = next(); b = next(); }
    else if (call == 6) { m = in_rungs(); b = next(); }
    else {
        n = in_words();
        m = in_rungs();
        if (call == 3 || call == 4) { a = in_bytes(lent_bytes); b = next(); d.count = in_timers(); d.now = next(); }
        else { a = next(); if (call == 2) b = next(); }
    }
    if (call == 5 || call == 7) name_bytes = in_bytes(names);
    fill();
    double begin = now();
    for (uint32_t i = 0; i < turns; i++) {
        if (call == 1) r = read_text(vars, lent_bytes, n, words, a, rungs, b);
        else if (call == 2) t = translate(vars, lent_words, n, lent_rungs, m, words, a, rungs, b);
        else if (call == 5) { if (i == 0) memset(bytes, 255, a); l = listing(vars, lent_words, n, lent_rungs, m, bytes, a, names, name_bytes); }
        else if (call == 6) f = search(lent_rungs, m, (uint32_t)b);
        else if (call == 7) t = read_list(vars, lent_bytes, n, words, a, rungs, b, names, name_bytes);
        else {
            memcpy(bytes, lent_bytes, a);
            memcpy(timers, lent_timers, d.count * sizeof *timers);
            s = call == 3 ? ladder_scan(vars, lent_words, n, lent_rungs, m, bytes, a, (uint32_t)b, &d) : list_scan(vars, lent_words, n, lent_rungs, m, bytes, a, (uint32_t)b, &d);
        }
    }
    double end = now();
    No x = call == 1 ? r.no : call == 2 || call == 7 ? t.no : call == 5 ? l.no : s.no;
    if (x.number) printf("0 %d %zu", x.number, x.place);
    else if (call == 1) printf("1 %zu %zu", r.words, r.rungs);
    else if (call == 2 || call == 7) printf("1 %zu %zu %zu", t.instructions, t.rungs, t.longest);
    else if (call == 3) printf("%d %u %u", s.ended ? 1 : 2, s.rungs, s.moved);
    else if (call == 4) printf("%d %u %u %u", s.ended ? 1 : 2, s.instructions, s.rungs, s.moved);
    else if (call == 5) printf("1 %zu", l.bytes);
    else if (f.found) printf("1 %zu %zu", f.place, f.looked);
    else printf("2 %zu", f.looked);
    if (call <= 2 || call == 7) { out_words(a); out_rungs(b); }
    else if (call == 5) out_lines(a);
    else out_table(a);
    if (call == 4) out_times(m);
    if (call == 3 || call == 4) out_timers(d.count);
    printf("\n");
    fprintf(stderr, "%.1f\n", turns ? (end - begin) / turns : 0.0);
    return 0;
}
