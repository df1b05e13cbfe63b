/* Every exported call on memory that ends at an unreadable page or begins behind one. After each call every lent byte is compared with what the
 * contract lets it be: the bytes of an output behind what was written, all bytes where the call was refused, all bytes that are only read, and 64
 * bytes around each memory where there are some.
 * guard SEED N: N generated calls, with how many of each were made and refused; the last line counts the stray bytes. guard --faults: calls with
 * one fault each, which must be found. Built with an address sanitizer the memories come from the heap, at their true size. */
#include "../../../include/slc_link.h"
#include <setjmp.h>
#include <signal.h>
#include <stdio.h>
#include <stdlib.h>
#include <string.h>
#include <sys/mman.h>
#include <unistd.h>

enum { ARENAS = 6, ROOM = 1 << 17, AROUND = 64, PATTERN = 0xA5 };

/* ---- memories */
typedef struct { uint8_t *low, *p, *before; size_t n, from, to; } lent;
static lent arena[ARENAS];
static int used;
static unsigned long done, strays;
static const char *call;
static struct { const char *name; unsigned long made, refused; } tally[48], *row;

static void calling(const char *name) {
    for (row = tally; row->name && strcmp(row->name, name); row++) {}
    row->name = call = name;
    row->made++, done++;
}
static int refused(uint8_t number) {
    row->refused += number != 0;
    return number != 0;
}

static void map_arenas(void) {
    size_t page = sysconf(_SC_PAGESIZE);
    for (int k = 0; k < ARENAS; k++) {
        uint8_t *all = mmap(0, ROOM + 2 * page, PROT_NONE, MAP_PRIVATE | MAP_ANONYMOUS, -1, 0);
        if (all == MAP_FAILED || mprotect(all + page, ROOM, PROT_READ | PROT_WRITE)) exit(2);
        arena[k].low = all + page;
        arena[k].before = malloc(ROOM);
        memset(all + page, PATTERN, ROOM);
    }
}

/* ---- random numbers: xorshift */
static uint64_t state;
static uint64_t next(void) {
    state ^= state << 13, state ^= state >> 7, state ^= state << 17;
    return state;
}
static size_t below(size_t n) { return n ? next() % n : 0; }
static int one_in(size_t n) { return below(n) == 0; }
static void fill(uint8_t *p, size_t n) { for (size_t i = 0; i < n; i++) p[i] = next() >> 32; }

/* A memory of n bytes, right behind the unreadable page in front or right before the one behind. What is in it is for the caller to set. */
static void *lend(size_t n) {
    lent *a = &arena[used++];
    a->n = n, a->from = a->to = 0;
#ifdef __SANITIZE_ADDRESS__
    a->p = malloc(n);
#else
    a->p = one_in(2) ? a->low : a->low + ROOM - n;
#endif
    return a->p;
}
static uint8_t *lend_bytes(size_t n) {
    uint8_t *p = lend(n);
    fill(p, n);
    return p;
}
/* The contents are those that the call must find or leave. */
static void sealed(void) { for (int k = 0; k < used; k++) memcpy(arena[k].before, arena[k].p, arena[k].n); }
/* Bytes from .. to of the k-th memory may change. */
static void may_change(int k, size_t from, size_t to) { arena[k].from = from, arena[k].to = to; }

static void stray(int k, const char *where, size_t at) {
    if (strays++ < 10) printf("%s: memory %d has a stray byte %s, %zu\n", call, k, where, at);
}

static void compared(void) {
    for (int k = 0; k < used; k++) {
        lent *a = &arena[k];
        for (size_t i = 0; i < a->n; i++)
            if (a->p[i] != a->before[i] && !(a->from <= i && i < a->to)) stray(k, "at", i);
#ifdef __SANITIZE_ADDRESS__
        free(a->p);
#else
        uint8_t *end = a->p + a->n, *top = a->low + ROOM;
        for (size_t i = 1; i <= AROUND && a->low + i <= a->p; i++)
            if (a->p[-(ptrdiff_t)i] != PATTERN) stray(k, "in front, by", i), a->p[-(ptrdiff_t)i] = PATTERN;
        for (size_t i = 0; i < AROUND && end + i < top; i++)
            if (end[i] != PATTERN) stray(k, "behind, by", i), end[i] = PATTERN;
        memset(a->p, PATTERN, a->n);
#endif
    }
    used = 0;
}

static void claim(int holds, const char *what) {
    if (!holds && strays++ < 10) printf("%s: %s\n", call, what);
}

/* ---- inputs */
static size_t length_of(size_t most) { return one_in(4) ? below(most + 1) : below(most < 24 ? most + 1 : 24); }

/* The simulated processor's twelve stand first. */
static const uint8_t codes[] = {0x82, 0x83, 0x84, 0x85, 0x86, 0x87, 0x88, 0x89, 0x8A, 0x8D, 0x8E, 0x91, 0x92, 0x93, 0x94};
static uint8_t code_of(void) { return one_in(8) ? next() >> 32 : codes[below(sizeof codes)]; }

/* Seven characters, then bytes that aren't well-formed UTF-8: cut, too long, surrogates, too large, stray. */
static const char *const sequences[] = {"\xC4\xB1", "\xC5\xBF", "\xC3\xA9", "\xE2\x82\xAC", "\xEF\xBF\xBF", "\xF0\x9F\x98\x80", "\xF4\x8F\xBF\xBF",
    "\xC4", "\xE2", "\xE2\x82", "\xF0", "\xF0\x9F", "\xF0\x9F\x98", "\xC0\xAF", "\xE0\x80\x80", "\xED\xA0\x80", "\xF4\x90\x80\x80", "\xF8", "\xFF", "\x80"};
static const char *sequence(void) { return sequences[below(sizeof sequences / sizeof *sequences)]; }

/* Tags that are mostly right, cut or damaged now and then. */
static size_t tag_into(char *t) {
    static const char *forms[] = {"N%u:%u", "N%u:%u/%u", "T4:%uPRE", "C5:%u.ACC", "B3/%u", "B3:%u/%u", "F8:%u{%u}", "ST9:%u", "A10:%u", "I:%u.%u/%u", "O:%u/%u", "S:%u/%u", "L20:%u{%u}", "R6:%uEN", "X%u:%u",
        "\xC4\xB1:%u.%u/%u", "\xC4\xB1%u:%u{%u}", "\xC5\xBF:%u/%u", "\xC5\xBFT9:%u", "T4:%u\xC3\xA9PRE", "C5:%u\xE2\x82\xAC" "ACC", "T4:%u\xF0\x9F\x98\x80" "DN"};
    size_t n = sprintf(t, forms[below(sizeof forms / sizeof *forms)], (unsigned)below(300), (unsigned)below(300), (unsigned)below(20));
    if (one_in(8)) {
        const char *s = sequence();
        size_t k = strlen(s), at = one_in(3) ? n : below(n + 1);
        memmove(t + at + k, t + at, n - at);
        memcpy(t + at, s, k);
        n += k;
    }
    if (one_in(12)) n = below(n + 1);
    if (one_in(12) && n) t[below(n)] = next() >> 32;
    return n;
}
/* One byte, character or sequence over and over, around 255 bytes: the last may be cut. */
static size_t long_into(char *t) {
    const char *s = one_in(4) ? "N" : one_in(4) ? sequence() : sequences[below(7)];
    size_t n = one_in(4) ? 300 : 250 + below(12), k = strlen(s);
    for (size_t i = 0; i < n; i++) t[i] = s[i % k];
    return n;
}
static const uint8_t *lend_tag(size_t *n) {
    char t[300];
    *n = one_in(20) ? long_into(t) : tag_into(t);
    return memcpy(lend(*n), t, *n);
}

static const char *const names[] = {"EN", "TT", "DN", "PRE", "ACC", "LEN", "POS", "cu", "ov", "UL", "FD", "XX", "N", "ST", "T", "PLS"};
static const uint8_t *lend_name(size_t *n) {
    const char *s = names[below(16)];
    *n = strlen(s);
    return memcpy(lend(*n), s, *n);
}

/* Mostly one of the two, now and then a number that is neither. */
static uint8_t reading(void) { return one_in(4) ? next() >> 32 : one_in(2) ? SLC_READING_NEW : SLC_READING_STORED; }

static slc_requestor requestor(void) {
    slc_requestor q;
    fill((uint8_t *)&q, sizeof q);
    return q;
}

/* an output of about the size that is asked for */
static size_t room_of(size_t asked) { return one_in(3) ? below(asked + 40) : asked + below(40); }

static void written(int out, slc_written w) {
    claim(w.refused == 0 || w.length == 0, "a refused call tells a length");
    claim(w.length <= arena[out].n, "more was written than there is room");
    if (!refused(w.refused)) may_change(out, 0, w.length);
}

/* ---- the calls without a processor */
static void types(void) {
    size_t n;
    calling("slc_type_of_code");
    slc_file_type t = slc_type_of_code(code_of());
    claim(t.known <= 1 && t.name_len <= 3, "a type that is none");
    calling("slc_type_of_name");
    const uint8_t *name = lend_name(&n);
    sealed();
    slc_type_of_name(name, n);
    compared();
    calling("slc_bit_name");
    claim(slc_bit_name(code_of(), below(20)).len <= 3, "a long name");
    calling("slc_word_name");
    claim(slc_word_name(code_of(), below(5)).len <= 3, "a long name");
    calling("slc_field_of");
    name = lend_name(&n);
    sealed();
    claim(slc_field_of(code_of(), name, n).kind <= 2, "a kind that is none");
    compared();
}

static void text(void) {
    size_t n = length_of(300), m;
    calling("slc_string_swap");
    const uint8_t *in = lend_bytes(n);
    uint8_t *out = lend_bytes(m = room_of(n + n % 2));
    sealed();
    written(1, slc_string_swap(in, n, out, m));
    compared();
    calling("slc_swap_pairs");
    out = lend_bytes(n);
    sealed();
    slc_swap_pairs(out, n);
    may_change(0, 0, n - n % 2);
    compared();
    calling("slc_encode_ascii");
    in = lend_bytes(n), out = lend_bytes(m = room_of(2));
    sealed();
    written(1, slc_encode_ascii(in, n, out, m));
    compared();
    calling("slc_encode_string");
    in = lend_bytes(n), out = lend_bytes(m = room_of(84));
    sealed();
    written(1, slc_encode_string(in, n, out, m));
    compared();
}

/* A value that mostly suits the type. */
static slc_value value_of(uint8_t code) {
    slc_value v = {SLC_WHOLE, (int64_t)next(), (int64_t)next(), (int64_t)next()};
    if (one_in(5)) v.kind = below(6);
    else if (code == 0x8A) v.kind = SLC_FLOAT;
    else if (code == 0x8D || code == 0x8E) v.kind = SLC_TEXT;
    else if (0x86 <= code && code <= 0x88) v.kind = one_in(2) ? SLC_WORDS : SLC_FIELD;
    if (!one_in(5)) v.a = (int64_t)below(66000) - 33000, v.b = (int64_t)below(66000) - 33000, v.c = (int64_t)below(66000) - 33000;
    return v;
}

static void told(int out, slc_element e) {
    claim(e.refused == 0 || e.length == 0, "a refused call tells a length");
    claim(e.length <= arena[out].n, "more was written than there is room");
    if (!refused(e.refused)) may_change(out, 0, e.length);
}

static void elements(void) {
    uint8_t code = code_of();
    size_t n, size = slc_type_of_code(code).element_size, m = room_of(size), t = room_of(82);
    calling("slc_encode_element");
    const uint8_t *name = lend_name(&n);
    uint8_t *element = lend_bytes(m);
    sealed();
    if (!refused(slc_encode_element(code, value_of(code), name, n, element, m))) may_change(1, 0, size);
    compared();
    calling("slc_decode_element");
    element = lend_bytes(m);
    uint8_t *out = lend_bytes(t);
    sealed();
    told(1, slc_decode_element(code, element, m, out, t));
    compared();
}

static void requests(void) {
    size_t n, k, m = room_of(27);
    calling("slc_parse_tag");
    const uint8_t *tag = lend_tag(&n);
    sealed();
    slc_address a = slc_parse_tag(tag, n, reading());
    refused(a.refused);
    claim(a.kept <= n, "more is kept than there is");
    compared();
    calling("slc_read_request");
    tag = lend_tag(&n);
    uint8_t *out = lend_bytes(m);
    sealed();
    slc_request r = slc_read_request(tag, n, reading(), requestor(), next(), out, m);
    written(1, (slc_written){r.address.refused, r.length});
    compared();
    calling("slc_write_request");
    tag = lend_tag(&n);
    const uint8_t *bytes = lend_bytes(k = one_in(2) ? 4 : length_of(300));
    out = lend_bytes(m = room_of(284));
    sealed();
    r = slc_write_request(tag, n, reading(), one_in(2) ? SLC_RAW : below(5), bytes, k, slc_default_requestor(), next(), out, m);
    written(2, (slc_written){r.address.refused, r.length});
    compared();
    calling("slc_dotted");
    tag = lend_tag(&n);
    out = lend_bytes(m = room_of(255));
    sealed();
    slc_written w = slc_dotted(tag, n, out, m);
    written(1, w);
    claim(w.length <= n, "the text is longer than the tag");
    claim(w.refused || !slc_parse_tag(out, w.length, SLC_READING_NEW).refused, "the text is no new entry");
    compared();
    calling("slc_processor_type_request");
    out = lend_bytes(m = room_of(27));
    sealed();
    written(0, slc_processor_type_request(requestor(), next(), out, m));
    compared();
    calling("slc_datalog_request");
    out = lend_bytes(m);
    sealed();
    written(0, slc_datalog_request(next(), out, m));
    compared();
}

static void replies(void) {
    size_t n = length_of(80), m = room_of(96);
    calling("slc_request_status");
    uint8_t *raw = lend_bytes(n);
    if (n > 58 && one_in(2)) raw[58] = one_in(2) ? 0xF0 : 0x10 * below(16);
    uint8_t *out = lend_bytes(m);
    sealed();
    written(1, slc_request_status(raw, n, out, m));
    compared();
    calling("slc_error_text");
    out = lend_bytes(m);
    sealed();
    written(0, slc_error_text(one_in(2) ? 0x10 * below(16) : next(), out, m));
    compared();
    calling("slc_parse_datalog");
    raw = lend_bytes(n);
    sealed();
    slc_part p = slc_parse_datalog(raw, n);
    claim(p.from <= n && p.length <= n - p.from, "a part that isn't in the reply");
    compared();
    calling("slc_question");
    out = lend_bytes(m);
    sealed();
    written(0, slc_question(one_in(2) ? below(44) : next(), out, m));
    compared();
}

/* a reply from the requester's id on, mostly with the usual id and a status that has words */
static uint8_t *lend_reply(size_t n) {
    uint8_t *reply = lend_bytes(n);
    if (n && !one_in(4)) reply[0] = one_in(4) ? below(12) : 7;
    if (n && reply[0] + 1u < n && one_in(2)) reply[reply[0] + 1] = one_in(2) ? 0xF0 : 0x10 * below(16);
    return reply;
}

static void bare_replies(void) {
    size_t n = length_of(24), m = room_of(96);
    calling("slc_reply_status");
    uint8_t *reply = lend_reply(n), *out = lend_bytes(m);
    sealed();
    written(1, slc_reply_status(reply, n, out, m));
    compared();
    calling("slc_reply_datalog");
    reply = lend_reply(n);
    sealed();
    slc_part p = slc_reply_datalog(reply, n);
    claim(p.from <= n && p.length <= n - p.from, "a part that isn't in the reply");
    compared();
    calling("slc_reply_directory_size");
    reply = lend_reply(n);
    sealed();
    refused(slc_reply_directory_size(reply, n, slc_sys0_info(reply, 0)).refused);
    compared();
}

static const char *const families[] = {"1747-L552", "1747-L511", "1766-LEC", "1762-L24", "1761-L20", "1785-L20", "", "17"};
static const uint8_t *lend_text(size_t *n) {
    const char *s = families[below(8)];
    *n = strlen(s);
    uint8_t *p = memcpy(lend(*n), s, *n);
    if (one_in(10) && *n) p[below(*n)] = next() >> 32;
    return p;
}

static void directories(void) {
    size_t n, m = room_of(27), rows = below(40), files = below(48);
    calling("slc_sys0_info");
    const uint8_t *type = lend_text(&n);
    sealed();
    slc_sys0 info = slc_sys0_info(type, n);
    compared();
    if (one_in(10)) fill((uint8_t *)&info, sizeof info);
    calling("slc_file_directory_size_request");
    uint8_t *out = lend_bytes(m);
    sealed();
    written(0, slc_file_directory_size_request(info, requestor(), next(), out, m));
    compared();
    calling("slc_file_directory_read_request");
    out = lend_bytes(m);
    sealed();
    written(0, slc_file_directory_read_request(info.file_type, one_in(10) ? next() : below(3000), next(), requestor(), next(), out, m));
    compared();
    calling("slc_parse_file_directory_size");
    const uint8_t *raw = lend_bytes(n = room_of(66));
    sealed();
    refused(slc_parse_file_directory_size(raw, n, info).refused);
    compared();
    calling("slc_parse_file_directory");
    size_t first = one_in(10) ? next() : below(100), row = one_in(10) ? next() : 8 + below(5);
    uint8_t *bytes = lend_bytes(n = one_in(20) ? 65536 + below(9) : 100 + below(12) * rows);
    for (size_t i = 0; first < n && i < 40 && first + i * row < n && row < n; i++) bytes[first + i * row] = one_in(12) ? 0x81 : code_of();
    uint32_t(*list)[4] = (void *)lend_bytes(files * 16);
    sealed();
    slc_written w = slc_parse_file_directory(first, row, bytes, n, list, files);
    w.length *= 16;
    written(1, w);
    compared();
}

static void lines(void) {
    static slc_line kept;
    char t[600];
    size_t n = 0, m = 64 + below(400);
    calling("slc_tags_feed");
    if (one_in(20)) kept = slc_line_empty();
    if (one_in(50)) fill((uint8_t *)&kept, sizeof kept);
    for (int k = below(4); k > 0; k--) {
        n += tag_into(t + n);
        t[n++] = 10;
    }
    if (one_in(3)) n = below(n + 1);
    if (one_in(50)) n = long_into(t);
    const uint8_t *piece = memcpy(lend(n), t, n);
    uint8_t *out = lend_bytes(one_in(10) ? m = below(64) : m);
    sealed();
    slc_fed f = slc_tags_feed(kept, piece, n, out, m);
    claim(f.taken <= n && f.used <= m, "more was taken or written than there is");
    may_change(1, 0, f.used);
    compared();
    kept = f.line;
    calling("slc_tags_finish");
    out = lend_bytes(m);
    sealed();
    size_t end = slc_tags_finish(kept, out, m);
    claim(end <= m, "more was written than there is room");
    may_change(0, 0, end);
    compared();
}

/* ---- the processor: built and asked on fresh memories; what it holds is kept beside them */
static struct {
    slc_processor slc;
    slc_file_record table[300];
    uint8_t memory[66000], log[4096];
    size_t table_len, memory_len, log_len;
} sim;
typedef slc_done (*pccc_call)(slc_processor, const slc_file_record *, size_t, uint8_t *, size_t, const uint8_t *, size_t, const uint8_t *, size_t, uint8_t *, size_t);

static slc_file_record *lend_table(void) { return memcpy(lend(sim.table_len * sizeof *sim.table), sim.table, sim.table_len * sizeof *sim.table); }
static uint8_t *lend_memory(void) { return memcpy(lend(sim.memory_len), sim.memory, sim.memory_len); }
static uint8_t *lend_log(void) { return memcpy(lend(sim.log_len), sim.log, sim.log_len); }

static void build(void) {
    size_t files = below(12), text_len, count = below(4);
    uint32_t(*list)[3] = lend(files * 12);
    for (size_t i = 0; i < files; i++) {
        list[i][0] = one_in(100) ? next() : i * 3 + below(3);
        list[i][1] = one_in(100) ? next() : codes[below(12)];
        list[i][2] = one_in(100) ? next() : below(12);
    }
    const uint8_t *type = lend_text(&text_len);
    sim.log_len = 0;
    for (size_t i = 0; i < count; i++) {
        size_t n = below(256);
        sim.log[sim.log_len++] = n, sim.log[sim.log_len++] = one_in(60);
        fill(sim.log + sim.log_len, n);
        sim.log_len += n;
    }
    if (one_in(10)) sim.log_len = below(sim.log_len + 1);
    sim.table_len = one_in(10) ? below(12) : 9 + below(12);
    sim.memory_len = one_in(10) ? below(3000) : 3000 + below(9000);
    calling("slc_new");
    const uint8_t *log = lend_log();
    slc_file_record *table = (void *)lend_bytes(sim.table_len * sizeof *table);
    uint8_t *memory = lend_bytes(sim.memory_len);
    sealed();
    slc_built b = slc_new(table, sim.table_len, memory, sim.memory_len, log, sim.log_len, count, list, files, type, text_len);
    sim.slc = b.slc;
    size_t total = 0;
    if (!refused(b.refused)) {
        claim(b.slc.files <= sim.table_len, "more records than there is room");
        for (size_t i = 0; i < b.slc.files; i++) total += table[i].length;
        may_change(3, 0, b.slc.files * sizeof *table);
        may_change(4, 0, total);
        for (size_t i = 0; i < total; i++) claim(memory[i] == 0, "data that isn't cleared");
    }
    memcpy(sim.table, table, sim.table_len * sizeof *table);
    memcpy(sim.memory, memory, sim.memory_len);
    compared();
}

/* A damaged state: every number of it may be anything. */
static void damage(void) {
    if (one_in(2)) sim.slc.files = one_in(2) ? next() : below(20);
    if (one_in(2)) sim.slc.type_len = one_in(2) ? next() : below(20);
    if (one_in(2)) sim.slc.log_at = one_in(2) ? next() : below(600);
    if (one_in(2)) sim.slc.log_left = one_in(2) ? next() : below(70);
    if (one_in(2)) fill((uint8_t *)&sim.table[below(12)], sizeof *sim.table);
    if (one_in(4)) sim.slc.type_text[below(11)] = next();
}

static const slc_file_record *some_file(void) { return &sim.table[below(sim.slc.files < 12 ? sim.slc.files : 12)]; }

/* A command that is mostly right, and the bytes of the data memory that it may write. */
static size_t command_into(uint8_t *c, size_t *from, size_t *to) {
    static const uint8_t functions[] = {0xA1, 0xA2, 0xA2, 0xAA, 0xAB, 0xAB, 0x03};
    const slc_file_record *f = some_file();
    size_t n = 0, id = one_in(10) ? below(12) : 7, size = one_in(10) ? below(256) : below(1 + (f->length < 255 ? f->length : 255));
    c[n++] = id;
    while (n < id) c[n++] = next();
    if (!n) n = 1;
    uint8_t function = one_in(20) ? next() : functions[below(7)];
    c[n++] = one_in(12) ? 0x06 : 0x0F, c[n++] = 0, c[n++] = next(), c[n++] = next(), c[n++] = function;
    c[n++] = size;
    if (one_in(8)) c[n++] = 0xFF, c[n++] = f->number, c[n++] = f->number >> 8;
    else c[n++] = function == 0xA1 && !one_in(3) ? 0 : f->number;
    c[n++] = one_in(12) ? 0xA5 : f->code;
    unsigned element = one_in(6) ? below(400) : below(2), sub = one_in(3) ? below(3) : 0;
    if (element > 254) c[n++] = 0xFF, c[n++] = element, c[n++] = element >> 8;
    else c[n++] = element;
    if (function != 0xA1) c[n++] = sub;
    if (function == 0xAB) c[n++] = next(), c[n++] = next();
    fill(c + n, size);
    *from = *to = 0;
    if (function == 0xAA || function == 0xAB) {
        n += size;
        *from = f->start + element * slc_type_of_code(f->code).element_size + 2 * sub;
        *to = *from + size;
    }
    return one_in(8) ? below(n + 1) : n;
}

static void ask(pccc_call pccc) {
    uint8_t c[600];
    size_t from, to, n = command_into(c, &from, &to), room = one_in(8) ? below(514) : 514 + below(40);
    calling("slc_pccc");
    const slc_file_record *table = lend_table();
    uint8_t *memory = lend_memory(), *log = lend_log(), *command = memcpy(lend(n), c, n), *reply = lend_bytes(room);
    sealed();
    slc_done d = pccc(sim.slc, table, sim.table_len, memory, sim.memory_len, log, sim.log_len, command, n, reply, room);
    written(4, (slc_written){d.refused, d.length});
    uint8_t status = !d.refused && d.length >= 4 && c[0] + 1u < d.length ? reply[c[0] + 1] : 0xFF;
    if (!d.refused && status == 0) may_change(1, from, to);
    memcpy(sim.memory, memory, sim.memory_len);
    sim.slc = d.slc;
    compared();
}

static void accesses(void) {
    const slc_file_record *f = some_file();
    uint8_t code = one_in(10) ? code_of() : f->code;
    size_t n, room = room_of(82), size = slc_type_of_code(code).element_size;
    slc_spot at = {f->number, code, one_in(10) ? next() : below(6)};
    calling("slc_read");
    const slc_file_record *table = lend_table();
    uint8_t *text = lend_bytes(room), *log = lend_log(), *memory = lend_memory();
    sealed();
    told(1, slc_read(sim.slc, table, sim.table_len, memory, sim.memory_len, log, sim.log_len, at, text, room));
    compared();
    calling("slc_set");
    slc_setting to = {at.number, code, at.element, value_of(code)};
    table = lend_table();
    memory = lend_memory(), log = lend_log();
    const uint8_t *name = lend_name(&n);
    sealed();
    if (!refused(slc_set(sim.slc, table, sim.table_len, memory, sim.memory_len, log, sim.log_len, to, name, n)))
        may_change(1, f->start + at.element * size, f->start + at.element * size + size);
    memcpy(sim.memory, memory, sim.memory_len);
    compared();
}

static void processors(void) {
    build();
    for (int i = 0; i < 12; i++) ask(slc_pccc), accesses();
    damage();
    for (int i = 0; i < 3; i++) ask(slc_pccc), accesses();
}

/* ---- faults that must be found */
static slc_done behind(slc_processor s, const slc_file_record *t, size_t tn, uint8_t *m, size_t mn, const uint8_t *l, size_t ln, const uint8_t *c, size_t cn, uint8_t *r, size_t rn) {
    slc_done d = slc_pccc(s, t, tn, m, mn, l, ln, c, cn, r, rn);
    if (!d.refused && d.length < rn) r[d.length] ^= 1;
    return d;
}
static slc_done other_file(slc_processor s, const slc_file_record *t, size_t tn, uint8_t *m, size_t mn, const uint8_t *l, size_t ln, const uint8_t *c, size_t cn, uint8_t *r, size_t rn) {
    slc_done d = slc_pccc(s, t, tn, m, mn, l, ln, c, cn, r, rn);
    if (mn) m[mn - 1] ^= 1;
    return d;
}
static slc_done past_the_end(slc_processor s, const slc_file_record *t, size_t tn, uint8_t *m, size_t mn, const uint8_t *l, size_t ln, const uint8_t *c, size_t cn, uint8_t *r, size_t rn) {
    volatile uint8_t x = c[cn];
    (void)x;
    return slc_pccc(s, t, tn, m, mn, l, ln, c, cn, r, rn);
}
static slc_done before_the_start(slc_processor s, const slc_file_record *t, size_t tn, uint8_t *m, size_t mn, const uint8_t *l, size_t ln, const uint8_t *c, size_t cn, uint8_t *r, size_t rn) {
    volatile uint8_t x = c[-1];
    (void)x;
    return slc_pccc(s, t, tn, m, mn, l, ln, c, cn, r, rn);
}

static sigjmp_buf fault;
static void faulted(int signal) { siglongjmp(fault, signal); }

/* Is something found of the call, as it must be, or nothing, as it must be? */
static int found(pccc_call pccc, const char *what, int wanted) {
    strays = 0;
    int signal = sigsetjmp(fault, 1);
    if (!signal) {
        used = 0;
        for (int i = 0; i < 1000; i++) i % 20 ? ask(pccc) : build();
    }
    int is = signal || strays;
    for (int k = 0; k < ARENAS; k++) memset(arena[k].low, PATTERN, ROOM);
    used = 0;
    printf("%s: %s\n", what, is == wanted ? is ? "found" : "nothing found, as it must be" : "WRONG");
    return is == wanted;
}

int main(int argc, char **argv) {
    static void (*const turns[])(void) = {types, text, elements, requests, replies, bare_replies, directories, lines, processors};
    if (argc < 2) return fprintf(stderr, "usage: guard SEED N | guard --faults\n"), 2;
    setvbuf(stdout, 0, _IOLBF, 0);
    map_arenas();
    signal(SIGSEGV, faulted);
    signal(SIGBUS, faulted);
    state = 88172645463325252u;
    if (!strcmp(argv[1], "--faults"))
        return !(found(behind, "a byte behind the reply", 1) & found(other_file, "a byte of another file", 1)
                 & found(past_the_end, "a read past the command's end", 1) & found(before_the_start, "a read before the command's start", 1)
                 & found(slc_pccc, "the call itself", 0));
    state ^= strtoull(argv[1], 0, 10) * 0x9E3779B97F4A7C15u;
    unsigned long n = argc > 2 ? strtoul(argv[2], 0, 10) : 1000000;
    int signal = sigsetjmp(fault, 1);
    if (signal) return printf("%s: signal %d after %lu calls of seed %s\n", call, signal, done, argv[1]), 1;
    for (size_t turn = 0; done < n; turn++) turns[turn % (sizeof turns / sizeof *turns)]();
    for (row = tally; row->name; row++) printf("%-32s %8lu calls, %8lu refused\n", row->name, row->made, row->refused);
    printf("%lu calls of seed %s: no fault, %lu stray bytes\n", done, argv[1], strays);
    return strays != 0;
}
