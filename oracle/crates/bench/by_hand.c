/* A yardstick for `slc_pccc`: the same questions (16 to 18) and the functions A2, AA and AB on a file, in C by hand. Nothing is proved of it and
 * nothing links it but `bench`; it shows what a compiler makes of the call when nothing but speed counts. */
#include <stdint.h>
#include "../../../include/slc_link.h"

static int whole(uint8_t code, uint16_t length) {
    switch (code) {
    case 0x82: case 0x83: case 0x84: case 0x85: case 0x89: case 0x8E: return length % 2 == 0;
    case 0x86: case 0x87: case 0x88: return length % 6 == 0;
    case 0x8A: case 0x91: return length % 4 == 0;
    case 0x8D: return length % 84 == 0;
    default: return 0;
    }
}

static int good_text(const slc_processor *slc) {
    if (slc->type_len > 11) return 0;
    for (size_t i = 0; i < slc->type_len; i++)
        if (slc->type_text[i] >= 128) return 0;
    return 1;
}

static int good_log(const slc_processor *slc, const uint8_t *log, size_t log_len) {
    size_t at = slc->log_at;
    if (slc->log_left > 64) return 0;
    for (size_t i = 0; i < slc->log_left; i++) {
        if (log_len < 2 || log_len - 2 < at) return 0;
        unsigned n = log[at] | log[at + 1] << 8;
        if (n > 255 || log_len - 2 - at < n) return 0;
        at += 2 + n;
    }
    return 1;
}

static int address(const uint8_t *p, size_t n, size_t *at, unsigned *value) {
    if (n <= *at) return 0;
    *value = p[(*at)++];
    if (*value != 0xFF) return 1;
    if (n - *at < 2) return 0;
    *value = p[*at] | p[*at + 1] << 8;
    *at += 2;
    return 1;
}

static void masked_write(uint8_t *to, unsigned mask, const uint8_t *value, unsigned size) {
    unsigned i = 0;
    for (; i + 1 < size; i += 2) {
        unsigned old = to[i] | to[i + 1] << 8, new = value[i] | value[i + 1] << 8;
        old = (old & ~mask) | (new & mask);
        to[i] = old;
        to[i + 1] = old >> 8;
    }
    if (i < size) to[i] = (to[i] & ~mask) | (value[i] & mask);
}

slc_done by_hand_pccc(slc_processor slc, const slc_file_record *restrict table, size_t table_len, uint8_t *restrict memory, size_t memory_len,
                      const uint8_t *restrict log, size_t log_len, const uint8_t *restrict command, size_t command_len, uint8_t *restrict reply, size_t reply_len) {
    static const uint8_t sizes[16] = {2, 2, 2, 2, 6, 6, 6, 2, 4, 0, 0, 84, 2, 0, 0, 4}, bad = 0x06;
    slc_done done = {slc, 16, 0};
    unsigned id = command_len ? command[0] : 0, number = 0x10000, next = 0;
    uint32_t total = 0;
    const slc_file_record *found = 0;
    if (command_len >= id + 7 && command[id] == 0x0F) {
        number = command[id + 6];
        if (number == 0xFF && command_len >= id + 9) number = command[id + 7] | command[id + 8] << 8;
    }
    if (slc.files == 0 || table_len < slc.files) return done;
    for (const slc_file_record *r = table; r < table + slc.files; r++) {
        if (r->number < next || r->start != total || !whole(r->code, r->length)) return done;
        next = r->number + 1;
        total += r->length;
        if (r->number == number) found = r;
    }
    if (next > 256 || total > 65535 || memory_len < total || !good_text(&slc) || !good_log(&slc, log, log_len)) return done;
    done.refused = 17;
    if (reply_len < 514) return done;
    done.refused = 18;
    if (id == 0 || command_len < id + 4) return done;
    done.refused = 0;

    uint8_t status = 0x10;
    const uint8_t *data = 0;
    size_t length = 0;
    if (command_len >= id + 5 && command[id] == 0x0F) {
        uint8_t function = command[id + 4];
        const uint8_t *p = command + id + 5;
        size_t n = command_len - id - 5, at = 1;
        unsigned file, code, element, sub, mask = 0xFFFF;
        status = 0xF0, data = &bad, length = 1;
        if (n < 1 || !address(p, n, &at, &file) || n <= at) goto out;
        code = p[at++];
        if (!address(p, n, &at, &element)) goto out;
        if (function != 0xA2 && function != 0xAA && function != 0xAB) goto out;
        if (!address(p, n, &at, &sub)) goto out;
        if (function == 0xAB) {
            if (n - at < 2) goto out;
            mask = p[at] | p[at + 1] << 8;
            at += 2;
        }
        if (function != 0xA2 && n - at < p[0]) goto out;
        if (!found || found->code != code) goto out;
        size_t offset = element * sizes[code - 0x82] + 2 * sub;
        if (found->length < offset + p[0]) goto out;
        status = 0, length = 0;
        if (function == 0xA2)
            data = memory + found->start + offset, length = p[0];
        else
            masked_write(memory + found->start + offset, mask, p + at, p[0]);
    }
out:
    for (unsigned i = 0; i < id; i++) reply[i] = command[i];
    reply[id] = command[id] | 0x40;
    reply[id + 1] = status;
    reply[id + 2] = command[id + 2];
    reply[id + 3] = command[id + 3];
    for (size_t i = 0; i < length; i++) reply[id + 4 + i] = data[i];
    done.length = id + 4 + length;
    return done;
}
