/* A simulated processor together with its memories, over slc_link.h: no call can be given another processor's table, memory or datalog, and the
 * processor that a command leaves is kept. Nothing is allocated; a device has about 84,000 bytes, so keep it in static or heap memory rather than
 * on the stack. What it has inside is for these functions alone. A device is for one thread at a time, and may be copied by assignment.
 *
 * Here a pointer may be null where its length is 0; else slc_link.h says what a caller must keep to and gets, also of refusals. No memory that is
 * lent may lie in the device. A device of zeros, and one whose slc_device_new was refused, has no files: its calls answer 16 (SLC_REFUSED_UNSOUND).
 */
#ifndef SLC_DEVICE_H
#define SLC_DEVICE_H
#include "slc_link.h"
#include <string.h>
#ifdef __cplusplus
extern "C" {
#endif

typedef struct {
    slc_processor slc;
    slc_file_record table[SLC_MOST_FILES];
    uint8_t memory[SLC_MOST_DATA];
    uint8_t log[SLC_MOST_LOG];
    size_t log_len;
} slc_device;

/* a pointer for the library, which takes no null one */
static inline const uint8_t *slc_device_lent(const uint8_t *bytes, size_t length)
{
    return length ? bytes : (const uint8_t *)"";
}

/* Makes a device of these files (each number, type code, elements; none: the default ones), of this type text, and of a datalog of `count` entries,
   the oldest first, end to end, each a length word, low byte first, and its bytes. The log is copied, and the data is zeros. Gives `refused`: 11
   to 15. */
static inline uint8_t slc_device_new(slc_device *device, const uint32_t (*files)[3], size_t files_len, const char *type_text,
                                     const uint8_t *log, size_t log_len, size_t count)
{
    static const uint32_t no_files[1][3] = {{0, 0, 0}};
    slc_built built;
    /* no entry that a processor can have stands behind the first SLC_MOST_LOG bytes */
    device->log_len = log_len < SLC_MOST_LOG ? log_len : (size_t)SLC_MOST_LOG;
    memcpy(device->log, slc_device_lent(log, log_len), device->log_len);
    built = slc_new(device->table, SLC_MOST_FILES, device->memory, SLC_MOST_DATA, device->log, device->log_len, count,
                    files_len ? files : no_files, files_len, (const uint8_t *)type_text, strlen(type_text));
    device->slc = built.slc;
    return built.refused;
}

/* The reply to a command, from the requester's id on (a message's command begins at SLC_COMMAND_AT), and its length; `reply` needs SLC_REPLY_ROOM
   bytes. A command that the processor can't do has a reply too, which says so. Refused: 16, 17, 18. */
static inline slc_written slc_device_pccc(slc_device *device, const uint8_t *command, size_t command_len, uint8_t *reply, size_t reply_len)
{
    slc_written answer;
    uint8_t no_reply[1];
    slc_done done = slc_pccc(device->slc, device->table, SLC_MOST_FILES, device->memory, SLC_MOST_DATA, device->log, device->log_len,
                             slc_device_lent(command, command_len), command_len, reply_len ? reply : no_reply, reply_len);
    device->slc = done.slc;
    answer.refused = done.refused;
    answer.length = done.length;
    return answer;
}

/* Reads an element, by file number, type code and index; for text, `text` needs SLC_TEXT_ROOM bytes. Refused: 16, 19, 24. */
static inline slc_element slc_device_read(const slc_device *device, uint16_t number, uint8_t code, size_t element, uint8_t *text, size_t text_len)
{
    uint8_t no_text[1];
    slc_spot at;
    at.number = number;
    at.code = code;
    at.element = element;
    return slc_read(device->slc, device->table, SLC_MOST_FILES, device->memory, SLC_MOST_DATA, device->log, device->log_len,
                    at, text_len ? text : no_text, text_len);
}

/* Sets an element, and gives `refused`. `text` is the text of A and ST, or the field's name. Refused: 16, 19 to 23. */
static inline uint8_t slc_device_set(slc_device *device, uint16_t number, uint8_t code, size_t element, slc_value value,
                                     const uint8_t *text, size_t text_len)
{
    slc_setting to;
    to.number = number;
    to.code = code;
    to.element = element;
    to.value = value;
    return slc_set(device->slc, device->table, SLC_MOST_FILES, device->memory, SLC_MOST_DATA, device->log, device->log_len,
                   to, slc_device_lent(text, text_len), text_len);
}

#ifdef __cplusplus
}
#endif
#endif
