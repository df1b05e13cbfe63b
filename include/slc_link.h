/* The SLC planner link for C: addresses, requests, replies, the file directory and a simulated processor (README.md). Link libslc_link.a.
 * slc_device.h holds a simulated processor and its memories in one struct.
 *
 * What a caller must keep to. A lent memory is a pointer and a length in items: the pointer is not null (that of an empty memory may point
 * anywhere), the memory has that many items, and one that is written overlaps no other memory of the same call. Nothing else writes to a
 * lent memory while the call runs. The library is for x86-64 Linux, where `size_t` has 8 bytes. All else may have any value.
 *
 * What a caller gets. Every call ends, reads and writes only what it is lent, keeps nothing of it and allocates nothing. `refused` is 0, or
 * the number of the question that was answered with no (SLC_REFUSED_.. below); behind "Refused:" stand the questions that a call asks. A refused
 * call changes no lent byte, and its other fields are 0 unless it says otherwise. A call that isn't refused writes what it says and nothing else:
 * an output from its start on, the `memory` of slc_set and slc_pccc only at the element or the bytes that are named.
 */
#ifndef SLC_LINK_H
#define SLC_LINK_H
#include <stddef.h>
#include <stdint.h>
#ifdef __cplusplus
extern "C" {
#endif

/* the version of this interface */
#define SLC_LINK_VERSION_MAJOR 0
#define SLC_LINK_VERSION_MINOR 3
#define SLC_LINK_VERSION_PATCH 0

/* ---- numbers ---- */

/* what a caller needs room for, in bytes or items, and where two things stand */
enum {
    SLC_REQUEST_ROOM = 27,               /* output of any request but a write */
    SLC_WRITE_ROOM = 284,                /* output of a write request */
    SLC_STATUS_ROOM = 96,                /* output of a status in words */
    SLC_REPLY_ROOM = 514,                /* reply memory of slc_pccc */
    SLC_TEXT_ROOM = 82,                  /* text memory, where the element that is read is text */
    SLC_DOTTED_ROOM = 255,               /* output of slc_dotted */
    SLC_TAG_ROOM = 64,                   /* output of slc_tags_feed for each byte of the piece, and of slc_tags_finish */
    SLC_MOST_FILES = 256,                /* records in the table of a processor */
    SLC_MOST_DATA = 65535,               /* bytes of its data; also of a file directory, and the highest offset in one */
    SLC_MOST_ENTRIES = 64,               /* entries of its datalog */
    SLC_MOST_LOG = 16448,                /* bytes of its datalog: each entry has a length word and at most 255 bytes */
    SLC_COMMAND_AT = 6,                  /* the place in a message where its PCCC command begins, behind CIP service and path */
    SLC_DATA_AT = 11                     /* the place in a reply where its data begins, where the requester's id has the usual 7 bytes */
};

/* The questions, each with its number as a name; a number that isn't here is none. In full, and in the order in which each call asks them: docs/QUESTIONS.md. */
enum {
    SLC_REFUSED_TAG_BYTES = 1,           /* Is the tag at most 255 bytes and well-formed UTF-8? */
    SLC_REFUSED_TAG = 2,                 /* Does the tag spell an address? */
    SLC_REFUSED_BIT_COUNT = 3,           /* Is the tag free of a bit together with a count above 1? */
    SLC_REFUSED_VALUE = 4,               /* Does the value suit the address? */
    SLC_REFUSED_SIZE = 5,                /* Is the size 0 to 255, or are there 2 to 257 raw bytes? */
    SLC_REFUSED_OUTPUT_ROOM = 6,         /* Is the output long enough? */
    SLC_REFUSED_DIRECTORY_LENGTH = 7,    /* Is the directory at most 65,535 bytes? */
    SLC_REFUSED_ROW_SIZE = 8,            /* Is the row size not 0? */
    SLC_REFUSED_ROW_CUT = 9,             /* Do two bytes follow every known type code in the rows? */
    SLC_REFUSED_FILES_ROOM = 10,         /* Does the output hold all files of the directory? */
    SLC_REFUSED_FILE_TYPE = 11,          /* Is the type code one of the twelve? */
    SLC_REFUSED_FILE_NUMBER = 12,        /* Is the file number at most 255 and new? */
    SLC_REFUSED_TYPE_TEXT = 13,          /* Is the processor type at most 11 bytes, each below 128? */
    SLC_REFUSED_DATA_ROOM = 14,          /* Are the files at most 65,535 bytes, and do table and memory hold them? */
    SLC_REFUSED_DATALOG = 15,            /* Has the datalog at most 64 entries of at most 255 bytes? */
    SLC_REFUSED_UNSOUND = 16,            /* Is the processor sound? */
    SLC_REFUSED_REPLY_ROOM = 17,         /* Has the reply memory 514 bytes? */
    SLC_REFUSED_COMMAND = 18,            /* Is the command not empty, its first byte not 0, and its length at least that byte plus 4? */
    SLC_REFUSED_NO_ELEMENT = 19,         /* Does the file exist with this type, and does the element lie in it? */
    SLC_REFUSED_KIND = 20,               /* Does the kind of value suit the type? */
    SLC_REFUSED_FIELD = 21,              /* Is the field name known? */
    SLC_REFUSED_NUMBER = 22,             /* Is the number in range? */
    SLC_REFUSED_TEXT_LENGTH = 23,        /* Is the text for ST at most 82 bytes? */
    SLC_REFUSED_TEXT_ROOM = 24,          /* Has the text memory 82 bytes? */
    SLC_REFUSED_REPLY_LENGTH = 25,       /* Has the reply 63 bytes? */
    SLC_REFUSED_OFFSET = 26,             /* Is the offset at most 65,535? */
    SLC_REFUSED_SEPARATOR = 39           /* Is a timer's or counter's separator in a new entry a full stop or a slash? */
};

/* the PCCC type codes of the fifteen file types; the simulated processor knows the twelve up to L */
enum {
    SLC_TYPE_O = 0x82, SLC_TYPE_I = 0x83, SLC_TYPE_S = 0x84, SLC_TYPE_B = 0x85, SLC_TYPE_T = 0x86,
    SLC_TYPE_C = 0x87, SLC_TYPE_R = 0x88, SLC_TYPE_N = 0x89, SLC_TYPE_F = 0x8A, SLC_TYPE_ST = 0x8D,
    SLC_TYPE_A = 0x8E, SLC_TYPE_L = 0x91, SLC_TYPE_MG = 0x92, SLC_TYPE_PD = 0x93, SLC_TYPE_PLS = 0x94
};

/* ---- file types ---- */

typedef struct {
    uint8_t known;          /* 0: none of the fifteen types, and all else is 0 */
    uint8_t code;           /* PCCC type code */
    uint8_t element_size;   /* bytes of an element */
    uint8_t simulated;      /* 1: one of the simulated processor's twelve */
    uint8_t bits;           /* how many status bits have a name */
    uint8_t name_len;
    uint8_t name[3];        /* its first name_len bytes */
} slc_file_type;

typedef struct { uint8_t len; uint8_t text[3]; } slc_name;   /* the first len bytes; len 0: no name */
typedef struct { uint8_t kind; uint8_t index; } slc_field;   /* kind 0: no such name, 1: word `index + 1`, 2: bit `15 - index` of word 0 */

/* The type of a code; the type of a name in capital letters. */
slc_file_type slc_type_of_code(uint8_t code);
slc_file_type slc_type_of_name(const uint8_t *name, size_t name_len);

/* The i-th named status bit, from bit 15 down, and the i-th named word of T, C and R. */
slc_name slc_bit_name(uint8_t code, size_t i);
slc_name slc_word_name(uint8_t code, size_t i);

/* What a name, in either case, stands for in an element of T, C or R. */
slc_field slc_field_of(uint8_t code, const uint8_t *name, size_t name_len);

/* ---- text: Latin-1, a byte a character ---- */

typedef struct { uint8_t refused; size_t length; } slc_written;   /* how many bytes (or files) were written */

/* The bytes with each pair swapped, an odd length padded with a zero first. Refused: 6. */
slc_written slc_string_swap(const uint8_t *bytes, size_t bytes_len, uint8_t *out, size_t out_len);

/* Swaps each pair in place; an odd last byte stays. */
void slc_swap_pairs(uint8_t *bytes, size_t bytes_len);

/* The 2 bytes of an A element, and the 84 of an ST element, with this text. Refused: 6. */
slc_written slc_encode_ascii(const uint8_t *text, size_t text_len, uint8_t *out, size_t out_len);
slc_written slc_encode_string(const uint8_t *text, size_t text_len, uint8_t *out, size_t out_len);

/* ---- elements ---- */

enum { SLC_WHOLE = 0, SLC_FLOAT = 1, SLC_TEXT = 2, SLC_WORDS = 3, SLC_FIELD = 4 };

/* A value to set. WHOLE: a. FLOAT: the bits, in the low half of a. TEXT: the lent text. WORDS: a, b, c. FIELD: a, to the field that the lent
   text names. Another kind suits no type (20). */
typedef struct { uint8_t kind; int64_t a, b, c; } slc_value;

/* A value that was read. WHOLE: whole. FLOAT: bits. TEXT: length, the text stands in the lent memory. FIELD: words 1 and 2 of T, C or R, and
   in `status` word 0 with the bits that have no name cleared. */
typedef struct { uint8_t refused; uint8_t kind; int32_t whole; uint32_t bits; size_t length; int16_t word1, word2; uint16_t status; } slc_element;

/* Sets the element that these bytes begin with, and gives `refused`. `text` is the text of A and ST, or the field's name. Refused: 19 to 23. */
uint8_t slc_encode_element(uint8_t code, slc_value value, const uint8_t *text, size_t text_len, uint8_t *element, size_t element_len);

/* Reads the element that these bytes begin with; for text, `text` needs SLC_TEXT_ROOM bytes. Refused: 19, 20, 24. */
slc_element slc_decode_element(uint8_t code, const uint8_t *element, size_t element_len, uint8_t *text, size_t text_len);

/* ---- addresses and requests: a tag is UTF-8 of at most 255 bytes. Where a file letter is read, U+0131 (dotless i) is an I and U+017F (long s) an S.
   The separator between the element and the name of a timer or counter address is one character that isn't a newline, in a new entry a full stop or a
   slash ---- */

/* The two readings of a tag; which one holds stands behind it in a call. They differ in the separator alone. T4:123PRE in a stored list is element 12,
   for the digit 3 is its separator; as a new entry it is refused (39), and T4:12.PRE and T4:12/PRE are accepted. Any number but SLC_READING_STORED is a
   new entry, which takes nothing that a stored list doesn't: so no other value of this byte lets such a spelling in. */
enum { SLC_READING_NEW = 0, SLC_READING_STORED = 1 };

typedef struct {
    uint8_t refused;
    uint8_t code;               /* PCCC type code */
    uint16_t file_number, element_number;
    uint8_t has_position;       /* 0: position is missing, and 0 */
    uint16_t position;
    uint8_t has_sub_element;    /* 0: sub_element is missing, and 0 */
    uint16_t sub_element;
    uint8_t bit;                /* 1: the tag names a bit, or a field of T or C */
    uint64_t element_count;
    size_t kept;                /* how many bytes of the tag are kept: those before {, or all of C, of T, and of S with a bit */
} slc_address;

typedef struct { uint8_t vid[2]; uint8_t vsn[4]; } slc_requestor;       /* who asks: vendor and serial bytes, as sent */
typedef struct { slc_address address; size_t length; } slc_request;     /* refused: address.refused */

/* The address that a tag spells. Refused: 1, 2, 39. */
slc_address slc_parse_tag(const uint8_t *tag, size_t tag_len, uint8_t reading);

/* The text of a tag of a stored list with a timer's or counter's separator replaced by a full stop; any other tag as it is, with its count. The
   text is accepted as a new entry and names the same address; only `kept` may be less, where the separator had several bytes. `out` needs SLC_DOTTED_ROOM bytes, however short the text
   is. Refused: 1, 2, 6. */
slc_written slc_dotted(const uint8_t *tag, size_t tag_len, uint8_t *out, size_t out_len);

/* 09 10 and 09 10 19 71. */
slc_requestor slc_default_requestor(void);

/* The message that reads what a tag names; `out` needs SLC_REQUEST_ROOM bytes. Refused: 1, 2, 39, 3, 5, 6. */
slc_request slc_read_request(const uint8_t *tag, size_t tag_len, uint8_t reading, slc_requestor q, uint16_t sequence, uint8_t *out, size_t out_len);

enum { SLC_RAW = 0, SLC_FALSE = 1, SLC_TRUE = 2, SLC_LATIN1 = 3 };

/* The message that writes raw bytes (mask and data), false, true or text to what a tag names; `out` needs SLC_WRITE_ROOM bytes. `bytes` has the
   raw bytes or the text. Another kind suits no address (4). Refused: 1, 2, 39, 3 to 6. */
slc_request slc_write_request(const uint8_t *tag, size_t tag_len, uint8_t reading, uint8_t kind, const uint8_t *bytes, size_t bytes_len, slc_requestor q, uint16_t sequence, uint8_t *out, size_t out_len);

/* The messages that ask for the processor's type, and for the oldest entry of a datalog queue; `out` needs SLC_REQUEST_ROOM bytes.
   Refused: 6. */
slc_written slc_processor_type_request(slc_requestor q, uint16_t sequence, uint8_t *out, size_t out_len);
slc_written slc_datalog_request(uint8_t queue, uint8_t *out, size_t out_len);

/* ---- replies: `raw` is the whole message of a connected reply, from its encapsulation header on, with the PCCC reply from byte 50 on; `reply` is
   that PCCC reply alone, from the requester's id on, whose first byte is its length ---- */

/* The status of a connected reply with its encapsulation (PCCC from byte 50 on), in words, nothing for success; `out` needs SLC_STATUS_ROOM bytes
   for a text. Refused: 6. */
slc_written slc_request_status(const uint8_t *raw, size_t raw_len, uint8_t *out, size_t out_len);

/* The status of a reply from the requester's id on, as slc_pccc gives it, in the same words. Refused: 6. */
slc_written slc_reply_status(const uint8_t *reply, size_t reply_len, uint8_t *out, size_t out_len);

/* The text of a status code, nothing where it has none; `out` needs SLC_STATUS_ROOM bytes for a text. Refused: 6. */
slc_written slc_error_text(uint8_t status, uint8_t *out, size_t out_len);

typedef struct { size_t from, length; } slc_part;

/* The datalog entry of a connected reply with its encapsulation (PCCC from byte 50 on): a part of it. */
slc_part slc_parse_datalog(const uint8_t *raw, size_t raw_len);

/* The same of a reply from the requester's id on, as slc_pccc gives it. */
slc_part slc_reply_datalog(const uint8_t *reply, size_t reply_len);

/* The question of a number, in words, nothing where the number is none; `out` needs SLC_STATUS_ROOM bytes for a text. Refused: 6. */
slc_written slc_question(uint8_t number, uint8_t *out, size_t out_len);

/* ---- the file directory, as a client reads it ---- */

typedef struct {
    size_t file_position;   /* place of the first row */
    size_t row_size;
    uint8_t file_type;      /* type code that reads the directory */
    uint8_t size_element;   /* element that holds the directory's size, and how many bytes are asked of it */
    uint8_t size_len;
    uint16_t size_const;    /* what the processor adds to the size */
} slc_sys0;

typedef struct { uint8_t refused; int32_t bytes; } slc_directory_size;

/* Where a processor keeps its directory, by its type text. */
slc_sys0 slc_sys0_info(const uint8_t *plc_type, size_t plc_type_len);

/* The message that asks for the directory's size; `out` needs SLC_REQUEST_ROOM bytes. Refused: 6. */
slc_written slc_file_directory_size_request(slc_sys0 info, slc_requestor q, uint16_t sequence, uint8_t *out, size_t out_len);

/* The message that reads `size` bytes of the directory from an offset on; `out` needs SLC_REQUEST_ROOM bytes. Refused: 26, 6. */
slc_written slc_file_directory_read_request(uint8_t file_type, size_t offset, uint8_t size, slc_requestor q, uint16_t sequence, uint8_t *out, size_t out_len);

/* The directory's size in a connected reply with its encapsulation (PCCC from byte 50 on), less what the processor adds; it may be negative.
   Refused: 25. */
slc_directory_size slc_parse_file_directory_size(const uint8_t *raw, size_t raw_len, slc_sys0 info);

/* The same of a reply from the requester's id on, as slc_pccc gives it. Refused: 25, where it ends before the two bytes of the size. */
slc_directory_size slc_reply_directory_size(const uint8_t *reply, size_t reply_len, slc_sys0 info);

/* The files of a directory's rows, each as type code, number, elements and length in bytes; `length` counts files. Refused: 7 to 10. */
slc_written slc_parse_file_directory(size_t file_position, size_t row_size, const uint8_t *bytes, size_t bytes_len, uint32_t (*out)[4], size_t out_len);

/* ---- the simulated processor ----
   Its plain data goes by value. Its file records (`table`), its file data (`memory`) and its datalog (`log`: entries end to end, each a length
   word, low byte first, and its bytes) stand in lent memories, which the caller keeps from call to call: every call takes the processor, table,
   memory and log in this order, and then its own. SLC_MOST_FILES records and SLC_MOST_DATA bytes of data are always enough. slc_device.h keeps
   all of them together. */

typedef struct { uint16_t number; uint8_t code; uint16_t start, length; } slc_file_record;
typedef struct {
    size_t files;           /* records in use, from the table's start */
    uint8_t type_text[11];
    size_t type_len;
    size_t log_at;          /* place of the oldest datalog entry that is left, and how many are */
    size_t log_left;
} slc_processor;
typedef struct { slc_processor slc; uint8_t refused; } slc_built;                   /* refused: a processor without files */
typedef struct { slc_processor slc; uint8_t refused; size_t length; } slc_done;     /* refused: the processor as it was */

/* A processor of these files (each number, type code, elements), of this type text and of a datalog of `count` entries. No files: the default
   ones. The data is zeros. Refused: 11 to 15. */
slc_built slc_new(slc_file_record *table, size_t table_len, uint8_t *memory, size_t memory_len, const uint8_t *log, size_t log_len,
                  size_t count, const uint32_t (*files)[3], size_t files_len, const uint8_t *text, size_t text_len);

/* The reply to a command (from the requester's id on), and the processor as the command leaves it; `reply` needs SLC_REPLY_ROOM bytes. A
   command that the processor can't do has a reply too, which says so. Refused: 16, 17, 18. */
slc_done slc_pccc(slc_processor slc, const slc_file_record *table, size_t table_len, uint8_t *memory, size_t memory_len, const uint8_t *log, size_t log_len,
                  const uint8_t *command, size_t command_len, uint8_t *reply, size_t reply_len);

/* An element by file number, type code and index; the same with the value to set. */
typedef struct { uint16_t number; uint8_t code; size_t element; } slc_spot;
typedef struct { uint16_t number; uint8_t code; size_t element; slc_value value; } slc_setting;

/* Reads an element; for text, `text` needs SLC_TEXT_ROOM bytes. Refused: 16, 19, 24. */
slc_element slc_read(slc_processor slc, const slc_file_record *table, size_t table_len, const uint8_t *memory, size_t memory_len, const uint8_t *log, size_t log_len,
                     slc_spot at, uint8_t *text, size_t text_len);

/* Sets an element, and gives `refused`. `text` is the text of A and ST, or the field's name. Refused: 16, 19 to 23. */
uint8_t slc_set(slc_processor slc, const slc_file_record *table, size_t table_len, uint8_t *memory, size_t memory_len, const uint8_t *log, size_t log_len,
                slc_setting to, const uint8_t *text, size_t text_len);

/* ---- the program `tags` on memories: a read request for each line, a new entry, with the default requester and sequence 0 ---- */

typedef struct { uint8_t bytes[256]; size_t kept; } slc_line;           /* what is kept of a line that hasn't ended */
typedef struct { slc_line line; size_t taken, used; } slc_fed;          /* bytes taken of the piece, bytes written to the output */

/* A line that has no byte yet. */
slc_line slc_line_empty(void);

/* The answers to the lines that end in a piece of the input, and the line that goes on behind it. As many bytes of the piece are taken as
   `out` has SLC_TAG_ROOM bytes for. */
slc_fed slc_tags_feed(slc_line line, const uint8_t *piece, size_t piece_len, uint8_t *out, size_t out_len);

/* The answer to a last line that has no newline: its length. `out` needs SLC_TAG_ROOM bytes; with less, nothing is written. */
size_t slc_tags_finish(slc_line line, uint8_t *out, size_t out_len);

#ifdef __cplusplus
}
#endif
#endif
