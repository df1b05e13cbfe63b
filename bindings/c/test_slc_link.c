/* Tries the numbers of slc_link.h and the device of slc_device.h on the library; `./slc lib c` builds and runs it. Prints what is wrong, and how many
 * points are. Exit status 0 only if none is. It is C and C++. */
#include <slc_device.h>
#include <stdio.h>

static int points, faults;

static void same(const char *what, unsigned long long is, unsigned long long expected)
{
    points++;
    if (is == expected)
        return;
    faults++;
    printf("FAULT %s: %llu, not %llu\n", what, is, expected);
}

static const uint8_t *bytes(const char *text)
{
    return (const uint8_t *)text;
}

static uint8_t out[65536];
static slc_file_record table[SLC_MOST_FILES];
static uint8_t memory[SLC_MOST_DATA];
static uint8_t log_memory[SLC_MOST_LOG];
static uint8_t zeros[65536];
static uint32_t files[SLC_MOST_FILES][3];
static uint32_t found[2][4];

/* ---- calls in short */

static uint8_t parsed_as(uint8_t reading, const char *tag)
{
    return slc_parse_tag(bytes(tag), strlen(tag), reading).refused;
}

static uint8_t read_request_as(uint8_t reading, const char *tag, size_t room)
{
    return slc_read_request(bytes(tag), strlen(tag), reading, slc_default_requestor(), 0, out, room).address.refused;
}

static uint8_t write_request_as(uint8_t reading, const char *tag, uint8_t kind, size_t length, size_t room)
{
    return slc_write_request(bytes(tag), strlen(tag), reading, kind, zeros, length, slc_default_requestor(), 0, out, room).address.refused;
}

/* as from a stored list, which may have all that a new entry may be */
static uint8_t parsed(const char *tag)
{
    return parsed_as(SLC_READING_STORED, tag);
}

static uint8_t read_request(const char *tag, size_t room)
{
    return read_request_as(SLC_READING_STORED, tag, room);
}

static uint8_t write_request(const char *tag, uint8_t kind, size_t length, size_t room)
{
    return write_request_as(SLC_READING_STORED, tag, kind, length, room);
}

static slc_written dotted(const char *tag, size_t room)
{
    return slc_dotted(bytes(tag), strlen(tag), out, room);
}

static uint8_t directory_read(size_t offset, size_t room)
{
    return slc_file_directory_read_request(1, offset, 1, slc_default_requestor(), 0, out, room).refused;
}

static uint8_t directory(size_t row_size, size_t length, size_t room)
{
    return slc_parse_file_directory(0, row_size, zeros, length, found, room).refused;
}

static uint8_t built_with(size_t records, size_t data, const char *type_text, size_t log_len, size_t count, size_t files_len)
{
    return slc_new(table, records, memory, data, log_memory, log_len, count, (const uint32_t(*)[3])files, files_len,
                   bytes(type_text), strlen(type_text)).refused;
}

static uint8_t built(uint32_t number, uint32_t code, uint32_t elements, const char *type_text)
{
    files[0][0] = number;
    files[0][1] = code;
    files[0][2] = elements;
    return built_with(SLC_MOST_FILES, SLC_MOST_DATA, type_text, 0, 0, 1);
}

static slc_value value(uint8_t kind, int64_t a)
{
    slc_value v;
    v.kind = kind;
    v.a = a;
    v.b = v.c = 0;
    return v;
}

static uint8_t encoded(uint8_t code, slc_value v, const char *text, size_t length)
{
    return slc_encode_element(code, v, bytes(text), strlen(text), out, length);
}

/* ---- the sizes: as much is enough, and one less is not */

static void rooms(void)
{
    slc_requestor q = slc_default_requestor();
    slc_sys0 info = slc_sys0_info(zeros, 0);
    size_t room = SLC_REQUEST_ROOM;
    same("SLC_REQUEST_ROOM", read_request("N7:0", room), 0);
    same("less for slc_read_request", read_request("N7:0", room - 1), SLC_REFUSED_OUTPUT_ROOM);
    same("less for slc_processor_type_request", slc_processor_type_request(q, 0, out, room - 1).refused, SLC_REFUSED_OUTPUT_ROOM);
    same("less for slc_datalog_request", slc_datalog_request(0, out, room - 1).refused, SLC_REFUSED_OUTPUT_ROOM);
    same("less for slc_file_directory_size_request", slc_file_directory_size_request(info, q, 0, out, room - 1).refused, SLC_REFUSED_OUTPUT_ROOM);
    same("less for slc_file_directory_read_request", directory_read(0, room - 1), SLC_REFUSED_OUTPUT_ROOM);
    same("enough for slc_processor_type_request", slc_processor_type_request(q, 0, out, room).refused, 0);
    same("enough for slc_datalog_request", slc_datalog_request(0, out, room).refused, 0);
    same("enough for slc_file_directory_size_request", slc_file_directory_size_request(info, q, 0, out, room).refused, 0);
    same("enough for slc_file_directory_read_request", directory_read(0, room), 0);
    same("SLC_WRITE_ROOM", write_request("N7:0", SLC_RAW, 257, SLC_WRITE_ROOM), 0);
    same("less for slc_write_request", write_request("N7:0", SLC_RAW, 4, SLC_WRITE_ROOM - 1), SLC_REFUSED_OUTPUT_ROOM);
    same("SLC_STATUS_ROOM", slc_error_text(0x10, out, SLC_STATUS_ROOM).refused, 0);
    same("less for slc_error_text", slc_error_text(0x10, out, SLC_STATUS_ROOM - 1).refused, SLC_REFUSED_OUTPUT_ROOM);
    same("SLC_STATUS_ROOM for slc_request_status", slc_request_status(zeros, 0, out, SLC_STATUS_ROOM).refused, 0);
    same("less for slc_request_status", slc_request_status(zeros, 0, out, SLC_STATUS_ROOM - 1).refused, SLC_REFUSED_OUTPUT_ROOM);
    same("SLC_DOTTED_ROOM", dotted("N7:0", SLC_DOTTED_ROOM).refused, 0);
    same("less for slc_dotted", dotted("N7:0", SLC_DOTTED_ROOM - 1).refused, SLC_REFUSED_OUTPUT_ROOM);
    same("SLC_TEXT_ROOM", slc_decode_element(SLC_TYPE_ST, zeros, 84, out, SLC_TEXT_ROOM).refused, 0);
    same("less for slc_decode_element", slc_decode_element(SLC_TYPE_ST, zeros, 84, out, SLC_TEXT_ROOM - 1).refused, SLC_REFUSED_TEXT_ROOM);
    same("SLC_TAG_ROOM", slc_tags_finish(slc_tags_feed(slc_line_empty(), bytes("N"), 1, out, SLC_TAG_ROOM).line, out, SLC_TAG_ROOM) > 0, 1);
    same("SLC_TAG_ROOM for each byte", slc_tags_feed(slc_line_empty(), zeros, 9, out, 9 * SLC_TAG_ROOM).taken, 9);
    same("less for slc_tags_feed", slc_tags_feed(slc_line_empty(), zeros, 9, out, 9 * SLC_TAG_ROOM - 1).taken, 8);
    same("less for slc_tags_finish", slc_tags_finish(slc_tags_feed(slc_line_empty(), bytes("N"), 1, out, SLC_TAG_ROOM).line, out, SLC_TAG_ROOM - 1), 0);
}

/* the most that a processor has: as many files, bytes and entries are built, and one more is not */
static void most(void)
{
    uint32_t i;
    for (i = 0; i < SLC_MOST_FILES; i++) {
        files[i][0] = i;
        files[i][1] = SLC_TYPE_N;
        files[i][2] = 1;
    }
    same("SLC_MOST_FILES", built_with(SLC_MOST_FILES, SLC_MOST_DATA, "", 0, 0, SLC_MOST_FILES), 0);
    same("a table of one record less", built_with(SLC_MOST_FILES - 1, SLC_MOST_DATA, "", 0, 0, SLC_MOST_FILES), SLC_REFUSED_DATA_ROOM);
    /* every element has an even number of bytes */
    same("SLC_MOST_DATA", built(7, SLC_TYPE_N, SLC_MOST_DATA / 2, ""), 0);
    same("more data", built(7, SLC_TYPE_N, SLC_MOST_DATA / 2 + 1, ""), SLC_REFUSED_DATA_ROOM);
    same("SLC_MOST_DATA of a directory", directory(3, SLC_MOST_DATA, 0), 0);
    same("a longer directory", directory(3, SLC_MOST_DATA + 1, 0), SLC_REFUSED_DIRECTORY_LENGTH);
    same("SLC_MOST_DATA as an offset", directory_read(SLC_MOST_DATA, SLC_REQUEST_ROOM), 0);
    same("a higher offset", directory_read(SLC_MOST_DATA + 1, SLC_REQUEST_ROOM), SLC_REFUSED_OFFSET);
    for (i = 0; i < SLC_MOST_ENTRIES; i++)
        log_memory[i * (SLC_MOST_LOG / SLC_MOST_ENTRIES)] = 255;
    same("SLC_MOST_ENTRIES in SLC_MOST_LOG", built_with(SLC_MOST_FILES, SLC_MOST_DATA, "", SLC_MOST_LOG, SLC_MOST_ENTRIES, 0), 0);
    same("a byte less for them", built_with(SLC_MOST_FILES, SLC_MOST_DATA, "", SLC_MOST_LOG - 1, SLC_MOST_ENTRIES, 0), SLC_REFUSED_DATALOG);
    memset(log_memory, 0, sizeof log_memory);
    same("empty entries", built_with(SLC_MOST_FILES, SLC_MOST_DATA, "", SLC_MOST_LOG, SLC_MOST_ENTRIES, 0), 0);
    same("an entry more", built_with(SLC_MOST_FILES, SLC_MOST_DATA, "", SLC_MOST_LOG, SLC_MOST_ENTRIES + 1, 0), SLC_REFUSED_DATALOG);
}

/* each number that has a name has a question, and no other number has one */
static void questions(void)
{
    unsigned n;
    for (n = 0; n < 256; n++)
        same("a question of the number", slc_question((uint8_t)n, out, SLC_STATUS_ROOM).length > 0,
             (n >= SLC_REFUSED_TAG_BYTES && n <= SLC_REFUSED_OFFSET) || n == SLC_REFUSED_SEPARATOR);
    same("less for slc_question", slc_question(SLC_REFUSED_COMMAND, out, SLC_STATUS_ROOM - 1).refused, SLC_REFUSED_OUTPUT_ROOM);
    same("the longest question", slc_question(SLC_REFUSED_COMMAND, out, SLC_STATUS_ROOM).length, 89);
}

/* ---- each refusal, by a call that it stands for (those of a processor are with the device) */

static void refusals(void)
{
    same("TAG_BYTES", slc_parse_tag(zeros, 256, SLC_READING_NEW).refused, SLC_REFUSED_TAG_BYTES);
    same("TAG", slc_parse_tag(bytes("N7"), 2, SLC_READING_NEW).refused, SLC_REFUSED_TAG);
    same("BIT_COUNT", read_request("N7:0/3{2}", SLC_REQUEST_ROOM), SLC_REFUSED_BIT_COUNT);
    same("VALUE", write_request("N7:0", SLC_TRUE, 0, SLC_WRITE_ROOM), SLC_REFUSED_VALUE);
    same("SIZE", read_request("N7:0{128}", SLC_REQUEST_ROOM), SLC_REFUSED_SIZE);
    same("SIZE of raw bytes", write_request("N7:0", SLC_RAW, 258, SLC_WRITE_ROOM), SLC_REFUSED_SIZE);
    same("ROW_SIZE", directory(0, 3, 1), SLC_REFUSED_ROW_SIZE);
    zeros[0] = zeros[3] = SLC_TYPE_N;
    same("ROW_CUT", directory(3, 2, 1), SLC_REFUSED_ROW_CUT);
    same("FILES_ROOM", directory(3, 6, 1), SLC_REFUSED_FILES_ROOM);
    zeros[0] = zeros[3] = 0;
    same("FILE_TYPE", built(7, SLC_TYPE_MG, 1, ""), SLC_REFUSED_FILE_TYPE);
    same("FILE_NUMBER", built(256, SLC_TYPE_N, 1, ""), SLC_REFUSED_FILE_NUMBER);
    same("TYPE_TEXT", built(7, SLC_TYPE_N, 1, "1747-L552/C2"), SLC_REFUSED_TYPE_TEXT);
    same("NO_ELEMENT", encoded(SLC_TYPE_N, value(SLC_WHOLE, 0), "", 1), SLC_REFUSED_NO_ELEMENT);
    same("KIND", encoded(SLC_TYPE_N, value(SLC_FLOAT, 0), "", 2), SLC_REFUSED_KIND);
    same("FIELD", encoded(SLC_TYPE_T, value(SLC_FIELD, 0), "XX", 6), SLC_REFUSED_FIELD);
    same("NUMBER", encoded(SLC_TYPE_N, value(SLC_WHOLE, 65536), "", 2), SLC_REFUSED_NUMBER);
    same("TEXT_LENGTH", slc_encode_element(SLC_TYPE_ST, value(SLC_TEXT, 0), zeros, 83, out, 84), SLC_REFUSED_TEXT_LENGTH);
    same("REPLY_LENGTH", slc_parse_file_directory_size(zeros, 62, slc_sys0_info(zeros, 0)).refused, SLC_REFUSED_REPLY_LENGTH);
    same("SEPARATOR", parsed_as(SLC_READING_NEW, "T4:123PRE"), SLC_REFUSED_SEPARATOR);
}

/* ---- the two readings of a tag */

/* The tag, which only a stored list may have, has this dotted text, which is a new entry of the same address. */
static void retired(const char *tag, const char *plain)
{
    slc_address a = slc_parse_tag(bytes(tag), strlen(tag), SLC_READING_STORED), b = slc_parse_tag(bytes(plain), strlen(plain), SLC_READING_NEW);
    slc_written written;
    size_t i;
    same(tag, a.refused, 0);
    same(plain, b.refused, 0);
    same(tag, a.code == b.code && a.file_number == b.file_number && a.element_number == b.element_number && a.has_position == b.has_position
         && a.has_sub_element == b.has_sub_element && a.sub_element == b.sub_element && a.bit == b.bit && a.element_count == b.element_count, 1);
    same("the kept text", b.kept, strlen(plain));
    same("a new entry", parsed_as(SLC_READING_NEW, tag), SLC_REFUSED_SEPARATOR);
    same("a read of it", read_request_as(SLC_READING_NEW, tag, SLC_REQUEST_ROOM), SLC_REFUSED_SEPARATOR);
    same("a write to it", write_request_as(SLC_READING_NEW, tag, SLC_RAW, 4, SLC_WRITE_ROOM), SLC_REFUSED_SEPARATOR);
    /* 39 comes before 4, 5 and 6 */
    same("a read to no memory", read_request_as(SLC_READING_NEW, tag, 0), SLC_REFUSED_SEPARATOR);
    same("a write of no kind", write_request_as(SLC_READING_NEW, tag, 9, 4, SLC_WRITE_ROOM), SLC_REFUSED_SEPARATOR);
    same("a write of text", write_request_as(SLC_READING_NEW, tag, SLC_LATIN1, 4, SLC_WRITE_ROOM), SLC_REFUSED_SEPARATOR);
    same("a write of one byte to no memory", write_request_as(SLC_READING_NEW, tag, SLC_RAW, 1, 0), SLC_REFUSED_SEPARATOR);

    memset(out, 0xEE, SLC_DOTTED_ROOM);
    same("dotted with less memory", dotted(tag, SLC_DOTTED_ROOM - 1).refused, SLC_REFUSED_OUTPUT_ROOM);
    for (i = 0; i < SLC_DOTTED_ROOM && out[i] == 0xEE; i++) {
    }
    same("its memory stays", i, SLC_DOTTED_ROOM);
    written = dotted(tag, SLC_DOTTED_ROOM);
    same("dotted", !written.refused && written.length == strlen(plain) && !memcmp(out, plain, written.length), 1);
    for (i = written.length; i < SLC_DOTTED_ROOM && out[i] == 0xEE; i++) {
    }
    same("what is behind it stays", i, SLC_DOTTED_ROOM);
}

/* The tag has one answer in both readings, and a dotted text. */
static void alike(const char *tag, const char *text)
{
    slc_address a = slc_parse_tag(bytes(tag), strlen(tag), SLC_READING_STORED), b = slc_parse_tag(bytes(tag), strlen(tag), SLC_READING_NEW);
    slc_written written = dotted(tag, SLC_DOTTED_ROOM);
    same(tag, a.refused || b.refused, 0);
    same(tag, a.element_number == b.element_number && a.element_count == b.element_count && a.sub_element == b.sub_element && a.kept == b.kept, 1);
    same("dotted", !written.refused && written.length == strlen(text) && !memcmp(out, text, written.length), 1);
}

static void refused_alike(const char *tag, uint8_t number)
{
    same(tag, parsed_as(SLC_READING_STORED, tag), number);
    same(tag, parsed_as(SLC_READING_NEW, tag), number);
    same("dotted", dotted(tag, SLC_DOTTED_ROOM).refused, number);
    same("dotted to no memory", dotted(tag, 0).refused, number);
}

static void readings(void)
{
    unsigned n;
    /* a digit, a letter, signs, and characters of two to four bytes */
    retired("T4:123PRE", "T4:12.PRE"), retired("t4:12PRE", "t4:1.PRE"), retired("C5:255XDN", "C5:255.DN"), retired("T4:1:ACC", "T4:1.ACC");
    retired("c005:007{ov", "c005:007.ov"), retired("T4:1\xC3\xA9PRE", "T4:1.PRE"), retired("T4:1\xE2\x82\xAC" "ACC", "T4:1.ACC");
    retired("C5:1\xF0\x9F\x98\x80UN", "C5:1.UN");
    alike("T4:12.PRE", "T4:12.PRE"), alike("T4:12/PRE", "T4:12.PRE"), alike("c5:0/dn", "c5:0.dn"), alike("N7:0{02}", "N7:0{02}");
    alike("N7:0/3", "N7:0/3"), alike("B3/4095", "B3/4095"), alike("\xC4\xB1:3.300/5", "\xC4\xB1:3.300/5"), alike("ST9:0{2}", "ST9:0{2}");
    refused_alike("", SLC_REFUSED_TAG), refused_alike("T4:1", SLC_REFUSED_TAG), refused_alike("T4:1PRE", SLC_REFUSED_TAG);
    refused_alike("T4:1..PRE", SLC_REFUSED_TAG), refused_alike("T4:1\nPRE", SLC_REFUSED_TAG), refused_alike("T4:1\xE9PRE", SLC_REFUSED_TAG_BYTES);
    /* every number but 1 is a new entry */
    for (n = 0; n < 256; n++) {
        uint8_t answer = n == SLC_READING_STORED ? 0 : SLC_REFUSED_SEPARATOR;
        same("the reading of a number", parsed_as((uint8_t)n, "T4:123PRE"), answer);
        same("that of a read", read_request_as((uint8_t)n, "T4:123PRE", SLC_REQUEST_ROOM), answer);
        same("that of a write", write_request_as((uint8_t)n, "T4:123PRE", SLC_RAW, 4, SLC_WRITE_ROOM), answer);
        same("a tag that is both", parsed_as((uint8_t)n, "T4:12.PRE"), 0);
    }
    /* so no answer tells SLC_READING_NEW from another such number */
    same("SLC_READING_NEW", SLC_READING_NEW, 0);
}

/* ---- tags of UTF-8 */

/* the tag has this address, else that of the plain one, and reads what that does */
static void spells(const char *tag, const char *plain, uint8_t code, uint16_t file, uint16_t element, uint16_t sub_element, size_t kept)
{
    uint8_t expected[SLC_REQUEST_ROOM];
    slc_address a = slc_parse_tag(bytes(tag), strlen(tag), SLC_READING_STORED), b = slc_parse_tag(bytes(plain), strlen(plain), SLC_READING_NEW);
    slc_request one = slc_read_request(bytes(tag), strlen(tag), SLC_READING_STORED, slc_default_requestor(), 5, out, SLC_REQUEST_ROOM);
    slc_request two = slc_read_request(bytes(plain), strlen(plain), SLC_READING_NEW, slc_default_requestor(), 5, expected, sizeof expected);
    same(tag, a.refused, 0);
    same(tag, a.code == code && a.file_number == file && a.element_number == element && a.sub_element == sub_element, 1);
    same("how many bytes are kept", a.kept, kept);
    same(plain, a.has_position == b.has_position && a.position == b.position && a.has_sub_element == b.has_sub_element && a.bit == b.bit
         && a.element_count == b.element_count, 1);
    same("the message", !two.address.refused && one.length == two.length && !memcmp(out, expected, two.length), 1);
}

static void letters_and_separators(void)
{
    /* the first and the last character of two, three and four bytes, and the neighbours of the surrogates */
    static const char *const separators[] = {"\xC2\x80", "\xDF\xBF", "\xE0\xA0\x80", "\xED\x9F\xBF", "\xEE\x80\x80", "\xEF\xBF\xBF",
                                             "\xF0\x90\x80\x80", "\xF4\x8F\xBF\xBF"};
    char tag[16];
    size_t i;
    spells("\xC4\xB1:0", "I:0", SLC_TYPE_I, 1, 0, 0, 4);
    spells("\xC4\xB1" "7:0", "I7:0", SLC_TYPE_I, 1, 0, 0, 5);
    spells("\xC5\xBF:4", "S:4", SLC_TYPE_S, 2, 4, 0, 4);
    spells("\xC5\xBFt9:0", "ST9:0", SLC_TYPE_ST, 9, 0, 0, 6);
    spells("T4:1\xC3\xA9PRE", "T4:1.PRE", SLC_TYPE_T, 4, 1, 1, 9);
    for (i = 0; i < sizeof separators / sizeof *separators; i++) {
        sprintf(tag, "T4:1%sPRE", separators[i]);
        spells(tag, "T4:1.PRE", SLC_TYPE_T, 4, 1, 1, 7 + strlen(separators[i]));
        sprintf(tag, "T4:1%s%sPRE", separators[i], separators[i]);
        same("two characters", parsed(tag), SLC_REFUSED_TAG);
    }
    same("a newline", parsed("T4:1\nPRE"), SLC_REFUSED_TAG);
    same("a dotless i as a digit", parsed("N7:\xC4\xB1"), SLC_REFUSED_TAG);
    same("a capital I with a dot", parsed("\xC4\xB0:0"), SLC_REFUSED_TAG);
    same("a byte order mark", parsed("\xEF\xBB\xBFN7:0"), SLC_REFUSED_TAG);
}

static void ill_formed_tags(void)
{
    /* no beginning of a character; one that is cut; more bytes than the character needs; surrogates; above U+10FFFF */
    static const char *const parts[] = {"\x80", "\xFF", "\xC4", "\xE2\x82", "\xF0\x9F\x98", "\xC0\xAF", "\xE0\x9F\xBF", "\xF0\x8F\xBF\xBF",
                                        "\xED\xA0\x80", "\xED\xBF\xBF", "\xF4\x90\x80\x80", "\xF5\x80\x80\x80"};
    char tag[16];
    size_t i;
    for (i = 0; i < sizeof parts / sizeof *parts; i++) {
        same("alone", parsed(parts[i]), SLC_REFUSED_TAG_BYTES);
        sprintf(tag, "N7:0%s", parts[i]);
        same("at the end", parsed(tag), SLC_REFUSED_TAG_BYTES);
        sprintf(tag, "T4:1%sPRE", parts[i]);
        same("as a separator", parsed(tag), SLC_REFUSED_TAG_BYTES);
        same("a read of it", read_request(tag, SLC_REQUEST_ROOM), SLC_REFUSED_TAG_BYTES);
        same("a write to it", write_request(tag, SLC_RAW, 4, SLC_WRITE_ROOM), SLC_REFUSED_TAG_BYTES);
    }
}

/* what counts is bytes */
static void lengths(void)
{
    char tag[257];
    slc_fed fed;
    /* 255 of them are 254 characters, 256 are 255 */
    memset(tag, '0', sizeof tag);
    memcpy(tag, "\xC4\xB1:0{", 5);
    memcpy(tag + 253, "1}", 3);
    spells(tag, "I:0", SLC_TYPE_I, 1, 0, 0, 4);
    memcpy(tag + 253, "01}", 4);
    same("256 bytes", parsed(tag), SLC_REFUSED_TAG_BYTES);
    /* 255 that end with a character, and inside one */
    memcpy(tag + 253, "\xC3\xA9", 3);
    same("255 bytes", parsed(tag), SLC_REFUSED_TAG);
    memcpy(tag + 253, "0\xC3", 3);
    same("a cut character", parsed(tag), SLC_REFUSED_TAG_BYTES);

    /* a line that is cut inside a character */
    fed = slc_tags_feed(slc_line_empty(), bytes("\xC4"), 1, out, SLC_TAG_ROOM);
    fed = slc_tags_feed(fed.line, bytes("\xB1:0\n"), 4, out, 4 * SLC_TAG_ROOM);
    same("its answer", fed.used == 47 && !memcmp(out, "4B0220672401070910091019710F000000A20201830000\n", 47), 1);
}

/* the lines of `tags` are new entries, also the last one */
static void new_lines(void)
{
    const char *const odd = "T4:123PRE\n", *const plain = "T4:12/PRE\n";
    slc_fed fed = slc_tags_feed(slc_line_empty(), bytes(odd), 10, out, 10 * SLC_TAG_ROOM);
    same("an odd separator", fed.used == 11 && !memcmp(out, "refused 39\n", 11), 1);
    fed = slc_tags_feed(slc_line_empty(), bytes(plain), 10, out, 10 * SLC_TAG_ROOM);
    same("a slash", fed.used == 47 && !memcmp(out, "4B0220672401070910091019710F000000A20604860C00\n", 47), 1);
    fed = slc_tags_feed(slc_line_empty(), bytes(odd), 9, out, 9 * SLC_TAG_ROOM);
    same("an odd separator in the last line", slc_tags_finish(fed.line, out, SLC_TAG_ROOM) == 11 && !memcmp(out, "refused 39\n", 11), 1);
}

static void type(uint8_t code, const char *name)
{
    slc_file_type t = slc_type_of_code(code);
    same(name, t.known && t.name_len == strlen(name) && !memcmp(t.name, name, t.name_len), 1);
}

static void types(void)
{
    type(SLC_TYPE_O, "O"), type(SLC_TYPE_I, "I"), type(SLC_TYPE_S, "S"), type(SLC_TYPE_B, "B"), type(SLC_TYPE_T, "T");
    type(SLC_TYPE_C, "C"), type(SLC_TYPE_R, "R"), type(SLC_TYPE_N, "N"), type(SLC_TYPE_F, "F"), type(SLC_TYPE_ST, "ST");
    type(SLC_TYPE_A, "A"), type(SLC_TYPE_L, "L"), type(SLC_TYPE_MG, "MG"), type(SLC_TYPE_PD, "PD"), type(SLC_TYPE_PLS, "PLS");
}

/* ---- the device */

static slc_device device, other;
static uint8_t reply[SLC_REPLY_ROOM];

static const uint32_t two_files[][3] = {{7, SLC_TYPE_N, 10}, {14, SLC_TYPE_ST, 2}};
/* two entries: `one`, and `two` with a length of 3 */
static const uint8_t entries[] = {3, 0, 'o', 'n', 'e', 3, 0, 't', 'w', 'o'};

/* the length of the reply to a message's command, or 1000 and the number where it is refused */
static size_t ask(const uint8_t *message, size_t length)
{
    slc_written answer = slc_device_pccc(&device, message + SLC_COMMAND_AT, length - SLC_COMMAND_AT, reply, sizeof reply);
    return answer.refused ? 1000u + answer.refused : answer.length;
}

static void write_and_read_back(void)
{
    const uint8_t masked[] = {0xFF, 0xFF, 0x17, 0x00};
    uint8_t message[SLC_WRITE_ROOM], text[SLC_TEXT_ROOM];
    slc_element element;
    slc_request request = slc_write_request(bytes("N7:3"), 4, SLC_READING_NEW, SLC_RAW, masked, sizeof masked, slc_default_requestor(), 1, message, sizeof message);
    same("a write", ask(message, request.length), SLC_DATA_AT);
    request = slc_read_request(bytes("N7:3"), 4, SLC_READING_NEW, slc_default_requestor(), 2, message, sizeof message);
    same("a read", ask(message, request.length), SLC_DATA_AT + 2);
    same("the word at SLC_DATA_AT", reply[SLC_DATA_AT] + 256u * reply[SLC_DATA_AT + 1], 0x17);
    element = slc_device_read(&device, 7, SLC_TYPE_N, 3, NULL, 0);
    same("the element", !element.refused && element.kind == SLC_WHOLE && element.whole == 0x17, 1);
    same("setting a text", slc_device_set(&device, 14, SLC_TYPE_ST, 1, value(SLC_TEXT, 0), bytes("share"), 5), 0);
    element = slc_device_read(&device, 14, SLC_TYPE_ST, 1, text, sizeof text);
    same("the text", !element.refused && element.kind == SLC_TEXT && element.length == 5 && !memcmp(text, "share", 5), 1);
    same("less for slc_read", slc_device_read(&device, 14, SLC_TYPE_ST, 1, text, sizeof text - 1).refused, SLC_REFUSED_TEXT_ROOM);
    same("setting an element that isn't there", slc_device_set(&device, 7, SLC_TYPE_N, 10, value(SLC_WHOLE, 0), NULL, 0), SLC_REFUSED_NO_ELEMENT);
}

/* each entry once, the oldest first, and then none: so the processor is kept from call to call */
static void take_entries(void)
{
    uint8_t message[SLC_REQUEST_ROOM];
    size_t length = slc_datalog_request(0, message, sizeof message).length;
    slc_part part;
    slc_written status;
    same("the first entry", ask(message, length), SLC_DATA_AT + 3);
    same("it is `one`", !memcmp(reply + SLC_DATA_AT, "one", 3), 1);
    part = slc_reply_datalog(reply, SLC_DATA_AT + 3);
    same("slc_reply_datalog finds it", part.from == SLC_DATA_AT && part.length == 3, 1);
    same("slc_reply_status has no words for success", slc_reply_status(reply, SLC_DATA_AT + 3, out, SLC_STATUS_ROOM).length, 0);
    other = device;
    same("the second entry", ask(message, length), SLC_DATA_AT + 3);
    same("it is `two`", !memcmp(reply + SLC_DATA_AT, "two", 3), 1);
    same("no third entry", ask(message, length), SLC_DATA_AT);
    same("the reply's status says so", reply[SLC_DATA_AT - 3], 0x10);
    status = slc_reply_status(reply, SLC_DATA_AT, out, SLC_STATUS_ROOM);
    same("slc_reply_status says it in words", status.length > 15 && !memcmp(out, "Illegal Command", 15), 1);
    device = other;
    same("a copy has the second entry still", ask(message, length), SLC_DATA_AT + 3);
    /* with its encapsulation in front */
    memset(out, 0, 50);
    memcpy(out + 50, reply, SLC_DATA_AT + 3);
    part = slc_parse_datalog(out, 50 + SLC_DATA_AT + 3);
    same("slc_parse_datalog finds it", part.length == 3 && !memcmp(out + part.from, "two", 3), 1);
}

/* the directory's size, which the processor of two files with rows of ten bytes has, from a reply as it is and with its encapsulation in front */
static void directory_size(void)
{
    uint8_t message[SLC_REQUEST_ROOM];
    slc_sys0 info = slc_sys0_info(bytes("1747-L552"), 9);
    size_t length = ask(message, slc_file_directory_size_request(info, slc_default_requestor(), 3, message, sizeof message).length);
    slc_directory_size bare = slc_reply_directory_size(reply, length, info), whole;
    memset(out, 0, 50);
    memcpy(out + 50, reply, length);
    whole = slc_parse_file_directory_size(out, 50 + length, info);
    same("the directory's size", !bare.refused && bare.bytes > 0, 1);
    same("the same with the encapsulation", whole.refused == bare.refused && whole.bytes == bare.bytes, 1);
    same("a reply without it", slc_reply_directory_size(reply, SLC_DATA_AT, info).refused, SLC_REFUSED_REPLY_LENGTH);
}

static void refused_commands(void)
{
    same("no command", slc_device_pccc(&device, NULL, 0, reply, sizeof reply).refused, SLC_REFUSED_COMMAND);
    same("SLC_REPLY_ROOM", slc_device_pccc(&device, bytes("\1\0\0\0\0"), 5, reply, SLC_REPLY_ROOM).refused, 0);
    same("less for slc_pccc", slc_device_pccc(&device, bytes("\1\0\0\0\0"), 5, reply, SLC_REPLY_ROOM - 1).refused, SLC_REFUSED_REPLY_ROOM);
    same("no reply memory", slc_device_pccc(&device, bytes("\1\0\0\0\0"), 5, NULL, 0).refused, SLC_REFUSED_REPLY_ROOM);
}

static void no_processor(const char *what)
{
    same(what, slc_device_pccc(&device, bytes("\1\0\0\0\0"), 5, reply, sizeof reply).refused, SLC_REFUSED_UNSOUND);
    same("a read of it", slc_device_read(&device, 7, SLC_TYPE_N, 0, NULL, 0).refused, SLC_REFUSED_UNSOUND);
    same("a set of it", slc_device_set(&device, 7, SLC_TYPE_N, 0, value(SLC_WHOLE, 1), NULL, 0), SLC_REFUSED_UNSOUND);
}

static void devices(void)
{
    no_processor("a device of zeros");
    same("building", slc_device_new(&device, two_files, 2, "1747-L552", entries, sizeof entries, 2), 0);
    write_and_read_back();
    take_entries();
    directory_size();
    refused_commands();
    same("a log of an entry too many", slc_device_new(&device, two_files, 2, "1747-L552", entries, sizeof entries, 3), SLC_REFUSED_DATALOG);
    no_processor("a device that was refused");
    same("a log that is longer than it needs", slc_device_new(&device, NULL, 0, "", zeros, sizeof zeros, 1), 0);
    same("the default files", slc_device_read(&device, 7, SLC_TYPE_N, 0, NULL, 0).refused, 0);
}

int main(void)
{
    rooms();
    most();
    refusals();
    readings();
    letters_and_separators();
    ill_formed_tags();
    lengths();
    new_lines();
    questions();
    types();
    devices();
    printf("test_slc_link: %d of %d points are wrong\n", faults, points);
    return faults ? 1 : 0;
}
