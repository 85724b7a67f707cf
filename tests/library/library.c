/* The library for C, call by call: worked rows, what is refused, and what stays where nothing is written. Each line that fails is
 * printed; the last line is 'N passed, M failed'. With a number as its argument the allocation of that number fails. */
#include <stdio.h>
#include <stdlib.h>
#include <string.h>
#include "uecp.h"

static unsigned passed, failed;
#define CHECK(said) do { if (said) passed++; else { failed++; printf("line %d: %s\n", __LINE__, #said); } } while (0)
#define UNUSED 0xA5

static const uint8_t frame[] = {0xFE, 0x00, 0x41, 0x01, 0x05, 0x01, 0x00, 0x00, 0xC2, 0x01, 0x67, 0xA8, 0xFF};
static const uint8_t message[] = {0x01, 0x00, 0x00, 0xC2, 0x01};
static const uint8_t none[1];

/* Whether all of these bytes are as they were filled. */
static bool is_unused(const void *bytes, size_t length)
{
    for (size_t i = 0; i < length; i++)
        if (((const uint8_t *)bytes)[i] != UNUSED)
            return false;
    return true;
}

static bool is_text(const uint8_t *bytes, size_t length, const char *text)
{
    return length == strlen(text) && !memcmp(bytes, text, length);
}

static void checks_and_frames(void)
{
    uint8_t out[600], longest[255];
    CHECK(uecp_check((const uint8_t *)"123456789", 9) == 0xD64E); /* the published value */
    CHECK(uecp_check(none, 0) == 0x0000);
    memset(out, UNUSED, sizeof out);
    CHECK(uecp_encode(1, 1, 1, message, 5, out, sizeof out) == 13);
    CHECK(!memcmp(out, frame, 13) && is_unused(out + 13, sizeof out - 13));
    memset(out, UNUSED, sizeof out);
    CHECK(uecp_encode(1, 1, 1, message, 5, out, 13) == 13 && !memcmp(out, frame, 13));
    memset(out, UNUSED, sizeof out);
    CHECK(uecp_encode(1, 1, 1, message, 5, out, 12) == 13 && is_unused(out, sizeof out));
    CHECK(uecp_encode(1, 1, 1, message, 5, out, 0) == 13 && is_unused(out, sizeof out));
    CHECK(uecp_encode(1024, 1, 1, message, 5, out, sizeof out) == 0 && is_unused(out, sizeof out));
    CHECK(uecp_encode(1, 64, 1, message, 5, out, sizeof out) == 0 && is_unused(out, sizeof out));
    memset(longest, 0xFF, sizeof longest);
    CHECK(uecp_encode(1023, 63, 255, out, 256, longest, 0) == 0);
    CHECK(uecp_encode(0, 0, 0, none, 0, out, 0) >= 8);
    /* the longest: FE, FF FF FF FF and 255 more FF that are two each, a check, FF */
    size_t length = uecp_encode(1023, 63, 255, longest, 255, out, sizeof out);
    CHECK(length >= 520 && length <= UECP_FRAME_MAX && out[0] == 0xFE && out[1] == 0xFD && out[2] == 0x02);
}

static void findings(void)
{
    static const uint8_t bad[] = {0x00, 0xFE, 0x00, 0xFD, 0x07, 0xFF};
    static const uint8_t two[] = {0xFE, 0x01, 0xFE, 0x02};
    uecp_finding finding, as_it_was;
    memset(&finding, UNUSED, sizeof finding);
    CHECK(uecp_find(frame, 13, &finding) == 13 && finding.kind == UECP_FRAME);
    CHECK(finding.site == 1 && finding.encoder == 1 && finding.counter == 1 && finding.length == 5);
    CHECK(!memcmp(finding.message, message, 5) && is_unused(finding.message + 5, 250));
    CHECK(finding.fault == UNUSED && is_unused(&finding.place, sizeof finding.place));
    /* cut off: the segment is left, whatever stands before it is done with */
    memset(&finding, UNUSED, sizeof finding);
    as_it_was = finding;
    as_it_was.kind = UECP_NOTHING;
    CHECK(uecp_find(frame, 12, &finding) == 0 && !memcmp(&finding, &as_it_was, sizeof finding));
    CHECK(uecp_find(frame + 1, 12, &finding) == 12 && finding.kind == UECP_NOTHING);
    CHECK(uecp_find(none, 0, &finding) == 0 && finding.kind == UECP_NOTHING);
    CHECK(uecp_find(bad, 5, &finding) == 1 && finding.kind == UECP_NOTHING);
    memset(&finding, UNUSED, sizeof finding);
    CHECK(uecp_find(bad, 6, &finding) == 6 && finding.kind == UECP_DROPPED);
    CHECK(finding.fault == UECP_BAD_STUFFING && finding.place == 2 && finding.counter == UNUSED && finding.length == UNUSED);
    CHECK(is_unused(finding.message, sizeof finding.message));
    /* a new FE ends a segment, and is left */
    CHECK(uecp_find(two, 4, &finding) == 2 && finding.kind == UECP_DROPPED && finding.fault == UECP_UNENDED && finding.place == 0);
    CHECK(uecp_find(two + 2, 2, &finding) == 0 && finding.kind == UECP_NOTHING);
}

static void elements(void)
{
    static const uint8_t text[] = {0x0A, 0x02, 0x03, 0x03, 0x41, 0x48, 0x49, 0x1C};
    static const uint8_t unknown[] = {0x99, 0x00};
    uint8_t out[80];
    uecp_element element, as_it_was;
    size_t used = 77;
    memset(&element, UNUSED, sizeof element);
    CHECK(uecp_read_element(text, 8, &element, &used) == UECP_APPLIED && used == 7);
    CHECK(element.code == UECP_RADIO_TEXT && element.dsn == 2 && element.psn == 3 && element.has_text == 1);
    CHECK(element.head == 0x41 && element.length == 2 && !memcmp(element.text, "HI", 2) && is_unused(element.text + 2, 62));
    CHECK(element.raw == UNUSED && element.counter == UNUSED && is_unused(element.name, 8));
    memset(out, UNUSED, sizeof out);
    CHECK(uecp_write_element(&element, out, sizeof out) == 7 && !memcmp(out, text, 7) && is_unused(out + 7, sizeof out - 7));
    memset(out, UNUSED, sizeof out);
    CHECK(uecp_write_element(&element, out, 6) == 7 && is_unused(out, sizeof out));
    as_it_was = element;
    CHECK(uecp_read_element(text, 6, &element, &used) == UECP_ELEMENT_LENGTH && used == 0);
    CHECK(uecp_read_element(unknown, 2, &element, &used) == UECP_UNKNOWN_ELEMENT && used == 0);
    CHECK(uecp_read_element(text, 0, &element, &used) == UECP_UNKNOWN_ELEMENT && used == 0);
    CHECK(!memcmp(&element, &as_it_was, sizeof element));
    element.length = 65;
    CHECK(uecp_write_element(&element, out, sizeof out) == 0);
    element.has_text = 0;
    CHECK(uecp_write_element(&element, out, sizeof out) == 4 && !memcmp(out, "\x0A\x02\x03\x00", 4));
    element.code = 0x04;
    CHECK(uecp_write_element(&element, out, sizeof out) == 0);
    /* each other element, there and back */
    static const struct { uint8_t length, bytes[11]; } rows[] = {
        {5, {0x01, 1, 2, 0xC2, 0x01}}, {11, {0x02, 1, 2, 'R', 'A', 'D', 'I', 'O', ' ', '1', ' '}}, {4, {0x03, 1, 2, 3}},
        {4, {0x05, 1, 2, 1}}, {4, {0x07, 1, 2, 10}}, {4, {0x0A, 1, 2, 0}}, {3, {0x18, 0x0B, 9}}, {2, {0x1C, 2}},
        {7, {0x24, 0x10, 0x40, 0x12, 0x34, 0x56, 0x78}},
    };
    for (size_t i = 0; i < sizeof rows / sizeof *rows; i++) {
        uecp_element read = {0};
        CHECK(uecp_read_element(rows[i].bytes, rows[i].length, &read, &used) == UECP_APPLIED && used == rows[i].length);
        CHECK(uecp_write_element(&read, out, sizeof out) == used && !memcmp(out, rows[i].bytes, used));
    }
}

static void names_and_characters(void)
{
    static const char *const faults[] = {"Unended", "BadStuffing", "TooLong", "TooShort", "WrongLength", "WrongCheck"};
    static const struct { uint8_t code; const char *name; } codes[] = {
        {UECP_APPLIED, "Applied"}, {UECP_UNKNOWN_ELEMENT, "UnknownElement"}, {UECP_NO_DATA_SET, "DataSet"},
        {UECP_NO_SERVICE, "Service"}, {UECP_OUT_OF_RANGE, "OutOfRange"}, {UECP_ELEMENT_LENGTH, "ElementLength"},
        {UECP_NOT_HERE, "NotHere"}, {UECP_BUFFER_FULL, "BufferFull"},
    };
    uint8_t out[UECP_NAME_MAX];
    for (uint8_t i = 0; i < 6; i++)
        CHECK(is_text(out, uecp_fault_name(i + 1, out, sizeof out), faults[i]));
    CHECK(UECP_UNENDED == 1 && UECP_WRONG_CHECK == 6);
    for (size_t i = 0; i < sizeof codes / sizeof *codes; i++)
        CHECK(is_text(out, uecp_code_name(codes[i].code, out, sizeof out), codes[i].name));
    memset(out, UNUSED, sizeof out);
    CHECK(uecp_fault_name(0, out, sizeof out) == 0 && uecp_fault_name(7, out, sizeof out) == 0);
    CHECK(uecp_code_name(0x08, out, sizeof out) == 0 && uecp_code_name(0x0B, out, 9) == 10);
    CHECK(is_unused(out, sizeof out));
    CHECK(uecp_character_of(0x82) == 0xE9 && uecp_character_of(0x24) == 0xA4 && uecp_character_of(0xFE) == 0x167);
    CHECK(uecp_character_of(0x1F) == 0 && uecp_character_of(0x7F) == 0 && uecp_character_of(0xFF) == 0);
    CHECK(uecp_byte_of(0xE9) == 0x82 && uecp_byte_of('A') == 'A' && uecp_byte_of('$') == 0xAB);
    CHECK(uecp_byte_of(0xD800) == 0 && uecp_byte_of(0xFFFFFFFF) == 0 && uecp_byte_of(0x4E00) == 0 && uecp_byte_of(0) == 0);
    unsigned here = 0;
    for (unsigned byte = 0; byte < 256; byte++)
        if (uecp_character_of((uint8_t)byte) != 0)
            here += uecp_byte_of(uecp_character_of((uint8_t)byte)) == byte;
    CHECK(here == 0x7F - 0x20 + 0xFF - 0x80);
}

/* What the line comes to; `told` is filled with UNUSED before. */
static uint8_t comes(bool is_north_america, const char *line, uecp_told *told)
{
    memset(told, UNUSED, sizeof *told);
    return uecp_message_of(is_north_america, (const uint8_t *)line, strlen(line), told);
}

static void words(void)
{
    static const uint8_t said[] = {0x07, 0x00, 0x00, 0x0A, 0x1C, 0x02, 0x99};
    uint8_t out[100];
    uecp_told told;
    size_t length = uecp_words(false, said, 7, out, sizeof out);
    CHECK(is_text(out, length, "pty \"Pop Music\"; set 2; raw 99"));
    CHECK(is_text(out, uecp_words(true, said, 4, out, sizeof out), "pty \"Country\""));
    memset(out, UNUSED, sizeof out);
    CHECK(uecp_words(false, said, 7, out, length - 1) == length && is_unused(out, sizeof out));
    CHECK(uecp_words(false, none, 0, out, 0) == 0);
    CHECK(comes(false, "pty \"pop music\"; set 2; raw 99", &told) == UECP_SAID);
    CHECK(told.length == 7 && !memcmp(told.message, said, 7) && is_unused(told.message + 7, 248) && told.reason == UNUSED);
    CHECK(comes(false, "", &told) == UECP_SAID && told.length == 0);
    CHECK(comes(false, "music; \xFF", &told) == UECP_NO_TEXT && told.column == 8 && told.length == UNUSED);
    CHECK(comes(false, "ps \"RADIO\xC3\xA9\\q\"", &told) == UECP_UNREAD && told.column == 11 && told.reason == UECP_NO_ESCAPE);
    CHECK(comes(false, "ps \"A", &told) == UECP_UNREAD && told.column == 4 && told.reason == UECP_UNCLOSED);
    CHECK(comes(false, "ps \"\xE4\xB8\x80\"", &told) == UECP_UNREAD && told.column == 5 && told.reason == UECP_NOT_IN_SET);
    CHECK(comes(false, "12345678901234567", &told) == UECP_UNREAD && told.column == 1 && told.reason == UECP_NO_WORD);
    CHECK(comes(false, "traffic anouncement", &told) == UECP_UNSAID && told.column == 9);
    CHECK(is_text(told.expected, told.expected_length, "none, eon, programme, announcement or bits"));
    CHECK(is_text(told.nearest, told.nearest_length, "announcement") && told.length == UNUSED && is_unused(told.message, 255));
    CHECK(comes(false, "pi 12; music", &told) == UECP_UNSAID && told.column == 4 && told.nearest_length == 0);
}

/* With one allocation refused a call says so and writes nothing, or does what it does with all of them. */
static void want_of_memory(void)
{
    static const uint8_t said[] = {0x07, 0x00, 0x00, 0x0A};
    uint8_t out[100];
    uecp_told told;
    memset(out, UNUSED, sizeof out);
    size_t length = uecp_words(false, said, 4, out, sizeof out);
    CHECK(length == UECP_NO_MEMORY ? is_unused(out, sizeof out) : is_text(out, length, "pty \"Pop Music\""));
    uint8_t kind = comes(false, "traffic anouncement", &told);
    CHECK(kind == UECP_OUT_OF_MEMORY ? is_unused(&told, sizeof told) : kind == UECP_UNSAID && told.column == 9);
    kind = comes(false, "music", &told);
    CHECK(kind == UECP_OUT_OF_MEMORY ? is_unused(&told, sizeof told) : kind == UECP_SAID && told.length == 4);
}

/* A whole frame that applies `message`, under this counter, to the encoder 1 of site 1. */
static size_t frame_of(const void *said, size_t length, uint8_t counter, uint8_t *out)
{
    return uecp_encode(1, 1, counter, (const uint8_t *)said, length, out, UECP_FRAME_MAX);
}

/* Feeds a whole piece to an encoder, and tells the last answer. */
static uint8_t answered(uecp_handle *encoder, const uint8_t *piece, size_t length, uecp_answer *answer)
{
    uint8_t status = UECP_DONE;
    for (size_t place = 0, used = 0; place < length && status == UECP_DONE; place += used)
        status = uecp_encoder_feed(encoder, piece + place, length - place, &used, answer);
    return status;
}

/* A handle with an object of one kind, or with none. */
static void handles(void)
{
    static const uint8_t service[] = {0x01};
    uecp_handle none_here = UECP_NO_OBJECT, deframer = UECP_NO_OBJECT, encoder = UECP_NO_OBJECT, server = UECP_NO_OBJECT;
    uecp_handle *const every[] = {&none_here, &deframer, &encoder, &server};
    uint8_t out[8];
    CHECK(uecp_deframer_new(&deframer) == UECP_DONE && uecp_encoder_new(&encoder, 1, 1, 1, service, 1) == UECP_DONE);
    CHECK(uecp_server_new(&server, 1, 1) == UECP_DONE && deframer.there && encoder.there && server.there && !none_here.there);
    for (size_t i = 0; i < 4; i++) {
        uecp_handle *handle = every[i], as_it_was = *handle;
        uint8_t other = i == 0 ? UECP_EMPTY : UECP_OTHER_KIND, number = UNUSED;
        size_t used = 77;
        struct { uecp_finding finding; uecp_answer answer; uecp_heard heard; uecp_store store; uecp_service service; uecp_text text;
                 uecp_group group; } told;
        memset(&told, UNUSED, sizeof told);
        memset(out, UNUSED, sizeof out);
        if (i != 0) {
            CHECK(uecp_deframer_new(handle) == UECP_OCCUPIED && uecp_server_new(handle, 1, 1) == UECP_OCCUPIED);
            CHECK(uecp_encoder_new(handle, 0, 0, 0, service, 1) == UECP_OCCUPIED);
        }
        if (i != 1)
            CHECK(uecp_deframer_feed(handle, frame, 13, &used, &told.finding) == other);
        if (i != 2) {
            CHECK(uecp_encoder_feed(handle, frame, 13, &used, &told.answer) == other);
            CHECK(uecp_encoder_store(handle, &told.store) == other && uecp_encoder_service_number(handle, 0, &number) == other);
            CHECK(uecp_encoder_service(handle, 1, 1, &told.service) == other && uecp_encoder_text(handle, 1, 1, 0, &told.text) == other);
            CHECK(uecp_encoder_group(handle, 0, &told.group) == other && uecp_encoder_take_group(handle, &told.group) == other);
        }
        if (i != 3) {
            CHECK(uecp_server_submit(handle, message, 5) == other && uecp_server_waiting(handle) == 0);
            CHECK(uecp_server_frame(handle, 0, out, sizeof out) == 0 && uecp_server_hear(handle, frame, 13, &used, &told.heard) == other);
        }
        CHECK(used == 77 && number == UNUSED && is_unused(&told, sizeof told) && is_unused(out, sizeof out));
        CHECK(uecp_line_lost(handle) == (i == 0 ? UECP_EMPTY : UECP_DONE) && !memcmp(handle, &as_it_was, sizeof as_it_was));
    }
    for (size_t i = 0; i < 4; i++) {
        uecp_free(every[i]);
        CHECK(!every[i]->there && uecp_line_lost(every[i]) == UECP_EMPTY);
        uecp_free(every[i]); /* and once more */
        CHECK(uecp_deframer_new(every[i]) == UECP_DONE);
        uecp_free(every[i]);
    }
}

static void deframers(void)
{
    static const uint8_t bad[] = {0x00, 0xFE, 0x00, 0xFD, 0x07, 0xFF};
    uecp_handle handle = UECP_NO_OBJECT;
    uecp_finding finding, as_it_was;
    size_t used = 0;
    CHECK(uecp_deframer_new(&handle) == UECP_DONE);
    memset(&finding, UNUSED, sizeof finding);
    as_it_was = finding;
    as_it_was.kind = UECP_NOTHING;
    /* byte by byte: the frame is found at its FF */
    for (size_t i = 0; i < 12; i++) {
        CHECK(uecp_deframer_feed(&handle, frame + i, 1, &used, &finding) == UECP_DONE && used == 1);
        CHECK(!memcmp(&finding, &as_it_was, sizeof finding));
    }
    CHECK(uecp_deframer_feed(&handle, none, 0, &used, &finding) == UECP_DONE && used == 0 && finding.kind == UECP_NOTHING);
    CHECK(uecp_deframer_feed(&handle, frame + 12, 1, &used, &finding) == UECP_DONE && used == 1 && finding.kind == UECP_FRAME);
    CHECK(finding.site == 1 && finding.encoder == 1 && finding.counter == 1 && finding.length == 5);
    CHECK(!memcmp(finding.message, message, 5) && is_unused(finding.message + 5, 250) && finding.fault == UNUSED);
    CHECK(uecp_deframer_feed(&handle, bad, 6, &used, &finding) == UECP_DONE && used == 6 && finding.kind == UECP_DROPPED);
    CHECK(finding.fault == UECP_BAD_STUFFING && finding.place == 2);
    /* a lost line forgets what is open */
    CHECK(uecp_deframer_feed(&handle, frame, 12, &used, &finding) == UECP_DONE && used == 12);
    CHECK(uecp_line_lost(&handle) == UECP_DONE);
    CHECK(uecp_deframer_feed(&handle, frame + 12, 1, &used, &finding) == UECP_DONE && finding.kind == UECP_NOTHING);
    uecp_free(&handle);
}

static void encoders(void)
{
    static const uint8_t services[] = {0x01, 0x05}, zero[] = {0x01, 0x00}, twice[] = {0x07, 0x07}, nine[9] = {1, 2, 3, 4, 5, 6, 7, 8, 9};
    static const uint8_t text[] = {0x0A, 0x02, 0x05, 0x03, 0x05, 'H', 'I'};
    static const uint8_t groups[] = {0x24, 0x10, 0x03, 0x12, 0x34, 0x56, 0x78, 0x24, 0x11, 0x44, 0x9A, 0xBC, 0xDE, 0xF0};
    static const uint8_t half[] = {0x05, 0x00, 0x00, 0x01, 0x99};
    uecp_handle handle = UECP_NO_OBJECT;
    uecp_answer answer, first;
    uecp_store store = {0};
    uecp_service service = {0};
    uecp_text told;
    uecp_group group = {0};
    uint8_t out[UECP_FRAME_MAX], number = 0;
    CHECK(uecp_encoder_new(&handle, 0, 1, 1, services, 2) == UECP_NO_ADDRESS && uecp_encoder_new(&handle, 1, 0, 1, services, 2) == UECP_NO_ADDRESS);
    CHECK(uecp_encoder_new(&handle, 1024, 1, 1, services, 2) == UECP_NO_ADDRESS && uecp_encoder_new(&handle, 1, 64, 0, zero, 0) == UECP_NO_ADDRESS);
    CHECK(uecp_encoder_new(&handle, 1, 1, 0, zero, 2) == UECP_SET_COUNT && uecp_encoder_new(&handle, 1, 1, 9, services, 2) == UECP_SET_COUNT);
    CHECK(uecp_encoder_new(&handle, 1, 1, 2, services, 0) == UECP_SERVICE_COUNT && uecp_encoder_new(&handle, 1, 1, 8, nine, 9) == UECP_SERVICE_COUNT);
    CHECK(uecp_encoder_new(&handle, 1, 1, 2, zero, 2) == UECP_SERVICE_ZERO && uecp_encoder_new(&handle, 1, 1, 2, twice, 2) == UECP_SERVICE_TWICE);
    CHECK(!handle.there && uecp_encoder_new(&handle, 1, 1, 2, services, 2) == UECP_DONE);
    memset(&answer, UNUSED, sizeof answer);
    size_t length = frame_of(message, 5, 1, out), used = 0;
    CHECK(answered(&handle, out, length, &answer) == UECP_DONE && answer.kind == UECP_REPLY && answer.is_fresh);
    CHECK(answer.length == 11 && answer.reply[0] == 0xFE && answer.reply[10] == 0xFF && is_unused(answer.reply + 11, 5));
    CHECK(!memcmp(answer.reply + 1, "\x00\x41\x00\x03\x18\x00\x01", 7) && answer.fault == UNUSED);
    first = answer;
    CHECK(answered(&handle, out, length, &answer) == UECP_DONE && answer.kind == UECP_REPLY && !answer.is_fresh);
    CHECK(answer.length == first.length && !memcmp(answer.reply, first.reply, sizeof first.reply));
    CHECK(answered(&handle, out, frame_of(text, 7, 3, out), &answer) == UECP_DONE && answer.kind == UECP_NOT_NEXT);
    CHECK(answered(&handle, out, frame_of(text, 7, 0, out), &answer) == UECP_DONE && answer.kind == UECP_UNNUMBERED);
    CHECK(answered(&handle, out, uecp_encode(1, 2, 2, text, 7, out, sizeof out), &answer) == UECP_DONE && answer.kind == UECP_NOT_FOR_ME);
    CHECK(answered(&handle, out, frame_of(half, 5, 2, out), &answer) == UECP_DONE && answer.kind == UECP_REPLY && answer.is_fresh);
    CHECK(answer.reply[6] == UECP_UNKNOWN_ELEMENT && answer.reply[7] == 2);
    CHECK(answered(&handle, out, frame_of(text, 7, 3, out), &answer) == UECP_DONE && answer.kind == UECP_REPLY && answer.is_fresh);
    CHECK(answered(&handle, out, frame_of(groups, 14, 4, out), &answer) == UECP_DONE && answer.kind == UECP_REPLY && answer.reply[6] == 0);
    /* two segments in one piece: the first ends at the FE of the second */
    CHECK(uecp_encoder_feed(&handle, (const uint8_t *)"\xFE\x01\xFE\x02\xFF", 5, &used, &answer) == UECP_DONE && used == 3);
    CHECK(answer.kind == UECP_NO_FRAME && answer.fault == UECP_UNENDED && answer.place == 0);
    CHECK(uecp_encoder_feed(&handle, (const uint8_t *)"\x02\xFF", 2, &used, &answer) == UECP_DONE && used == 2 && answer.fault == UECP_TOO_SHORT);
    CHECK(uecp_encoder_feed(&handle, none, 0, &used, &answer) == UECP_DONE && used == 0 && answer.kind == UECP_NOTHING);
    CHECK(uecp_encoder_store(&handle, &store) == UECP_DONE && store.sets == 2 && store.current == 1 && store.services == 2 && store.groups == 2);
    CHECK(uecp_encoder_service_number(&handle, 1, &number) == UECP_DONE && number == 5);
    CHECK(uecp_encoder_service_number(&handle, 2, &number) == UECP_NOT_THERE && number == 5);
    CHECK(uecp_encoder_service(&handle, 1, 1, &service) == UECP_DONE && service.pi == 0xC201 && !service.is_music);
    CHECK(!memcmp(service.name, "        ", 8) && service.texts == 0 && service.programme_type == 0);
    CHECK(uecp_encoder_service(&handle, 2, 5, &service) == UECP_DONE && service.pi == 0 && service.texts == 1);
    CHECK(uecp_encoder_service(&handle, 0, 1, &service) == UECP_NOT_THERE && uecp_encoder_service(&handle, 3, 1, &service) == UECP_NOT_THERE);
    CHECK(uecp_encoder_service(&handle, 1, 0, &service) == UECP_NOT_THERE && service.texts == 1);
    memset(&told, UNUSED, sizeof told);
    CHECK(uecp_encoder_text(&handle, 2, 5, 1, &told) == UECP_NOT_THERE && uecp_encoder_text(&handle, 2, 9, 0, &told) == UECP_NOT_THERE);
    CHECK(is_unused(&told, sizeof told) && uecp_encoder_text(&handle, 2, 5, 0, &told) == UECP_DONE);
    CHECK(told.toggle && told.transmissions == 2 && told.length == 2 && !memcmp(told.text, "HI", 2) && is_unused(told.text + 2, 62));
    CHECK(uecp_encoder_group(&handle, 1, &group) == UECP_DONE && group.kind == 0x11 && group.bits == 0x04 && group.block4 == 0xDEF0);
    CHECK(uecp_encoder_group(&handle, 2, &group) == UECP_NOT_THERE && uecp_encoder_take_group(&handle, &group) == UECP_DONE);
    CHECK(group.kind == 0x10 && group.bits == 0x03 && group.block3 == 0x1234 && group.block4 == 0x5678);
    CHECK(uecp_encoder_take_group(&handle, &group) == UECP_DONE && uecp_encoder_take_group(&handle, &group) == UECP_NOT_THERE);
    CHECK(group.kind == 0x11 && answered(&handle, out, frame_of(text, 7, 3, out), &answer) == UECP_DONE && !answer.is_fresh);
    uecp_free(&handle);
}

static void servers(void)
{
    static const uint8_t service[] = {0x01};
    uint8_t out[UECP_FRAME_MAX], longest[256] = {0};
    uecp_handle server = UECP_NO_OBJECT, encoder = UECP_NO_OBJECT;
    uecp_heard heard;
    uecp_answer answer = {0}, fifth = {0};
    size_t used = 0;
    CHECK(uecp_server_new(&server, 0, 1) == UECP_NO_ADDRESS && uecp_server_new(&server, 1, 64) == UECP_NO_ADDRESS && !server.there);
    CHECK(uecp_server_new(&server, 1, 1) == UECP_DONE && uecp_encoder_new(&encoder, 1, 1, 1, service, 1) == UECP_DONE);
    CHECK(uecp_server_waiting(&server) == 0 && uecp_server_frame(&server, 0, out, sizeof out) == 0);
    CHECK(uecp_server_submit(&server, longest, 256) == UECP_MESSAGE_LENGTH && uecp_server_submit(&server, message, 5) == UECP_DONE);
    for (size_t i = 1; i < 8; i++)
        CHECK(uecp_server_submit(&server, longest, i == 7 ? 0 : 255) == UECP_DONE && uecp_server_waiting(&server) == i + 1);
    CHECK(uecp_server_submit(&server, message, 5) == UECP_WINDOW_FULL && uecp_server_submit(&server, longest, 256) == UECP_MESSAGE_LENGTH);
    memset(out, UNUSED, sizeof out);
    CHECK(uecp_server_frame(&server, 0, out, 12) == 13 && is_unused(out, sizeof out));
    CHECK(uecp_server_frame(&server, 0, out, 13) == 13 && !memcmp(out, frame, 13) && is_unused(out + 13, sizeof out - 13));
    CHECK(uecp_server_frame(&server, 8, out, sizeof out) == 0);
    for (size_t i = 0; i < 8; i++) {
        CHECK(answered(&encoder, out, uecp_server_frame(&server, i, out, sizeof out), &answer) == UECP_DONE && answer.is_fresh);
        if (i == 4)
            fifth = answer;
    }
    /* the fifth is acknowledged first: it waits no more, and is held as long as older ones wait */
    memset(&heard, UNUSED, sizeof heard);
    CHECK(uecp_server_hear(&server, fifth.reply, fifth.length, &used, &heard) == UECP_DONE && used == fifth.length);
    CHECK(heard.kind == UECP_ACKNOWLEDGED && heard.counter == 5 && heard.code == UECP_UNKNOWN_ELEMENT && heard.fault == UNUSED);
    CHECK(uecp_server_waiting(&server) == 7 && uecp_server_submit(&server, message, 5) == UECP_WINDOW_FULL);
    CHECK(uecp_server_hear(&server, fifth.reply, fifth.length, &used, &heard) == UECP_DONE && heard.kind == UECP_STRAY);
    CHECK(uecp_server_hear(&server, frame, 12, &used, &heard) == UECP_DONE && used == 12 && heard.kind == UECP_NOTHING);
    CHECK(uecp_server_hear(&server, frame, 13, &used, &heard) == UECP_DONE && used == 1 && heard.kind == UECP_NOT_HEARD && heard.fault == UECP_UNENDED);
    CHECK(uecp_line_lost(&server) == UECP_DONE && uecp_server_waiting(&server) == 7);
    CHECK(uecp_server_hear(&server, frame + 1, 12, &used, &heard) == UECP_DONE && used == 12 && heard.kind == UECP_NOTHING);
    uecp_free(&server);
    uecp_free(&encoder);
}

static void images(void)
{
    static const uint8_t service[] = {0x01};
    uint8_t out[UECP_FRAME_MAX], image[600], other[600], newer[] = {0x02};
    uecp_handle encoder = UECP_NO_OBJECT, server = UECP_NO_OBJECT, again = UECP_NO_OBJECT;
    uecp_answer answer = {0}, first;
    uecp_store store = {0};
    size_t length = 77, same = 0, used = 0;
    bool joined = false;
    uint64_t taken = 7;
    memset(image, UNUSED, sizeof image);
    CHECK(uecp_encoder_image(&encoder, image, sizeof image, &length) == UECP_EMPTY && uecp_server_image(&server, true, 3, image, sizeof image, &length) == UECP_EMPTY);
    CHECK(length == 77 && is_unused(image, sizeof image));
    CHECK(uecp_encoder_new(&encoder, 1, 1, 2, service, 1) == UECP_DONE && uecp_server_new(&server, 1, 1) == UECP_DONE);
    CHECK(uecp_encoder_image(&server, image, sizeof image, &length) == UECP_OTHER_KIND && uecp_server_image(&encoder, true, 3, image, sizeof image, &length) == UECP_OTHER_KIND);
    CHECK(answered(&encoder, out, frame_of(message, 5, 1, out), &answer) == UECP_DONE && answer.is_fresh);
    first = answer;
    CHECK(uecp_encoder_feed(&encoder, frame, 12, &used, &answer) == UECP_DONE);
    CHECK(uecp_encoder_image(&encoder, image, 0, &length) == UECP_DONE && length > 20 && is_unused(image, sizeof image));
    CHECK(uecp_encoder_image(&encoder, image, length - 1, &same) == UECP_DONE && same == length && is_unused(image, sizeof image));
    CHECK(uecp_encoder_image(&encoder, image, length, &same) == UECP_DONE && image[0] == 0x01 && image[1] == 0x45 && is_unused(image + length, 600 - length));
    CHECK(uecp_encoder_of_image(&encoder, image, length) == UECP_OCCUPIED && uecp_encoder_of_image(&again, newer, 1) == UECP_NEWER_IMAGE);
    CHECK(uecp_encoder_of_image(&again, image, length - 1) == UECP_DAMAGED_IMAGE && uecp_encoder_of_image(&again, none, 0) == UECP_DAMAGED_IMAGE);
    CHECK(uecp_server_of_image(&again, image, length, &joined, &taken) == UECP_OTHER_IMAGE && !again.there && taken == 7);
    CHECK(uecp_encoder_of_image(&again, image, length) == UECP_DONE && again.there);
    /* nothing is open, and the message is known */
    CHECK(answered(&again, frame, 13, &answer) == UECP_DONE && answer.kind == UECP_REPLY && !answer.is_fresh);
    CHECK(!memcmp(answer.reply, first.reply, sizeof first.reply) && uecp_encoder_store(&again, &store) == UECP_DONE && store.sets == 2);
    CHECK(uecp_encoder_image(&again, other, sizeof other, &same) == UECP_DONE && same == length && !memcmp(image, other, length));
    uecp_free(&again);
    CHECK(uecp_server_submit(&server, message, 5) == UECP_DONE && uecp_server_image(&server, true, 3, image, sizeof image, &length) == UECP_DONE);
    CHECK(uecp_server_of_image(&server, image, length, &joined, &taken) == UECP_OCCUPIED && taken == 7 && image[1] == 0x53);
    CHECK(uecp_encoder_of_image(&again, image, length) == UECP_OTHER_IMAGE);
    CHECK(uecp_server_of_image(&again, image, length, &joined, &taken) == UECP_DONE && joined && taken == 3);
    CHECK(uecp_server_waiting(&again) == 1 && uecp_server_frame(&again, 0, out, sizeof out) == 13 && !memcmp(out, frame, 13));
    uecp_free(&again);
    uecp_free(&server);
    uecp_free(&encoder);
}

static void stores_in_words(void)
{
    static const uint8_t service[] = {0x01}, name[] = "\x02\x02\x00RADIO 1 \x07\x02\x00\x0A", radiotext[] = {0x0A, 2, 0, 3, 0x41, 'H', 'I'};
    static const char before[] = "in 1 for 01 pi 0000\nin 1 for 01 ps \"\"\nin 1 for 01 traffic none\nin 1 for 01 speech\n"
        "in 1 for 01 pty \"None\"\nin 1 for 01 rt clear\nin 2 for 01 pi 0000\nin 2 for 01 ps \"RADIO 1\"\nin 2 for 01 traffic none\n"
        "in 2 for 01 speech\nin 2 for 01 pty \"";
    static const char behind[] = "\"\nin 2 for 01 rt \"HI\"\nset 1\n";
    uint8_t out[UECP_FRAME_MAX], words[600];
    char wanted[600];
    uecp_handle encoder = UECP_NO_OBJECT;
    uecp_answer answer = {0};
    size_t length = 77, same = 0;
    memset(words, UNUSED, sizeof words);
    CHECK(uecp_encoder_words(&encoder, false, words, sizeof words, &length) == UECP_EMPTY && length == 77);
    CHECK(uecp_server_new(&encoder, 1, 1) == UECP_DONE);
    CHECK(uecp_encoder_words(&encoder, false, words, sizeof words, &length) == UECP_OTHER_KIND && length == 77);
    CHECK(is_unused(words, sizeof words));
    uecp_free(&encoder);
    CHECK(uecp_encoder_new(&encoder, 1, 1, 2, service, 1) == UECP_DONE);
    CHECK(answered(&encoder, out, frame_of(name, 15, 1, out), &answer) == UECP_DONE && answer.reply[6] == UECP_APPLIED);
    CHECK(answered(&encoder, out, frame_of(radiotext, 7, 2, out), &answer) == UECP_DONE && answer.reply[6] == UECP_APPLIED);
    snprintf(wanted, sizeof wanted, "%sPop Music%s", before, behind);
    CHECK(uecp_encoder_words(&encoder, false, words, 0, &length) == UECP_DONE && length == strlen(wanted) && is_unused(words, sizeof words));
    CHECK(uecp_encoder_words(&encoder, false, words, length - 1, &same) == UECP_DONE && same == length && is_unused(words, sizeof words));
    CHECK(uecp_encoder_words(&encoder, false, words, length, &same) == UECP_DONE && is_text(words, same, wanted));
    CHECK(is_unused(words + length, sizeof words - length));
    snprintf(wanted, sizeof wanted, "%sCountry%s", before, behind);
    CHECK(uecp_encoder_words(&encoder, true, words, sizeof words, &same) == UECP_DONE && is_text(words, same, wanted));
    /* the encoder is as it was */
    CHECK(answered(&encoder, out, frame_of(radiotext, 7, 2, out), &answer) == UECP_DONE && answer.kind == UECP_REPLY && !answer.is_fresh);
    uecp_free(&encoder);
}

static void joining(void)
{
    static const uint8_t service[] = {0x01};
    static uint8_t replies[255 * 16];
    uint8_t out[UECP_FRAME_MAX];
    uecp_handle encoder = UECP_NO_OBJECT;
    uecp_answer answer = {0};
    size_t held = 0, first = 0;
    CHECK(uecp_encoder_new(&encoder, 1, 1, 1, service, 1) == UECP_DONE);
    for (uint8_t counter = 1; counter <= 7; counter++) /* what another server left */
        CHECK(answered(&encoder, out, frame_of(message, 5, counter, out), &answer) == UECP_DONE && answer.is_fresh);
    CHECK(!uecp_is_joined(1, 1, none, 0));
    for (unsigned counter = 1; counter <= 255; counter++) {
        if (answered(&encoder, out, frame_of(none, 0, (uint8_t)counter, out), &answer) != UECP_DONE || answer.kind != UECP_REPLY)
            failed++;
        memcpy(replies + held, answer.reply, answer.length);
        held += answer.length;
        if (counter == 0x81)
            first = held;
        if (counter == 0x81 || counter == 254)
            CHECK(!uecp_is_joined(1, 1, replies, held));
    }
    CHECK(uecp_is_joined(1, 1, replies, held) && !uecp_is_joined(1, 1, replies, held - 1));
    CHECK(!uecp_is_joined(1, 1, replies + first, held - first) && !uecp_is_joined(1, 2, replies, held));
    CHECK(!uecp_is_joined(1024, 1, replies, held) && !uecp_is_joined(0, 65, replies, held));
    CHECK(answered(&encoder, out, frame_of(message, 5, 1, out), &answer) == UECP_DONE && answer.is_fresh);
    uecp_free(&encoder);
}

/* With one allocation refused nothing is made, and what was taken is given back; or it is made. */
static void want_of_objects(void)
{
    static const uint8_t services[] = {0x01, 0x05};
    uecp_handle handle = UECP_NO_OBJECT;
    for (int kind = 0; kind < 3; kind++) {
        uint8_t status = kind == 0 ? uecp_deframer_new(&handle) : kind == 1 ? uecp_server_new(&handle, 1, 1)
            : uecp_encoder_new(&handle, 1, 1, 8, services, 2);
        CHECK(status == UECP_OUT_OF_MEMORY ? !handle.there : status == UECP_DONE && handle.there);
        CHECK(uecp_line_lost(&handle) == (status == UECP_DONE ? UECP_DONE : UECP_EMPTY));
        if (kind == 2 && status == UECP_DONE) {
            /* and its words; and its image, written and read */
            uecp_handle again = UECP_NO_OBJECT;
            static uint8_t image[5000];
            size_t length = 77;
            status = uecp_encoder_words(&handle, false, image, sizeof image, &length);
            if (status == UECP_OUT_OF_MEMORY ? length != 77 || image[0] : status != UECP_DONE || memcmp(image, "in 1 for 01 pi 0000\n", 20))
                failed++;
            status = uecp_encoder_image(&handle, image, sizeof image, &length);
            if (status == UECP_DONE)
                status = uecp_encoder_of_image(&again, image, length);
            if (status == UECP_OUT_OF_MEMORY ? again.there : status != UECP_DONE || !again.there)
                failed++;
            uecp_free(&again);
        }
        uecp_free(&handle);
    }
}

/* malloc and realloc as the library calls them, where this file is linked with -Wl,--wrap: one call is refused. */
long calls_left = -1;
void *__real_malloc(size_t size);
void *__real_realloc(void *at, size_t size);
void *__wrap_malloc(size_t size);
void *__wrap_realloc(void *at, size_t size);
void *__wrap_malloc(size_t size) { return calls_left >= 0 && calls_left-- == 0 ? NULL : __real_malloc(size); }
void *__wrap_realloc(void *at, size_t size) { return calls_left >= 0 && calls_left-- == 0 ? NULL : __real_realloc(at, size); }

int main(int count, char **given)
{
    if (count > 1) {
        calls_left = atol(given[1]);
        want_of_memory();
        want_of_objects();
        printf("%s\n", calls_left >= 0 ? "not reached" : "reached");
    } else {
        checks_and_frames();
        findings();
        elements();
        names_and_characters();
        words();
        handles();
        deframers();
        encoders();
        servers();
        images();
        stores_in_words();
        joining();
    }
    printf("%u passed, %u failed\n", passed, failed);
    return failed != 0;
}
