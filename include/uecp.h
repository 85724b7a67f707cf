/* libuecp: the Universal Encoder Communication Protocol of RDS (RDS Forum SPB 490) for C and C++.
 *
 * Each function is written in Rattle and proved to do what stands at its declaration, on every input that the caller's
 * duties below allow. docs/LIBRARY.md names for each the clause that is proved.
 *
 * What holds for every function. It keeps no pointer, it prints nothing, reads no file, waits for nothing and never ends
 * the program; it ends, and writes only where it says. What is kept between two calls is behind a handle, and nowhere
 * else. No memory is taken but by uecp_words, uecp_message_of, uecp_encoder_words, images and what makes an object. Any
 * number of threads may call at once, each with buffers and handles of its own.
 *
 * The caller's duties, which nothing checks:
 *   - No pointer is NULL, also where the length beside it is 0: any address will do then.
 *   - So many bytes as the length says can be read there, or, where the pointer is not to const, read and written.
 *   - What one call is given to write to overlaps nothing else that it is given.
 *   - A struct that is handed over is initialized once before its first use, as by `uecp_finding finding = {0};`.
 *   - A bool is true or false.
 *   - A handle is all zero before its first use; then only this library changes it. It is not copied, and its object is
 *     used through that one handle: by one call at a time, on any thread. A call on another thread comes behind the one
 *     before by a lock, or as a thread is begun or joined.
 * Every length from 0 on is allowed, of bytes to read and of room to write.
 *
 * Functions that write into `out` follow one rule. They answer how many bytes they have to write, whatever room there
 * is. Where that is at most `room`, so many stand at the start of `out`, and behind them it is as it was; where it is
 * more, all of `out` is as it was. No byte 00 is written behind a text.
 */
#ifndef UECP_H
#define UECP_H

#include <stdbool.h>
#include <stddef.h>
#include <stdint.h>

#ifdef __cplusplus
extern "C" {
#endif

enum {
    UECP_MESSAGE_MAX = 255, /* the most bytes of a message */
    UECP_FRAME_MAX = 524,   /* the most bytes of a frame as it is sent */
    UECP_ELEMENT_MAX = 69,  /* the most bytes of an element */
    UECP_TEXT_MAX = 64,     /* the most bytes of a RadioText's text */
    UECP_NAME_MAX = 14      /* the most letters of a name that uecp_fault_name or uecp_code_name writes */
};

/* ---- Frames (no memory is taken) ---- */

/* The check of these bytes, as they stand before stuffing: a cyclic redundancy check of 16 bits over the polynomial 1021,
 * begun with FFFF and complemented, of no bytes 0000. A frame sends it high byte first. */
uint16_t uecp_check(const uint8_t *bytes, size_t length);

/* Writes the frame of a message as it is sent: FE, the stuffed bytes, FF, and no other bytes. Answers its length, 8 to
 * 524. 0, and nothing is written, exactly where there is no such frame: the site is above 1023, the encoder above 63, or
 * the message longer than 255 bytes. */
size_t uecp_encode(uint16_t site, uint8_t encoder, uint8_t counter, const uint8_t *message, size_t length, uint8_t *out,
                   size_t room);

enum { UECP_NOTHING = 0, UECP_FRAME = 1, UECP_DROPPED = 2 };

/* Why a segment is no frame, in the order in which faults are looked for. */
enum {
    UECP_UNENDED = 1,      /* it ends before a new FE */
    UECP_BAD_STUFFING = 2, /* an FD that 00, 01 or 02 does not follow, with at most 260 plain bytes before it */
    UECP_TOO_LONG = 3,     /* more than 261 plain bytes */
    UECP_TOO_SHORT = 4,    /* fewer than 6 */
    UECP_WRONG_LENGTH = 5, /* the length field is not the number of plain bytes less 6 */
    UECP_WRONG_CHECK = 6   /* the last two plain bytes are not the check of those before them */
};

typedef struct {
    uint8_t kind;         /* UECP_NOTHING, UECP_FRAME or UECP_DROPPED */
    uint8_t fault;        /* of a dropped segment its fault, 1 to 6 */
    uint8_t counter;      /* of a frame its sequence counter */
    uint8_t length;       /* of a frame how many bytes its message has */
    uint16_t site;        /* of a frame the site of its address, 0 to 1023 */
    uint8_t encoder;      /* of a frame the encoder of its address, 0 to 63 */
    uint8_t message[255]; /* of a frame its message, at the start */
    size_t place;         /* of UECP_BAD_STUFFING the place of the FD, from 0 at the segment's FE; of another fault 0 */
} uecp_finding;

/* Tells the first finding of a stream that begins with these bytes: the first segment, from an FE to the next FF or FE,
 * is a frame, or is dropped with its first fault. What `kind` does not name stays as it was. Answers how many bytes at
 * the front are done with, at most `length`.
 *
 * The law to build on: whatever bytes come behind these, the findings of all are the one that was told, if any, and then
 * those of what is left (from the answer on) with what comes. So a stream is decoded by calls on what is left, with
 * what came meanwhile put behind it; where nothing was found, what is left is the segment that has not ended, or
 * nothing. Done with are the bytes up to and with the one at which the finding is judged, or all where nothing is found,
 * but for a segment that these leave open: of a segment that a new FE ends, that FE is left. */
size_t uecp_find(const uint8_t *bytes, size_t length, uecp_finding *finding);

/* ---- Elements (no memory is taken) ---- */

/* The byte that an element begins with. */
enum {
    UECP_PI = 0x01,
    UECP_PS = 0x02,
    UECP_TA_TP = 0x03,
    UECP_MS = 0x05,
    UECP_PTY = 0x07,
    UECP_RADIO_TEXT = 0x0A,
    UECP_ACKNOWLEDGEMENT = 0x18,
    UECP_SELECT = 0x1C,
    UECP_GROUP = 0x24
};

/* Reply codes, by the byte that stands for each. */
enum {
    UECP_APPLIED = 0x00,
    UECP_UNKNOWN_ELEMENT = 0x03,
    UECP_NO_DATA_SET = 0x04,
    UECP_NO_SERVICE = 0x05,
    UECP_OUT_OF_RANGE = 0x06,
    UECP_ELEMENT_LENGTH = 0x07,
    UECP_NOT_HERE = 0x09,
    UECP_BUFFER_FULL = 0x0B
};

/* An element. `code` says which; the fields that belong to it stand behind the codes here. */
typedef struct {
    uint8_t code;     /* the byte that it begins with */
    uint8_t dsn;      /* 01 02 03 05 07 0A 1C: the data set number; 00 current, FE all others, FF all */
    uint8_t psn;      /* 01 02 03 05 07 0A: the programme service number; 00 the main service */
    uint8_t raw;      /* 03: TA in bit 0, TP in bit 1; 05: music in bit 0; 07: the programme type */
    uint16_t pi;      /* 01: the programme identification */
    uint8_t name[8];  /* 02: the programme service name */
    uint8_t has_text; /* 0A: 0 where the buffer is to be emptied, and no text is there; else (1 as it is read) a text */
    uint8_t head;     /* 0A with a text: toggle in bit 0, transmissions in bits 4 to 1, buffer rule in bits 6 and 5 */
    uint8_t length;   /* 0A with a text: how many bytes it has, 0 to 64 */
    uint8_t text[64]; /* 0A with a text: the text, at the start */
    uint8_t kind;     /* 24: the group type times two, plus 1 for version B */
    uint8_t mode;     /* 24: the last five bits of block 2, buffer rule in bits 6 and 5 */
    uint16_t block3;  /* 24 */
    uint16_t block4;  /* 24 */
    uint8_t reply;    /* 18: the byte of a reply code */
    uint8_t counter;  /* 18: the counter of the message that it is for */
} uecp_element;

/* Reads the element at the front of what is left of a message. UECP_APPLIED where these bytes begin with the spelling
 * of one: its fields are written, the others stay, and `used` is how many bytes it has, 2 to 69. No two elements'
 * spellings begin these bytes. Else `used` is 0, `element` stays, and the answer is UECP_ELEMENT_LENGTH where an element
 * begins with the first byte, and UECP_UNKNOWN_ELEMENT where none does, or there is no byte. */
uint8_t uecp_read_element(const uint8_t *bytes, size_t length, uecp_element *element, size_t *used);

/* Writes the spelling of an element, by its fields alone. Answers its length, 2 to 69. 0, and nothing is written, exactly
 * where there is no such element: none begins with `code`, or a text is longer than 64 bytes. */
size_t uecp_write_element(const uecp_element *element, uint8_t *out, size_t room);

/* ---- Names and characters (no memory is taken) ---- */

/* Writes the name of a fault, as BadStuffing, in ASCII, and answers its length; 0, and nothing is written, where no fault
 * has this number. */
size_t uecp_fault_name(uint8_t number, uint8_t *out, size_t room);

/* The same for a reply code by its byte, as BufferFull. */
size_t uecp_code_name(uint8_t code, uint8_t *out, size_t room);

/* The Unicode number of the character that a byte of a name or of a RadioText stands for in the basic character set of
 * RDS (IEC 62106); 0 where it stands for none: 00 to 1F, 7F and FF. */
uint32_t uecp_character_of(uint8_t byte);

/* The only byte that stands for the character of this Unicode number; 0 where none does. */
uint8_t uecp_byte_of(uint32_t character);

/* ---- Words (memory is taken by malloc and realloc, and given back by free before the call ends) ---- */

/* The answer where memory was refused. */
#define UECP_NO_MEMORY SIZE_MAX

/* Writes a message, of any length, as a line of phrases in UTF-8, without a line feed: its elements in their order, as
 * `ps "RADIO 1"; music`, and what reads as no element by `raw`. Programme types have the names of North America's RBDS
 * where the bool says so, else those of RDS. Answers the line's length, 0 of an empty message; UECP_NO_MEMORY, and
 * nothing is written, where memory was refused. */
size_t uecp_words(bool is_north_america, const uint8_t *message, size_t length, uint8_t *out, size_t room);

enum {
    UECP_SAID = 0,         /* the line says a message */
    UECP_NO_TEXT = 1,      /* it is no UTF-8 */
    UECP_UNREAD = 2,       /* a character can't be read */
    UECP_UNSAID = 3,       /* it says no message of at most 255 bytes */
    UECP_OUT_OF_MEMORY = 4 /* memory was refused */
};

/* Why a character can't be read. */
enum {
    UECP_NO_WORD = 1,      /* no word begins here: 1 to 16 printable characters of ASCII */
    UECP_NOT_IN_SET = 2,   /* between quotes, and not in the basic character set */
    UECP_NO_ESCAPE = 3,    /* a backslash between quotes that begins no escape */
    UECP_UNCLOSED = 4,     /* a quote that is not closed */
    UECP_TEXT_TOO_LONG = 5 /* a quote with more than 64 bytes behind it */
};

typedef struct {
    size_t column;           /* of all but UECP_SAID: where, counted in characters from 1 */
    uint8_t reason;          /* of UECP_UNREAD: why, 1 to 5 */
    uint8_t length;          /* of UECP_SAID: how many bytes the message has */
    uint8_t message[255];    /* of UECP_SAID: the message, at the start */
    uint8_t expected_length; /* of UECP_UNSAID: how many bytes stand in `expected` */
    uint8_t expected[96];    /* of UECP_UNSAID: what was expected there, in English and ASCII */
    uint8_t nearest_length;  /* of UECP_UNSAID: how many letters stand in `nearest`, 0 where no word is near */
    uint8_t nearest[16];     /* of UECP_UNSAID: the word that was perhaps meant */
} uecp_told;

/* Tells the message that a line of phrases says, in UTF-8 and without its line feed. UECP_SAID exactly where it says one
 * of at most 255 bytes, unless memory was refused; a line says one message at most, and what uecp_words writes of a
 * message of at most 255 bytes says that message. UECP_UNREAD: no tokens stand in the line, and the character of that
 * column is what `reason` says. UECP_UNSAID: the column is that of a token, or right behind the last character, in the
 * first phrase with which the line says nothing, or right behind that phrase; at most two letters of `nearest` differ
 * from what stands there. What the answer does not name stays as it was. */
uint8_t uecp_message_of(bool is_north_america, const uint8_t *text, size_t length, uecp_told *told);

/* ---- Objects (memory is taken by malloc where one is made, and given back by uecp_free) ---- */

/* What keeps an object: a deframer, an encoder's end or a server's end. It is the caller's, may lie anywhere, and begins
 * as `uecp_handle handle = UECP_NO_OBJECT;`. No call but uecp_free gives the object back. */
typedef struct {
    void *at;   /* where the object lies */
    bool there; /* whether there is one */
} uecp_handle;

#ifdef __cplusplus
#define UECP_NO_OBJECT {}
#else
#define UECP_NO_OBJECT {0}
#endif

/* What a call with a handle answers. Where it is not UECP_DONE, nothing has changed and nothing was written. Memory that
 * was refused is UECP_OUT_OF_MEMORY, 4, as above. */
enum {
    UECP_DONE = 0,           /* the call did what it is for */
    UECP_OCCUPIED = 1,       /* a new object was to go into a handle that has one */
    UECP_EMPTY = 2,          /* the handle has no object, as after uecp_free */
    UECP_OTHER_KIND = 3,     /* its object is of another kind than the call is for */
    UECP_NO_ADDRESS = 5,     /* not one encoder's own address: the site is not 1 to 1023, or the encoder not 1 to 63 */
    UECP_SET_COUNT = 6,      /* not 1 to 8 data sets */
    UECP_SERVICE_COUNT = 7,  /* not 1 to 8 services */
    UECP_SERVICE_ZERO = 8,   /* a service has the number 00 */
    UECP_SERVICE_TWICE = 9,  /* a service is listed twice */
    UECP_MESSAGE_LENGTH = 10, /* a message of more than 255 bytes */
    UECP_WINDOW_FULL = 11,   /* the server holds eight messages */
    UECP_NOT_THERE = 12,     /* there is no such set, service, text or group */
    UECP_NEWER_IMAGE = 13,   /* bytes begin as an image of a newer version */
    UECP_OTHER_IMAGE = 14,   /* they begin as an image of the other kind of object, and end with their check */
    UECP_DAMAGED_IMAGE = 15  /* they are no image */
};

/* Gives back the object of a handle and all its memory. The handle has none then, so that every other call answers
 * UECP_EMPTY, a second uecp_free does nothing, and a new object may be made there. */
void uecp_free(uecp_handle *handle);

/* The line of any object was lost: the segment that has not ended is forgotten, and nothing else. UECP_DONE or
 * UECP_EMPTY. */
uint8_t uecp_line_lost(uecp_handle *handle);

/* The calls that take a piece of a stream follow one rule. They use the bytes of the piece up to and with the one at which
 * the next finding is judged, or all where there is none, and tell how many in `used`: at least 1 of a piece that is
 * not empty. What that finding brought is told; what `kind` does not name stays as it was. The rest of the piece is to be
 * given next. Cuts make no difference. UECP_DONE, UECP_EMPTY or UECP_OTHER_KIND. */

/* Puts a new deframer into an empty handle: nothing is open. UECP_DONE, UECP_OCCUPIED or UECP_OUT_OF_MEMORY. */
uint8_t uecp_deframer_new(uecp_handle *handle);

/* Feeds a deframer with a piece of its stream, by the rule above; tells what uecp_find tells. It keeps what it needs of a
 * segment that has not ended, which is less than 1,000 bytes however long that is. */
uint8_t uecp_deframer_feed(uecp_handle *handle, const uint8_t *piece, size_t length, size_t *used, uecp_finding *finding);

/* ---- An encoder's end of the line, over its store ---- */

/* Puts a new encoder into an empty handle, at its address, with so many data sets and these services (`count` of them,
 * the main one first) as a new store has them. It keeps no reply; its next message is the one under counter 01. All its
 * memory is taken here. UECP_OCCUPIED, else UECP_NO_ADDRESS, else the first of UECP_SET_COUNT .. UECP_SERVICE_TWICE that
 * holds, else UECP_DONE or UECP_OUT_OF_MEMORY. */
uint8_t uecp_encoder_new(uecp_handle *handle, uint16_t site, uint8_t encoder, uint8_t sets, const uint8_t *services,
                         size_t count);

/* What an encoder answers to a finding. */
enum {
    UECP_REPLY = 1,      /* a numbered frame for it, with the next counter or a repeat: the reply is to be sent */
    UECP_NOT_FOR_ME = 2, /* a frame whose address does not reach it */
    UECP_UNNUMBERED = 3, /* a frame with counter 00 */
    UECP_NOT_NEXT = 4,   /* a numbered frame for it that is no repeat and not the next: for later, there is no reply */
    UECP_NO_FRAME = 5    /* a segment that is no frame */
};

typedef struct {
    uint8_t kind;      /* UECP_NOTHING, or one of those above */
    bool is_fresh;     /* of a reply whether its message was applied now; else it is the kept one, given again */
    uint8_t fault;     /* of UECP_NO_FRAME the fault, 1 to 6 */
    uint8_t length;    /* of a reply how many bytes it has, 11 to 16 */
    uint8_t reply[16]; /* of a reply its bytes, at the start */
    size_t place;      /* of UECP_BAD_STUFFING the place of the FD, from 0 at the segment's FE; of another fault 0 */
} uecp_answer;

/* Feeds an encoder with a piece of what comes over its line, by the rule for pieces. Each message acts once and in its
 * turn: a fresh reply says that it was applied to the store now, whole or not at all, and with which code; a repeat of
 * one of the last 127 gets the reply that it got, and changes nothing. */
uint8_t uecp_encoder_feed(uecp_handle *handle, const uint8_t *piece, size_t length, size_t *used, uecp_answer *answer);

typedef struct {
    uint8_t sets;    /* how many data sets there are, 1 to 8 */
    uint8_t current; /* the current data set, from 1 */
    size_t services; /* how many services there are, 1 to 8 */
    size_t groups;   /* how many groups wait, at most 32 */
} uecp_store;

/* Tells what the store of an encoder has. UECP_DONE, UECP_EMPTY or UECP_OTHER_KIND. */
uint8_t uecp_encoder_store(uecp_handle *handle, uecp_store *store);

/* The calls below answer UECP_DONE, UECP_EMPTY, UECP_OTHER_KIND, or UECP_NOT_THERE where there is nothing of that
 * place or number. Places count from 0, data sets from 1. */

/* Tells the number of the service at a place of the order in which they were given, the main one at 0. */
uint8_t uecp_encoder_service_number(uecp_handle *handle, size_t place, uint8_t *number);

typedef struct {
    uint16_t pi;                  /* the programme identification, 0000 in a new store */
    uint8_t name[8];              /* the programme service name, eight spaces in a new store */
    bool is_traffic_programme;    /* TP */
    bool is_traffic_announcement; /* TA */
    bool is_music;                /* MS: music, else speech */
    uint8_t programme_type;       /* PTY, 00 to 1F */
    uint8_t texts;                /* how many RadioTexts it has, at most 8 */
} uecp_service;

/* Tells what the service of that number has in a data set. Neither 00 nor FE and FF name one here. */
uint8_t uecp_encoder_service(uecp_handle *handle, uint8_t set, uint8_t number, uecp_service *service);

typedef struct {
    bool toggle;           /* by which a receiver tells a new text from a repeated one */
    uint8_t transmissions; /* how many times it is to be sent, 0 to 15; 0 is without limit */
    uint8_t length;        /* how many bytes it has, 0 to 64 */
    uint8_t text[64];      /* its bytes, at the start */
} uecp_text;

/* Tells the RadioText at a place, the oldest first, that a service has in a data set. */
uint8_t uecp_encoder_text(uecp_handle *handle, uint8_t set, uint8_t number, size_t place, uecp_text *text);

typedef struct {
    uint8_t kind;    /* the group type times two, plus 1 for version B: 00 to 1F */
    uint8_t bits;    /* the last five bits of block 2: 00 to 1F */
    uint16_t block3; /* block 3 as it is sent, high byte first */
    uint16_t block4; /* block 4 as it is sent, high byte first */
} uecp_group;

/* Tells the free-format group at a place, the first to go out at 0; it waits on. */
uint8_t uecp_encoder_group(uecp_handle *handle, size_t place, uecp_group *group);

/* Takes the group that is to go out next, and tells it; it waits no more, and nothing else changes. */
uint8_t uecp_encoder_take_group(uecp_handle *handle, uecp_group *group);

/* ---- A server's end of the line, with its window ---- */

/* Puts a new server into an empty handle, for the encoder at this address: it has sent nothing, and its first message
 * will have counter 01. UECP_OCCUPIED, else UECP_NO_ADDRESS, else UECP_DONE or UECP_OUT_OF_MEMORY. */
uint8_t uecp_server_new(uecp_handle *handle, uint16_t site, uint8_t encoder);

/* Gives a server a message to send, under its next counter, 01 to FF and then 01 again: its frame is then the last of
 * those that wait. UECP_EMPTY, UECP_OTHER_KIND, else UECP_MESSAGE_LENGTH, else UECP_WINDOW_FULL, else UECP_DONE. A server
 * holds a message until it and all older ones were acknowledged. */
uint8_t uecp_server_submit(uecp_handle *handle, const uint8_t *message, size_t length);

/* How many messages wait for their reply, at most 8; 0 also where the handle has no server. */
size_t uecp_server_waiting(uecp_handle *handle);

/* Writes the frame of one of the messages that wait, the oldest at place 0: the same 8 to 524 bytes each time, to be sent
 * as often as no reply has come. Answers its length; 0, and nothing is written, exactly where there is no such place, or
 * the handle has no server. */
size_t uecp_server_frame(uecp_handle *handle, size_t place, uint8_t *out, size_t room);

/* What a server says to a finding. */
enum {
    UECP_ACKNOWLEDGED = 1, /* the reply to a message that waited, which waits no more, whatever the code */
    UECP_STRAY = 2,        /* another frame, as a reply that came again */
    UECP_NOT_HEARD = 3     /* a segment that is no frame */
};

typedef struct {
    uint8_t kind;    /* UECP_NOTHING, or one of those above */
    uint8_t counter; /* of an acknowledgement the counter of the message */
    uint8_t code;    /* of an acknowledgement the reply code, one of UECP_APPLIED .. UECP_BUFFER_FULL */
    uint8_t fault;   /* of UECP_NOT_HEARD the fault, 1 to 6 */
    size_t place;    /* of UECP_BAD_STUFFING the place of the FD, from 0 at the segment's FE; of another fault 0 */
} uecp_heard;

/* Lets a server hear a piece of what comes over its line, by the rule for pieces. Only a reply from the encoder's own
 * address, with the counter of a message that waits and a code of the table, acknowledges, and that message alone. */
uint8_t uecp_server_hear(uecp_handle *handle, const uint8_t *piece, size_t length, size_t *used, uecp_heard *heard);

/* ---- Kept images (memory is taken) ---- */

/* An image is what is to be kept of an end over a crash: of an encoder its address, its store and its kept replies, of a
 * server its address, its last counter and the messages that it holds. What is open of the line is not kept, nor what was
 * counted. Bytes are read only where they are the image of the object that is read, so of any bytes that were damaged
 * the check of 16 bits notices what it notices of a frame. What is written before a reply is sent, and before a frame is,
 * is what makes each message act once over a crash: that order is the caller's. */

/* Tells in `length` how many bytes the image of an encoder has, and puts it at the start of `out`; where `room` is less
 * than that, all of `out` is as it was. UECP_DONE, UECP_EMPTY, UECP_OTHER_KIND or UECP_OUT_OF_MEMORY. */
uint8_t uecp_encoder_image(uecp_handle *handle, uint8_t *out, size_t room, size_t *length);

/* Puts the encoder that these bytes are the image of into an empty handle, as a start leaves it: nothing is open. Its
 * next message is the one after the newest kept reply. UECP_OCCUPIED, UECP_DONE, UECP_OUT_OF_MEMORY, or UECP_NEWER_IMAGE,
 * UECP_OTHER_IMAGE or UECP_DAMAGED_IMAGE; the image of each encoder that this library made is read, unless memory was
 * refused. */
uint8_t uecp_encoder_of_image(uecp_handle *handle, const uint8_t *bytes, size_t length);

/* The same of a server, with what its program keeps beside it: whether it has joined, and how many messages of its input
 * it has taken. */
uint8_t uecp_server_image(uecp_handle *handle, bool has_joined, uint64_t taken, uint8_t *out, size_t room, size_t *length);

/* The same of a server; where it is UECP_DONE, `has_joined` and `taken` are what was kept, and else they stay. */
uint8_t uecp_server_of_image(uecp_handle *handle, const uint8_t *bytes, size_t length, bool *has_joined, uint64_t *taken);

/* ---- The store in words (memory is taken) ---- */

/* Tells in `length` how many bytes the lines have that make the store of an encoder, and puts these at the start of
 * `out`, in UTF-8, each with a line feed at its end; where `room` is less than that, all of `out` is as it was. The
 * encoder stays as it was. UECP_DONE, UECP_EMPTY, UECP_OTHER_KIND or UECP_OUT_OF_MEMORY.
 *
 * Each line says one message, as uecp_message_of reads it with the same bool: of each data set from 1 each service in the
 * order in which they were given, with its PI, name, flags, programme type and texts; then the groups that wait, and the
 * current set. Whatever an encoder with as many data sets and these services holds: where it takes these messages in
 * their order, it answers each with UECP_APPLIED, and has this store then; only where no group waits in this store do
 * those that wait in the other stay. */
uint8_t uecp_encoder_words(uecp_handle *handle, bool is_north_america, uint8_t *out, size_t room, size_t *length);

/* ---- Joining (no memory is taken) ---- */

/* A server that knows nothing of the counters that an encoder has kept, as after it was lost, joins it on a connection of
 * its own: it sends an empty message under each of the counters 01, 02 .. FF, in this order and each once, by
 * uecp_encode with the length 0, and reads until this says true of all the bytes that were read on the connection: they
 * hold the reply of the encoder at this address to 81 and, after it, the one to FF, whatever the codes. The encoder
 * expects 01 then, its store is as it was, nothing of the pass or of its replies is still to come, and a new server may
 * begin (uecp_server_new). Where nothing is lost both replies come. False where site and encoder are no address. */
bool uecp_is_joined(uint16_t site, uint8_t encoder, const uint8_t *bytes, size_t length);

#ifdef __cplusplus
}
#endif

#endif
