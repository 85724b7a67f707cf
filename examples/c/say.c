/* Frames of words: reads a line of phrases for each message, as `ps "RADIO 1"; music`, and writes the frames to the
 * encoder of the address 1 at the site 1, with the counters 01, 02 and so on. A line that says nothing, or is longer than
 * 8,192 bytes, is told on standard error, and ends the program with 1. */
#include <stdio.h>
#include <uecp.h>

enum { END = -1, TOO_LONG = -2 };

static char line[8192];

/* Reads a line up to its line feed, without that and a carriage return before it. Answers its length, END where there is
 * none, or TOO_LONG, and then all of it was read. */
static long read_line(void) {
    size_t length = 0;
    int next;
    while ((next = getchar()) != EOF && next != '\n') {
        if (length < sizeof line)
            line[length] = (char)next;
        length++;
    }
    if (next == EOF && length == 0)
        return END;
    if (length > sizeof line)
        return TOO_LONG;
    if (next == '\n' && length > 0 && line[length - 1] == '\r')
        length--;
    return (long)length;
}

int main(void) {
    static uecp_told told;
    uint8_t frame[UECP_FRAME_MAX], counter = 0;
    long length;
    for (unsigned number = 1; (length = read_line()) != END; number++) {
        if (length == TOO_LONG) {
            fprintf(stderr, "line %u: more than %zu bytes\n", number, sizeof line);
            return 1;
        }
        uint8_t kind = uecp_message_of(false, (const uint8_t *)line, (size_t)length, &told);
        if (kind == UECP_UNSAID)
            fprintf(stderr, "line %u, column %zu: expected %.*s\n", number, told.column, told.expected_length,
                    (const char *)told.expected);
        else if (kind == UECP_UNREAD || kind == UECP_NO_TEXT)
            fprintf(stderr, "line %u, column %zu: a character that can't be read\n", number, told.column);
        else if (kind == UECP_OUT_OF_MEMORY)
            fprintf(stderr, "out of memory\n");
        if (kind != UECP_SAID)
            return 1;
        counter = counter == 255 ? 1 : counter + 1;
        fwrite(frame, 1, uecp_encode(1, 1, counter, told.message, told.length, frame, sizeof frame), stdout);
    }
    return 0;
}
