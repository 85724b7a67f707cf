/* The frames of a stream: reads bytes from standard input as they come, and writes a line for each finding and each
 * element, as `uecp show` does. A buffer of 1,024 bytes is enough for any stream. */
#include <stdio.h>
#include <string.h>
#include <uecp.h>

static void digits(const uint8_t *bytes, size_t length) {
    putchar(' ');
    if (length == 0)
        putchar('-');
    for (size_t i = 0; i < length; i++)
        printf("%02X", bytes[i]);
}

static void show_element(const uecp_element *e) {
    switch (e->code) {
    case UECP_PI: printf("pi %02X %02X %04X", e->dsn, e->psn, e->pi); break;
    case UECP_PS: printf("ps %02X %02X", e->dsn, e->psn); digits(e->name, sizeof e->name); break;
    case UECP_TA_TP: printf("tatp %02X %02X %02X", e->dsn, e->psn, e->raw); break;
    case UECP_MS: printf("ms %02X %02X %02X", e->dsn, e->psn, e->raw); break;
    case UECP_PTY: printf("pty %02X %02X %02X", e->dsn, e->psn, e->raw); break;
    case UECP_SELECT: printf("select %02X", e->dsn); break;
    case UECP_ACKNOWLEDGEMENT: printf("ack %02X %02X", e->reply, e->counter); break;
    case UECP_GROUP: printf("group %02X %02X %04X %04X", e->kind, e->mode, e->block3, e->block4); break;
    default:
        printf("rt %02X %02X", e->dsn, e->psn);
        if (e->has_text) {
            printf(" %02X", e->head);
            digits(e->text, e->length);
        } else
            printf(" empty");
    }
    putchar('\n');
}

static void show_message(const uint8_t *message, size_t length) {
    uecp_element element = {0};
    for (size_t place = 0, used; place < length; place += used) {
        uint8_t code = uecp_read_element(message + place, length - place, &element, &used);
        if (code != UECP_APPLIED) {
            printf("fault %02X %zu\n", code, place);
            return;
        }
        show_element(&element);
    }
}

static void show(const uecp_finding *finding) {
    if (finding->kind == UECP_FRAME) {
        printf("frame %04X %02X\n", finding->site * 64u + finding->encoder, finding->counter);
        show_message(finding->message, finding->length);
        return;
    }
    uint8_t name[UECP_NAME_MAX];
    size_t letters = uecp_fault_name(finding->fault, name, sizeof name);
    printf("dropped %d %.*s", finding->fault, (int)letters, (const char *)name);
    if (finding->fault == UECP_BAD_STUFFING)
        printf(" %zu", finding->place);
    putchar('\n');
}

int main(void) {
    static uint8_t bytes[1024];
    uecp_finding finding = {0};
    size_t held = 0, got;
    while ((got = fread(bytes + held, 1, sizeof bytes - held, stdin)) > 0) {
        held += got;
        do {
            size_t done = uecp_find(bytes, held, &finding);
            held -= done;
            memmove(bytes, bytes + done, held);
            if (finding.kind != UECP_NOTHING)
                show(&finding);
        } while (finding.kind != UECP_NOTHING);
        /* a segment of more bytes than any frame has is none, whatever follows: its first bytes tell why */
        if (held > UECP_FRAME_MAX)
            held = UECP_FRAME_MAX;
    }
    return 0;
}
