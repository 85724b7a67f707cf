/* An encoder over standard input: for what each frame brings a line, as `uecp answer --store` writes it, and at the end
 * its store. `encoder SITE ENCODER SETS SERVICE ..`, the services in hexadecimal digits, as `encoder 1 1 2 01 05`. */
#include <stdio.h>
#include <stdlib.h>
#include <uecp.h>

static const char *digits(const uint8_t *bytes, size_t length) {
    static char text[2 * UECP_TEXT_MAX + 1];
    for (size_t i = 0; i < length; i++)
        sprintf(text + 2 * i, "%02X", bytes[i]);
    return length ? text : "-";
}

static void show(const uecp_answer *answer) {
    static const char *const others[] = {"", "", "not for me", "unnumbered", "not next"};
    uint8_t name[UECP_NAME_MAX];
    if (answer->kind == UECP_REPLY) /* an encoder on a line sends these bytes */
        printf("reply %s %s\n", digits(answer->reply, answer->length), answer->is_fresh ? "new" : "kept");
    else if (answer->kind == UECP_NO_FRAME) {
        printf("dropped %d %.*s", answer->fault, (int)uecp_fault_name(answer->fault, name, sizeof name), (char *)name);
        printf(answer->fault == UECP_BAD_STUFFING ? " %zu\n" : "\n", answer->place);
    } else if (answer->kind != UECP_NOTHING)
        puts(others[answer->kind]);
}

static void show_service(uecp_handle *encoder, uint8_t set, uint8_t number) {
    uecp_service has = {0};
    uecp_text text = {0};
    uecp_encoder_service(encoder, set, number, &has);
    printf("service %d %02X %04X %s", set, number, has.pi, digits(has.name, sizeof has.name));
    printf(" tp %d ta %d ms %d", has.is_traffic_programme, has.is_traffic_announcement, has.is_music);
    printf(" pty %02X texts %d\n", has.programme_type, has.texts);
    for (size_t place = 0; uecp_encoder_text(encoder, set, number, place, &text) == UECP_DONE; place++)
        printf("text %d %d %s\n", text.toggle, text.transmissions, digits(text.text, text.length));
}

int main(int count, char **given) {
    uint8_t byte, services[8];
    size_t used, named = 0;
    uecp_handle encoder = UECP_NO_OBJECT;
    uecp_store store = {0};
    for (; named < 8 && (int)named + 4 < count; named++)
        services[named] = (uint8_t)strtoul(given[named + 4], NULL, 16);
    if (!named || uecp_encoder_new(&encoder, (uint16_t)atoi(given[1]), (uint8_t)atoi(given[2]), (uint8_t)atoi(given[3]),
                                   services, named) != UECP_DONE) {
        fprintf(stderr, "usage: encoder SITE ENCODER SETS SERVICE ..\n");
        return 2;
    }
    for (uecp_answer answer = {0}; fread(&byte, 1, 1, stdin) == 1; show(&answer))
        uecp_encoder_feed(&encoder, &byte, 1, &used, &answer);
    uecp_encoder_store(&encoder, &store);
    printf("current %d\n", store.current);
    for (uint8_t set = 1; set <= store.sets; set++)
        for (size_t place = 0; place < named; place++)
            show_service(&encoder, set, services[place]);
    for (uecp_group group = {0}; uecp_encoder_take_group(&encoder, &group) == UECP_DONE;)
        printf("queued %02X %02X %04X %04X\n", group.kind, group.bits, group.block3, group.block4);
    uecp_free(&encoder);
    return 0;
}
