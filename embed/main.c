/* A unit in a C program: a session on an MTi-3 over a page of four slots, played through the static library. Prints what
   the program `bench` prints for the lines of embed/session. */
#include <stddef.h>
#include <stdint.h>
#include <stdio.h>
#include <string.h>

struct played {
    size_t calls;
    uint32_t refusal;
    size_t written;
    uint64_t left;
};

/* A slice is a pointer and a length. */
struct played tirgolpa_play(uint32_t device_id, uint8_t *page, size_t page_len, const uint8_t *script,
                            size_t script_len, uint8_t *out, size_t out_len);

static uint8_t script[1024];
static size_t script_len;
static uint8_t page[564];
static uint8_t out[1 << 16];

static void power(void) { script[script_len++] = 1; }

static void feed(const uint8_t *bytes, size_t len) {
    script[script_len++] = 2;
    script[script_len++] = (uint8_t)(len >> 8);
    script[script_len++] = (uint8_t)len;
    memcpy(script + script_len, bytes, len);
    script_len += len;
}

static void tick(int count) {
    while (count-- > 0) script[script_len++] = 3;
}

/* Each frame in a line of its own: four bytes of header, or six where the fourth is FF, the data and a checksum. */
static void print_frames(size_t len) {
    size_t at = 0;
    while (at < len) {
        size_t data = out[at + 3], size = data + 5;
        if (data == 0xFF) size = (size_t)out[at + 4] * 256 + out[at + 5] + 7;
        for (size_t i = 0; i < size; i++) printf(i ? " %02X" : "%02X", out[at + i]);
        printf("\n");
        at += size;
    }
}

int main(void) {
    static const uint8_t wake_up_ack[] = {0xFA, 0xFF, 0x3F, 0x00, 0xC2};
    static const uint8_t req_did[] = {0xFA, 0xFF, 0x00, 0x00, 0x01};
    static const uint8_t location[] = {0xFA, 0xFF, 0x84, 0x02, 0x00, 0x05, 0x76};
    static const uint8_t go_to_measurement[] = {0xFA, 0xFF, 0x10, 0x00, 0xF1};
    memset(page, 0xFF, sizeof page);
    power();
    feed(wake_up_ack, sizeof wake_up_ack);
    feed(req_did, sizeof req_did);
    feed(location, sizeof location);
    feed(go_to_measurement, sizeof go_to_measurement);
    tick(41);
    struct played played =
        tirgolpa_play(0x01020304, page, sizeof page, script, script_len, out, sizeof out);
    print_frames(played.written);
    printf("left %llu\n", (unsigned long long)played.left);
    return played.refusal != 0;
}
