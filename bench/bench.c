/* Times the proved check word and section reader beside C code, on the same buffers in one run. */
#include <stdint.h>
#include <stdio.h>
#include <stdlib.h>
#include <string.h>
#include <time.h>
#ifdef WITH_DVBPSI
#include <stdbool.h>
#include <dvbpsi/dvbpsi.h>
#include <dvbpsi/psi.h>
#endif
#ifdef WITH_AVUTIL
#include <libavutil/crc.h>
#endif

extern uint32_t kinvouzel_check_word(const uint8_t *bytes, size_t length);
extern uint32_t kinvouzel_section_refusal(const uint8_t *bytes, size_t length);

static uint32_t table[256];

static void make_table(void) {
    for (uint32_t k = 0; k < 256; k++) {
        uint32_t r = k << 24;
        for (int bit = 0; bit < 8; bit++) r = r & 0x80000000u ? r << 1 ^ 0x04C11DB7u : r << 1;
        table[k] = r;
    }
}

/* One byte at a time, as libdvbpsi does it. */
static uint32_t by_table(const uint8_t *bytes, size_t length) {
    uint32_t r = 0xFFFFFFFFu;
    for (size_t i = 0; i < length; i++) r = r << 8 ^ table[r >> 24 ^ bytes[i]];
    return r;
}

#ifdef WITH_DVBPSI
static uint32_t by_dvbpsi(const uint8_t *bytes, size_t length) {
    dvbpsi_psi_section_t s = {.b_syntax_indicator = true, .p_data = (uint8_t *)bytes, .p_payload_end = (uint8_t *)bytes + length};
    static uint8_t room[4200];
    memcpy(room, bytes, length); /* it writes the check word behind the bytes */
    s.p_data = room;
    s.p_payload_end = room + length;
    dvbpsi_CalculateCRC32(&s);
    return s.i_crc;
}
#endif

#ifdef WITH_AVUTIL
static uint32_t by_avutil(const uint8_t *bytes, size_t length) {
    return __builtin_bswap32(av_crc(av_crc_get_table(AV_CRC_32_IEEE), 0xFFFFFFFFu, bytes, length));
}
#endif

static double now(void) {
    struct timespec t;
    clock_gettime(CLOCK_MONOTONIC, &t);
    return t.tv_sec + t.tv_nsec * 1e-9;
}

typedef uint32_t (*digest)(const uint8_t *, size_t);

/* The best of several rounds, in megabytes a second. */
static double speed(digest f, const uint8_t *bytes, size_t length, uint32_t *sum) {
    size_t turns = 64000000 / length;
    double best = 1e9;
    for (int round = 0; round < 7; round++) {
        double start = now();
        for (size_t k = 0; k < turns; k++) *sum ^= f(bytes, length);
        double took = now() - start;
        if (took < best) best = took;
    }
    return turns * length / best / 1e6;
}

static void compare(const uint8_t *bytes, size_t length) {
    uint32_t sum = 0;
    double c = speed(by_table, bytes, length, &sum);
    double ours = speed(kinvouzel_check_word, bytes, length, &sum);
    printf("check word, %4zu bytes: C by table %6.0f MB/s, ours %6.0f MB/s (%.1f times)", length, c, ours, ours / c);
#ifdef WITH_DVBPSI
    double dvbpsi = speed(by_dvbpsi, bytes, length, &sum);
    printf(", libdvbpsi %6.0f MB/s (ours %.1f times)", dvbpsi, ours / dvbpsi);
    if (by_dvbpsi(bytes, length) != by_table(bytes, length)) printf(" libdvbpsi gives another check word");
#endif
#ifdef WITH_AVUTIL
    double av = speed(by_avutil, bytes, length, &sum);
    printf(", av_crc %6.0f MB/s (ours %.2f times)", av, ours / av);
#endif
    printf("\n");
    if (kinvouzel_check_word(bytes, length) != by_table(bytes, length)) printf("WRONG: the check words differ\n");
#ifdef WITH_AVUTIL
    if (by_avutil(bytes, length) != by_table(bytes, length)) printf("av_crc gives another check word\n");
#endif
    if (sum == 1) printf("\n");
}

static size_t read_hex(FILE *in, uint8_t *out) {
    size_t n = 0;
    int high, low;
    while ((high = fgetc(in)) != EOF && high != '\n' && (low = fgetc(in)) != EOF) {
        char pair[3] = {(char)high, (char)low, 0};
        out[n++] = (uint8_t)strtoul(pair, NULL, 16);
    }
    return n;
}

int main(int count, char **args) {
    static uint8_t noise[4096], section[4096];
    srand(1);
    for (size_t k = 0; k < sizeof noise; k++) noise[k] = (uint8_t)(rand() >> 7);
    make_table();
    compare(noise, 4096);
    compare(noise, 100);
    FILE *in = count > 1 ? fopen(args[1], "r") : NULL;
    if (in == NULL) return 0;
    size_t length = read_hex(in, section);
    fclose(in);
    uint32_t sum = 0;
    double rate = speed(kinvouzel_section_refusal, section, length, &sum) * 1e6 / length;
    printf("sections read: %.2f million a second (%zu bytes each, refusal %u)\n", rate / 1e6, length, kinvouzel_section_refusal(section, length));
    return 0;
}
