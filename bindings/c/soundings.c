/* Document 01's soundings on lines and on unarmoring, published messages, and lines of ours read back, from C. Ends with status 0 if each answer is right. */
#include "../sumturnip.h"
#include <stdio.h>
#include <string.h>

static uint8_t record[SUMTURNIP_RECORD], payload[SUMTURNIP_PAYLOAD], bits[SUMTURNIP_BITS], texts[SUMTURNIP_TEXTS];
static uint64_t numbers[SUMTURNIP_NUMBERS];
static int wrong;

static uint32_t read_line(const char *line, bool decode) {
    return sumturnip_read(record, sizeof record, (const uint8_t *)line, strlen(line), decode, payload, sizeof payload, bits, sizeof bits,
                          numbers, SUMTURNIP_NUMBERS, texts, sizeof texts);
}

static void hold(const char *what, uint64_t found, uint64_t due) {
    if (found == due) return;
    printf("%s: %llu, and not %llu\n", what, (unsigned long long)found, (unsigned long long)due);
    wrong = 1;
}

static void unarmor(const char *text, size_t fill, uint32_t code, uint64_t number, const char *due) {
    uint8_t out[3];
    hold(text, sumturnip_unarmor((const uint8_t *)text, strlen(text), fill, out, sizeof out, numbers, SUMTURNIP_NUMBERS), code);
    hold("its number", numbers[0], number);
    if (code == 0) hold("its bytes", (uint64_t)memcmp(out, due, number), 0);
}

static float float_at(int place) {
    uint32_t pattern = (uint32_t)numbers[place];
    float value;
    memcpy(&value, &pattern, sizeof value);
    return value;
}

/* What is lent too short is answered with 12, and nothing is written. */
static void too_short(void) {
    uint8_t line[1] = {'!'}, before[SUMTURNIP_RECORD];
    memset(record, 0xaa, sizeof record);
    memcpy(before, record, sizeof record);
    hold("a short record", sumturnip_fresh(record, SUMTURNIP_RECORD - 1), 12);
    hold("its bytes", memcmp(record, before, sizeof record) != 0, 0);
    hold("fresh", sumturnip_fresh(record, sizeof record), 0);
    memcpy(before, record, sizeof record);
    for (int k = 0; k < 5; k++) {
        numbers[0] = 7;
        uint32_t code = sumturnip_read(record, SUMTURNIP_RECORD - (k == 0), line, 1, false, payload, SUMTURNIP_PAYLOAD - (k == 1), bits,
                                       SUMTURNIP_BITS - (k == 2), numbers, SUMTURNIP_NUMBERS - (k == 3), texts, SUMTURNIP_TEXTS - (k == 4));
        hold("one part short", code, 12);
        hold("the first number", numbers[0], k == 1 || k == 2 ? 0 : 7);
        hold("the record", memcmp(record, before, sizeof record) != 0, 0);
    }
    hold("no number", sumturnip_unarmor(line, 1, 0, bits, sizeof bits, numbers, 0), 12);
}

static void published(void) {
    hold("a position report", read_line("!AIVDM,1,1,,A,15RTgt0PAso;90TKcjM8h6g208CQ,0*4A", true), SUMTURNIP_COMPLETE);
    hold("its kind", numbers[SUMTURNIP_KIND], 1);
    hold("its MMSI", numbers[SUMTURNIP_MMSI], 371798000);
    hold("its turn", (uint64_t)(int64_t)-127, numbers[SUMTURNIP_TURN]);
    hold("its speed", float_at(SUMTURNIP_SPEED) == 12.3f, 1);
    hold("its longitude", (uint64_t)(int64_t)-74037230, numbers[SUMTURNIP_LONGITUDE_RAW]);
    hold("its latitude", float_at(SUMTURNIP_LATITUDE) > 48.38f && float_at(SUMTURNIP_LATITUDE) < 48.39f, 1);
    hold("its radio", numbers[SUMTURNIP_RADIO], 1);
    hold("a name", read_line("!AIVDM,1,1,,A,H42O55i18tMET00000000000000,2*6D", true), SUMTURNIP_COMPLETE);
    hold("its kind", numbers[SUMTURNIP_KIND], 2);
    hold("its length", numbers[SUMTURNIP_NAME_LENGTH], 6);
    hold("its bytes", (uint64_t)memcmp(texts, "PROGUY", 6), 0);
}

/* A published line, bare, with LF and with CR LF, read and written again from what was told: the same line, with CR LF. */
static void written_again(void) {
    static const char line[] = "!AIVDM,1,1,,A,15RTgt0PAso;90TKcjM8h6g208CQ,0*4A\r\n";
    static const size_t lengths[] = {sizeof line - 3, sizeof line - 1};
    uint8_t out[SUMTURNIP_LINES];
    uint64_t count;
    for (size_t k = 0; k < 3; k++) {
        char ended[sizeof line];
        strcpy(ended, line);
        if (k == 1) strcpy(ended + lengths[0], "\n");
        if (k == 2) ended[lengths[0]] = 0;
        hold("a line end", read_line(ended, true), SUMTURNIP_COMPLETE);
        memset(out, 0xaa, sizeof out);
        hold("written", sumturnip_write(numbers[SUMTURNIP_SENT_BITS], numbers[SUMTURNIP_TALKER], numbers[SUMTURNIP_REPORT], numbers[SUMTURNIP_HAS_CHANNEL],
                                        numbers[SUMTURNIP_CHANNEL], 0, bits, sizeof bits, out, sizeof out, &count, 1), 0);
        hold("its length", count, lengths[1]);
        hold("its bytes", memcmp(out, line, lengths[1]) != 0, 0);
        hold("the byte after it", out[lengths[1]], 0xaa);
    }
}

/* The longest message, read back and unarmored: the same bits, and only zeros after them. */
static void round_trip(void) {
    uint8_t sent[SUMTURNIP_BITS], out[SUMTURNIP_LINES], back[SUMTURNIP_BITS];
    uint64_t count;
    for (size_t k = 0; k < sizeof sent; k++) sent[k] = (uint8_t)(k * 37 + 11);
    hold("the longest message", sumturnip_write(2303, 4, 2, 1, 'B', 7, sent, sizeof sent, out, sizeof out, &count, 1), 0);
    hold("its length", count, SUMTURNIP_LINES);
    uint32_t code = SUMTURNIP_UNFINISHED;
    for (size_t from = 0, to; from < count; from = to) {
        hold("more was to come", code, SUMTURNIP_UNFINISHED);
        for (to = from; out[to++] != '\n';) {}
        code = sumturnip_read(record, sizeof record, out + from, to - from, false, payload, sizeof payload, bits, sizeof bits, numbers,
                              SUMTURNIP_NUMBERS, texts, sizeof texts);
    }
    hold("the last line", code, SUMTURNIP_COMPLETE);
    hold("the sent bits", numbers[SUMTURNIP_SENT_BITS], 2303);
    hold("the talker", numbers[SUMTURNIP_TALKER], 4);
    hold("unarmored", sumturnip_unarmor(payload, numbers[SUMTURNIP_PAYLOAD_LENGTH], numbers[SUMTURNIP_FILL], back, sizeof back, &count, 1), 0);
    sent[287] &= 0xfe;
    hold("the bits", memcmp(back, sent, sizeof sent) != 0, 0);
}

/* What the writer refuses: 13, then 12, with nothing written. */
static void not_written(void) {
    static const uint64_t asked[][6] = {{0, 3, 1, 1, 65, 0},   {2305, 3, 1, 1, 65, 0}, {9, 3, 1, 1, 65, 0},   {8, 0, 1, 1, 65, 0},
                                        {8, 11, 1, 1, 65, 0},  {8, 3, 0, 1, 65, 0},    {8, 3, 3, 1, 65, 0},   {8, 3, 1, 2, 65, 0},
                                        {8, 3, 1, 0, 65, 0},   {8, 3, 1, 1, 64, 0},    {8, 3, 1, 1, 67, 0},   {8, 3, 1, 1, 65 + 256, 0},
                                        {8, 3, 1, 1, 0, 0},    {8, 3, 1, 1, 65, 10},   {8, 3, 1, 1, 65, 256}, {8, 3 + (1ULL << 32), 1, 1, 65, 0}};
    uint8_t byte = 'w', out[25] = {0};
    uint64_t count;
    for (size_t k = 0; k < sizeof asked / sizeof *asked; k++) {
        const uint64_t *a = asked[k];
        count = 7;
        hold("outside the limits", sumturnip_write(a[0], a[1], a[2], a[3], a[4], a[5], &byte, 1, out, 0, &count, 1), 13);
        hold("its number", count, 0);
    }
    hold("too little room", sumturnip_write(8, 3, 1, 0, 0, 0, &byte, 1, out, 21, &count, 1), 12);
    hold("no number", sumturnip_write(0, 3, 1, 0, 0, 0, &byte, 1, out, sizeof out, &count, 0), 12);
    hold("nothing written", out[0], 0);
    hold("room enough", sumturnip_write(8, 3, 1, 0, 0, 0, &byte, 1, out, 22, &count, 1), 0);
}

int main(void) {
    hold("the version", sumturnip_version(), SUMTURNIP_VERSION);
    hold("a reason", (uint64_t)strcmp(sumturnip_reason(3), "checksum differs"), 0);
    too_short();
    hold("one line", read_line("!AIVDM,1,1,,A,w,0*51", false), SUMTURNIP_COMPLETE);
    hold("the crate's type", numbers[SUMTURNIP_CRATE_TYPE], 29);
    hold("the true type", numbers[SUMTURNIP_TYPE], 63);
    hold("decoded", read_line("!AIVDM,1,1,,A,w,0*51", true), 11);
    hold("the type", numbers[SUMTURNIP_VALUE], 63);
    hold("a wrong checksum", read_line("!AIVDM,1,1,,A,w,0*50", false), 3);
    hold("the number in the line", numbers[SUMTURNIP_VALUE], 0x50);
    hold("the number found", numbers[SUMTURNIP_OTHER_VALUE], 0x51);
    hold("the first of two", read_line("!AIVDM,2,1,3,A,w,0*61", false), SUMTURNIP_UNFINISHED);
    hold("the record's number", record[SUMTURNIP_RECORD_HAS_ID] * 256u + record[SUMTURNIP_RECORD_ID], 256 + 3);
    hold("the record's fragment", record[SUMTURNIP_RECORD_FRAGMENT], 1);
    hold("the record's length", record[SUMTURNIP_RECORD_LENGTH], 1);
    hold("the record's byte", record[SUMTURNIP_RECORD_BYTES], 'w');
    hold("the second", read_line("!AIVDM,2,2,3,A,w,5*67", false), SUMTURNIP_COMPLETE);
    hold("the payload's length", numbers[SUMTURNIP_PAYLOAD_LENGTH], 2);
    hold("the payload", (uint64_t)memcmp(payload, "ww", 2), 0);
    hold("the fill", numbers[SUMTURNIP_FILL], 5);
    published();
    written_again();
    round_trip();
    not_written();
    unarmor("w", 5, 0, 1, "\x80");
    unarmor("ww", 0, 0, 2, "\xff\xf0");
    unarmor("ww", 5, 0, 2, "\xfe\x00");
    unarmor("www", 5, 0, 3, "\xff\xf8\x00");
    unarmor("wwww", 5, 0, 3, "\xff\xff\xe0");
    unarmor("W", 0, 0, 1, "\x9c");
    unarmor("`", 0, 0, 1, "\xa0");
    unarmor("X", 0, 8, 0, "");
    unarmor("", 0, 0, 0, "");
    unarmor("", 1, 7, 0, "");
    if (!wrong) puts("soundings from C: all as they are due");
    return wrong;
}
