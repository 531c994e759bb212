/* A meter in a file, the file of 'dlms format' and 'dlms serve':
 *   meter FILE format         makes it
 *   meter FILE                reads the lines of a transcript, and prints what the meter answers
 *   meter FILE serve PORT     is a meter on a port, until it is killed
 * No octet of a reply goes out before the file has what it tells. */
#define _GNU_SOURCE
#include "dlms.h"
#include <arpa/inet.h>
#include <ctype.h>
#include <fcntl.h>
#include <stdio.h>
#include <stdlib.h>
#include <string.h>
#include <sys/file.h>
#include <sys/socket.h>
#include <sys/stat.h>
#include <unistd.h>

static int file, client = -1;
static dlms_meter meter = DLMS_NONE;

static void fail(const char *what, uint32_t code) {
    fprintf(stderr, "%s %u\n", what, code);
    exit(1);
}

static bool put(const uint8_t *octets, size_t count, off_t place) {
    while (count > 0) {
        ssize_t done = pwrite(file, octets, count, place);
        if (done <= 0) return false;
        octets += done, place += done, count -= (size_t)done;
    }
    return true;
}

/* Does what the meter wrote and synced, in its order. */
static void settle(void) {
    uint8_t slot[DLMS_SLOT];
    uint16_t index;
    for (;;) {
        uint32_t code = dlms_meter_page(&meter, &index, slot, sizeof slot);
        if (code == DLMS_NOTHING || code == DLMS_EMPTY) return;
        if (code == DLMS_WRITE ? put(slot, sizeof slot, (off_t)index * DLMS_SLOT) : code == DLMS_SYNC && fdatasync(file) == 0) continue;
        dlms_meter_page_failed(&meter);
        fail("page", code);
    }
}

/* Every octet that is asked for, or nothing. */
static bool get(uint8_t *octets, size_t count, off_t place) {
    while (count > 0) {
        ssize_t done = pread(file, octets, count, place);
        if (done <= 0) return false;
        octets += done, place += done, count -= (size_t)done;
    }
    return true;
}

static off_t size_of_file(void) {
    struct stat it;
    if (fstat(file, &it) != 0 || !S_ISREG(it.st_mode)) fail("file", 0);
    return it.st_size;
}

/* Looks first: a file of another size, or one that holds no meter, is left as it is. What stands in a meter's file is written there
 * again and synced: so it outlasts a stop, and the meter may begin with it. */
static uint32_t recover(void) {
    static uint8_t slots[DLMS_SLOTS];
    if (size_of_file() != DLMS_SLOTS) return DLMS_SIZE;
    if (!get(slots, sizeof slots, 0)) fail("file", 0);
    uint32_t code = dlms_meter_recover(&meter, slots, sizeof slots);
    if (code != DLMS_DONE) return code;
    dlms_meter_free(&meter);
    if (!put(slots, sizeof slots, 0) || fdatasync(file) != 0) fail("file", 0);
    code = dlms_meter_recover(&meter, slots, sizeof slots);
    settle();
    return code;
}

/* Makes a meter in a file that holds nothing. */
static uint32_t format(void) {
    if (size_of_file() != 0) fail("the file is not empty", 0);
    return dlms_meter_new(&meter);
}

/* No link outlasts its connection. */
static void hang_up(void) {
    uint32_t code = dlms_meter_hang_up(&meter);
    if (code != DLMS_DONE) fail("hang up", code);
}

static void send_frame(const uint8_t *frame, size_t size) {
    if (client >= 0) {
        if (write(client, frame, size) != (ssize_t)size) shutdown(client, SHUT_RDWR);
        return;
    }
    printf("< ");
    for (size_t i = 0; i < size; i++) printf("%02x", frame[i]);
    printf("\n");
    fflush(stdout);
}

static void feed(const uint8_t *octets, size_t count) {
    uint8_t frame[DLMS_FRAME];
    size_t taken, size;
    while (count > 0) {
        uint32_t code = dlms_meter_feed(&meter, octets, count, &taken);
        if (code != DLMS_DONE) fail("feed", code);
        settle();
        if (dlms_meter_reply(&meter, frame, sizeof frame, &size) == DLMS_DONE) send_frame(frame, size);
        octets += taken, count -= taken;
    }
}

static void serve(const char *port) {
    struct sockaddr_in here = {.sin_family = AF_INET, .sin_port = htons((uint16_t)atoi(port)), .sin_addr.s_addr = htonl(INADDR_LOOPBACK)};
    int door = socket(AF_INET, SOCK_STREAM, 0), yes = 1;
    setsockopt(door, SOL_SOCKET, SO_REUSEADDR, &yes, sizeof yes);
    if (bind(door, (struct sockaddr *)&here, sizeof here) != 0 || listen(door, 1) != 0) fail("port", 0);
    printf("listening on 127.0.0.1:%s\n", port);
    fflush(stdout);
    while ((client = accept(door, NULL, NULL)) >= 0) {
        uint8_t octets[512];
        ssize_t count;
        hang_up();
        while ((count = read(client, octets, sizeof octets)) > 0) feed(octets, (size_t)count);
        hang_up();
        close(client);
    }
}

/* What the program prints of an event that was not taken. */
static void tell(uint32_t code) {
    dlms_meter_state_values now;
    settle();
    if (code == DLMS_BACK && dlms_meter_state(&meter, &now) == DLMS_DONE) printf("refused 1 %u\n", now.running);
    else if (code > DLMS_BACK) printf("refused %u\n", code - DLMS_BACK + 1);
    else if (code >= DLMS_DEVICE) printf("fault %u\n", code - DLMS_DEVICE + 2);
}

static void obey(const char *line) {
    static uint8_t octets[4096];
    unsigned channel, number, octet;
    size_t count = 0;
    dlms_meter_state_values now;
    if (line[0] == '>') {
        for (line += 2; isxdigit((unsigned char)line[0]) && sscanf(line, "%2x", &octet) == 1; line += 2) octets[count++] = (uint8_t)octet;
        feed(octets, count);
    } else if (sscanf(line, "P %u %u", &channel, &number) == 2) tell(dlms_meter_pulses(&meter, (uint8_t)channel, number));
    else if (sscanf(line, "M %u", &number) == 1) tell(dlms_meter_moment(&meter, number));
    else if (line[0] == 'I') dlms_meter_idle(&meter);
    else if (line[0] == 'O') {
        dlms_meter_close(&meter);
        settle();
        dlms_meter_free(&meter);
        uint32_t code = recover();
        if (code != DLMS_DONE) fail("open", code);
        printf("open\n");
    } else if (line[0] == 'S' && dlms_meter_state(&meter, &now) == DLMS_DONE)
        printf("state %u %u %u %u %zu\n", now.active_import, now.active_export, now.reactive_import, now.second, now.rows);
}

int main(int count, char **words) {
    static char line[8194];
    bool is_new = count == 3;
    if (count < 2 || (file = open(words[1], is_new ? O_RDWR | O_CREAT : O_RDWR, 0600)) < 0 || flock(file, LOCK_EX | LOCK_NB) != 0) fail("file", 0);
    uint32_t code = is_new ? format() : recover();
    if (code != DLMS_DONE) fail("open", code);
    settle();
    if (count == 4) serve(words[3]);
    while (!is_new && fgets(line, sizeof line, stdin)) obey(line);
    dlms_meter_close(&meter);
    settle();
    dlms_meter_free(&meter);
    return 0;
}
