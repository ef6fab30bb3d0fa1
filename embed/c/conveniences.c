/* What the header adds to the functions of the library: causes, lines that end with a zero byte, default settings, sentences and
 * ranges; and what goes with them: numbered frames, and lines that are no commands. */
#include "check.h"
#include "qtree.h"

#include <string.h>

static qtree_device opened(void) {
    qtree_device device = QTREE_CLOSED;
    const qtree_settings settings = QTREE_DEFAULTS;
    CHECK(settings.txqueuelen == 1000 && settings.recorder == 0 && settings.mtu == 1514);
    CHECK(qtree_open(&device, &settings) == QTREE_DONE);
    return device;
}

/* Losses are counted by their causes, and no other code is one. */
static void causes(void) {
    static const qtree_code losses[] = { QTREE_LOST_TOO_LONG, QTREE_LOST_NO_CLASS, QTREE_LOST_OVER_LIMIT,
                                         QTREE_LOST_CODEL,    QTREE_LOST_FAT_FLOW, QTREE_LOST_PURGED };
    for (size_t i = 0; i < sizeof losses / sizeof losses[0]; i++) {
        CHECK(qtree_is_loss(losses[i]) && losses[i] <= QTREE_LOST_MOST);
    }
    CHECK(!qtree_is_loss(QTREE_DONE) && qtree_is_loss(QTREE_LOST_MOST) && !qtree_is_loss(QTREE_LOST_MOST + 1));
    CHECK(!qtree_is_loss(QTREE_REFUSED_NO_PARENT) && !qtree_is_loss(QTREE_IDLE));
    CHECK(!qtree_is_loss(QTREE_MEMORY) && !qtree_is_loss(UINT32_MAX));
    qtree_device device = opened();
    uint64_t lost[QTREE_LOST_MOST + 1] = { 0 };
    qtree_packet packet = { .len = 1515 };
    CHECK(qtree_is_loss(qtree_arrive(&device, &packet, 0)));
    packet.len = 0;
    CHECK(!qtree_is_loss(qtree_arrive(&device, &packet, 0)));
    CHECK(qtree_run(&device, "tc qdisc add dev a root handle 1: drr", 0, NULL) == QTREE_DONE);
    packet.len = 100;
    CHECK(qtree_is_loss(qtree_arrive(&device, &packet, 0)));
    qtree_loss loss;
    while (qtree_reap(&device, &loss) == QTREE_DONE) {
        lost[loss.cause]++;
    }
    CHECK(lost[QTREE_LOST_TOO_LONG] == 1 && lost[QTREE_LOST_NO_CLASS] == 1 && lost[QTREE_LOST_OVER_LIMIT] == 0);
    qtree_close(&device);
}

static void lines(void) {
    qtree_device device = QTREE_CLOSED;
    qtree_fault fault = { 9, 9 };
    CHECK(qtree_run(&device, "", 0, NULL) == QTREE_IS_CLOSED);
    device = opened();
    CHECK(qtree_run(&device, "tc qdisc add dev a root handle 1: pfifo limit 5\n", 0, NULL) == QTREE_DONE);
    CHECK(qtree_run(&device, "tc qdisc add dev a root handle 1: drr", 0, &fault) == QTREE_REFUSED_EXISTS && fault.word == 9);
    CHECK(qtree_run(&device, "tc qdisc ad", 0, NULL) == QTREE_FAULTY);
    CHECK(qtree_run(&device, "tc qdisc ad", 0, &fault) == QTREE_FAULTY && fault.word == 3 && fault.number == QTREE_FAULT_UNKNOWN_WORD);
    CHECK(qtree_run(&device, "tc qdisc ad", QTREE_MOMENT_MAX + 1, NULL) == QTREE_OUT_OF_RANGE);
    CHECK(qtree_run(&device, "# a comment", 0, NULL) == QTREE_NO_COMMAND);
    qtree_close(&device);
}

/* Each code that has a name has this sentence, and all others have one of two. */
static void sentences(void) {
    static const struct {
        qtree_code code;
        const char *sentence;
    } wanted[] = {
        { QTREE_DONE, "The call did what it was called for." },
        { QTREE_LOST_TOO_LONG, "The packet is longer than the mtu or than a tbf's burst: send shorter packets, or raise that limit." },
        { QTREE_LOST_NO_CLASS, "No filter of a drr takes the packet: add a filter that matches it." },
        { QTREE_LOST_OVER_LIMIT, "The packet's queue is at its limit: send less, or raise the limit." },
        { QTREE_LOST_CODEL, "Packets waited too long, so CoDel dropped this one: its sender slows down by itself." },
        { QTREE_LOST_FAT_FLOW, "An fq_codel was over its limit, and dropped from its largest flow: send less, or raise the limit." },
        { QTREE_LOST_PURGED, "A command removed the packet's qdisc: free the packet's buffer, or let the packet arrive again." },
        { QTREE_REFUSED_NO_PARENT, "No qdisc has the parent's major number: add that qdisc first." },
        { QTREE_REFUSED_EXISTS, "A qdisc, or the class, is there already: change it, or remove it first." },
        { QTREE_REFUSED_NO_QDISC, "No qdisc that was added has this place and handle: add it first." },
        { QTREE_REFUSED_HANDLE_TAKEN, "Another qdisc has this handle: choose another one." },
        { QTREE_REFUSED_NOT_CLASSFUL, "The parent has no classes, or takes no filters: choose another parent." },
        { QTREE_REFUSED_NO_CLASS, "There is no such class: add it first, or name another one." },
        { QTREE_REFUSED_BUSY, "A filter leads to this class: remove the filter first." },
        { QTREE_REFUSED_CANNOT_CHANGE, "This cannot be changed: remove the qdisc, and add it again." },
        { QTREE_REFUSED_TOO_DEEP, "The tree would have more than eight levels: choose a parent further up." },
        { QTREE_REFUSED_TOO_MANY, "There would be more than 256 qdiscs, or more than 256 filters at one qdisc: remove some first." },
        { QTREE_REFUSED_SMALL_BURST, "The burst is below both the mtu and the tbf's present burst: choose a larger one." },
        { QTREE_REFUSED_NO_FILTER, "The qdisc has no filter with this prio: list its filters to see which prios it has." },
        { QTREE_IDLE, "No packet is queued: poll again when one has arrived." },
        { QTREE_LATER, "Packets are queued, but none may go yet: poll again at the time that qtree_ready_at returns." },
        { QTREE_NOTHING, "What the call asks for does not exist, no longer exists, or is not promised: go on without it." },
        { QTREE_FULL, "The ring is full: offer the packet again after some packets have been taken in." },
        { QTREE_FAULTY, "The line cannot be read: qtree_explain says which word is wrong, and why." },
        { QTREE_NO_COMMAND, "The line is not a command: qtree_explain says what it is, and which call does what it asks for." },
        { QTREE_OUT_OF_RANGE, "An argument is out of its range: qtree_out_of_range checks a packet and the time." },
        { QTREE_ROOM, "The memory that the program passed is too small: call again with as much as is needed." },
        { QTREE_UNDONE, "A line of the file cannot be carried out, so none was: correct the reported lines, and call again." },
        { QTREE_IS_CLOSED, "The device, the port or the outlet is closed: open it first." },
        { QTREE_IS_OPEN, "The device, the port or the outlet is open already: close it first." },
        { QTREE_MEMORY, "An allocation failed: free some memory, and call again for what was not done." },
    };
    size_t named = 0;
    for (qtree_code code = 0; code < 300; code++) {
        const char *sentence = qtree_code_sentence(code);
        if (strcmp(qtree_code_name(code), "Unknown") != 0) {
            CHECK(wanted[named].code == code && strcmp(wanted[named].sentence, sentence) == 0);
            named++;
        } else {
            CHECK(strcmp(sentence, qtree_is_loss(code) ? "The packet is lost, for a cause that is newer than this header."
                                                       : "This header does not know the code: the library is newer, or the number is not a code.") == 0);
        }
    }
    CHECK(named == sizeof wanted / sizeof wanted[0]);
}

static uint64_t random_bits(uint64_t *random) {
    *random = *random * 6364136223846793005u + 1442695040888963407u;
    return *random >> 32;
}

/* A packet and a time, of which each field is within its range or not. */
static qtree_packet random_packet(uint64_t *random, uint64_t *now) {
    qtree_packet packet = { 0 };
    packet.len = (uint16_t)(random_bits(random) % 3);
    packet.prio = (uint8_t)(random_bits(random) % 17);
    packet.ecn = (uint8_t)(random_bits(random) % 5);
    packet.family = (uint8_t)(random_bits(random) % 8);
    uint64_t *const halves[] = { &packet.src_high, &packet.src_low, &packet.dst_high, &packet.dst_low };
    for (size_t i = 0; i < 4; i++) {
        *halves[i] = random_bits(random) % 4 == 0 ? (uint64_t)UINT32_MAX + random_bits(random) % 2 : 0;
    }
    packet.proto = (uint8_t)random_bits(random);
    packet.hash = (uint32_t)random_bits(random);
    *now = random_bits(random) % 16 == 0 ? QTREE_MOMENT_MAX + random_bits(random) % 2 : 0;
    return packet;
}

/* 200,000 random packets: a field is named exactly where the library says that one is out of its range, and the packet arrives once
 * each named field was set to 0 (len to 1). */
static void ranges(void) {
    static const struct {
        const char *name;
        size_t at, size;
    } fields[] = { { "len", offsetof(qtree_packet, len), 2 },           { "prio", offsetof(qtree_packet, prio), 1 },
                   { "ecn", offsetof(qtree_packet, ecn), 1 },           { "family", offsetof(qtree_packet, family), 1 },
                   { "src_high", offsetof(qtree_packet, src_high), 8 }, { "src_low", offsetof(qtree_packet, src_low), 8 },
                   { "dst_high", offsetof(qtree_packet, dst_high), 8 }, { "dst_low", offsetof(qtree_packet, dst_low), 8 } };
    size_t seen[9] = { 0 };
    uint64_t random = 1;
    qtree_device device = opened();
    for (int round = 0; round < 200000; round++) {
        uint64_t now;
        qtree_packet packet = random_packet(&random, &now);
        const char *name;
        for (unsigned mended = 0; (name = qtree_out_of_range(&packet, now)) != NULL; mended++) {
            CHECK(mended < 9 && qtree_arrive(&device, &packet, now) == QTREE_OUT_OF_RANGE);
            size_t i = 0;
            while (i < 8 && strcmp(fields[i].name, name) != 0) {
                i++;
            }
            CHECK(i < 8 || strcmp(name, "now") == 0);
            seen[i]++;
            if (i == 8) {
                now = QTREE_MOMENT_MAX;
            } else {
                memset((char *)&packet + fields[i].at, 0, fields[i].size);
                packet.len = packet.len == 0 ? 1 : packet.len;
            }
        }
        CHECK(qtree_arrive(&device, &packet, now) != QTREE_OUT_OF_RANGE && qtree_poll(&device, now, &packet) == QTREE_DONE);
    }
    for (size_t i = 0; i < 9; i++) {
        CHECK(seen[i] > 1000);
    }
    qtree_close(&device);
}

/* A packet by its first bytes carries a pointer. */
static void numbered_frames(void) {
    static const uint8_t udp[] = { 0x45, 2, 0, 28, 0, 0, 0, 0, 64, 17, 0, 0, 10, 0, 0, 1, 10, 0, 0, 2, 0x10, 0, 0x13, 0x89, 0, 8, 0, 0 };
    qtree_device device = QTREE_CLOSED;
    qtree_packet packet, plain;
    qtree_sent sent;
    uint64_t pointer = (uint64_t)(uintptr_t)&packet;
    CHECK(qtree_arrive_frame_numbered(&device, udp, sizeof udp, 1500, 7, pointer, 9, 0) == QTREE_IS_CLOSED);
    device = opened();
    CHECK(qtree_arrive_frame_numbered(&device, udp, sizeof udp, 0, 7, pointer, 9, 0) == QTREE_OUT_OF_RANGE);
    CHECK(qtree_arrive_frame_numbered(&device, udp, sizeof udp, 1500, 7, pointer, 9, QTREE_MOMENT_MAX + 1) == QTREE_OUT_OF_RANGE);
    CHECK(qtree_arrive_frame_numbered(&device, udp, sizeof udp, 1515, 7, pointer, 9, 0) == QTREE_LOST_TOO_LONG);
    qtree_loss loss;
    CHECK(qtree_reap(&device, &loss) == QTREE_DONE && loss.packet.number == pointer && loss.packet.buf == 7);
    CHECK(qtree_arrive_frame_numbered(&device, udp, sizeof udp, 1500, 7, pointer, 9, 0) == QTREE_DONE);
    CHECK(qtree_arrive_frame(&device, udp, sizeof udp, 1500, 7, 9, 0) == QTREE_DONE);
    CHECK(qtree_arrive_frame_numbered(&device, udp, sizeof udp, 1500, 7, UINT64_MAX, 9, 0) == QTREE_DONE);
    CHECK(qtree_poll(&device, 0, &packet) == QTREE_DONE && packet.number == pointer && packet.hash == 9 && packet.dport == 5001);
    CHECK((qtree_packet *)(uintptr_t)packet.number == &packet);
    CHECK(qtree_poll(&device, 0, &plain) == QTREE_DONE && plain.number == 0);
    packet.number = 0;
    CHECK(memcmp(&packet, &plain, offsetof(qtree_packet, ecn) + 1) == 0);
    CHECK(qtree_poll_buf(&device, 0, &sent) == QTREE_DONE && sent.number == UINT64_MAX && sent.buf == 7 && sent.port == 0);
    qtree_close(&device);
}

/* What is said of a line that is no command, with the mark under its first word. */
static void others(void) {
    static const struct {
        const char *line, *shown, *mark, *sentence;
    } wanted[] = {
        { "# my uplink\n", "# my uplink", "^", "this line is a comment and changes no tree. A program that reads its lines from a file goes on with the next one." },
        { "", "", " ^", "this line is empty and changes no tree. A program that reads its lines from a file goes on with the next one." },
        { " \t", "", " ^", "this line is empty and changes no tree. A program that reads its lines from a file goes on with the next one." },
        { "tc -s qdisc show", "tc -s qdisc show", "^^", "this line asks for a text and changes no tree. qtree_show writes that text (in Rust Device::show)." },
        { "at 7", "at 7", "^^", "this line of a script sets the time. A program passes the time to each call, as its argument now." },
        { "pkt 1500 hash 9", "pkt 1500 hash 9", "^^^", "this line of a script brings a packet. A program calls qtree_arrive for that (in Rust Device::arrive)." },
        { "frame 28 4500", "frame 28 4500", "^^^^^", "this line of a script brings a packet by its first bytes. A program calls qtree_arrive_frame for that (in Rust Device::arrive_frame)." },
        { "poll 2", "poll 2", "^^^^", "this line of a script polls. A program calls qtree_poll for that (in Rust Device::poll)." },
        { "reap", "reap", "^^^^", "this line of a script asks for the losses. A program calls qtree_reap for that (in Rust Device::losses)." },
        { "totals", "totals", "^^^^^^", "this line of a script asks for the counters of the device. A program calls qtree_totals for that (in Rust Device::totals)." },
    };
    qtree_device device = opened();
    const qtree_fault fault = { 0, 0 };
    char text[600], whole[600];
    size_t needed;
    for (size_t i = 0; i < sizeof wanted / sizeof wanted[0]; i++) {
        const uint8_t *line = (const uint8_t *)wanted[i].line;
        size_t len = strlen(wanted[i].line);
        CHECK(qtree_run(&device, wanted[i].line, 0, NULL) == QTREE_NO_COMMAND);
        CHECK(qtree_explain(line, len, 5, QTREE_NO_COMMAND, &fault, (uint8_t *)text, sizeof text - 1, &needed) == QTREE_DONE);
        text[needed] = '\0';
        snprintf(whole, sizeof whole, "line 5: %s\n        %s\n  %s\n", wanted[i].shown, wanted[i].mark, wanted[i].sentence);
        CHECK(strcmp(text, whole) == 0);
        CHECK(qtree_explain(line, len, 5, QTREE_NO_COMMAND, &fault, NULL, 0, &needed) == QTREE_ROOM && needed == strlen(text));
    }
    static const char *const commands[] = { "tc qdisc add dev a root handle 1: drr", "tc qdisc ad" };
    for (size_t i = 0; i < 2; i++) {
        const uint8_t *line = (const uint8_t *)commands[i];
        size_t len = strlen(commands[i]);
        CHECK(qtree_explain(line, len, 5, QTREE_NO_COMMAND, &fault, NULL, 0, &needed) == QTREE_OUT_OF_RANGE && needed == 0);
    }
    qtree_close(&device);
}

/* What is said of a fault that qtree_command did not write: the mark is under the word with its index, and another number is no fault. */
static void other_faults(void) {
    static const char line[] = "tc qdisc add dev a root handle 1: drr";
    static const struct {
        size_t word, before, marked;
    } wanted[] = { { 0, 0, 2 }, { 1, 0, 2 }, { 3, 9, 3 }, { 9, 34, 3 }, { 10, 38, 1 }, { SIZE_MAX, 38, 1 } };
    char text[300], begins[300];
    size_t needed;
    for (size_t i = 0; i < sizeof wanted / sizeof wanted[0]; i++) {
        for (uint32_t number = 0; number <= QTREE_FAULT_BAD_UTF8 + 1; number++) {
            const qtree_fault fault = { wanted[i].word, number };
            bool is_fault = number >= QTREE_FAULT_UNKNOWN_WORD && number <= QTREE_FAULT_BAD_UTF8;
            needed = 7;
            qtree_code code = qtree_explain((const uint8_t *)line, strlen(line), 5, QTREE_FAULTY, &fault, (uint8_t *)text, sizeof text, &needed);
            CHECK(code == (is_fault ? QTREE_DONE : QTREE_OUT_OF_RANGE) && (needed > 0) == is_fault);
            int len = snprintf(begins, sizeof begins, "line 5: %s\n        %*s%.*s\n  ", line, (int)wanted[i].before, "", (int)wanted[i].marked, "^^^");
            CHECK(!is_fault || (needed > (size_t)len && memcmp(text, begins, (size_t)len) == 0 && text[needed - 1] == '\n'));
        }
    }
}

/* Lines that are done, or refused for each reason that there is for a line of their kind. Each refusal has a sentence of its own, below a
 * mark under the word that it is about. */
static void refusals(void) {
    static const struct {
        const char *line;
        qtree_code code;
        const char *word, *sentence;
    } wanted[] = {
        { "tc qdisc add dev e root handle 1: drr", QTREE_DONE, NULL, NULL },
        { "tc class add dev e parent 1: classid 1:1 drr", QTREE_DONE, NULL, NULL },
        { "tc filter add dev e parent 1: prio 1 flower src_port 1 classid 1:1", QTREE_DONE, NULL, NULL },
        { "tc class add dev e parent 2: classid 1:2 drr", QTREE_REFUSED_NO_PARENT, "2:",
          "the parent and the class id differ in their major number. A class is one of its parent." },
        { "tc class add dev e parent 1: classid 1:1 drr", QTREE_REFUSED_EXISTS, "1:1", "the drr has this class. Change it by tc class change." },
        { "tc class add dev e parent 7: classid 7:2 drr", QTREE_REFUSED_NO_QDISC, "7:",
          "no qdisc has the major number of this class id. Add a drr of this handle first." },
        { "tc class change dev e classid 1:9 drr quantum 1500", QTREE_REFUSED_NO_CLASS, "1:9",
          "the drr has no such class. tc class show lists those that are there." },
        { "tc class del dev e classid 1:1", QTREE_REFUSED_BUSY, "1:1", "a filter leads to this class. Remove the filter first by tc filter del." },
        { "tc filter add dev e parent 7: prio 1 flower classid 7:1", QTREE_REFUSED_NO_QDISC, "7:",
          "no qdisc has the handle of this parent. Add that qdisc first; tc qdisc show lists those that are there." },
        { "tc filter add dev e parent 1: prio 1 flower classid 1:8", QTREE_REFUSED_NO_CLASS, "1:8",
          "the qdisc has no such class, or the class id has another major number. tc class show lists the classes." },
        { "tc filter del dev e parent 1: prio 9", QTREE_REFUSED_NO_FILTER, "9",
          "no filter of the qdisc has this prio. tc filter show lists those that are there." },
        { "tc qdisc add dev e parent 1:1 handle 2: pfifo", QTREE_DONE, NULL, NULL },
        { "tc filter add dev e parent 2: prio 1 flower classid 2:1", QTREE_REFUSED_NOT_CLASSFUL, "2:",
          "the qdisc is no prio and no drr, which alone take filters." },
        { "tc class add dev e parent 2: classid 2:1 drr", QTREE_REFUSED_NOT_CLASSFUL, "2:",
          "the qdisc is a pfifo, bfifo or fq_codel, which have no classes. A drr has them." },
        { "tc qdisc add dev e parent 2:1 pfifo", QTREE_REFUSED_NOT_CLASSFUL, "2:1",
          "the parent is a pfifo, bfifo or fq_codel, which have no classes. Choose a class of a prio, a tbf or a drr." },
        { "tc qdisc add dev e parent 5:1 pfifo", QTREE_REFUSED_NO_PARENT, "5:1",
          "no qdisc has the major number of this parent. Add that qdisc first; tc qdisc show lists those that are there." },
        { "tc qdisc add dev e parent 1:1 handle 3: pfifo", QTREE_REFUSED_EXISTS, "1:1",
          "a qdisc was added there before. Change it by tc qdisc change, or remove it by tc qdisc del first." },
        { "tc qdisc add dev e parent 1:8 pfifo", QTREE_REFUSED_NO_CLASS, "1:8",
          "the parent has no such class: a prio has one for each band, a tbf the class 1, and a drr those that tc class add adds." },
        { "tc class add dev e parent 1: classid 1:2 drr", QTREE_DONE, NULL, NULL },
        { "tc qdisc add dev e parent 1:2 handle 2: pfifo", QTREE_REFUSED_HANDLE_TAKEN, "2:",
          "another qdisc has this handle. Choose one that tc qdisc show does not list." },
        { "tc qdisc change dev e handle 2: bfifo limit 5000", QTREE_REFUSED_CANNOT_CHANGE, "bfifo",
          "the qdisc is of another kind, or has another number of flows. Remove it by tc qdisc del, and add it anew." },
        { "tc qdisc change dev e handle 9: pfifo", QTREE_REFUSED_NO_QDISC, "9:",
          "no qdisc that was added has this place and this handle. tc qdisc show lists them; one of handle 0 came by itself, and add replaces it." },
        { "tc qdisc add dev e parent 1:2 handle 4: prio bands 3", QTREE_DONE, NULL, NULL },
        { "tc class add dev e parent 4: classid 4:9 drr", QTREE_REFUSED_CANNOT_CHANGE, "4:9",
          "the classes of a prio or a tbf come with it. Those of a drr alone can be added, changed and removed." },
        { "tc filter add dev e parent 4: prio 1 flower classid 4:3", QTREE_DONE, NULL, NULL },
        { "tc qdisc change dev e handle 4: prio bands 2 priomap 1 1 1 1 1 1 1 1 1 1 1 1 1 1 1 1", QTREE_REFUSED_BUSY, "2",
          "a filter leads to a band that would go. Remove the filter first by tc filter del." },
    };
    qtree_device device = opened();
    const qtree_fault fault = { 0, 0 };
    for (size_t i = 0; i < sizeof wanted / sizeof wanted[0]; i++) {
        char text[600], whole[600];
        size_t needed;
        const char *line = wanted[i].line;
        CHECK(qtree_run(&device, line, 0, NULL) == wanted[i].code);
        if (wanted[i].code != QTREE_DONE) {
            const qtree_code code = qtree_explain((const uint8_t *)line, strlen(line), 1, wanted[i].code, &fault, (uint8_t *)text,
                                                  sizeof text - 1, &needed);
            CHECK(code == QTREE_DONE);
            text[needed] = '\0';
            const size_t marked = strlen(wanted[i].word), before = (size_t)(strchr(text, '^') - strchr(text, '\n')) - 1;
            CHECK(strncmp(text + before, wanted[i].word, marked) == 0);
            snprintf(whole, sizeof whole, "line 1: %s\n%*s%.*s\n  %s\n", line, (int)before, "", (int)marked, "^^^^^^", wanted[i].sentence);
            CHECK(strcmp(text, whole) == 0);
        }
    }
    qtree_close(&device);
}

int main(void) {
    causes();
    lines();
    sentences();
    ranges();
    numbered_frames();
    others();
    other_faults();
    refusals();
    puts("conveniences: each answers as the header says");
    return 0;
}
