/*
 * Measures the proved library against plain C with the same tests, plain C without tests, and memcpy, and prints tables.
 * Before it measures, it makes sure that all do the same work.
 */
#include "call.h"
#include "compare.h"
#include "counts.h"
#include "work.h"

#include <stdio.h>
#include <stdlib.h>
#include <string.h>

enum { ROUNDS = 2001, GROWTH_ROUNDS = 501 };

static struct world worlds[MOST_COMPETITORS];
static const struct thayarqo_geometry usual = {1, 8, 68};

static void print_processor(void)
{
    char line[256];
    FILE *file = fopen("/proc/cpuinfo", "r");
    while (file != NULL && fgets(line, sizeof line, file) != NULL)
        if (strncmp(line, "model name", 10) == 0) {
            printf("Machine: %s", strchr(line, ':') + 2);
            break;
        }
    if (file != NULL)
        fclose(file);
}

static void print_machine(void)
{
    double load[1] = {0};
    print_processor();
    printf("Compiler of the C contestants: %s, %s\n", __VERSION__, FLAGS);
    if (getloadavg(load, 1) == 1)
        printf("Load at the start: %.2f\n", load[0]);
}

/* Starts a world for each contestant. */
static void line_up(struct competitor *competitors, work *work, struct thayarqo_geometry geometry, uint32_t slots)
{
    for (int i = 0; i < CONTESTANTS; i++) {
        start(&worlds[i], geometry, slots, client_rev);
        competitors[i] = (struct competitor){contestants[i].name, &contestants[i], work, &worlds[i], {0, 0, 0}};
    }
}

static void print_heading(const char *what)
{
    printf("\n| %s | proved ns | checked ns | bare ns | proved/checked | proved/bare |\n|---|---|---|---|---|---|\n", what);
}

static void print_times(struct times times)
{
    printf(" %.2f (%.2f to %.2f) |", times.median, times.fastest, times.ninth);
}

/* The ratio of the medians, and that of the fastest rounds, in which the machine's own noise is smallest. */
static void print_ratio(struct times proved, struct times other)
{
    printf(" %.2f (%.2f) |", proved.median / other.median, proved.fastest / other.fastest);
}

static void print_row(const char *name, const struct competitor *competitors)
{
    printf("| %s |", name);
    for (int i = 0; i < CONTESTANTS; i++)
        print_times(competitors[i].times);
    print_ratio(competitors[0].times, competitors[1].times);
    print_ratio(competitors[0].times, competitors[2].times);
    printf("\n");
}

static void measure_row(const char *name, work *work, struct thayarqo_geometry geometry, uint32_t slots, int rounds)
{
    struct competitor competitors[CONTESTANTS];
    line_up(competitors, work, geometry, slots);
    measure(competitors, CONTESTANTS, rounds, 200, 1);
    print_row(name, competitors);
}

static void measure_calls(void)
{
    print_heading("work");
    measure_row("three-event packet put, read by steps until nothing is left", packet_and_steps, usual, 60, ROUNDS);
    client_rev = 0;
    measure_row("revision 1 packet of three events put, read by steps until nothing is left", revision1_packet_and_steps, usual, 60,
                ROUNDS);
    client_rev = 2;
    measure_row("keyboard ring event put and taken, nine kinds in turn", ring_put_and_take, usual, 60, ROUNDS);
    measure_row("keyboard ring motion encoded and put", ring_encode_and_put, usual, 60, ROUNDS);
    register_offset = 0x104;
    measure_row("register read, EVENT_SIZE", register_read, usual, 60, ROUNDS);
    register_offset = 0x100;
    measure_row("register read, CONTROL", register_read, usual, 60, ROUNDS);
    register_offset = PAGE + 800;
    measure_row("register read, a word of the event area", register_read, usual, 60, ROUNDS);
}

static void measure_copies(uint32_t record_size)
{
    struct competitor competitors[MOST_COMPETITORS];
    struct thayarqo_geometry geometry = {1, record_size, 68};
    int count = record_size == 8 ? 5 : 4;
    line_up(competitors, full_copy_out, geometry, 10);
    for (int i = CONTESTANTS; i < count; i++) {
        start(&worlds[i], geometry, 10, client_rev);
        competitors[i] = (struct competitor){"memcpy", &contestants[0], i == 3 ? full_memcpy_each : full_memcpy_all, &worlds[i], {0, 0, 0}};
    }
    measure(competitors, count, ROUNDS, 20, ring_length(&worlds[0]) - 1);
    printf("| %u |", record_size);
    for (int i = 0; i < count; i++)
        print_times(competitors[i].times);
    printf("%s", count == 4 ? " |" : "");
    print_ratio(competitors[0].times, competitors[1].times);
    print_ratio(competitors[0].times, competitors[3].times);
    printf("\n");
}

static void measure_all_copies(void)
{
    printf("\n| full ring copied out, for one record of so many bytes | proved ns | checked ns | bare ns | memcpy each ns | memcpy all ns "
           "| proved/checked | proved/memcpy each |\n|---|---|---|---|---|---|---|---|\n");
    for (uint32_t record_size = 8; record_size <= 64; record_size *= 2)
        measure_copies(record_size);
}

static void measure_growth_of_sizes(void)
{
    char name[40];
    print_heading("three-event packet and steps, by size");
    for (uint32_t pages = 1; pages <= 8; pages *= 2) {
        snprintf(name, sizeof name, "%u pages", pages);
        measure_row(name, packet_and_steps, (struct thayarqo_geometry){pages, 8, 68}, 1, GROWTH_ROUNDS);
    }
    for (uint32_t record_size = 8; record_size <= 64; record_size *= 2) {
        snprintf(name, sizeof name, "records of %u bytes", record_size);
        measure_row(name, packet_and_steps, (struct thayarqo_geometry){1, record_size, 68}, 1, GROWTH_ROUNDS);
    }
}

static void measure_growth_of_slots(void)
{
    char name[40];
    print_heading("three-event packet and steps, by slot");
    for (packet_slot = 0; packet_slot < 60; packet_slot += packet_slot == 0 ? 30 : 29) {
        snprintf(name, sizeof name, "slot %u, %u taken", packet_slot, packet_slot + 1);
        measure_row(name, packet_and_steps, usual, packet_slot + 1, GROWTH_ROUNDS);
    }
    packet_slot = 0;
    measure_row("slot 0, all taken", packet_and_steps, usual, 60, GROWTH_ROUNDS);
}

static void measure_growth_of_events(const char *what, work *work)
{
    char name[40];
    print_heading(what);
    for (packet_events = 1; packet_events <= 32; packet_events *= 2) {
        snprintf(name, sizeof name, "%u events", packet_events);
        measure_row(name, work, usual, 1, GROWTH_ROUNDS);
    }
    packet_events = 3;
}

static void measure_ring_kinds(void)
{
    static const char *const names[RING_KINDS] = {"motion", "key", "position", "touch down", "touch up", "touch motion", "touch report",
                                                  "touch shape", "touch orientation"};
    print_heading("keyboard ring event put and taken");
    for (ring_kind = 0; ring_kind < RING_KINDS; ring_kind++)
        measure_row(names[ring_kind], ring_put_and_take, usual, 1, GROWTH_ROUNDS);
    ring_kind = RING_KINDS;
}

/* Four arguments ask for puts alone, which `bench/counts` lets callgrind count, and the word compare for the comparison alone. */
int main(int argc, char **argv)
{
    if (argc == 5) {
        make_puts(argv[1], argv[2], (uint32_t)atoi(argv[3]), (uint32_t)atoi(argv[4]));
        return 0;
    }
    if (argc == 2 && strcmp(argv[1], "compare") == 0) {
        compare_contestants();
        return 0;
    }
    print_machine();
    compare_contestants();
    prepare_work();
    measure_calls();
    measure_all_copies();
    measure_growth_of_sizes();
    measure_growth_of_slots();
    measure_growth_of_events("packet put, by events", packet_put);
    measure_growth_of_events("packet and steps, by events", packet_and_steps);
    measure_ring_kinds();
    return 0;
}
