/*
 * Puts each procedure of the input through a fixed list of calls and prints of each call the number, the answer and a sum of all words
 * of the memory and all bytes of the log; it runs alike on every processor.
 *
 * The input is two numbers, a call and a part whose lowest bit is turned in what is printed of that call (call 0: of none), and then for
 * each procedure its length and its bytes. Numbers have four bytes, the low one first. A line has the call's number, its name, what it
 * answered, the four words of the answer, the sum and, after a call that leaves an image, the words that it takes when it is packed.
 */
#include "port.h"

/* The memory lent: 16 words more than an image has, which no call may change. */
#define LENT (PANELRUE_WORDS + 16u)
#define ANSWERS 4u

/* The bytes of the log, of which the last ones are never lent. */
#define RECORDS 2016u
#define LOG (RECORDS - 16u)

static uint8_t file[65536];
static uint32_t length;
static uint32_t memory[LENT], kept[LENT];
static uint64_t answer[ANSWERS];
static uint8_t records[RECORDS];
static uint64_t used;
static uint32_t packed[PANELRUE_WORDS], unpacked[PANELRUE_WORDS];
static uint32_t calls, turned_call, turned_part;
static uint64_t state;

/* The next of a row of numbers that looks random. */
static uint32_t noise(void)
{
    state = state * 6364136223846793005u + 1442695040888963407u;
    return (uint32_t)(state >> 32);
}

/* Two sums of all words and bytes lent: what differs in one place alone differs in both. */
static uint64_t sum(void)
{
    uint32_t first = 2166136261u, second = 0;
    unsigned i;
    for (i = 0; i < LENT + RECORDS; i++) {
        uint32_t word = i < LENT ? memory[i] : records[i - LENT];
        first = (first ^ word) * 16777619u;
        second = (second + word) * 2246822519u;
    }
    return (uint64_t)first << 32 | second;
}

/* Turns a bit of the part that the input names: a word of the memory, then one of the answer, then a byte of the log, then the number. */
static void turn(uint64_t *number)
{
    if (calls != turned_call)
        return;
    if (turned_part < LENT)
        memory[turned_part] ^= 1;
    else if (turned_part < LENT + ANSWERS)
        answer[turned_part - LENT] ^= 1;
    else if (turned_part < LENT + ANSWERS + RECORDS)
        records[turned_part - LENT - ANSWERS] ^= 1;
    else
        *number ^= 1;
}

/* Prints the line of a call, but for its end. */
static void tell(const char *name, uint64_t number)
{
    unsigned i;
    calls++;
    turn(&number);
    port_put_number(calls);
    port_put(" ");
    port_put(name);
    port_put_number(number);
    for (i = 0; i < ANSWERS; i++)
        port_put_number(answer[i]);
    port_put_number(sum());
    turn(&number);
}

static void told(const char *name, uint64_t number)
{
    tell(name, number);
    port_end_line();
}

/* Packs the image and prints how many words that takes; says so where it is not the same when it is unpacked. */
static void tell_packed(void)
{
    unsigned i, count = port_pack(memory, packed, PANELRUE_WORDS);
    port_put(" packed");
    port_put_number(count);
    if (count == 0 || !port_unpack(packed, count, unpacked))
        port_put(" LOST");
    for (i = 0; i < PANELRUE_WORDS; i++)
        if (memory[i] != unpacked[i]) {
            port_put(" LOST");
            port_put_number(i);
            break;
        }
}

/* Prints the line of a call after which the memory is an image, where it is accepted. */
static void tell_image(const char *name, uint64_t number)
{
    tell(name, number);
    if (number == 0)
        tell_packed();
    port_end_line();
}

static void fill_answer(void)
{
    unsigned i;
    for (i = 0; i < ANSWERS; i++)
        answer[i] = (uint64_t)noise() << 32 | noise();
}

static void check(panelrue_size bytes)
{
    told("check", panelrue_check(file, bytes));
}

static void memory_check(panelrue_size words)
{
    told("memory", panelrue_memory_check(file, length, memory, words));
}

static void look(uint32_t variable, panelrue_size room)
{
    fill_answer();
    told("look", panelrue_look_up(file, length, memory, LENT, variable, answer, room));
}

/* Looks at some variables that may be there, and some that never are. */
static void look_around(void)
{
    static const uint32_t variables[] = {0, 1, 2, 3, 5, 8, 63, 64, 2147483648u, 4294967295u};
    unsigned i;
    for (i = 0; i < sizeof variables / sizeof variables[0]; i++)
        look(variables[i], PANELRUE_LOOK_ROOM);
    look(0, 1);
}

static void run(uint64_t allowance, panelrue_size room)
{
    fill_answer();
    tell_image("run", panelrue_run(file, length, memory, LENT, allowance, answer, room));
}

static void keep(void)
{
    unsigned i;
    for (i = 0; i < LENT; i++)
        kept[i] = memory[i];
}

static void restore(void)
{
    unsigned i;
    for (i = 0; i < LENT; i++)
        memory[i] = kept[i];
}

/* A logged run, and the used length that it answers, where it does. */
static void run_logged(uint64_t allowance, panelrue_size log_length, panelrue_size room)
{
    uint64_t number;
    fill_answer();
    number = panelrue_run_logged(file, length, memory, LENT, allowance, records, log_length, used, answer, room);
    if (number == 0 && room >= PANELRUE_RUN_LOGGED_ROOM)
        used = answer[3];
    tell_image("logged", number);
}

/* A step back, likewise; 0 where it is refused. */
static int step_back(panelrue_size room)
{
    uint64_t number;
    fill_answer();
    number = panelrue_step_back(file, length, memory, LENT, records, LOG, used, answer, room);
    if (number == 0 && room >= PANELRUE_BACK_ROOM)
        used = answer[0];
    tell_image("back", number);
    return number == 0;
}

/* Logged runs in pieces and all the way back, then with used lengths past the log, records that are damaged and too little room. */
static void logs(void)
{
    static const uint64_t past[] = {3, LOG - 20, LOG + 1, 4294967296u, 9223372036854775808u, 18446744073709551615u};
    unsigned i;
    for (i = 0; i < RECORDS; i++)
        records[i] = (uint8_t)noise();
    used = noise() % 40;
    for (i = 0; i < 4; i++)
        run_logged(5 * i, i < 3 ? LOG : (panelrue_size)used + 30 * i, PANELRUE_RUN_LOGGED_ROOM);
    for (i = 0; i < 4; i++) {
        uint8_t *byte = &records[((uint32_t)used + RECORDS - 1 - noise() % 30) % RECORDS], kept_byte = *byte;
        *byte ^= (uint8_t)(1u << noise() % 8);
        step_back(PANELRUE_BACK_ROOM);
        *byte = kept_byte;
    }
    while (step_back(PANELRUE_BACK_ROOM))
        continue;
    for (i = 0; i < sizeof past / sizeof past[0]; i++) {
        used = past[i];
        run_logged(2, LOG, PANELRUE_RUN_LOGGED_ROOM);
        step_back(PANELRUE_BACK_ROOM);
    }
    used = 0;
    run_logged(1, LOG, PANELRUE_RUN_LOGGED_ROOM - 1);
    step_back(PANELRUE_BACK_ROOM - 1);
    restore();
}

/* Changes some words of the memory, one at a time and by a bit or wholly, and asks what is made of it. */
static void damage(void)
{
    unsigned time;
    for (time = 0; time < 6; time++) {
        uint32_t place = time < 3 ? noise() % 5 : time < 5 ? 128 + noise() % 272 : noise() % PANELRUE_WORDS;
        memory[place] = time % 2 == 0 ? memory[place] ^ 1u << noise() % 3 : noise();
        memory_check(LENT);
        run(3, PANELRUE_RUN_ROOM);
        look(0, PANELRUE_LOOK_ROOM);
        restore();
    }
}

/* Changes a word of the packed image, or cuts it, and asks what is made of what is unpacked. */
static void damage_packed(void)
{
    unsigned time, count = port_pack(memory, packed, PANELRUE_WORDS);
    for (time = 0; time < 4 && count > 0; time++) {
        packed[noise() % count] ^= 1u << noise() % 32;
        port_put(port_unpack(packed, count - time % 2, memory) ? "whole" : "broken");
        memory_check(LENT);
        restore();
    }
}

/* Runs in pieces that make 10,000 steps, first of no step, of one, of seven and of thirty single ones, with all other calls between. */
static void pieces(void)
{
    static const uint64_t sizes[] = {0, 1, 7, 100, 9862};
    unsigned i, single;
    for (i = 0; i < sizeof sizes / sizeof sizes[0]; i++) {
        for (single = 0; i == 3 && single < 30; single++) {
            run(1, PANELRUE_RUN_ROOM);
            look(noise() % 4, PANELRUE_LOOK_ROOM);
        }
        run(sizes[i], PANELRUE_RUN_ROOM);
        memory_check(LENT);
        look_around();
        keep();
        if (i == 1 || i == 3)
            logs();
        if (i == 2 || i == 3)
            damage();
        if (i == 3)
            damage_packed();
    }
    run(1, 2);
}

/* The list of calls, from memory of noise. */
static void procedure(void)
{
    unsigned i;
    for (i = 0; i < LENT; i++)
        memory[i] = noise();
    check(length);
    check(length / 12 * 6);
    check(0);
    memory_check(LENT);
    run(5, PANELRUE_RUN_ROOM);
    look(0, PANELRUE_LOOK_ROOM);
    told("start", panelrue_start(file, length, memory, PANELRUE_WORDS - 1));
    tell_image("start", panelrue_start(file, length, memory, LENT));
    memory_check(PANELRUE_WORDS - 1);
    pieces();
}

void port_drive(void)
{
    uint32_t count = 0;
    if (!port_read_number(&turned_call) || !port_read_number(&turned_part))
        return;
    while (port_read_number(&length) && length <= sizeof file && port_read(file, length) == length) {
        state = ++count;
        port_put("procedure");
        port_put_number(count);
        port_end_line();
        procedure();
    }
    port_put("end");
    port_put_number(count);
    port_end_line();
}
