/*
 * A host that runs a procedure 100 steps at a time, each time in a process of its own, with the memory kept in a file between them.
 *
 *   handheld start FILE MEMORY            starts the procedure and stores the memory
 *   handheld go FILE MEMORY [LOG]         loads the memory, checks it, takes at most 100 steps and stores it again
 *   handheld back FILE MEMORY LOG         loads the memory and the log, takes one logged step back and stores both again
 *   handheld look FILE MEMORY VARIABLE    loads the memory and shows what a variable of the running function holds
 *
 * It prints one line, and its exit status says what came of it: 0 done or ended, 1 goes on, 2 no room, 3 refused, 4 trouble with the
 * command or a file. The stored memory is 16,384 words, low byte first; it is replaced as a whole or left as it was.
 *
 * Where a log is named, each step has a record in it. Its file has the records alone, at most 1 MiB of them, and need not be there before
 * the first. Where the next record has no room, the line says "Log full" with the steps taken until then: go on without the log, or with
 * the name of a new one.
 *
 * Memory and log are two files, so the power may fail between the two stores. The order is such that no record is lost then: `go` stores
 * the log first, and `back` the memory. What can be left is a log with records at its end of steps that the memory has not taken; a step
 * back by such a record is refused by question 18 and changes nothing, since it does not lead to this memory.
 */
#define _POSIX_C_SOURCE 200112L

#include "panelrue.h"
#include "panelrue_text.h"

#include <errno.h>
#include <stdio.h>
#include <stdlib.h>
#include <string.h>
#include <unistd.h>

enum status { DONE = 0, GOES_ON = 1, NO_ROOM = 2, REFUSED = 3, TROUBLE = 4 };

/* The steps of one go. */
#define TURN 100u

/* The bytes of a stored memory. */
#define STORED (4u * PANELRUE_WORDS)

/* The procedure, cut after one byte more than the longest has, so that question 1 refuses a longer one. */
static uint8_t file[PANELRUE_LONGEST_FILE + 1];
static size_t length;

/* The memory, with as many words as its file held. */
static uint32_t memory[PANELRUE_WORDS];
static size_t words;

/* The bytes of the memory's file, with room to see that there are too many. */
static uint8_t bytes[STORED + 1];

/* The most bytes of a log. */
#define LOG_ROOM 1048576u

/* The log, with room to see that its file has too many bytes, and its used length, which is all that is stored. */
static uint8_t records[LOG_ROOM + 1];
static uint64_t used;

/* Says what is wrong with a file. */
static enum status trouble(const char *name, const char *reason)
{
    fprintf(stderr, "handheld: %s: %s\n", name, reason);
    return TROUBLE;
}

/* Prints a refusal. */
static enum status refused(uint64_t number)
{
    printf("refused %u place %lu item %u\n", PANELRUE_QUESTION(number), PANELRUE_PLACE(number), PANELRUE_ITEM(number));
    return REFUSED;
}

/* A word of 32 bits read as signed. */
static long long signed_word(uint64_t word)
{
    return word < 2147483648u ? (long long)word : (long long)word - 4294967296LL;
}

/* Reads at most so many bytes of a file. */
static enum status load(const char *name, uint8_t *into, size_t most, size_t *got)
{
    FILE *from = fopen(name, "rb");
    int failed;
    if (from == NULL)
        return trouble(name, strerror(errno));
    *got = fread(into, 1, most, from);
    failed = ferror(from);
    fclose(from);
    return failed ? trouble(name, "cannot be read") : DONE;
}

/* Reads the memory's file; one that is too short gives fewer words, which question 15 refuses. */
static enum status load_memory(const char *name)
{
    size_t got, i;
    enum status status = load(name, bytes, sizeof bytes, &got);
    if (status != DONE)
        return status;
    if (got > STORED)
        return trouble(name, "is longer than a stored memory");
    words = got / 4;
    for (i = 0; i < words; i++) {
        const uint8_t *at = bytes + 4 * i;
        memory[i] = at[0] | (uint32_t)at[1] << 8 | (uint32_t)at[2] << 16 | (uint32_t)at[3] << 24;
    }
    return DONE;
}

/* Reads the log's file; one that is not there is a log without records. */
static enum status load_log(const char *name)
{
    size_t got = 0;
    enum status status = DONE;
    if (access(name, F_OK) == 0 || errno != ENOENT)
        status = load(name, records, sizeof records, &got);
    if (status == DONE && got > LOG_ROOM)
        return trouble(name, "is longer than a log");
    used = got;
    return status;
}

/* Writes bytes into an open file and closes it; 0 unless all of them have reached it. */
static int write_all(FILE *to, const uint8_t *from, size_t count)
{
    int written = fwrite(from, 1, count, to) == count && fflush(to) == 0 && fsync(fileno(to)) == 0;
    return fclose(to) == 0 && written;
}

/* Stores bytes in a file beside the old one and then puts it in its place, so that one of the two is always whole. */
static enum status store(const char *name, const uint8_t *from, size_t count)
{
    char beside[4096];
    FILE *to;
    int made = snprintf(beside, sizeof beside, "%s.new", name);
    if (made < 0 || (size_t)made >= sizeof beside)
        return trouble(name, "has too long a name");
    to = fopen(beside, "wb");
    if (to == NULL)
        return trouble(beside, strerror(errno));
    if (!write_all(to, from, count) || rename(beside, name) != 0) {
        enum status status = trouble(name, strerror(errno));
        remove(beside);
        return status;
    }
    return DONE;
}

/* Stores the memory. */
static enum status store_memory(const char *name)
{
    size_t i;
    for (i = 0; i < STORED; i++)
        bytes[i] = (uint8_t)(memory[i / 4] >> 8 * (i % 4));
    return store(name, bytes, STORED);
}

/* Starts the procedure in memory of any content. */
static enum status start(const char *name)
{
    enum status status;
    uint64_t number = panelrue_start(file, length, memory, PANELRUE_WORDS);
    if (number != 0)
        return refused(number);
    status = store_memory(name);
    if (status == DONE)
        puts("started");
    return status;
}

/* Prints how a run stopped. */
static enum status ended(const uint64_t *answer)
{
    printf("%s", panelrue_outcome_name(answer[0]));
    if (answer[0] == PANELRUE_VALUE)
        printf(" %lld", signed_word(answer[1]));
    printf(" steps %llu\n", (unsigned long long)answer[2]);
    if (answer[0] == PANELRUE_SPENT)
        return GOES_ON;
    return answer[0] == PANELRUE_FULL || answer[0] == PANELRUE_LOG_FULL ? NO_ROOM : DONE;
}

/* Checks the loaded memory, goes on from it and stores it again. */
static enum status go(const char *name)
{
    uint64_t answer[PANELRUE_RUN_ROOM];
    enum status status = load_memory(name);
    uint64_t number;
    if (status != DONE)
        return status;
    number = panelrue_memory_check(file, length, memory, words);
    if (number != 0)
        return refused(number);
    number = panelrue_run(file, length, memory, words, TURN, answer, PANELRUE_RUN_ROOM);
    if (number != 0)
        return refused(number);
    status = store_memory(name);
    return status == DONE ? ended(answer) : status;
}

/* The same with a log, which is stored first, so that it has a record of every step that the stored memory has taken. */
static enum status go_logged(const char *name, const char *log)
{
    uint64_t answer[PANELRUE_RUN_LOGGED_ROOM];
    enum status status = load_memory(name);
    uint64_t number;
    if (status == DONE)
        status = load_log(log);
    if (status != DONE)
        return status;
    number = panelrue_run_logged(file, length, memory, words, TURN, records, LOG_ROOM, used, answer, PANELRUE_RUN_LOGGED_ROOM);
    if (number != 0)
        return refused(number);
    used = answer[3];
    status = store(log, records, (size_t)used);
    if (status == DONE)
        status = store_memory(name);
    return status == DONE ? ended(answer) : status;
}

/* Takes one step back; the memory is stored first, so that the record is kept until it has been used. */
static enum status back(const char *name, const char *log)
{
    uint64_t answer[PANELRUE_BACK_ROOM];
    enum status status = load_memory(name);
    uint64_t number;
    if (status == DONE)
        status = load_log(log);
    if (status != DONE)
        return status;
    number = panelrue_step_back(file, length, memory, words, records, LOG_ROOM, used, answer, PANELRUE_BACK_ROOM);
    if (number != 0)
        return refused(number);
    used = answer[0];
    status = store_memory(name);
    if (status == DONE)
        status = store(log, records, (size_t)used);
    if (status == DONE)
        printf("back, log of %llu bytes\n", (unsigned long long)used);
    return status;
}

/* Shows a variable of the function that is running. */
static enum status look(const char *name, const char *variable)
{
    uint64_t answer[PANELRUE_LOOK_ROOM];
    char *end;
    unsigned long x = strtoul(variable, &end, 10);
    enum status status = load_memory(name);
    uint64_t number;
    if (status != DONE)
        return status;
    if (*variable == '\0' || *end != '\0' || x > 4294967295u)
        return trouble(variable, "is no variable's number");
    number = panelrue_look_up(file, length, memory, words, (uint32_t)x, answer, PANELRUE_LOOK_ROOM);
    if (number != 0)
        return refused(number);
    printf("%s", panelrue_type_name(answer[0]));
    if (answer[0] == PANELRUE_INT)
        printf(" %lld", signed_word(answer[1]));
    else if (answer[0] == PANELRUE_BOOL)
        printf(answer[1] == 1 ? " true" : " false");
    puts("");
    return DONE;
}

/* Whether the command is this one, with so many words. */
static int is(const char *name, int words_wanted, int count, char **argument)
{
    return count == words_wanted && strcmp(argument[1], name) == 0;
}

/* Loads the procedure and does what the command says. */
static enum status command(int count, char **argument)
{
    int is_start = is("start", 4, count, argument), is_go = is("go", 4, count, argument);
    int is_logged = is("go", 5, count, argument), is_back = is("back", 5, count, argument);
    enum status status;
    if (!is_start && !is_go && !is_logged && !is_back && !is("look", 5, count, argument)) {
        fputs("handheld start FILE MEMORY | go FILE MEMORY [LOG] | back FILE MEMORY LOG | look FILE MEMORY VARIABLE\n", stderr);
        return TROUBLE;
    }
    status = load(argument[2], file, sizeof file, &length);
    if (status != DONE)
        return status;
    if (is_start || is_go)
        return is_start ? start(argument[3]) : go(argument[3]);
    if (is_logged || is_back)
        return is_logged ? go_logged(argument[3], argument[4]) : back(argument[3], argument[4]);
    return look(argument[3], argument[4]);
}

/* Ends with the command's status. */
int main(int count, char **argument)
{
    return (int)command(count, argument);
}
