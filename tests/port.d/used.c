/*
 * Packs the words of an image that may be other than zero and unpacks them again, as docs/IMAGE.md has it under "Storing less".
 */
#include "port.h"

#define ACTIVATIONS_AT 128u
#define ACTIVATION 136u
#define ACTIVATION_ROOM 32u
#define VARIABLES_FROM 8u
#define VARIABLE_ROOM 64u
#define FRAMES_AT 4480u
#define FRAME 20u
#define FRAME_ROOM 512u
#define SLOTS_FROM 4u
#define SLOT_ROOM 7u

/* A way through an image: its memory, the packed words, how many of them are done and how many there are, and the direction. */
struct way {
    uint32_t *memory, *packed;
    unsigned done, room;
    int unpacks;
};

/* Moves words of the memory, from a place on, to the packed ones or back; 0 where there are too few. */
static int move(struct way *way, unsigned at, unsigned count)
{
    unsigned i;
    if (count > way->room - way->done)
        return 0;
    for (i = 0; i < count; i++)
        if (way->unpacks)
            way->memory[at + i] = way->packed[way->done + i];
        else
            way->packed[way->done + i] = way->memory[at + i];
    way->done += count;
    return 1;
}

/* Moves an activation: its three counts, and its variables. */
static int move_activation(struct way *way, unsigned at)
{
    const uint32_t *words = way->memory + at;
    return move(way, at, 3) && words[2] <= VARIABLE_ROOM && move(way, at + VARIABLES_FROM, 2 * words[2]);
}

/* Moves a frame: its kind and three words, and for kinds 1 and 2 its values and nodes. */
static int move_frame(struct way *way, unsigned at)
{
    const uint32_t *words = way->memory + at;
    if (!move(way, at, SLOTS_FROM))
        return 0;
    if (words[0] != 1 && words[0] != 2)
        return 1;
    return words[2] <= SLOT_ROOM && words[3] <= SLOT_ROOM - words[2] && move(way, at + SLOTS_FROM, 2 * (words[2] + words[3]));
}

/* Moves all activations, and then as many frames as they count. */
static int move_running(struct way *way)
{
    const uint32_t *memory = way->memory;
    unsigned i, frames = 0;
    if (!move(way, 1, 4) || memory[2] > ACTIVATION_ROOM)
        return 0;
    for (i = 0; i < memory[2]; i++) {
        unsigned at = ACTIVATIONS_AT + ACTIVATION * i;
        if (!move_activation(way, at) || memory[at + 1] > FRAME_ROOM - frames)
            return 0;
        frames += memory[at + 1];
    }
    for (i = 0; i < frames; i++)
        if (!move_frame(way, FRAMES_AT + FRAME * i))
            return 0;
    return 1;
}

/* Moves an image, by its tag. */
static int move_image(struct way *way)
{
    if (!move(way, 0, 1))
        return 0;
    if (way->memory[0] == 2)
        return move_running(way);
    return way->memory[0] != 3 && way->memory[0] != 4 ? 1 : move(way, 1, 1);
}

unsigned port_pack(uint32_t *memory, uint32_t *packed, unsigned room)
{
    struct way way = {memory, packed, 0, room, 0};
    return move_image(&way) ? way.done : 0;
}

int port_unpack(uint32_t *packed, unsigned count, uint32_t *memory)
{
    struct way way = {memory, packed, 0, count, 1};
    unsigned i;
    for (i = 0; i < PANELRUE_WORDS; i++)
        memory[i] = 0;
    return move_image(&way) && way.done == count;
}
