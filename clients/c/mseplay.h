/* mseplay for C, in two forms: mseplay_run does in one call what a run of the program does, and mseplay_open begins a
 * session, whose steps are done one at a time.
 *
 * Link libmseplay_c.a, which `rt lib` makes in crates/mseplay_c, and heap.c. */
#ifndef MSEPLAY_H
#define MSEPLAY_H

#include <stddef.h>
#include <stdint.h>

#ifdef __cplusplus
extern "C" {
#endif

struct mseplay_byte_slice {
    const uint8_t *data;
    size_t length;
};

struct mseplay_file {
    struct mseplay_byte_slice name;
    struct mseplay_byte_slice bytes;
};

/* Does what the words ask for with these files, and returns the status that the program would end with: 0 to 9
 * (docs/SCRIPTS.md, "Commands"), but never 3 or 4. The words are those behind the program's name; where one of them is
 * no text in UTF-8, there are none. Of two files of one name the first counts.
 *
 * What is printed goes into the room from its start on, as many of its bytes as there is room for; behind it the room
 * stays as it was. `written` is then how many bytes are printed: where they are more than `size`, a call with more room
 * gives them all. Where there is no memory the status is 5, and what is printed is a front of it.
 *
 * The caller keeps to this, and nothing checks it: each pointer is aligned for its type, leads to as many elements
 * as its count says, and is never null, also where the count is 0; no array is longer than SIZE_MAX / 2 bytes; the
 * room and `written` overlap nothing else; nothing that is handed in changes or is freed during the call; and the
 * function is called neither from a signal handler nor in the forked child of a process with threads. Calls share
 * nothing, so threads may call at the same time. The function keeps no pointer, and gives back all memory that it
 * took. */
uint8_t mseplay_run(const struct mseplay_byte_slice *words, size_t word_count,
                    const struct mseplay_file *files, size_t file_count,
                    uint8_t *room, size_t size, size_t *written);

/* A session: the engine of `mseplay play`, which does a step when it is told to.
 *
 * `*session` is the caller's variable: NULL before the first mseplay_open, and NULL again behind mseplay_close. Between the two
 * it leads to what belongs to the library. Each call on a session takes the variable's address, and may leave another
 * pointer there. A call that finds NULL prints nothing and answers MSEPLAY_NO_SESSION, if it answers a status.
 *
 * The caller keeps to this, and nothing checks it: beside what is said at mseplay_run of pointers and counts,
 * `*session` is NULL or what the last call on the session left there, and no copy of it is kept; of one session one
 * call runs at a time; and nothing that a call is handed overlaps anything else that it is handed. Sessions share
 * nothing, so several threads may have some each. What a session still has is given back by mseplay_close, or by a
 * mseplay_open over it. */
struct mseplay_session;

/* What a call answers, where nothing else is said at it. */
enum mseplay_status {
    MSEPLAY_DONE = 0,
    /* There is no such step or buffer, or a number is out of its range: nothing changed, and nothing is printed. */
    MSEPLAY_NOT_THERE = 2,
    /* There was no memory. Where it came of mseplay_step, the session has ended: each later call on it answers this, does
     * nothing and prints nothing. It is still to be closed. */
    MSEPLAY_NO_MEMORY = 5,
    /* The step names a blob that was not handed over, or is forgotten: nothing changed, and nothing is printed. */
    MSEPLAY_NO_BYTES = 8,
    MSEPLAY_NO_SESSION = 10
};

/* The error that a refused call would throw (docs/SCRIPTS.md, "Lines of calls and events"). */
enum mseplay_refusal {
    MSEPLAY_NOT_REFUSED = 0,
    MSEPLAY_INVALID_STATE_ERROR = 1,
    MSEPLAY_NOT_SUPPORTED_ERROR = 2,
    MSEPLAY_QUOTA_EXCEEDED_ERROR = 3,
    MSEPLAY_TYPE_ERROR = 4,
    MSEPLAY_NOT_FOUND_ERROR = 5,
    MSEPLAY_NO_SUCH_BUFFER = 6,
    MSEPLAY_NO_SUCH_BYTES = 7
};

/* What a drain does next. */
enum mseplay_next_step {
    MSEPLAY_NEXT_NONE = 0,
    MSEPLAY_NEXT_FIRE = 1,
    MSEPLAY_NEXT_WORK = 2,
    MSEPLAY_NEXT_ELEMENT = 3
};

/* high * 2^64 + low ticks; a second has 141,120,000,000. */
struct mseplay_ticks {
    uint64_t low;
    int64_t high;
};

enum mseplay_time_kind { MSEPLAY_NAN = 0, MSEPLAY_TICKS = 1, MSEPLAY_INFINITE = 2 };

struct mseplay_time {
    uint32_t kind;
    struct mseplay_ticks ticks; /* 0 where the kind is not MSEPLAY_TICKS */
};

/* From `start` on and before `end`. */
struct mseplay_range {
    struct mseplay_ticks start;
    struct mseplay_ticks end;
};

/* The first fault of all buffers (docs/SCRIPTS.md, "Faults"). */
struct mseplay_fault {
    uint8_t number;     /* 0: there is none */
    uint8_t inner;      /* of `Init` and `Moof` which of the names that follow them there, from 1 on; else 0 */
    uint8_t missing[4]; /* of `Missing` the type of the box, else zero bytes */
    uint32_t buffer;
    uint64_t offset;
};

/* What a page reads of the source and of the element. */
struct mseplay_look {
    uint8_t source; /* 0 closed, 1 open, 2 ended */
    uint8_t level;  /* HTML's readyState, 0 to 4 */
    uint8_t paused;
    uint8_t seeking;
    uint8_t ended;
    uint8_t error; /* the code, and 0 without one */
    uint8_t is_seekable;
    struct mseplay_time duration; /* of the source */
    struct mseplay_ticks position;
    struct mseplay_ticks start_position; /* the default playback start position: where it is not 0, currentTime is it */
    struct mseplay_range seekable;       /* where is_seekable is 1; both ends can be sought */
    size_t ranges;                       /* how many ranges the element has buffered */
    uint32_t made;                       /* how many source buffers were ever made: their numbers are those below it */
    struct mseplay_fault fault;
};

/* What a page reads of a source buffer, and what it holds. */
struct mseplay_buffer_look {
    uint8_t updating;
    uint8_t active; /* 1 where it is in activeSourceBuffers */
    uint8_t mode;   /* 0 segments, 1 sequence */
    uint8_t phase;  /* 0 waiting, 1 init, 2 media */
    struct mseplay_ticks timestamp_offset;
    struct mseplay_ticks append_window_start;
    struct mseplay_time append_window_end;
    uint64_t held; /* bytes of its input that are kept for an item that has yet to come */
    uint64_t used; /* bytes of its coded frames: what the quota counts */
    size_t ranges; /* how many ranges it has buffered */
    size_t tracks;
};

struct mseplay_track_look {
    uint32_t id;      /* the track's number in the file */
    uint8_t kind;     /* 0 video, 1 audio; 2 would be another, which no track is */
    uint8_t codec[4]; /* the type of its sample entry */
    uint64_t frames;
    size_t ranges; /* how many ranges they cover */
};

/* The sizes of the library's structs: where one differs, this line does not compile. */
#define MSEPLAY_SIZE(name, size) typedef char mseplay_size_of_##name[sizeof(struct mseplay_##name) == (size) ? 1 : -1]
MSEPLAY_SIZE(byte_slice, 16);
MSEPLAY_SIZE(file, 32);
MSEPLAY_SIZE(ticks, 16);
MSEPLAY_SIZE(time, 24);
MSEPLAY_SIZE(range, 32);
MSEPLAY_SIZE(fault, 24);
MSEPLAY_SIZE(look, 136);
MSEPLAY_SIZE(buffer_look, 96);
MSEPLAY_SIZE(track_look, 32);
#undef MSEPLAY_SIZE

/* Opens a session with the keys `quota`, 1 to 2^40 bytes, and `gap`, 0 to 2^40 ticks, of a script. A session that
 * `*session` led to is closed; unless the call is done, it stays as it was. */
uint8_t mseplay_open(uint64_t quota, uint64_t gap, struct mseplay_session **session);

/* Hands over the bytes of the next blob, which are copied: the first blob has the number 0. Where there is no memory
 * nothing changed. */
uint8_t mseplay_give(struct mseplay_session **session, const uint8_t *bytes, size_t length);

/* Forgets the blobs given so far with numbers below `before`: no later step may name them, and their memory is given back once no
 * buffer needs it. Numbers stay as they are. Where there is no memory nothing changed. */
uint8_t mseplay_forget(struct mseplay_session **session, size_t before);

/* Does the step of a line: a call line or a step line of a script (docs/SCRIPTS.md). MSEPLAY_NOT_THERE: the line is no
 * step. MSEPLAY_NO_BYTES: it names a blob that was not handed over, or is forgotten.
 *
 * What the step prints goes into the room from its start on, as many of its bytes as there is room for; behind it
 * the room stays as it was. `written` is then how many bytes are printed, and `refused` a number of mseplay_refusal.
 * The texts of all steps that were done, put together, are what `mseplay play` prints of a script of these steps, over
 * the blobs given, before its block. Where there was no memory, what is printed is a front of the step's lines; behind that nothing is printed. */
uint8_t mseplay_step(struct mseplay_session **session, const uint8_t *line, size_t line_length,
                     uint8_t *room, size_t size, size_t *written, uint8_t *refused);

/* Puts what the last step or block printed into a room once more, as where the first had not enough. */
void mseplay_printed(struct mseplay_session **session, uint8_t *room, size_t size);

/* The step that a drain does next, a number of mseplay_next_step; `buffer` is K of `work K`, else 0. A session that
 * has ended answers MSEPLAY_NO_MEMORY, and NULL MSEPLAY_NO_SESSION; then `buffer` stays as it was. */
uint8_t mseplay_next(struct mseplay_session **session, uint32_t *buffer);

/* Looks at source and element. The ranges that the element has buffered go into their room, as many as there is room
 * for; behind them the room stays as it was. Where there is no memory nothing is written. */
uint8_t mseplay_look(struct mseplay_session **session, struct mseplay_look *found,
                     struct mseplay_range *ranges, size_t range_room);

/* Looks at the source buffer of a number. MSEPLAY_NOT_THERE: it is not in the list of source buffers.
 *
 * Its tracks go into their room. Its ranges go into theirs, and behind them those of each track in the order of
 * the tracks. Of both as many go in as there is room for; behind them the room stays as it was. Unless it is done
 * nothing is written. */
uint8_t mseplay_look_at(struct mseplay_session **session, uint32_t number, struct mseplay_buffer_look *found,
                        struct mseplay_track_look *tracks, size_t track_room,
                        struct mseplay_range *ranges, size_t range_room);

/* Prints, as mseplay_step does, the lines that close a script of the steps so far: the state and the block. The
 * session goes on, also where there was no memory and a front of them was printed. */
uint8_t mseplay_block(struct mseplay_session **session, uint8_t *room, size_t size, size_t *written);

/* Ends a session, gives back all memory that it has, and leaves NULL. */
void mseplay_close(struct mseplay_session **session);

#ifdef __cplusplus
}
#endif

#endif
