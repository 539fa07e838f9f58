/* What the parts of hostile.c share. */
#ifndef HOSTILE_H
#define HOSTILE_H

#include <stdbool.h>
#include <stddef.h>
#include <stdint.h>

#include "mseplay.h"

typedef __int128 ticks;

/* chance.c: numbers that come of a seed. One expression draws two of them only where their order is certain. */

struct chance {
    uint64_t state;
};

struct chance chance_of(uint64_t seed);
uint64_t draw(struct chance *chance);
/* A number below `count`, which is not 0. */
size_t below(struct chance *chance, size_t count);
bool one_in(struct chance *chance, size_t count);

#define COUNT_OF(list) (sizeof(list) / sizeof *(list))
#define ONE_OF(chance, list) ((list)[below((chance), COUNT_OF(list))])

/* text.c: bytes that grow. The room stays when a text is emptied. */

struct text {
    uint8_t *at;
    size_t length, size;
};

/* Makes room for so many bytes behind the end; where it begins. */
uint8_t *text_room(struct text *text, size_t count);
void text_bytes(struct text *text, const void *bytes, size_t length);
void text_word(struct text *text, const char *word);
void text_ticks(struct text *text, ticks value);
__attribute__((format(printf, 2, 3))) void text_format(struct text *text, const char *format, ...);

/* heap.c: the memory of the library, counted. */

struct heap {
    size_t blocks, bytes, most;           /* handed out; `most` is the greatest that `bytes` was */
    uint64_t asked;                       /* how many allocations were asked for */
    uint64_t refused_from, refused_until; /* those of these numbers are refused, counted from 0 */
    uint64_t refused;                     /* how many were */
};

extern struct heap heap;
/* Counts anew what is asked for, and refuses none. */
void heap_anew(void);

/* corpus.c: bytes to append. */

struct corpus {
    struct mseplay_byte_slice *files;
    size_t count, small; /* the first `small` are short */
};

void corpus_read(struct corpus *corpus, char **paths, size_t count);
enum bytes_kind { BYTES_MP4, BYTES_ADTS, BYTES_OTHER };
/* Puts the bytes of a blob behind a text. */
void hostile_bytes(struct text *text, struct chance *chance, const struct corpus *corpus, enum bytes_kind kind);
/* Damages the bytes of a text from a place on. */
void damage(struct text *text, size_t from, struct chance *chance);

/* segments.c: boxes and ADTS frames that are made. */

void make_mp4(struct text *text, struct chance *chance, const struct corpus *corpus);
void make_adts(struct text *text, struct chance *chance);
void put_number(uint8_t *at, uint64_t number, size_t bytes);

/* samples.c */

/* How many samples the runs in some bytes announce. */
uint64_t samples_of(const uint8_t *bytes, size_t length);

/* lines.c: step lines that are made, good ones and others. */

struct scene {
    size_t buffers, given, lengths[40];
};

void make_call(struct text *text, struct chance *chance, const struct scene *scene);
void make_bad_line(struct text *text, struct chance *chance, const struct scene *scene);
void make_type(struct text *text, struct chance *chance);

/* steps.c: what a line is, by docs/SCRIPTS.md. */

struct told_time {
    enum mseplay_time_kind kind;
    ticks ticks;
};

enum answer_kind { ANSWER_DONE, ANSWER_RANGES, ANSWER_RANGE, ANSWER_SOURCE };

struct step_kind {
    const char *name, *words;
    bool is_call, finite[2];  /* which of its times must be finite */
    enum answer_kind answer;
    unsigned refusals;        /* a bit for each name by which its own rule refuses it */
};

struct step {
    const struct step_kind *kind;
    bool names_buffer, names_blob, has_part;
    uint64_t buffer, blob, first, length;
    struct told_time times[2];
    size_t time_count, digits; /* of a number in a time at most so many */
};

/* Whether the line is a step, what it says, and its text with times in ticks, which is put behind a text. */
bool read_step(const uint8_t *line, size_t length, struct step *step, struct text *text);
/* The same of a printed line, whose ticks may have more digits. */
bool read_printed_step(const uint8_t *line, size_t length, struct step *step, struct text *text);

/* printed.c: the grammar of printed lines. Each takes the lines of a text from `*at` on, and is false where they
 * break it. */

extern const char *const refusal_names[8];
bool read_answer(const uint8_t **at, const uint8_t *end, enum answer_kind kind, int *refused);
bool read_events(const uint8_t **at, const uint8_t *end, size_t most);
bool read_block(const uint8_t **at, const uint8_t *end, bool has_state);
/* What a script printed that ended with a status. */
bool read_played(const uint8_t *bytes, size_t length, int status);
/* What `ranges`, `pieces` or `feed` printed. */
bool read_command(const uint8_t *bytes, size_t length, int status, bool is_feed);
extern const char *const fault_names[19];
/* The inner name of a fault, or NULL. */
const char *inner_name(int fault, int inner);

/* plan.c: a session, before it is done. */

enum action_kind { ACT_GIVE, ACT_STEP, ACT_FORGET, ACT_LOOK, ACT_LOOK_AT, ACT_BLOCK, ACT_NEXT, ACT_NEXT_DRAIN, ACT_PRINTED };

struct action {
    enum action_kind kind;
    size_t start, length; /* the line, or the bytes, in `bytes` of the plan */
    uint64_t number;
};

struct plan {
    uint64_t seed, quota, gap;
    struct text bytes;
    struct action *actions;
    size_t count, room;
    struct scene scene;
};

void make_plan(struct plan *plan, uint64_t seed, const struct corpus *corpus);

/* session.c: a plan is done. */

/* What an action brought. Its text is in `told` of the record. */
struct result {
    uint8_t status, refused;
    size_t start, length;
    uint64_t time;
};

struct record {
    struct result *results;
    size_t room;
    struct text told;
    uint64_t end_fault;
};

/* Does an action, and puts what it printed, or what was looked at, behind a text. */
uint8_t perform(struct mseplay_session **session, const struct plan *plan, const struct action *action,
                struct text *text, uint8_t *refused);
/* Does a plan, and says what each action brought. */
void perform_plan(const struct plan *plan, struct record *record);
/* Stops where a result is not one that the header and the grammar allow. */
void check_record(const struct plan *plan, const struct record *record);
/* The lines of all steps that were done, and the block. */
void printed_of(const struct plan *plan, const struct record *record, struct text *text);

/* looks.c: what is looked at, as text. */

uint8_t look_text(struct mseplay_session **session, struct text *text);
uint8_t look_at_text(struct mseplay_session **session, uint32_t number, struct text *text);
/* The block, as looks tell it. */
uint8_t block_of_looks(struct mseplay_session **session, struct text *text);

/* play.c: scripts in one call. */

struct played {
    int status;
    struct text script, printed;
};

/* A step line as a word of a script. */
void check_played(const struct plan *plan, const struct record *record, struct played *played);
/* Each allocation of the script that was played refused in turn. */
void check_memory_of_play(const struct plan *plan, struct played *played);
void check_rules(const struct plan *plan, const struct record *record, struct chance *chance, struct played *played);
void check_damaged_script(const struct plan *plan, struct chance *chance, struct played *played);
void check_commands(const struct plan *plan, struct chance *chance, struct played *played);
/* Does the call of `played->script`, once more. */
void play_again(const struct plan *plan, struct played *played);

/* dump.c: what replay.mjs does again. */
extern bool is_dumping;
void dump_session(const struct plan *plan, const struct record *record);
void dump_run(const struct text *script, const char *const *words, size_t count, int status, const struct text *printed);
void dump_end(void);

/* memory.c: each allocation of a plan refused in turn. */
void check_memory(const struct plan *plan, const struct record *record);

/* hostile.c */

struct counts {
    uint64_t sessions, steps, gives, looks, blocks, bytes, plays, refused_runs, refused_ends;
    uint64_t statuses[16], refusals[8], play_statuses[16], faults[19];
    uint64_t longest_step, longest_seed, longest_bytes, longest_samples;
    uint64_t most_memory, most_input, most_seed, most_samples;
    double most_ratio;
    uint64_t ratio_memory, ratio_input, ratio_seed;
};

extern struct counts counts;
/* Says what is not so and the seed, and ends. */
_Noreturn void not_so(const char *file, int line, const char *fact);

#define CHECK(fact) \
    do { \
        if (!(fact)) \
            not_so(__FILE__, __LINE__, #fact); \
    } while (0)

#endif
