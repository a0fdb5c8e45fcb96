/* dsheet: a shared sheet whose state survives crashes of a simulated persistent memory, for C99 and C++.
 *
 * A world is a sheet with its processes, its words and all that each process does. It is driven event by event: a
 * process begins a call, makes a step, stops; a word is evicted; a crash comes, wherever you like. Or call by call:
 * a whole edit, work, report or recovery with no other event between. Each function below carries out one event, one
 * call or one reading.
 *
 * A sheet is one that threads share with no lock. Its owner takes a seat of it for each process; a thread that has a
 * seat edits, works, recovers and reports beside the others, each call under a fuse of a number of steps. Once all seats
 * are freed the owner closes it, lets it crash, reads it, and opens it again.
 *
 * Every function returns a status. After every status but DSHEET_OK nothing has changed: neither the world or the sheet
 * nor what the pointers of the call point to, but for DSHEET_TOO_SMALL, which gives the size that is needed.
 *
 * What each function does is proved (the clause of its export in crates/ds_c), if its caller does what is said above
 * it, and the following, which nothing can check:
 *   - A pointer that is not null points to an object of its type, aligned for it, and a buffer has as many items as
 *     the call says. A row or a buffer that a call writes need not have been set. They are the call's alone while it
 *     runs: no two pointers of one call overlap, and no other thread touches them.
 *   - A handle is zero, or as the library left it. It may be moved, by a copy whose original is not used again. Of two
 *     copies only one may be used.
 *   - One call at a time uses a handle. Another thread may use it later, if a lock, a join or the like stands between.
 *     Calls on different seats of one sheet may run at once, and beside those on the sheet's own handle.
 *   - malloc, realloc and free are those of one allocator, which aligns a block to each power of two up to 16 that
 *     divides its size. No call comes from a signal handler, nor from the child of a fork of a process with threads.
 *
 * No function ends the process, keeps a pointer of its caller's, or writes anything but its own memory and what its
 * pointers point to. docs/EMBEDDING.md has a first program. */
#ifndef DSHEET_H
#define DSHEET_H

#include <stddef.h>
#include <stdint.h>

#ifdef __cplusplus
extern "C" {
#endif

/* How a function ended. */
enum dsheet_status {
    DSHEET_OK = 0,         /* It was carried out. What was answered stands in the row of the call. */
    DSHEET_EMPTY = 1,      /* The handle holds no world: none was made, or it was freed. */
    DSHEET_FULL = 2,       /* The handle holds a world already. */
    DSHEET_BAD_SHAPE = 3,  /* No sheet has this many columns, rows or processes. */
    DSHEET_NO_PROCESS = 4, /* The sheet has no such process. */
    DSHEET_NO_CELL = 5,    /* The sheet has no such cell. */
    DSHEET_NO_WORD = 6,    /* The sheet has no such word. */
    DSHEET_NO_TASK = 7,    /* The process is in no work that waits for an entry. */
    DSHEET_TOO_SMALL = 8,  /* The buffer is too small. The call gives how many items it needs. */
    DSHEET_NO_MEMORY = 9,  /* An allocation failed. */
    DSHEET_NULL = 10,      /* A pointer is null that may not be. */
    DSHEET_WRONG_HANDLE = 11, /* The handle holds something else: a seat where a sheet is wanted, or the like. */
    DSHEET_SEAT_TAKEN = 12    /* The seat has been taken, and was not freed; for a close, that of any process. */
};

/* A handle: memory of yours in which the library keeps a world. Begin with DSHEET_WORLD_INIT, and leave its fields
 * alone. */
struct dsheet_world {
    uint64_t held;
    void *at;
};

#define DSHEET_WORLD_INIT {0, 0}

/* Handles of a sheet that threads share, in the hands of its owner; of a seat of it, for one process; and of a sheet that
 * is closed. Begin with DSHEET_SHEET_INIT, DSHEET_SEAT_INIT, DSHEET_CLOSED_INIT, and leave their fields alone. */
struct dsheet_sheet {
    uint64_t held;
    void *at;
};
struct dsheet_seat {
    uint64_t held;
    void *at;
};
struct dsheet_closed {
    uint64_t held;
    void *at;
};

#define DSHEET_SHEET_INIT {0, 0}
#define DSHEET_SEAT_INIT {0, 0}
#define DSHEET_CLOSED_INIT {0, 0}

/* A fuse that no call burns down: none makes that number of steps. */
#define DSHEET_NO_FUSE UINT64_MAX

/* Which reply, answer or end a dsheet_answer is, and which of its fields are used. The others are 0. */
enum dsheet_kind {
    DSHEET_BEGUN = 1,       /* The edit has begun. number: its number. */
    DSHEET_ENTERED = 2,     /* The work, the report, the recovery or the migration has begun. */
    DSHEET_REFUSED = 3,     /* The call has not begun, and nothing has changed. cause; of a text also fault, number. */
    DSHEET_STEPPED = 4,     /* The process has made a step, or its work has taken the entry that was offered. */
    DSHEET_WRONG_TASK = 5,  /* The work waits for another task. No call of this library comes to it. */
    DSHEET_EVICTED = 6,     /* The word is evicted. No call of this library answers it with a row. */
    DSHEET_STOPPED = 7,     /* The process is stopped: of a seat, since the fuse of the call has burnt down. */
    DSHEET_CRASHED = 8,     /* The crash has come. No call of this library answers it with a row. */
    DSHEET_NOT_ENABLED = 9, /* The event cannot happen now, and nothing has changed. */
    /* answers of an edit */
    DSHEET_DONE = 10,      /* The process's edit of this number is linearized: no crash takes it back. number. */
    DSHEET_OVERTAKEN = 11, /* It does not, and never will: the edit of process and other stood in its place. number. */
    /* answers of work */
    DSHEET_NOT_DIRTY = 12,       /* The cell's mark was clean. */
    DSHEET_MISSED = 13,          /* The cell was held, or another process took it first. */
    DSHEET_WORN = 14,            /* The cell's mark has no generation left. */
    DSHEET_PUBLISHED = 15,       /* The cell is clean. holds: whether its value has changed. */
    DSHEET_AGAIN = 16,           /* The cell was marked meanwhile, and is left dirty. */
    DSHEET_WORK_NO_MEMORY = 17,  /* An allocation failed, and the cell is given back dirty. Also an end of a settle. */
    /* answers of a recovery */
    DSHEET_LAST = 18,    /* The process's last announced edit: number, cell; holds: whether it is linearized. */
    DSHEET_NOTHING = 19, /* The process has announced no edit. */
    /* answers of a report */
    DSHEET_SETTLED = 20,                /* dsheet_world_values has its values. */
    DSHEET_UNSETTLED_MARK = 21,         /* The mark of the cell was not at rest. cell, seen. */
    DSHEET_UNSETTLED_ANNOUNCEMENT = 22, /* The announcement of the process was not at rest. process, seen. */
    DSHEET_UNSETTLED_WORD = 23,         /* No report answers it. */
    /* the end of a settle */
    DSHEET_LEFT = 24, /* number: how many cells are marked or held; 0 where all are clean. */
    /* answers of a migration; its process is stopped then */
    DSHEET_MIGRATED = 25, /* The sheet has come to the second layout: no crash takes that back. */
    DSHEET_ALREADY = 26   /* It had the second layout already. */
};

/* Why a call is refused. */
enum dsheet_cause {
    DSHEET_CAUSE_TEXT = 1,         /* The text has no content. fault says why, number at which byte, from 0. */
    DSHEET_CAUSE_BUSY = 2,         /* The process is in a call. */
    DSHEET_CAUSE_STOPPED = 3,      /* The process is stopped: it has to recover. */
    DSHEET_CAUSE_RECORDS_FULL = 4, /* The process has spent its 256 records; of a report, the count of settled ones. */
    DSHEET_CAUSE_NO_MEMORY = 5,    /* An allocation failed. */
    DSHEET_CAUSE_MIGRATING = 6,    /* process migrates the sheet: no other one may recover. */
    DSHEET_CAUSE_NOT_STOPPED = 7   /* process is not stopped: no other one may migrate the sheet. */
};

/* What is wrong with a text. docs/LANGUAGE.md has the language. */
enum dsheet_fault {
    DSHEET_FAULT_TOO_LONG = 1, /* More than 240 bytes; in the first layout more than 120. */
    DSHEET_FAULT_BAD_TOKEN = 2,
    DSHEET_FAULT_NOT_WHOLE = 3,
    DSHEET_FAULT_NUMBER_TOO_LARGE = 4,
    DSHEET_FAULT_UNKNOWN_FUNCTION = 5,
    DSHEET_FAULT_WRONG_ARGUMENTS = 6,
    DSHEET_FAULT_OUTSIDE_SHEET = 7,
    DSHEET_FAULT_RANGE_NOT_ALLOWED = 8,
    DSHEET_FAULT_TOO_DEEP = 9,
    DSHEET_FAULT_UNFINISHED = 10,
    DSHEET_FAULT_NO_MEMORY = 11
};

/* What was replied to an event, answered by a call, or the end of a settle. */
struct dsheet_answer {
    uint32_t kind;  /* enum dsheet_kind */
    uint32_t cause; /* enum dsheet_cause */
    uint32_t fault; /* enum dsheet_fault */
    uint32_t holds; /* 1 or 0: whether the edit is linearized, or whether the value has changed */
    size_t number;  /* of an edit, from 0; the offset of a fault; of a settle, how many cells are left */
    size_t process; /* of another edit, or of an announcement */
    size_t other;   /* the number of that other edit */
    size_t cell;    /* by its number: row * columns + column, both from 0 */
    uint64_t seen;  /* the word that a report saw */
};

/* Which kind of value a cell has. */
enum dsheet_value_kind {
    DSHEET_BLANK = 0,
    DSHEET_NUMBER = 1,
    DSHEET_DIV_ZERO = 2, /* #DIV/0! */
    DSHEET_NUM = 3,      /* #NUM! */
    DSHEET_CIRCULAR = 4  /* Err:522 */
};

/* The value of a cell. */
struct dsheet_value {
    uint32_t kind;  /* enum dsheet_value_kind */
    int64_t number; /* 0 where it is none */
};

/* Which state the mark of a cell is in. */
enum dsheet_mark_state {
    DSHEET_CLEAN = 0,  /* No work is due. */
    DSHEET_MARKED = 1, /* Work is due. */
    DSHEET_HELD = 2    /* A process works on the cell. */
};

/* The mark of a cell. */
struct dsheet_mark {
    uint32_t state;      /* enum dsheet_mark_state */
    uint32_t dirty;      /* 1 or 0; also one that is held may be */
    size_t holder;       /* the process; 0 where it is not held */
    uint64_t generation; /* how often the holder changed */
};

/* How large a sheet is. */
struct dsheet_size {
    size_t columns;   /* 1 to 26 */
    size_t rows;      /* 1 to 64; at most 1,024 cells */
    size_t processes; /* 1 to 8 */
};

/* Which word a dsheet_place is, and which of its fields are read. */
enum dsheet_place_kind {
    DSHEET_PLACE_VERSION = 0,
    DSHEET_PLACE_HEAD = 1,     /* owner: a cell. Which edit is its last linearized one. */
    DSHEET_PLACE_MARK = 2,     /* owner: a cell. */
    DSHEET_PLACE_VALUE = 3,    /* owner: a cell. The number that it shows. */
    DSHEET_PLACE_KIND = 4,     /* owner: a cell. What it shows. */
    DSHEET_PLACE_INDEX = 5,    /* owner: a cell; part. Which cells may refer to it. */
    DSHEET_PLACE_ANNOUNCE = 6, /* owner: a process. Its last announced edit. */
    DSHEET_PLACE_HEADER = 7,   /* owner: a process; number: of its edit. The cell and the length of the text. */
    DSHEET_PLACE_TEXT = 8,     /* owner: a process; number; part. Eight bytes of the text, in the first layout. */
    DSHEET_PLACE_DONE = 9,     /* owner: a process; part. Which of its edits are linearized and were superseded. */
    DSHEET_PLACE_NEW_TEXT = 10 /* owner: a process; number; part. Eight bytes of the text, in the second layout. */
};

/* The name of a word. Cells are by their number: row * columns + column. */
struct dsheet_place {
    uint32_t kind; /* enum dsheet_place_kind */
    size_t owner;
    size_t number;
    size_t part;
};

/* The two sides of a word: what processes see, and what a crash leaves. */
struct dsheet_word {
    uint64_t cached;
    uint64_t persisted;
};

/* The exports of the archive. Their pointers may not be null, nor that of an empty buffer: call the functions below
 * instead, which see to it. */
uint32_t ds_c_world_make(struct dsheet_world *, size_t columns, size_t rows, size_t processes);
uint32_t ds_c_world_make_first(struct dsheet_world *, size_t columns, size_t rows, size_t processes);
uint32_t ds_c_world_free(struct dsheet_world *);
uint32_t ds_c_world_begin_edit(struct dsheet_world *, size_t process, size_t column, size_t row, const uint8_t *text,
                               size_t length, struct dsheet_answer *);
uint32_t ds_c_world_begin_work(struct dsheet_world *, size_t process, size_t column, size_t row,
                               struct dsheet_answer *);
uint32_t ds_c_world_begin_report(struct dsheet_world *, size_t process, struct dsheet_answer *);
uint32_t ds_c_world_begin_recovery(struct dsheet_world *, size_t process, struct dsheet_answer *);
uint32_t ds_c_world_begin_migration(struct dsheet_world *, size_t process, struct dsheet_answer *);
uint32_t ds_c_world_step(struct dsheet_world *, size_t process, struct dsheet_answer *);
uint32_t ds_c_world_offer(struct dsheet_world *, size_t process, struct dsheet_answer *);
uint32_t ds_c_world_stop(struct dsheet_world *, size_t process, struct dsheet_answer *);
uint32_t ds_c_world_evict(struct dsheet_world *, const struct dsheet_place *);
uint32_t ds_c_world_crash(struct dsheet_world *);
uint32_t ds_c_world_edit(struct dsheet_world *, size_t process, size_t column, size_t row, const uint8_t *text,
                         size_t length, struct dsheet_answer *);
uint32_t ds_c_world_work(struct dsheet_world *, size_t process, size_t column, size_t row, struct dsheet_answer *);
uint32_t ds_c_world_report(struct dsheet_world *, size_t process, struct dsheet_answer *);
uint32_t ds_c_world_recover(struct dsheet_world *, size_t process, struct dsheet_answer *);
uint32_t ds_c_world_migrate(struct dsheet_world *, size_t process, struct dsheet_answer *);
uint32_t ds_c_world_settle(struct dsheet_world *, size_t process, struct dsheet_answer *);
uint32_t ds_c_world_recalculate(struct dsheet_world *, size_t process, struct dsheet_answer *);
uint32_t ds_c_world_size(struct dsheet_world *, struct dsheet_size *);
uint32_t ds_c_world_value(struct dsheet_world *, size_t column, size_t row, struct dsheet_value *);
uint32_t ds_c_world_mark(struct dsheet_world *, size_t column, size_t row, struct dsheet_mark *);
uint32_t ds_c_world_word(struct dsheet_world *, const struct dsheet_place *, struct dsheet_word *);
uint32_t ds_c_world_text(struct dsheet_world *, size_t column, size_t row, uint8_t *buffer, size_t room,
                         size_t *length);
uint32_t ds_c_world_values(struct dsheet_world *, size_t process, struct dsheet_value *buffer, size_t room,
                           size_t *count);
uint32_t ds_c_sheet_make(struct dsheet_sheet *, size_t columns, size_t rows, size_t processes);
uint32_t ds_c_sheet_take(struct dsheet_sheet *, size_t process, struct dsheet_seat *);
uint32_t ds_c_sheet_close(struct dsheet_sheet *, struct dsheet_closed *);
uint32_t ds_c_sheet_free(struct dsheet_sheet *);
uint32_t ds_c_seat_edit(struct dsheet_seat *, size_t column, size_t row, const uint8_t *text, size_t length,
                        uint64_t steps, struct dsheet_answer *);
uint32_t ds_c_seat_work(struct dsheet_seat *, size_t column, size_t row, uint64_t steps, struct dsheet_answer *);
uint32_t ds_c_seat_recover(struct dsheet_seat *, uint64_t steps, struct dsheet_answer *);
uint32_t ds_c_seat_report(struct dsheet_seat *, uint64_t steps, struct dsheet_answer *);
uint32_t ds_c_seat_values(struct dsheet_seat *, struct dsheet_value *buffer, size_t room, size_t *count);
uint32_t ds_c_seat_free(struct dsheet_seat *);
uint32_t ds_c_closed_size(struct dsheet_closed *, struct dsheet_size *);
uint32_t ds_c_closed_value(struct dsheet_closed *, size_t column, size_t row, struct dsheet_value *);
uint32_t ds_c_closed_mark(struct dsheet_closed *, size_t column, size_t row, struct dsheet_mark *);
uint32_t ds_c_closed_text(struct dsheet_closed *, size_t column, size_t row, uint8_t *buffer, size_t room,
                          size_t *length);
uint32_t ds_c_closed_crash(struct dsheet_closed *, const uint8_t *choice, size_t length, size_t *words);
uint32_t ds_c_closed_reopen(struct dsheet_closed *, struct dsheet_sheet *);
uint32_t ds_c_closed_free(struct dsheet_closed *);

/* The functions. They are inline; a shared object has them as symbols too, if it is built with
 * -DDSHEET_FUNCTION= (docs/EMBEDDING.md). */
#ifndef DSHEET_FUNCTION
#define DSHEET_FUNCTION static inline
#endif

/* ---- A world ---- */

/* Makes a world in a handle that holds none: an empty sheet of these columns (1 to 26) and rows (1 to 64), at most
 * 1,024 cells, with these processes (1 to 8), all idle. DSHEET_FULL, DSHEET_BAD_SHAPE, DSHEET_NO_MEMORY, DSHEET_NULL.
 * A world takes some 120 KB for each process, and 350 KB more for 1,024 cells. */
DSHEET_FUNCTION uint32_t dsheet_world_make(struct dsheet_world *world, size_t columns, size_t rows, size_t processes) {
    if (!world)
        return DSHEET_NULL;
    return ds_c_world_make(world, columns, rows, processes);
}

/* Makes a world as dsheet_world_make does, but in the first layout: texts have at most 120 bytes until a process has
 * migrated it. */
DSHEET_FUNCTION uint32_t dsheet_world_make_first(struct dsheet_world *world, size_t columns, size_t rows,
                                                 size_t processes) {
    if (!world)
        return DSHEET_NULL;
    return ds_c_world_make_first(world, columns, rows, processes);
}

/* Gives the memory of the world back. The handle holds none then. DSHEET_EMPTY, DSHEET_NULL. */
DSHEET_FUNCTION uint32_t dsheet_world_free(struct dsheet_world *world) {
    if (!world)
        return DSHEET_NULL;
    return ds_c_world_free(world);
}

/* ---- Events ----
 * Each of these, where not said otherwise: DSHEET_EMPTY, DSHEET_NO_PROCESS, DSHEET_NULL. */

/* A process begins an edit of the cell in this column and row, both from 0, to a text of that length in bytes, which is
 * copied: a number, or "=" and a formula; none empties the cell. DSHEET_BEGUN or DSHEET_REFUSED. Its steps are few:
 * 112 and 3 for each reference of the text. DSHEET_NO_CELL too. */
DSHEET_FUNCTION uint32_t dsheet_world_begin_edit(struct dsheet_world *world, size_t process, size_t column, size_t row,
                                                 const char *text, size_t length, struct dsheet_answer *answer) {
    if (!world || !answer || (!text && length))
        return DSHEET_NULL;
    return ds_c_world_begin_edit(world, process, column, row, (const uint8_t *)(text ? text : ""), length, answer);
}

/* A process begins to work on a cell: to evaluate it, where its mark says that it is due. DSHEET_ENTERED or
 * DSHEET_REFUSED. DSHEET_NO_CELL too. */
DSHEET_FUNCTION uint32_t dsheet_world_begin_work(struct dsheet_world *world, size_t process, size_t column, size_t row,
                                                 struct dsheet_answer *answer) {
    if (!world || !answer)
        return DSHEET_NULL;
    return ds_c_world_begin_work(world, process, column, row, answer);
}

/* A process begins a report of all values. DSHEET_ENTERED or DSHEET_REFUSED. */
DSHEET_FUNCTION uint32_t dsheet_world_begin_report(struct dsheet_world *world, size_t process,
                                                   struct dsheet_answer *answer) {
    if (!world || !answer)
        return DSHEET_NULL;
    return ds_c_world_begin_report(world, process, answer);
}

/* A process, stopped or idle, begins to recover. DSHEET_ENTERED or DSHEET_REFUSED. */
DSHEET_FUNCTION uint32_t dsheet_world_begin_recovery(struct dsheet_world *world, size_t process,
                                                     struct dsheet_answer *answer) {
    if (!world || !answer)
        return DSHEET_NULL;
    return ds_c_world_begin_recovery(world, process, answer);
}

/* A process begins to migrate the sheet to the second layout, whose texts have up to 240 bytes; every process has to be
 * stopped. DSHEET_ENTERED or DSHEET_REFUSED. One that is stopped or crashed is begun anew. */
DSHEET_FUNCTION uint32_t dsheet_world_begin_migration(struct dsheet_world *world, size_t process,
                                                      struct dsheet_answer *answer) {
    if (!world || !answer)
        return DSHEET_NULL;
    return ds_c_world_begin_migration(world, process, answer);
}

/* A process makes the next step of its call: one access to one side of one word. DSHEET_STEPPED; the answer of the
 * call where it is its last step; DSHEET_NOT_ENABLED where the process is in no call, or its work waits for an entry:
 * dsheet_world_offer has it go on. */
DSHEET_FUNCTION uint32_t dsheet_world_step(struct dsheet_world *world, size_t process, struct dsheet_answer *answer) {
    if (!world || !answer)
        return DSHEET_NULL;
    return ds_c_world_step(world, process, answer);
}

/* What the work of a process waits for is evaluated, and offered to it: it goes on, DSHEET_STEPPED. DSHEET_NO_TASK
 * where it waits for nothing; DSHEET_NO_MEMORY. */
DSHEET_FUNCTION uint32_t dsheet_world_offer(struct dsheet_world *world, size_t process, struct dsheet_answer *answer) {
    if (!world || !answer)
        return DSHEET_NULL;
    return ds_c_world_offer(world, process, answer);
}

/* A process stops: it loses its call and its buffer of writes, and the words stay. DSHEET_STOPPED, or
 * DSHEET_NOT_ENABLED where it has stopped before. It can go on once it has recovered. */
DSHEET_FUNCTION uint32_t dsheet_world_stop(struct dsheet_world *world, size_t process, struct dsheet_answer *answer) {
    if (!world || !answer)
        return DSHEET_NULL;
    return ds_c_world_stop(world, process, answer);
}

/* A word is evicted: its persisted side becomes its cached one, as may happen to any word at any moment. DSHEET_EMPTY,
 * DSHEET_NO_WORD, DSHEET_NULL. */
DSHEET_FUNCTION uint32_t dsheet_world_evict(struct dsheet_world *world, const struct dsheet_place *place) {
    if (!world || !place)
        return DSHEET_NULL;
    return ds_c_world_evict(world, place);
}

/* A crash: each word keeps its persisted side alone, every buffer is emptied, and every process stops. DSHEET_EMPTY,
 * DSHEET_NULL. */
DSHEET_FUNCTION uint32_t dsheet_world_crash(struct dsheet_world *world) {
    if (!world)
        return DSHEET_NULL;
    return ds_c_world_crash(world);
}

/* ---- Whole calls ----
 * Each begins a call and drives it to its answer; or it is answered DSHEET_REFUSED, and the world stays. DSHEET_EMPTY,
 * DSHEET_NO_PROCESS, DSHEET_NULL. */

/* A whole edit: DSHEET_DONE, or DSHEET_OVERTAKEN. DSHEET_NO_CELL too. */
DSHEET_FUNCTION uint32_t dsheet_world_edit(struct dsheet_world *world, size_t process, size_t column, size_t row,
                                           const char *text, size_t length, struct dsheet_answer *answer) {
    if (!world || !answer || (!text && length))
        return DSHEET_NULL;
    return ds_c_world_edit(world, process, column, row, (const uint8_t *)(text ? text : ""), length, answer);
}

/* Whole work on a cell: one of the answers of work. DSHEET_NO_CELL too. */
DSHEET_FUNCTION uint32_t dsheet_world_work(struct dsheet_world *world, size_t process, size_t column, size_t row,
                                           struct dsheet_answer *answer) {
    if (!world || !answer)
        return DSHEET_NULL;
    return ds_c_world_work(world, process, column, row, answer);
}

/* A whole report: DSHEET_SETTLED, and dsheet_world_values has its values; or what was not at rest. */
DSHEET_FUNCTION uint32_t dsheet_world_report(struct dsheet_world *world, size_t process, struct dsheet_answer *answer) {
    if (!world || !answer)
        return DSHEET_NULL;
    return ds_c_world_report(world, process, answer);
}

/* A whole recovery, of a process that is stopped or idle: DSHEET_LAST or DSHEET_NOTHING. It may make calls then. */
DSHEET_FUNCTION uint32_t dsheet_world_recover(struct dsheet_world *world, size_t process,
                                              struct dsheet_answer *answer) {
    if (!world || !answer)
        return DSHEET_NULL;
    return ds_c_world_recover(world, process, answer);
}

/* A whole migration of the sheet to the second layout, of at most 15,360 steps for each process of the sheet and 5:
 * DSHEET_MIGRATED, DSHEET_ALREADY or DSHEET_REFUSED. Every process has to be stopped, and is stopped after it. */
DSHEET_FUNCTION uint32_t dsheet_world_migrate(struct dsheet_world *world, size_t process,
                                              struct dsheet_answer *answer) {
    if (!world || !answer)
        return DSHEET_NULL;
    return ds_c_world_migrate(world, process, answer);
}

/* Whole works on all cells that are marked, in rounds, until a round finds none: DSHEET_LEFT, DSHEET_REFUSED or
 * DSHEET_WORK_NO_MEMORY. */
DSHEET_FUNCTION uint32_t dsheet_world_settle(struct dsheet_world *world, size_t process, struct dsheet_answer *answer) {
    if (!world || !answer)
        return DSHEET_NULL;
    return ds_c_world_settle(world, process, answer);
}

/* A whole work on each cell that is marked in its turn, once, in the order of the references of the texts that the sheet
 * shows; then a settle. It ends as a settle does; by DSHEET_WORK_NO_MEMORY also where memory for the order lacks, and then
 * nothing is done. */
DSHEET_FUNCTION uint32_t dsheet_world_recalculate(struct dsheet_world *world, size_t process,
                                                  struct dsheet_answer *answer) {
    if (!world || !answer)
        return DSHEET_NULL;
    return ds_c_world_recalculate(world, process, answer);
}

/* ---- What a world shows ----
 * Nothing changes. Each: DSHEET_EMPTY, DSHEET_NULL. */

/* How large the sheet is. */
DSHEET_FUNCTION uint32_t dsheet_world_size(struct dsheet_world *world, struct dsheet_size *size) {
    if (!world || !size)
        return DSHEET_NULL;
    return ds_c_world_size(world, size);
}

/* The value of a cell, as processes see it. It need not be up to date: that says a report. DSHEET_NO_CELL too. */
DSHEET_FUNCTION uint32_t dsheet_world_value(struct dsheet_world *world, size_t column, size_t row,
                                            struct dsheet_value *value) {
    if (!world || !value)
        return DSHEET_NULL;
    return ds_c_world_value(world, column, row, value);
}

/* The mark of a cell, as processes see it. DSHEET_NO_CELL too. */
DSHEET_FUNCTION uint32_t dsheet_world_mark(struct dsheet_world *world, size_t column, size_t row,
                                           struct dsheet_mark *mark) {
    if (!world || !mark)
        return DSHEET_NULL;
    return ds_c_world_mark(world, column, row, mark);
}

/* Both sides of a word. DSHEET_NO_WORD too. */
DSHEET_FUNCTION uint32_t dsheet_world_word(struct dsheet_world *world, const struct dsheet_place *place,
                                           struct dsheet_word *word) {
    if (!world || !place || !word)
        return DSHEET_NULL;
    return ds_c_world_word(world, place, word);
}

/* The text of a cell, as processes see it: that of its last linearized edit, at most 240 bytes (120 in the first
 * layout), with no zero after them. length: how many bytes it has, also where the buffer is too small. DSHEET_NO_CELL,
 * DSHEET_TOO_SMALL, DSHEET_NO_MEMORY too. */
DSHEET_FUNCTION uint32_t dsheet_world_text(struct dsheet_world *world, size_t column, size_t row, char *buffer,
                                           size_t room, size_t *length) {
    uint8_t none = 0;
    if (!world || !length || (!buffer && room))
        return DSHEET_NULL;
    return ds_c_world_text(world, column, row, buffer ? (uint8_t *)buffer : &none, room, length);
}

/* The values of the process's last report that was answered DSHEET_SETTLED, row by row from the left, and how many
 * there are: one for each cell, or 0 where it has had none. count is given also where the buffer is too small.
 * DSHEET_NO_PROCESS, DSHEET_TOO_SMALL too. */
DSHEET_FUNCTION uint32_t dsheet_world_values(struct dsheet_world *world, size_t process, struct dsheet_value *buffer,
                                             size_t room, size_t *count) {
    struct dsheet_value none = {0, 0};
    if (!world || !count || (!buffer && room))
        return DSHEET_NULL;
    return ds_c_world_values(world, process, buffer ? buffer : &none, room, count);
}

/* ---- A sheet that threads share ----
 * Of its owner. Each: DSHEET_NULL. */

/* Makes a sheet in a handle that holds nothing: empty, of these columns (1 to 26) and rows (1 to 64), at most 1,024
 * cells, with these processes (1 to 8). DSHEET_FULL, DSHEET_BAD_SHAPE, DSHEET_NO_MEMORY. */
DSHEET_FUNCTION uint32_t dsheet_sheet_make(struct dsheet_sheet *sheet, size_t columns, size_t rows, size_t processes) {
    if (!sheet)
        return DSHEET_NULL;
    return ds_c_sheet_make(sheet, columns, rows, processes);
}

/* Takes the seat of a process, in a handle that holds nothing. Any thread may use it; it works on this sheet alone, also
 * where its owner has freed it meanwhile. DSHEET_FULL (the seat), DSHEET_EMPTY (the sheet), DSHEET_WRONG_HANDLE,
 * DSHEET_NO_PROCESS, DSHEET_SEAT_TAKEN, DSHEET_NO_MEMORY. */
DSHEET_FUNCTION uint32_t dsheet_sheet_take(struct dsheet_sheet *sheet, size_t process, struct dsheet_seat *seat) {
    if (!sheet || !seat)
        return DSHEET_NULL;
    return ds_c_sheet_take(sheet, process, seat);
}

/* Closes a sheet whose seats are all freed. A handle that holds nothing gets its words, and the sheet's holds nothing
 * then. What a call that was stopped has written and not flushed is lost by a crash, and by nothing else. DSHEET_FULL
 * (the closed one), DSHEET_EMPTY (the sheet), DSHEET_WRONG_HANDLE, DSHEET_SEAT_TAKEN, DSHEET_NO_MEMORY. */
DSHEET_FUNCTION uint32_t dsheet_sheet_close(struct dsheet_sheet *sheet, struct dsheet_closed *closed) {
    if (!sheet || !closed)
        return DSHEET_NULL;
    return ds_c_sheet_close(sheet, closed);
}

/* Lets a sheet go. Its memory is given back once its seats are freed, too. The handle holds nothing then. DSHEET_EMPTY,
 * DSHEET_WRONG_HANDLE. */
DSHEET_FUNCTION uint32_t dsheet_sheet_free(struct dsheet_sheet *sheet) {
    if (!sheet)
        return DSHEET_NULL;
    return ds_c_sheet_free(sheet);
}

/* ---- A seat ----
 * Each call but the last two may make this number of steps on words, and is stopped before the next one: it is answered
 * DSHEET_STOPPED then, and its process has to recover. Each: DSHEET_EMPTY, DSHEET_WRONG_HANDLE, DSHEET_NULL. */

/* A whole edit, as dsheet_world_edit: DSHEET_DONE, DSHEET_OVERTAKEN, DSHEET_REFUSED or DSHEET_STOPPED. DSHEET_NO_CELL
 * too. */
DSHEET_FUNCTION uint32_t dsheet_seat_edit(struct dsheet_seat *seat, size_t column, size_t row, const char *text,
                                          size_t length, uint64_t steps, struct dsheet_answer *answer) {
    if (!seat || !answer || (!text && length))
        return DSHEET_NULL;
    return ds_c_seat_edit(seat, column, row, (const uint8_t *)(text ? text : ""), length, steps, answer);
}

/* Whole work on a cell: one of the answers of work, DSHEET_REFUSED or DSHEET_STOPPED. DSHEET_NO_CELL too. */
DSHEET_FUNCTION uint32_t dsheet_seat_work(struct dsheet_seat *seat, size_t column, size_t row, uint64_t steps,
                                          struct dsheet_answer *answer) {
    if (!seat || !answer)
        return DSHEET_NULL;
    return ds_c_seat_work(seat, column, row, steps, answer);
}

/* A whole recovery of the seat's process, stopped or not: DSHEET_LAST, DSHEET_NOTHING or DSHEET_STOPPED. */
DSHEET_FUNCTION uint32_t dsheet_seat_recover(struct dsheet_seat *seat, uint64_t steps, struct dsheet_answer *answer) {
    if (!seat || !answer)
        return DSHEET_NULL;
    return ds_c_seat_recover(seat, steps, answer);
}

/* A whole report: DSHEET_SETTLED, and dsheet_seat_values has its values; what was not at rest; DSHEET_REFUSED or
 * DSHEET_STOPPED. */
DSHEET_FUNCTION uint32_t dsheet_seat_report(struct dsheet_seat *seat, uint64_t steps, struct dsheet_answer *answer) {
    if (!seat || !answer)
        return DSHEET_NULL;
    return ds_c_seat_report(seat, steps, answer);
}

/* The values of the seat's last report that was answered DSHEET_SETTLED, row by row from the left, and how many there
 * are: one for each cell, or 0 where it has had none. count is given also where the buffer is too small.
 * DSHEET_TOO_SMALL too. */
DSHEET_FUNCTION uint32_t dsheet_seat_values(struct dsheet_seat *seat, struct dsheet_value *buffer, size_t room,
                                            size_t *count) {
    struct dsheet_value none = {0, 0};
    if (!seat || !count || (!buffer && room))
        return DSHEET_NULL;
    return ds_c_seat_values(seat, buffer ? buffer : &none, room, count);
}

/* The seat goes back to its sheet: it can be taken again, and the sheet be closed. The handle holds nothing then. */
DSHEET_FUNCTION uint32_t dsheet_seat_free(struct dsheet_seat *seat) {
    if (!seat)
        return DSHEET_NULL;
    return ds_c_seat_free(seat);
}

/* ---- A closed sheet ----
 * Each: DSHEET_EMPTY, DSHEET_WRONG_HANDLE, DSHEET_NULL. */

/* How large it is. */
DSHEET_FUNCTION uint32_t dsheet_closed_size(struct dsheet_closed *closed, struct dsheet_size *size) {
    if (!closed || !size)
        return DSHEET_NULL;
    return ds_c_closed_size(closed, size);
}

/* The value of a cell, as its words show it. It need not be up to date. DSHEET_NO_CELL too. */
DSHEET_FUNCTION uint32_t dsheet_closed_value(struct dsheet_closed *closed, size_t column, size_t row,
                                             struct dsheet_value *value) {
    if (!closed || !value)
        return DSHEET_NULL;
    return ds_c_closed_value(closed, column, row, value);
}

/* The mark of a cell. DSHEET_NO_CELL too. */
DSHEET_FUNCTION uint32_t dsheet_closed_mark(struct dsheet_closed *closed, size_t column, size_t row,
                                            struct dsheet_mark *mark) {
    if (!closed || !mark)
        return DSHEET_NULL;
    return ds_c_closed_mark(closed, column, row, mark);
}

/* The text of a cell: that of the last of its linearized edits, as dsheet_world_text. DSHEET_NO_CELL, DSHEET_TOO_SMALL,
 * DSHEET_NO_MEMORY too. */
DSHEET_FUNCTION uint32_t dsheet_closed_text(struct dsheet_closed *closed, size_t column, size_t row, char *buffer,
                                            size_t room, size_t *length) {
    uint8_t none = 0;
    if (!closed || !length || (!buffer && room))
        return DSHEET_NULL;
    return ds_c_closed_text(closed, column, row, buffer ? (uint8_t *)buffer : &none, room, length);
}

/* A crash. Of each word what processes saw is left if its item of the choice is not 0, as if it had been evicted before;
 * else what was persisted. Items past the last word are not read. words: how many words there are, also where the choice
 * has fewer items. DSHEET_TOO_SMALL, DSHEET_NO_MEMORY too. */
DSHEET_FUNCTION uint32_t dsheet_closed_crash(struct dsheet_closed *closed, const uint8_t *choice, size_t length,
                                             size_t *words) {
    uint8_t none = 0;
    if (!closed || !words || (!choice && length))
        return DSHEET_NULL;
    return ds_c_closed_crash(closed, choice ? choice : &none, length, words);
}

/* Opens it again, in a handle that holds nothing: every process is stopped, and has to recover. The closed one's handle
 * holds nothing then. DSHEET_FULL (the sheet), DSHEET_EMPTY (the closed one), DSHEET_NO_MEMORY too. */
DSHEET_FUNCTION uint32_t dsheet_closed_reopen(struct dsheet_closed *closed, struct dsheet_sheet *sheet) {
    if (!closed || !sheet)
        return DSHEET_NULL;
    return ds_c_closed_reopen(closed, sheet);
}

/* Gives its memory back. The handle holds nothing then. */
DSHEET_FUNCTION uint32_t dsheet_closed_free(struct dsheet_closed *closed) {
    if (!closed)
        return DSHEET_NULL;
    return ds_c_closed_free(closed);
}

#ifdef __cplusplus
}
#endif

#endif
