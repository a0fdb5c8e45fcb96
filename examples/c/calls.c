/* Calls each function of dsheet.h as it may be called, with each argument that can be wrong, and where an allocation
 * fails. tests/embedding.sh builds it, with -Wl,--wrap=malloc, and runs it. */
#include <dsheet.h>
#include <stdbool.h>
#include <stdio.h>
#include <stdlib.h>
#include <string.h>

static void wanted(bool holds, const char *what, int line) {
    if (!holds) {
        fprintf(stderr, "calls.c:%d: not so: %s\n", line, what);
        exit(1);
    }
}

#define WANT(holds) wanted(holds, #holds, __LINE__)

static struct dsheet_world world = DSHEET_WORLD_INIT;
static struct dsheet_answer answer;
static struct dsheet_place head_of_a1 = {DSHEET_PLACE_HEAD, 0, 0, 0};
static const size_t most = SIZE_MAX;

/* How many allocations succeed before one fails; where it is negative, all do. Whether just that one fails. */
static long allocations = -1;
static bool alone = false;

void *__real_malloc(size_t size);
void *__wrap_malloc(size_t size);

void *__wrap_malloc(size_t size) {
    if (allocations == 0) {
        allocations -= alone;
        return NULL;
    }
    allocations -= allocations > 0;
    return __real_malloc(size);
}

static void edit(size_t process, size_t column, size_t row, const char *text) {
    WANT(dsheet_world_edit(&world, process, column, row, text, strlen(text), &answer) == DSHEET_OK);
}

static void handles(void) {
    WANT(dsheet_world_make(NULL, 1, 1, 1) == DSHEET_NULL);
    WANT(dsheet_world_free(NULL) == DSHEET_NULL);
    WANT(dsheet_world_free(&world) == DSHEET_EMPTY);
    WANT(dsheet_world_crash(&world) == DSHEET_EMPTY);
    WANT(dsheet_world_step(&world, 0, &answer) == DSHEET_EMPTY);
    WANT(dsheet_world_make(&world, 0, 1, 1) == DSHEET_BAD_SHAPE);
    WANT(dsheet_world_make(&world, 27, 1, 1) == DSHEET_BAD_SHAPE);
    WANT(dsheet_world_make(&world, 1, 65, 1) == DSHEET_BAD_SHAPE);
    WANT(dsheet_world_make(&world, 26, 64, 1) == DSHEET_BAD_SHAPE);
    WANT(dsheet_world_make(&world, most, most, 1) == DSHEET_BAD_SHAPE);
    WANT(dsheet_world_make(&world, 1, 1, 0) == DSHEET_BAD_SHAPE);
    WANT(dsheet_world_make(&world, 1, 1, 9) == DSHEET_BAD_SHAPE);
    WANT(dsheet_world_make(&world, 16, 64, 8) == DSHEET_OK);
    WANT(dsheet_world_make(&world, 1, 1, 1) == DSHEET_FULL);
    WANT(dsheet_world_free(&world) == DSHEET_OK);
    WANT(dsheet_world_free(&world) == DSHEET_EMPTY);
    WANT(dsheet_world_make(&world, 2, 3, 2) == DSHEET_OK);
    struct dsheet_size size;
    WANT(dsheet_world_size(&world, NULL) == DSHEET_NULL);
    WANT(dsheet_world_size(&world, &size) == DSHEET_OK);
    WANT(size.columns == 2 && size.rows == 3 && size.processes == 2);
}

/* Each argument of each call that can be wrong. */
static void refusals(void) {
    struct dsheet_world *w = &world;
    struct dsheet_place nowhere = {11, 0, 0, 0}, outside = {DSHEET_PLACE_HEAD, 6, 0, 0};
    struct dsheet_word word;
    struct dsheet_value value;
    struct dsheet_mark mark;
    size_t count;
    WANT(dsheet_world_edit(NULL, 0, 0, 0, "1", 1, &answer) == DSHEET_NULL);
    WANT(dsheet_world_edit(w, 0, 0, 0, NULL, 1, &answer) == DSHEET_NULL);
    WANT(dsheet_world_edit(w, 0, 0, 0, "1", 1, NULL) == DSHEET_NULL);
    WANT(dsheet_world_edit(w, 2, 0, 0, "1", 1, &answer) == DSHEET_NO_PROCESS);
    WANT(dsheet_world_edit(w, most, 0, 0, "1", 1, &answer) == DSHEET_NO_PROCESS);
    WANT(dsheet_world_edit(w, 0, 2, 0, "1", 1, &answer) == DSHEET_NO_CELL);
    WANT(dsheet_world_edit(w, 0, 0, 3, "1", 1, &answer) == DSHEET_NO_CELL);
    WANT(dsheet_world_begin_edit(w, 0, 0, 0, NULL, 1, &answer) == DSHEET_NULL);
    WANT(dsheet_world_begin_edit(w, 0, 0, most, "1", 1, &answer) == DSHEET_NO_CELL);
    WANT(dsheet_world_begin_work(w, 0, 0, 0, NULL) == DSHEET_NULL);
    WANT(dsheet_world_begin_work(w, 0, 2, 0, &answer) == DSHEET_NO_CELL);
    WANT(dsheet_world_work(w, 0, 0, 0, NULL) == DSHEET_NULL);
    WANT(dsheet_world_work(w, 2, 0, 0, &answer) == DSHEET_NO_PROCESS);
    uint32_t (*const calls[])(struct dsheet_world *, size_t, struct dsheet_answer *) = {
        dsheet_world_begin_report, dsheet_world_begin_recovery, dsheet_world_step,   dsheet_world_offer,
        dsheet_world_stop,         dsheet_world_report,         dsheet_world_recover, dsheet_world_settle,
        dsheet_world_migrate,      dsheet_world_begin_migration, dsheet_world_recalculate};
    for (size_t at = 0; at < sizeof calls / sizeof *calls; at++) {
        WANT(calls[at](NULL, 0, &answer) == DSHEET_NULL);
        WANT(calls[at](w, 0, NULL) == DSHEET_NULL);
        WANT(calls[at](w, 2, &answer) == DSHEET_NO_PROCESS);
    }
    WANT(dsheet_world_offer(w, 0, &answer) == DSHEET_NO_TASK);
    WANT(dsheet_world_evict(w, NULL) == DSHEET_NULL);
    WANT(dsheet_world_evict(w, &nowhere) == DSHEET_NO_WORD);
    WANT(dsheet_world_evict(w, &outside) == DSHEET_NO_WORD);
    WANT(dsheet_world_word(w, &head_of_a1, NULL) == DSHEET_NULL);
    WANT(dsheet_world_word(w, &outside, &word) == DSHEET_NO_WORD);
    WANT(dsheet_world_value(w, 0, 0, NULL) == DSHEET_NULL);
    WANT(dsheet_world_value(w, 2, 0, &value) == DSHEET_NO_CELL);
    WANT(dsheet_world_mark(w, 0, 0, NULL) == DSHEET_NULL);
    WANT(dsheet_world_mark(w, 0, 3, &mark) == DSHEET_NO_CELL);
    WANT(dsheet_world_text(w, 0, 0, NULL, 1, &count) == DSHEET_NULL);
    WANT(dsheet_world_text(w, 0, 0, NULL, 0, NULL) == DSHEET_NULL);
    WANT(dsheet_world_text(w, 2, 0, NULL, 0, &count) == DSHEET_NO_CELL);
    WANT(dsheet_world_values(w, 0, NULL, 1, &count) == DSHEET_NULL);
    WANT(dsheet_world_values(w, 2, NULL, 0, &count) == DSHEET_NO_PROCESS);
}

/* Whole calls, and what the sheet shows after them. */
static void whole_calls(void) {
    struct dsheet_value values[6], value;
    struct dsheet_mark mark;
    char text[13] = "------------";
    size_t count = 99;
    edit(0, 0, 0, "20");
    WANT(answer.kind == DSHEET_DONE && answer.number == 0);
    edit(1, 1, 2, "=MOD([.A1];0)");
    WANT(answer.kind == DSHEET_DONE && answer.number == 0);
    edit(0, 0, 1, "=1+");
    WANT(answer.kind == DSHEET_REFUSED && answer.cause == DSHEET_CAUSE_TEXT);
    WANT(answer.fault == DSHEET_FAULT_UNFINISHED && answer.number == 3);
    WANT(dsheet_world_mark(&world, 0, 0, &mark) == DSHEET_OK && mark.state == DSHEET_MARKED && mark.dirty == 1);
    WANT(dsheet_world_report(&world, 0, &answer) == DSHEET_OK);
    WANT(answer.kind == DSHEET_UNSETTLED_MARK && answer.cell == 0);
    WANT(dsheet_world_values(&world, 0, NULL, 0, &count) == DSHEET_OK && count == 0);
    WANT(dsheet_world_work(&world, 1, 0, 0, &answer) == DSHEET_OK);
    WANT(answer.kind == DSHEET_PUBLISHED && answer.holds == 1);
    WANT(dsheet_world_work(&world, 1, 0, 0, &answer) == DSHEET_OK && answer.kind == DSHEET_NOT_DIRTY);
    WANT(dsheet_world_value(&world, 0, 0, &value) == DSHEET_OK && value.kind == DSHEET_NUMBER && value.number == 20);
    WANT(dsheet_world_settle(&world, 0, &answer) == DSHEET_OK && answer.kind == DSHEET_LEFT && answer.number == 0);
    WANT(dsheet_world_recalculate(&world, 1, &answer) == DSHEET_OK);
    WANT(answer.kind == DSHEET_LEFT && answer.number == 0);
    WANT(dsheet_world_report(&world, 0, &answer) == DSHEET_OK && answer.kind == DSHEET_SETTLED);
    WANT(dsheet_world_values(&world, 0, values, 5, &count) == DSHEET_TOO_SMALL && count == 6);
    WANT(dsheet_world_values(&world, 0, values, 6, &count) == DSHEET_OK && count == 6);
    WANT(values[0].number == 20 && values[1].kind == DSHEET_BLANK && values[5].kind == DSHEET_DIV_ZERO);
    WANT(dsheet_world_text(&world, 1, 2, text, 12, &count) == DSHEET_TOO_SMALL && count == 13);
    WANT(strcmp(text, "------------") == 0);
    WANT(dsheet_world_text(&world, 1, 2, text, 13, &count) == DSHEET_OK && memcmp(text, "=MOD([.A1];0)", 13) == 0);
    WANT(dsheet_world_text(&world, 0, 1, NULL, 0, &count) == DSHEET_OK && count == 0);
}

/* Calls that are begun and driven by steps, to their answers. */
static void event_by_event(void) {
    unsigned offers = 0, steps = 0;
    WANT(dsheet_world_step(&world, 0, &answer) == DSHEET_OK && answer.kind == DSHEET_NOT_ENABLED);
    WANT(dsheet_world_begin_edit(&world, 0, 0, 0, NULL, 0, &answer) == DSHEET_OK);
    WANT(answer.kind == DSHEET_BEGUN && answer.number == 1);
    WANT(dsheet_world_begin_report(&world, 0, &answer) == DSHEET_OK);
    WANT(answer.kind == DSHEET_REFUSED && answer.cause == DSHEET_CAUSE_BUSY);
    while (answer.kind != DSHEET_DONE)
        WANT(dsheet_world_step(&world, 0, &answer) == DSHEET_OK && steps++ < 67);
    WANT(dsheet_world_begin_work(&world, 1, 0, 0, &answer) == DSHEET_OK && answer.kind == DSHEET_ENTERED);
    while (answer.kind != DSHEET_PUBLISHED) {
        WANT(dsheet_world_step(&world, 1, &answer) == DSHEET_OK);
        if (answer.kind == DSHEET_NOT_ENABLED) {
            WANT(dsheet_world_offer(&world, 1, &answer) == DSHEET_OK && answer.kind == DSHEET_STEPPED);
            offers++;
        }
    }
    WANT(offers == 1 && answer.holds == 1);
    WANT(dsheet_world_begin_report(&world, 1, &answer) == DSHEET_OK && answer.kind == DSHEET_ENTERED);
    while (answer.kind != DSHEET_UNSETTLED_MARK)
        WANT(dsheet_world_step(&world, 1, &answer) == DSHEET_OK);
    WANT(answer.cell == 5);
}

/* Stops, evictions, a crash and recoveries. */
static void losses(void) {
    struct dsheet_word word = {0, 0};
    WANT(dsheet_world_stop(&world, 1, &answer) == DSHEET_OK && answer.kind == DSHEET_STOPPED);
    WANT(dsheet_world_stop(&world, 1, &answer) == DSHEET_OK && answer.kind == DSHEET_NOT_ENABLED);
    WANT(dsheet_world_edit(&world, 1, 0, 0, "1", 1, &answer) == DSHEET_OK);
    WANT(answer.kind == DSHEET_REFUSED && answer.cause == DSHEET_CAUSE_STOPPED);
    WANT(dsheet_world_begin_recovery(&world, 1, &answer) == DSHEET_OK && answer.kind == DSHEET_ENTERED);
    while (answer.kind != DSHEET_LAST)
        WANT(dsheet_world_step(&world, 1, &answer) == DSHEET_OK);
    WANT(answer.number == 0 && answer.cell == 5 && answer.holds == 1);
    WANT(dsheet_world_word(&world, &head_of_a1, &word) == DSHEET_OK && word.cached == word.persisted);
    WANT(dsheet_world_begin_edit(&world, 1, 0, 0, "7", 1, &answer) == DSHEET_OK && answer.number == 1);
    while (word.cached == word.persisted) {
        WANT(dsheet_world_step(&world, 1, &answer) == DSHEET_OK);
        WANT(dsheet_world_word(&world, &head_of_a1, &word) == DSHEET_OK);
    }
    WANT(dsheet_world_evict(&world, &head_of_a1) == DSHEET_OK);
    WANT(dsheet_world_word(&world, &head_of_a1, &word) == DSHEET_OK && word.cached == word.persisted);
    WANT(dsheet_world_crash(&world) == DSHEET_OK);
    WANT(dsheet_world_recover(&world, 1, &answer) == DSHEET_OK && answer.kind == DSHEET_LAST);
    WANT(answer.number == 1 && answer.cell == 0 && answer.holds == 1);
    WANT(dsheet_world_recover(&world, 0, &answer) == DSHEET_OK && answer.kind == DSHEET_LAST && answer.number == 1);
}

/* Each allocation of a call fails in turn. */
static void want_of_memory(void) {
    struct dsheet_world other = DSHEET_WORLD_INIT;
    uint32_t status = DSHEET_NO_MEMORY;
    char text[13];
    size_t count;
    for (long made = 0; status != DSHEET_OK; made++) {
        allocations = made;
        status = dsheet_world_make(&other, 2, 3, 2);
        allocations = -1;
        WANT(status == DSHEET_OK ? made > 5 : status == DSHEET_NO_MEMORY);
        WANT(dsheet_world_free(&other) == (status == DSHEET_OK ? DSHEET_OK : DSHEET_EMPTY));
    }
    allocations = 0;
    WANT(dsheet_world_text(&world, 1, 2, text, 13, &count) == DSHEET_NO_MEMORY);
    WANT(dsheet_world_edit(&world, 0, 0, 0, "=1+2", 4, &answer) == DSHEET_OK);
    WANT(answer.kind == DSHEET_REFUSED && answer.cause == DSHEET_CAUSE_NO_MEMORY);
    allocations = -1;
    edit(0, 0, 0, "=1+2");
    WANT(answer.kind == DSHEET_DONE);
}

/* ---- sheets that threads share ---- */

static struct dsheet_sheet sheet = DSHEET_SHEET_INIT;
static struct dsheet_seat first = DSHEET_SEAT_INIT, second = DSHEET_SEAT_INIT;
static struct dsheet_closed closed = DSHEET_CLOSED_INIT;

/* What a sheet's handle, a seat's and a closed sheet's are refused for. */
static void shared_handles(void) {
    struct dsheet_sheet none = DSHEET_SHEET_INIT;
    struct dsheet_seat no_seat = DSHEET_SEAT_INIT;
    struct dsheet_closed not_closed = DSHEET_CLOSED_INIT;
    WANT(dsheet_sheet_make(NULL, 1, 1, 1) == DSHEET_NULL);
    WANT(dsheet_sheet_make(&sheet, 0, 1, 1) == DSHEET_BAD_SHAPE);
    WANT(dsheet_sheet_make(&sheet, 26, 64, 1) == DSHEET_BAD_SHAPE);
    WANT(dsheet_sheet_make(&sheet, 1, 1, 0) == DSHEET_BAD_SHAPE);
    WANT(dsheet_sheet_make(&sheet, most, 1, 9) == DSHEET_BAD_SHAPE);
    WANT(dsheet_sheet_free(NULL) == DSHEET_NULL && dsheet_sheet_free(&none) == DSHEET_EMPTY);
    WANT(dsheet_seat_free(NULL) == DSHEET_NULL && dsheet_seat_free(&no_seat) == DSHEET_EMPTY);
    WANT(dsheet_closed_free(NULL) == DSHEET_NULL && dsheet_closed_free(&not_closed) == DSHEET_EMPTY);
    WANT(dsheet_sheet_take(&none, 0, &first) == DSHEET_EMPTY);
    WANT(dsheet_sheet_close(&none, &closed) == DSHEET_EMPTY);
    WANT(dsheet_closed_reopen(&not_closed, &sheet) == DSHEET_EMPTY);
    WANT(dsheet_sheet_make(&sheet, 2, 3, 2) == DSHEET_OK);
    WANT(dsheet_sheet_make(&sheet, 2, 3, 2) == DSHEET_FULL);
    WANT(dsheet_sheet_take(NULL, 0, &first) == DSHEET_NULL && dsheet_sheet_take(&sheet, 0, NULL) == DSHEET_NULL);
    WANT(dsheet_sheet_take(&sheet, 2, &first) == DSHEET_NO_PROCESS);
    WANT(dsheet_sheet_take(&sheet, most, &first) == DSHEET_NO_PROCESS);
    WANT(dsheet_sheet_take(&sheet, 0, &first) == DSHEET_OK);
    WANT(dsheet_sheet_take(&sheet, 1, &first) == DSHEET_FULL);
    WANT(dsheet_sheet_take(&sheet, 0, &second) == DSHEET_SEAT_TAKEN);
    WANT(dsheet_sheet_close(&sheet, &closed) == DSHEET_SEAT_TAKEN);
    WANT(dsheet_sheet_close(NULL, &closed) == DSHEET_NULL && dsheet_sheet_close(&sheet, NULL) == DSHEET_NULL);
    WANT(dsheet_sheet_take(&sheet, 1, &second) == DSHEET_OK);
    WANT(dsheet_seat_free(&second) == DSHEET_OK && dsheet_seat_free(&second) == DSHEET_EMPTY);
    WANT(dsheet_sheet_take(&sheet, 1, &second) == DSHEET_OK);
}

/* A handle that holds something of another kind. */
static void wrong_handles(void) {
    struct dsheet_sheet *seat_as_sheet = (struct dsheet_sheet *)(void *)&first;
    struct dsheet_seat *sheet_as_seat = (struct dsheet_seat *)(void *)&sheet;
    struct dsheet_closed *seat_as_closed = (struct dsheet_closed *)(void *)&first;
    struct dsheet_world *seat_as_world = (struct dsheet_world *)(void *)&first;
    struct dsheet_sheet none = DSHEET_SHEET_INIT;
    struct dsheet_value value;
    size_t count = 7;
    uint8_t choice = 1;
    WANT(dsheet_sheet_free(seat_as_sheet) == DSHEET_WRONG_HANDLE);
    WANT(dsheet_sheet_close(seat_as_sheet, &closed) == DSHEET_WRONG_HANDLE);
    WANT(dsheet_seat_free(sheet_as_seat) == DSHEET_WRONG_HANDLE);
    WANT(dsheet_seat_edit(sheet_as_seat, 0, 0, "1", 1, 9, &answer) == DSHEET_WRONG_HANDLE);
    WANT(dsheet_seat_work(sheet_as_seat, 0, 0, 9, &answer) == DSHEET_WRONG_HANDLE);
    WANT(dsheet_seat_recover(sheet_as_seat, 9, &answer) == DSHEET_WRONG_HANDLE);
    WANT(dsheet_seat_report(sheet_as_seat, 9, &answer) == DSHEET_WRONG_HANDLE);
    WANT(dsheet_seat_values(sheet_as_seat, NULL, 0, &count) == DSHEET_WRONG_HANDLE && count == 7);
    WANT(dsheet_closed_free(seat_as_closed) == DSHEET_WRONG_HANDLE);
    WANT(dsheet_closed_value(seat_as_closed, 0, 0, &value) == DSHEET_WRONG_HANDLE);
    WANT(dsheet_closed_text(seat_as_closed, 0, 0, NULL, 0, &count) == DSHEET_WRONG_HANDLE && count == 7);
    WANT(dsheet_closed_crash(seat_as_closed, &choice, 1, &count) == DSHEET_WRONG_HANDLE && count == 7);
    WANT(dsheet_closed_reopen(seat_as_closed, &none) == DSHEET_WRONG_HANDLE);
    WANT(dsheet_world_crash(seat_as_world) == DSHEET_EMPTY);
}

/* Each argument of each call of a seat that can be wrong, and what it shows. */
static void seats(void) {
    struct dsheet_value values[6];
    size_t count = 99;
    WANT(dsheet_seat_edit(NULL, 0, 0, "1", 1, 9, &answer) == DSHEET_NULL);
    WANT(dsheet_seat_edit(&first, 0, 0, NULL, 1, 9, &answer) == DSHEET_NULL);
    WANT(dsheet_seat_edit(&first, 0, 0, "1", 1, 9, NULL) == DSHEET_NULL);
    WANT(dsheet_seat_edit(&first, 2, 0, "1", 1, 9, &answer) == DSHEET_NO_CELL);
    WANT(dsheet_seat_edit(&first, 0, most, "1", 1, 9, &answer) == DSHEET_NO_CELL);
    WANT(dsheet_seat_work(&first, 0, 0, 9, NULL) == DSHEET_NULL && dsheet_seat_work(NULL, 0, 0, 9, &answer) == DSHEET_NULL);
    WANT(dsheet_seat_work(&first, 0, 3, 9, &answer) == DSHEET_NO_CELL);
    WANT(dsheet_seat_recover(NULL, 9, &answer) == DSHEET_NULL && dsheet_seat_recover(&first, 9, NULL) == DSHEET_NULL);
    WANT(dsheet_seat_report(NULL, 9, &answer) == DSHEET_NULL && dsheet_seat_report(&first, 9, NULL) == DSHEET_NULL);
    WANT(dsheet_seat_values(&first, NULL, 1, &count) == DSHEET_NULL);
    WANT(dsheet_seat_values(&first, NULL, 0, NULL) == DSHEET_NULL);
    WANT(dsheet_seat_values(&first, NULL, 0, &count) == DSHEET_OK && count == 0);
    WANT(dsheet_seat_edit(&first, 0, 0, "20", 2, DSHEET_NO_FUSE, &answer) == DSHEET_OK && answer.kind == DSHEET_DONE);
    WANT(dsheet_seat_edit(&second, 1, 2, "=MOD([.A1];0)", 13, DSHEET_NO_FUSE, &answer) == DSHEET_OK);
    WANT(answer.kind == DSHEET_DONE && answer.number == 0);
    WANT(dsheet_seat_edit(&first, 0, 1, "=1+", 3, DSHEET_NO_FUSE, &answer) == DSHEET_OK);
    WANT(answer.kind == DSHEET_REFUSED && answer.fault == DSHEET_FAULT_UNFINISHED);
    WANT(dsheet_seat_report(&first, DSHEET_NO_FUSE, &answer) == DSHEET_OK && answer.kind == DSHEET_UNSETTLED_MARK);
    WANT(dsheet_seat_work(&second, 0, 0, DSHEET_NO_FUSE, &answer) == DSHEET_OK && answer.kind == DSHEET_PUBLISHED);
    WANT(dsheet_seat_work(&second, 0, 0, DSHEET_NO_FUSE, &answer) == DSHEET_OK && answer.kind == DSHEET_NOT_DIRTY);
    for (size_t row = 0; row < 3; row++)
        for (size_t column = 0; column < 2; column++)
            WANT(dsheet_seat_work(&first, column, row, DSHEET_NO_FUSE, &answer) == DSHEET_OK);
    WANT(dsheet_seat_report(&first, DSHEET_NO_FUSE, &answer) == DSHEET_OK && answer.kind == DSHEET_SETTLED);
    WANT(dsheet_seat_values(&first, values, 5, &count) == DSHEET_TOO_SMALL && count == 6);
    WANT(dsheet_seat_values(&first, values, 6, &count) == DSHEET_OK && count == 6);
    WANT(values[0].number == 20 && values[1].kind == DSHEET_BLANK && values[5].kind == DSHEET_DIV_ZERO);
}

/* Calls whose fuses burn down, and what a recovery makes of them. */
static void fuses(void) {
    WANT(dsheet_seat_edit(&first, 0, 0, "7", 1, 0, &answer) == DSHEET_OK && answer.kind == DSHEET_STOPPED);
    WANT(dsheet_seat_edit(&first, 0, 0, "7", 1, 9, &answer) == DSHEET_OK && answer.kind == DSHEET_REFUSED);
    WANT(answer.cause == DSHEET_CAUSE_STOPPED);
    WANT(dsheet_seat_recover(&first, 1, &answer) == DSHEET_OK && answer.kind == DSHEET_STOPPED);
    WANT(dsheet_seat_recover(&first, DSHEET_NO_FUSE, &answer) == DSHEET_OK && answer.kind == DSHEET_LAST);
    WANT(answer.number == 0 && answer.cell == 0 && answer.holds == 1);
    WANT(dsheet_seat_report(&second, 3, &answer) == DSHEET_OK && answer.kind == DSHEET_STOPPED);
    WANT(dsheet_seat_edit(&first, 0, 0, "7", 1, 12, &answer) == DSHEET_OK && answer.kind == DSHEET_STOPPED);
}

/* The sheet is closed, read, crashes, and is opened again. */
static void closed_sheets(void) {
    struct dsheet_size size;
    struct dsheet_value value;
    struct dsheet_mark mark;
    uint8_t *choice;
    char text[2] = "--";
    size_t count = 0, words = 0;
    WANT(dsheet_seat_free(&first) == DSHEET_OK);
    WANT(dsheet_sheet_close(&sheet, &closed) == DSHEET_SEAT_TAKEN);
    WANT(dsheet_seat_free(&second) == DSHEET_OK);
    WANT(dsheet_sheet_close(&sheet, &closed) == DSHEET_OK);
    WANT(dsheet_sheet_close(&sheet, &closed) == DSHEET_FULL && dsheet_sheet_free(&sheet) == DSHEET_EMPTY);
    WANT(dsheet_closed_size(NULL, &size) == DSHEET_NULL && dsheet_closed_size(&closed, NULL) == DSHEET_NULL);
    WANT(dsheet_closed_size(&closed, &size) == DSHEET_OK);
    WANT(size.columns == 2 && size.rows == 3 && size.processes == 2);
    WANT(dsheet_closed_value(&closed, 0, 0, NULL) == DSHEET_NULL);
    WANT(dsheet_closed_value(&closed, 2, 0, &value) == DSHEET_NO_CELL);
    WANT(dsheet_closed_value(&closed, 0, 0, &value) == DSHEET_OK && value.number == 20);
    WANT(dsheet_closed_mark(&closed, 0, 0, NULL) == DSHEET_NULL);
    WANT(dsheet_closed_mark(&closed, 0, 3, &mark) == DSHEET_NO_CELL);
    WANT(dsheet_closed_mark(&closed, 1, 2, &mark) == DSHEET_OK && mark.state == DSHEET_CLEAN);
    WANT(dsheet_closed_text(&closed, 0, 0, NULL, 1, &count) == DSHEET_NULL);
    WANT(dsheet_closed_text(&closed, 0, 0, text, 2, NULL) == DSHEET_NULL);
    WANT(dsheet_closed_text(&closed, most, 0, text, 2, &count) == DSHEET_NO_CELL);
    WANT(dsheet_closed_text(&closed, 0, 0, text, 1, &count) == DSHEET_TOO_SMALL && count == 2);
    WANT(dsheet_closed_text(&closed, 0, 0, text, 2, &count) == DSHEET_OK && memcmp(text, "20", 2) == 0);
    WANT(dsheet_closed_crash(&closed, NULL, 1, &words) == DSHEET_NULL);
    WANT(dsheet_closed_crash(&closed, NULL, 0, NULL) == DSHEET_NULL);
    WANT(dsheet_closed_crash(&closed, NULL, 0, &words) == DSHEET_TOO_SMALL && words > 100);
    choice = calloc(words, 1);
    WANT(choice && dsheet_closed_crash(&closed, choice, words - 1, &count) == DSHEET_TOO_SMALL && count == words);
    allocations = 0;
    WANT(dsheet_closed_crash(&closed, choice, words, &count) == DSHEET_NO_MEMORY);
    WANT(dsheet_closed_text(&closed, 0, 0, text, 2, &count) == DSHEET_NO_MEMORY);
    allocations = -1;
    WANT(dsheet_closed_crash(&closed, choice, words, &count) == DSHEET_OK && count == words);
    free(choice);
    WANT(dsheet_closed_reopen(NULL, &sheet) == DSHEET_NULL && dsheet_closed_reopen(&closed, NULL) == DSHEET_NULL);
}

/* Each allocation of a call on a sheet fails in turn; and after the last crash each edit is as it was answered. */
static void shared_want_of_memory(void) {
    uint32_t status = DSHEET_NO_MEMORY;
    for (long made = 0; status != DSHEET_OK; made++) {
        allocations = made;
        status = dsheet_closed_reopen(&closed, &sheet);
        allocations = -1;
        WANT(status == DSHEET_OK ? made > 5 : status == DSHEET_NO_MEMORY);
    }
    WANT(dsheet_closed_free(&closed) == DSHEET_EMPTY);
    status = DSHEET_NO_MEMORY;
    for (long made = 0; status != DSHEET_OK; made++) {
        allocations = made;
        status = dsheet_sheet_take(&sheet, 0, &first);
        allocations = -1;
        WANT(status == DSHEET_OK ? made > 2 : status == DSHEET_NO_MEMORY);
    }
    WANT(dsheet_sheet_take(&sheet, 1, &second) == DSHEET_OK);
    allocations = 0;
    WANT(dsheet_seat_recover(&first, DSHEET_NO_FUSE, &answer) == DSHEET_OK && answer.kind == DSHEET_LAST);
    WANT(answer.number == 1 && answer.cell == 0);
    WANT(dsheet_seat_recover(&second, DSHEET_NO_FUSE, &answer) == DSHEET_OK && answer.kind == DSHEET_LAST);
    WANT(answer.number == 0 && answer.cell == 5 && answer.holds == 1);
    WANT(dsheet_seat_edit(&first, 0, 0, "=1+2", 4, DSHEET_NO_FUSE, &answer) == DSHEET_OK);
    WANT(answer.kind == DSHEET_REFUSED && answer.cause == DSHEET_CAUSE_NO_MEMORY);
    allocations = -1;
    WANT(dsheet_seat_edit(&first, 0, 0, "1", 1, DSHEET_NO_FUSE, &answer) == DSHEET_OK && answer.kind == DSHEET_DONE);
    WANT(dsheet_sheet_free(&sheet) == DSHEET_OK);
    WANT(dsheet_seat_edit(&second, 0, 0, "2", 1, DSHEET_NO_FUSE, &answer) == DSHEET_OK && answer.kind == DSHEET_DONE);
    WANT(dsheet_seat_free(&first) == DSHEET_OK && dsheet_seat_free(&second) == DSHEET_OK);
    status = DSHEET_NO_MEMORY;
    for (long made = 0; status != DSHEET_OK; made++) {
        allocations = made;
        status = dsheet_sheet_make(&sheet, 2, 3, 2);
        allocations = -1;
        WANT(status == DSHEET_OK ? made > 5 : status == DSHEET_NO_MEMORY);
    }
    status = DSHEET_NO_MEMORY;
    for (long made = 0; status != DSHEET_OK; made++) {
        allocations = made;
        status = dsheet_sheet_close(&sheet, &closed);
        allocations = -1;
        WANT(status == DSHEET_OK ? made > 0 : status == DSHEET_NO_MEMORY);
    }
    WANT(dsheet_closed_free(&closed) == DSHEET_OK);
}

/* The seats of the most processes come back, and the sheet is closed; not while one is out. */
static void all_seats(void) {
    struct dsheet_seat seats[8] = {DSHEET_SEAT_INIT};
    WANT(dsheet_sheet_make(&sheet, 1, 1, 8) == DSHEET_OK);
    for (size_t process = 0; process < 8; process++)
        WANT(dsheet_sheet_take(&sheet, process, &seats[process]) == DSHEET_OK);
    for (size_t process = 0; process < 8; process++) {
        WANT(dsheet_sheet_close(&sheet, &closed) == DSHEET_SEAT_TAKEN);
        WANT(dsheet_seat_free(&seats[process]) == DSHEET_OK);
    }
    WANT(dsheet_sheet_close(&sheet, &closed) == DSHEET_OK && dsheet_closed_free(&closed) == DSHEET_OK);
}

/* A sheet whose last edit was stopped after each of its steps is closed, and not opened, as one allocation fails: its text
 * and its mark stay what they were, though a crash would lose some of them. */
static void failed_reopenings(void) {
    struct dsheet_mark before, after;
    char was[1], is[1];
    size_t had, has;
    WANT(dsheet_sheet_make(&sheet, 1, 1, 1) == DSHEET_OK);
    alone = true;
    answer.kind = DSHEET_STOPPED;
    for (uint64_t steps = 0; answer.kind == DSHEET_STOPPED; steps++) {
        uint32_t status = DSHEET_NO_MEMORY;
        WANT(dsheet_sheet_take(&sheet, 0, &first) == DSHEET_OK);
        WANT(dsheet_seat_recover(&first, DSHEET_NO_FUSE, &answer) == DSHEET_OK);
        WANT(dsheet_seat_edit(&first, 0, 0, steps % 2 ? "1" : "2", 1, steps, &answer) == DSHEET_OK);
        WANT(dsheet_seat_free(&first) == DSHEET_OK && dsheet_sheet_close(&sheet, &closed) == DSHEET_OK);
        WANT(dsheet_closed_text(&closed, 0, 0, was, 1, &had) == DSHEET_OK);
        WANT(dsheet_closed_mark(&closed, 0, 0, &before) == DSHEET_OK);
        for (long made = 0; status != DSHEET_OK; made++) {
            allocations = made;
            status = dsheet_closed_reopen(&closed, &sheet);
            allocations = -1;
            if (status == DSHEET_OK)
                break;
            WANT(dsheet_closed_text(&closed, 0, 0, is, 1, &has) == DSHEET_OK);
            WANT(has == had && (had == 0 || was[0] == is[0]));
            WANT(dsheet_closed_mark(&closed, 0, 0, &after) == DSHEET_OK);
            WANT(after.state == before.state && after.generation == before.generation);
        }
    }
    alone = false;
    WANT(answer.kind == DSHEET_DONE && dsheet_sheet_free(&sheet) == DSHEET_OK);
}

/* A sheet of the first layout, migrated: with its texts, and with room for longer ones. */
static void migration(void) {
    struct dsheet_world first = DSHEET_WORLD_INIT;
    struct dsheet_place version = {DSHEET_PLACE_VERSION, 0, 0, 0}, old = {DSHEET_PLACE_TEXT, 0, 0, 0};
    struct dsheet_place copy = {DSHEET_PLACE_NEW_TEXT, 0, 0, 0};
    struct dsheet_word word;
    char text[240];
    memset(text, '0', sizeof text);
    WANT(dsheet_world_make_first(NULL, 1, 1, 1) == DSHEET_NULL);
    WANT(dsheet_world_make_first(&first, 1, 1, 2) == DSHEET_OK);
    WANT(dsheet_world_make_first(&first, 1, 1, 2) == DSHEET_FULL);
    WANT(dsheet_world_edit(&first, 0, 0, 0, "7", 1, &answer) == DSHEET_OK && answer.kind == DSHEET_DONE);
    WANT(dsheet_world_edit(&first, 0, 0, 0, text, 121, &answer) == DSHEET_OK && answer.kind == DSHEET_REFUSED);
    WANT(answer.fault == DSHEET_FAULT_TOO_LONG && answer.number == 120);
    WANT(dsheet_world_migrate(&first, 0, &answer) == DSHEET_OK && answer.kind == DSHEET_REFUSED);
    WANT(answer.cause == DSHEET_CAUSE_NOT_STOPPED && answer.process == 0);
    WANT(dsheet_world_crash(&first) == DSHEET_OK);
    WANT(dsheet_world_begin_migration(&first, 1, &answer) == DSHEET_OK && answer.kind == DSHEET_ENTERED);
    WANT(dsheet_world_recover(&first, 0, &answer) == DSHEET_OK && answer.kind == DSHEET_REFUSED);
    WANT(answer.cause == DSHEET_CAUSE_MIGRATING && answer.process == 1);
    WANT(dsheet_world_stop(&first, 1, &answer) == DSHEET_OK);
    WANT(dsheet_world_migrate(&first, 0, &answer) == DSHEET_OK && answer.kind == DSHEET_MIGRATED);
    WANT(dsheet_world_migrate(&first, 0, &answer) == DSHEET_OK && answer.kind == DSHEET_ALREADY);
    WANT(dsheet_world_word(&first, &version, &word) == DSHEET_OK && word.cached == 1 && word.persisted == 1);
    WANT(dsheet_world_word(&first, &old, &word) == DSHEET_OK && word.cached == '7');
    WANT(dsheet_world_word(&first, &copy, &word) == DSHEET_OK && word.cached == '7' && word.persisted == '7');
    WANT(dsheet_world_recover(&first, 0, &answer) == DSHEET_OK && answer.kind == DSHEET_LAST && answer.holds == 1);
    WANT(dsheet_world_edit(&first, 0, 0, 0, text, 240, &answer) == DSHEET_OK && answer.kind == DSHEET_DONE);
    WANT(dsheet_world_free(&first) == DSHEET_OK);
}

int main(void) {
    handles();
    refusals();
    whole_calls();
    event_by_event();
    migration();
    losses();
    want_of_memory();
    shared_handles();
    wrong_handles();
    seats();
    fuses();
    closed_sheets();
    shared_want_of_memory();
    all_seats();
    failed_reopenings();
    WANT(dsheet_world_free(&world) == DSHEET_OK);
    return 0;
}
