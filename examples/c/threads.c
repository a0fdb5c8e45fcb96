/* Four threads edit beside each other, each with a seat of its own and no lock; the fuse of each burns down in the midst
 * of an edit. The sheet is closed, crashes, and is opened again: every process is asked what became of its last edit. */
#include <dsheet.h>
#include <pthread.h>
#include <stdio.h>
#include <stdlib.h>
#include <string.h>

enum { THREADS = 4, EDITS = 20 };

/* What a thread works with, and what it was answered. */
struct job {
    struct dsheet_seat seat;
    size_t column; /* its cell, in the first row */
    unsigned done; /* how many of its edits were answered done */
    size_t last;   /* the number of the last one of these */
};

/* Every call here has arguments that are right, so that only an allocation can fail. */
static void need(uint32_t status, const char *what) {
    if (status != DSHEET_OK) {
        fprintf(stderr, "%s: status %u\n", what, (unsigned)status);
        exit(1);
    }
}

/* Edits its cell to 1, 2 and so on, and once more under a fuse of so few steps that the edit is stopped. */
static void *edit(void *given) {
    struct job *job = given;
    struct dsheet_answer answer;
    char text[8];
    for (unsigned count = 1; count <= EDITS; count++) {
        int length = snprintf(text, sizeof text, "%u", count);
        need(dsheet_seat_edit(&job->seat, job->column, 0, text, (size_t)length, DSHEET_NO_FUSE, &answer), "edit");
        if (answer.kind == DSHEET_DONE) {
            job->done++;
            job->last = answer.number;
        }
    }
    need(dsheet_seat_edit(&job->seat, job->column, 0, "99", 2, 12, &answer), "edit");
    if (answer.kind != DSHEET_STOPPED)
        fprintf(stderr, "an edit of 12 steps was not stopped\n");
    return NULL;
}

/* A thread for each seat, to its end; then the seats go back to the sheet. */
static void run(struct dsheet_sheet *sheet, struct job *jobs) {
    pthread_t threads[THREADS];
    for (size_t i = 0; i < THREADS; i++) {
        jobs[i].column = i;
        need(dsheet_sheet_take(sheet, i, &jobs[i].seat), "take");
        if (pthread_create(&threads[i], NULL, edit, &jobs[i]) != 0)
            exit(1);
    }
    for (size_t i = 0; i < THREADS; i++) {
        pthread_join(threads[i], NULL);
        need(dsheet_seat_free(&jobs[i].seat), "free");
    }
}

/* A crash that leaves what processes saw of each word in which this bit of its number is set, of others what was
 * persisted. */
static void crash(struct dsheet_closed *closed, size_t bit) {
    size_t words = 0;
    if (dsheet_closed_crash(closed, NULL, 0, &words) != DSHEET_TOO_SMALL)
        exit(1);
    uint8_t *choice = malloc(words);
    if (!choice)
        exit(1);
    for (size_t i = 0; i < words; i++)
        choice[i] = (i & bit) != 0;
    need(dsheet_closed_crash(closed, choice, words, &words), "crash");
    free(choice);
}

int main(void) {
    struct dsheet_sheet sheet = DSHEET_SHEET_INIT;
    struct dsheet_closed closed = DSHEET_CLOSED_INIT;
    static struct job jobs[THREADS];
    struct dsheet_answer told;
    need(dsheet_sheet_make(&sheet, THREADS, 1, THREADS), "make");
    run(&sheet, jobs);
    need(dsheet_sheet_close(&sheet, &closed), "close");
    crash(&closed, 1);
    need(dsheet_closed_reopen(&closed, &sheet), "reopen");
    for (size_t i = 0; i < THREADS; i++) {
        struct dsheet_seat seat = DSHEET_SEAT_INIT;
        need(dsheet_sheet_take(&sheet, i, &seat), "take");
        need(dsheet_seat_recover(&seat, DSHEET_NO_FUSE, &told), "recover");
        printf("process %zu: %u edits done, the last one %zu; behind the crash edit %zu %s\n", i, jobs[i].done,
               jobs[i].last, told.number, told.holds ? "counts" : "does not count");
        need(dsheet_seat_free(&seat), "free");
    }
    return (int)dsheet_sheet_free(&sheet);
}
