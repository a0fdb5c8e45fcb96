/* An edit is under way when a crash comes, once after each of its steps: what became of it, by a recovery, and what
 * the cell shows then. Of one more, the head of its cell is evicted before the crash. */
#include <dsheet.h>
#include <stdbool.h>
#include <stdio.h>
#include <stdlib.h>
#include <string.h>

/* Every call here has arguments that are right, so that only an allocation can fail. */
static void need(uint32_t status, const char *what) {
    if (status != DSHEET_OK) {
        fprintf(stderr, "%s: status %u\n", what, (unsigned)status);
        exit(1);
    }
}

static void show_value(struct dsheet_world *world) {
    struct dsheet_value value;
    need(dsheet_world_value(world, 0, 0, &value), "value");
    switch (value.kind) {
    case DSHEET_BLANK: printf("A1 is blank\n"); break;
    case DSHEET_NUMBER: printf("A1 is %lld\n", (long long)value.number); break;
    default: printf("A1 is an error\n"); break;
    }
}

/* A new sheet of one column and two rows, in which process 1 has set A1 to 9. */
static void make(struct dsheet_world *world) {
    struct dsheet_answer answer;
    need(dsheet_world_make(world, 1, 2, 2), "make");
    need(dsheet_world_edit(world, 1, 0, 0, "9", 1, &answer), "edit");
}

/* Process 0 begins to set A1 to 5, and makes this number of steps; whether that is the whole edit. */
static bool edit_partly(struct dsheet_world *world, unsigned steps) {
    struct dsheet_answer answer;
    need(dsheet_world_begin_edit(world, 0, 0, 0, "5", 1, &answer), "begin");
    for (unsigned made = 0; made < steps; made++) {
        need(dsheet_world_step(world, 0, &answer), "step");
        if (answer.kind == DSHEET_DONE)
            return true;
    }
    return false;
}

/* A crash, and what the recovery of process 0 reports of its last edit. Then all is evaluated anew. */
static const char *crash_and_ask(struct dsheet_world *world) {
    struct dsheet_answer told, answer;
    need(dsheet_world_crash(world), "crash");
    need(dsheet_world_recover(world, 0, &told), "recover");
    need(dsheet_world_recover(world, 1, &answer), "recover");
    need(dsheet_world_settle(world, 0, &answer), "settle");
    if (told.kind == DSHEET_NOTHING)
        return "was never announced";
    return told.holds ? "is done" : "is not done";
}

int main(void) {
    struct dsheet_world world = DSHEET_WORLD_INIT;
    bool answered = false;
    const char *before = "";
    for (unsigned steps = 0; !answered; steps++) {
        make(&world);
        answered = edit_partly(&world, steps);
        const char *told = crash_and_ask(&world);
        if (strcmp(told, before) != 0) {
            printf("a crash behind step %u: the edit %s; ", steps, told);
            show_value(&world);
        }
        before = told;
        need(dsheet_world_free(&world), "free");
    }
    printf("and it is so to its answer\n");

    struct dsheet_place head = {DSHEET_PLACE_HEAD, 0, 0, 0};
    struct dsheet_word word = {0, 0};
    make(&world);
    for (unsigned steps = 0; word.cached == word.persisted; steps++) {
        need(dsheet_world_free(&world), "free");
        make(&world);
        edit_partly(&world, steps);
        need(dsheet_world_word(&world, &head, &word), "word");
    }
    need(dsheet_world_evict(&world, &head), "evict");
    printf("evicted before the crash: the edit %s; ", crash_and_ask(&world));
    show_value(&world);
    need(dsheet_world_free(&world), "free");
    return 0;
}
