/* A wall panel to start from: draws who needs whom in a kitchen's sheet, plans it,
 * then asks for the next command and obeys it until the wish is met. To show what
 * a tag does, one hangs on the first machine that is to move until the panel has
 * asked once more.
 *
 *     tools/build panel
 *     gcc -std=c11 -Wall -Wextra -Werror -Iinclude examples/panel.c \
 *         -Ltarget/staticlib -lpanel -o panel
 *     ./panel examples/stove
 *
 * The folder holds sheet.bin, state.bin and wish.bin; a missing file counts as
 * empty. Seven more cooks may have their wishes there, wish2.bin to wish8.bin:
 * where there is one of these, all are joined into one wish. The exit status is
 * 0 for done, 1 for a refusal, 2 where the panel could not work or a command
 * changed nothing.
 */
#include <errno.h>
#include <stdbool.h>
#include <stdio.h>
#include <stdlib.h>
#include <string.h>

#include "duty.h"

enum status { DONE = 0, REFUSED = 1, COULD_NOT_WORK = 2 };

/* Bytes to lend; without any, the pointer may be null. */
struct bytes {
    uint8_t *at;
    size_t n;
};

/* All that a round is made of: each cook's wish, and the one that is asked for. */
struct kitchen {
    struct bytes sheet, plan, state, wishes[DUTY_WISHES_MAX], wish;
};

/* Stops where the panel cannot work, with what it was about and why. */
static void stop(const char *what)
{
    fprintf(stderr, "panel: %s: %s\n", what, strerror(errno));
    exit(COULD_NOT_WORK);
}

/* Stops where a command changed nothing: to send it again would not help. */
static void stop_unmoved(uint8_t machine, uint8_t command)
{
    fprintf(stderr, "panel: machine %u: command %u changed nothing\n", machine, command);
    exit(COULD_NOT_WORK);
}

/* Memory of a length other than 0, in place of what was there before. */
static void *memory(void *before, size_t n)
{
    void *at = realloc(before, n);
    if (at == NULL)
        stop("memory");
    return at;
}

/* The name of a file in a folder, to be freed. */
static char *path(const char *folder, const char *file)
{
    size_t n = strlen(folder) + strlen(file) + 2;
    char *name = memory(NULL, n);
    snprintf(name, n, "%s/%s", folder, file);
    return name;
}

/* All that can be read from an open file. */
static struct bytes read_all(FILE *f)
{
    struct bytes b = {NULL, 0};
    size_t room = 0, got;
    do {
        if (b.n == room) {
            room = room ? 2 * room : DUTY_SHEET_MAX;
            b.at = memory(b.at, room);
        }
        got = fread(b.at + b.n, 1, room - b.n, f);
        b.n += got;
    } while (got > 0);
    return b;
}

/* The bytes of a file; one that is missing counts as empty, and is null. */
static struct bytes read_file(const char *folder, const char *file)
{
    struct bytes b = {NULL, 0};
    char *name = path(folder, file);
    FILE *f = fopen(name, "rb");
    if (f != NULL) {
        b = read_all(f);
        if (ferror(f))
            stop(name);
        fclose(f);
    } else if (errno != ENOENT) {
        stop(name);
    }
    free(name);
    return b;
}

/* Reads the cooks' wishes: wish.bin, wish2.bin and so on. */
static void read_wishes(struct kitchen *k, const char *folder)
{
    char file[] = "wish2.bin";
    k->wishes[0] = read_file(folder, "wish.bin");
    for (int i = 1; i < DUTY_WISHES_MAX; i++) {
        file[4] = (char)('1' + i);
        k->wishes[i] = read_file(folder, file);
    }
}

/* What the place of a refusal is. */
enum place { NOWHERE, BYTE, MACHINE };

static const struct cause {
    enum place place;
    const char *phrase;
} causes[] = {
    [1] = {BYTE, "a record is cut short, or the end is missing"},
    [2] = {BYTE, "a record of unknown kind or wrong length"},
    [3] = {BYTE, "bytes after the end"},
    [4] = {BYTE, "a record out of its place, or one too many"},
    [5] = {BYTE, "a machine whose modes do not fit"},
    [6] = {BYTE, "a move of a machine or mode that cannot make it"},
    [7] = {BYTE, "a move that needs what cannot be"},
    [8] = {BYTE, "a move without a command, or with one used before"},
    [9] = {MACHINE, "its group has more than 64 modes"},
    [10] = {NOWHERE, "the plan would have too many entries"},
    [11] = {NOWHERE, "a wish could take more than 65535 commands"},
    [12] = {NOWHERE, "a lent buffer of a wrong length"},
    [13] = {MACHINE, "the state does not fit"},
    [14] = {MACHINE, "the wish does not fit"},
    [15] = {NOWHERE, "the plan does not fit the sheet"},
    [16] = {MACHINE, "its group is out of order or tagged, and the wish needs it"},
    [17] = {MACHINE, "its group has no way to what is wished"},
    [18] = {MACHINE, "its group could be stranded on the way"},
    [19] = {MACHINE, "the wishes leave it no mode"},
    [20] = {NOWHERE, "the text is no sheet's picture"},
    [21] = {BYTE, "an amendment of no standing move or one too many, or a move behind one"},
};

/* The place that stands for a wrong length. */
#define LENGTH 255

static void say_place(enum place place, uint32_t at)
{
    if (place == BYTE)
        printf(" at byte %u", (unsigned)at);
    else if (place == MACHINE && at == LENGTH)
        printf(" for its length");
    else if (place == MACHINE)
        printf(" at machine %u", (unsigned)at);
}

/* Whether a call was refused; if so, says why. */
static bool refused(uint64_t reply)
{
    uint32_t number = duty_refusal(reply);
    if (number == 0)
        return false;
    printf("refused %u", (unsigned)number);
    if (number < sizeof causes / sizeof causes[0]) {
        say_place(causes[number].place, duty_value(reply));
        printf(": %s", causes[number].phrase);
    }
    printf("\n");
    return true;
}

/* Checks the sheet and says how large the kitchen is. */
static bool check(const struct kitchen *k)
{
    uint64_t reply = duty_sheet(k->sheet.at, k->sheet.n);
    if (refused(reply))
        return false;
    uint32_t size = duty_value(reply);
    printf("machines: %u, moves: %u\n", (unsigned)(size % 256), (unsigned)(size / 256));
    return true;
}

static void say_bytes(struct bytes b)
{
    for (size_t i = 0; i < b.n; i++)
        printf(" %u", b.at[i]);
    printf("\n");
}

/* Reads the text of a picture, and says how many edges it has and which group
 * each machine is of. */
static bool read_back(struct bytes text)
{
    static uint8_t out[DUTY_GRAPH_READ_MAX];
    uint64_t reply = duty_graph_read(text.at, text.n, out, sizeof out);
    if (refused(reply))
        return false;
    struct bytes groups = {out + 1, out[0]};
    printf("edges: %u, groups:", (unsigned)(duty_value(reply) - 1 - groups.n) / 2);
    say_bytes(groups);
    return true;
}

/* Draws who needs whom, for Graphviz, and reads the picture back. */
static bool draw(const struct kitchen *k)
{
    static uint8_t text[DUTY_GRAPH_MAX];
    uint64_t reply = duty_graph(k->sheet.at, k->sheet.n, text, sizeof text);
    if (refused(reply))
        return false;
    struct bytes drawn = {text, duty_value(reply)};
    fwrite(drawn.at, 1, drawn.n, stdout);
    return read_back(drawn);
}

/* Makes the plan in a buffer of its length. */
static bool plan(struct kitchen *k)
{
    static uint8_t scratch[DUTY_SCRATCH];
    uint64_t reply = duty_plan_length(k->sheet.at, k->sheet.n);
    if (refused(reply))
        return false;
    k->plan.n = duty_value(reply);
    k->plan.at = memory(NULL, k->plan.n);
    reply = duty_plan(k->sheet.at, k->sheet.n, k->plan.at, k->plan.n, scratch, sizeof scratch);
    return !refused(reply);
}

/* Whether a cook other than the first has a wish. */
static bool has_others(const struct kitchen *k)
{
    for (int i = 1; i < DUTY_WISHES_MAX; i++)
        if (k->wishes[i].at != NULL)
            return true;
    return false;
}

/* Adds a wish after a byte with its length. One that is too long for the byte is
 * cut: it still has more bytes than there are machines, and is refused so. */
static void add_wish(struct bytes *lent, struct bytes wish)
{
    size_t n = wish.n < UINT8_MAX ? wish.n : UINT8_MAX;
    lent->at[lent->n] = (uint8_t)n;
    memcpy(lent->at + lent->n + 1, wish.at, n);
    lent->n += n + 1;
}

/* Joins the wishes that there are into the one that is asked for, and says it. */
static bool join(struct kitchen *k)
{
    static uint8_t room[DUTY_WISHES_MAX * (UINT8_MAX + 1)], joined[DUTY_WISH_MAX];
    struct bytes lent = {room, 0};
    unsigned count = 0;
    for (int i = 0; i < DUTY_WISHES_MAX; i++) {
        if (k->wishes[i].at == NULL)
            continue;
        add_wish(&lent, k->wishes[i]);
        count++;
    }
    uint64_t reply = duty_join(k->sheet.at, k->sheet.n, lent.at, lent.n, joined, sizeof joined);
    if (refused(reply))
        return false;
    k->wish = (struct bytes){joined, duty_value(reply)};
    printf("wishes: %u, joined:", count);
    say_bytes(k->wish);
    return true;
}

/* Settles what is asked for: one cook's wish as it is, or those of several. */
static bool settle(struct kitchen *k)
{
    k->wish = k->wishes[0];
    return !has_others(k) || join(k);
}

/* The next command; its value is 0 for done. */
static uint64_t ask(const struct kitchen *k)
{
    return duty_next(k->sheet.at, k->sheet.n, k->plan.at, k->plan.n,
                     k->state.at, k->state.n, k->wish.at, k->wish.n);
}

/* Whether a reply is a command. */
static bool sends(uint64_t reply)
{
    return duty_refusal(reply) == 0 && duty_value(reply) != 0;
}

/* The machine of a command. */
static uint8_t machine_of(uint32_t value)
{
    return (uint8_t)(value / 256);
}

/* Hangs a tag on a machine, or lifts it. */
static void put_tag(struct kitchen *k, uint8_t machine, bool hangs)
{
    k->state.at[duty_tag_at(machine)] = hangs;
    printf("machine %u: tag %s\n", machine, hangs ? "hung" : "lifted");
}

/* Someone cleans the machine that is to move: while its tag hangs, the wish is
 * refused. A panel on the wall would wait here until the tag is lifted. */
static void clean(struct kitchen *k, uint8_t machine)
{
    put_tag(k, machine, true);
    refused(ask(k));
    put_tag(k, machine, false);
}

/* Makes a command happen and says which move it was. A panel on the wall would
 * send it to the machine and read the state anew. The commands of a sheet's own
 * plan always move a machine. */
static bool obey(struct kitchen *k, uint32_t value)
{
    uint8_t machine = machine_of(value), command = (uint8_t)value;
    uint64_t reply = duty_apply(k->sheet.at, k->sheet.n, k->state.at, k->state.n,
                                machine, command);
    if (refused(reply))
        return false;
    if (duty_move(reply) == DUTY_NO_MOVE)
        stop_unmoved(machine, command);
    printf("machine %u: command %u, move %u\n", machine, command, duty_move(reply));
    return true;
}

/* Says the mode of each machine. */
static void say_done(const struct kitchen *k, unsigned count)
{
    printf("done, commands: %u, modes:", count);
    for (size_t i = 0; i < k->state.n / 2; i++)
        printf(" %u", k->state.at[duty_mode_at((uint8_t)i)]);
    printf("\n");
}

/* Asks and obeys until done. Once a tag is hung or lifted a new run begins, if the
 * wish is covered then: the panel asks anew. */
static bool fulfil(struct kitchen *k)
{
    unsigned count = 0;
    uint64_t reply = ask(k);
    if (sends(reply)) {
        clean(k, machine_of(duty_value(reply)));
        reply = ask(k);
    }
    while (sends(reply)) {
        if (!obey(k, duty_value(reply)))
            return false;
        count++;
        reply = ask(k);
    }
    if (refused(reply))
        return false;
    say_done(k, count);
    return true;
}

int main(int argc, char **argv)
{
    const char *folder = argc > 1 ? argv[1] : "examples/stove";
    struct kitchen k = {
        .sheet = read_file(folder, "sheet.bin"),
        .state = read_file(folder, "state.bin"),
    };
    read_wishes(&k, folder);
    bool done = check(&k) && draw(&k) && plan(&k) && settle(&k) && fulfil(&k);
    free(k.sheet.at);
    free(k.plan.at);
    free(k.state.at);
    for (int i = 0; i < DUTY_WISHES_MAX; i++)
        free(k.wishes[i].at);
    if (fflush(stdout) != 0)
        stop("output");
    return done ? DONE : REFUSED;
}
