/* run SCRIPT TYPE..: runs a script by the library, and writes what `colock run` writes of it up to the kept
 * states. Each call is foreseen by colock_would, and each is made by its name or, at odd objects, its number.
 * At the end a second store follows the history of the first. */
#include "want.h"

enum { MOST = 256 };

typedef struct script {
    uint64_t max_events;
    int objects;
    colock_type type_of[MOST];
    colock_store store;
    uint64_t told; /* how many events were written */
} script;

static char *text_of(const char *path) {
    FILE *file = fopen(path, "rb");
    WANT(file != NULL);
    WANT(!fseek(file, 0, SEEK_END));
    long size = ftell(file);
    WANT(size >= 0);
    rewind(file);
    char *text = malloc((size_t)size + 1);
    WANT(text != NULL && fread(text, 1, (size_t)size, file) == (size_t)size);
    text[size] = 0;
    WANT(!fclose(file));
    return text;
}

static void write_event(const colock_event *e) {
    static const char *const words[] = {"begin", "op", "busy", "none", "commit", "abort", "rollback"};
    WANT(e->kind < 7);
    printf("%s %" PRIu32 " %" PRIu64, words[e->kind], e->worker, e->transaction);
    if (e->kind == COLOCK_EVENT_OP || e->kind == COLOCK_EVENT_BUSY || e->kind == COLOCK_EVENT_NONE)
        printf(" %" PRIu32 " %" PRIu64, e->object, COLOCK_PLACE(e->op));
    if (e->kind == COLOCK_EVENT_OP && COLOCK_HAS_AMOUNT(e->op)) printf(" %" PRIu64, COLOCK_AMOUNT(e->op));
    if (e->kind == COLOCK_EVENT_BUSY || e->kind == COLOCK_EVENT_ROLLBACK) printf(" %" PRIu64, e->other);
    putchar('\n');
}

static void write_events(script *s) {
    colock_event room[7];
    uint64_t count;
    do {
        WANT(colock_events(&s->store, s->told, room, 7, &count) == COLOCK_OK);
        for (uint64_t i = 0; i < count; i++) write_event(&room[i]);
        s->told += count;
    } while (count == 7);
}

/* The kind of this word. */
static uint32_t kind_of(const char *word) {
    static const char *const words[] = {"undo", "intentions", "escrow"};
    uint32_t kind = COLOCK_UNDO;
    while (kind < COLOCK_ESCROW && strcmp(word, words[kind])) kind++;
    WANT(!strcmp(word, words[kind]));
    return kind;
}

static void add_object(script *s, const char *line, char **type_paths) {
    char kind[16];
    int place;
    colock_fault fault;
    WANT(sscanf(line, "object %15s %d", kind, &place) == 2 && s->objects < MOST);
    char *text = text_of(type_paths[place]);
    WANT(colock_type_read(&s->type_of[s->objects++], kind_of(kind), TEXT(text), &fault) == COLOCK_OK);
    free(text);
    puts(line);
}

static void open_store(script *s, colock_store *store) {
    WANT(colock_store_new(store) == COLOCK_OK);
    for (int x = 0; x < s->objects; x++) WANT(colock_store_add(store, &s->type_of[x]) == COLOCK_OK);
    WANT(colock_store_open(store, s->max_events) == COLOCK_OK);
}

static uint32_t call(colock_store *store, uint64_t t, uint32_t x, const char *name) {
    colock_answer foreseen = {UNTOUCHED, UNTOUCHED}, answer = {UNTOUCHED, UNTOUCHED};
    uint64_t number;
    uint32_t would = colock_would(store, t, x, TEXT(name), &foreseen), code;
    if (x % 2 && colock_call_number(store, x, TEXT(name), &number) == COLOCK_OK)
        code = colock_call_op(store, 0, t, x, number, &answer);
    else
        code = colock_call(store, 0, t, x, TEXT(name), &answer);
    WANT(code == would);
    if (!code) WANT(answer.kind == foreseen.kind && answer.number == foreseen.number);
    return code;
}

static void do_command(script *s, const char *line) {
    static const char *const refusals[] = {"", "NotOpen", "NoObject", "NoCall", "TooManyOpen", "HistoryFull", "NoMemory", "BadRollback"};
    uint64_t t, n;
    uint32_t x, code;
    char name[64];
    if (!strcmp(line, "begin")) code = colock_begin(&s->store, 0, &t);
    else if (sscanf(line, "call %" SCNu64 " %" SCNu32 " %63s", &t, &x, name) == 3) code = call(&s->store, t, x, name);
    else if (sscanf(line, "commit %" SCNu64, &t) == 1) code = colock_commit(&s->store, 0, t);
    else if (sscanf(line, "abort %" SCNu64, &t) == 1) code = colock_abort(&s->store, 0, t);
    else {
        WANT(sscanf(line, "rollback %" SCNu64 " %" SCNu64, &t, &n) == 2);
        code = colock_rollback(&s->store, 0, t, n);
    }
    write_events(s);
    WANT(code < 8);
    if (code) printf("# refused %" PRIu32 " %s\n", code, refusals[code]);
}

static void follow(script *s) {
    colock_store other = COLOCK_EMPTY;
    uint64_t made, here, there;
    colock_event *room = malloc((s->told + 1) * sizeof *room);
    WANT(room != NULL && colock_events(&s->store, 0, room, s->told, &made) == COLOCK_OK && made == s->told);
    open_store(s, &other);
    WANT(colock_follow(&other, room, s->told, &made) == COLOCK_OK && made == s->told);
    for (int x = 0; x < s->objects; x++) {
        WANT(colock_kept(&s->store, (uint32_t)x, &here) == COLOCK_OK);
        WANT(colock_kept(&other, (uint32_t)x, &there) == COLOCK_OK && here == there);
        printf("# kept %d %" PRIu64 "\n", x, here);
    }
    WANT(colock_store_close(&other) == COLOCK_OK);
    free(room);
}

int main(int argc, char **argv) {
    static script s;
    WANT(argc > 2);
    char *text = text_of(argv[1]);
    bool is_open = false;
    for (char *line = strtok(text, "\n"); line && strcmp(line, "end"); line = strtok(NULL, "\n")) {
        if (line[0] == '#') continue;
        if (sscanf(line, "max %" SCNu64, &s.max_events) == 1) continue;
        if (!strncmp(line, "object ", 7)) {
            add_object(&s, line, argv + 2);
            continue;
        }
        if (!is_open) open_store(&s, &s.store);
        is_open = true;
        do_command(&s, line);
    }
    if (!is_open) open_store(&s, &s.store);
    WANT(colock_abort_all(&s.store) == COLOCK_OK);
    write_events(&s);
    puts("end");
    follow(&s);
    WANT(colock_store_close(&s.store) == COLOCK_OK);
    for (int x = 0; x < s.objects; x++) WANT(colock_type_close(&s.type_of[x]) == COLOCK_OK);
    free(text);
    return 0;
}
