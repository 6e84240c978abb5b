/* What egw.el needs of the library for C, as functions of Emacs: documents, what changes them, and the file beside
 * a document's that keeps what isn't stored yet.
 *
 * A document is an object of Emacs that is freed with its last reference. Places count characters from 0. Bytes are unibyte strings.
 * A refusal is the signal `egw-refused`, with its name and its number; a call of the system that fails is `file-error`. */
#define _XOPEN_SOURCE 700
#include "egw.h"
#include <emacs-module.h>
#include <errno.h>
#include <fcntl.h>
#include <libgen.h>
#include <stdio.h>
#include <stdlib.h>
#include <string.h>
#include <sys/file.h>
#include <sys/stat.h>
#include <unistd.h>

int plugin_is_GPL_compatible;

typedef emacs_env env_t;
typedef emacs_value value;

/* A document with the reader of whole frames that belongs to it. */
typedef struct {
    egw_document document;
    egw_peer reader;
} book;

typedef struct {
    char *at;
    size_t len;
} bytes;

static const char *const refusals[] = {
    "ok", "out of memory", "out of range", "too many heads", "full", "awaited", "empty name", "long name", "bad name", "bad text",
    "no version", "unknown event", "short file", "no event file", "file version", "bad digest", "bad field", "too many events",
    "bad event", "long frame", "frame kind", "bad frame", "clash", "bye", "no id", "closed", "no caret", "no character",
    "empty label", "long label", "bad label", "no index"};

static value number(env_t *env, uint64_t n) {
    return env->make_integer(env, (intmax_t)n);
}

static value call(env_t *env, const char *name, ptrdiff_t count, value *args) {
    return env->funcall(env, env->intern(env, name), count, args);
}

static value nil(env_t *env) {
    return env->intern(env, "nil");
}

static value pair(env_t *env, value first, value second) {
    return call(env, "cons", 2, (value[]){first, second});
}

/* The name and the number of a refusal, as a list. */
static value refusal(env_t *env, egw_answer answer) {
    const char *name = answer.status < sizeof refusals / sizeof *refusals ? refusals[answer.status] : "?";
    return call(env, "list", 2, (value[]){env->make_string(env, name, (ptrdiff_t)strlen(name)), number(env, answer.number)});
}

static value refuse(env_t *env, egw_answer answer) {
    env->non_local_exit_signal(env, env->intern(env, "egw-refused"), refusal(env, answer));
    return nil(env);
}

static value system_failed(env_t *env, const char *what) {
    const char *why = strerror(errno);
    value data[] = {env->make_string(env, what, (ptrdiff_t)strlen(what)), env->make_string(env, why, (ptrdiff_t)strlen(why))};
    env->non_local_exit_signal(env, env->intern(env, "file-error"), call(env, "list", 2, data));
    return nil(env);
}

static void *room(env_t *env, size_t size) {
    void *memory = malloc(size ? size : 1);
    if (!memory) refuse(env, (egw_answer){0, EGW_OUT_OF_MEMORY});
    return memory;
}

/* A string of Emacs: a text in UTF-8, or bytes as they are. An `at` of null means that a signal is on its way. */
static bytes taken(env_t *env, value string) {
    ptrdiff_t size = 0;
    bytes out = {NULL, 0};
    if (!env->copy_string_contents(env, string, NULL, &size) || !(out.at = room(env, (size_t)size))) return out;
    if (!env->copy_string_contents(env, string, out.at, &size)) return free(out.at), (bytes){NULL, 0};
    out.len = (size_t)size - 1;
    return out;
}

static book *book_of(env_t *env, value document) {
    return env->get_user_ptr(env, document);
}

/* What the document found last: a text, or bytes. */
static value found(env_t *env, book *b, egw_answer answer, int is_text) {
    if (answer.status != EGW_OK) return refuse(env, answer);
    char *out = room(env, answer.number);
    if (!out) return nil(env);
    egw_copy(&b->document, out, answer.number);
    value string = is_text ? env->make_string(env, out, (ptrdiff_t)answer.number)
                           : env->make_unibyte_string(env, out, (ptrdiff_t)answer.number);
    free(out);
    return string;
}

static void free_book(void *at) {
    book *b = at;
    egw_free(&b->document);
    egw_peer_free(&b->reader);
    free(b);
}

/* (egw--open BYTES): the document of an event file's bytes, or a new one where there are none. */
static value open_document(env_t *env, ptrdiff_t n, value *args, void *data) {
    (void)n, (void)data;
    bytes file = taken(env, args[0]);
    if (!file.at) return nil(env);
    book *b = room(env, sizeof *b);
    if (!b) return free(file.at), nil(env);
    b->document.at = b->reader.at = NULL;
    egw_answer answer = file.len ? egw_open(&b->document, file.at, file.len) : egw_new(&b->document);
    free(file.at);
    if (answer.status == EGW_OK) answer = egw_peer_new(&b->reader);
    if (answer.status != EGW_OK) return free_book(b), refuse(env, answer);
    return env->make_user_ptr(env, free_book, b);
}

static value count_events(env_t *env, ptrdiff_t n, value *args, void *data) {
    (void)n, (void)data;
    book *b = book_of(env, args[0]);
    return b ? number(env, egw_count(&b->document)) : nil(env);
}

static value length_of(env_t *env, ptrdiff_t n, value *args, void *data) {
    (void)n, (void)data;
    book *b = book_of(env, args[0]);
    return b ? number(env, egw_length(&b->document)) : nil(env);
}

/* (egw--text DOCUMENT &optional VERSION) */
static value text_of(env_t *env, ptrdiff_t n, value *args, void *data) {
    (void)data;
    book *b = book_of(env, args[0]);
    if (!b) return nil(env);
    if (n < 2 || !env->is_not_nil(env, args[1])) return found(env, b, egw_text(&b->document), 1);
    bytes version = taken(env, args[1]);
    if (!version.at) return nil(env);
    egw_answer answer = egw_text_at(&b->document, version.at, version.len);
    free(version.at);
    return found(env, b, answer, 1);
}

static value heads_of(env_t *env, ptrdiff_t n, value *args, void *data) {
    (void)n, (void)data;
    book *b = book_of(env, args[0]);
    return b ? found(env, b, egw_heads(&b->document), 1) : nil(env);
}

static value file_of(env_t *env, ptrdiff_t n, value *args, void *data) {
    (void)n, (void)data;
    book *b = book_of(env, args[0]);
    return b ? found(env, b, egw_save(&b->document), 0) : nil(env);
}

static value ask_for(env_t *env, ptrdiff_t n, value *args, void *data) {
    (void)n, (void)data;
    book *b = book_of(env, args[0]);
    return b ? found(env, b, egw_ask(&b->document), 0) : nil(env);
}

/* (egw--receive DOCUMENT BYTES): the bytes that are to be sent back, and nil or the refusal that ends the session. */
static value receive(env_t *env, ptrdiff_t n, value *args, void *data) {
    (void)n, (void)data;
    book *b = book_of(env, args[0]);
    bytes given = taken(env, args[1]);
    if (!b || !given.at) return free(given.at), nil(env);
    egw_answer answer = egw_receive(&b->document, &b->reader, given.at, given.len), all = {0, EGW_OK};
    free(given.at);
    value why = answer.status == EGW_OK ? nil(env) : refusal(env, answer);
    all.number = egw_copy(&b->document, NULL, 0);
    value reply = found(env, b, all, 0);
    if (answer.status != EGW_OK) {
        egw_peer_free(&b->reader);
        answer = egw_peer_new(&b->reader);
        if (answer.status != EGW_OK) return refuse(env, answer);
    }
    return pair(env, reply, why);
}

static size_t put_character(char *out, uint32_t ch) {
    if (ch < 0x80) return out[0] = (char)ch, 1;
    size_t more = ch < 0x800 ? 1 : ch < 0x10000 ? 2 : 3;
    out[0] = (char)((0xFF00 >> (more + 1)) | ch >> 6 * more);
    for (size_t i = 1; i <= more; i++) out[i] = (char)(0x80 | (ch >> 6 * (more - i) & 63));
    return more + 1;
}

/* (egw--changes DOCUMENT FROM): what the events from number FROM on do to the text, in turn: (AT . TEXT) inserts, (AT . N) deletes N
 * characters. What is inserted or deleted at one place in a row is one of them. */
static value changes_of(env_t *env, ptrdiff_t n, value *args, void *data) {
    (void)n, (void)data;
    book *b = book_of(env, args[0]);
    if (!b) return nil(env);
    egw_answer answer = egw_changes(&b->document, (uint32_t)env->extract_integer(env, args[1]));
    if (answer.status != EGW_OK) return refuse(env, answer);
    size_t count = answer.number;
    egw_change *changes = room(env, count * sizeof *changes);
    char *text = changes ? room(env, 4 * count) : NULL;
    if (!text) return free(changes), nil(env);
    egw_copy_changes(&b->document, changes, count);
    value list = nil(env);
    for (size_t i = 0; i < count;) {
        egw_change first = changes[i];
        uint32_t many = 0;
        size_t len = 0;
        for (; i < count && (changes[i].kind == EGW_NOTHING || changes[i].kind == first.kind); i++) {
            if (changes[i].kind == EGW_NOTHING) continue;
            if (changes[i].at != first.at + (first.kind == EGW_INSERTION ? many : 0)) break;
            if (first.kind == EGW_INSERTION) len += put_character(text + len, changes[i].ch);
            many++;
        }
        if (first.kind == EGW_NOTHING) continue;
        value what = first.kind == EGW_INSERTION ? env->make_string(env, text, (ptrdiff_t)len) : number(env, many);
        list = pair(env, pair(env, number(env, first.at), what), list);
    }
    free(text);
    free(changes);
    return call(env, "nreverse", 1, &list);
}

static uint32_t characters(const char *text, size_t len) {
    uint32_t count = 0;
    for (size_t i = 0; i < len; i++) count += ((uint8_t)text[i] & 0xC0) != 0x80;
    return count;
}

static int begins(const char *text) {
    return ((uint8_t)*text & 0xC0) != 0x80;
}

/* What a replacement leaves to be done: `count` characters deleted at `at`, and the text from `from` to `end` inserted there. */
typedef struct {
    uint32_t at, count;
    const char *from, *end;
} edit;

/* What both texts have at their ends stays. Where a character begins in the one, one begins in the other. */
static edit edit_between(uint32_t at, bytes old, bytes text) {
    char *first = old.at, *last = old.at + old.len, *end = last, *from = text.at, *to = text.at + text.len;
    while (first < last && from < to && *first == *from) first++, from++;
    while (first > old.at && first < end && !begins(first)) first--, from--;
    while (last > first && to > from && last[-1] == to[-1]) last--, to--;
    while (last < end && !begins(last)) last++, to++;
    return (edit){at + characters(old.at, (size_t)(first - old.at)), characters(first, (size_t)(last - first)), from, to};
}

/* How an edit ended: nil, or the refusal. */
static value ended(env_t *env, egw_answer answer) {
    return answer.status == EGW_OK ? nil(env) : refusal(env, answer);
}

/* (egw--replace DOCUMENT AGENT AT OLD NEW): AGENT replaces OLD, a text or a number of characters, at AT by the text NEW. A text that
 * is none is refused before anything is done. */
static value replace(env_t *env, ptrdiff_t n, value *args, void *data) {
    (void)n, (void)data;
    book *b = book_of(env, args[0]);
    int is_text = !env->eq(env, call(env, "type-of", 1, args + 3), env->intern(env, "integer"));
    bytes agent = taken(env, args[1]), text = taken(env, args[4]), old = is_text ? taken(env, args[3]) : (bytes){NULL, 0};
    edit e = {(uint32_t)env->extract_integer(env, args[2]), 0, text.at, text.at + text.len};
    if (!is_text) e.count = (uint32_t)env->extract_integer(env, args[3]);
    egw_answer answer = {0, EGW_OK};
    if (env->non_local_exit_check(env) == emacs_funcall_exit_return) {
        if (is_text) e = edit_between(e.at, old, text);
        size_t len = (size_t)(e.end - e.from);
        if (len) answer = egw_insert(&b->document, agent.at, agent.len, e.at, e.from, len);
        if (e.count && answer.status == EGW_OK)
            answer = egw_delete(&b->document, agent.at, agent.len, e.at + characters(e.from, len), e.count);
    }
    free(agent.at), free(text.at), free(old.at);
    return ended(env, answer);
}

/* (egw--events DOCUMENT FROM): the frames of the events from number FROM on. */
static value events(env_t *env, ptrdiff_t n, value *args, void *data) {
    (void)n, (void)data;
    book *b = book_of(env, args[0]);
    return b ? found(env, b, egw_events(&b->document, (uint32_t)env->extract_integer(env, args[1])), 0) : nil(env);
}

/* (egw--mark DOCUMENT AGENT LABEL) */
static value mark(env_t *env, ptrdiff_t n, value *args, void *data) {
    (void)n, (void)data;
    book *b = book_of(env, args[0]);
    bytes agent = taken(env, args[1]), label = taken(env, args[2]);
    egw_answer answer = {0, EGW_CLOSED};
    if (b && agent.at && label.at) answer = egw_mark(&b->document, agent.at, agent.len, label.at, label.len);
    free(agent.at), free(label.at);
    return ended(env, answer);
}

static value marks(env_t *env, ptrdiff_t n, value *args, void *data) {
    (void)n, (void)data;
    book *b = book_of(env, args[0]);
    return b ? found(env, b, egw_marks(&b->document), 1) : nil(env);
}

/* (egw--undo DOCUMENT AGENT ID COUNT): AGENT undoes COUNT events from the one with the ID on. */
static value undo(env_t *env, ptrdiff_t n, value *args, void *data) {
    (void)n, (void)data;
    book *b = book_of(env, args[0]);
    bytes agent = taken(env, args[1]), id = taken(env, args[2]);
    egw_answer answer = {0, EGW_CLOSED};
    uint32_t count = (uint32_t)env->extract_integer(env, args[3]);
    if (b && agent.at && id.at) answer = egw_undo(&b->document, agent.at, agent.len, id.at, id.len, count);
    free(agent.at), free(id.at);
    return ended(env, answer);
}

/* (egw--blame DOCUMENT): a line for each piece of the text: the id of its first event, the number of its characters, and the first. */
static value blame(env_t *env, ptrdiff_t n, value *args, void *data) {
    (void)n, (void)data;
    book *b = book_of(env, args[0]);
    return b ? found(env, b, egw_blame(&b->document, NULL, 0, 1), 1) : nil(env);
}

/* A file that events are kept in: it is locked as long as it is open, and `len` bytes of it are good. */
typedef struct {
    int fd;
    off_t len;
} kept;

static void close_kept(void *at) {
    kept *k = at;
    if (k->fd >= 0) close(k->fd);
    free(k);
}

/* Opens or makes a file, locks it, and tells its length. Where its name was deleted before it was locked, another one is made: who had
 * it deletes it if nothing is kept there. */
static int locked(const char *name, off_t *len) {
    for (;;) {
        struct stat told;
        int fd = open(name, O_RDWR | O_CREAT | O_CLOEXEC, 0600);
        if (fd < 0) return fd;
        if (flock(fd, LOCK_EX | LOCK_NB) || fstat(fd, &told)) {
            int why = errno;
            close(fd);
            errno = why;
            return -1;
        }
        *len = told.st_size;
        if (told.st_nlink > 0) return fd;
        close(fd);
    }
}

/* (egw--keep-in FILE): opens or makes the file, and syncs its folder. Where another program has it, that is a `file-error`. */
static value keep_in(env_t *env, ptrdiff_t n, value *args, void *data) {
    (void)n, (void)data;
    bytes name = taken(env, args[0]);
    kept *k = name.at ? room(env, sizeof *k) : NULL;
    if (!k) return free(name.at), nil(env);
    k->fd = locked(name.at, &k->len);
    int folder = k->fd < 0 ? -1 : open(dirname(name.at), O_RDONLY | O_CLOEXEC);
    int is_kept = folder >= 0 && !fsync(folder), why = errno;
    const char *what = k->fd < 0 ? "Locking the file of what is kept" : "Syncing the folder of what is kept";
    if (folder >= 0) close(folder);
    free(name.at);
    if (!is_kept) return close_kept(k), errno = why, system_failed(env, what);
    return env->make_user_ptr(env, close_kept, k);
}

/* Writes all of it, at a place. */
static int written(int fd, const char *from, size_t len, off_t at) {
    while (len > 0) {
        ssize_t many = pwrite(fd, from, len, at);
        if (many < 0 && errno == EINTR) continue;
        if (many < 0) return 0;
        from += many, at += many, len -= (size_t)many;
    }
    return 1;
}

/* (egw--keep KEPT FRAMES): writes frames behind the others. Once it returns, they outlive a crash of Emacs. */
static value keep(env_t *env, ptrdiff_t n, value *args, void *data) {
    (void)n, (void)data;
    kept *k = env->get_user_ptr(env, args[0]);
    bytes frames = taken(env, args[1]);
    if (!k || !frames.at) return free(frames.at), nil(env);
    int is_written = written(k->fd, frames.at, frames.len, k->len);
    free(frames.at);
    if (!is_written) return system_failed(env, "Keeping events");
    k->len += (off_t)frames.len;
    return number(env, (uint64_t)k->len);
}

/* (egw--sync KEPT): once it returns, what was kept outlives a crash of the machine. */
static value sync_kept(env_t *env, ptrdiff_t n, value *args, void *data) {
    (void)n, (void)data;
    kept *k = env->get_user_ptr(env, args[0]);
    return k && fdatasync(k->fd) ? system_failed(env, "Syncing what is kept") : nil(env);
}

/* (egw--forget KEPT): the whole file has the events, so nothing is kept beside it. */
static value forget(env_t *env, ptrdiff_t n, value *args, void *data) {
    (void)n, (void)data;
    kept *k = env->get_user_ptr(env, args[0]);
    if (!k) return nil(env);
    if (ftruncate(k->fd, 0)) return system_failed(env, "Emptying what is kept");
    k->len = 0;
    return nil(env);
}

/* (egw--let-go KEPT): closes the file, so that another program can have it. */
static value let_go(env_t *env, ptrdiff_t n, value *args, void *data) {
    (void)n, (void)data;
    kept *k = env->get_user_ptr(env, args[0]);
    if (k && k->fd >= 0) close(k->fd), k->fd = -1;
    return nil(env);
}

int emacs_module_init(struct emacs_runtime *runtime) {
    static const struct {
        const char *name;
        ptrdiff_t least, most;
        value (*function)(env_t *, ptrdiff_t, value *, void *);
    } functions[] = {
        {"egw--open", 1, 1, open_document}, {"egw--count", 1, 1, count_events}, {"egw--length", 1, 1, length_of},
        {"egw--text", 1, 2, text_of},       {"egw--heads", 1, 1, heads_of},     {"egw--file", 1, 1, file_of},
        {"egw--ask", 1, 1, ask_for},        {"egw--receive", 2, 2, receive},    {"egw--changes", 2, 2, changes_of},
        {"egw--replace", 5, 5, replace},    {"egw--keep-in", 1, 1, keep_in},    {"egw--keep", 2, 2, keep},
        {"egw--sync", 1, 1, sync_kept},     {"egw--forget", 1, 1, forget},      {"egw--let-go", 1, 1, let_go},
        {"egw--events", 2, 2, events},      {"egw--mark", 3, 3, mark},          {"egw--marks", 1, 1, marks},
        {"egw--undo", 4, 4, undo},          {"egw--blame", 1, 1, blame},
    };
    env_t *env = runtime->get_environment(runtime);
    if ((size_t)env->size < sizeof(struct emacs_env_28)) return 1;
    for (size_t i = 0; i < sizeof functions / sizeof *functions; i++) {
        value made = env->make_function(env, functions[i].least, functions[i].most, functions[i].function, NULL, NULL);
        call(env, "defalias", 2, (value[]){env->intern(env, functions[i].name), made});
    }
    call(env, "provide", 1, (value[]){env->intern(env, "egw-module")});
    return 0;
}
