/* What the program asks of its process, for aarch64: its words, and why the last call of the system failed. The kit has these calls for
 * x86-64 alone. */
int *__errno_location(void);

static int count;
static char **words;

/* glibc gives each constructor what it gives `main`. */
__attribute__((constructor)) static void keep(int argc, char **argv) {
    count = argc;
    words = argv;
}

unsigned long rattle_arg_count(void) {
    return (unsigned long)count;
}

/* Copies a word. Answers how many bytes it has; -1 where there is none, and -2 where there is no room for it. */
long rattle_arg(unsigned long number, char *out, unsigned long room) {
    unsigned long length = 0;
    if (number >= (unsigned long)count || !words[number]) return -1;
    for (; words[number][length]; length++) {
        if (length == room) return -2;
        out[length] = words[number][length];
    }
    return (long)length;
}

int rattle_errno(void) {
    return *__errno_location();
}

void rattle_set_errno(int number) {
    *__errno_location() = number;
}
