/* Copies standard input to standard output, with the fault that the first word names, or with none. tools/refuse has to distinguish
   the faults. */
#include <stdlib.h>
#include <string.h>
#include <unistd.h>

static const char *fault;
static int is_begun;

static int has(const char *name) {
    return strcmp(fault, name) == 0;
}

/* Writes a whole text. Returns whether that succeeded. */
static int put(int file, const char *text, size_t size) {
    while (size > 0) {
        ssize_t moved = write(file, text, size);
        if (moved == 0 && has("empty-write-is-all"))
            return 1;
        if (moved <= 0)
            return 0;
        if (has("lost-rest"))
            return 1;
        is_begun = 1;
        text += moved;
        size -= moved;
    }
    return 1;
}

static int tell(const char *line) {
    int is_told = put(2, line, strlen(line));
    return has("status-by-errors") && !is_told ? 3 : 1;
}

int main(int count, char **words) {
    fault = count > 1 ? words[1] : "";
    if (has("empty-line"))
        return tell("\n");
    if (has("words") || has("words-to-files") || has("no-words") || has("words-by-output")) {
        tell("mquerier: fault\n");
        int is_shown = isatty(2) ? !has("no-words") : has("words-by-output") && isatty(1);
        return has("words-to-files") || is_shown ? tell("  in words\n") : 1;
    }
    if (has("output-before-memory"))
        put(1, "some", 4);
    char *text = malloc(100);
    if (has("crash"))
        *(volatile char *)text = 0;
    if (!text)
        return has("untold-memory") ? 0 : tell("mquerier: out of memory\n");
    size_t size = 0;
    while (size < 100) {
        ssize_t moved = read(0, text + size, 100 - size);
        if (moved < 0 && !has("unread"))
            return tell("mquerier: read failed\n");
        if (moved <= 0)
            break;
        size += moved;
        if (has("lost-input"))
            break;
    }
    if (has("another-text"))
        size = 1;
    size_t from = has("output-before-memory") ? 4 : 0;
    int is_put = put(1, text + from, size - from);
    if (!is_put && has("output-after-failure"))
        put(1, "x", 1);
    free(text);
    if (!is_put && !has("untold-write") && !(has("untold-later-write") && is_begun))
        return tell("mquerier: write failed\n");
    return 0;
}
