/* expat_events [-q] [FILE]: the peer of `exi read` for XML. It goes through the document by expat, with namespaces, and prints
   the lines that `exi read` prints of the same document's stream, without the last; with -q it parses and prints nothing.
   --version prints expat's version.
   Comments, processing instructions and the document type are passed over, and white space is kept.
   Without FILE it reads standard input. It ends with 1 where the XML has a fault, 4 where a file can't be read, 5 where the
   output can't be written, and 6 without memory.

   gcc -O2 -o expat_events expat_events.c -lexpat */
#include <expat.h>
#include <fcntl.h>
#include <stdlib.h>
#include <string.h>
#include <unistd.h>

enum { ROOM = 1 << 17 };

static char output[ROOM];
static size_t used;

/* the characters since the last tag: expat hands them out in pieces */
static char *characters;
static size_t length, capacity;

/* what stands behind the backslash for a character, or 0 where it stands for itself */
static char escape_of[256];

static void flush(void) {
    for (size_t at = 0; at < used;) {
        ssize_t put = write(1, output + at, used - at);
        if (put <= 0) exit(5);
        at += (size_t)put;
    }
    used = 0;
}

static void put(const char *text, size_t count) {
    while (count > ROOM - used) {
        size_t fits = ROOM - used;
        memcpy(output + used, text, fits);
        used = ROOM;
        text += fits;
        count -= fits;
        flush();
    }
    memcpy(output + used, text, count);
    used += count;
}

static void put_word(const char *word) { put(word, strlen(word)); }

/* a text between quotes; what stands between two escapes is copied whole */
static void put_quoted(const char *text, size_t count) {
    size_t from = 0;
    put("\"", 1);
    for (size_t at = 0; at < count; at++) {
        char escape = escape_of[(unsigned char)text[at]];
        if (!escape) continue;
        put(text + from, at - from);
        put("\\", 1);
        put(&escape, 1);
        from = at + 1;
    }
    put(text + from, count - from);
    put("\"", 1);
}

/* expat gives a name as URI, line feed and local name, or as the local name alone where it is in no namespace */
static void put_name(const char *name) {
    const char *line = strchr(name, '\n');
    put_quoted(name, line ? (size_t)(line - name) : 0);
    put(" ", 1);
    if (line) name = line + 1;
    put_quoted(name, strlen(name));
}

static void put_characters(void) {
    if (!length) return;
    put_word("CH text ");
    put_quoted(characters, length);
    put("\n", 1);
    length = 0;
}

static void on_start(void *data, const char *name, const char **attributes) {
    (void)data;
    put_characters();
    put_word("SE ");
    put_name(name);
    put("\n", 1);
    for (; *attributes; attributes += 2) {
        put_word("AT ");
        put_name(attributes[0]);
        put_word(" text ");
        put_quoted(attributes[1], strlen(attributes[1]));
        put("\n", 1);
    }
}

static void on_end(void *data, const char *name) {
    (void)data;
    (void)name;
    put_characters();
    put_word("EE\n");
}

static void on_characters(void *data, const char *text, int count) {
    (void)data;
    if (length + (size_t)count > capacity) {
        capacity = 2 * (length + (size_t)count);
        characters = realloc(characters, capacity);
        if (!characters) exit(6);
    }
    memcpy(characters + length, text, (size_t)count);
    length += (size_t)count;
}

/* with -q: handlers there are, so that expat makes names and attributes all the same */
static void no_start(void *data, const char *name, const char **attributes) { (void)data, (void)name, (void)attributes; }
static void no_end(void *data, const char *name) { (void)data, (void)name; }
static void no_characters(void *data, const char *text, int count) { (void)data, (void)text, (void)count; }

int main(int count, char **words) {
    int input = 0, quiet = 0;
    for (int at = 1; at < count; at++) {
        if (!strcmp(words[at], "--version")) {
            put_word(XML_ExpatVersion());
            put("\n", 1);
            flush();
            return 0;
        }
        if (!strcmp(words[at], "-q")) quiet = 1;
        else if ((input = open(words[at], O_RDONLY)) < 0) return 4;
    }
    escape_of['\\'] = '\\', escape_of['"'] = '"', escape_of['\n'] = 'n', escape_of['\r'] = 'r', escape_of['\t'] = 't';
    XML_Parser parser = XML_ParserCreateNS(NULL, '\n');
    if (!parser) return 6;
    XML_SetElementHandler(parser, quiet ? no_start : on_start, quiet ? no_end : on_end);
    XML_SetCharacterDataHandler(parser, quiet ? no_characters : on_characters);
    if (!quiet) put_word("SD\n");
    for (int is_last = 0; !is_last;) {
        void *room = XML_GetBuffer(parser, ROOM);
        if (!room) return 6;
        ssize_t got = read(input, room, ROOM);
        if (got < 0) return 4;
        is_last = got == 0;
        if (XML_ParseBuffer(parser, (int)got, is_last) == XML_STATUS_ERROR) return 1;
    }
    if (!quiet) put_word("ED\n");
    flush();
    return 0;
}
