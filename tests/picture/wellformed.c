/* Whether standard input is well-formed XML, as far as a page without declarations and comments goes: one element that
 * holds all, tags that nest, attributes in quotes and once in a tag, no mark in text that has to be written as an
 * entity, plain ASCII. If it is not: exit status 1 and a line with the place. */
#include <ctype.h>
#include <stdio.h>
#include <stdlib.h>
#include <string.h>

#define BLANKS " \n\t"

static char text[1 << 22];
static size_t at;
static const char *open_tags[256];
static int depth;

static _Noreturn void bad(const char *what)
{
    printf("byte %zu: %s\n", at, what);
    exit(1);
}

static int one_of(char c, const char *set)
{
    return c != '\0' && strchr(set, c) != NULL;
}

static int name_length(const char *name)
{
    int n = 0;
    while (isalnum((unsigned char)name[n]) || one_of(name[n], "-_:")) {
        n++;
    }
    if (n == 0 || isdigit((unsigned char)name[0]) || name[0] == '-') {
        bad("no name");
    }
    return n;
}

static int same_name(const char *a, const char *b)
{
    return name_length(a) == name_length(b) && strncmp(a, b, (size_t)name_length(a)) == 0;
}

static void skip_blanks(void)
{
    at += strspn(text + at, BLANKS);
}

/* An entity, at its '&'. */
static void skip_entity(void)
{
    static const char *const known[] = {"&amp;", "&lt;", "&gt;", "&quot;", "&apos;"};
    for (size_t i = 0; i < 5; i++) {
        if (strncmp(text + at, known[i], strlen(known[i])) == 0) {
            at += strlen(known[i]);
            return;
        }
    }
    bad("no entity");
}

/* A value in quotes, and no '<' in it. */
static void skip_value(void)
{
    if (text[at] != '"') {
        bad("no quote");
    }
    at++;
    while (text[at] != '"') {
        if (text[at] == '<' || text[at] == '\0') {
            bad("a value without end");
        } else if (text[at] == '&') {
            skip_entity();
        } else {
            at++;
        }
    }
    at++;
}

/* The attributes of a tag, each after a blank and with a name of its own. */
static void skip_attributes(void)
{
    const char *names[16];
    int n = 0;
    while (one_of(text[at], BLANKS)) {
        skip_blanks();
        if (one_of(text[at], "/>")) {
            return;
        }
        names[n] = text + at;
        for (int i = 0; i < n; i++) {
            if (same_name(names[i], names[n])) {
                bad("an attribute twice");
            }
        }
        at += (size_t)name_length(names[n]);
        if (text[at++] != '=' || ++n == 16) {
            bad("no value, or too many");
        }
        skip_value();
    }
}

/* A tag, at its '<': opens an element, closes the last one, or does both. */
static void take_tag(void)
{
    int closes = text[++at] == '/';
    at += (size_t)closes;
    const char *name = text + at;
    at += (size_t)name_length(name);
    if (closes) {
        if (depth == 0 || !same_name(open_tags[--depth], name)) {
            bad("closed, and not the last one opened");
        }
        skip_blanks();
    } else {
        open_tags[depth++] = name;
        skip_attributes();
        if (text[at] == '/') {
            depth--;
            at++;
        }
    }
    if (text[at++] != '>' || depth == 256) {
        bad("a tag without end, or too deep");
    }
}

int main(void)
{
    size_t length = fread(text, 1, sizeof text - 1, stdin);
    for (at = 0; at < length; at++) {
        if (!isprint((unsigned char)text[at]) && !one_of(text[at], BLANKS)) {
            bad("no plain character");
        }
    }
    at = 0;
    do {
        if (text[at] == '<') {
            take_tag();
        } else if (depth == 0 || text[at] == '\0' || text[at] == '>') {
            bad("text outside, or a mark in it");
        } else if (text[at] == '&') {
            skip_entity();
        } else {
            at++;
        }
    } while (depth > 0);
    skip_blanks();
    if (at != length) {
        bad("something after the end");
    }
    return 0;
}
