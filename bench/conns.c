/* conns WHAT SIZE TIMES: what bench_conns does, over the http-parser library. A body is kept, once. */
#include <http_parser.h>
#include <stdio.h>
#include <stdlib.h>
#include <string.h>

enum { CONNS = 32 };

struct conn {
    http_parser parser;
    char *body;
    size_t length, room;
    long acts;
};

static int on_body(http_parser *parser, const char *at, size_t length)
{
    struct conn *conn = parser->data;
    if (conn->length + length > conn->room) {
        size_t room = conn->room ? conn->room : 64;
        while (room < conn->length + length) room *= 2;
        conn->body = realloc(conn->body, room);
        if (!conn->body) exit(2);
        conn->room = room;
    }
    memcpy(conn->body + conn->length, at, length);
    conn->length += length;
    return 0;
}

static int on_complete(http_parser *parser)
{
    ((struct conn *)parser->data)->acts++;
    return 0;
}

static http_parser_settings settings;
static struct conn conns[CONNS];

static void reopen(struct conn *conn)
{
    free(conn->body);
    conn->body = NULL;
    conn->length = conn->room = 0;
    http_parser_init(&conn->parser, HTTP_REQUEST);
    conn->parser.data = conn;
}

static void feed(struct conn *conn, const char *bytes, size_t length)
{
    if (http_parser_execute(&conn->parser, &settings, bytes, length) != length) exit(3);
}

/* the bytes come in such pieces on so many connections, one after the other */
static void all(int count, const char *bytes, size_t length, size_t piece)
{
    for (int c = 0; c < count; c++) reopen(&conns[c]);
    for (size_t at = 0; at < length; at += piece)
        for (int c = 0; c < count; c++) feed(&conns[c], bytes + at, length - at < piece ? length - at : piece);
}

int main(int count, char **words)
{
    size_t size, padding, body, length;
    long times, sum = 0;
    if (count < 4) return 1;
    size = strtoull(words[2], NULL, 10);
    times = atol(words[3]);
    padding = strcmp(words[1], "body") ? size : 0;
    body = strcmp(words[1], "body") ? 0 : size;
    char *bytes = malloc(512 + size);
    if (!bytes) return 2;
    length = sprintf(bytes, "POST /b2api/v3/b2_authorize_account HTTP/1.1\r\nHost: 127.0.0.1:8080\r\nContent-Length: %zu\r\nX-Padding: ", body);
    memset(bytes + length, 'x', padding);
    length += padding;
    memcpy(bytes + length, "\r\n\r\n", 4);
    length += 4;
    memset(bytes + length, '{', body);
    length += body;
    settings.on_body = on_body;
    settings.on_message_complete = on_complete;
    for (long t = 0; t < times; t++) {
        if (!strcmp(words[1], "events")) all(CONNS, bytes, length, 64);
        else all(1, bytes, length, strcmp(words[1], "bytes") ? 65536 : 1);
    }
    for (int c = 0; c < CONNS; c++) sum += conns[c].acts;
    printf("%ld\n", sum);
    return 0;
}
