/* Reads requests by http_parser (Debian's libhttp-parser-dev), from bytes that come in pieces of one size. Of each request
 * the method, the target, the token of its credentials and the body are kept, in buffers that serve for all of them. */

#include <http_parser.h>
#include <stdint.h>
#include <stdlib.h>
#include <string.h>
#include <strings.h>

struct text {
    char *bytes;
    size_t length;
    size_t room;
};

struct reader {
    struct text target, name, value, token, body;
    unsigned method;
    int value_began;
    uint64_t requests;
};

static int append(struct text *text, const char *bytes, size_t length)
{
    if (text->room - text->length < length) {
        size_t room = 2 * (text->room + length);
        char *grown = realloc(text->bytes, room);
        if (grown == NULL)
            return 1;
        text->bytes = grown;
        text->room = room;
    }
    memcpy(text->bytes + text->length, bytes, length);
    text->length += length;
    return 0;
}

/* The field whose name and value are there is over. */
static int end_field(struct reader *reader)
{
    struct text *name = &reader->name, *value = &reader->value;
    int failed = 0;
    if (name->length == 13 && strncasecmp(name->bytes, "authorization", 13) == 0 && value->length > 7 && strncasecmp(value->bytes, "bearer ", 7) == 0)
        failed = append(&reader->token, value->bytes + 7, value->length - 7);
    name->length = 0;
    value->length = 0;
    reader->value_began = 0;
    return failed;
}

static int on_begin(http_parser *parser)
{
    struct reader *reader = parser->data;
    reader->target.length = 0;
    reader->token.length = 0;
    reader->body.length = 0;
    return 0;
}

static int on_target(http_parser *parser, const char *at, size_t length)
{
    return append(&((struct reader *)parser->data)->target, at, length);
}

static int on_name(http_parser *parser, const char *at, size_t length)
{
    struct reader *reader = parser->data;
    if (reader->value_began && end_field(reader))
        return 1;
    return append(&reader->name, at, length);
}

static int on_value(http_parser *parser, const char *at, size_t length)
{
    struct reader *reader = parser->data;
    reader->value_began = 1;
    return append(&reader->value, at, length);
}

static int on_head(http_parser *parser)
{
    struct reader *reader = parser->data;
    reader->method = parser->method;
    return reader->value_began && end_field(reader) ? -1 : 0;
}

static int on_body(http_parser *parser, const char *at, size_t length)
{
    return append(&((struct reader *)parser->data)->body, at, length);
}

static int on_end(http_parser *parser)
{
    ((struct reader *)parser->data)->requests++;
    return 0;
}

/* Reads the requests of these bytes, in pieces of this size, so many times. Answers how many came in all, and 2^64 - 1
 * where a byte is refused. */
uint64_t count_requests(const char *bytes, size_t length, size_t piece, uint64_t rounds)
{
    http_parser_settings settings;
    struct reader reader = {0};
    int refused = 0;
    http_parser_settings_init(&settings);
    settings.on_message_begin = on_begin;
    settings.on_url = on_target;
    settings.on_header_field = on_name;
    settings.on_header_value = on_value;
    settings.on_headers_complete = on_head;
    settings.on_body = on_body;
    settings.on_message_complete = on_end;
    for (uint64_t round = 0; round < rounds && !refused; round++) {
        http_parser parser;
        http_parser_init(&parser, HTTP_REQUEST);
        parser.data = &reader;
        for (size_t at = 0; at < length && !refused;) {
            size_t count = length - at < piece ? length - at : piece;
            refused = http_parser_execute(&parser, &settings, bytes + at, count) != count;
            at += count;
        }
    }
    free(reader.target.bytes);
    free(reader.name.bytes);
    free(reader.value.bytes);
    free(reader.token.bytes);
    free(reader.body.bytes);
    return refused ? UINT64_MAX : reader.requests;
}
