/* llhttp, or http_parser with -DHTTP_PARSER, over the same requests: embed_peers WORK FILE DEPTH COUNT. They parse and don't
 * answer: their callbacks keep spans of the head, and a fixed answer is copied for each request. */
#include <stdio.h>
#include <stdlib.h>
#include <string.h>
#ifdef HTTP_PARSER
#include <http_parser.h>
typedef http_parser parser;
typedef http_parser_settings settings;
#else
#include <llhttp.h>
typedef llhttp_t parser;
typedef llhttp_settings_t settings;
#endif

static const char ANSWER[] = "HTTP/1.1 200 OK\r\ncontent-length: 0\r\ndate: Tue, 14 Nov 2023 22:13:20 GMT\r\n\r\n";
static struct { const char *name, *value; size_t name_length, value_length; } fields[96];
static int count;
static char answers[65536];
static size_t waiting, sum;

static int on_begin(parser *p) { (void)p; count = 0; return 0; }
static int on_target(parser *p, const char *at, size_t length) { (void)p; (void)at; sum += length; return 0; }
static int on_name(parser *p, const char *at, size_t length) { (void)p; fields[count].name = at; fields[count].name_length = length; sum += length; return 0; }
static int on_value(parser *p, const char *at, size_t length) {
    (void)p;
    fields[count].value = at;
    fields[count].value_length = length;
    sum += length;
    if (count < 95) count++;
    return 0;
}
static int on_body(parser *p, const char *at, size_t length) { (void)p; (void)at; sum += length; return 0; }
static int on_end(parser *p) { (void)p; memcpy(answers + waiting, ANSWER, sizeof ANSWER - 1); waiting += sizeof ANSWER - 1; return 0; }

int main(int argc, char **argv) {
    static char text[1 << 20];
    if (argc != 5) return 1;
    FILE *file = fopen(argv[2], "rb");
    if (!file) return 1;
    size_t one = fread(text, 1, sizeof text, file);
    fclose(file);
    long depth = atol(argv[3]), times = atol(argv[4]);
    for (long i = 1; i < depth; i++) memcpy(text + (size_t)i * one, text, one);
    parser p;
    settings s;
    memset(&s, 0, sizeof s);
#ifdef HTTP_PARSER
    http_parser_settings_init(&s);
    http_parser_init(&p, HTTP_REQUEST);
#else
    llhttp_settings_init(&s);
    llhttp_init(&p, HTTP_REQUEST, &s);
#endif
    s.on_message_begin = on_begin;
    s.on_url = on_target;
    s.on_header_field = on_name;
    s.on_header_value = on_value;
    s.on_body = on_body;
    s.on_message_complete = on_end;
    for (long done = 0; done < times; done += depth) {
        size_t length = (size_t)depth * one;
#ifdef HTTP_PARSER
        if (http_parser_execute(&p, &s, text, length) != length) return 1;
#else
        if (llhttp_execute(&p, text, length) != HPE_OK) return 1;
#endif
        sum += waiting;
        waiting = 0;
    }
    printf("%zu\n", sum);
    return 0;
}
