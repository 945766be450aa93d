/* A peer: libfyaml's event parser. */
#include "each_file.h"
#include <libfyaml.h>

static int read_events(FILE *file, unsigned long *events) {
    struct fy_parse_cfg settings = {.flags = FYPCF_QUIET};
    struct fy_parser *parser = fy_parser_create(&settings);
    struct fy_event *event;
    if (!parser || fy_parser_set_input_fp(parser, "file", file)) {
        return 3;
    }
    while ((event = fy_parser_parse(parser)) != NULL) {
        fy_parser_event_free(parser, event);
        (*events)++;
    }
    if (fy_parser_get_stream_error(parser)) {
        return 1;
    }
    fy_parser_destroy(parser);
    return 0;
}
