/* What GMime does with a header block to the same end: it parses the message, and gives its Autocrypt header with the key
 * and the effective date. */
#include "gmime.h"

#include <gmime/gmime.h>

void gmime_begin(void) { g_mime_init(); }

size_t gmime_read(const uint8_t *block, size_t n) {
    GMimeStream *stream = g_mime_stream_mem_new_with_buffer((const char *)block, n);
    GMimeParser *parser = g_mime_parser_new_with_stream(stream);
    GMimeMessage *message = g_mime_parser_construct_message(parser, NULL);
    size_t length = GMIME_UNREAD;
    if (message != NULL) {
        GMimeAutocryptHeader *header = g_mime_message_get_autocrypt_header(message, NULL);
        length = 0;
        if (header != NULL) {
            GBytes *key = g_mime_autocrypt_header_get_keydata(header);
            GDateTime *date = g_mime_autocrypt_header_get_effective_date(header);
            if (key != NULL && date != NULL) length = g_bytes_get_size(key);
            g_object_unref(header);
        }
        g_object_unref(message);
    }
    g_object_unref(parser);
    g_object_unref(stream);
    return length;
}
