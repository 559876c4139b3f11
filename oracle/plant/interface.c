/* The C interface of a port that was lowered as a program: rattle then makes the inner functions alone, which take a slice as its pointer and its
 * length. This is what it makes of `extern "C"` in a static library. No header is included: the kit's compiler has none. */
typedef __SIZE_TYPE__ size_t;
typedef __UINT8_TYPE__ uint8_t;
typedef __UINT32_TYPE__ uint32_t;
typedef __UINT64_TYPE__ uint64_t;

/* A port that is compiled this way is not proved; the Python package and tools/install know it by this symbol. */
const char starlark_unproved[] = "this library is not proved";

#define TABLE const uint8_t *t, size_t tl, const uint8_t *n, size_t nl

#define ON_NODE(job)                                                                               \
    uint32_t inner_##job(TABLE, size_t node, uint32_t *out);                                        \
    uint32_t starlark_##job(TABLE, size_t node, uint32_t *out) {                                   \
        return inner_##job(t, tl, n, nl, node, out);                                 \
    }

uint32_t inner_version(void);
uint32_t starlark_version(void) { return inner_version(); }

uint32_t inner_table(TABLE, uint32_t *out);
uint32_t starlark_table(TABLE, uint32_t *out) { return inner_table(t, tl, n, nl, out); }

ON_NODE(call)
ON_NODE(target)
ON_NODE(assignment)

uint32_t inner_params(TABLE, size_t node, uint8_t *modes, size_t modes_len, uint32_t *out);
uint32_t starlark_params(TABLE, size_t node, uint8_t *modes, size_t modes_len, uint32_t *out) {
    return inner_params(t, tl, n, nl, node, modes, modes_len, out);
}

uint32_t inner_type(TABLE, const uint8_t *d, size_t dl, uint32_t edition, size_t node, uint8_t *shapes, size_t shapes_len, uint32_t *out);
uint32_t starlark_type(TABLE, const uint8_t *d, size_t dl, uint32_t edition, size_t node, uint8_t *shapes, size_t shapes_len, uint32_t *out) {
    return inner_type(t, tl, n, nl, d, dl, edition, node, shapes, shapes_len, out);
}

uint32_t inner_module(TABLE, const uint8_t *d, size_t dl, uint32_t *errors, size_t errors_len, uint32_t *out);
uint32_t starlark_module(TABLE, const uint8_t *d, size_t dl, uint32_t *errors, size_t errors_len, uint32_t *out) {
    return inner_module(t, tl, n, nl, d, dl, errors, errors_len, out);
}

uint32_t inner_bind(TABLE, size_t call, size_t def, uint32_t *list, size_t list_len, uint32_t *out);
uint32_t starlark_bind(TABLE, size_t call, size_t def, uint32_t *list, size_t list_len, uint32_t *out) {
    return inner_bind(t, tl, n, nl, call, def, list, list_len, out);
}

uint32_t inner_namesakes(TABLE, size_t call, size_t def, uint32_t *list, size_t list_len, uint32_t *out);
uint32_t starlark_namesakes(TABLE, size_t call, size_t def, uint32_t *list, size_t list_len, uint32_t *out) {
    return inner_namesakes(t, tl, n, nl, call, def, list, list_len, out);
}

uint32_t inner_write(TABLE, const uint8_t *d, size_t dl, uint32_t edition, uint8_t *file, size_t file_len, uint32_t *out);
uint32_t starlark_write(TABLE, const uint8_t *d, size_t dl, uint32_t edition, uint8_t *file, size_t file_len, uint32_t *out) {
    return inner_write(t, tl, n, nl, d, dl, edition, file, file_len, out);
}

uint32_t inner_rescue(const uint8_t *i, size_t il, uint8_t *file, size_t file_len, uint32_t *out);
uint32_t starlark_rescue(const uint8_t *i, size_t il, uint8_t *file, size_t file_len, uint32_t *out) {
    return inner_rescue(i, il, file, file_len, out);
}

uint32_t inner_audit(TABLE, const uint8_t *d, size_t dl, uint32_t edition, uint32_t *errors, size_t errors_len, uint32_t *out);
uint32_t starlark_audit(TABLE, const uint8_t *d, size_t dl, uint32_t edition, uint32_t *errors, size_t errors_len, uint32_t *out) {
    return inner_audit(t, tl, n, nl, d, dl, edition, errors, errors_len, out);
}

uint32_t inner_read(const uint8_t *f, size_t fl, uint8_t *table, size_t table_len, uint8_t *names, size_t names_len, uint32_t *out);
uint32_t starlark_read(const uint8_t *f, size_t fl, uint8_t *table, size_t table_len, uint8_t *names, size_t names_len, uint32_t *out) {
    return inner_read(f, fl, table, table_len, names, names_len, out);
}

uint32_t inner_check_file(const uint8_t *f, size_t fl, uint32_t *errors, size_t errors_len, uint32_t *out);
uint32_t starlark_check_file(const uint8_t *f, size_t fl, uint32_t *errors, size_t errors_len, uint32_t *out) {
    return inner_check_file(f, fl, errors, errors_len, out);
}

uint32_t inner_fstring_write(const uint32_t *parts, size_t parts_len, const uint8_t *texts, size_t texts_len, const uint8_t *d, size_t dl,
                                uint8_t *text, size_t text_len, uint32_t *out);
uint32_t starlark_fstring_write(const uint32_t *parts, size_t parts_len, const uint8_t *texts, size_t texts_len, const uint8_t *d, size_t dl,
                                uint8_t *text, size_t text_len, uint32_t *out) {
    return inner_fstring_write(parts, parts_len, texts, texts_len, d, dl, text, text_len, out);
}

uint32_t inner_fstring_read(const uint8_t *text, size_t text_len, uint32_t *parts, size_t parts_len, uint8_t *texts, size_t texts_len,
                               uint32_t *out);
uint32_t starlark_fstring_read(const uint8_t *text, size_t text_len, uint32_t *parts, size_t parts_len, uint8_t *texts, size_t texts_len,
                               uint32_t *out) {
    return inner_fstring_read(text, text_len, parts, parts_len, texts, texts_len, out);
}

#define BOOKS uint8_t *z, size_t zl, uint8_t *l, size_t ll

uint32_t inner_book_lookup(const uint8_t *z, size_t zl, const uint8_t *l, size_t ll, uint32_t zone, uint32_t setting, uint32_t *out);
uint32_t starlark_book_lookup(const uint8_t *z, size_t zl, const uint8_t *l, size_t ll, uint32_t zone, uint32_t setting, uint32_t *out) {
    return inner_book_lookup(z, zl, l, ll, zone, setting, out);
}

uint32_t inner_book_add(BOOKS, uint32_t zone, uint32_t setting, const uint8_t *d, size_t dl, uint32_t *out);
uint32_t starlark_book_add(BOOKS, uint32_t zone, uint32_t setting, const uint8_t *d, size_t dl, uint32_t *out) {
    return inner_book_add(z, zl, l, ll, zone, setting, d, dl, out);
}

uint32_t inner_book_remove(BOOKS, uint32_t zone, uint32_t setting, uint32_t *out);
uint32_t starlark_book_remove(BOOKS, uint32_t zone, uint32_t setting, uint32_t *out) {
    return inner_book_remove(z, zl, l, ll, zone, setting, out);
}

uint32_t inner_book_blank(uint8_t *book, size_t book_len, uint32_t *out);
uint32_t starlark_book_blank(uint8_t *book, size_t book_len, uint32_t *out) { return inner_book_blank(book, book_len, out); }

uint32_t inner_figures(const uint8_t *input, size_t input_len, uint64_t *figures, uint32_t *out);
uint32_t starlark_figures(const uint8_t *input, size_t input_len, uint64_t *figures, uint32_t *out) {
    return inner_figures(input, input_len, figures, out);
}

uint32_t inner_figures_step(const uint8_t *window, size_t window_len, uint64_t *figures, uint32_t *out);
uint32_t starlark_figures_step(const uint8_t *window, size_t window_len, uint64_t *figures, uint32_t *out) {
    return inner_figures_step(window, window_len, figures, out);
}
