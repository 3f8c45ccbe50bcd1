/* The call of kbd48_call.h. Each call is made in a machine of its own, so two threads may call at the same time. */

enum { STACK = 256 * 1024, LOWEST = STACK_TOP - STACK, PIECE = 16, SAID = 16, NO_MEMORY = 2 };
HOLDS(stack_is_large_enough, (long)MOST_NEEDED <= (long)STACK);

/* Numbers of this machine's size are put as the module has them, of 64 bits. */
static u64 put_piece(const machine *m, u64 at, kbd48_piece piece) {
    i64_store(m, at, piece.start);
    i64_store(m, at + 8, piece.end);
    return at + PIECE;
}

/* What a call passes is in one block: words, files, the answer, the bytes, and the room for the text. */
static int32_t called_in(machine *m, const uint8_t *bytes, size_t length, const kbd48_piece *words, size_t words_length,
                         const kbd48_named *files, size_t files_length, uint8_t *text, size_t text_length, kbd48_said *said) {
    jmp_buf overflow;
    const u64 pieces = (u64)PIECE * (words_length + 2 * (u64)files_length);
    const u64 start = wasm_page_take(m, pieces + SAID + (u64)length + text_length);
    if (!start) return NO_MEMORY;
    u64 at = start;
    for (size_t i = 0; i < words_length; i++) at = put_piece(m, at, words[i]);
    for (size_t i = 0; i < files_length; i++) at = put_piece(m, put_piece(m, at, files[i].name), files[i].file);
    const u64 its_bytes = at + SAID, its_text = its_bytes + length;
    put(m, its_bytes, bytes, length);
    m->overflow = &overflow;
    if (setjmp(overflow)) return NO_MEMORY;
    const int32_t status = (int32_t)wasm_kbd48_call(m, its_bytes, length, start, words_length, start + (u64)PIECE * words_length,
                                                    files_length, its_text, text_length, at);
    if (status == 0) {
        said->length = (size_t)i64_load(m, at);
        said->exit = (uint8_t)i32_load8_u(m, at + 8);
        get(m, its_text, text, said->length);
    }
    return status;
}

int32_t kbd48_call(const uint8_t *bytes, size_t length, const kbd48_piece *words, size_t words_length,
                   const kbd48_named *files, size_t files_length, uint8_t *text, size_t text_length, kbd48_said *said) {
    machine *m = made(LOWEST, STACK_TOP);
    if (!m) return NO_MEMORY;
    int32_t status = called_in(m, bytes, length, words, words_length, files, files_length, text, text_length, said);
    unmade(m);
    return status;
}
