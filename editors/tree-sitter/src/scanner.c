// Comments, which nest: a regular expression cannot count them.
#include "tree_sitter/parser.h"

enum Token { COMMENT };

static bool is_blank(int32_t character) {
  return character == ' ' || character == '\t' || character == '\n' || character == '\r';
}

static bool passes(TSLexer *lexer, char first, char second) {
  if (lexer->lookahead != first) {
    return false;
  }
  lexer->advance(lexer, false);
  if (lexer->lookahead != second) {
    return false;
  }
  lexer->advance(lexer, false);
  return true;
}

// Passes over the rest of a comment, whose front was read. At the end of the text it is none.
static bool passes_rest(TSLexer *lexer) {
  unsigned depth = 1;
  while (depth > 0) {
    if (lexer->eof(lexer)) {
      return false;
    }
    if (lexer->lookahead == '(') {
      depth += passes(lexer, '(', '*') ? 1 : 0;
    } else if (lexer->lookahead == '*') {
      depth -= passes(lexer, '*', ')') ? 1 : 0;
    } else {
      lexer->advance(lexer, false);
    }
  }
  return true;
}

void *tree_sitter_modula2_external_scanner_create(void) { return NULL; }
void tree_sitter_modula2_external_scanner_destroy(void *payload) { (void)payload; }
unsigned tree_sitter_modula2_external_scanner_serialize(void *payload, char *buffer) {
  (void)payload;
  (void)buffer;
  return 0;
}
void tree_sitter_modula2_external_scanner_deserialize(void *payload, const char *buffer, unsigned length) {
  (void)payload;
  (void)buffer;
  (void)length;
}

bool tree_sitter_modula2_external_scanner_scan(void *payload, TSLexer *lexer, const bool *valid) {
  (void)payload;
  if (!valid[COMMENT]) {
    return false;
  }
  while (is_blank(lexer->lookahead)) {
    lexer->advance(lexer, true);
  }
  if (!passes(lexer, '(', '*') || !passes_rest(lexer)) {
    return false;
  }
  lexer->result_symbol = COMMENT;
  return true;
}
