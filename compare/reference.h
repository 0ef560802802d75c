/* The calls a second time, written from the published definitions alone, with the library's signatures. */
#ifndef REFERENCE_H
#define REFERENCE_H

#include <stddef.h>
#include <stdint.h>

uint64_t reference_compile(const uint8_t *book, size_t book_len, uint64_t ceiling, uint16_t *work, size_t work_len,
                           uint8_t *out, size_t out_len);
uint64_t reference_run_book(const uint8_t *book, size_t book_len, const uint8_t *sentence, size_t sentence_len,
                            uint8_t *out, size_t out_len);
uint64_t reference_compile_ending(const uint8_t *book, size_t book_len, uint8_t end, uint64_t ceiling, uint16_t *work,
                                  size_t work_len, uint8_t *out, size_t out_len);
uint64_t reference_starter_table(uint8_t *out, size_t out_len);
uint64_t reference_run_book_ending(const uint8_t *book, size_t book_len, uint8_t end, const uint8_t *sentence,
                                   size_t sentence_len, uint8_t *out, size_t out_len);
uint64_t reference_run_book_rules(const uint8_t *book, size_t book_len, uint8_t end, const uint8_t *sentence,
                                  size_t sentence_len, uint8_t *out, size_t out_len, uint8_t *rules, size_t rules_len);
uint64_t reference_run_table(const uint8_t *table, size_t table_len, const uint8_t *sentence, size_t sentence_len,
                             uint8_t *out, size_t out_len);
uint64_t reference_read_book(const uint8_t *book, size_t book_len);
uint64_t reference_read_table(const uint8_t *table, size_t table_len);
uint64_t reference_load_table(const uint8_t *table, size_t table_len, uint32_t *loaded, size_t loaded_len);
uint64_t reference_run_loaded(const uint32_t *loaded, size_t loaded_len, const uint8_t *sentence, size_t sentence_len,
                              uint8_t *out, size_t out_len);
uint64_t reference_open(const uint8_t *table, size_t table_len, uint64_t *state, uint64_t *given, uint64_t *closed);
uint64_t reference_give(const uint8_t *table, size_t table_len, uint64_t *state, uint64_t *given, uint64_t *closed, uint8_t tag,
                        uint8_t *out, size_t out_len);
uint64_t reference_look(const uint8_t *table, size_t table_len, uint64_t state, uint64_t given, uint64_t closed, uint8_t *out,
                        size_t out_len);
uint64_t reference_close(const uint8_t *table, size_t table_len, uint64_t *state, uint64_t *given, uint64_t *closed,
                         uint8_t *out, size_t out_len);
uint64_t reference_compile_within(uint64_t pattern, uint64_t rules, uint64_t tags, const uint8_t *book, size_t book_len, uint8_t end,
                                  uint64_t ceiling, uint16_t *work, size_t work_len, uint8_t *out, size_t out_len);
uint64_t reference_run_book_within(uint64_t pattern, uint64_t rules, uint64_t tags, const uint8_t *book, size_t book_len, uint8_t end,
                                   const uint8_t *sentence, size_t sentence_len, uint8_t *out, size_t out_len);
uint64_t reference_run_table_within(uint64_t pattern, uint64_t rules, uint64_t tags, const uint8_t *table, size_t table_len,
                                    const uint8_t *sentence, size_t sentence_len, uint8_t *out, size_t out_len);

#endif
