/* Tags a sentence with the starter table, which comes with the library: no book, and nothing is compiled. */
#include <nedzsuka.h>
#include <stdio.h>

int main(void)
{
    const uint8_t sentence[] = {7, 0, 1, 0, 1};
    uint8_t table[NEDZSUKA_STARTER_BYTES], out[sizeof sentence];
    uint32_t loaded[NEDZSUKA_STARTER_BYTES];
    uint64_t answer;

    /* Once. Neither call is refused, since both slices are long enough. */
    nedzsuka_starter_table(table, sizeof table);
    nedzsuka_load_table(table, sizeof table, loaded, sizeof loaded / sizeof *loaded);
    /* For each sentence. */
    answer = nedzsuka_run_loaded(loaded, sizeof loaded / sizeof *loaded, sentence, sizeof sentence, out, sizeof out);
    for (size_t i = 0; i < sizeof out; i++)
        printf("%d ", out[i]);
    printf("changed: %d\n", (int)nedzsuka_value(answer));
    return (int)nedzsuka_refusal(answer);
}
