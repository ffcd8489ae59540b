/* A plain reader of macro-code, for bench/exec.py to compare `syndex exec` with: A H C reads the algorithm and the
   architecture, and the text of macro-code into memory; A H reads the first two alone. It says how much it read. */
#include "flat.h"
#include "architecture.h"
#include "macro_code.h"

int main(int argc, char **argv) {
    if (argc != 3 && argc != 4) return 2;
    read_operations(argv[1]);
    read_architecture(argv[2]);
    if (argc == 4) read_macro_code(argv[3]);
    printf("operations %d\nbuffers %d\npairs %d\nsequences %d\ninstructions %d\n", op_count, buffer_count, pair_count, seq_count, instr_count);
    return 0;
}
