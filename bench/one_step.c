/* One step from a trial in a file (trials.h), so that its instructions can be counted (scripts/bench_count.sh). usage: one_step FILE */
#include "guzbytor.h"
#include "run.h"

int main(int count, char **words) {
    if (count != 2) {
        fprintf(stderr, "usage: one_step FILE\n");
        return 1;
    }
    buffer b = read_file(words[1]);
    guzbytor_lengths_answer lengths = guzbytor_lengths(b.bytes[1], (uint32_t)b.bytes[2] << 8 | b.bytes[3]);
    buffer out = lent(lengths.out);
    memset(out.bytes, 0, out.length);
    guzbytor_step_answer a = guzbytor_step(b.bytes, lengths.state, b.bytes + lengths.state, b.length - lengths.state, out.bytes, out.length);
    if (a.number != 0) {
        fprintf(stderr, "%s: number %u\n", words[1], (unsigned)a.number);
        return 1;
    }
    return 0;
}
