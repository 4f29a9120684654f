/* Instruction counts, from callgrind. */
#ifndef INSTRUCTIONS_H
#define INSTRUCTIONS_H

#define COUNTED_CALLS 8 /* calls of each operation on one table that one count is the sum of */

#endif
