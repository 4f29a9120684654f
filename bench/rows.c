/* The rows of two tables. */
#include "rows.h"

struct two row(enum row r)
{
    switch (r) {
    case JOINED_7:
    case SHARED_7:
    case WITHOUT_7:
        return (struct two){JOINED + (r - JOINED_7), "31 of 63, multiples of 7", workload(EXACTLY_31),
                            multiples("multiples of 7", 7), 6878};
    case JOINED_173:
        return (struct two){JOINED, "multiples of 7, of 173", multiples("multiples of 7", 7),
                            multiples("multiples of 173", 173), 58349};
    case TOO_LONG:
        return (struct two){JOINED, "multiples of 11, of 173", multiples("multiples of 11", 11),
                            multiples("multiples of 173", 173), 90482};
    default:
        return (struct two){JOINED + (r - JOINED_TWICE), "sample A twice", workload(SAMPLE_A), workload(SAMPLE_A), 6};
    }
}
