/* tj_coerces over the two questions that an archive from before request f has in its place: the second is asked where
 * the first says no. For tools/bench against. */
#include "trestlejay.h"

tj_answer tj_can_coerce_into(const uint64_t *a, size_t na, const uint64_t *b, size_t nb);
tj_answer tj_can_coerce_address_into(const uint64_t *a, size_t na, const uint64_t *b, size_t nb);

tj_answer tj_coerces(const uint64_t *a, size_t na, const uint64_t *b, size_t nb)
{
    tj_answer got = tj_can_coerce_into(a, na, b, nb);
    if (got.refusal || got.value)
        return got;
    got = tj_can_coerce_address_into(a, na, b, nb);
    if (!got.refusal && got.value)
        got.value = TJ_COERCES_BY_ADDRESS;
    return got;
}
