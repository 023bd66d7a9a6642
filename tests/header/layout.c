/*
 * The header's structs that are lent lie in memory as the proved ones do. C, and C++ too. The numbers are not here: `proved.h` has them from
 * crates/face/proofs/Sizes.antt, where the prover holds them to the code; `run` writes it.
 */
#include "oilwhisper.h"

#include <assert.h>

#include "proved.h"

#define SIZE(name, fields) \
    static_assert(sizeof(struct ow_##name) == LAID_##name##_SIZE, "size of ow_" #name); \
    static_assert(fields == LAID_##name##_FIELDS, "fields of ow_" #name)
#define AT(name, k, field) static_assert(offsetof(struct ow_##name, field) == LAID_##name##_##k, "ow_" #name "." #field)

SIZE(head, 6);
AT(head, 0, state);
AT(head, 1, tries);
AT(head, 2, cookie_len);
AT(head, 3, ends);
AT(head, 4, keeping);
AT(head, 5, sender);

SIZE(ends, 7);
AT(ends, 0, local_port);
AT(ends, 1, peer_port);
AT(ends, 2, my_tag);
AT(ends, 3, peer_tag);
AT(ends, 4, streams_in);
AT(ends, 5, streams_out);
AT(ends, 6, options);

SIZE(keeping, 4);
AT(keeping, 0, point);
AT(keeping, 1, come);
AT(keeping, 2, dups);
AT(keeping, 3, listed);

SIZE(sender, 6);
AT(sender, 0, acked);
AT(sender, 1, next_tsn);
AT(sender, 2, advertised);
AT(sender, 3, oldest);
AT(sender, 4, path);
AT(sender, 5, mode);

SIZE(path, 6);
AT(path, 0, control);
AT(path, 1, clock);
AT(path, 2, flight);
AT(path, 3, running);
AT(path, 4, until);
AT(path, 5, tries);

SIZE(control, 3);
AT(control, 0, cwnd);
AT(control, 1, ssthresh);
AT(control, 2, partial);

SIZE(clock, 4);
AT(clock, 0, sampled);
AT(clock, 1, srtt);
AT(clock, 2, rttvar);
AT(clock, 3, rto);
