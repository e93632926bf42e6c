/* Where the keys and rolls of a zone are after a script, as JSON. */

#include "session.h"
#include "tasks.h"

void show_status(void)
{
    struct text script = read_all(), answer = {NULL, 0, 0};
    struct keyset_session session = {0};
    reserve(&answer, 4096);
    take_script(&session, &script, "");
    ASK(&answer, "", keyset_status(&session, out, room));
    write_all(&answer);
}
