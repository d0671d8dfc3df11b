/* Every field of every struct of the headers, by its name: calls whose right answers have another number in each field, so that
 * two fields exchanged, in a header or in a library, show. fields FOLDER: the folder of the example tables. */
#include <stdint.h>
#include <stdio.h>
#include <string.h>

#include "alert_info.h"
#include "call_log.h"
#include "resolver.h"
#include "sample_value.h"
#include "signal_table.h"
#include "small_machine.h"
#include "table_kept.h"
#include "tally.h"
#include "tree_table.h"

typedef struct bytes {
    uint8_t at[8192];
    size_t n;
} bytes;

static int wrong;

static void field(const char *name, size_t got, size_t right)
{
    if (got != right) {
        printf("%s is %zu, not %zu\n", name, got, right);
        wrong = 1;
    }
}

#define FIELD(x, right) field(#x, (size_t)(x), right)

static bytes table(const char *folder, const char *name)
{
    bytes t = {{0}, 0};
    char path[1024];
    FILE *file;
    snprintf(path, sizeof path, "%s/%s.table", folder, name);
    file = fopen(path, "rb");
    if (file == NULL) {
        perror(path);
        wrong = 1;
        return t;
    }
    t.n = fread(t.at, 1, sizeof t.at, file);
    fclose(file);
    return t;
}

/* What a string stands for as a value: its pointer and its length. */
#define VALUE(s) (const uint8_t *)(s), strlen(s)
#define BYTES(t) (t).at, (t).n

/* T2: internal and high ring 8; three URNs are used and one entry is skipped. */
#define HIGH "<urn:alert:source:internal>, <a>, <urn:alert:priority:high>, <urn:alert:priority:normal>"

static void resolutions(const char *folder)
{
    bytes t2 = table(folder, "T2");
    bytes rings = table(folder, "rings-by-source"), lamps = table(folder, "lamps-by-priority");
    alert_plain plain = resolve_plain(BYTES(t2), VALUE(HIGH));
    alert_resolution some = resolve_available(BYTES(t2), 511, VALUE(HIGH));
    alert_early early = resolve_early(BYTES(t2), VALUE("<urn:alert:source:internal>, <urn:alert:priority:high>, <a"));
    alert_pair pair = resolve_pair(BYTES(rings), BYTES(lamps), VALUE("<urn:alert:source:external>, <urn:alert:priority:high>"));
    FIELD(plain.refusal, 0);
    FIELD(plain.signal, 8);
    FIELD(plain.used, 3);
    FIELD(plain.skipped, 1);
    FIELD(plain.tries, 2);
    FIELD(some.refusal, 0);
    FIELD(some.signal, 8);
    FIELD(some.used, 3);
    FIELD(some.skipped, 1);
    FIELD(early.refusal, 0);
    FIELD(early.signal, 8);
    FIELD(early.entries, 2);
    FIELD(pair.refusal, 0);
    FIELD(pair.ring, 1);
    FIELD(pair.lamp, 2);
    plain = resolve_plain(BYTES(t2), VALUE("<a>,"));
    some = resolve_available(BYTES(t2), 512, VALUE(HIGH));
    early = resolve_early(BYTES(t2), VALUE("<a>,"));
    pair = resolve_pair(BYTES(t2), BYTES(t2), VALUE(HIGH));
    FIELD(plain.refusal, 2);
    FIELD(some.refusal, 23);
    FIELD(early.refusal, 2);
    FIELD(pair.refusal, 24);
}

/* T3: low and then internal shuts category 0. T5: a recall is held at its node, the second. */
static void records(const char *folder)
{
    bytes t3 = table(folder, "T3"), t5 = table(folder, "T5");
    alert_record shut = {0, {0}, 0}, held = {0, {0}, 0};
    alert_record strange = {0, {0, 0, 0, 0, 0, 0, 0, 1}, 0};
    resolve_feed(BYTES(t3), &shut, VALUE("<urn:alert:priority:low>, <urn:alert:source:internal>"));
    resolve_feed(BYTES(t3), &shut, VALUE("<a>"));
    FIELD(shut.signal, 3);
    FIELD(shut.status[0], 1);
    FIELD(shut.status[1], 0);
    FIELD(shut.values, 2);
    resolve_feed(BYTES(t5), &held, VALUE("<urn:alert:service:recall>"));
    FIELD(held.signal, 0);
    FIELD(held.status[0], 3);
    FIELD(held.values, 1);
    FIELD(resolve_feed(BYTES(t5), &strange, VALUE("<a>")).refusal, 28);
    FIELD(sizeof(alert_record), 10);
}

static void places(const char *folder)
{
    bytes t2 = table(folder, "T2");
    alert_info_span span = alert_info_entry(VALUE(HIGH), 1);
    alert_match match = signal_table_match(BYTES(t2), VALUE("urn:alert:priority:high:now"));
    FIELD(span.start, 30);
    FIELD(span.len, 1);
    FIELD(match.refusal, 0);
    FIELD(match.used, 1);
    FIELD(match.category, 1);
    FIELD(match.node, 4);
    FIELD(match.whole, 0);
    FIELD(match.compared, 5);
    match = signal_table_match(BYTES(t2), VALUE("urn:alert:source:internal"));
    FIELD(match.used, 1);
    FIELD(match.category, 0);
    FIELD(match.node, 2);
    FIELD(match.whole, 1);
    FIELD(match.compared, 9);
    FIELD(signal_table_match(t2.at, 1, VALUE("a")).refusal, 5);
}

static void forms(const char *folder)
{
    static uint8_t image[MACHINE_LONGEST], small[MACHINE_SMALL_LONGEST], tree[TREE_TABLE_LONGEST], value[ALERT_SAMPLE_ROOM];
    bytes t1 = table(folder, "T1"), t2 = table(folder, "T2");
    machine_built built = machine_build(BYTES(t1), image, sizeof image);
    table_converted converted = tree_table_from_signal_table(BYTES(t2), tree, sizeof tree);
    sample_seed seed = {1};
    sample_made made = sample_value_make(BYTES(t2), &seed, value, sizeof value);
    FIELD(built.refusal, 0);
    FIELD(built.len, 32);
    built = machine_small_write(BYTES(t1), image, 32, VALUE("a"), small, sizeof small);
    FIELD(built.refusal, 27);
    FIELD(built.len, 0);
    FIELD(converted.refusal, 0);
    FIELD(converted.len, 75);
    converted = tree_table_from_signal_table(BYTES(t2), tree, 74);
    FIELD(converted.refusal, 22);
    FIELD(converted.len, 0);
    FIELD(made.refusal, 0);
    FIELD(made.len, 16);
    FIELD(seed.x, 1586005467);
    made = sample_value_make(BYTES(t2), &seed, value, 1);
    FIELD(made.refusal, 26);
    FIELD(made.len, 0);
}

static void counts(const char *folder)
{
    bytes t2 = table(folder, "T2");
    alert_tally month[ALERT_MOST_SIGNALS];
    uint32_t refusals[ALERT_TALLY_COUNTS] = {0};
    alert_resolution answer;
    memset(month, 0, sizeof month);
    tally_value(BYTES(t2), month, ALERT_MOST_SIGNALS, refusals, ALERT_TALLY_COUNTS, VALUE(HIGH));
    answer = tally_value(BYTES(t2), month, ALERT_MOST_SIGNALS, refusals, ALERT_TALLY_COUNTS, VALUE(HIGH));
    tally_value(BYTES(t2), month, ALERT_MOST_SIGNALS, refusals, ALERT_TALLY_COUNTS, VALUE("<a>,"));
    FIELD(answer.refusal, 0);
    FIELD(answer.signal, 8);
    FIELD(answer.used, 3);
    FIELD(answer.skipped, 1);
    FIELD(month[8].chosen, 2);
    FIELD(month[8].used, 6);
    FIELD(month[8].skipped, 2);
    FIELD(refusals[1], 1);
    month[8].skipped = UINT32_MAX;
    FIELD(tally_value(BYTES(t2), month, ALERT_MOST_SIGNALS, refusals, ALERT_TALLY_COUNTS, VALUE(HIGH)).refusal, 20);
    FIELD(month[8].chosen, 2);
    month[8].skipped = 0;
    tally_value(BYTES(t2), month, ALERT_MOST_SIGNALS, refusals, ALERT_TALLY_COUNTS, VALUE(HIGH));
    FIELD(month[8].chosen, 3);
    FIELD(month[8].used, 9);
    FIELD(month[8].skipped, 1);
}

/* A log of six calls with no ring but the default, each right but the last. */
static void logs(const char *folder)
{
    bytes t2 = table(folder, "T2"), log = {{6, 0}, 2};
    call_log_verdict verdict;
    int call;
    for (call = 0; call < 5; call++) {
        memcpy(log.at + log.n, "\3\0<a>\0\0\1", 8);
        log.n += 8;
    }
    log.at[log.n] = (uint8_t)strlen(HIGH);
    memcpy(log.at + log.n + 2, HIGH, strlen(HIGH));
    log.n += strlen(HIGH) + 5;
    verdict = call_log_check(BYTES(t2), BYTES(log));
    FIELD(verdict.refusal, 0);
    FIELD(verdict.agrees, 0);
    FIELD(verdict.call, 5);
    FIELD(verdict.signal, 8);
    FIELD(verdict.used, 3);
    FIELD(verdict.skipped, 1);
    log.at[log.n - 3] = 8;
    log.at[log.n - 2] = 3;
    log.at[log.n - 1] = 1;
    FIELD(call_log_check(BYTES(t2), BYTES(log)).agrees, 1);
    FIELD(call_log_check(BYTES(t2), log.at, log.n - 1).refusal, 25);
}

/* T3: after priority:low (node 3), source:internal (node 2) is lost, and signal 3 rings; 4 is rung by source:external and
 * priority:low, 1 and 3. */
static void marks(const char *folder)
{
    bytes t3 = table(folder, "T3");
    alert_kept lost = alert_signal_table_keeps(BYTES(t3), 255, 2), kept = alert_signal_table_keeps(BYTES(t3), 255, 1);
    alert_rung rung = alert_signal_table_rings(BYTES(t3), 255, 4);
    FIELD(lost.refusal, 0);
    FIELD(lost.kept, 0);
    FIELD(lost.rings, 3);
    FIELD(lost.len, 2);
    FIELD(lost.marks[0], 3);
    FIELD(lost.marks[1], 2);
    FIELD(lost.marks[2], 0);
    FIELD(kept.kept, 1);
    FIELD(kept.len, 0);
    FIELD(rung.refusal, 0);
    FIELD(rung.rings, 1);
    FIELD(rung.len, 2);
    FIELD(rung.marks[0], 1);
    FIELD(rung.marks[1], 3);
    FIELD(rung.marks[2], 0);
    FIELD(alert_signal_table_keeps(BYTES(t3), 256, 1).refusal, 23);
    FIELD(alert_signal_table_keeps(BYTES(t3), 255, 5).refusal, 30);
    FIELD(alert_signal_table_rings(BYTES(t3), 255, 8).refusal, 31);
}

int main(int n, char **words)
{
    if (n != 2) {
        fprintf(stderr, "usage: fields FOLDER\n");
        return 2;
    }
    resolutions(words[1]);
    records(words[1]);
    places(words[1]);
    forms(words[1]);
    counts(words[1]);
    logs(words[1]);
    marks(words[1]);
    return wrong;
}
