/* A bootloader that checks a manifest before it starts a release: the example to copy from. The release that a display is to boot is the one that a
   controller's report has settled, and the manifest says which image that is and who made it. Here a station of one controller settles releases 8 and
   300 for display 4, one after the other, and the bootloader tries the images of both, and damaged ones. It prints what happens, and stops with exit
   status 1 at the first answer that is not as it should be. */
#include "example.h"
#include "manifests.h"

/* What came with an image: to be started only if the check says so. */
typedef struct {
    const char *name;
    const uint8_t *image;
    size_t image_length;
    const uint8_t *manifest;
    size_t manifest_length;
} delivery;

static uint8_t held[LEDGER_CHAIN_BYTES];
static size_t length;
static ledger_pool pool;

/* The controller's part: it adds an order to its pool and puts it into its next block. */
static void order_release(ledger_slot now, uint64_t expected, uint64_t new_release) {
    ledger_order order = {.display = DISPLAY, .expected = expected, .new_release = new_release};
    ledger_pool_answer pooled = ledger_add_order(genesis, genesis_length, now, held, sizeof held, length, pool, order, DEPOT);
    accepted("add", pooled.refusal, pooled.place);
    pool = pooled.pool;
    ledger_issue_answer issued = ledger_issue(genesis, genesis_length, now, held, sizeof held, length, pool, 1, made_up_sign, keys[0]);
    accepted("issue", issued.refusal, issued.place);
    length = issued.length;
}

/* What the bootloader asks the controller: the release that is settled for its display. Where there is no report, or it may not be used because the
   controller has been out (docs/HOSTS.md), nothing new is started. */
static uint64_t settled_release(ledger_slot now) {
    ledger_report_answer report = ledger_report(genesis, genesis_length, now, held, sizeof held, length);
    accepted("report", report.refusal, report.place);
    printf("slot %" PRIu32 ": display %d is to boot %" PRIu64 "\n", now.number, DISPLAY, report.releases[DISPLAY]);
    return report.releases[DISPLAY];
}

/* The bootloader's part. The image is checked where it will be started from, after it was copied there: what is changed later is not checked. The
   key is built into the bootloader. */
static void try_to_start(delivery d, uint64_t settled) {
    ledger_manifest_answer checked = ledger_check_manifest(d.image, d.image_length, d.manifest, d.manifest_length, manifest_key,
                                                           sizeof manifest_key, settled);
    if (checked.refusal == LEDGER_NO_REFUSAL)
        printf("%s: starts\n", d.name);
    else
        printf("%s: refused %" PRIu32 " %" PRIu32 ", %s\n", d.name, checked.refusal, checked.place.number, ledger_refusal_words(checked.refusal));
}

static const delivery of_8 = {"release 8", image_8, sizeof image_8, manifest_8, sizeof manifest_8};
static const delivery of_300 = {"release 300", image_300, sizeof image_300, manifest_300, sizeof manifest_300};

/* What was damaged on its way, or made by somebody who does not have the signing key. */
static void try_bad_ones(uint64_t settled) {
    uint8_t image[sizeof image_300], manifest[sizeof manifest_300];
    memcpy(image, image_300, sizeof image);
    memcpy(manifest, manifest_300, sizeof manifest);
    delivery bad = {"a damaged image", image, sizeof image, manifest, sizeof manifest};
    image[0] ^= 1;
    try_to_start(bad, settled);
    image[0] ^= 1;
    bad.name = "a damaged manifest";
    manifest[100] ^= 1;
    try_to_start(bad, settled);
    bad.name = "half a manifest";
    bad.manifest_length /= 2;
    try_to_start(bad, settled);
    bad.name = "no manifest";
    bad.manifest_length = 0;
    try_to_start(bad, settled);
}

int main(void) {
    make_genesis(1, 0); /* n and t: a block is settled if its slot + 1 is below now */
    order_release((ledger_slot){1}, 7, 8);
    order_release((ledger_slot){2}, 8, 300);
    uint64_t settled = settled_release((ledger_slot){3});
    try_to_start(of_8, settled);
    try_to_start(of_300, settled);
    settled = settled_release((ledger_slot){4});
    try_to_start(of_8, settled);
    try_to_start(of_300, settled);
    try_bad_ones(settled);
    return EXIT_SUCCESS;
}
