/* raw.c: sends raw command blocks to a drive on the wire and compares every answer with documents 01 and 02.
 *
 *     raw URL exact|stock
 *
 * The drive is just started on a blank cartridge of 64 bytes with one partition, and nobody else has asked it anything.
 * exact: it hands each command block to the library as it came; it is unloaded at the end. stock: it has the
 * translations for stock programs. Exit status 0 if every check passed and none was left out, 1 if not, 2 for wrong
 * arguments. */
#define _POSIX_C_SOURCE 200809L
#include "claims.h"
#include "identity.h"
#include "loading.h"

enum { CHECKS_IF_EXACT = 573, CHECKS_IF_STOCK = 715 };

static void try_what_both_serve(struct wire *wire)
{
    try_steps(wire, as_mounted, COUNT(as_mounted));
    try_identity(wire);
    try_edges(wire);
    try_parameters(wire);
    try_claims(wire);
    try_unserved_codes(wire);
}

static int try_exact(struct wire *wire)
{
    pass_attention(wire);
    try_steps(wire, met_by_code, COUNT(met_by_code));
    try_what_both_serve(wire);
    try_steps(wire, exact_translations, COUNT(exact_translations));
    unload(wire);
    try_steps(wire, exact_load, COUNT(exact_load));
    return end_of_checks(CHECKS_IF_EXACT);
}

static int try_stock(struct wire *wire)
{
    pass_attention(wire);
    try_steps(wire, met_by_ready, COUNT(met_by_ready));
    try_what_both_serve(wire);
    try_steps(wire, stock_translations, COUNT(stock_translations));
    expect_partition_pages(wire);
    unload(wire);
    load_again(wire, met_by_code, COUNT(met_by_code));
    unload_and_load_again(wire, met_by_field, COUNT(met_by_field));
    unload_and_load_again(wire, met_by_page, COUNT(met_by_page));
    unload_and_load_again(wire, met_by_position, COUNT(met_by_position));
    unload_and_load_again(wire, met_by_prevent, COUNT(met_by_prevent));
    unload_and_load_again(wire, told_by_sense, COUNT(told_by_sense));
    unload_and_load_again(wire, told_in_descriptors, COUNT(told_in_descriptors));
    return end_of_checks(CHECKS_IF_STOCK);
}

int main(int count, char **arguments)
{
    static struct wire wire = {.subject = "the drive"};
    int is_exact = count == 3 && strcmp(arguments[2], "exact") == 0;
    if (!is_exact && (count != 3 || strcmp(arguments[2], "stock") != 0)) {
        fprintf(stderr, "usage: raw iscsi://HOST:PORT/TARGET/LUN exact|stock\n");
        return 2;
    }
    wire.initiator = connect_to("iqn.2026-11.example.stormtoggle:raw", arguments[1]);
    int status = is_exact ? try_exact(&wire) : try_stock(&wire);
    disconnect(&wire.initiator);
    return status;
}
