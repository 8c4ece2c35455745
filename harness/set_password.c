/*
 * A client of the password service over MIT's library.
 *
 *   set_password CLIENT PASSWORD NEW TARGET           krb5_set_password, version 0xff80
 *   set_password --change CLIENT PASSWORD NEW         krb5_change_password, version 1
 *   set_password --tgt ..                             either with a ticket that isn't initial
 *   set_password --many N CLIENT PASSWORD NEW TARGET  N times, to NEW-1, NEW-2, .. with one ticket
 *
 * Prints the result code and the server's text, such as `0 password changed`; of --many the seconds
 * that the changes took. The status is 0 where there was an answer.
 */
#include <krb5.h>
#include <stdio.h>
#include <stdlib.h>
#include <string.h>
#include <time.h>

static krb5_context context;

static void check(krb5_error_code error, const char *what)
{
    if (error == 0)
        return;
    fprintf(stderr, "%s: %s\n", what, krb5_get_error_message(context, error));
    exit(1);
}

/* a ticket for kadmin/changepw from the KDC, by the password */
static void initial_ticket(krb5_creds *creds, krb5_principal client, const char *password)
{
    check(krb5_get_init_creds_password(context, creds, client, password, NULL, NULL, 0,
                                       "kadmin/changepw", NULL),
          "krb5_get_init_creds_password");
}

/* the same by a ticket-granting ticket, so that it isn't flagged initial */
static krb5_creds *later_ticket(krb5_principal client, const char *password)
{
    krb5_creds tgt, wanted, *got;
    krb5_ccache cache;

    check(krb5_get_init_creds_password(context, &tgt, client, password, NULL, NULL, 0, NULL, NULL),
          "krb5_get_init_creds_password");
    check(krb5_cc_resolve(context, "MEMORY:later", &cache), "krb5_cc_resolve");
    check(krb5_cc_initialize(context, cache, client), "krb5_cc_initialize");
    check(krb5_cc_store_cred(context, cache, &tgt), "krb5_cc_store_cred");
    memset(&wanted, 0, sizeof wanted);
    wanted.client = client;
    check(krb5_parse_name(context, "kadmin/changepw", &wanted.server), "krb5_parse_name");
    check(krb5_get_credentials(context, 0, cache, &wanted, &got), "krb5_get_credentials");
    return got;
}

/* one call: the result code, and the server's text */
static int ask(krb5_creds *creds, const char *new, krb5_principal target, krb5_data *text)
{
    krb5_data code_text;
    int code;
    krb5_error_code error;

    error = target == NULL
        ? krb5_change_password(context, creds, (char *)new, &code, &code_text, text)
        : krb5_set_password(context, creds, (char *)new, target, &code, &code_text, text);
    check(error, target == NULL ? "krb5_change_password" : "krb5_set_password");
    return code;
}

static void many(int count, krb5_creds *creds, const char *new, krb5_principal target)
{
    struct timespec start, end;
    char password[200];
    krb5_data text;
    int i;

    clock_gettime(CLOCK_MONOTONIC, &start);
    for (i = 1; i <= count; i++) {
        snprintf(password, sizeof password, "%s-%d", new, i);
        if (ask(creds, password, target, &text) != 0) {
            fprintf(stderr, "change %d: %.*s\n", i, (int)text.length, text.data);
            exit(1);
        }
    }
    clock_gettime(CLOCK_MONOTONIC, &end);
    printf("%.6f\n", end.tv_sec - start.tv_sec + (end.tv_nsec - start.tv_nsec) / 1e9);
}

int main(int argc, char **argv)
{
    int tgt = 0, change = 0, count = 0, code;
    krb5_principal client, target = NULL;
    krb5_creds initial, *creds = &initial;
    krb5_data text;

    argv++, argc--;
    if (argc > 0 && strcmp(argv[0], "--tgt") == 0)
        tgt = 1, argv++, argc--;
    if (argc > 0 && strcmp(argv[0], "--change") == 0)
        change = 1, argv++, argc--;
    else if (argc > 1 && strcmp(argv[0], "--many") == 0)
        count = atoi(argv[1]), argv += 2, argc -= 2;
    if (argc != (change ? 3 : 4)) {
        fprintf(stderr, "usage: set_password [--tgt] [--change | --many N] "
                        "CLIENT PASSWORD NEW [TARGET]\n");
        return 2;
    }
    check(krb5_init_context(&context), "krb5_init_context");
    check(krb5_parse_name(context, argv[0], &client), "krb5_parse_name");
    if (!change)
        check(krb5_parse_name(context, argv[3], &target), "krb5_parse_name");
    if (tgt)
        creds = later_ticket(client, argv[1]);
    else
        initial_ticket(&initial, client, argv[1]);
    if (count > 0) {
        many(count, creds, argv[2], target);
        return 0;
    }
    code = ask(creds, argv[2], target, &text);
    printf("%d %.*s\n", code, (int)text.length, text.data);
    return 0;
}
