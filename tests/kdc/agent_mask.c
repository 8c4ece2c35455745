/*
 * Tells on standard error what a program names as changed of each entry that it writes into an MIT database:
 * modules other than db2's write nothing else. The program is started with LD_PRELOAD.
 */
#include <dlfcn.h>
#include <kdb.h>
#include <stdio.h>

krb5_error_code krb5_db_put_principal(krb5_context context, krb5_db_entry *entry)
{
    krb5_error_code (*next)(krb5_context, krb5_db_entry *);

    *(void **)&next = dlsym(RTLD_NEXT, "krb5_db_put_principal");
    dprintf(2, "mask %#lx\n", (unsigned long)entry->mask);
    return next(context, entry);
}
