/* The database of a Heimdal KDC, opened as `kadmin -l` does it. KRB5_CONFIG names the KDC's configuration. */
#include "agent.h"
#include <sys/file.h>
#include <hdb.h>
#include <kadm5/admin.h>
#include <kadm5/private.h> /* it needs those before it */

const uint32_t highest_kvno = 0x7fffffff; /* kadmin prints and reads a signed number */
const long lock_errors[2] = {HDB_ERR_DB_INUSE, HDB_ERR_CANT_LOCK_DB};
krb5_context context;
static kadm5_server_context *server;
static hdb_entry *entry; /* the one that was taken up */

/* in place of the C library's, by which the libraries would wait for a lock for ever: here a tenth of a second */
int flock(int file, int operation) {
    long found;
    int tries = (operation & LOCK_NB) != 0 ? 50 : 0;
    while ((found = syscall(SYS_flock, file, operation | LOCK_NB)) < 0 && errno == EAGAIN && tries++ < 50)
        usleep(2000);
    return (int)found;
}

/* the database's file, by the ending that its kind has, and the log */
static void watch_files(void) {
    static const char *const endings[] = {".db", ".mdb", ""};
    char data[PATH_MAX] = "";
    for (int i = 0; i < 3 && access(data, F_OK) < 0; i++)
        snprintf(data, sizeof data, "%s%s", server->db->hdb_name, endings[i]);
    files_watch(data, server->log_context.log_file, "");
}

void database_close(void) {
    if (server != NULL)
        kadm5_destroy(server);
    if (context != NULL)
        krb5_free_context(context);
    server = NULL;
    context = NULL;
}

long database_open(void) {
    if (server != NULL && !files_are_others)
        return 0;
    database_close();
    kadm5_config_params params = {.mask = KADM5_CONFIG_REALM, .realm = (char *)realm};
    long error = krb5_init_context(&context)
        ?: krb5_set_default_realm(context, realm)
        ?: kadm5_s_init_with_password_ctx(context, KADM5_ADMIN_SERVICE, NULL, KADM5_ADMIN_SERVICE, &params, 0, 0,
                                          (void **)&server);
    if (error == 0)
        watch_files();
    return error;
}

static krb5_error_code take_found(krb5_context same, HDB *db, hdb_entry_ex *found, void *unused) {
    const krb5_principal_data *principal = found->entry.principal;
    char name[LONGEST_NAME + 1] = "";
    for (unsigned i = 0; i < principal->name.name_string.len; i++)
        if (!name_add(name, principal->name.name_string.val[i], strlen(principal->name.name_string.val[i])))
            return 0;
    if (name[0] == '\0' || strcmp(principal->realm, realm) != 0)
        return 0;
    entry = &found->entry;
    return (krb5_error_code)take_entry(name);
}

static long take_named(const char *name) {
    char bytes[LONGEST_NAME], *end = bytes, *parts[MOST_COMPONENTS];
    krb5_principal_data principal = {.name = {KRB5_NT_PRINCIPAL, {0, parts}}, .realm = (char *)realm};
    for (size_t size; (size = name_next(&name, end)) > 0; end += size + 1) {
        /* a component is a text here, which a byte 0 would end: another name */
        if (memchr(end, '\0', size) != NULL)
            return 0;
        parts[principal.name.name_string.len++] = end;
    }
    hdb_entry_ex found = {0};
    HDB *db = server->db;
    long error = db->hdb_fetch_kvno(context, db, &principal, HDB_F_GET_ANY | HDB_F_ADMIN_DATA, 0, &found);
    if (error != 0)
        return error == HDB_ERR_NOENTRY ? 0 : error;
    /* what can't be read is no error of libhdb's */
    error = found.entry.principal == NULL ? HDB_ERR_BADVERSION : take_found(context, server->db, &found, NULL);
    hdb_free_entry(context, &found); /* it wipes the keys */
    return error;
}

long database_take(const char *name, int is_to_be_written) {
    HDB *db = server->db;
    long error = db->hdb_open(context, db, is_to_be_written ? O_RDWR : O_RDONLY, 0);
    if (error != 0)
        return error;
    error = (is_to_be_written ? kadm5_log_init(server) : 0) /* each writer locks the log */
        ?: (name != NULL ? take_named(name) : hdb_foreach(context, db, HDB_F_ADMIN_DATA, take_found, NULL));
    if (is_to_be_written)
        kadm5_log_end(server);
    db->hdb_close(context, db);
    return error;
}

long database_held(int with_keys, struct held *held) {
    *held = (struct held){.kvno = entry->kvno, .is_locked_down = entry->flags.immutable};
    if (!with_keys || held->is_locked_down)
        return 0;
    krb5_salt normal = {0};
    long error = hdb_unseal_keys(context, server->db, entry);
    if (error != 0)
        return error == HDB_ERR_NO_MKEY ? error : UNREADABLE; /* a master key may be lacking for all */
    error = krb5_get_pw_salt(context, entry->principal, &normal);
    for (unsigned i = 0; error == 0 && i < entry->keys.len; i++) {
        const Key *key = &entry->keys.val[i];
        /* that it is the default one is said or not */
        if (key->salt == NULL || (key->salt->type == hdb_pw_salt &&
                                  krb5_data_cmp(&key->salt->salt, &normal.saltvalue) == 0))
            hold_key(held, key->key.keytype, key->key.keyvalue.data, key->key.keyvalue.length);
    }
    krb5_free_salt(context, normal);
    return error;
}

/* gives the entry these keys and no others, sealed under the master key */
static long replace_keys(key_pair keys) {
    krb5_salt normal = {0};
    long error = krb5_get_pw_salt(context, entry->principal, &normal);
    for (unsigned i = 0; i < entry->keys.len; i++)
        explicit_bzero(entry->keys.val[i].key.keyvalue.data, entry->keys.val[i].key.keyvalue.length);
    free_Keys(&entry->keys);
    for (int i = 0; error == 0 && i < 2; i++) {
        Salt salt = {.type = hdb_pw_salt, .salt = normal.saltvalue};
        Key key = {.key = {key_types[i], {key_sizes[i], keys[i]}}, .salt = &salt};
        error = add_Keys(&entry->keys, &key);
    }
    krb5_free_salt(context, normal);
    return error ?: hdb_seal_keys(context, server->db, entry); /* it wipes what it seals */
}

/* all that kpasswdd does where a password is changed. kadm5_chpass_principal_with_key makes the next version
   whatever is asked for. So an entry is changed here, and written as kadm5 does it */
long database_write(key_pair keys, uint32_t kvno) {
    const Event change = {.time = time(NULL), .principal = server->caller};
    if (entry->modified_by == NULL)
        entry->modified_by = calloc(1, sizeof change);
    free_Event(entry->modified_by);
    /* the keys of older versions, and what else is kept of former passwords, are gone */
    long error = replace_keys(keys)
        ?: hdb_clear_extension(context, entry, choice_HDB_extension_data_hist_keys)
        ?: hdb_clear_extension(context, entry, choice_HDB_extension_data_lm_owf)
        ?: hdb_entry_clear_password(context, entry)
        ?: hdb_entry_set_pw_change_time(context, entry, 0)
        ?: copy_Event(&change, entry->modified_by);
    if (error != 0)
        return error;
    entry->kvno = kvno;
    entry->flags.require_pwchange = 0;
    /* where its end is said at all */
    if (entry->pw_end != NULL)
        *entry->pw_end = change.time + krb5_config_get_time_default(context, NULL, 365 * 24 * 60 * 60, "kadmin",
                                                                    "password_lifetime", NULL);
    /* with a record in the log of changes, by which replicas are told */
    return kadm5_log_modify(server, entry, KADM5_PRINCIPAL | KADM5_ATTRIBUTES | KADM5_MOD_NAME | KADM5_MOD_TIME |
                                               KADM5_KEY_DATA | KADM5_KVNO | KADM5_PW_EXPIRATION | KADM5_TL_DATA);
}
