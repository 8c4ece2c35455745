/* The database of an MIT KDC, opened as kadmin.local does it. KRB5_KDC_PROFILE is that of the KDC. */
#include "agent.h"
#include <kadm5/admin.h>
#include <kdb.h>

#define OSA_ADB_FAILURE 28810248L /* of adb_err.et, which no header that is installed has, and so the next */
#define OSA_ADB_CANTLOCK_DB 28810250L

const uint32_t highest_kvno = 65535; /* an unsigned short in the database */
const long lock_errors[2] = {KRB5_KDB_CANTLOCK_DB, OSA_ADB_CANTLOCK_DB};
krb5_context context;
static void *server;
static krb5_principal master_name; /* of the entry that has the master key */
static krb5_db_entry *entry;       /* the one that was taken up */

/* in place of the C library's, by which libkdb5 would wait for a lock for ever: here a tenth of a second */
int fcntl(int file, int command, ...) {
    int once = command == F_OFD_SETLKW ? F_OFD_SETLK : command == F_SETLKW ? F_SETLK : command;
    va_list values;
    va_start(values, command);
    void *value = va_arg(values, void *);
    va_end(values);
    long found;
    int tries = once == command ? 50 : 0;
    while ((found = syscall(SYS_fcntl, file, once, value)) < 0 && errno == EAGAIN && tries++ < 50)
        usleep(2000);
    return (int)found;
}

/* the database's files, by those that libkdb5 keeps open: LMDB's, or the one by which db2 locks */
static void watch_files(const char *log) {
    char link[32], path[PATH_MAX], data[PATH_MAX];
    for (int file = 0; file < 64; file++) {
        snprintf(link, sizeof link, "/proc/self/fd/%d", file);
        ssize_t length = readlink(link, path, sizeof path - 1);
        path[length < 0 ? 0 : length] = '\0';
        const char *end = strrchr(path, '.');
        if (end != NULL && strcmp(end, ".ok") == 0) {
            snprintf(data, sizeof data, "%.*s", (int)(end - path), path);
            files_watch(data, path, log);
        } else if (end != NULL && strcmp(end, ".mdb") == 0 && strstr(path, ".lockout.") == NULL) {
            files_watch(path, "", log);
        }
    }
}

void database_close(void) {
    if (server != NULL)
        kadm5_destroy(server);
    krb5_free_principal(context, master_name);
    krb5_free_context(context);
    server = context = NULL;
    master_name = NULL;
}

long database_open(void) {
    if (server != NULL && !files_are_others)
        return 0;
    database_close();
    kadm5_config_params params = {.mask = KADM5_CONFIG_REALM, .realm = (char *)realm}, found = {0};
    /* as a server of the KDC, which reads its profile too; with iprop, so that replicas are told */
    long error = kadm5_init_krb5_context(&context)
        ?: kadm5_init_with_password(context, "root/admin", NULL, KADM5_ADMIN_SERVICE, &params,
                                    KADM5_STRUCT_VERSION, KADM5_API_VERSION_4, NULL, &server)
        ?: kadm5_init_iprop(server, NULL)
        ?: kadm5_get_config_params(context, 1, &params, &found)
        ?: krb5_db_setup_mkey_name(context, found.mkey_name, realm, NULL, &master_name);
    if (error == 0)
        watch_files(found.iprop_logfile ?: "");
    kadm5_free_config_params(context, &found);
    return error;
}

static krb5_error_code take_found(void *unused, krb5_db_entry *found) {
    const krb5_principal_data *principal = found->princ;
    char name[LONGEST_NAME + 1] = "";
    for (int i = 0; i < principal->length; i++)
        if (!name_add(name, principal->data[i].data, principal->data[i].length))
            return 0;
    if (name[0] == '\0' || principal->realm.length != strlen(realm) ||
        memcmp(principal->realm.data, realm, principal->realm.length) != 0)
        return 0;
    entry = found;
    return (krb5_error_code)take_entry(name);
}

static long take_named(const char *name) {
    char bytes[LONGEST_NAME], *end = bytes;
    krb5_data parts[MOST_COMPONENTS];
    krb5_principal_data principal = {.realm = {0, (unsigned)strlen(realm), (char *)realm}, .data = parts};
    for (size_t size; (size = name_next(&name, end)) > 0; end += size)
        parts[principal.length++] = (krb5_data){KV5M_DATA, (unsigned)size, end};
    krb5_db_entry *found;
    long error = krb5_db_get_principal(context, &principal, 0, &found);
    if (error != 0)
        return error == KRB5_KDB_NOENTRY ? 0 : error;
    error = take_found(NULL, found);
    krb5_db_free_principal(context, found);
    return error;
}

long database_take(const char *name, int is_to_be_written) {
    long lock = krb5_db_lock(context, is_to_be_written ? KRB5_DB_LOCKMODE_EXCLUSIVE : KRB5_DB_LOCKMODE_SHARED);
    /* LMDB's module has no lock to be held over a reading and a writing */
    if (lock != 0 && lock != KRB5_PLUGIN_OP_NOTSUPP)
        return lock;
    long error = name != NULL ? take_named(name) : krb5_db_iterate(context, NULL, take_found, NULL, 0);
    if (lock == 0)
        krb5_db_unlock(context);
    return error;
}

long database_held(int with_keys, struct held *held) {
    /* libkdb5 has the newest version first */
    *held = (struct held){.kvno = entry->n_key_data > 0 ? entry->key_data[0].key_data_kvno : 0,
                          .is_locked_down = (entry->attributes & KRB5_KDB_LOCKDOWN_KEYS) != 0 ||
                                            krb5_principal_compare(context, entry->princ, master_name)};
    if (!with_keys || held->is_locked_down)
        return 0;
    krb5_keyblock *master, key;
    krb5_keysalt salt;
    long error = krb5_dbe_find_mkey(context, entry, &master); /* which may be lacking for all */
    for (int i = 0; error == 0 && i < entry->n_key_data && entry->key_data[i].key_data_kvno == held->kvno; i++) {
        if (krb5_dbe_decrypt_key_data(context, master, &entry->key_data[i], &key, &salt) != 0)
            return UNREADABLE;
        if (salt.type == KRB5_KDB_SALTTYPE_NORMAL)
            hold_key(held, key.enctype, key.contents, key.length);
        krb5_free_keyblock_contents(context, &key); /* it wipes the key */
        krb5_free_data_contents(context, &salt.data);
    }
    return error;
}

/* gives the entry these keys and no others, and the version of the master key in use, which seals them */
static long replace_keys(key_pair keys, int kvno) {
    krb5_actkvno_node *versions = NULL;
    krb5_keyblock *master;
    krb5_kvno version;
    long error = krb5_dbe_fetch_act_key_list(context, master_name, &versions)
        ?: krb5_dbe_find_act_mkey(context, versions, &version, &master)
        ?: krb5_dbe_update_mkvno(context, entry, version);
    krb5_dbe_free_actkvno_list(context, versions);
    for (int i = 0; i < entry->n_key_data; i++)
        krb5_dbe_free_key_data_contents(context, &entry->key_data[i]);
    free(entry->key_data);
    entry->key_data = calloc(2, sizeof *entry->key_data);
    entry->n_key_data = 2;
    for (int i = 0; error == 0 && i < 2; i++) {
        const krb5_keyblock key = {KV5M_KEYBLOCK, key_types[i], key_sizes[i], keys[i]};
        error = krb5_dbe_encrypt_key_data(context, master, &key, NULL, kvno, &entry->key_data[i]);
    }
    return error;
}

/* how long a password may be used by the entry's policy; 0 where nothing is said */
static long life_of_password(krb5_ui_4 *life) {
    kadm5_principal_ent_rec found = {0};
    kadm5_policy_ent_rec policy = {0};
    long error = kadm5_get_principal(server, entry->princ, &found, KADM5_POLICY);
    if (error == 0 && found.policy != NULL)
        error = kadm5_get_policy(server, found.policy, &policy);
    *life = (krb5_ui_4)policy.pw_max_life;
    kadm5_free_policy_ent(server, &policy);
    kadm5_free_principal_ent(server, &found);
    return error == KADM5_UNK_POLICY ? 0 : error == OSA_ADB_FAILURE || error == KADM5_XDR_FAILURE ? UNREADABLE : error;
}

/* all that kadmind does where a password is changed. kadm5_setkey_principal_4 won't do: it doesn't note under
   which master key it seals. So an entry is written by the calls below it, libkdb5's */
long database_write(key_pair keys, uint32_t kvno) {
    krb5_principal caller = NULL;
    krb5_timestamp now;
    krb5_ui_4 life;
    long error = krb5_timeofday(context, &now)
        ?: life_of_password(&life)
        ?: replace_keys(keys, (int)kvno)
        ?: krb5_dbe_update_last_pwd_change(context, entry, now)
        ?: krb5_parse_name(context, "root/admin", &caller)
        ?: krb5_dbe_update_mod_princ_data(context, entry, now, caller);
    krb5_free_principal(context, caller);
    if (error != 0)
        return error;
    entry->pw_expiration = life == 0 ? 0 : (krb5_timestamp)((krb5_ui_4)now + life);
    entry->attributes &= ~KRB5_KDB_REQUIRES_PWCHANGE;
    entry->fail_auth_count = 0;
    /* modules other than db2's write what is named here */
    entry->mask |= KADM5_KEY_DATA | KADM5_TL_DATA | KADM5_PW_EXPIRATION | KADM5_ATTRIBUTES | KADM5_FAIL_AUTH_COUNT;
    return krb5_db_put_principal(context, entry); /* with a record in the log of changes, which tells replicas */
}
