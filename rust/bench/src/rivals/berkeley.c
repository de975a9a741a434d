/* Berkeley DB's hash, numbers to numbers. Each call gives 0 where it went well. */
#include <db.h>
#include <stdint.h>
#include <string.h>

int berkeley_open(const char *file, uint32_t cache, DB **db) {
    int failed = db_create(db, NULL, 0);
    if (!failed) failed = (*db)->set_cachesize(*db, 0, cache, 1);
    if (!failed) failed = (*db)->open(*db, NULL, file, NULL, DB_HASH, DB_CREATE, 0600);
    return failed;
}

static DBT bytes(uint64_t *number) {
    DBT thing;
    memset(&thing, 0, sizeof thing);
    thing.data = number;
    thing.size = sizeof *number;
    thing.ulen = sizeof *number;
    thing.flags = DB_DBT_USERMEM;
    return thing;
}

int berkeley_put(DB *db, uint64_t key, uint64_t value) {
    DBT k = bytes(&key), v = bytes(&value);
    return db->put(db, NULL, &k, &v, 0);
}

/* 1 where the key is not there. */
int berkeley_get(DB *db, uint64_t key, uint64_t *value) {
    DBT k = bytes(&key), v = bytes(value);
    int failed = db->get(db, NULL, &k, &v, 0);
    return failed == DB_NOTFOUND ? 1 : failed;
}

int berkeley_del(DB *db, uint64_t key) {
    DBT k = bytes(&key);
    return db->del(db, NULL, &k, 0);
}

int berkeley_close(DB *db) { return db->close(db, DB_NOSYNC); }
