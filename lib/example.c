/* Plans the migration of three tables, checks the plan, and prints its rounds and the verdict:
 *     cc -o example example.c $(pkg-config --cflags --libs libmigrate) -Wl,-rpath,"$(pkg-config --variable=libdir libmigrate)"
 *     ./example DISKS NOW NEXT */
#include <migrate.h>
#include <stdio.h>
#include <stdlib.h>

struct bytes {
    uint8_t *at;
    size_t len;
};

static struct bytes room_for(size_t len)
{
    struct bytes room = {malloc(len != 0 ? len : 1), len};
    if (room.at == NULL)
        exit(MIGRATE_NO_MEMORY);
    return room;
}

static struct bytes load(const char *name)
{
    FILE *file = fopen(name, "rb");
    if (file == NULL || fseek(file, 0, SEEK_END) != 0) {
        perror(name);
        exit(16);
    }
    struct bytes whole = room_for((size_t)ftell(file));
    rewind(file);
    whole.len = fread(whole.at, 1, whole.len, file);
    fclose(file);
    return whole;
}

int main(int count, char **words)
{
    if (count != 4)
        return 2;
    struct bytes disks = load(words[1]), now = load(words[2]), next = load(words[3]);

    struct bytes plan = room_for(64), cert = room_for(200);
    size_t plan_len, cert_len;
    uint32_t status;
    while ((status = migrate_plan(disks.at, disks.len, now.at, now.len, next.at, next.len, plan.at, plan.len, &plan_len,
                                  cert.at, cert.len, &cert_len)) == MIGRATE_TOO_SHORT) {
        free(plan.at);
        free(cert.at);
        plan = room_for(plan_len);
        cert = room_for(cert_len);
    }
    uint8_t verdict[200];
    size_t len = 0;
    if (status == MIGRATE_DONE) {
        fwrite(plan.at, 1, plan_len, stdout);
        status = migrate_check(disks.at, disks.len, now.at, now.len, next.at, next.len, plan.at, plan_len, cert.at, cert_len,
                               verdict, sizeof verdict, &len);
        fwrite(verdict, 1, len < sizeof verdict ? len : sizeof verdict, stdout);
    } else {
        fwrite(cert.at, 1, cert_len < cert.len ? cert_len : cert.len, stdout);
    }
    free(disks.at), free(now.at), free(next.at), free(plan.at), free(cert.at);
    return (int)status;
}
