/* A host of plug-ins that are scripts in Lua 5.4. Build it with:
   cc -o host *.c -I/usr/include/lua5.4 -llua5.4 -lkovshenul

   host [--never NAME] [--file FILE] FOLDER NAME ..

   Each plug-in is the script FOLDER/NAME.lua. The first one gets to read the host's secret. The plug-in named after --never must
   never come to read it, whatever the plug-ins do together. docs/LUA.md explains the host file by file.

   With --file the host saves what it does. If it is killed, start it again with the same words. It goes on from FILE. The host
   removes FILE at its end. */
#include "host.h"
#include <inttypes.h>
#include <stdio.h>
#include <string.h>

enum {
    SECRET = 4242,
    ROUNDS = 4                 /* between two collections */
};

/* The words of the command line. */
struct words {
    const char *watched, *file, *folder;
    char **names;
    int count;
};

/* Makes the secret, and a rule of who must never read it. The first plug-in gets it if that keeps the rule. The rule is saved
   before anybody gets the secret. */
static uint64_t share_secret(struct plugin *first, const struct plugin *watched) {
    const tg_value value = { TG_CELL, 0, SECRET };
    uint64_t secret;
    char text[TEXT_ROOM];
    must(make_room() ? TG_DONE : TG_OUT_OF_MEMORY, "room for a resource");
    done(tg_create(&store, HOST, TG_READ, &value, &secret), "tg_create");
    keep(secret, "secret", "the host", false);
    save_object(secret, "secret", "the host");
    if (watched != NULL) {
        never(watched->worker, TG_READ, secret);
        save_rule(watched->worker, TG_READ, secret);
    }
    if (first != NULL && !is_safe(first->worker, secret, TG_READ, text, sizeof text)) {
        printf("host: the secret isn't handed out: %s\n", text);
    } else if (first != NULL) {
        done(tg_grant(&store, HOST, first->worker, secret, TG_READ, NULL), "tg_grant");
        deliver(first, secret);
    }
    save_secret(secret);
    return secret;
}

/* Every plug-in has a turn in each round, until all have left. */
static void run_rounds(void) {
    bool is_running = true;
    for (unsigned round = 1; is_running; round++) {
        is_running = false;
        for (int at = 0; at < MOST_PLUGINS; at++)
            if (plugins[at].worker != NONE) {
                take_turn(&plugins[at]);
                audit();
                is_running = true;
            }
        if (round % ROUNDS == 0) {
            uint64_t left = collect();
            printf("host: %" PRIu64 " vertices are left, and %zu resources\n", left, resource_count());
        }
    }
}

/* Starts the plug-ins that the file has, and the plug-ins that it doesn't have. */
static void start_all(const struct words *words) {
    char file[FILE_ROOM];
    start_again(words->folder);
    for (int at = 0; at < words->count; at++) {
        snprintf(file, sizeof file, "%s/%s.lua", words->folder, words->names[at]);
        if (!is_in_file(words->names[at]))
            start_plugin(words->names[at], file, (uint64_t)at);
    }
}

/* Gives up the secret, and looks whether nothing is left. Returns the status of the host. */
static int end(uint64_t secret, const char *file) {
    uint64_t rights, left;
    must(tg_label(&store, HOST, secret, &rights), "tg_label");
    if (rights != 0)
        done(tg_remove(&store, HOST, secret, rights, NULL), "tg_remove");
    left = collect();
    audit();
    printf("host: at the end %" PRIu64 " vertex is left, and %zu resources\n", left, resource_count());
    if (file != NULL)
        end_file(file);
    close_store();
    return left == 1 && resource_count() == 0 ? 0 : 1;
}

/* Reads the words of the command line. Returns false if they are wrong. */
static bool read_words(struct words *words, int count, char **given) {
    int at = 1;
    for (; at + 1 < count && given[at][0] == '-'; at += 2) {
        if (strcmp(given[at], "--never") == 0)
            words->watched = given[at + 1];
        else if (strcmp(given[at], "--file") == 0)
            words->file = given[at + 1];
        else
            return false;
    }
    if (at + 2 > count)
        return false;
    words->folder = given[at];
    words->names = given + at + 1;
    words->count = count - at - 1;
    return true;
}

int main(int count, char **given) {
    struct words words = { NULL, NULL, NULL, NULL, 0 };
    uint64_t secret = NONE;
    if (!read_words(&words, count, given)) {
        fprintf(stderr, "usage: host [--never NAME] [--file FILE] FOLDER NAME ..\n");
        return 2;
    }
    if (tg_abi() != TG_ABI) {
        fprintf(stderr, "host: the library's interface is %u, and that of its header %d\n", (unsigned)tg_abi(), TG_ABI);
        return 1;
    }
    open_store();
    if (words.file != NULL)
        secret = open_file(words.file);
    start_all(&words);
    if (words.file != NULL)
        tidy_host(secret);
    if (secret == NONE)
        secret = share_secret(plugin_named(words.names[0]), words.watched == NULL ? NULL : plugin_named(words.watched));
    run_rounds();
    return end(secret, words.file);
}
