/* The parts that the files of the host share. docs/LUA.md says in which order to read them. */
#ifndef HOST_H
#define HOST_H

#include "kovshenul.h"
#include <lauxlib.h>
#include <lua.h>
#include <stdbool.h>
#include <stdint.h>
#include <time.h>

enum {
    HOST = 0,                  /* the host's own vertex, which is worker 0 */
    NONE = 0,                  /* no vertex, since the host's own is never handed out */
    MOST_PLUGINS = 63,         /* 64 workers may be active, and the host is one of them */
    MOST_HELD = 160,           /* vertices to which a plug-in may have handles */
    MOST_WAITING = 64,         /* handles that may wait in a plug-in's inbox */
    NAME_ROOM = 24,            /* bytes of a name, with the 0 at its end */
    FILE_ROOM = 512,           /* bytes of a file's name */
    KNOWN_ROOM = 64,           /* bytes of how scripts know a vertex */
    TEXT_ROOM = 200            /* bytes of an error that a script gets */
};

/* A vertex and how many handles a plug-in has to it. They are in its Lua state, or wait in its inbox. */
struct holding {
    uint64_t vertex;           /* or NONE: the place is free */
    unsigned handles;
};

struct plugin {
    char name[NAME_ROOM];
    uint64_t worker;           /* or NONE: the place is free, or the plug-in has left */
    lua_State *state;
    lua_State *thread;         /* the coroutine in which the script runs */
    size_t memory;             /* bytes that the state has */
    long steps;                /* of this turn: instructions, and what the host's functions charge */
    clock_t began;             /* the processor time at which the turn began */
    bool is_over;              /* the script called finish */
    bool is_hung;              /* it used its turn up */
    struct holding held[MOST_HELD];
    uint64_t inbox[MOST_WAITING];
    unsigned waiting;
};

/* ---- store.c */

extern tg_store store;

/* Ends the host if the call wasn't done. */
void must(tg_status status, const char *call);

/* Ends the host if the command wasn't done. Otherwise its entry is saved. */
void done(tg_status status, const char *call);

/* Opens the store, with the host as its one worker, and the auditor. */
void open_store(void);

/* Audits the entries that the store holds, and gives them up. Returns how many were audited in all. */
uint64_t audit(void);

void close_store(void);

/* ---- plugins.c */

extern struct plugin plugins[MOST_PLUGINS];

/* Starts the script in the file as a plug-in with this name. The script gets the name and the number as its arguments. Returns
   the plug-in, or NULL if it didn't start, and then says why. */
struct plugin *start_plugin(const char *name, const char *file, uint64_t number);

/* Starts a plug-in anew after the host was killed, as the worker that it was. It has handles to all that the worker holds. */
void restart_plugin(const char *name, const char *file, uint64_t number, uint64_t worker);

/* Lets the script run until it waits, ends, fails or hangs. A plug-in that isn't waiting then leaves. */
void take_turn(struct plugin *plugin);

/* The plug-in leaves the store with all that it held, and its Lua state is closed. */
void end_plugin(struct plugin *plugin, const char *why);

/* Lets the Lua collector of each plug-in run to its end. */
void collect_states(void);

/* Returns the plug-in whose script this state runs. */
struct plugin *plugin_of(lua_State *state);

/* Returns the plug-in with the name that has not left, or NULL. */
struct plugin *plugin_named(const char *name);

/* Counts steps that a function of the host takes. If the turn has none left, it is an error of the script. */
void charge(lua_State *state, long steps);

/* ---- handles.c */

/* Defines what a script may do with handles. */
void open_handles(lua_State *state);

/* Puts a handle into the plug-in's inbox. Returns false if the plug-in has no room. */
bool deliver(struct plugin *plugin, uint64_t vertex);

/* Counts a vertex that the worker holds, without a handle. receive() makes the first handle. There is a place for it. */
void hold_again(struct plugin *plugin, uint64_t vertex);

/* ---- library.c */

/* Defines what a script gets of Lua's own functions. */
void open_library(lua_State *state);

/* ---- policy.c */

/* From now on the plug-in's worker must never come to hold the right over the vertex. */
void never(uint64_t worker, uint64_t right, uint64_t vertex);

/* Forgets the rules about a worker that has left. */
void forget_rules(uint64_t worker);

/* Whether all of this stays so if the holder got the rights over the vertex. Otherwise the text says why not. */
bool is_safe(uint64_t holder, uint64_t vertex, uint64_t rights, char *text, size_t room);

/* ---- beside.c */

/* Makes room for one more resource. Returns false if there is no memory. */
bool make_room(void);

/* Keeps a resource beside a new vertex. It has its name, who made it, and whether it is a log. There is room. */
void keep(uint64_t vertex, const char *name, const char *maker, bool is_of_log);

/* Gives the object another name and maker, if a resource is kept for it. */
void rename_object(uint64_t vertex, const char *name, const char *maker);

/* Whether the vertex is a log. */
bool is_log(uint64_t vertex);

/* Writes how scripts know the vertex: a plug-in's name, or an object's name and maker. Returns the text. */
const char *known_as(uint64_t vertex, char *text, size_t room);

/* Returns how many resources are kept. */
size_t resource_count(void);

/* Collects all states, then the store, and frees the resources beside vertices that are gone. Returns how many vertices are
   left. */
uint64_t collect(void);

/* ---- file.c. Without a file these save nothing. */

/* Opens the file, or makes it, and goes on from its content. Returns the secret that the file has, or NONE. */
uint64_t open_file(const char *name);

/* Whether the file has a plug-in with this name, running or not. */
bool is_in_file(const char *name);

/* Starts the plug-ins of the file anew whose workers are active. Their scripts are FOLDER/NAME.lua. */
void start_again(const char *folder);

/* Gives up edges that the host holds and shouldn't. They are edges that it took in the middle of a hand, and edges to workers
   that have left. */
void tidy_host(uint64_t secret);

/* Closes the file and removes it. */
void end_file(const char *name);

/* Saves the entries that aren't saved yet. */
void save(void);

/* Saves what the host keeps beside the store. */
void save_plugin(const struct plugin *plugin, uint64_t number);
void save_object(uint64_t vertex, const char *name, const char *maker);
void save_rule(uint64_t worker, uint64_t right, uint64_t vertex);
void save_secret(uint64_t vertex);

/* Whether the vertex is an active worker. */
bool is_worker(uint64_t vertex);

/* Lists the worker's edges. The first ones go to the row. Returns how many there are. */
uint64_t row_of(uint64_t worker, tg_target *row, size_t room);

#endif
