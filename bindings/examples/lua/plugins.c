/* Plug-ins: how a script starts, takes turns and ends.

   Each plug-in is a worker that the host spawned, with a Lua state of its own. Its memory is bounded by its allocator. Its time
   is bounded by a hook, which Lua calls after every hundred instructions. Nothing that a script does ends the host. Therefore
   each call of Lua that may fail runs inside of lua_pcall or lua_resume. */
#include "host.h"
#include <stdio.h>
#include <stdlib.h>
#include <string.h>

enum {
    MOST_MEMORY = 4 << 20,     /* bytes of a plug-in's state */
    MOST_SCRIPT = 64 << 10,    /* bytes of a script */
    STEP = 100,                /* instructions between two calls of the hook */
    TURN_STEPS = 200000,       /* steps of a turn */
    TURN_SECONDS = 1,          /* processor time of a turn */
    REFUSED_STEPS = 1000       /* steps of a refused allocation, since Lua then collects all of the state */
};

/* The parts of a script. */
struct source {
    const char *file;
    char *text;
    size_t size;
    uint64_t number;
};

struct plugin plugins[MOST_PLUGINS];

struct plugin *plugin_of(lua_State *state) {
    return *(struct plugin **)lua_getextraspace(state);
}

struct plugin *plugin_named(const char *name) {
    for (int at = 0; at < MOST_PLUGINS; at++)
        if (plugins[at].worker != NONE && strcmp(plugins[at].name, name) == 0)
            return &plugins[at];
    return NULL;
}

/* ---- bounds */

/* The allocator of a plug-in's state. It refuses what goes beyond the bound. Lua then collects, and may raise an error. */
static void *allocate(void *context, void *block, size_t old, size_t size) {
    struct plugin *plugin = context;
    void *moved;
    if (block == NULL)
        old = 0;               /* Lua passes the kind of the object in its place */
    if (size == 0) {
        plugin->memory -= old;
        free(block);
        return NULL;
    }
    if (size > old && size - old > MOST_MEMORY - plugin->memory) {
        plugin->steps += REFUSED_STEPS;
        return NULL;
    }
    moved = realloc(block, size);
    if (moved != NULL)
        plugin->memory += size - old;
    return moved;
}

/* The hook. If the turn is used up, the script is left for good by a yield. Inside of a C function there is no yield, and each
   further instruction is an error, so no pcall of the script can go on. */
static void count_steps(lua_State *state, lua_Debug *debug) {
    struct plugin *plugin = plugin_of(state);
    (void)debug;
    plugin->steps += STEP;
    if (!plugin->is_hung && plugin->steps <= TURN_STEPS && clock() - plugin->began <= TURN_SECONDS * CLOCKS_PER_SEC)
        return;
    plugin->is_hung = true;
    lua_sethook(state, count_steps, LUA_MASKCOUNT, 1);
    if (lua_isyieldable(state))
        lua_yield(state, 0);
    else
        luaL_error(state, "the turn is used up");
}

void charge(lua_State *state, long steps) {
    struct plugin *plugin = plugin_of(state);
    if (!plugin->is_hung && steps <= TURN_STEPS - plugin->steps) {
        plugin->steps += steps;
        return;
    }
    plugin->is_hung = true;
    lua_sethook(state, count_steps, LUA_MASKCOUNT, 1);
    luaL_error(state, "the turn is used up");
}

/* ---- start */

/* Reads a script. Returns what is wrong with its file, or NULL. The caller frees the text. */
static const char *read_source(struct source *source) {
    FILE *file = fopen(source->file, "rb");
    if (file == NULL)
        return "its file can't be opened";
    source->text = malloc(MOST_SCRIPT + 1);
    if (source->text != NULL)
        source->size = fread(source->text, 1, MOST_SCRIPT + 1, file);
    fclose(file);
    if (source->text == NULL)
        return tg_status_text(TG_OUT_OF_MEMORY);
    return source->size > MOST_SCRIPT ? "its script is longer than 65536 bytes" : NULL;
}

/* Makes the state ready: what the script may call, and the coroutine with the script in it. Runs inside of lua_pcall. */
static int prepare(lua_State *state) {
    struct plugin *plugin = plugin_of(state);
    const struct source *source = lua_touserdata(state, 1);
    const char *shown;
    open_library(state);
    open_handles(state);
    plugin->thread = lua_newthread(state);
    lua_setfield(state, LUA_REGISTRYINDEX, "thread");
    shown = lua_pushfstring(state, "=%s", plugin->name);
    /* The mode "t" refuses bytecode, which Lua doesn't check. */
    if (luaL_loadbufferx(plugin->thread, source->text, source->size, shown, "t") != LUA_OK) {
        lua_xmove(plugin->thread, state, 1);
        return lua_error(state);
    }
    lua_pushstring(plugin->thread, plugin->name);
    lua_pushinteger(plugin->thread, (lua_Integer)source->number);
    return 0;
}

/* The text of an error that a script ended with. An error may be a table with a __tostring, which the host doesn't call. */
static const char *error_text(lua_State *state) {
    return lua_type(state, -1) == LUA_TSTRING ? lua_tostring(state, -1) : "an error that is no text";
}

/* Returns what is wrong with the script, or NULL. */
static const char *load_script(struct plugin *plugin, struct source *source) {
    const char *wrong = read_source(source);
    if (wrong != NULL)
        return wrong;
    plugin->state = lua_newstate(allocate, plugin);
    if (plugin->state == NULL)
        return tg_status_text(TG_OUT_OF_MEMORY);
    *(struct plugin **)lua_getextraspace(plugin->state) = plugin;
    lua_pushcfunction(plugin->state, prepare);
    lua_pushlightuserdata(plugin->state, source);
    return lua_pcall(plugin->state, 1, 0, 0) == LUA_OK ? NULL : error_text(plugin->state);
}

/* A free place for a plug-in with this name. NULL if there is none, or if the name is taken, and then it says so. */
static struct plugin *place_for(const char *name) {
    struct plugin *plugin = plugins;
    while (plugin < plugins + MOST_PLUGINS && plugin->state != NULL)
        plugin++;
    if (plugin == plugins + MOST_PLUGINS) {
        printf("host: %s: %d plug-ins are there, and no more may be\n", name, MOST_PLUGINS);
        return NULL;
    }
    if (plugin_named(name) != NULL) {
        printf("host: %s: a plug-in with this name is there\n", name);
        return NULL;
    }
    *plugin = (struct plugin){ .worker = NONE };
    snprintf(plugin->name, sizeof plugin->name, "%s", name);
    return plugin;
}

/* Loads the script of a plug-in that has a worker. A plug-in without a script leaves, and NULL is returned. */
static struct plugin *with_script(struct plugin *plugin, const char *file, uint64_t number) {
    struct source source = { file, NULL, 0, number };
    const char *wrong = load_script(plugin, &source);
    free(source.text);
    if (wrong == NULL)
        return plugin;
    printf("host: %s: %s\n", plugin->name, wrong);
    end_plugin(plugin, "doesn't start");
    return NULL;
}

struct plugin *start_plugin(const char *name, const char *file, uint64_t number) {
    const tg_value value = { TG_CELL, 0, 0 };
    struct plugin *plugin = place_for(name);
    tg_status status;
    if (plugin == NULL)
        return NULL;
    /* The host may take from the worker and grant to it, and nobody else may. */
    status = tg_spawn(&store, HOST, TG_TAKE | TG_GRANT, &value, &plugin->worker);
    if (status == TG_HEAP_FULL) {
        collect();
        status = tg_spawn(&store, HOST, TG_TAKE | TG_GRANT, &value, &plugin->worker);
    }
    done(status, "tg_spawn");
    save_plugin(plugin, number);
    return with_script(plugin, file, number);
}

void restart_plugin(const char *name, const char *file, uint64_t number, uint64_t worker) {
    struct plugin *plugin = place_for(name);
    tg_target row[MOST_HELD];
    must(plugin == NULL ? TG_WORKERS_FULL : TG_DONE, "a place for a plug-in of the file");
    plugin->worker = worker;
    const uint64_t count = row_of(worker, row, MOST_HELD);
    for (uint64_t at = 0; at < count && at < MOST_HELD; at++)
        hold_again(plugin, row[at].to);
    with_script(plugin, file, number);
}

/* ---- turns */

void take_turn(struct plugin *plugin) {
    int results, status, arguments = lua_status(plugin->thread) == LUA_YIELD ? 0 : 2;
    plugin->steps = 0;
    plugin->began = clock();
    lua_sethook(plugin->thread, count_steps, LUA_MASKCOUNT, STEP);
    status = lua_resume(plugin->thread, plugin->state, arguments, &results);
    if (plugin->is_hung) {
        end_plugin(plugin, "hangs");
    } else if (plugin->is_over || status == LUA_OK) {
        end_plugin(plugin, "is done");
    } else if (status == LUA_YIELD) {
        lua_pop(plugin->thread, results);
    } else {
        printf("host: %s: %s\n", plugin->name, error_text(plugin->thread));
        end_plugin(plugin, "fails");
    }
}

void end_plugin(struct plugin *plugin, const char *why) {
    uint64_t edges;
    done(tg_leave(&store, plugin->worker, &edges), "tg_leave");
    done(tg_remove(&store, HOST, plugin->worker, TG_TAKE | TG_GRANT, NULL), "tg_remove");
    forget_rules(plugin->worker);
    /* Finalizers of the state must not ask the store in the name of the worker from now on. */
    plugin->worker = NONE;
    if (plugin->state != NULL)
        lua_close(plugin->state);
    plugin->state = NULL;
    printf("host: %s %s, and leaves\n", plugin->name, why);
}

void collect_states(void) {
    for (int at = 0; at < MOST_PLUGINS; at++)
        if (plugins[at].state != NULL)
            lua_gc(plugins[at].state, LUA_GCCOLLECT);
}
