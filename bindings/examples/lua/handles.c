/* The calls of a script on handles.

   A handle is a userdata with the name of a vertex. A script can't make one, and it can't see the name. At each call the store
   decides, in the name of the plug-in's worker. So a handle alone is no right.

   The other way round a right is no longer than its handles. Each vertex has a count of its handles in this plug-in. The
   finalizer of the last handle gives up the rights over the vertex, and then the store's collector may free it. */
#include "host.h"
#include <stdio.h>
#include <string.h>

enum {
    COMMAND_STEPS = 100,       /* the charge for a command of the store, which makes an entry in the journal */
    POLICY_STEPS = 2000,       /* the charge for a question to the policy */
    COLLECT_STEPS = 20000,     /* the charge for a collection of the state */
    MOST_NUMBERS = 64,         /* numbers in a log */
    MOST_IN_BOX = 32,          /* edges of a box that a get looks at */
    MOST_LINE = 500            /* bytes of a line that a script says */
};

static const char handle_type[] = "handle";

/* ---- handles and rights */

/* The plug-in's place for the vertex, or a free one for NONE. NULL if there is none. */
static struct holding *find(struct plugin *plugin, uint64_t vertex) {
    for (int at = 0; at < MOST_HELD; at++)
        if (plugin->held[at].vertex == vertex)
            return &plugin->held[at];
    return NULL;
}

/* Counts one more handle to the vertex. The plug-in has a place for it. */
static void hold(struct plugin *plugin, uint64_t vertex) {
    struct holding *place = find(plugin, vertex);
    if (place == NULL)
        place = find(plugin, NONE);
    place->vertex = vertex;
    place->handles++;
}

void hold_again(struct plugin *plugin, uint64_t vertex) {
    find(plugin, NONE)->vertex = vertex;
}

/* Gives up these rights of the worker over the vertex, if there are any. */
static void give_up(uint64_t worker, uint64_t vertex, uint64_t rights) {
    if (rights != 0)
        done(tg_remove(&store, worker, vertex, rights, NULL), "tg_remove");
}

static uint64_t rights_of(uint64_t worker, uint64_t vertex) {
    uint64_t rights;
    must(tg_label(&store, worker, vertex, &rights), "tg_label");
    return rights;
}

/* The finalizer of a handle. The last one to a vertex gives up what the plug-in holds over it. */
static int handle_is_gone(lua_State *state) {
    struct plugin *plugin = plugin_of(state);
    const uint64_t *vertex = lua_touserdata(state, 1);
    struct holding *place;
    if (*vertex == NONE || plugin->worker == NONE)
        return 0;
    place = find(plugin, *vertex);
    if (--place->handles == 0) {
        give_up(plugin->worker, *vertex, rights_of(plugin->worker, *vertex));
        place->vertex = NONE;
    }
    return 0;
}

/* Leaves a handle to no vertex at the top. It comes before all that changes the store, because Lua may lack memory for it. */
static uint64_t *push_empty(lua_State *state) {
    uint64_t *vertex = lua_newuserdatauv(state, sizeof *vertex, 0);
    *vertex = NONE;
    luaL_setmetatable(state, handle_type);
    return vertex;
}

/* Makes sure that the plug-in has a place for one more vertex. Handles that the script has lost may take one until Lua
   collects. */
static void need_place(lua_State *state) {
    struct plugin *plugin = plugin_of(state);
    if (find(plugin, NONE) != NULL)
        return;
    charge(state, COLLECT_STEPS);
    lua_gc(state, LUA_GCCOLLECT);
    if (find(plugin, NONE) == NULL)
        luaL_error(state, "refused: %s has handles to %d objects, and may have no more", plugin->name, MOST_HELD);
}

static bool has_room(struct plugin *plugin, uint64_t vertex) {
    return plugin->waiting < MOST_WAITING && (find(plugin, vertex) != NULL || find(plugin, NONE) != NULL);
}

bool deliver(struct plugin *plugin, uint64_t vertex) {
    if (!has_room(plugin, vertex))
        return false;
    hold(plugin, vertex);
    plugin->inbox[plugin->waiting++] = vertex;
    return true;
}

/* ---- arguments and errors */

static uint64_t handle_at(lua_State *state, int argument) {
    return *(uint64_t *)luaL_checkudata(state, argument, handle_type);
}

static uint64_t rights_at(lua_State *state, int argument) {
    uint64_t rights = 0;
    const char *letters = luaL_checkstring(state, argument);
    luaL_argcheck(state, tg_rights_read(letters, &rights) == TG_DONE, argument,
                  "rights are letters of rwtgaluv, in this order");
    return rights;
}

static struct plugin *plugin_at(lua_State *state, int argument) {
    struct plugin *plugin = plugin_named(luaL_checkstring(state, argument));
    luaL_argcheck(state, plugin != NULL, argument, "no plug-in has this name");
    return plugin;
}

/* Writes why the store denied what the script asked for, by the names that the script knows. */
static void write_denial(const tg_denial *why, char *text, size_t room) {
    char letters[9], from[KNOWN_ROOM], to[KNOWN_ROOM];
    switch (why->cause) {
    case TG_MISSING:
        tg_rights_text(why->rights, letters, sizeof letters);
        snprintf(text, room, "%s lacks %s over %s", known_as(why->from, from, sizeof from), letters,
                 known_as(why->to, to, sizeof to));
        return;
    case TG_NOT_LOG: snprintf(text, room, "this object is no log"); return;
    default: snprintf(text, room, "both are one object");
    }
}

/* Saves the entry of a command, and raises what isn't done as an error of the script. The word is the name of the call of the
   script. `why` is NULL for a call that is never denied. */
static void done_or_raise(lua_State *state, const char *word, tg_status status, const tg_denial *why) {
    char text[TEXT_ROOM];
    save();
    if (status == TG_DONE)
        return;
    if (status == TG_DENIED && why != NULL) {
        write_denial(why, text, sizeof text);
        luaL_error(state, "%s is denied: %s", word, text);
    }
    luaL_error(state, "%s is refused: %s", word, tg_status_text(status));
}

/* ---- what a script may call */

/* make(kind, number, name) returns a handle to a new object. */
static int make(lua_State *state) {
    static const char *const kinds[] = { "cell", "sum", "max", "log", "box", NULL };
    static const uint32_t laws[] = { TG_CELL, TG_SUM, TG_MAX, TG_LOG, TG_CELL };
    static const uint64_t rights[] = { TG_READ | TG_WRITE, TG_READ | TG_WRITE, TG_READ | TG_WRITE, TG_READ | TG_APPEND,
                                       TG_TAKE | TG_GRANT | TG_INSPECT };
    struct plugin *plugin = plugin_of(state);
    int kind = luaL_checkoption(state, 1, NULL, kinds);
    uint64_t number = (uint64_t)luaL_optinteger(state, 2, laws[kind] == TG_LOG ? 8 : 0), *vertex;
    const char *name = luaL_optstring(state, 3, kinds[kind]);
    tg_value value = { laws[kind], 0, number };
    if (laws[kind] == TG_LOG) {
        luaL_argcheck(state, 1 <= number && number <= MOST_NUMBERS, 2, "a log keeps from 1 to 64 numbers");
        value = (tg_value){ TG_LOG, (uint32_t)number, 0 };
    }
    charge(state, COMMAND_STEPS);
    need_place(state);
    vertex = push_empty(state);
    if (!make_room())
        return luaL_error(state, "make is refused: %s", tg_status_text(TG_OUT_OF_MEMORY));
    done_or_raise(state, "make", tg_create(&store, plugin->worker, rights[kind], &value, vertex), NULL);
    hold(plugin, *vertex);
    keep(*vertex, name, plugin->name, laws[kind] == TG_LOG);
    save_object(*vertex, name, plugin->name);
    return 1;
}

/* handle:send(number) adds to a log, or writes to an object that is none. */
static int handle_send(lua_State *state) {
    uint64_t worker = plugin_of(state)->worker, target = handle_at(state, 1), number = (uint64_t)luaL_checkinteger(state, 2);
    tg_denial why;
    charge(state, COMMAND_STEPS);
    if (is_log(target))
        done_or_raise(state, "send", tg_append(&store, worker, target, number, &why), &why);
    else
        done_or_raise(state, "send", tg_write(&store, worker, target, number, &why), &why);
    return 0;
}

/* handle:read() returns the numbers that the object stores. */
static int handle_read(lua_State *state) {
    uint64_t worker = plugin_of(state)->worker, target = handle_at(state, 1), numbers[MOST_NUMBERS], count;
    tg_denial why;
    charge(state, COMMAND_STEPS);
    luaL_checkstack(state, MOST_NUMBERS, NULL);
    done_or_raise(state, "read", tg_read(&store, worker, target, numbers, MOST_NUMBERS, &count, &why), &why);
    for (uint64_t at = 0; at < count; at++)
        lua_pushinteger(state, (lua_Integer)numbers[at]);
    return (int)count;
}

/* handle:rights() returns the letters of the rights that the plug-in holds over the object. */
static int handle_rights(lua_State *state) {
    char letters[9];
    tg_rights_text(rights_of(plugin_of(state)->worker, handle_at(state, 1)), letters, sizeof letters);
    lua_pushstring(state, letters);
    return 1;
}

/* Raises an error if a rule could break once the holder had the rights. */
static void ask_policy(lua_State *state, const char *word, uint64_t holder, uint64_t target, uint64_t rights) {
    char text[TEXT_ROOM];
    charge(state, POLICY_STEPS);
    if (!is_safe(holder, target, rights, text, sizeof text))
        luaL_error(state, "%s is against the policy: %s", word, text);
}

/* handle:hand(plugin, rights). Plug-ins have no edge to each other. So the host hands on. It takes the rights from the giver,
   who must have them, grants them to the other plug-in, and gives its own up. */
static int handle_hand(lua_State *state) {
    struct plugin *from = plugin_of(state), *to = plugin_at(state, 2);
    uint64_t target = handle_at(state, 1), rights = rights_at(state, 3), had = rights_of(HOST, target);
    tg_denial why = { TG_RULE_TAKE, TG_MISSING, from->worker, target, rights & ~rights_of(from->worker, target) };
    tg_status status;
    luaL_argcheck(state, to != from, 2, "this is the plug-in itself");
    charge(state, 3 * COMMAND_STEPS);
    done_or_raise(state, "hand", why.rights == 0 ? TG_DONE : TG_DENIED, &why);
    ask_policy(state, "hand", to->worker, target, rights);
    if (!has_room(to, target))
        return luaL_error(state, "hand is refused: %s has as many handles as it may", to->name);
    done_or_raise(state, "hand", tg_take(&store, HOST, from->worker, target, rights, &why), &why);
    status = tg_grant(&store, HOST, to->worker, target, rights, &why);
    /* An error leaves this function at once. So the host gives up what it took before it raises one. */
    give_up(HOST, target, rights & ~had);
    done_or_raise(state, "hand", status, &why);
    deliver(to, target);
    return 0;
}

/* handle:lose(rights) gives up these rights, or all. */
static int handle_lose(lua_State *state) {
    uint64_t worker = plugin_of(state)->worker, target = handle_at(state, 1);
    uint64_t rights = lua_isnoneornil(state, 2) ? rights_of(worker, target) : rights_at(state, 2);
    tg_denial why;
    charge(state, COMMAND_STEPS);
    if (rights != 0)
        done_or_raise(state, "lose", tg_remove(&store, worker, target, rights, &why), &why);
    return 0;
}

/* box:put(handle, rights) lets the box hold rights over an object. A plug-in that may take from the box may then take them. */
static int handle_put(lua_State *state) {
    uint64_t box = handle_at(state, 1), target = handle_at(state, 2), rights = rights_at(state, 3);
    tg_denial why;
    charge(state, COMMAND_STEPS);
    luaL_argcheck(state, box != target, 2, "a box can't hold itself");
    ask_policy(state, "put", box, target, rights);
    done_or_raise(state, "put", tg_grant(&store, plugin_of(state)->worker, box, target, rights, &why), &why);
    return 0;
}

/* box:get() takes all rights that the box holds, and returns a handle to each object. */
static int handle_get(lua_State *state) {
    struct plugin *plugin = plugin_of(state);
    uint64_t box = handle_at(state, 1), count, *vertex;
    tg_target row[MOST_IN_BOX];
    tg_denial why;
    charge(state, MOST_IN_BOX * COMMAND_STEPS);
    luaL_checkstack(state, MOST_IN_BOX + 4, NULL);
    done_or_raise(state, "get", tg_inspect(&store, plugin->worker, box, row, MOST_IN_BOX, &count, &why), &why);
    if (count > MOST_IN_BOX)
        count = MOST_IN_BOX;
    for (uint64_t at = 0; at < count; at++) {
        need_place(state);
        vertex = push_empty(state);
        done_or_raise(state, "get", tg_take(&store, plugin->worker, box, row[at].to, row[at].rights, &why), &why);
        *vertex = row[at].to;
        hold(plugin, *vertex);
    }
    return (int)count;
}

/* handle == other, because several handles may be to one object. */
static int handle_equal(lua_State *state) {
    const uint64_t *one = luaL_testudata(state, 1, handle_type), *other = luaL_testudata(state, 2, handle_type);
    lua_pushboolean(state, one != NULL && other != NULL && *one == *other);
    return 1;
}

/* tostring(handle), from the resource that the host keeps beside the vertex. */
static int handle_text(lua_State *state) {
    char text[KNOWN_ROOM];
    lua_pushstring(state, known_as(handle_at(state, 1), text, sizeof text));
    return 1;
}

/* Leaves a handle to a vertex that the worker holds since before the host was killed, by rising names, or nothing. */
static int receive_again(lua_State *state) {
    struct plugin *plugin = plugin_of(state);
    uint64_t *vertex;
    int at = 0;
    while (at < MOST_HELD && (plugin->held[at].vertex == NONE || plugin->held[at].handles > 0))
        at++;
    if (at == MOST_HELD)
        return 0;
    vertex = push_empty(state);
    *vertex = plugin->held[at].vertex;
    plugin->held[at].handles = 1;
    return 1;
}

/* receive() returns the handle that has waited longest in the inbox, or nil. Its place was taken when it was delivered. */
static int receive(lua_State *state) {
    struct plugin *plugin = plugin_of(state);
    uint64_t *vertex;
    if (plugin->waiting == 0)
        return receive_again(state);
    vertex = push_empty(state);
    *vertex = plugin->inbox[0];
    plugin->waiting--;
    memmove(plugin->inbox, plugin->inbox + 1, plugin->waiting * sizeof *plugin->inbox);
    return 1;
}

/* wait() ends the turn. */
static int wait_turn(lua_State *state) {
    return lua_yield(state, 0);
}

/* finish() ends the plug-in. */
static int finish(lua_State *state) {
    plugin_of(state)->is_over = true;
    return lua_yield(state, 0);
}

/* say(..) writes a line. A function of the script may run for each value, and fail, so the line is made before it is written.
   */
static int say(lua_State *state) {
    luaL_Buffer line;
    int count = lua_gettop(state);
    charge(state, 5 * COMMAND_STEPS);
    luaL_buffinit(state, &line);
    for (int at = 1; at <= count; at++) {
        luaL_tolstring(state, at, NULL);
        luaL_addvalue(&line);
        if (at < count)
            luaL_addchar(&line, ' ');
    }
    luaL_pushresult(&line);
    printf("  %s: %.*s\n", plugin_of(state)->name, MOST_LINE, lua_tostring(state, -1));
    return 0;
}

void open_handles(lua_State *state) {
    static const luaL_Reg functions[] = { { "make", make },     { "receive", receive }, { "wait", wait_turn },
                                          { "finish", finish }, { "say", say },         { NULL, NULL } };
    static const luaL_Reg methods[] = { { "send", handle_send }, { "read", handle_read }, { "rights", handle_rights },
                                        { "hand", handle_hand }, { "lose", handle_lose }, { "put", handle_put },
                                        { "get", handle_get },   { NULL, NULL } };
    static const luaL_Reg hidden[] = { { "__gc", handle_is_gone },
                                       { "__eq", handle_equal },
                                       { "__tostring", handle_text },
                                       { NULL, NULL } };
    lua_pushglobaltable(state);
    luaL_setfuncs(state, functions, 0);
    luaL_newmetatable(state, handle_type);
    luaL_setfuncs(state, hidden, 0);
    /* Methods are in a table of their own, so that a script can't call the finalizer. */
    luaL_newlib(state, methods);
    lua_setfield(state, -2, "__index");
    lua_settop(state, 0);
}
