/* Lua's own functions that a script gets.

   The hook runs only while Lua code runs, and never inside of a C function. So each function of this list takes a bounded time
   by itself. A function that isn't in the list is left out:

   - load, dofile, require, string.dump: bytecode can do anything to the host's memory.
   - getmetatable, debug: they lead to the metatable of handles.
   - string.find, match, gmatch, gsub: a pattern can take a time that grows with a power of its length.
   - table.move: it goes over a range of any length.
   - a metatable with __gc: finalizers run without a hook. With __mode: the collector may go over weak tables again and again.
   - coroutine: a script is a coroutine of the host's. os, io, package: they reach what the host doesn't guard. */
#include "host.h"
#include <lualib.h>

enum { MOST_REPEATED = 65536 };

/* setmetatable for metatables without __gc and __mode. Lua looks at __gc only here. It looks at __mode at each collection, so
   the metatable is a copy, which the script can't reach. */
static int set_metatable(lua_State *state) {
    static const char *const refused[] = { "__gc", "__mode" };
    luaL_checktype(state, 1, LUA_TTABLE);
    luaL_argexpected(state, lua_isnil(state, 2) || lua_istable(state, 2), 2, "nil or table");
    lua_settop(state, 2);
    if (lua_istable(state, 2)) {
        for (size_t at = 0; at < sizeof refused / sizeof *refused; at++) {
            lua_pushstring(state, refused[at]);
            if (lua_rawget(state, 2) != LUA_TNIL)
                return luaL_error(state, "setmetatable: a script's metatable has no %s", refused[at]);
            lua_pop(state, 1);
        }
        lua_newtable(state);
        for (lua_pushnil(state); lua_next(state, 2) != 0;) {
            charge(state, 1);
            lua_pushvalue(state, -2);
            lua_insert(state, -2);
            lua_rawset(state, 3);
        }
    }
    lua_setmetatable(state, 1);
    lua_settop(state, 1);
    return 1;
}

/* A function of Lua's table library, which is the upvalue, over tables without a metatable. So its length is the raw length,
   and it calls no function for an element. It charges the turn for each element. */
static int over_plain_table(lua_State *state) {
    luaL_checktype(state, 1, LUA_TTABLE);
    if (lua_getmetatable(state, 1))
        return luaL_argerror(state, 1, "a table without a metatable is expected");
    charge(state, 1 + (long)lua_rawlen(state, 1));
    lua_pushvalue(state, lua_upvalueindex(1));
    lua_insert(state, 1);
    lua_call(state, lua_gettop(state) - 1, LUA_MULTRET);
    return lua_gettop(state);
}

/* string.rep, which is the upvalue, with a limit on its count. Without one, an empty text repeated 2^60 times never ends. */
static int repeat(lua_State *state) {
    luaL_argcheck(state, luaL_checkinteger(state, 2) <= MOST_REPEATED, 2, "at most 65536 repetitions are possible");
    lua_pushvalue(state, lua_upvalueindex(1));
    lua_insert(state, 1);
    lua_call(state, lua_gettop(state) - 1, 1);
    return 1;
}

/* A library, and the functions of it that a script gets. Some are as they are in Lua, and others go through a guard. */
struct part {
    const char *name;
    lua_CFunction library;
    const char *const *as_they_are;
    const char *const *guarded;
    lua_CFunction guard;
};

/* Copies the functions with these names from the table at the top to the table below it, each through the guard unless that is
   NULL. */
static void copy(lua_State *state, const char *const *names, lua_CFunction guard) {
    for (; *names != NULL; names++) {
        lua_getfield(state, -1, *names);
        if (guard != NULL)
            lua_pushcclosure(state, guard, 1);
        lua_setfield(state, -3, *names);
    }
}

/* Leaves a new table at the top, with the functions of the part. */
static void push_part(lua_State *state, const struct part *part) {
    lua_newtable(state);
    lua_pushcfunction(state, part->library);
    lua_call(state, 0, 1);
    copy(state, part->as_they_are, NULL);
    copy(state, part->guarded, part->guard);
    lua_pop(state, 1);
}

/* Texts have methods, as in ("x"):rep(3). They are the functions of the table at the top, in the place of all that Lua has. */
static void give_to_texts(lua_State *state) {
    lua_pushliteral(state, "");
    lua_getmetatable(state, -1);
    lua_pushvalue(state, -3);
    lua_setfield(state, -2, "__index");
    lua_pop(state, 2);
}

void open_library(lua_State *state) {
    static const char *const none[] = { NULL };
    static const char *const of_base[] = { "assert", "error",  "ipairs", "next",     "pairs",    "pcall", "rawequal", "rawget",
                                           "rawlen", "rawset", "select", "tonumber", "tostring", "type",  "xpcall",   NULL };
    static const char *const of_math[] = { "abs", "ceil", "floor", "fmod", "max", "min", "modf", "sqrt", "tointeger", "ult",
                                           NULL };
    static const char *const of_string[] = { "byte", "char", "format", "len", "lower", "reverse", "sub", "upper", NULL };
    static const char *const repeated[] = { "rep", NULL };
    static const char *const of_table[] = { "concat", "insert", "remove", "sort", "unpack", NULL };
    static const struct part parts[] = { { "math", luaopen_math, of_math, none, NULL },
                                         { "table", luaopen_table, none, of_table, over_plain_table },
                                         { "string", luaopen_string, of_string, repeated, repeat } };
    static const struct part base = { "", luaopen_base, of_base, none, NULL };
    /* luaopen_base puts all of its functions into the global table, so another table takes its place. */
    push_part(state, &base);
    lua_pushcfunction(state, set_metatable);
    lua_setfield(state, -2, "setmetatable");
    lua_rawseti(state, LUA_REGISTRYINDEX, LUA_RIDX_GLOBALS);
    for (size_t at = 0; at < sizeof parts / sizeof *parts; at++) {
        push_part(state, &parts[at]);
        if (parts[at].library == luaopen_string)
            give_to_texts(state);
        lua_setglobal(state, parts[at].name);
    }
}
