/* What the host keeps beside the store: a resource for each object.

   The resource here is a text. In a real host it is a file, a window or a connection. The host frees it when the store no
   longer has the vertex. Names of vertices only grow, so the array of resources is always in order. */
#include "host.h"
#include <stdio.h>
#include <stdlib.h>
#include <string.h>

struct resource {
    uint64_t vertex;
    char name[NAME_ROOM], maker[NAME_ROOM];
    bool is_log;
};

static struct resource *resources;
static size_t count, room;

/* Orders names of vertices, and resources, whose first member is one. */
static int by_vertex(const void *one, const void *other) {
    uint64_t x = *(const uint64_t *)one, y = *(const uint64_t *)other;
    return (x > y) - (x < y);
}

bool make_room(void) {
    struct resource *larger;
    if (count < room)
        return true;
    larger = realloc(resources, (2 * room + 16) * sizeof *resources);
    if (larger == NULL)
        return false;
    resources = larger;
    room = 2 * room + 16;
    return true;
}

void keep(uint64_t vertex, const char *name, const char *maker, bool is_of_log) {
    struct resource *resource = &resources[count++];
    resource->vertex = vertex;
    resource->is_log = is_of_log;
    snprintf(resource->name, sizeof resource->name, "%s", name);
    snprintf(resource->maker, sizeof resource->maker, "%s", maker);
}

static struct resource *find(uint64_t vertex) {
    return count == 0 ? NULL : bsearch(&vertex, resources, count, sizeof *resources, by_vertex);
}

void rename_object(uint64_t vertex, const char *name, const char *maker) {
    struct resource *resource = find(vertex);
    if (resource == NULL)
        return;
    snprintf(resource->name, sizeof resource->name, "%s", name);
    snprintf(resource->maker, sizeof resource->maker, "%s", maker);
}

bool is_log(uint64_t vertex) {
    const struct resource *resource = find(vertex);
    return resource != NULL && resource->is_log;
}

const char *known_as(uint64_t vertex, char *text, size_t text_room) {
    const struct resource *resource = find(vertex);
    for (int at = 0; at < MOST_PLUGINS; at++)
        if (vertex != NONE && plugins[at].worker == vertex) {
            snprintf(text, text_room, "%s", plugins[at].name);
            return text;
        }
    if (vertex == HOST)
        snprintf(text, text_room, "the host");
    else if (resource != NULL)
        snprintf(text, text_room, "%s of %s", resource->name, resource->maker);
    else
        snprintf(text, text_room, "what is gone");
    return text;
}

size_t resource_count(void) {
    return count;
}

/* Frees the resources whose vertices aren't among the names, which are in order. */
static void free_gone(const uint64_t *names, size_t name_count) {
    size_t kept = 0;
    for (size_t at = 0; at < count; at++)
        if (bsearch(&resources[at].vertex, names, name_count, sizeof *names, by_vertex) != NULL)
            resources[kept++] = resources[at];
    count = kept;
    if (count == 0) {
        free(resources);
        resources = NULL;
        room = 0;
    }
}

uint64_t collect(void) {
    uint64_t left, name_count, *names;
    collect_states();
    must(tg_collect(&store, TG_FULL, &left), "tg_collect");
    names = malloc((size_t)left * sizeof *names);
    must(names == NULL ? TG_OUT_OF_MEMORY : TG_DONE, "the names of the vertices");
    must(tg_names(&store, names, (size_t)left, &name_count), "tg_names");
    qsort(names, (size_t)name_count, sizeof *names, by_vertex);
    free_gone(names, (size_t)name_count);
    free(names);
    return left;
}
