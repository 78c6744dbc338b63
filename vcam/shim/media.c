/* The graph of the media node: a sensor, whose one pad sends pictures to the one pad of the video node. It stands here, and not in
 * the daemon, because a program has it written behind several pointers of its own. */
#define _GNU_SOURCE
#include "shim.h"
#include <errno.h>
#include <linux/media.h>
#include <string.h>

/* One count for all, and the kind in the highest byte, as Linux numbers them. */
enum { SENSOR = 1, SOURCE = 0x1000002, NODE = 3, SINK = 0x1000004, DEVICE = 0x3000005, OF_DEVICE = 0x2000006, OF_PADS = 0x2000007 };
enum { FIXED = MEDIA_LNK_FL_ENABLED | MEDIA_LNK_FL_IMMUTABLE, MAJOR = 81 /* as stat() has it */ };
#define LENGTH(array) (sizeof array / sizeof *array)

static const struct media_v2_entity entities[] = {
    {.id = SENSOR, .name = "Tugosier sensor", .function = MEDIA_ENT_F_CAM_SENSOR},
    {.id = NODE, .name = "Tugosier video", .function = MEDIA_ENT_F_IO_V4L, .flags = MEDIA_ENT_FL_DEFAULT}};
static const struct media_v2_interface interfaces[] = {
    {.id = DEVICE, .intf_type = MEDIA_INTF_T_V4L_VIDEO, .devnode = {.major = MAJOR}}};
static const struct media_v2_pad pads[] = {{.id = SOURCE, .entity_id = SENSOR, .flags = MEDIA_PAD_FL_SOURCE},
                                           {.id = SINK, .entity_id = NODE, .flags = MEDIA_PAD_FL_SINK}};
static const struct media_v2_link links[] = {
    {.id = OF_DEVICE, .source_id = DEVICE, .sink_id = NODE, .flags = FIXED | MEDIA_LNK_FL_INTERFACE_LINK},
    {.id = OF_PADS, .source_id = SOURCE, .sink_id = SINK, .flags = FIXED}};
/* The link of the pads, and the pads, as they were told before there was a topology. */
static const struct media_link_desc link_desc = {
    {.entity = SENSOR, .flags = MEDIA_PAD_FL_SOURCE}, {.entity = NODE, .flags = MEDIA_PAD_FL_SINK}, .flags = FIXED};

/* Writes as many parts as there is room for; without a pointer the program asks for their number alone. */
static int put_parts(uint64_t to, uint32_t room, const void *parts, uint32_t count, size_t size) {
    if (to && copy_out((void *)(uintptr_t)to, parts, (room < count ? room : count) * size))
        return EFAULT;
    return to && room < count ? ENOSPC : 0;
}

static int topology_call(struct media_v2_topology *it) {
    int error = 0;
#define PUT(kind)                                                                                                                \
    error = error ? error : put_parts(it->ptr_##kind, it->num_##kind, kind, LENGTH(kind), sizeof *kind);                         \
    it->num_##kind = LENGTH(kind)
    PUT(entities);
    PUT(interfaces);
    PUT(pads);
    PUT(links);
    it->topology_version = 1;
    it->reserved1 = it->reserved2 = it->reserved3 = it->reserved4 = 0;
    return error;
}

/* The entity of an id, or the first one behind it; null where there is none. */
static const struct media_v2_entity *entity_of(uint32_t id) {
    uint32_t number = id & ~MEDIA_ENT_ID_FLAG_NEXT;
    for (size_t i = 0; i < LENGTH(entities); i++)
        if (id & MEDIA_ENT_ID_FLAG_NEXT ? entities[i].id > number : entities[i].id == number)
            return &entities[i];
    return 0;
}

static int entity_call(struct media_entity_desc *it) {
    const struct media_v2_entity *entity = entity_of(it->id);
    if (!entity)
        return EINVAL;
    *it = (struct media_entity_desc){.id = entity->id, .type = entity->function, .flags = entity->flags, .pads = 1};
    strcpy(it->name, entity->name);
    it->links = entity->id == SENSOR; /* those that leave it */
    it->dev.major = entity->id == NODE ? MAJOR : 0;
    return 0;
}

static int links_call(struct media_links_enum *it) {
    const struct media_v2_entity *entity = entity_of(it->entity);
    if (!entity)
        return EINVAL;
    int is_sensor = entity->id == SENSOR;
    if (it->pads && copy_out(it->pads, is_sensor ? &link_desc.source : &link_desc.sink, sizeof *it->pads))
        return EFAULT;
    if (it->links && is_sensor && copy_out(it->links, &link_desc, sizeof link_desc))
        return EFAULT;
    memset(it->reserved, 0, sizeof it->reserved);
    return 0;
}

int graph_call(uint32_t number, void *argument) {
    union {
        struct media_v2_topology topology;
        struct media_entity_desc entity;
        struct media_links_enum links;
    } it;
    if (number != MEDIA_IOC_G_TOPOLOGY && number != MEDIA_IOC_ENUM_ENTITIES && number != MEDIA_IOC_ENUM_LINKS)
        return ENOTTY;
    if (copy_in(&it, argument, _IOC_SIZE(number)))
        return EFAULT;
    int error = number == MEDIA_IOC_G_TOPOLOGY      ? topology_call(&it.topology)
                : number == MEDIA_IOC_ENUM_ENTITIES ? entity_call(&it.entity)
                                                    : links_call(&it.links);
    return error ? error : copy_out(argument, &it, _IOC_SIZE(number));
}
